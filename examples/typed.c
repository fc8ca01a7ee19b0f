/* Reads a typed query and evaluates it over the teaching warehouse, whose tags are named store, hall, bay and pallet. From the
   repository's root, once ./build has made the library:

       cc -I include examples/typed.c target/staticlib/libterminal.a -o target/typed
       target/typed 'descendant::bay[. is $0]/child::pallet[. is $1]'

   A query with variables prints its answers, a row a line; one without prints the nodes that it reaches from the root. A text that
   is refused prints a mark below the place and the number. */
#include "geznauri.h"
#include <stdio.h>
#include <string.h>

/* parent, tag and owner of each node; all are common, so that either party sees all of them */
static const uint16_t tree[] = {65535, 1, 0, 0, 2, 0, 1, 3, 0, 1, 3, 0, 0, 2, 0, 4, 3, 0};
static const uint8_t house[] = "\5store\4hall\3bay", site[] = "\6pallet";
#define NODES 6
#define PARTY 1

static void print_answers(const uint16_t *query, size_t length, uint16_t columns)
{
    gz_cursor cursor = {0};
    uint16_t rows[3 * 64];
    gz_page_reply page;
    do {
        page = gz_page(tree, 3 * NODES, PARTY, query, length, columns, &cursor, rows, columns * 64);
        for (size_t i = 0; i < page.count * columns; i++)
            printf("%u%c", rows[i], (i + 1) % columns == 0 ? '\n' : ' ');
    } while (page.more);
}

static void print_reached(const uint16_t *query, size_t length)
{
    static const uint8_t root[NODES] = {1};
    uint8_t reached[NODES];
    gz_forwards(tree, 3 * NODES, PARTY, query, length, 0, NULL, 0, root, NODES, reached, NODES);
    for (unsigned node = 0; node < NODES; node++)
        if (reached[node])
            printf("%u\n", node);
}

int main(int argc, char **argv)
{
    uint16_t query[256]; /* room for every table */
    if (argc != 2) {
        fprintf(stderr, "the one argument is a query\n");
        return 2;
    }
    gz_read_reply r = gz_read((const uint8_t *)argv[1], strlen(argv[1]), house, sizeof house - 1, site, sizeof site - 1, query, 256);
    if (r.number != 0) {
        printf("%s\n%*s^ %u\n", argv[1], r.place, "", r.number);
        return 1;
    }
    /* What is read is always accepted, so that no call below is refused. */
    if (r.columns == 0)
        print_reached(query, r.count);
    else
        print_answers(query, r.count, r.columns);
    return 0;
}
