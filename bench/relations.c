/* Times all pairs of a query on one tree: gz_pairs_bits beside gz_pairs and, where XPath 1.0 has words for the query, beside the other
   engines, which are asked from every node in turn. First each must find exactly the pairs of tables.h; one difference ends the run
   with status 1. Then it times each: the best of ROUNDS rounds of at least ROUND_NS, taking turns. It prints a table in Markdown:
   microseconds for all pairs, and how many times those of gz_pairs_bits they are. Then the same of gz_pack and gz_unpack, beside plain
   loops in C that check nothing. */
#include "bench.h"
#include "geznauri.h"
#include "tables.h"
#include <stdio.h>
#include <stdlib.h>
#include <string.h>

#define ROUNDS 7
#define ROUND_NS 2e7
#define WAYS 4
#define LENGTH(a) (sizeof(a) / sizeof *(a))

static const struct engine *const peers[] = {&libxml2_engine, &pugixml_engine};
static const struct query *current;
static uint8_t cells[NODES * NODES], turned_cells[NODES * NODES];
static uint64_t words[4 * NODES], due[4 * NODES];

static void in_bits(void)
{
    if (gz_pairs_bits(shared, 3 * NODES, 1, current->table, current->length, 0, NULL, 0, words, 4 * NODES).number != 0)
        give_up("this engine refuses pairs in bits");
}

static void in_bytes(void)
{
    if (gz_pairs(shared, 3 * NODES, 1, current->table, current->length, 0, NULL, 0, cells, sizeof cells).number != 0)
        give_up("this engine refuses pairs");
}

static void from_every(const struct engine *engine)
{
    for (size_t start = 0; start < NODES; start++)
        engine->call(start);
}

static void libxml2(void)
{
    from_every(&libxml2_engine);
}

static void pugixml(void)
{
    from_every(&pugixml_engine);
}

/* The plain ways. */
static void pack_plainly(void)
{
    memset(words, 0, sizeof words);
    for (size_t x = 0; x < NODES; x++)
        for (size_t y = 0; y < NODES; y++)
            words[4 * x + y / 64] |= (uint64_t)current->reached[x * NODES + y] << y % 64;
}

static void unpack_plainly(void)
{
    for (size_t x = 0; x < NODES; x++)
        for (size_t y = 0; y < NODES; y++)
            turned_cells[x * NODES + y] = due[4 * x + y / 64] >> y % 64 & 1;
}

static void pack(void)
{
    if (gz_pack(NODES, current->reached, sizeof cells, words, 4 * NODES).number != 0)
        give_up("this engine refuses bytes");
}

static void unpack(void)
{
    if (gz_unpack(NODES, due, 4 * NODES, turned_cells, sizeof turned_cells).number != 0)
        give_up("this engine refuses bits");
}

static void same(bool holds, const char *what)
{
    if (!holds) {
        fprintf(stderr, "bench: %s differs on %s\n", what, current->text);
        exit(1);
    }
}

/* Nanoseconds a call, in one round. */
static double round_of(void (*run)(void))
{
    double began = now(), took;
    size_t calls = 0;
    do {
        run();
        calls++;
        took = now() - began;
    } while (took < ROUND_NS);
    return took / calls;
}

/* The best microseconds of some ways, in turn; a way that is NULL is left out. */
static void measure(void (*const *ways)(void), size_t count, double *best)
{
    for (size_t i = 0; i < count; i++)
        best[i] = 1e18;
    for (int round = 0; round < ROUNDS; round++)
        for (size_t i = 0; i < count; i++)
            if (ways[i]) {
                double us = round_of(ways[i]) / 1e3;
                if (us < best[i])
                    best[i] = us;
            }
}

static void compare_peer(const struct engine *engine)
{
    engine->compile(current);
    for (size_t start = 0; start < NODES; start++) {
        uint8_t set[256] = {0};
        engine->call(start);
        engine->found(set);
        same(memcmp(set, current->reached + start * NODES, NODES) == 0, engine->name);
    }
}

/* Chooses a query, and answers how many pairs are due, which stand as bits in due then. */
static size_t choose(const struct query *query)
{
    size_t pairs = 0;
    current = query;
    pack_plainly();
    memcpy(due, words, sizeof due);
    for (size_t i = 0; i < sizeof cells; i++)
        pairs += query->reached[i];
    return pairs;
}

static void time_query(const struct query *query)
{
    void (*const ways[WAYS])(void) = {in_bits, in_bytes, query->xpath ? libxml2 : NULL, query->xpath ? pugixml : NULL};
    double best[WAYS];
    size_t pairs = choose(query);
    memset(words, 7, sizeof words);
    in_bits();
    same(memcmp(words, due, sizeof due) == 0, "gz_pairs_bits");
    in_bytes();
    same(memcmp(cells, query->reached, sizeof cells) == 0, "gz_pairs");
    for (size_t i = 0; query->xpath && i < LENGTH(peers); i++)
        compare_peer(peers[i]);
    measure(ways, WAYS, best);
    printf("| `%s` | %zu | %.1f", query->text, pairs, best[0]);
    for (size_t i = 1; i < WAYS; i++)
        if (ways[i])
            printf(" | %.1f | %.1f", best[i], best[i] / best[0]);
        else
            printf(" | – | –");
    printf(" |\n");
    fflush(stdout);
}

static void time_turning(const struct query *query)
{
    void (*const ways[WAYS])(void) = {pack, pack_plainly, unpack, unpack_plainly};
    double best[WAYS];
    size_t pairs = choose(query);
    memset(words, 7, sizeof words);
    pack();
    same(memcmp(words, due, sizeof due) == 0, "gz_pack");
    unpack();
    same(memcmp(turned_cells, query->reached, sizeof turned_cells) == 0, "gz_unpack");
    measure(ways, WAYS, best);
    printf("| `%s` | %zu | %.1f | %.1f | %.1f | %.1f | %.1f | %.1f |\n", query->text, pairs, best[0], best[1], best[1] / best[0], best[2],
           best[3], best[3] / best[2]);
    fflush(stdout);
}

int main(int argc, char **argv)
{
    if (argc != 2)
        give_up("the one argument is the document");
    (void)queries, (void)searches, (void)due_next, (void)due_tags;
    printf("| all pairs, %d nodes | pairs | in bits, µs | in bytes, µs | ratio", NODES);
    for (size_t i = 0; i < LENGTH(peers); i++) {
        peers[i]->open(argv[1], shared, NODES);
        printf(" | %s, µs | ratio", peers[i]->name);
    }
    printf(" |\n|---|---:|---:|---:|---:|---:|---:|---:|---:|\n");
    for (size_t k = 0; k < LENGTH(whole); k++)
        time_query(&whole[k]);
    printf("\n| relation, %d nodes | pairs | gz_pack, µs | plain C, µs | ratio | gz_unpack, µs | plain C, µs | ratio |\n", NODES);
    printf("|---|---:|---:|---:|---:|---:|---:|---:|\n");
    for (size_t k = 0; k < LENGTH(whole); k++)
        if (whole[k].length == 4 && (whole[k].table[1] == 1 || whole[k].table[1] == 7))
            time_turning(&whole[k]);
    return 0;
}
