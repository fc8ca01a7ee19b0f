/* Times what every call pays for a shared table of 256 nodes: its check, and the tree that a party sees. First gz_seen must make exactly
   the trees of tables.h; one difference ends the run with status 1. Then it times gz_check_tree, gz_seen, and the smallest query, `.` from
   one node, over the benchmark's tree with all nodes common and with half of them hidden: the best of ROUNDS rounds of at least ROUND_NS,
   taking turns. It prints a table in Markdown: nanoseconds a call. */
#include "bench.h"
#include "geznauri.h"
#include "tables.h"
#include <stdio.h>
#include <stdlib.h>
#include <string.h>

#define ROUNDS 15
#define ROUND_NS 2e7
#define LENGTH(a) (sizeof(a) / sizeof *(a))

static const struct shared {
    const char *what;
    const uint16_t *table, *seen;
    size_t nodes;
} tables[] = {{"all common", shared, tree, NODES}, {"half hidden", halved, due_seen, LENGTH(due_seen) / 2}};

static const struct shared *current;
static uint16_t table[512];

static void fail(const char *what)
{
    fprintf(stderr, "bench: %s\n", what);
    exit(1);
}

static void check(void)
{
    if (gz_check_tree(current->table, 3 * NODES).number != 0)
        fail("this engine refuses the table");
}

static void see(void)
{
    if (gz_seen(current->table, 3 * NODES, 1, table, LENGTH(table)).number != 0)
        fail("this engine refuses the table");
}

static void stay(void)
{
    static const uint16_t dot[] = {0, 0, 0, 65534};
    static const uint8_t from[NODES] = {1};
    static uint8_t to[NODES];
    size_t n = current->nodes;
    if (gz_forwards(current->table, 3 * NODES, 1, dot, LENGTH(dot), 0, NULL, 0, from, n, to, n).count != 1)
        fail("this engine finds another node");
}

/* Nanoseconds a call, in one round. */
static double round_of(void (*run)(void))
{
    double began = now(), took;
    size_t calls = 0;
    do {
        for (int i = 0; i < 64; i++)
            run();
        calls += 64;
        took = now() - began;
    } while (took < ROUND_NS);
    return took / calls;
}

int main(void)
{
    static void (*const ways[])(void) = {check, see, stay};
    double best[LENGTH(tables)][LENGTH(ways)];
    for (size_t i = 0; i < LENGTH(tables); i++) {
        current = &tables[i];
        see();
        if (memcmp(table, current->seen, 4 * current->nodes) != 0)
            fail("this engine sees another tree");
        for (size_t k = 0; k < LENGTH(ways); k++)
            best[i][k] = 1e18;
    }
    for (int round = 0; round < ROUNDS; round++)
        for (size_t i = 0; i < LENGTH(tables); i++)
            for (size_t k = 0; k < LENGTH(ways); k++) {
                current = &tables[i];
                double ns = round_of(ways[k]);
                if (ns < best[i][k])
                    best[i][k] = ns;
            }
    printf("| shared table, %d nodes | seen | gz_check_tree, ns | gz_seen, ns | gz_forwards of `.`, ns |\n", NODES);
    printf("|---|---:|---:|---:|---:|\n");
    for (size_t i = 0; i < LENGTH(tables); i++)
        printf("| %s | %zu | %.0f | %.0f | %.0f |\n", tables[i].what, tables[i].nodes, best[i][0], best[i][1], best[i][2]);
    return 0;
}
