/* Times engines on the same tree and queries, in turn, and compares what they find. First it asks every query from every node: an
   engine that does not find exactly the nodes of tables.h ends the run with status 1. Then it times one call from the query's
   start: the best of ROUNDS rounds of at least ROUND_NS, the engines taking turns. It prints a table in Markdown: nanoseconds a
   call, and how many times the first engine's they are. */
#include "bench.h"
#include <stdio.h>
#include <stdlib.h>
#include <string.h>

#define ROUNDS 7
#define ROUND_NS 2e7
#define MOST_ENGINES 4

void give_up(const char *why)
{
    fprintf(stderr, "bench: %s\n", why);
    exit(1);
}

static void compare(const struct engine *engine, const struct query *query, size_t n)
{
    for (size_t start = 0; start < n; start++) {
        uint8_t set[256] = {0};
        engine->call(start);
        engine->found(set);
        if (memcmp(set, query->reached + start * n, n) != 0) {
            fprintf(stderr, "bench: %s differs on %s from node %zu\n", engine->name, query->text, start);
            exit(1);
        }
    }
}

/* Nanoseconds a call, in one round. */
static double round_of(const struct engine *engine, size_t start)
{
    double began = now(), took;
    size_t calls = 0;
    do {
        for (int i = 0; i < 16; i++)
            engine->call(start);
        calls += 16;
        took = now() - began;
    } while (took < ROUND_NS);
    return took / calls;
}

static void measure(const struct engine *const *engines, size_t engine_count, const struct query *query, size_t n, double *best)
{
    for (size_t i = 0; i < engine_count; i++) {
        engines[i]->compile(query);
        compare(engines[i], query, n);
        best[i] = 1e18;
    }
    for (int round = 0; round < ROUNDS; round++)
        for (size_t i = 0; i < engine_count; i++) {
            double ns = round_of(engines[i], query->start);
            if (ns < best[i])
                best[i] = ns;
        }
}

void time_engines(const struct engine *const *engines, size_t engine_count, const struct query *queries, size_t query_count,
                  const char *xml, const uint16_t *shared, size_t n, int with_start)
{
    printf(with_start ? "| query, %zu nodes | from | found" : "| query, %zu nodes | found", n);
    for (size_t i = 0; i < engine_count; i++) {
        engines[i]->open(xml, shared, n);
        printf(i ? " | %s, ns | ratio" : " | %s, ns", engines[i]->name);
    }
    printf(with_start ? " |\n|---|---:|---:" : " |\n|---|---:");
    for (size_t i = 0; i < engine_count; i++)
        printf(i ? "|---:|---:" : "|---:");
    printf("|\n");
    for (const struct query *query = queries; query < queries + query_count; query++) {
        double best[MOST_ENGINES];
        size_t found = 0;
        measure(engines, engine_count, query, n, best);
        for (size_t y = 0; y < n; y++)
            found += query->reached[query->start * n + y];
        printf("| `%s` |", query->text);
        if (with_start)
            printf(" %zu |", query->start);
        printf(" %zu | %.0f", found, best[0]);
        for (size_t i = 1; i < engine_count; i++)
            printf(" | %.0f | %.*f", best[i], best[i] < best[0] / 10 ? 2 : 1, best[i] / best[0]);
        printf(" |\n");
        fflush(stdout);
    }
}
