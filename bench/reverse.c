/* Times queries turned round. First what reaches a node: backwards over a query, and forwards over the reversed query, beside the other
   engines, which are lent the reversed query in XPath 1.0 (timing.c). Every engine is asked from every node first. Then the making of
   the reversed query, gz_reverse beside the check that is a part of it, gz_check_query, and beside libxml2's xmlXPathCompile of that XPath:
   the best of ROUNDS rounds of at least ROUND_NS, in turn. */
#include "bench.h"
#include "geznauri.h"
#include "tables.h"
#include <libxml/xpath.h>
#include <stdio.h>

#define ROUNDS 7
#define ROUND_NS 2e7
#define LENGTH(a) (sizeof(a) / sizeof *(a))

static const struct engine *const engines[] = {&backwards_engine, &reversed_engine, &libxml2_engine, &pugixml_engine};

static uint16_t out[256];
static size_t made;

static void check(const struct query *query)
{
    if (gz_check_query(query->table, query->length, 0).number != 0)
        give_up("this engine refuses a query");
}

static void reverse(const struct query *query)
{
    gz_made_reply reply = gz_reverse(query->table, query->length, 0, out, LENGTH(out));
    if (reply.number != 0)
        give_up("this engine does not reverse a query");
    made = reply.count;
}

static void compile(const struct query *query)
{
    xmlXPathCompExprPtr compiled = xmlXPathCompile((const xmlChar *)query->xpath);
    if (!compiled)
        give_up("libxml2 refuses a query");
    xmlXPathFreeCompExpr(compiled);
}

/* Nanoseconds a call, in one round. */
static double round_of(void (*call)(const struct query *), const struct query *query)
{
    double began = now(), took;
    size_t calls = 0;
    do {
        for (int i = 0; i < 16; i++)
            call(query);
        calls += 16;
        took = now() - began;
    } while (took < ROUND_NS);
    return took / calls;
}

static void time_making(const struct query *query)
{
    void (*const calls[])(const struct query *) = {reverse, check, compile};
    double best[LENGTH(calls)];
    for (size_t i = 0; i < LENGTH(calls); i++)
        best[i] = 1e18;
    for (int round = 0; round < ROUNDS; round++)
        for (size_t i = 0; i < LENGTH(calls); i++) {
            double ns = round_of(calls[i], query);
            if (ns < best[i])
                best[i] = ns;
        }
    printf("| `%s` | %zu | %zu | %.0f | %.0f | %.0f | %.1f |\n", query->text, query->length / 4, made / 4, best[0], best[1], best[2],
           best[2] / best[0]);
    fflush(stdout);
}

int main(int argc, char **argv)
{
    if (argc != 2)
        give_up("the one argument is the document");
    time_engines(engines, LENGTH(engines), turns, LENGTH(turns), argv[1], shared, NODES, 1);
    printf("\n| query | entries | reversed | gz_reverse, ns | gz_check_query, ns | libxml2 %s compiles, ns | ratio |\n", LIBXML_DOTTED_VERSION);
    printf("|---|---:|---:|---:|---:|---:|---:|\n");
    for (size_t k = 0; k < LENGTH(turns); k++)
        time_making(&turns[k]);
    return 0;
}
