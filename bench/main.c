/* Times the engines on the queries of tables.h, each from node 0 (timing.c). */
#include "bench.h"
#include "tables.h"

static const struct engine *const engines[] = {
#ifndef PEERS_ONLY
    &geznauri_engine,
#endif
    &libxml2_engine, &pugixml_engine};

int main(int argc, char **argv)
{
    if (argc != 2)
        give_up("the one argument is the document");
    time_engines(engines, sizeof engines / sizeof *engines, queries, sizeof queries / sizeof *queries, argv[1], shared, NODES, 0);
    return 0;
}
