/* Times the descendants with a tag, found by the index, beside the same step as a query: of this engine, and of the others
   (timing.c). Every engine is asked from every node first. */
#include "bench.h"
#include "tables.h"

static const struct engine *const engines[] = {&index_engine, &geznauri_engine, &libxml2_engine, &pugixml_engine};

int main(int argc, char **argv)
{
    if (argc != 2)
        give_up("the one argument is the document");
    time_engines(engines, sizeof engines / sizeof *engines, searches, sizeof searches / sizeof *searches, argv[1], shared, NODES, 1);
    return 0;
}
