/* What the benchmark's programs and the engines share. */
#include <stddef.h>
#include <stdint.h>
#include <time.h>

/* Nanoseconds, from some moment on. */
static inline double now(void)
{
    struct timespec t;
    clock_gettime(CLOCK_MONOTONIC, &t);
    return t.tv_sec * 1e9 + t.tv_nsec;
}

/* A query as text, in XPath 1.0 for the engines that compile it (NULL where that has no words for it), and as a table; reached has, for
   each start node x and each node y at x * n + y, whether y is reached from x. It is timed from one start. */
struct query {
    const char *text, *xpath;
    const uint16_t *table;
    size_t length;
    const uint8_t *reached;
    size_t start;
};

/* A query with variables and all its answers, count rows of one node for each variable. */
struct answers {
    const char *text;
    const uint16_t *table;
    size_t length;
    uint16_t columns;
    const uint16_t *due;
    size_t count;
};

/* An engine. It reads the document, or takes the shared table, once and compiles each query once; call is what is timed. */
struct engine {
    const char *name;
    void (*open)(const char *xml, const uint16_t *shared, size_t nodes);
    void (*compile)(const struct query *query);
    /* evaluates the query from the one node */
    void (*call)(size_t start);
    /* the nodes that the last call found, added to a set of bytes */
    void (*found)(uint8_t *set);
};

#ifdef __cplusplus
extern "C" {
#endif
extern const struct engine libxml2_engine, pugixml_engine, geznauri_engine, backwards_engine, reversed_engine, index_engine;
void give_up(const char *why);

/* Compares the engines on all queries, times them, and prints a table in Markdown (timing.c). */
void time_engines(const struct engine *const *engines, size_t engine_count, const struct query *queries, size_t query_count,
                  const char *xml, const uint16_t *shared, size_t n, int with_start);
#ifdef __cplusplus
}
#endif
