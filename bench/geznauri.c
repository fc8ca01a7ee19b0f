/* This engine, over its C boundary, for party 1: every call is lent the tables, and checks the tree and the query anew. Four times:
   queries; the same backwards, and forwards over the reversed query, which is made once; and the descendants with a tag by the index of
   the tree, which is made once. */
#include "bench.h"
#include "geznauri.h"

static const uint16_t *table;
static size_t count, last;
static const struct query *current;
static uint16_t next[256], tags[768];
static uint8_t from[256], to[256];
static gz_image_reply reply;

static void open_document(const char *xml, const uint16_t *tree, size_t n)
{
    (void)xml;
    table = tree;
    count = n;
}

static void compile(const struct query *query)
{
    current = query;
}

static void call(size_t start)
{
    from[last] = 0;
    from[start] = 1;
    last = start;
    reply = gz_forwards(table, 3 * count, 1, current->table, current->length, 0, NULL, 0, from, count, to, count);
}

static void found(uint8_t *set)
{
    if (reply.number != 0)
        give_up("this engine refuses a query");
    for (size_t y = 0; y < count; y++)
        set[y] |= to[y];
}

const struct engine geznauri_engine = {"this engine", open_document, compile, call, found};

/* The query that is asked backwards, while the one turned round is the current one. */
static const struct query *asked;

static void compile_backwards(const struct query *query)
{
    asked = query;
}

static void call_backwards(size_t start)
{
    from[last] = 0;
    from[start] = 1;
    last = start;
    reply = gz_backwards(table, 3 * count, 1, asked->table, asked->length, 0, NULL, 0, from, count, to, count);
}

const struct engine backwards_engine = {"this engine backwards", open_document, compile_backwards, call_backwards, found};

static uint16_t reversed[256];
static struct query turned;

static void compile_reversed(const struct query *query)
{
    gz_made_reply made = gz_reverse(query->table, query->length, 0, reversed, 256);
    if (made.number != 0)
        give_up("this engine does not reverse a query");
    turned.table = reversed;
    turned.length = made.count;
    current = &turned;
}

const struct engine reversed_engine = {"reversed, forwards", open_document, compile_reversed, call, found};

static void open_indexed(const char *xml, const uint16_t *tree, size_t n)
{
    open_document(xml, tree, n);
    if (gz_index(tree, 3 * n, 1, next, 256, tags, 768).number != 0)
        give_up("this engine refuses the tree");
}

/* The query is the step descendant with a tag. */
static void call_indexed(size_t start)
{
    reply = gz_descendants(table, 3 * count, 1, next, count, (uint16_t)start, current->table[3], to, count);
}

const struct engine index_engine = {"this engine by index", open_indexed, compile, call_indexed, found};
