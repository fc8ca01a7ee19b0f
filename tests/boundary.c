/* Calls every function of include/geznauri.h as a C program does: with sound tables and, for each number of refusal, with a
   damaged one. Most tables are of the teaching warehouse, and their results are worked out by hand; quick pages are held against
   pages besides, and reversed queries against what is typed for them and against the queries. Tree tables are written with two numbers a
   node where every node is common, and lent to party 1; two firms over one table, and reversed queries, come last. Buffers stand in memory
   that is filled with a pattern, and the whole of it is compared. Prints what differs; the status is 1 if anything does. */
#include "geznauri.h"
#include <stdio.h>
#include <string.h>

_Static_assert(sizeof(gz_reply) == 4 && offsetof(gz_reply, number) == 0 && offsetof(gz_reply, place) == 2, "gz_reply");
_Static_assert(sizeof(gz_image_reply) == 16 && offsetof(gz_image_reply, number) == 0 && offsetof(gz_image_reply, place) == 2, "gz_image_reply");
_Static_assert(offsetof(gz_image_reply, count) == 8, "gz_image_reply");
_Static_assert(sizeof(gz_made_reply) == 16 && offsetof(gz_made_reply, number) == 0 && offsetof(gz_made_reply, place) == 2, "gz_made_reply");
_Static_assert(offsetof(gz_made_reply, count) == 8, "gz_made_reply");
_Static_assert(sizeof(gz_page_reply) == 24 && offsetof(gz_page_reply, number) == 0 && offsetof(gz_page_reply, place) == 2, "gz_page_reply");
_Static_assert(offsetof(gz_page_reply, count) == 8 && offsetof(gz_page_reply, more) == 16, "gz_page_reply");
_Static_assert(sizeof(gz_quick_reply) == 32 && offsetof(gz_quick_reply, number) == 0 && offsetof(gz_quick_reply, place) == 2, "gz_quick_reply");
_Static_assert(offsetof(gz_quick_reply, count) == 8 && offsetof(gz_quick_reply, more) == 16, "gz_quick_reply");
_Static_assert(offsetof(gz_quick_reply, evaluations) == 24, "gz_quick_reply");
_Static_assert(sizeof(gz_read_reply) == 24 && offsetof(gz_read_reply, number) == 0 && offsetof(gz_read_reply, place) == 2, "gz_read_reply");
_Static_assert(offsetof(gz_read_reply, count) == 8 && offsetof(gz_read_reply, columns) == 16, "gz_read_reply");
_Static_assert(sizeof(gz_index_reply) == 24 && offsetof(gz_index_reply, number) == 0 && offsetof(gz_index_reply, place) == 2, "gz_index_reply");
_Static_assert(offsetof(gz_index_reply, next) == 8 && offsetof(gz_index_reply, tags) == 16, "gz_index_reply");
_Static_assert(sizeof(gz_cursor) == 8 && offsetof(gz_cursor, begun) == 0 && offsetof(gz_cursor, last) == 2, "gz_cursor");
_Static_assert(sizeof(gz_part) == 16 && offsetof(gz_part, start) == 0 && offsetof(gz_part, length) == 8, "gz_part");
_Static_assert(sizeof(bool) == 1 && sizeof(size_t) == 8, "bool and size_t");
#if GZ_VERSION_MAJOR != 6 || GZ_VERSION_MINOR < 1
#error "this program is written to version 6.1 of the header"
#endif

#define PATTERN 0xA5
#define MARGIN 16 /* elements of the pattern before and behind a buffer */
#define LENGTH(a) (sizeof(a) / sizeof *(a))
#define SLICE(a) a, LENGTH(a)
#define NUMBERS(...) (const uint16_t[]){__VA_ARGS__}, sizeof((const uint16_t[]){__VA_ARGS__}) / sizeof(uint16_t)
#define NOTHING NULL, 0

/* Entries of no, one and two operands. */
#define STEP(axis, tag) 0, axis, 0, tag
#define STAR 65535
#define ANY_NODE 65534
#define SELF STEP(0, ANY_NODE)
#define PARENT STEP(2, ANY_NODE)
#define BELOW STEP(11, ANY_NODE)
#define ONE(kind, left) kind, left, 0, 0
#define TWO(kind, left, right) kind, left, right, 0

static int tried, failed;

static void expect(bool ok, const char *function, const char *what, const char *of)
{
    tried++;
    if (!ok) {
        printf("%s: %s: wrong %s\n", function, what, of);
        failed++;
    }
}

static const uint16_t warehouse[] = {65535, 1, 0, 2, 1, 3, 1, 3, 0, 2, 4, 3};
/* the same below a document node, so that each node's number is one higher */
static const uint16_t document[] = {65535, 65534, 0, 1, 1, 2, 2, 3, 2, 3, 1, 2, 5, 3};

/* descendant::2[. is $0]/child::3[. is $1], the bays with their pallets */
static const uint16_t pallets[] = {0, 5, 0, 2, 12, 0, 0, 0, 5, 0, 1, 0, 0, 1, 0, 3, 12, 1, 0, 0, 5, 3, 4, 0, 1, 2, 5, 0};
/* child::2[child::3 and not(right::*)] */
static const uint16_t last_bay[] = {0, 1, 0, 2, 0, 1, 0, 3, 8, 1, 0, 0, 0, 3, 0, 65535, 8, 3, 0, 0, 9, 4, 0, 0, 10, 2, 5, 0, 5, 0, 6, 0};
/* the bays as what a star leads to from the root, of child::*[. is $0]; and .[. is $0][child::3 same $1], the bays with their pallets */
static const uint16_t under_star[] = {STEP(1, STAR), ONE(12, 0), TWO(5, 0, 1), ONE(13, 2), STEP(0, 2), TWO(1, 3, 4), ONE(7, 5)};
static const uint16_t under_same[] = {SELF, ONE(12, 0), TWO(5, 0, 1), STEP(1, 3), ONE(6, 1), TWO(14, 3, 4), TWO(5, 2, 5)};
static const uint16_t child[] = {0, 1, 0, 65535};
static const uint16_t child_3[] = {0, 1, 0, 3};
static const uint16_t following[] = {0, 7, 0, 65535};

/* A shared tree table, and the party that it is lent to; which node the party sees is worked out where it is written. */
struct shared {
    uint16_t numbers[3 * 257 + 1];
    size_t length;
    uint16_t party;
};
#define TABLE_OF(t) ((t).length == 0 ? NULL : (t).numbers), (t).length
#define SHARED(t) TABLE_OF(t), (t).party

/* Every node common: owner 0 is laid over a table of two numbers a node. A number too many stays one. */
static struct shared common(const uint16_t *table, size_t length)
{
    struct shared t = {.party = 1};
    for (size_t i = 0; i < length; i++) {
        t.numbers[t.length++] = table[i];
        if (i % 2 == 1)
            t.numbers[t.length++] = 0;
    }
    return t;
}

/* Three numbers a node. */
static struct shared shared_with(uint16_t party, const uint16_t *table, size_t length)
{
    struct shared t = {.length = length, .party = party};
    if (length != 0)
        memcpy(t.numbers, table, length * sizeof *table);
    return t;
}

/* The seen tree that is due, where a call is accepted. */
static void sees(const char *what, struct shared t, size_t room, uint16_t number, uint16_t place, const uint16_t *seen, size_t seen_len)
{
    uint16_t memory[MARGIN + 600 + MARGIN], wanted[LENGTH(memory)];
    memset(memory, PATTERN, sizeof memory);
    memset(wanted, PATTERN, sizeof wanted);
    if (number == 0)
        memcpy(wanted + MARGIN, seen, seen_len * sizeof *seen);
    gz_made_reply r = gz_seen(SHARED(t), room == 0 ? NULL : memory + MARGIN, room);
    expect(r.number == number && r.place == place, "gz_seen", what, "reply");
    expect(r.count == (number == 0 ? seen_len : 0), "gz_seen", what, "count");
    expect(memcmp(memory, wanted, sizeof memory) == 0, "gz_seen", what, "buffer");
}

/* The checks of tables. */

/* A table that is common to both parties: each sees all of it. */
static void tree(const char *what, const uint16_t *table, size_t length, uint16_t number, uint16_t place)
{
    struct shared t = common(table, length);
    gz_reply r = gz_check_tree(TABLE_OF(t));
    expect(r.number == number && r.place == place, "gz_check_tree", what, "reply");
    for (t.party = 1; t.party <= 2; t.party++)
        sees(what, t, 600, number, place, table, length);
}

static void trees(void)
{
    uint16_t flat[2 * 257] = {65535, 0};
    tree("the warehouse", SLICE(warehouse), 0, 0);
    tree("one node", NUMBERS(65535, 65533), 0, 0);
    tree("256 nodes", flat, 512, 0, 0);
    tree("257 nodes", flat, 514, 5, 0);
    tree("no nodes", NOTHING, 5, 0);
    tree("half a node", warehouse, 11, 5, 0);
    tree("a root with a parent", NUMBERS(0, 1), 6, 0);
    tree("node 1 its own parent", NUMBERS(65535, 1, 1, 2), 6, 1);
    tree("a parent of another branch", NUMBERS(65535, 1, 0, 2, 1, 3, 1, 3, 0, 2, 2, 3), 6, 5);
    tree("tag 65534", NUMBERS(65535, 1, 0, 65534, 1, 65535), 7, 1);
    tree("a document node", SLICE(document), 0, 0);
    tree("a document node alone", NUMBERS(65535, 65534), 0, 0);
    tree("two document nodes", NUMBERS(65535, 65534, 0, 65534), 7, 1);
    tree("a document node and tag 65535", NUMBERS(65535, 65534, 0, 1, 0, 65535), 7, 2);
    tree("tag 65535 at node 0", NUMBERS(65535, 65535, 0, 65534), 7, 0);
    tree("parents before tags", NUMBERS(65535, 65535, 0, 2, 2, 3), 6, 2);
}

/* The reversed query that is due, where a call is accepted. */
static void reversing(const char *what, const uint16_t *query, size_t query_len, uint16_t columns, size_t room, uint16_t number,
                      uint16_t place, const uint16_t *table, size_t table_len)
{
    uint16_t memory[MARGIN + 300 + MARGIN], wanted[LENGTH(memory)];
    memset(memory, PATTERN, sizeof memory);
    memset(wanted, PATTERN, sizeof wanted);
    if (table_len != 0)
        memcpy(wanted + MARGIN, table, table_len * sizeof *table);
    gz_made_reply r = gz_reverse(query, query_len, columns, room == 0 ? NULL : memory + MARGIN, room);
    expect(r.number == number && r.place == place, "gz_reverse", what, "reply");
    expect(r.count == table_len, "gz_reverse", what, "count");
    expect(memcmp(memory, wanted, sizeof memory) == 0, "gz_reverse", what, "buffer");
}

/* What the check refuses is not reversed either, whatever the room. */
static void query(const char *what, const uint16_t *table, size_t length, uint16_t columns, uint16_t number, uint16_t place)
{
    gz_reply r = gz_check_query(table, length, columns);
    expect(r.number == number && r.place == place, "gz_check_query", what, "reply");
    for (size_t room = 0; number != 0 && room <= 300; room += 100)
        reversing(what, table, length, columns, room, number, place, NOTHING);
}

static void queries(void)
{
    /* child::* and 64 times 'from the root' */
    uint16_t nested[4 * 65] = {0, 1, 0, 65535};
    for (uint16_t e = 1; e < 65; e++) {
        nested[4 * e] = 7;
        nested[4 * e + 1] = e - 1;
    }
    query("bays with pallets", SLICE(pallets), 2, 0, 0);
    query("a variable more", SLICE(pallets), 3, 0, 0);
    query("no variables", SLICE(last_bay), 0, 0, 0);
    query("64 entries", nested, 256, 0, 0, 0);
    query("65 entries", nested, 260, 0, 8, 0);
    for (uint16_t e = 1; e < 65; e++)
        nested[4 * e] = 13;
    query("64 entries, stars", nested, 256, 0, 0, 0);
    query("65 entries, stars", nested, 260, 0, 8, 0);
    query("no entries", NOTHING, 0, 8, 0);
    query("half an entry", child, 2, 0, 8, 0);
    query("4 variables", SLICE(pallets), 4, 9, 0);
    query("kind 13", NUMBERS(STEP(1, 2), ONE(13, 0)), 0, 0, 0);
    query("kind 14", NUMBERS(SELF, STEP(1, 2), STEP(1, 3), TWO(14, 1, 2), TWO(5, 0, 3)), 0, 0, 0);
    for (uint32_t kind = 15; kind < 65536; kind = kind < 300 ? kind + 1 : 3 * kind) {
        query("a kind above 14", NUMBERS(STEP(1, 2), ONE((uint16_t)kind, 0)), 0, 10, 1);
        query("a kind above 14, before all else", NUMBERS(STEP(13, 2), TWO((uint16_t)kind, 9, 9)), 0, 10, 1);
    }
    query("kind 65535", NUMBERS(ONE(13, 0), ONE(65535, 0)), 0, 10, 1);
    query("a star's right field", NUMBERS(STEP(1, 2), TWO(13, 0, 1)), 0, 11, 1);
    query("a star's tag", NUMBERS(STEP(1, 2), 13, 0, 0, 65535), 0, 11, 1);
    query("a tag of same", NUMBERS(SELF, SELF, SELF, 14, 1, 2, 1, TWO(5, 0, 3)), 0, 11, 3);
    query("a star of itself", NUMBERS(STEP(1, 2), ONE(13, 1)), 0, 12, 1);
    query("a star of a later path", NUMBERS(ONE(13, 1), SELF), 0, 12, 0);
    query("same, a later path on the left", NUMBERS(SELF, TWO(14, 2, 0), SELF, TWO(5, 2, 1)), 0, 12, 1);
    query("same, a later path on the right", NUMBERS(SELF, TWO(14, 0, 1), SELF, TWO(5, 2, 1)), 0, 12, 1);
    query("a star of a node expression", NUMBERS(ONE(12, 0), ONE(13, 0)), 1, 13, 1);
    query("a star of a same", NUMBERS(SELF, SELF, TWO(14, 0, 1), ONE(13, 2)), 0, 13, 3);
    query("same, a node expression on the left", NUMBERS(SELF, ONE(12, 0), SELF, TWO(14, 1, 2), TWO(5, 0, 3)), 1, 13, 3);
    query("same, a node expression on the right", NUMBERS(SELF, ONE(12, 0), SELF, TWO(14, 2, 1), TWO(5, 0, 3)), 1, 13, 3);
    query("some of a same", NUMBERS(SELF, SELF, SELF, TWO(14, 1, 2), ONE(8, 3), TWO(5, 0, 4)), 0, 13, 4);
    query("not of a star", NUMBERS(SELF, SELF, ONE(13, 1), ONE(9, 2), TWO(5, 0, 3)), 0, 13, 3);
    query("a filter by a star", NUMBERS(SELF, SELF, ONE(13, 1), TWO(5, 0, 2)), 0, 13, 3);
    query("a filter of a same", NUMBERS(SELF, SELF, TWO(14, 0, 1), ONE(12, 0), TWO(5, 2, 3)), 1, 13, 4);
    query("a path in a same and elsewhere", NUMBERS(SELF, SELF, TWO(14, 0, 1), TWO(5, 0, 2)), 0, 14, 0);
    query("a path that a same has twice", NUMBERS(SELF, SELF, TWO(14, 1, 1), TWO(5, 0, 2)), 0, 14, 1);
    query("a star never used", NUMBERS(SELF, ONE(13, 0), SELF), 0, 14, 1);
    query("a same alone", NUMBERS(SELF, SELF, TWO(14, 0, 1)), 0, 15, 2);
    query("same, of a query that is refused for its variable", NUMBERS(ONE(6, 1), SELF, TWO(14, 0, 1)), 1, 11, 0);
    query("axis 13", NUMBERS(0, 13, 0, 2), 0, 11, 0);
    query("test 65534", NUMBERS(0, 1, 0, 65534), 0, 0, 0);
    query("axis 13 and test 65534", NUMBERS(0, 13, 0, 65534), 0, 11, 0);
    query("test 65534 and a right field", NUMBERS(0, 1, 1, 65534), 0, 11, 0);
    query("65534 where 0 is due", NUMBERS(0, 1, 0, 65534, 7, 0, 0, 65534), 0, 11, 1);
    query("variable 1 of one", SLICE(pallets), 1, 11, 4);
    query("a tag where 0 is due", NUMBERS(0, 1, 0, 2, 7, 0, 0, 1), 0, 11, 1);
    query("an operand that is its own entry", NUMBERS(0, 1, 0, 2, 7, 1, 0, 0), 0, 12, 1);
    query("not of a path", NUMBERS(0, 1, 0, 2, 9, 0, 0, 0), 0, 13, 1);
    query("an operand used twice", NUMBERS(0, 1, 0, 2, 1, 0, 0, 0), 0, 14, 0);
    query("an operand never used", NUMBERS(0, 1, 0, 2, 0, 1, 0, 3, 7, 0, 0, 0), 0, 14, 1);
    query("a node expression", NUMBERS(12, 0, 0, 0), 1, 15, 0);
}

/* Images and pairs. */

typedef gz_image_reply image_function(const uint16_t *, size_t, uint16_t, const uint16_t *, size_t, uint16_t, const uint16_t *, size_t,
                                      const uint8_t *, size_t, uint8_t *, size_t);

static const struct direction {
    const char *name;
    image_function *function;
} forwards = {"gz_forwards", gz_forwards}, backwards = {"gz_backwards", gz_backwards};

/* What an evaluation is lent beside its node set and its buffer; n is how many nodes the party sees. */
struct lent {
    struct shared tree;
    size_t n;
    const uint16_t *query;
    size_t query_len;
    uint16_t columns;
    const uint16_t *nodes;
    size_t nodes_len;
};

static struct lent on(const uint16_t *tree, size_t tree_len, const uint16_t *query, size_t query_len, uint16_t columns,
                      const uint16_t *nodes, size_t nodes_len)
{
    return (struct lent){common(tree, tree_len), tree_len / 2, query, query_len, columns, nodes, nodes_len};
}
#define LENT(...) on(SLICE(warehouse), __VA_ARGS__)
#define ON(...) on(__VA_ARGS__)

/* Bytes are written as digits. */
static size_t bytes(uint8_t *to, const char *digits)
{
    size_t length = strlen(digits);
    for (size_t i = 0; i < length; i++)
        to[i] = (uint8_t)(digits[i] - '0');
    return length;
}

/* How many nodes are in a set that is written so; none where a call is refused and has no result. */
static size_t ones(const char *digits)
{
    size_t count = 0;
    for (; *digits != '\0'; digits++)
        count += *digits == '1';
    return count;
}

static void image(const struct direction *d, const char *what, struct lent l, const char *from, size_t room, uint16_t number,
                  uint16_t place, const char *result)
{
    uint8_t set[256], memory[MARGIN + 256 + MARGIN], wanted[sizeof memory];
    size_t length = bytes(set, from);
    memset(memory, PATTERN, sizeof memory);
    memset(wanted, PATTERN, sizeof wanted);
    bytes(wanted + MARGIN, result);
    gz_image_reply r = d->function(SHARED(l.tree), l.query, l.query_len, l.columns, l.nodes, l.nodes_len, set, length, memory + MARGIN, room);
    expect(r.number == number && r.place == place, d->name, what, "reply");
    expect(r.count == ones(result), d->name, what, "count");
    expect(memcmp(memory, wanted, sizeof memory) == 0, d->name, what, "buffer");
}

static void images(void)
{
    const struct direction *f = &forwards, *b = &backwards;
    struct lent all_following = LENT(SLICE(following), 0, NOTHING);
    struct lent preceding = LENT(NUMBERS(0, 8, 0, 65535), 0, NOTHING);
    struct lent right = LENT(NUMBERS(0, 3, 0, 65535), 0, NOTHING);
    struct lent to_child_3 = LENT(SLICE(child_3), 0, NOTHING);
    struct lent intersect = LENT(NUMBERS(0, 0, 0, 65535, 0, 3, 0, 65535, 3, 0, 1, 0), 0, NOTHING);
    struct lent except = LENT(NUMBERS(0, 5, 0, 65535, 0, 1, 0, 65535, 4, 0, 1, 0), 0, NOTHING);
    struct lent from_root = LENT(NUMBERS(0, 1, 0, 2, 7, 0, 0, 0), 0, NOTHING);
    struct lent variable = LENT(NUMBERS(6, 0, 0, 0), 1, NUMBERS(3));
    image(f, "following::*", all_following, "001000", 6, 0, 0, "000111");
    image(f, "following::*", all_following, "010000", 40, 0, 0, "000011");
    image(b, "following::*", all_following, "000001", 6, 0, 0, "011100");
    image(f, "preceding::*", preceding, "000001", 7, 0, 0, "011100");
    image(f, "right::*", right, "010000", 6, 0, 0, "000010");
    image(f, "right::*", right, "000100", 6, 0, 0, "000000");
    image(b, "right::*", right, "111111", 6, 0, 0, "011000");
    image(f, "child::3", to_child_3, "010010", 6, 0, 0, "001101");
    image(b, "child::3", to_child_3, "001001", 40, 0, 0, "010010");
    image(f, "self::* intersect right::*", intersect, "010010", 6, 0, 0, "000000");
    image(f, "descendant::* except child::*", except, "110000", 6, 0, 0, "001101");
    image(b, "descendant::* except child::*", except, "001001", 6, 0, 0, "100000");
    image(f, "child::2[child::3 and not(right::*)]", LENT(SLICE(last_bay), 0, NOTHING), "100000", 6, 0, 0, "000010");
    image(b, "child::2[child::3 and not(right::*)]", LENT(SLICE(last_bay), 0, NOTHING), "111111", 6, 0, 0, "100000");
    image(f, "/child::2", from_root, "000001", 6, 0, 0, "010010");
    image(b, "/child::2", from_root, "010000", 6, 0, 0, "111111");
    image(f, "an empty set", all_following, "000000", 6, 0, 0, "000000");
    image(f, "$0", variable, "000001", 6, 0, 0, "000100");
    image(b, "$0", variable, "000001", 6, 0, 0, "000000");
    image(f, "bay 1, pallet 3", LENT(SLICE(pallets), 2, NUMBERS(1, 3)), "111111", 6, 0, 0, "000100");
    image(b, "bay 1, pallet 3", LENT(SLICE(pallets), 2, NUMBERS(1, 3)), "000100", 6, 0, 0, "100000");
    image(f, "bay 4, pallet 3", LENT(SLICE(pallets), 2, NUMBERS(4, 3)), "111111", 6, 0, 0, "000000");
    image(f, "parent::* in one node", ON(NUMBERS(65535, 1), NUMBERS(0, 2, 0, 65535), 0, NOTHING), "1", 1, 0, 0, "0");

    /* both directions refuse the same, whatever they are lent besides */
    for (int i = 0; i < 2; i++) {
        const struct direction *d = i == 0 ? f : b;
        image(d, "no tree", ON(NOTHING, SLICE(child), 0, NOTHING), "111111", 6, 5, 0, "");
        image(d, "a bad parent", ON(NUMBERS(65535, 1, 1, 2), SLICE(child), 0, NOTHING), "11", 6, 6, 1, "");
        image(d, "a bad tag", ON(NUMBERS(65535, 1, 0, 65535), SLICE(child), 0, NOTHING), "11", 6, 7, 1, "");
        image(d, "no query", LENT(NOTHING, 0, NOTHING), "111111", 6, 8, 0, "");
        image(d, "4 variables", LENT(SLICE(pallets), 4, NUMBERS(1, 2, 3, 4)), "111111", 6, 9, 0, "");
        image(d, "kind 15", LENT(NUMBERS(15, 0, 0, 0), 0, NOTHING), "111111", 6, 10, 0, "");
        image(d, "a star's tag", LENT(NUMBERS(SELF, 13, 0, 0, 1), 0, NOTHING), "111111", 6, 11, 1, "");
        image(d, "a star of a node expression", LENT(NUMBERS(ONE(12, 0), ONE(13, 0)), 1, NUMBERS(0)), "111111", 6, 13, 1, "");
        image(d, "a same for the query", LENT(NUMBERS(SELF, SELF, TWO(14, 0, 1)), 0, NOTHING), "111111", 6, 15, 2, "");
        image(d, "a star, room for 5 bytes", LENT(NUMBERS(SELF, ONE(13, 0)), 0, NOTHING), "111111", 5, 20, 0, "");
        image(d, "axis 13", LENT(NUMBERS(0, 13, 0, 0), 0, NOTHING), "111111", 6, 11, 0, "");
        image(d, "an operand that is its own entry", LENT(NUMBERS(7, 0, 0, 0), 0, NOTHING), "111111", 6, 12, 0, "");
        image(d, "not of a path", LENT(NUMBERS(0, 1, 0, 2, 9, 0, 0, 0), 0, NOTHING), "111111", 6, 13, 1, "");
        image(d, "an operand used twice", LENT(NUMBERS(0, 1, 0, 2, 1, 0, 0, 0), 0, NOTHING), "111111", 6, 14, 0, "");
        image(d, "a node expression", LENT(NUMBERS(12, 0, 0, 0), 1, NUMBERS(0)), "111111", 6, 15, 0, "");
        image(d, "one node for two variables", LENT(SLICE(pallets), 2, NUMBERS(1)), "111111", 6, 16, 0, "");
        image(d, "variable 1 at node 6", LENT(SLICE(pallets), 2, NUMBERS(5, 6)), "111111", 6, 17, 1, "");
        image(d, "a set of 5 bytes", all_following, "11111", 6, 18, 0, "");
        image(d, "a set of 7 bytes", all_following, "1111111", 6, 18, 0, "");
        image(d, "a byte of 2", all_following, "110221", 6, 19, 3, "");
        image(d, "room for 5 bytes", all_following, "111111", 5, 20, 0, "");
        image(d, "a bad set and no room", all_following, "111112", 0, 19, 5, "");
    }
}

/* Every count that there can be, in a tree as large as it may be: a root and 255 children. */
static void counts(void)
{
    const uint16_t flat[2 * 256] = {65535, 0};
    struct lent self = ON(SLICE(flat), NUMBERS(0, 0, 0, 65535), 0, NOTHING);
    for (int first = 0; first <= 256; first++) {
        char front[257] = "", rest[257] = "";
        for (int node = 0; node < 256; node++) {
            front[node] = node < first ? '1' : '0';
            rest[node] = node < first ? '0' : '1';
        }
        image(&forwards, "self::* from the first nodes", self, front, 256, 0, 0, front);
        image(&backwards, "self::* from the other nodes", self, rest, 256, 0, 0, rest);
    }
}

static void relation(const char *what, struct lent l, size_t room, uint16_t number, uint16_t place, const char *result)
{
    uint8_t memory[MARGIN + 64 + MARGIN], wanted[sizeof memory];
    memset(memory, PATTERN, sizeof memory);
    memset(wanted, PATTERN, sizeof wanted);
    bytes(wanted + MARGIN, result);
    gz_reply r = gz_pairs(SHARED(l.tree), l.query, l.query_len, l.columns, l.nodes, l.nodes_len, memory + MARGIN, room);
    expect(r.number == number && r.place == place, "gz_pairs", what, "reply");
    expect(memcmp(memory, wanted, sizeof memory) == 0, "gz_pairs", what, "buffer");
}

static void relations(void)
{
    struct lent to_child = LENT(SLICE(child), 0, NOTHING);
    relation("child::*", to_child, 36, 0, 0, "010010" "001100" "000000" "000000" "000001" "000000");
    relation("following::*", LENT(SLICE(following), 0, NOTHING), 50, 0, 0, "000000" "000011" "000111" "000011" "000000" "000000");
    relation("bay 4, pallet 5", LENT(SLICE(pallets), 2, NUMBERS(4, 5)), 36, 0, 0, "000001" "000000" "000000" "000000" "000000" "000000");
    relation("self::* in one node", ON(NUMBERS(65535, 1), NUMBERS(0, 0, 0, 65535), 0, NOTHING), 1, 0, 0, "1");
    relation("parent::*", ON(SLICE(document), NUMBERS(0, 2, 0, 65535), 0, NOTHING), 49, 0, 0,
             "0000000" "0000000" "0100000" "0010000" "0010000" "0100000" "0000010");
    relation("parent::node()", ON(SLICE(document), NUMBERS(0, 2, 0, 65534), 0, NOTHING), 49, 0, 0,
             "0000000" "1000000" "0100000" "0010000" "0010000" "0100000" "0000010");
    relation("half a node", ON(warehouse, 11, SLICE(child), 0, NOTHING), 36, 5, 0, "");
    relation("a bad query", LENT(NUMBERS(0, 1, 1, 2), 0, NOTHING), 36, 11, 0, "");
    relation("a node for no variable", LENT(SLICE(child), 0, NUMBERS(1)), 36, 16, 0, "");
    relation("variable 0 at node 6", LENT(SLICE(pallets), 2, NUMBERS(6, 6)), 36, 17, 0, "");
    relation("room for 35 bytes", to_child, 35, 20, 0, "");
}

/* Pairs in bits, and the two forms of a relation turned into each other. Buffers stand in memory that is filled with the pattern, and
   all of it is compared; what is only read is compared too. */

static uint64_t words_memory[MARGIN + 1030 + MARGIN], words_wanted[LENGTH(words_memory)], words_lent[1100], words_before[1100];
static uint8_t cells_memory[MARGIN + 65600 + MARGIN], cells_wanted[sizeof cells_memory], cells_lent[66000], cells_before[66000];

static void fill_words(void)
{
    memset(words_memory, PATTERN, sizeof words_memory);
    memset(words_wanted, PATTERN, sizeof words_wanted);
}

static void fill_cells(void)
{
    memset(cells_memory, PATTERN, sizeof cells_memory);
    memset(cells_wanted, PATTERN, sizeof cells_wanted);
}

/* The n rows of n bytes, as bits. */
static void put_bits(uint64_t *words, const uint8_t *cells, size_t n)
{
    memset(words, 0, 4 * n * sizeof *words);
    for (size_t x = 0; x < n; x++)
        for (size_t y = 0; y < n; y++)
            if (cells[x * n + y] == 1)
                words[4 * x + y / 64] += (uint64_t)1 << y % 64;
}

/* The result is written as digits, n rows of n. */
static void bit_relation(const char *what, struct lent l, size_t room, uint16_t number, uint16_t place, const char *result)
{
    uint8_t cells[64];
    fill_words();
    if (bytes(cells, result) != 0)
        put_bits(words_wanted + MARGIN, cells, l.n);
    gz_reply r = gz_pairs_bits(SHARED(l.tree), l.query, l.query_len, l.columns, l.nodes, l.nodes_len,
                               room == 0 ? NULL : words_memory + MARGIN, room);
    expect(r.number == number && r.place == place, "gz_pairs_bits", what, "reply");
    expect(memcmp(words_memory, words_wanted, sizeof words_memory) == 0, "gz_pairs_bits", what, "buffer");
}

static void bit_relations(void)
{
    struct lent to_child = LENT(SLICE(child), 0, NOTHING);
    bit_relation("child::*", to_child, 24, 0, 0, "010010" "001100" "000000" "000000" "000001" "000000");
    bit_relation("child::*, more room", to_child, 25, 0, 0, "010010" "001100" "000000" "000000" "000001" "000000");
    bit_relation("child::*, the most room", to_child, 1024, 0, 0, "010010" "001100" "000000" "000000" "000001" "000000");
    bit_relation("following::*", LENT(SLICE(following), 0, NOTHING), 50, 0, 0, "000000" "000011" "000111" "000011" "000000" "000000");
    bit_relation("bay 4, pallet 5", LENT(SLICE(pallets), 2, NUMBERS(4, 5)), 24, 0, 0, "000001" "000000" "000000" "000000" "000000" "000000");
    bit_relation("child::2[child::3 and not(right::*)]", LENT(SLICE(last_bay), 0, NOTHING), 24, 0, 0,
                 "000010" "000000" "000000" "000000" "000000" "000000");
    bit_relation("self::* intersect right::*", LENT(NUMBERS(0, 0, 0, 65535, 0, 3, 0, 65535, 3, 0, 1, 0), 0, NOTHING), 24, 0, 0,
                 "000000" "000000" "000000" "000000" "000000" "000000");
    bit_relation("descendant::* except child::*", LENT(NUMBERS(0, 5, 0, 65535, 0, 1, 0, 65535, 4, 0, 1, 0), 0, NOTHING), 24, 0, 0,
                 "001101" "000000" "000000" "000000" "000000" "000000");
    bit_relation("(child::* union right::*)/child::3",
                 LENT(NUMBERS(0, 1, 0, 65535, 0, 3, 0, 65535, 2, 0, 1, 0, 0, 1, 0, 3, 1, 2, 3, 0), 0, NOTHING), 24, 0, 0,
                 "001101" "000001" "000000" "000000" "000000" "000000");
    bit_relation("child::* except (right::* union child::*/self::2)",
                 LENT(NUMBERS(0, 1, 0, 65535, 0, 3, 0, 65535, 0, 1, 0, 65535, 0, 0, 0, 2, 1, 2, 3, 0, 2, 1, 4, 0, 4, 0, 5, 0), 0, NOTHING),
                 24, 0, 0, "000000" "001100" "000000" "000000" "000001" "000000");
    bit_relation("(descendant::* except child::*)/left::*",
                 LENT(NUMBERS(0, 5, 0, 65535, 0, 1, 0, 65535, 4, 0, 1, 0, 0, 4, 0, 65535, 1, 2, 3, 0), 0, NOTHING), 24, 0, 0,
                 "001000" "000000" "000000" "000000" "000000" "000000");
    bit_relation("((self::* union child::*) intersect descendant-or-self::2)/child::*",
                 LENT(NUMBERS(0, 0, 0, 65535, 0, 1, 0, 65535, 2, 0, 1, 0, 0, 11, 0, 2, 3, 2, 3, 0, 0, 1, 0, 65535, 1, 4, 5, 0), 0, NOTHING),
                 24, 0, 0, "001101" "001100" "000000" "000000" "000001" "000000");
    bit_relation("/child::2", LENT(NUMBERS(0, 1, 0, 2, 7, 0, 0, 0), 0, NOTHING), 24, 0, 0,
                 "010010" "010010" "010010" "010010" "010010" "010010");
    bit_relation("$0", LENT(NUMBERS(6, 0, 0, 0), 1, NUMBERS(3)), 24, 0, 0, "000100" "000100" "000100" "000100" "000100" "000100");
    bit_relation("self::* in one node", ON(NUMBERS(65535, 1), NUMBERS(0, 0, 0, 65535), 0, NOTHING), 4, 0, 0, "1");
    bit_relation("parent::* in one node", ON(NUMBERS(65535, 1), NUMBERS(0, 2, 0, 65535), 0, NOTHING), 5, 0, 0, "0");
    bit_relation("parent::*", ON(SLICE(document), NUMBERS(0, 2, 0, 65535), 0, NOTHING), 28, 0, 0,
                 "0000000" "0000000" "0100000" "0010000" "0010000" "0100000" "0000010");
    bit_relation("parent::node()", ON(SLICE(document), NUMBERS(0, 2, 0, 65534), 0, NOTHING), 28, 0, 0,
                 "0000000" "1000000" "0100000" "0010000" "0010000" "0100000" "0000010");

    bit_relation("no tree", ON(NOTHING, SLICE(child), 0, NOTHING), 24, 5, 0, "");
    bit_relation("half a node", ON(warehouse, 11, SLICE(child), 0, NOTHING), 24, 5, 0, "");
    bit_relation("a bad parent", ON(NUMBERS(65535, 1, 1, 2), SLICE(child), 0, NOTHING), 24, 6, 1, "");
    bit_relation("a bad tag", ON(NUMBERS(65535, 1, 0, 65535), SLICE(child), 0, NOTHING), 24, 7, 1, "");
    bit_relation("no query", LENT(NOTHING, 0, NOTHING), 24, 8, 0, "");
    bit_relation("4 variables", LENT(SLICE(pallets), 4, NUMBERS(1, 2, 3, 4)), 24, 9, 0, "");
    bit_relation("kind 15", LENT(NUMBERS(15, 0, 0, 0), 0, NOTHING), 24, 10, 0, "");
    bit_relation("a bad query", LENT(NUMBERS(0, 1, 1, 2), 0, NOTHING), 24, 11, 0, "");
    bit_relation("an operand that is its own entry", LENT(NUMBERS(7, 0, 0, 0), 0, NOTHING), 24, 12, 0, "");
    bit_relation("not of a path", LENT(NUMBERS(0, 1, 0, 2, 9, 0, 0, 0), 0, NOTHING), 24, 13, 1, "");
    bit_relation("an operand used twice", LENT(NUMBERS(0, 1, 0, 2, 1, 0, 0, 0), 0, NOTHING), 24, 14, 0, "");
    bit_relation("a node expression", LENT(NUMBERS(12, 0, 0, 0), 1, NUMBERS(0)), 24, 15, 0, "");
    bit_relation("a node for no variable", LENT(SLICE(child), 0, NUMBERS(1)), 24, 16, 0, "");
    bit_relation("variable 0 at node 6", LENT(SLICE(pallets), 2, NUMBERS(6, 6)), 24, 17, 0, "");
    bit_relation("variable 1 at node 6, and no room", LENT(SLICE(pallets), 2, NUMBERS(5, 6)), 0, 17, 1, "");
    bit_relation("room for 23 words", to_child, 23, 20, 0, "");
    bit_relation("no room", to_child, 0, 20, 0, "");
}

/* A query whose pairs are told, as digits, n rows of n: all pairs in bytes and in bits, and both images of every set of nodes. */
static void both_engines(const char *what, struct lent l, const char *rows)
{
    size_t n = l.n;
    relation(what, l, n * n, 0, 0, rows);
    bit_relation(what, l, 4 * n, 0, 0, rows);
    for (size_t set = 0; set < (size_t)1 << n; set++) {
        char from[9] = "", to[9] = "", back[9] = "";
        memset(to, '0', n);
        memset(back, '0', n);
        for (size_t x = 0; x < n; x++)
            from[x] = (char)('0' + (set >> x & 1));
        for (size_t x = 0; x < n; x++)
            for (size_t y = 0; y < n; y++)
                if (rows[x * n + y] == '1') {
                    to[y] |= from[x] & 1;
                    back[x] |= from[y] & 1;
                }
        image(&forwards, what, l, from, n, 0, 0, to);
        image(&backwards, what, l, from, n, 0, 0, back);
    }
}
#define IDENTITY "100000" "010000" "001000" "000100" "000010" "000001"
#define ALL_BELOW "111111" "011100" "001000" "000100" "000011" "000001"
#define DIAGONAL(a, b, c, d, e, f) a "00000" "0" b "0000" "00" c "000" "000" d "00" "0000" e "0" "00000" f

static void stars(void)
{
    both_engines("(child::*)*", LENT(NUMBERS(STEP(1, STAR), ONE(13, 0)), 0, NOTHING), ALL_BELOW);
    both_engines("descendant-or-self::node()", LENT(NUMBERS(BELOW), 0, NOTHING), ALL_BELOW);
    both_engines("descendant-or-self::*", LENT(NUMBERS(STEP(11, STAR)), 0, NOTHING), ALL_BELOW);
    both_engines("((child::*)*)*", LENT(NUMBERS(STEP(1, STAR), ONE(13, 0), ONE(13, 1)), 0, NOTHING), ALL_BELOW);
    both_engines("(child::3)*", LENT(NUMBERS(STEP(1, 3), ONE(13, 0)), 0, NOTHING), "100000" "011100" "001000" "000100" "000011" "000001");
    both_engines("(right::*)*", LENT(NUMBERS(STEP(3, STAR), ONE(13, 0)), 0, NOTHING),
                 "100000" "010010" "001100" "000100" "000010" "000001");
    both_engines("(parent::*)*", LENT(NUMBERS(STEP(2, STAR), ONE(13, 0)), 0, NOTHING),
                 "100000" "110000" "111000" "110100" "100010" "100011");
    both_engines("(child::9)*", LENT(NUMBERS(STEP(1, 9), ONE(13, 0)), 0, NOTHING), IDENTITY);
    both_engines("(.)*", LENT(NUMBERS(SELF, ONE(13, 0)), 0, NOTHING), IDENTITY);
    both_engines("(child::2/child::3)*", LENT(NUMBERS(STEP(1, 2), STEP(1, 3), TWO(1, 0, 1), ONE(13, 2)), 0, NOTHING),
                 "101101" "010000" "001000" "000100" "000010" "000001");
    both_engines("((right::*)* union child::*)*",
                 LENT(NUMBERS(STEP(3, STAR), ONE(13, 0), STEP(1, STAR), TWO(2, 1, 2), ONE(13, 3)), 0, NOTHING),
                 "111111" "011111" "001100" "000100" "000011" "000001");
    both_engines("(child::* union parent::*)*", LENT(NUMBERS(STEP(1, STAR), STEP(2, STAR), TWO(2, 0, 1), ONE(13, 2)), 0, NOTHING),
                 "111111" "111111" "111111" "111111" "111111" "111111");
    /* by way of the first node alone, and of the last */
    both_engines("(parent::* union child::2)*", LENT(NUMBERS(STEP(2, STAR), STEP(1, 2), TWO(2, 0, 1), ONE(13, 2)), 0, NOTHING),
                 "110010" "110010" "111010" "110110" "110010" "110011");
    both_engines("(self::1/$0 union self::3/parent::2)*",
                 LENT(NUMBERS(STEP(0, 1), ONE(6, 0), TWO(1, 0, 1), STEP(0, 3), STEP(2, 2), TWO(1, 3, 4), TWO(2, 2, 5), ONE(13, 6)), 1,
                      NUMBERS(5)),
                 "100011" "010000" "011000" "010100" "000010" "000011");
    both_engines("(child::*)*/self::3", LENT(NUMBERS(STEP(1, STAR), ONE(13, 0), STEP(0, 3), TWO(1, 1, 2)), 0, NOTHING),
                 "001101" "001100" "001000" "000100" "000001" "000001");
    both_engines("(child::*)*/(right::*)*",
                 LENT(NUMBERS(STEP(1, STAR), ONE(13, 0), STEP(3, STAR), ONE(13, 2), TWO(1, 1, 3)), 0, NOTHING),
                 "111111" "011110" "001100" "000100" "000011" "000001");
    both_engines("(child::*)* except .", LENT(NUMBERS(STEP(1, STAR), ONE(13, 0), SELF, TWO(4, 1, 2)), 0, NOTHING),
                 "011111" "001100" "000000" "000000" "000001" "000000");
    both_engines("(descendant::* except child::*)*", LENT(NUMBERS(STEP(5, STAR), STEP(1, STAR), TWO(4, 0, 1), ONE(13, 2)), 0, NOTHING),
                 "101101" "010000" "001000" "000100" "000010" "000001");
    both_engines("(/child::2)*", LENT(NUMBERS(STEP(1, 2), ONE(7, 0), ONE(13, 1)), 0, NOTHING),
                 "110010" "010010" "011010" "010110" "010010" "010011");
    both_engines("/(child::*)*", LENT(NUMBERS(STEP(1, STAR), ONE(13, 0), ONE(7, 1)), 0, NOTHING),
                 "111111" "111111" "111111" "111111" "111111" "111111");
    /* under a filter, and over one */
    both_engines("descendant::*[(right::*)*/self::2[not(right::*)]]",
                 LENT(NUMBERS(STEP(5, STAR), STEP(3, STAR), ONE(13, 1), STEP(0, 2), STEP(3, STAR), ONE(8, 4), ONE(9, 5), TWO(5, 3, 6),
                              TWO(1, 2, 7), ONE(8, 8), TWO(5, 0, 9)), 0, NOTHING),
                 "010010" "000000" "000000" "000000" "000000" "000000");
    both_engines("(child::*[child::3])*", LENT(NUMBERS(STEP(1, STAR), STEP(1, 3), ONE(8, 1), TWO(5, 0, 2), ONE(13, 3)), 0, NOTHING),
                 "110010" "010000" "001000" "000100" "000010" "000001");
    both_engines("($0)*", LENT(NUMBERS(ONE(6, 0), ONE(13, 0)), 1, NUMBERS(3)), "100100" "010100" "001100" "000100" "000110" "000101");
    both_engines("(child::*[. is $0])*", LENT(NUMBERS(STEP(1, STAR), ONE(12, 0), TWO(5, 0, 1), ONE(13, 2)), 1, NUMBERS(1)),
                 "110000" "010000" "001000" "000100" "000010" "000001");

    /* every node stands in the star of what holds of none, a document node too */
    both_engines("(child::*)* in one node", ON(NUMBERS(65535, 1), NUMBERS(STEP(1, STAR), ONE(13, 0)), 0, NOTHING), "1");
    both_engines("(self::*)* in a document node", ON(NUMBERS(65535, 65534), NUMBERS(STEP(0, STAR), ONE(13, 0)), 0, NOTHING), "1");
    both_engines("(child::*)*", ON(SLICE(document), NUMBERS(STEP(1, STAR), ONE(13, 0)), 0, NOTHING),
                 "1111111" "0111111" "0011100" "0001000" "0000100" "0000011" "0000001");
    both_engines("descendant-or-self::node()", ON(SLICE(document), NUMBERS(BELOW), 0, NOTHING),
                 "1111111" "0111111" "0011100" "0001000" "0000100" "0000011" "0000001");
    both_engines("descendant-or-self::*", ON(SLICE(document), NUMBERS(STEP(11, STAR)), 0, NOTHING),
                 "0111111" "0111111" "0011100" "0001000" "0000100" "0000011" "0000001");
    both_engines("(parent::*)*", ON(SLICE(document), NUMBERS(STEP(2, STAR), ONE(13, 0)), 0, NOTHING),
                 "1000000" "0100000" "0110000" "0111000" "0110100" "0100010" "0100011");
    both_engines("(parent::node())*", ON(SLICE(document), NUMBERS(PARENT, ONE(13, 0)), 0, NOTHING),
                 "1000000" "1100000" "1110000" "1111000" "1110100" "1100010" "1100011");
}

/* A filter of the dot: the nodes at which it holds are told one by one. */
static void sames(void)
{
    both_engines(".[child::2/child::3 same descendant::3]",
                 LENT(NUMBERS(SELF, STEP(1, 2), STEP(1, 3), TWO(1, 1, 2), STEP(5, 3), TWO(14, 3, 4), TWO(5, 0, 5)), 0, NOTHING),
                 DIAGONAL("1", "0", "0", "0", "0", "0"));
    both_engines(".[child::* same descendant::3]",
                 LENT(NUMBERS(SELF, STEP(1, STAR), STEP(5, 3), TWO(14, 1, 2), TWO(5, 0, 3)), 0, NOTHING),
                 DIAGONAL("0", "1", "0", "0", "1", "0"));
    both_engines(".[descendant::3 same child::*]",
                 LENT(NUMBERS(SELF, STEP(5, 3), STEP(1, STAR), TWO(14, 1, 2), TWO(5, 0, 3)), 0, NOTHING),
                 DIAGONAL("0", "1", "0", "0", "1", "0"));
    both_engines(".[not(child::* same descendant::3)]",
                 LENT(NUMBERS(SELF, STEP(1, STAR), STEP(5, 3), TWO(14, 1, 2), ONE(9, 3), TWO(5, 0, 4)), 0, NOTHING),
                 DIAGONAL("1", "0", "1", "1", "0", "1"));
    /* the nodes that either path leads to overlap, but for no node that it leads to both: each start counts by itself */
    both_engines(".[child::* same right::*]",
                 LENT(NUMBERS(SELF, STEP(1, STAR), STEP(3, STAR), TWO(14, 1, 2), TWO(5, 0, 3)), 0, NOTHING),
                 DIAGONAL("0", "0", "0", "0", "0", "0"));
    both_engines(".[child::2 same child::3]",
                 LENT(NUMBERS(SELF, STEP(1, 2), STEP(1, 3), TWO(14, 1, 2), TWO(5, 0, 3)), 0, NOTHING),
                 DIAGONAL("0", "0", "0", "0", "0", "0"));
    both_engines(".[parent::* same ancestor::1]",
                 LENT(NUMBERS(SELF, STEP(2, STAR), STEP(6, 1), TWO(14, 1, 2), TWO(5, 0, 3)), 0, NOTHING),
                 DIAGONAL("0", "1", "0", "0", "1", "0"));
    both_engines(".[/child::2 same right::*]",
                 LENT(NUMBERS(SELF, STEP(1, 2), ONE(7, 1), STEP(3, STAR), TWO(14, 2, 3), TWO(5, 0, 4)), 0, NOTHING),
                 DIAGONAL("0", "1", "0", "0", "0", "0"));
    both_engines(".[. same .]", LENT(NUMBERS(SELF, SELF, SELF, TWO(14, 1, 2), TWO(5, 0, 3)), 0, NOTHING), IDENTITY);
    both_engines(".[. same $0]", LENT(NUMBERS(SELF, SELF, ONE(6, 0), TWO(14, 1, 2), TWO(5, 0, 3)), 1, NUMBERS(3)),
                 DIAGONAL("0", "0", "0", "1", "0", "0"));
    both_engines(".[$1 same $0]", LENT(NUMBERS(SELF, ONE(6, 1), ONE(6, 0), TWO(14, 1, 2), TWO(5, 0, 3)), 2, NUMBERS(3, 3)), IDENTITY);
    both_engines(".[$1 same $0]", LENT(NUMBERS(SELF, ONE(6, 1), ONE(6, 0), TWO(14, 1, 2), TWO(5, 0, 3)), 2, NUMBERS(3, 2)),
                 DIAGONAL("0", "0", "0", "0", "0", "0"));
    both_engines("child::*[(child::*)* same $0]",
                 LENT(NUMBERS(STEP(1, STAR), STEP(1, STAR), ONE(13, 1), ONE(6, 0), TWO(14, 2, 3), TWO(5, 0, 4)), 1, NUMBERS(5)),
                 "000010" "000000" "000000" "000000" "000001" "000000");
    both_engines(".[(child::*)*/self::3 same descendant::*[not(right::*)]]",
                 LENT(NUMBERS(SELF, STEP(1, STAR), ONE(13, 1), STEP(0, 3), TWO(1, 2, 3), STEP(5, STAR), STEP(3, STAR), ONE(8, 6), ONE(9, 7),
                              TWO(5, 5, 8), TWO(14, 4, 9), TWO(5, 0, 10)), 0, NOTHING),
                 DIAGONAL("1", "1", "0", "0", "1", "0"));
    both_engines("(child::*[child::* same descendant::3])*",
                 LENT(NUMBERS(STEP(1, STAR), STEP(1, STAR), STEP(5, 3), TWO(14, 1, 2), TWO(5, 0, 3), ONE(13, 4)), 0, NOTHING),
                 "110010" "010000" "001000" "000100" "000010" "000001");
    both_engines(".[.[. same child::*/..] same .]",
                 LENT(NUMBERS(SELF, SELF, SELF, STEP(1, STAR), PARENT, TWO(1, 3, 4), TWO(14, 2, 5), TWO(5, 1, 6), SELF, TWO(14, 7, 8),
                              TWO(5, 0, 9)), 0, NOTHING),
                 DIAGONAL("1", "1", "0", "0", "1", "0"));
    both_engines(".[right::* same following::2 or child::3 same descendant::*[left::*]]",
                 LENT(NUMBERS(SELF, STEP(3, STAR), STEP(7, 2), TWO(14, 1, 2), STEP(1, 3), STEP(5, STAR), STEP(4, STAR), ONE(8, 6),
                              TWO(5, 5, 7), TWO(14, 4, 8), TWO(11, 3, 9), TWO(5, 0, 10)), 0, NOTHING),
                 DIAGONAL("0", "1", "0", "0", "0", "0"));
    both_engines(".[. same self::*]", ON(SLICE(document), NUMBERS(SELF, SELF, STEP(0, STAR), TWO(14, 1, 2), TWO(5, 0, 3)), 0, NOTHING),
                 "0000000" "0100000" "0010000" "0001000" "0000100" "0000010" "0000001");
}

static void packing(const char *what, uint16_t n, size_t length, size_t room, uint16_t number, uint16_t place)
{
    fill_words();
    memcpy(cells_before, cells_lent, sizeof cells_lent);
    if (number == 0)
        put_bits(words_wanted + MARGIN, cells_lent, n);
    gz_reply r = gz_pack(n, length == 0 ? NULL : cells_lent, length, room == 0 ? NULL : words_memory + MARGIN, room);
    expect(r.number == number && r.place == place, "gz_pack", what, "reply");
    expect(memcmp(words_memory, words_wanted, sizeof words_memory) == 0, "gz_pack", what, "buffer");
    expect(memcmp(cells_lent, cells_before, sizeof cells_lent) == 0, "gz_pack", what, "table");
}

/* The bytes that are due stand in cells_lent. */
static void unpacking(const char *what, uint16_t n, size_t length, size_t room, uint16_t number, uint16_t place)
{
    fill_cells();
    memcpy(words_before, words_lent, sizeof words_lent);
    if (number == 0)
        memcpy(cells_wanted + MARGIN, cells_lent, (size_t)n * n);
    gz_reply r = gz_unpack(n, length == 0 ? NULL : words_lent, length, room == 0 ? NULL : cells_memory + MARGIN, room);
    expect(r.number == number && r.place == place, "gz_unpack", what, "reply");
    expect(memcmp(cells_memory, cells_wanted, sizeof cells_memory) == 0, "gz_unpack", what, "buffer");
    expect(memcmp(words_lent, words_before, sizeof words_lent) == 0, "gz_unpack", what, "table");
}

/* Every size: a table of bytes there and back, and each refusal for its length, its room and, where there is room for it, a stray
   bit in the first, a middle and the last row, at n, at the last bit of n's word and at the last bit of all. */
static void conversions_of(uint16_t n)
{
    size_t square = (size_t)n * n, four = 4 * (size_t)n;
    memset(cells_lent, 1, sizeof cells_lent);
    for (size_t i = 0; i < square; i++)
        cells_lent[i] = (i * i / 7 + i / n) % 3 == 0;
    memset(words_lent, 0xFF, sizeof words_lent);
    put_bits(words_lent, cells_lent, n);
    packing("there", n, square, four, 0, 0);
    packing("there, more room", n, square, four + 3, 0, 0);
    unpacking("back", n, four, square, 0, 0);
    unpacking("back, more room", n, four, square + 3, 0, 0);
    packing("a byte less", n, square - 1, four, 18, 0);
    packing("a byte more", n, square + 1, four, 18, 0);
    unpacking("a word less", n, four - 1, square, 18, 0);
    unpacking("a word more", n, four + 1, square, 18, 0);
    packing("a word too little", n, square, four - 1, 20, 0);
    unpacking("a byte too little", n, four, square - 1, 20, 0);

    static const uint8_t high[] = {2, 3, 128, 255};
    size_t at[] = {0, square / 2, square - 1};
    for (int i = 2; i >= 0; i--) {
        cells_lent[at[i]] = high[i];
        packing("a high byte", n, square, i == 1 ? 0 : four, 19, (uint16_t)at[i]);
    }
    size_t row[] = {0, n / 2, n - 1u}, bit[] = {n, n | 63u, 255};
    for (int i = 2; n < 256 && i >= 0; i--)
        for (int j = 0; j < 3; j++)
            if (bit[j] >= n) {
                words_lent[4 * row[i] + bit[j] / 64] |= (uint64_t)1 << bit[j] % 64;
                unpacking("a stray bit", n, four, j == 1 ? 0 : square, 28, (uint16_t)row[i]);
            }
}

/* Where a pair stands, said without a formula: pairs of 256 nodes, and of 65. */
static void pairs_by_hand(void)
{
    static const struct {
        uint16_t n;
        size_t cell, word;
        uint64_t bits;
    } pairs[] = {{256, 0, 0, 1},           {256, 63, 0, 0x8000000000000000}, {256, 64, 1, 1},    {256, 191, 2, 0x8000000000000000},
                 {256, 192, 3, 1},         {256, 255, 3, 0x8000000000000000}, {256, 256, 4, 1},   {256, 65535, 1023, 0x8000000000000000},
                 {65, 1, 0, 2},            {65, 63, 0, 0x8000000000000000},   {65, 64, 1, 1},     {65, 65, 4, 1},
                 {65, 4224, 257, 1},       {1, 0, 0, 1},                      {2, 3, 4, 2}};
    for (size_t i = 0; i < LENGTH(pairs); i++) {
        uint16_t n = pairs[i].n;
        memset(cells_lent, 0, sizeof cells_lent);
        memset(words_lent, 0, sizeof words_lent);
        cells_lent[pairs[i].cell] = 1;
        words_lent[pairs[i].word] = pairs[i].bits;
        gz_reply r = gz_pack(n, cells_lent, (size_t)n * n, words_memory, 4 * (size_t)n);
        expect(r.number == 0 && r.place == 0, "gz_pack", "one pair", "reply");
        expect(memcmp(words_memory, words_lent, 32 * (size_t)n) == 0, "gz_pack", "one pair", "word");
        unpacking("one pair", n, 4 * (size_t)n, (size_t)n * n, 0, 0);
    }
}

static void conversions(void)
{
    pairs_by_hand();
    static const uint16_t sizes[] = {1, 2, 3, 6, 31, 63, 64, 65, 100, 127, 128, 129, 191, 192, 193, 200, 254, 255, 256};
    for (size_t i = 0; i < LENGTH(sizes); i++)
        conversions_of(sizes[i]);
    static const uint16_t wrong[] = {0, 257, 258, 512, 1024, 65535};
    for (size_t i = 0; i < LENGTH(wrong); i++) {
        packing("a wrong n", wrong[i], 65536, 1024, 5, 0);
        packing("a wrong n, no table and no room", wrong[i], 0, 0, 5, 0);
        unpacking("a wrong n", wrong[i], 1024, 65536, 5, 0);
        unpacking("a wrong n, no table and no room", wrong[i], 0, 0, 5, 0);
    }

    /* the order of the checks: 18 before 19 and 28, and both before 20 */
    memset(cells_lent, 2, sizeof cells_lent);
    memset(words_lent, 0xFF, sizeof words_lent);
    packing("no table", 6, 0, 24, 18, 0);
    packing("a length before a byte", 6, 35, 0, 18, 0);
    packing("a byte before the room", 6, 36, 0, 19, 0);
    unpacking("no table", 6, 0, 36, 18, 0);
    unpacking("a length before a stray bit", 6, 23, 0, 18, 0);
    unpacking("a stray bit before the room", 6, 24, 0, 28, 0);
    unpacking("256 nodes have no stray bits, but no room", 256, 1024, 65535, 20, 0);
}

/* A chain as large as a tree may be, with three tags in turn. */
static uint16_t chain[512];

static void fill_chain(void)
{
    for (uint16_t x = 0; x < 256; x++)
        chain[2 * x] = x == 0 ? 65535 : x - 1, chain[2 * x + 1] = x % 3;
}

/* The pairs that are due stand in cells_lent. */
static void large_relation(const char *what, struct lent l)
{
    size_t n = l.n;
    fill_words();
    put_bits(words_wanted + MARGIN, cells_lent, n);
    gz_reply r = gz_pairs_bits(SHARED(l.tree), l.query, l.query_len, 0, NULL, 0, words_memory + MARGIN, 1030);
    expect(r.number == 0 && r.place == 0, "gz_pairs_bits", what, "reply");
    expect(memcmp(words_memory, words_wanted, sizeof words_memory) == 0, "gz_pairs_bits", what, "buffer");
    fill_cells();
    memcpy(cells_wanted + MARGIN, cells_lent, n * n);
    gz_pairs(SHARED(l.tree), l.query, l.query_len, 0, NULL, 0, cells_memory + MARGIN, n * n);
    expect(memcmp(cells_memory, cells_wanted, sizeof cells_memory) == 0, "gz_pairs", what, "buffer");
}

/* In a chain, from each node to all below it. What gz_pairs and gz_pairs_bits leave are two forms of one relation, and gz_pack and
   gz_unpack turn either into the other. */
static void both_forms(void)
{
    fill_chain();
    for (size_t n = 1; n <= 256; n += n < 60 ? 59 : 1) {
        for (size_t x = 0; x < n; x++)
            for (size_t y = 0; y < n; y++)
                cells_lent[x * n + y] = x < y;
        large_relation("a chain", ON(chain, 2 * n, NUMBERS(0, 5, 0, 65535), 0, NOTHING));
        put_bits(words_lent, cells_lent, n);
        packing("a chain", (uint16_t)n, n * n, 4 * n, 0, 0);
        unpacking("a chain", (uint16_t)n, 4 * n, n * n, 0, 0);
    }
}

/* To the nodes that have none along an axis, and from those along another: a star of this has all pairs, by way of such a node alone. */
#define BY_WAY_OF(to, none, from)                                                                                                         \
    STEP(to, STAR), STEP(none, STAR), ONE(8, 1), ONE(9, 2), TWO(5, 0, 3), STEP(0, STAR), STEP(none, STAR), ONE(8, 6), ONE(9, 7),          \
        TWO(5, 5, 8), STEP(from, STAR), TWO(1, 9, 10), TWO(2, 4, 11), ONE(13, 12)

/* Stars that take as many turns as there are nodes, downwards and upwards; a star of leaps by two and by three, which are stars and
   compositions themselves; a same that holds at every third node; and stars by way of the last node, and of the first. */
static void large_stars(void)
{
    static const uint16_t sizes[] = {1, 2, 3, 31, 63, 64, 65, 127, 128, 129, 191, 192, 193, 254, 255, 256};
    static const struct {
        const char *what;
        uint16_t table[56];
        size_t length;
    } queries[] = {{"(child::*)*", {STEP(1, STAR), ONE(13, 0)}, 8},
                   {"(parent::*)*", {STEP(2, STAR), ONE(13, 0)}, 8},
                   {"((child::*/child::*)* union child::*/child::*/child::*)*",
                    {STEP(1, STAR), STEP(1, STAR), TWO(1, 0, 1), ONE(13, 2), STEP(1, STAR), STEP(1, STAR), TWO(1, 4, 5), STEP(1, STAR),
                     TWO(1, 6, 7), TWO(2, 3, 8), ONE(13, 9)}, 44},
                   {"(child::*)*[child::* same descendant::2]",
                    {STEP(1, STAR), ONE(13, 0), STEP(1, STAR), STEP(5, 2), TWO(14, 2, 3), TWO(5, 1, 4)}, 24},
                   {"a star by way of the last node", {BY_WAY_OF(5, 1, 6)}, 56},
                   {"a star by way of the first node", {BY_WAY_OF(6, 2, 5)}, 56}};
    fill_chain();
    for (size_t i = 0; i < LENGTH(sizes); i++)
        for (size_t q = 0; q < LENGTH(queries); q++) {
            size_t n = sizes[i];
            for (size_t x = 0; x < n; x++)
                for (size_t y = 0; y < n; y++) {
                    bool below = x <= y, due[] = {below, y <= x, below && y - x != 1, below && y % 3 == 1 && y + 1 < n, true, true};
                    cells_lent[x * n + y] = due[q];
                }
            large_relation(queries[q].what, ON(chain, 2 * n, queries[q].table, queries[q].length, 0, NOTHING));
        }
}

/* A query that nests intersects, excepts, stars and sames: a piece over the path below it, as often as there is room for in 64 entries.
   Operands count as in the piece: 0 is the path below, and the piece's own entries count on from there. */
struct piece {
    const char *what;
    size_t count;
    uint16_t entries[5][4];
};
static const struct piece pieces[] = {
    {"Q <- (.//./Q) intersect .//.", 4, {{BELOW}, {TWO(1, 1, 0)}, {BELOW}, {TWO(3, 2, 3)}}},
    {"Q <- .//.[Q] intersect .//.", 5, {{ONE(8, 0)}, {BELOW}, {TWO(5, 2, 1)}, {BELOW}, {TWO(3, 3, 4)}}},
    {"Q <- (child::*[Q])*", 4, {{ONE(8, 0)}, {STEP(1, STAR)}, {TWO(5, 2, 1)}, {ONE(13, 3)}}},
    {"Q <- (.//./Q) except child::*", 4, {{BELOW}, {TWO(1, 1, 0)}, {STEP(1, STAR)}, {TWO(4, 2, 3)}}},
    {"Q <- .[Q same .]", 4, {{SELF}, {TWO(14, 0, 1)}, {SELF}, {TWO(5, 3, 2)}}},
    {"Q <- (Q)*", 1, {{ONE(13, 0)}}},
    {"Q <- .//. except (.//. except Q)", 4, {{BELOW}, {TWO(4, 1, 0)}, {BELOW}, {TWO(4, 3, 2)}}},
    {"Q <- child::*[Q/self::*]", 5, {{STEP(0, STAR)}, {TWO(1, 0, 1)}, {ONE(8, 2)}, {STEP(1, STAR)}, {TWO(5, 4, 3)}}}};
enum { BELOW_ALL, BELOW_TESTED, STAR_OF_FILTER, BUT_CHILDREN, SAME_AS_SELF, STARS, TWICE_EXCEPT, FILTERED };

/* Some pieces in turn over .//., as many turns as are asked for and there is room for; answers how many entries there are. */
static size_t stacked(uint16_t *query, const uint8_t *order, size_t order_len, size_t turns)
{
    size_t entries = 1;
    memcpy(query, (const uint16_t[]){BELOW}, 8);
    for (size_t turn = 0; turn < turns; turn++) {
        const struct piece *p = &pieces[order[turn % order_len]];
        uint16_t path = (uint16_t)(entries - 1);
        for (size_t i = 0; entries + p->count - i <= 64 && i < p->count; i++) {
            const uint16_t *e = p->entries[i];
            bool left = e[0] != 0, right = (1 <= e[0] && e[0] <= 5) || e[0] == 14;
            memcpy(query + 4 * entries++, (const uint16_t[]){e[0], e[1] + left * path, e[2] + right * path, e[3]}, 8);
        }
    }
    return entries;
}

/* Both images of each node alone, of a large tree of every 51st, of all nodes and of every third are read off the pairs that are due, which
   stand in cells_lent. */
static void large_images(const char *what, struct lent l)
{
    size_t n = l.n;
    for (size_t set = 0; set < n + 2; set += n < 100 || set >= n - 1 ? 1 : 51) {
        uint8_t from[256], memory[MARGIN + 256 + MARGIN], wanted[2][sizeof memory];
        size_t count[2] = {0, 0};
        memset(wanted, PATTERN, sizeof wanted);
        memset(wanted[0] + MARGIN, 0, n);
        memset(wanted[1] + MARGIN, 0, n);
        for (size_t x = 0; x < n; x++)
            from[x] = set < n ? x == set : set == n || x % 3 == 1;
        for (size_t x = 0; x < n; x++)
            for (size_t y = 0; y < n; y++)
                if (cells_lent[x * n + y]) {
                    wanted[0][MARGIN + y] |= from[x];
                    wanted[1][MARGIN + x] |= from[y];
                }
        for (size_t back = 0; back < 2; back++) {
            const struct direction *d = back ? &backwards : &forwards;
            for (size_t x = 0; x < n; x++)
                count[back] += wanted[back][MARGIN + x];
            memset(memory, PATTERN, sizeof memory);
            gz_image_reply r = d->function(SHARED(l.tree), l.query, l.query_len, 0, NULL, 0, from, n, memory + MARGIN, 256);
            expect(r.number == 0 && r.place == 0 && r.count == count[back], d->name, what, "reply");
            expect(memcmp(memory, wanted[back], sizeof memory) == 0, d->name, what, "buffer");
        }
    }
}

/* Nested queries of several depths, up to 64 entries, over a chain, by all four services. Of the pieces over .//. it is told which pairs come out;
   of mixtures, the images are held against the pairs in bits. Evaluated one start node after the other, the deep ones would take years. */
static void nested_queries(void)
{
    static const uint8_t single[][1] = {{BELOW_ALL}, {BELOW_TESTED}, {STAR_OF_FILTER}, {BUT_CHILDREN}, {SAME_AS_SELF}, {STARS}, {TWICE_EXCEPT}};
    static const uint8_t mixed[][4] = {{BELOW_ALL, STAR_OF_FILTER, BUT_CHILDREN, FILTERED},
                                       {FILTERED, TWICE_EXCEPT, BELOW_TESTED, STARS},
                                       {BUT_CHILDREN, SAME_AS_SELF, STAR_OF_FILTER, BELOW_ALL}};
    static const size_t sizes[] = {1, 2, 6, 65, 256}, depths[] = {1, 2, 4, 8, 15, 64};
    uint16_t query[256];
    fill_chain();
    for (size_t i = 0; i < LENGTH(sizes); i++)
        for (size_t d = 0; d < LENGTH(depths); d++) {
            size_t n = sizes[i];
            for (size_t q = 0; q < LENGTH(single); q++) {
                struct lent l = ON(chain, 2 * n, query, 4 * stacked(query, single[q], 1, depths[d]), 0, NOTHING);
                for (size_t x = 0; x < n; x++)
                    for (size_t y = 0; y < n; y++)
                        cells_lent[x * n + y] = q == SAME_AS_SELF ? x == y : x <= y && (q != BUT_CHILDREN || y - x != 1);
                large_relation(pieces[q].what, l);
                large_images(pieces[q].what, l);
            }
            for (size_t q = 0; q < LENGTH(mixed); q++) {
                struct lent l = ON(chain, 2 * n, query, 4 * stacked(query, mixed[q], 4, depths[d]), 0, NOTHING);
                gz_pairs_bits(SHARED(l.tree), l.query, l.query_len, 0, NULL, 0, words_lent, 1024);
                for (size_t x = 0; x < n; x++)
                    for (size_t y = 0; y < n; y++)
                        cells_lent[x * n + y] = words_lent[4 * x + y / 64] >> y % 64 & 1;
                large_relation("a mixture", l);
                large_images("a mixture", l);
            }
        }
}

/* Pages. The cursor is moved on from call to call. */

/* A page call, or a quick one; of the former, evaluations is 0. */
static gz_quick_reply paged(bool quickly, struct lent l, gz_cursor *cursor, uint16_t *rows, size_t room)
{
    if (quickly)
        return gz_quick_page(SHARED(l.tree), l.query, l.query_len, l.columns, cursor, rows, room);
    gz_page_reply r = gz_page(SHARED(l.tree), l.query, l.query_len, l.columns, cursor, rows, room);
    return (gz_quick_reply){r.number, r.place, r.count, r.more, 0};
}

static bool same_cursor(gz_cursor a, gz_cursor b)
{
    return a.begun == b.begun && memcmp(a.last, b.last, sizeof a.last) == 0;
}

static void paging(bool quickly, const char *what, struct lent l, gz_cursor *cursor, size_t room, gz_quick_reply reply,
                   const uint16_t *rows, size_t rows_len, gz_cursor after)
{
    const char *function = quickly ? "gz_quick_page" : "gz_page";
    struct {
        uint64_t before;
        gz_cursor cursor;
        uint64_t behind;
    } lent_cursor = {PATTERN, *cursor, PATTERN};
    uint16_t memory[MARGIN + 64 + MARGIN], wanted[LENGTH(memory)];
    memset(memory, PATTERN, sizeof memory);
    memset(wanted, PATTERN, sizeof wanted);
    if (rows_len != 0)
        memcpy(wanted + MARGIN, rows, rows_len * sizeof *rows);
    gz_quick_reply r = paged(quickly, l, &lent_cursor.cursor, memory + MARGIN, room);
    *cursor = lent_cursor.cursor;
    expect(r.number == reply.number && r.place == reply.place, function, what, "reply");
    expect(r.count == reply.count && r.more == reply.more, function, what, "count or more");
    expect(r.evaluations == reply.evaluations, function, what, "evaluations");
    expect(memcmp(memory, wanted, sizeof memory) == 0, function, what, "buffer");
    expect(same_cursor(*cursor, after), function, what, "cursor");
    expect(lent_cursor.before == PATTERN && lent_cursor.behind == PATTERN, function, what, "memory beside the cursor");
}

static void page(const char *what, struct lent l, gz_cursor *cursor, size_t room, gz_page_reply reply, const uint16_t *rows,
                 size_t rows_len, gz_cursor after)
{
    gz_quick_reply uncounted = {reply.number, reply.place, reply.count, reply.more, 0};
    paging(false, what, l, cursor, room, uncounted, rows, rows_len, after);
}
#define ACCEPTED(count, more) (gz_page_reply){0, 0, count, more}
#define REFUSED(number, place) (gz_page_reply){number, place, 0, false}
#define CURSOR(begun, a, b, c) (gz_cursor){begun, {a, b, c}}
#define AT(a, b, c) CURSOR(1, a, b, c)

static void pages(void)
{
    struct lent bays = LENT(SLICE(pallets), 2, NOTHING);
    gz_cursor cursor = CURSOR(0, 7, 8, 900);
    page("rows 1 and 2", bays, &cursor, 5, ACCEPTED(2, true), NUMBERS(1, 2, 1, 3), AT(1, 3, 900));
    page("no variables", LENT(SLICE(pallets), 0, NOTHING), &cursor, 5, REFUSED(9, 0), NOTHING, AT(1, 3, 900));
    page("room for no row", bays, &cursor, 1, REFUSED(20, 0), NOTHING, AT(1, 3, 900));
    page("another tree, refused", ON(NUMBERS(65535, 65535), SLICE(pallets), 2, NOTHING), &cursor, 5, REFUSED(7, 0), NOTHING, AT(1, 3, 900));
    page("row 3", bays, &cursor, 5, ACCEPTED(1, false), NUMBERS(4, 5), AT(4, 5, 900));
    page("no more rows", bays, &cursor, 4, ACCEPTED(0, false), NOTHING, AT(4, 5, 900));
    cursor = AT(1, 4, 900);
    page("after (1, 4), no answer", bays, &cursor, 4, ACCEPTED(1, false), NUMBERS(4, 5), AT(4, 5, 900));
    cursor = AT(0, 0, 0);
    page("all at once", bays, &cursor, 64, ACCEPTED(3, false), NUMBERS(1, 2, 1, 3, 4, 5), AT(4, 5, 0));
    cursor = AT(1, 6, 0);
    page("a cursor at node 6", bays, &cursor, 4, REFUSED(17, 1), NOTHING, AT(1, 6, 0));
    cursor = AT(6, 6, 0);
    page("a cursor at nodes 6 and 6", bays, &cursor, 0, REFUSED(17, 0), NOTHING, AT(6, 6, 0));
    page("half an entry", ON(SLICE(warehouse), pallets, 26, 2, NOTHING), &cursor, 4, REFUSED(8, 0), NOTHING, AT(6, 6, 0));
    page("4 variables", LENT(SLICE(pallets), 4, NOTHING), &cursor, 8, REFUSED(9, 0), NOTHING, AT(6, 6, 0));
    page("an unknown variable", LENT(SLICE(pallets), 1, NOTHING), &cursor, 8, REFUSED(11, 4), NOTHING, AT(6, 6, 0));

    /* every byte but 0 is a begun cursor: it goes on like 1, is checked like 1, and is kept where no row is written */
    for (uint16_t byte = 1; byte < 256; byte++) {
        cursor = CURSOR((uint8_t)byte, 1, 2, 900);
        page("begun, room for no row", bays, &cursor, 1, REFUSED(20, 0), NOTHING, CURSOR((uint8_t)byte, 1, 2, 900));
        page("begun, no tree", ON(NOTHING, SLICE(pallets), 2, NOTHING), &cursor, 4, REFUSED(5, 0), NOTHING, CURSOR((uint8_t)byte, 1, 2, 900));
        page("begun, a third variable past the nodes", LENT(SLICE(pallets), 3, NOTHING), &cursor, 3, REFUSED(17, 2), NOTHING, CURSOR((uint8_t)byte, 1, 2, 900));
        page("begun, the next row", bays, &cursor, 2, ACCEPTED(1, true), NUMBERS(1, 3), AT(1, 3, 900));
        cursor = CURSOR((uint8_t)byte, 1, 3, 900);
        page("begun, the last row", bays, &cursor, 4, ACCEPTED(1, false), NUMBERS(4, 5), AT(4, 5, 900));
        cursor = CURSOR((uint8_t)byte, 4, 5, 900);
        page("begun, no more rows", bays, &cursor, 4, ACCEPTED(0, false), NOTHING, CURSOR((uint8_t)byte, 4, 5, 900));
    }
    cursor = CURSOR(0, 900, 900, 900);
    page("fresh, no row", LENT(NUMBERS(0, 0, 0, 9), 2, NOTHING), &cursor, 4, ACCEPTED(0, false), NOTHING, CURSOR(0, 900, 900, 900));

    /* self::1 union child::2[. is $0], and with self::9 */
    cursor = (gz_cursor){0};
    struct lent branches = LENT(NUMBERS(0, 0, 0, 1, 0, 1, 0, 2, 12, 0, 0, 0, 5, 1, 2, 0, 2, 0, 3, 0), 1, NOTHING);
    page("every node", branches, &cursor, 6, ACCEPTED(6, false), NUMBERS(0, 1, 2, 3, 4, 5), AT(5, 0, 0));
    cursor = (gz_cursor){0};
    struct lent one_branch = LENT(NUMBERS(0, 0, 0, 9, 0, 1, 0, 2, 12, 0, 0, 0, 5, 1, 2, 0, 2, 0, 3, 0), 1, NOTHING);
    page("the first bay", one_branch, &cursor, 1, ACCEPTED(1, true), NUMBERS(1), AT(1, 0, 0));
    page("the second bay", one_branch, &cursor, 1, ACCEPTED(1, false), NUMBERS(4), AT(4, 0, 0));

    /* self::*[. is $0] and self::node()[. is $0] below a document node */
    cursor = (gz_cursor){0};
    struct lent starred = ON(SLICE(document), NUMBERS(0, 0, 0, 65535, 12, 0, 0, 0, 5, 0, 1, 0), 1, NOTHING);
    page("all but the document node", starred, &cursor, 8, ACCEPTED(6, false), NUMBERS(1, 2, 3, 4, 5, 6), AT(6, 0, 0));
    cursor = (gz_cursor){0};
    struct lent unstarred = ON(SLICE(document), NUMBERS(0, 0, 0, 65534, 12, 0, 0, 0, 5, 0, 1, 0), 1, NOTHING);
    page("the document node too", unstarred, &cursor, 3, ACCEPTED(3, true), NUMBERS(0, 1, 2), AT(2, 0, 0));
    page("and the others", unstarred, &cursor, 8, ACCEPTED(4, false), NUMBERS(3, 4, 5, 6), AT(6, 0, 0));

    /* variables under a star and under a same */
    cursor = (gz_cursor){0};
    page("a variable under a star", LENT(SLICE(under_star), 1, NOTHING), &cursor, 6, ACCEPTED(2, false), NUMBERS(1, 4), AT(4, 0, 0));
    cursor = (gz_cursor){0};
    page("a variable under a same, two rows", LENT(SLICE(under_same), 2, NOTHING), &cursor, 5, ACCEPTED(2, true), NUMBERS(1, 2, 1, 3),
         AT(1, 3, 0));
    page("a variable under a same, row 3", LENT(SLICE(under_same), 2, NOTHING), &cursor, 5, ACCEPTED(1, false), NUMBERS(4, 5), AT(4, 5, 0));

    /* a third variable, which plays no part */
    cursor = AT(1, 2, 4);
    struct lent three = LENT(SLICE(pallets), 3, NOTHING);
    page("three variables", three, &cursor, 8, ACCEPTED(2, true), NUMBERS(1, 2, 5, 1, 3, 0), AT(1, 3, 0));
}

/* Quick pages. */

static void quick(const char *what, struct lent l, gz_cursor *cursor, size_t room, gz_quick_reply reply, const uint16_t *rows,
                  size_t rows_len, gz_cursor after)
{
    paging(true, what, l, cursor, room, reply, rows, rows_len, after);
}
#define COUNTED(count, more, evaluations) (gz_quick_reply){0, 0, count, more, evaluations}
#define UNCOUNTED(number, place) (gz_quick_reply){number, place, 0, false, 0}

/* The bays and pallets: the calls that docs/REFERENCE.md works out, with refused calls between them, and other cursors. */
static void quick_pages(void)
{
    struct lent bays = LENT(SLICE(pallets), 2, NOTHING);
    gz_cursor cursor = CURSOR(0, 7, 8, 900);
    quick("rows 1 and 2", bays, &cursor, 5, COUNTED(2, true, 18), NUMBERS(1, 2, 1, 3), AT(1, 3, 900));
    quick("no variables", LENT(SLICE(pallets), 0, NOTHING), &cursor, 5, UNCOUNTED(9, 0), NOTHING, AT(1, 3, 900));
    quick("room for no row", bays, &cursor, 1, UNCOUNTED(20, 0), NOTHING, AT(1, 3, 900));
    quick("another tree, refused", ON(NUMBERS(65535, 65535), SLICE(pallets), 2, NOTHING), &cursor, 5, UNCOUNTED(7, 0), NOTHING,
          AT(1, 3, 900));
    quick("another query, refused", LENT(NUMBERS(6, 0, 0, 0, 12, 0, 0, 0, 5, 0, 1, 0), 2, NOTHING), &cursor, 5, UNCOUNTED(29, 2), NOTHING,
          AT(1, 3, 900));
    quick("row 3", bays, &cursor, 5, COUNTED(1, false, 12), NUMBERS(4, 5), AT(4, 5, 900));
    quick("no more rows", bays, &cursor, 4, COUNTED(0, false, 1), NOTHING, AT(4, 5, 900));
    cursor = AT(1, 4, 900);
    quick("after (1, 4), no answer", bays, &cursor, 4, COUNTED(1, false, 11), NUMBERS(4, 5), AT(4, 5, 900));
    cursor = AT(0, 0, 0);
    quick("after (0, 0)", bays, &cursor, 64, COUNTED(3, false, 22), NUMBERS(1, 2, 1, 3, 4, 5), AT(4, 5, 0));
    cursor = (gz_cursor){0};
    quick("all at once", bays, &cursor, 64, COUNTED(3, false, 19), NUMBERS(1, 2, 1, 3, 4, 5), AT(4, 5, 0));
    cursor = AT(1, 6, 0);
    quick("a cursor at node 6", bays, &cursor, 4, UNCOUNTED(17, 1), NOTHING, AT(1, 6, 0));
    cursor = AT(6, 6, 0);
    quick("a cursor at nodes 6 and 6", bays, &cursor, 0, UNCOUNTED(17, 0), NOTHING, AT(6, 6, 0));
    quick("no tree", ON(NOTHING, SLICE(pallets), 2, NOTHING), &cursor, 4, UNCOUNTED(5, 0), NOTHING, AT(6, 6, 0));
    quick("a bad parent", ON(NUMBERS(65535, 1, 1, 2), SLICE(pallets), 2, NOTHING), &cursor, 4, UNCOUNTED(6, 1), NOTHING, AT(6, 6, 0));
    quick("half an entry", ON(SLICE(warehouse), pallets, 26, 2, NOTHING), &cursor, 4, UNCOUNTED(8, 0), NOTHING, AT(6, 6, 0));
    quick("4 variables", LENT(SLICE(pallets), 4, NOTHING), &cursor, 8, UNCOUNTED(9, 0), NOTHING, AT(6, 6, 0));
    quick("an unknown variable", LENT(SLICE(pallets), 1, NOTHING), &cursor, 8, UNCOUNTED(11, 4), NOTHING, AT(6, 6, 0));
    for (uint16_t byte = 1; byte < 256; byte++) {
        cursor = CURSOR((uint8_t)byte, 1, 3, 900);
        quick("begun, room for no row", bays, &cursor, 1, UNCOUNTED(20, 0), NOTHING, CURSOR((uint8_t)byte, 1, 3, 900));
        quick("begun, the last row", bays, &cursor, 4, COUNTED(1, false, 12), NUMBERS(4, 5), AT(4, 5, 900));
        cursor = CURSOR((uint8_t)byte, 4, 5, 900);
        quick("begun, no more rows", bays, &cursor, 4, COUNTED(0, false, 1), NOTHING, CURSOR((uint8_t)byte, 4, 5, 900));
    }
    cursor = CURSOR(0, 900, 900, 900);
    quick("fresh, no row", LENT(NUMBERS(0, 0, 0, 9), 2, NOTHING), &cursor, 4, COUNTED(0, false, 1), NOTHING, CURSOR(0, 900, 900, 900));

    /* calls of both sorts over one cursor, one row a call, and a page that takes what a quick page refuses */
    struct lent squared = LENT(NUMBERS(0, 5, 0, 2, 12, 0, 0, 0, 5, 0, 1, 0, 0, 1, 0, 3, 12, 0, 0, 0, 5, 3, 4, 0, 1, 2, 5, 0), 2, NOTHING);
    cursor = (gz_cursor){0};
    page("row 1", bays, &cursor, 2, ACCEPTED(1, true), NUMBERS(1, 2), AT(1, 2, 0));
    quick("row 2", bays, &cursor, 2, COUNTED(1, true, 12), NUMBERS(1, 3), AT(1, 3, 0));
    quick("refused between", squared, &cursor, 2, UNCOUNTED(29, 6), NOTHING, AT(1, 3, 0));
    gz_cursor beyond = AT(6, 6, 0);
    quick("refused before cursor and room", squared, &beyond, 0, UNCOUNTED(29, 6), NOTHING, AT(6, 6, 0));
    page("row 3", bays, &cursor, 2, ACCEPTED(1, false), NUMBERS(4, 5), AT(4, 5, 0));
    quick("no more rows", bays, &cursor, 2, COUNTED(0, false, 1), NOTHING, AT(4, 5, 0));
    cursor = (gz_cursor){0};
    quick("row 1", bays, &cursor, 2, COUNTED(1, true, 7), NUMBERS(1, 2), AT(1, 2, 0));
    page("rows 2 and 3", bays, &cursor, 4, ACCEPTED(2, false), NUMBERS(1, 3, 4, 5), AT(4, 5, 0));
    cursor = (gz_cursor){0};
    page("no node is its own child", squared, &cursor, 4, ACCEPTED(0, false), NOTHING, (gz_cursor){0});

    /* a star and a same beside the variables: .[. is $0]/(child::*)*[. is $1] and $0[child::* same descendant::3]; and over them */
    struct lent below = LENT(NUMBERS(SELF, ONE(12, 0), TWO(5, 0, 1), STEP(1, STAR), ONE(13, 3), ONE(12, 1), TWO(5, 4, 5), TWO(1, 2, 6)), 2,
                             NOTHING);
    cursor = AT(0, 4, 900);
    quick("a star, after (0, 4)", below, &cursor, 4, COUNTED(2, true, 5), NUMBERS(0, 5, 1, 1), AT(1, 1, 900));
    quick("a star, the next two", below, &cursor, 5, COUNTED(2, true, 8), NUMBERS(1, 2, 1, 3), AT(1, 3, 900));
    quick("a variable under a star", LENT(SLICE(under_star), 1, NOTHING), &cursor, 4, UNCOUNTED(29, 3), NOTHING, AT(1, 3, 900));
    quick("a variable under a same", LENT(SLICE(under_same), 2, NOTHING), &cursor, 4, UNCOUNTED(29, 5), NOTHING, AT(1, 3, 900));
    page("a star, the next row by a page", below, &cursor, 2, ACCEPTED(1, true), NUMBERS(2, 2), AT(2, 2, 900));
    struct lent same_kept = LENT(NUMBERS(ONE(6, 0), STEP(1, STAR), STEP(5, 3), TWO(14, 1, 2), TWO(5, 0, 3)), 1, NOTHING);
    cursor = (gz_cursor){0};
    quick("a same", same_kept, &cursor, 6, COUNTED(2, false, 7), NUMBERS(1, 4), AT(4, 0, 0));

    /* a document node is among those that a variable stands for: $0[not(..)] */
    cursor = (gz_cursor){0};
    struct lent top = ON(SLICE(document), NUMBERS(6, 0, 0, 0, 0, 2, 0, 65534, 8, 1, 0, 0, 9, 2, 0, 0, 5, 0, 3, 0), 1, NOTHING);
    quick("the document node", top, &cursor, 4, COUNTED(1, false, 8), NUMBERS(0), AT(0, 0, 0));
    cursor = (gz_cursor){0};
    quick("a document node alone", ON(NUMBERS(65535, 65534), NUMBERS(6, 0, 0, 0), 3, NOTHING), &cursor, 3, COUNTED(1, false, 4),
          NUMBERS(0, 0, 0), AT(0, 0, 0));

    /* as many entries as a query may have, and one more: $0, and 63 or 64 times 'from the root' */
    uint16_t nested[4 * 65] = {6};
    for (uint16_t e = 1; e < 65; e++)
        nested[4 * e] = 7, nested[4 * e + 1] = e - 1;
    cursor = (gz_cursor){0};
    quick("64 entries", LENT(nested, 256, 1, NOTHING), &cursor, 6, COUNTED(6, false, 7), NUMBERS(0, 1, 2, 3, 4, 5), AT(5, 0, 0));
    quick("65 entries", LENT(nested, 260, 1, NOTHING), &cursor, 6, UNCOUNTED(8, 0), NOTHING, AT(5, 0, 0));
}

/* A query that breaks the rule at an entry, whatever cursor and room it is lent. With 'some' over it, it is refused with 15 instead.
   gz_page takes it. */
static void breaks(const char *what, const uint16_t *query, size_t length, uint16_t columns, uint16_t place)
{
    static const gz_cursor cursors[] = {{0, {0, 0, 0}}, {1, {1, 2, 3}}, {1, {6, 0, 0}}, {9, {0, 0, 65535}}};
    for (size_t i = 0; i < LENGTH(cursors); i++)
        for (size_t room = 0; room < 64; room += 9) {
            gz_cursor cursor = cursors[i];
            quick(what, LENT(query, length, columns, NOTHING), &cursor, room, UNCOUNTED(29, place), NOTHING, cursors[i]);
        }
    uint16_t longer[256] = {0}, rows[3], last = (uint16_t)(length / 4);
    memcpy(longer, query, length * sizeof *query);
    longer[length] = 8, longer[length + 1] = last - 1;
    gz_cursor cursor = {0};
    quick(what, LENT(longer, length + 4, columns, NOTHING), &cursor, 3, UNCOUNTED(15, last), NOTHING, (gz_cursor){0});
    struct shared t = common(SLICE(warehouse));
    expect(gz_page(SHARED(t), query, length, columns, &cursor, rows, 3).number == 0, "gz_page", what, "reply");
}

/* Each kind that can break the rule, by each variable, in either operand; below other entries; the lowest of several. */
static void broken_rules(void)
{
    for (uint16_t v = 0; v < 3; v++) {
        uint16_t other = (v + 1) % 3;
        breaks("compose", NUMBERS(6, v, 0, 0, 6, v, 0, 0, 1, 0, 1, 0), 3, 2);
        breaks("filter", NUMBERS(6, v, 0, 0, 12, v, 0, 0, 5, 0, 1, 0), 3, 2);
        breaks("and", NUMBERS(0, 0, 0, 2, 12, v, 0, 0, 12, v, 0, 0, 10, 1, 2, 0, 5, 0, 3, 0), 3, 3);
        breaks("intersect, left", NUMBERS(6, v, 0, 0, 0, 0, 0, 2, 3, 0, 1, 0), 3, 2);
        breaks("intersect, right", NUMBERS(0, 0, 0, 2, 6, v, 0, 0, 3, 0, 1, 0), 3, 2);
        breaks("except, left", NUMBERS(6, v, 0, 0, 0, 0, 0, 2, 4, 0, 1, 0), 3, 2);
        breaks("except, right", NUMBERS(0, 0, 0, 2, 6, v, 0, 0, 4, 0, 1, 0), 3, 2);
        breaks("not", NUMBERS(0, 0, 0, 2, 12, v, 0, 0, 9, 1, 0, 0, 5, 0, 2, 0), 3, 2);
        breaks("not, of a path", NUMBERS(0, 0, 0, 2, 6, v, 0, 0, 8, 1, 0, 0, 9, 2, 0, 0, 5, 0, 3, 0), 3, 3);
        breaks("star", NUMBERS(ONE(6, v), ONE(13, 0)), 3, 1);
        breaks("star, of is", NUMBERS(SELF, ONE(12, v), TWO(5, 0, 1), ONE(13, 2)), 3, 3);
        breaks("same, left", NUMBERS(SELF, ONE(6, v), STEP(1, 2), TWO(14, 1, 2), TWO(5, 0, 3)), 3, 3);
        breaks("same, right", NUMBERS(SELF, STEP(1, 2), ONE(6, v), TWO(14, 1, 2), TWO(5, 0, 3)), 3, 3);
        breaks("same, both", NUMBERS(SELF, ONE(6, v), ONE(6, v), TWO(14, 1, 2), TWO(5, 0, 3)), 3, 3);
        breaks("same, two variables", NUMBERS(SELF, ONE(6, v), ONE(6, other), TWO(14, 1, 2), TWO(5, 0, 3)), 3, 3);
        /* stars of stars and of paths of two operands, a same under a not and over a star: the lowest entry */
        breaks("star of a star", NUMBERS(ONE(6, v), ONE(13, 0), ONE(13, 1)), 3, 1);
        breaks("star of a union", NUMBERS(STEP(1, 2), ONE(6, v), TWO(2, 0, 1), ONE(13, 2)), 3, 3);
        breaks("star of a composition that breaks it", NUMBERS(ONE(6, v), ONE(6, v), TWO(1, 0, 1), ONE(13, 2)), 3, 2);
        breaks("star, composed with its variable", NUMBERS(ONE(6, v), STEP(1, 2), ONE(6, v), TWO(2, 1, 2), ONE(13, 3), TWO(1, 0, 4)), 3, 4);
        breaks("same under a not", NUMBERS(SELF, ONE(6, v), SELF, TWO(14, 1, 2), ONE(9, 3), TWO(5, 0, 4)), 3, 3);
        breaks("same over a star", NUMBERS(SELF, SELF, ONE(6, v), ONE(13, 2), TWO(14, 1, 3), TWO(5, 0, 4)), 3, 3);
        breaks("same over a filter", NUMBERS(SELF, SELF, ONE(12, v), TWO(5, 1, 2), STEP(1, 2), TWO(14, 3, 4), TWO(5, 0, 5)), 3, 5);
        breaks("star and same beside other variables",
               NUMBERS(ONE(6, other), STEP(1, 2), ONE(13, 1), TWO(1, 0, 2), SELF, ONE(6, v), TWO(14, 4, 5), TWO(5, 3, 6)), 3, 6);
        /* ($v/$w)/(self::2 union /$v): not right below the compose */
        breaks("compose, deep",
               NUMBERS(6, v, 0, 0, 6, other, 0, 0, 1, 0, 1, 0, 0, 0, 0, 2, 6, v, 0, 0, 7, 4, 0, 0, 2, 3, 5, 0, 1, 2, 6, 0), 3, 7);
        /* self::2[. is $v or . is $w]/.[$v]: the filters have $v on one side alone, the compose on both */
        breaks("compose of filters",
               NUMBERS(0, 0, 0, 2, 12, v, 0, 0, 12, other, 0, 0, 11, 1, 2, 0, 5, 0, 3, 0, 0, 0, 0, 65534, 6, v, 0, 0, 8, 6, 0, 0,
                       5, 5, 7, 0, 1, 4, 8, 0), 3, 9);
        /* $v/$v intersect $w: the compose breaks it, and so does the intersect above it */
        breaks("two of them", NUMBERS(6, v, 0, 0, 6, v, 0, 0, 1, 0, 1, 0, 6, other, 0, 0, 3, 2, 3, 0), 3, 2);
        /* the same with the operand that breaks it behind the other */
        breaks("two of them, the other way", NUMBERS(6, other, 0, 0, 6, v, 0, 0, 6, v, 0, 0, 1, 1, 2, 0, 3, 0, 3, 0), 3, 3);
    }
    breaks("two variables under an except", NUMBERS(6, 0, 0, 0, 6, 1, 0, 0, 4, 0, 1, 0), 2, 2);

    /* 15 before 29 where both are told of one entry, and 29 before 17 and 20, which are told of a query that keeps the rule */
    gz_cursor cursor = AT(6, 6, 6);
    quick("a node expression", LENT(NUMBERS(12, 0, 0, 0, 12, 0, 0, 0, 10, 0, 1, 0), 1, NOTHING), &cursor, 0, UNCOUNTED(15, 2), NOTHING,
          AT(6, 6, 6));
    quick("a rule that is kept", LENT(NUMBERS(6, 0, 0, 0, 12, 1, 0, 0, 5, 0, 1, 0), 2, NOTHING), &cursor, 0, UNCOUNTED(17, 0), NOTHING,
          AT(6, 6, 6));
    cursor = AT(5, 5, 6);
    quick("a rule that is kept", LENT(NUMBERS(6, 0, 0, 0, 12, 1, 0, 0, 5, 0, 1, 0), 2, NOTHING), &cursor, 1, UNCOUNTED(20, 0), NOTHING,
          AT(5, 5, 6));
}

/* How many evaluations it takes to find the row `to` after the row `from`, or that there is none; the first of all rows, or that there
   is none. Where there is no such row, it is NULL. */
static size_t sought(size_t n, size_t k, const uint16_t *from, const uint16_t *to)
{
    size_t j = 0, evaluations = 0;
    if (from == NULL) {
        for (size_t i = 0; to != NULL && i < k; i++)
            evaluations += to[i] + 1u;
        return evaluations + 1;
    }
    while (to != NULL && from[j] == to[j])
        j++;
    for (size_t i = j; i < k; i++)
        evaluations += to == NULL ? n - 1 - from[i] : i == j ? (size_t)(to[i] - from[i]) : n - 1 - from[i] + to[i] + 1;
    return evaluations;
}

/* Every answer of a query, by gz_page, and how many there are. */
#define MOST_ROWS 343
static uint16_t every_row[3 * MOST_ROWS];

static size_t every_answer(struct lent l)
{
    gz_cursor cursor = {0};
    gz_page_reply r = gz_page(SHARED(l.tree), l.query, l.query_len, l.columns, &cursor, every_row, LENGTH(every_row));
    return r.number == 0 && !r.more ? r.count : 0;
}

/* What a quick page leaves of a cursor is what a page leaves, with the evaluations that the rows take, and within the bound. */
static void same_page(const char *what, struct lent l, size_t answers, gz_cursor lent_cursor, size_t room)
{
    static uint16_t plainly[MARGIN + 3 * MOST_ROWS + MARGIN], quickly[LENGTH(plainly)];
    size_t n = l.n, k = l.columns, first = 0, evaluations = 0;
    gz_cursor plain_cursor = lent_cursor, quick_cursor = lent_cursor;
    const uint16_t *before = lent_cursor.begun ? lent_cursor.last : NULL;
    memset(plainly, PATTERN, sizeof plainly);
    memset(quickly, PATTERN, sizeof quickly);
    gz_quick_reply p = paged(false, l, &plain_cursor, plainly + MARGIN, room), q = paged(true, l, &quick_cursor, quickly + MARGIN, room);
    expect(p.number == q.number && p.place == q.place && p.count == q.count && p.more == q.more, "gz_quick_page", what, "reply");
    expect(memcmp(plainly, quickly, sizeof quickly) == 0, "gz_quick_page", what, "buffer");
    expect(same_cursor(plain_cursor, quick_cursor), "gz_quick_page", what, "cursor");
    while (before != NULL && first < answers) {
        size_t j = 0;
        while (j < k && every_row[k * first + j] == before[j])
            j++;
        if (j < k && every_row[k * first + j] > before[j])
            break;
        first++;
    }
    for (size_t i = 0; i <= q.count; i++) {
        const uint16_t *next = first + i < answers ? every_row + k * (first + i) : NULL;
        evaluations += sought(n, k, before, next);
        before = next;
    }
    expect(q.evaluations == evaluations && evaluations <= 6 * n * (q.count + 1), "gz_quick_page", what, "evaluations");
}

/* The same from every cursor, fresh and at each row, with room for one row, for two and a part of one, and for all. */
static void same_pages(const char *what, struct lent l)
{
    size_t n = l.n, k = l.columns, answers = every_answer(l), rows = k == 1 ? n : k == 2 ? n * n : n * n * n;
    size_t rooms[] = {k, 3 * k - 1, 3 * MOST_ROWS};
    for (size_t i = 0; i < LENGTH(rooms); i++) {
        same_page(what, l, answers, CURSOR(0, 900, 900, 900), rooms[i]);
        for (size_t row = 0; row < rows; row++) {
            gz_cursor cursor = AT(900, 900, 900);
            for (size_t j = k, rest = row; j-- > 0; rest /= n)
                cursor.last[j] = (uint16_t)(rest % n);
            same_page(what, l, answers, cursor, rooms[i]);
        }
    }
}

/* As many nodes as a tree may have: a hall with 5 aisles (tag 2), each with 5 bays (3), each with 9 pallets (4); and its pallets, each
   behind its aisle and its bay. */
static uint16_t hall[512], hall_nodes, hall_rows[3 * 225];

static uint16_t put(uint16_t parent, uint16_t tag)
{
    hall[2 * hall_nodes] = parent, hall[2 * hall_nodes + 1] = tag;
    return hall_nodes++;
}

static void fill_hall(void)
{
    uint16_t *end = hall_rows;
    put(65535, 1);
    for (int i = 0; i < 5; i++) {
        uint16_t aisle = put(0, 2);
        for (int j = 0; j < 5; j++) {
            uint16_t bay = put(aisle, 3);
            for (int k = 0; k < 9; k++)
                *end++ = aisle, *end++ = bay, *end++ = put(bay, 4);
        }
    }
}

/* Three variables over 256 nodes: child::2[. is $0]/child::3[. is $1]/child::4[. is $2], the pallets with their places, in pages of
   some rows from a fresh cursor on; every page is followed by one that is refused. */
static void places(size_t page_rows)
{
    static const uint16_t query[] = {0, 1, 0, 2, 12, 0, 0, 0, 5, 0, 1, 0, 0, 1, 0, 3, 12, 1, 0, 0, 5, 3, 4, 0, 1, 2, 5, 0,
                                     0, 1, 0, 4, 12, 2, 0, 0, 5, 7, 8, 0, 1, 6, 9, 0};
    const uint16_t *due = hall_rows;
    uint16_t rows[3 * 256 + 2];
    size_t given = 0;
    struct lent l = ON(SLICE(hall), SLICE(query), 3, NOTHING);
    gz_cursor cursor = {0};
    for (bool more = true; more && given < 225; given += page_rows) {
        size_t wanted = 225 - given < page_rows ? 225 - given : page_rows;
        memset(rows, PATTERN, sizeof rows);
        gz_quick_reply r = paged(true, l, &cursor, rows, 3 * page_rows + 2);
        more = r.more;
        expect(r.number == 0 && r.place == 0 && r.count == wanted && more == (given + wanted < 225), "gz_quick_page", "256 nodes", "reply");
        expect(memcmp(rows, due + 3 * given, 3 * wanted * sizeof *rows) == 0, "gz_quick_page", "256 nodes", "rows");
        expect(rows[3 * wanted] == 257 * PATTERN, "gz_quick_page", "256 nodes", "number behind the rows");
        expect(cursor.begun == 1 && memcmp(cursor.last, due + 3 * (given + wanted - 1), sizeof cursor.last) == 0, "gz_quick_page", "256 nodes",
               "cursor");
        size_t evaluations = 0;
        for (size_t i = given; i <= given + wanted; i++)
            evaluations += sought(256, 3, i == 0 ? NULL : due + 3 * (i - 1), i < 225 ? due + 3 * i : NULL);
        expect(r.evaluations == evaluations && evaluations <= 6 * 256 * (wanted + 1), "gz_quick_page", "256 nodes", "evaluations");
        gz_cursor same = cursor;
        quick("256 nodes, refused", ON(hall, 511, SLICE(query), 3, NOTHING), &same, 3, UNCOUNTED(5, 0), NOTHING, cursor);
    }
}

/* The dearest searches there are: the only answer is the last row, (255, 255, 255), or there is none. */
static void dear_searches(void)
{
    uint16_t flat[512] = {65535};
    for (uint16_t tag = 0; tag < 2; tag++) {
        flat[511] = tag;
        struct lent l = ON(SLICE(flat), NUMBERS(0, 0, 0, 1, 12, 0, 0, 0, 5, 0, 1, 0, 0, 0, 0, 1, 12, 1, 0, 0, 5, 3, 4, 0, 1, 2, 5, 0,
                                                0, 0, 0, 1, 12, 2, 0, 0, 5, 7, 8, 0, 1, 6, 9, 0), 3, NOTHING);
        gz_cursor first = AT(0, 0, 0), before = AT(255, 255, 254), last = AT(255, 255, 255), fresh = {0}, cursor = first;
        const uint16_t row[] = {255, 255, 255};
        size_t numbers = tag ? 3 : 0;
        quick("from the first row", l, &cursor, 6, COUNTED(tag, false, tag ? 1277 : 765), row, numbers, tag ? last : first);
        cursor = before;
        quick("from the row before the last", l, &cursor, 6, COUNTED(tag, false, 1), row, numbers, tag ? last : before);
        cursor = last;
        quick("from the last row", l, &cursor, 6, COUNTED(0, false, 0), NOTHING, last);
        cursor = fresh;
        quick("from a fresh cursor", l, &cursor, 6, COUNTED(tag, false, tag ? 769 : 1), row, numbers, tag ? last : fresh);
    }
}

/* Pages of queries in any shape, where whole blocks of rows are left out. */

/* The answers by trying every row: those under which the forward image of all nodes has a node. */
static size_t tried_rows(struct lent l)
{
    uint8_t from[256], to[256];
    uint16_t row[3] = {0, 0, 0};
    size_t n = l.n, k = l.columns, answers = 0, rows = k == 1 ? n : k == 2 ? n * n : n * n * n;
    memset(from, 1, n);
    for (size_t at = 0; at < rows; at++) {
        for (size_t j = k, rest = at; j-- > 0; rest /= n)
            row[j] = (uint16_t)(rest % n);
        if (gz_forwards(SHARED(l.tree), l.query, l.query_len, l.columns, row, k, from, n, to, n).count != 0)
            memcpy(every_row + k * answers++, row, k * sizeof *row);
    }
    return answers;
}

/* A page after a cursor, or from the first answer on, holds the next of these. */
static void page_due(const char *what, struct lent l, size_t answers, gz_cursor cursor, size_t room)
{
    static uint16_t memory[MARGIN + 3 * MOST_ROWS + MARGIN], wanted[LENGTH(memory)];
    size_t k = l.columns, first = 0;
    gz_cursor after = cursor;
    for (; cursor.begun && first < answers; first++) {
        size_t j = 0;
        while (j < k && every_row[k * first + j] == cursor.last[j])
            j++;
        if (j < k && every_row[k * first + j] > cursor.last[j])
            break;
    }
    size_t count = answers - first < room / k ? answers - first : room / k;
    memset(memory, PATTERN, sizeof memory);
    memset(wanted, PATTERN, sizeof wanted);
    memcpy(wanted + MARGIN, every_row + k * first, k * count * sizeof *wanted);
    if (count != 0) {
        after.begun = 1;
        memcpy(after.last, every_row + k * (first + count - 1), k * sizeof *after.last);
    }
    gz_page_reply r = gz_page(SHARED(l.tree), l.query, l.query_len, l.columns, &cursor, memory + MARGIN, room);
    expect(r.number == 0 && r.place == 0 && r.count == count && r.more == (first + count < answers), "gz_page", what, "reply");
    expect(memcmp(memory, wanted, sizeof memory) == 0, "gz_page", what, "buffer");
    expect(same_cursor(cursor, after), "gz_page", what, "cursor");
}

/* The same from every cursor, fresh and at each row, with room for one row, for two and a part of one, and for all; with as many variables
   as the query has, and with those more that play no part. */
static void pages_due(const char *what, const uint16_t *query, size_t length, uint16_t columns)
{
    for (; columns <= 3; columns++) {
        struct lent l = LENT(query, length, columns, NOTHING);
        size_t n = l.n, k = columns, answers = tried_rows(l), rows = k == 1 ? n : k == 2 ? n * n : n * n * n;
        size_t rooms[] = {k, 3 * k - 1, 3 * MOST_ROWS};
        for (size_t i = 0; i < LENGTH(rooms); i++) {
            page_due(what, l, answers, CURSOR(0, 900, 900, 900), rooms[i]);
            for (size_t row = 0; row < rows; row++) {
                gz_cursor cursor = AT(900, 900, 900);
                for (size_t j = k, rest = row; j-- > 0; rest /= n)
                    cursor.last[j] = (uint16_t)(rest % n);
                page_due(what, l, answers, cursor, rooms[i]);
            }
        }
    }
}

/* Variables at places of every sort: none, under not, right of except, in intersect, star and same, shared; before, between and behind what no
   variable decides. */
static void blocks(void)
{
    pages_due("self::9", NUMBERS(STEP(0, 9)), 1);
    pages_due("self::2", NUMBERS(STEP(0, 2)), 1);
    pages_due("/child::2/child::3", NUMBERS(STEP(1, 2), STEP(1, 3), TWO(1, 0, 1), ONE(7, 2)), 1);
    pages_due("$0 intersect self::2", NUMBERS(ONE(6, 0), STEP(0, 2), TWO(3, 0, 1)), 1);
    pages_due("self::2[not(. is $0)]", NUMBERS(STEP(0, 2), ONE(12, 0), ONE(9, 1), TWO(5, 0, 2)), 1);
    pages_due("self::1[not(. is $0)]", NUMBERS(STEP(0, 1), ONE(12, 0), ONE(9, 1), TWO(5, 0, 2)), 1);
    pages_due(".[. is $1][not(. is $0)]", NUMBERS(SELF, ONE(12, 1), TWO(5, 0, 1), ONE(12, 0), ONE(9, 3), TWO(5, 2, 4)), 2);
    pages_due(".[. is $0][not(. is $1)]", NUMBERS(SELF, ONE(12, 0), TWO(5, 0, 1), ONE(12, 1), ONE(9, 3), TWO(5, 2, 4)), 2);
    pages_due("child::3[. is $0][not(. is $2)]", NUMBERS(STEP(1, 3), ONE(12, 0), TWO(5, 0, 1), ONE(12, 2), ONE(9, 3), TWO(5, 2, 4)), 3);
    pages_due("child::3[. is $2][not(. is $0)]", NUMBERS(STEP(1, 3), ONE(12, 2), TWO(5, 0, 1), ONE(12, 0), ONE(9, 3), TWO(5, 2, 4)), 3);
    pages_due("child::3[. is $1] except $0", NUMBERS(STEP(1, 3), ONE(12, 1), TWO(5, 0, 1), ONE(6, 0), TWO(4, 2, 3)), 2);
    pages_due("child::3[. is $0] except $1", NUMBERS(STEP(1, 3), ONE(12, 0), TWO(5, 0, 1), ONE(6, 1), TWO(4, 2, 3)), 2);
    pages_due("$0 except self::node()", NUMBERS(ONE(6, 0), SELF, TWO(4, 0, 1)), 1);
    pages_due("descendant::2[. is $0]/child::3 intersect $1",
              NUMBERS(STEP(5, 2), ONE(12, 0), TWO(5, 0, 1), STEP(1, 3), TWO(1, 2, 3), ONE(6, 1), TWO(3, 4, 5)), 2);
    pages_due("descendant::2[. is $0]/child::3 intersect $2",
              NUMBERS(STEP(5, 2), ONE(12, 0), TWO(5, 0, 1), STEP(1, 3), TWO(1, 2, 3), ONE(6, 2), TWO(3, 4, 5)), 3);
    pages_due("child::2[. is $0]/child::3[. is $1] intersect $2/right::*",
              NUMBERS(STEP(1, 2), ONE(12, 0), TWO(5, 0, 1), STEP(1, 3), ONE(12, 1), TWO(5, 3, 4), TWO(1, 2, 5), ONE(6, 2), STEP(3, STAR),
                      TWO(1, 7, 8), TWO(3, 6, 9)), 3);
    pages_due("not of a not of $0", NUMBERS(STEP(0, 3), ONE(12, 0), ONE(9, 1), ONE(9, 2), TWO(5, 0, 3)), 1);
    pages_due(".[. is $0]/self::2[. is $0]", NUMBERS(SELF, ONE(12, 0), TWO(5, 0, 1), STEP(0, 2), ONE(12, 0), TWO(5, 3, 4), TWO(1, 2, 5)), 1);
    pages_due("a variable under a star", SLICE(under_star), 1);
    pages_due("a variable under a same", SLICE(under_same), 2);
    pages_due("the bays with their pallets", SLICE(pallets), 2);
    pages_due("child::2/child::3[. is $0]/following::*", NUMBERS(STEP(1, 2), STEP(1, 3), ONE(12, 0), TWO(5, 1, 2), TWO(1, 0, 3), STEP(7, STAR),
                                                                 TWO(1, 4, 5)), 1);
    pages_due("/child::2[. is $0][not(right::*)]/child::3",
              NUMBERS(STEP(1, 2), ONE(12, 0), TWO(5, 0, 1), STEP(3, STAR), ONE(8, 3), ONE(9, 4), TWO(5, 2, 5), STEP(1, 3), TWO(1, 6, 7),
                      ONE(7, 8)), 1);
    pages_due("self::9/.[. is $0]", NUMBERS(STEP(0, 9), SELF, ONE(12, 0), TWO(5, 1, 2), TWO(1, 0, 3)), 1);
    pages_due("/(child::*[/child::2[. is $1]])[child::3]", NUMBERS(STEP(1, STAR), STEP(1, 2), ONE(12, 1), TWO(5, 1, 2), ONE(7, 3), ONE(8, 4),
                                                                   TWO(5, 0, 5), STEP(1, 3), ONE(8, 7), TWO(5, 6, 8), ONE(7, 9)), 2);
    pages_due("child::2[child::3 same child::3/..[. is $0]/child::*]",
              NUMBERS(STEP(1, 2), STEP(1, 3), STEP(1, 3), PARENT, ONE(12, 0), TWO(5, 3, 4), TWO(1, 2, 5), STEP(1, STAR), TWO(1, 6, 7),
                      TWO(14, 1, 8), TWO(5, 0, 9)), 1);
}

/* As large as a tree may be: a query that holds nowhere, and the pallets with their places as an intersect, which no quick page takes. Row by row
   each would take 16,777,216 evaluations. */
static void large_blocks(void)
{
    static const uint16_t query[] = {STEP(1, 2), ONE(12, 0), TWO(5, 0, 1), STEP(1, 3), ONE(12, 1), TWO(5, 3, 4), TWO(1, 2, 5),
                                     STEP(1, 4), TWO(1, 6, 7), ONE(6, 2), TWO(3, 8, 9)};
    uint16_t rows[3 * 256];
    gz_cursor cursor = {0};
    gz_page_reply r = gz_page(SHARED(ON(SLICE(hall), NUMBERS(STEP(0, 9)), 3, NOTHING).tree), NUMBERS(STEP(0, 9)), 3, &cursor, rows, LENGTH(rows));
    expect(r.number == 0 && r.count == 0 && !r.more && !cursor.begun, "gz_page", "self::9 with three variables", "reply");
    struct lent l = ON(SLICE(hall), SLICE(query), 3, NOTHING);
    r = gz_page(SHARED(l.tree), l.query, l.query_len, 3, &cursor, rows, LENGTH(rows));
    expect(r.number == 0 && r.count == 225 && !r.more, "gz_page", "an intersect with three variables", "reply");
    expect(memcmp(rows, hall_rows, sizeof hall_rows) == 0, "gz_page", "an intersect with three variables", "rows");
}

/* Names. */

static const uint8_t house[] = "\5store\4hall\3bay", site[] = "\6pallet";
#define TABLE(a) (const uint8_t *)(a), sizeof(a) - 1

static void name(const char *what, const uint8_t *h, size_t h_len, const uint8_t *s, size_t s_len, uint16_t tag, uint16_t number,
                 uint16_t place, const uint8_t *start, size_t length)
{
    struct {
        uint64_t before;
        gz_part part;
        uint64_t behind;
    } out = {PATTERN, {site, 3}, PATTERN};
    gz_reply r = gz_name(h, h_len, s, s_len, tag, &out.part);
    expect(r.number == number && r.place == place, "gz_name", what, "reply");
    /* of a table that is lent as NULL the empty part may start anywhere */
    expect((start == NULL || out.part.start == start) && out.part.length == length, "gz_name", what, "part");
    expect(out.before == PATTERN && out.behind == PATTERN, "gz_name", what, "memory beside the part");
}

static void names(void)
{
    static const uint8_t zero[] = "\5store\0", long_name[] = "\41abcdefghijklmnopqrstuvwxyz0123456";
    name("store", TABLE(house), TABLE(site), 0, 0, 0, house + 1, 5);
    name("hall", TABLE(house), TABLE(site), 1, 0, 0, house + 7, 4);
    name("bay", TABLE(house), TABLE(site), 2, 0, 0, house + 12, 3);
    name("pallet", TABLE(house), TABLE(site), 3, 0, 0, site + 1, 6);
    name("no house", NOTHING, TABLE(site), 0, 0, 0, site + 1, 6);
    name("no such name", TABLE(house), TABLE(site), 4, 22, 0, house, 0);
    name("tag 65534", TABLE(house), TABLE(site), 65534, 22, 0, house, 0);
    name("tag 65535", TABLE(house), TABLE(site), 65535, 22, 0, house, 0);
    name("no names", NOTHING, NOTHING, 0, 22, 0, NULL, 0);
    name("a length of 0", TABLE(zero), TABLE(site), 0, 21, 0, zero, 0);
    name("a length of 33", TABLE(long_name), TABLE(site), 0, 21, 0, long_name, 0);
    name("a name past the end", TABLE(house), site, 6, 0, 21, 1, house, 0);
    name("both tables", zero, 6 + 1, site, 6, 0, 21, 0, zero, 0);
}

/* Typed queries. The text and the name tables stand in memory that is filled with the pattern, as the buffer does, and all of it is
   compared. */

#define LONGEST 140000
static struct bytes_lent {
    uint8_t memory[MARGIN + LONGEST + MARGIN], before[MARGIN + LONGEST + MARGIN];
} text_lent, house_lent, site_lent;

static const uint8_t *lend(struct bytes_lent *l, const uint8_t *from, size_t length)
{
    memset(l->memory, PATTERN, MARGIN + length + MARGIN);
    if (length != 0)
        memcpy(l->memory + MARGIN, from, length);
    memcpy(l->before, l->memory, MARGIN + length + MARGIN);
    return length == 0 ? NULL : l->memory + MARGIN;
}

static bool kept(const struct bytes_lent *l, size_t length)
{
    return memcmp(l->memory, l->before, MARGIN + length + MARGIN) == 0;
}

struct vocabulary {
    const uint8_t *house;
    size_t house_len;
    const uint8_t *site;
    size_t site_len;
};
#define NAMES(h, s) (struct vocabulary){TABLE(h), TABLE(s)}
#define TEACHING NAMES(house, site) /* store, hall, bay, pallet: the tags 0 to 3 */
#define READ(count, columns) (gz_read_reply){0, 0, count, columns}
#define UNREAD(number, place) (gz_read_reply){number, place, 0, 0}

static void reading(const char *what, const uint8_t *text, size_t text_len, struct vocabulary v, size_t room, gz_read_reply reply,
                    const uint16_t *table, size_t table_len)
{
    uint16_t memory[MARGIN + 300 + MARGIN], wanted[LENGTH(memory)];
    const uint8_t *t = lend(&text_lent, text, text_len), *h = lend(&house_lent, v.house, v.house_len),
                  *s = lend(&site_lent, v.site, v.site_len);
    memset(memory, PATTERN, sizeof memory);
    memset(wanted, PATTERN, sizeof wanted);
    if (table_len != 0)
        memcpy(wanted + MARGIN, table, table_len * sizeof *table);
    gz_read_reply r = gz_read(t, text_len, h, v.house_len, s, v.site_len, room == 0 ? NULL : memory + MARGIN, room);
    expect(r.number == reply.number && r.place == reply.place, "gz_read", what, "reply");
    expect(r.count == reply.count && r.columns == reply.columns, "gz_read", what, "count or columns");
    expect(memcmp(memory, wanted, sizeof memory) == 0, "gz_read", what, "buffer");
    expect(kept(&text_lent, text_len) && kept(&house_lent, v.house_len) && kept(&site_lent, v.site_len), "gz_read", what, "lent bytes");
}

/* A text that is read into a buffer that has just the room, into one that has more, and not into one that has less. */
static void reads(const char *text, struct vocabulary v, uint16_t columns, const uint16_t *table, size_t table_len)
{
    const uint8_t *t = (const uint8_t *)text;
    reading(text, t, strlen(text), v, table_len, READ(table_len, columns), table, table_len);
    reading(text, t, strlen(text), v, 300, READ(table_len, columns), table, table_len);
    reading(text, t, strlen(text), v, table_len - 1, UNREAD(20, 0), NOTHING);
}

static void refuses(const char *text, struct vocabulary v, size_t room, uint16_t number, uint16_t place)
{
    reading(text, (const uint8_t *)text, strlen(text), v, room, UNREAD(number, place), NOTHING);
}

/* The worked readings and refusals of docs/REFERENCE.md; tests/source/reference_examples.py compares the lines. */
static void worked(void)
{
    reads("child::pallet", TEACHING, 0, NUMBERS(0, 1, 0, 3));
    reads("child::*", TEACHING, 0, NUMBERS(0, 1, 0, 65535));
    reads("child::node()", TEACHING, 0, NUMBERS(0, 1, 0, 65534));
    reads(".", TEACHING, 0, NUMBERS(0, 0, 0, 65534));
    reads("$1", TEACHING, 2, NUMBERS(6, 1, 0, 0));
    reads("((..))", TEACHING, 0, NUMBERS(0, 2, 0, 65534));
    reads("/child::bay", TEACHING, 0, NUMBERS(0, 1, 0, 2, 7, 0, 0, 0));
    reads("//child::pallet", TEACHING, 0, NUMBERS(0, 11, 0, 65534, 0, 1, 0, 3, 1, 0, 1, 0, 7, 2, 0, 0));
    reads("//child::*", TEACHING, 0, NUMBERS(0, 11, 0, 65534, 0, 1, 0, 65535, 1, 0, 1, 0, 7, 2, 0, 0));
    reads("child::bay//..", TEACHING, 0, NUMBERS(0, 1, 0, 2, 0, 11, 0, 65534, 1, 0, 1, 0, 0, 2, 0, 65534, 1, 2, 3, 0));
    reads("//child::bay/..", TEACHING, 0,
          NUMBERS(0, 11, 0, 65534, 0, 1, 0, 2, 1, 0, 1, 0, 0, 2, 0, 65534, 1, 2, 3, 0, 7, 4, 0, 0));
    reads(". except .. intersect $0", TEACHING, 1, NUMBERS(0, 0, 0, 65534, 0, 2, 0, 65534, 4, 0, 1, 0, 6, 0, 0, 0, 3, 2, 3, 0));
    reads(". union .. except $0", TEACHING, 1, NUMBERS(0, 0, 0, 65534, 0, 2, 0, 65534, 6, 0, 0, 0, 4, 1, 2, 0, 2, 0, 3, 0));
    reads(".[. is $2]", TEACHING, 3, NUMBERS(0, 0, 0, 65534, 12, 2, 0, 0, 5, 0, 1, 0));
    reads(".[(..)/$0]", TEACHING, 1, NUMBERS(0, 0, 0, 65534, 0, 2, 0, 65534, 6, 0, 0, 0, 1, 1, 2, 0, 8, 3, 0, 0, 5, 0, 4, 0));
    reads(".[.. or $0 and .]", TEACHING, 1,
          NUMBERS(0, 0, 0, 65534, 0, 2, 0, 65534, 8, 1, 0, 0, 6, 0, 0, 0, 8, 3, 0, 0, 0, 0, 0, 65534, 8, 5, 0, 0, 10, 4,
                  6, 0, 11, 2, 7, 0, 5, 0, 8, 0));
    reads("child::bay[child::pallet and not(right::*)]", TEACHING, 0,
          NUMBERS(0, 1, 0, 2, 0, 1, 0, 3, 8, 1, 0, 0, 0, 3, 0, 65535, 8, 3, 0, 0, 9, 4, 0, 0, 10, 2, 5, 0, 5, 0, 6, 0));
    reads("descendant::bay[. is $0]/child::pallet[. is $1]", TEACHING, 2,
          NUMBERS(0, 5, 0, 2, 12, 0, 0, 0, 5, 0, 1, 0, 0, 1, 0, 3, 12, 1, 0, 0, 5, 3, 4, 0, 1, 2, 5, 0));
    reads("(child::*)*", TEACHING, 0, NUMBERS(0, 1, 0, 65535, 13, 0, 0, 0));
    reads("child::bay/(child::pallet)*", TEACHING, 0, NUMBERS(0, 1, 0, 2, 0, 1, 0, 3, 13, 1, 0, 0, 1, 0, 2, 0));
    reads(".[child::bay/child::pallet same descendant::pallet]", TEACHING, 0,
          NUMBERS(0, 0, 0, 65534, 0, 1, 0, 2, 0, 1, 0, 3, 1, 1, 2, 0, 0, 5, 0, 3, 14, 3, 4, 0, 5, 0, 5, 0));
    reads(".[.. union . same $0 and .]", TEACHING, 1,
          NUMBERS(0, 0, 0, 65534, 0, 2, 0, 65534, 0, 0, 0, 65534, 2, 1, 2, 0, 6, 0, 0, 0, 14, 3, 4, 0, 0, 0, 0, 65534, 8, 6, 0, 0, 10,
                  5, 7, 0, 5, 0, 8, 0));
    refuses("child::bay[child::pallet", TEACHING, 256, 24, 24);
    refuses("child:bay", TEACHING, 256, 24, 6);
    refuses("pallet", TEACHING, 256, 24, 2);
    refuses("Child::bay", TEACHING, 256, 24, 0);
    refuses("child::bay or child::pallet", TEACHING, 256, 24, 11);
    refuses(". is $0", TEACHING, 256, 24, 3);
    refuses("child::bay  union ..", TEACHING, 256, 24, 11);
    refuses("child::bay/ child::pallet", TEACHING, 256, 24, 11);
    refuses("/", TEACHING, 256, 24, 1);
    refuses(".[not(..)/.]", TEACHING, 256, 24, 9);
    refuses(".[(.. or $0)/.]", TEACHING, 256, 24, 12);
    refuses(".[(..) is $0]", TEACHING, 256, 24, 8);
    refuses("$3", TEACHING, 256, 24, 1);
    refuses("child::node(", TEACHING, 256, 24, 12);
    refuses("child::node(x", TEACHING, 256, 24, 12);
    refuses("child::node())", TEACHING, 256, 24, 13);
    refuses("child::nodes()", TEACHING, 256, 24, 12);
    refuses("child::node ()", TEACHING, 256, 24, 12);
    refuses("child::node( )", TEACHING, 256, 24, 12);
    refuses("node()", TEACHING, 256, 24, 0);
    refuses("child::node", TEACHING, 256, 25, 7);
    refuses("child::nodes", TEACHING, 256, 25, 7);
    refuses("child::shelf", TEACHING, 256, 25, 7);
    refuses("child::shelf[..]/child::", TEACHING, 256, 24, 24);
    refuses("child::bay[child::none or child::shelf]", TEACHING, 256, 25, 18);
    refuses("child::bay*", TEACHING, 256, 24, 10);
    refuses("(child::bay)**", TEACHING, 256, 24, 13);
    refuses(".[(child::bay or .)*]", TEACHING, 256, 24, 19);
    refuses(". same ..", TEACHING, 256, 24, 2);
    refuses(".[. same .. same $0]", TEACHING, 256, 24, 12);
    refuses("(child::shelf)*", TEACHING, 256, 25, 8);
}

static const char *const axes[] = {"self", "child", "parent", "right", "left", "descendant", "ancestor", "following", "preceding",
                                   "following-sibling", "preceding-sibling", "descendant-or-self", "ancestor-or-self"};

static void paths(void)
{
    for (uint16_t axis = 0; axis < LENGTH(axes); axis++) {
        char text[32];
        snprintf(text, sizeof text, "%s::*", axes[axis]);
        reads(text, TEACHING, 0, NUMBERS(STEP(axis, STAR)));
        snprintf(text, sizeof text, "%s::node()", axes[axis]);
        reads(text, TEACHING, 0, NUMBERS(STEP(axis, ANY_NODE)));
        snprintf(text, sizeof text, "%s::pallet", axes[axis]);
        reads(text, TEACHING, 0, NUMBERS(STEP(axis, 3)));
    }
    reads("..", TEACHING, 0, NUMBERS(PARENT));
    reads(". union self::node() union self::*", TEACHING, 0, NUMBERS(SELF, SELF, TWO(2, 0, 1), STEP(0, STAR), TWO(2, 2, 3)));
    reads("/descendant-or-self::node()/child::bay", TEACHING, 0, NUMBERS(BELOW, STEP(1, 2), TWO(1, 0, 1), ONE(7, 2)));
    reads("/descendant-or-self::*/child::bay", TEACHING, 0, NUMBERS(STEP(11, STAR), STEP(1, 2), TWO(1, 0, 1), ONE(7, 2)));
    reads("$0", TEACHING, 1, NUMBERS(ONE(6, 0)));
    reads("($1)", TEACHING, 2, NUMBERS(ONE(6, 1)));
    reads("$2", TEACHING, 3, NUMBERS(ONE(6, 2)));

    /* slashes group leftwards, and a leading one takes the whole run */
    reads("child::bay/child::pallet/..", TEACHING, 0, NUMBERS(STEP(1, 2), STEP(1, 3), TWO(1, 0, 1), PARENT, TWO(1, 2, 3)));
    reads("child::bay/(child::pallet/..)", TEACHING, 0, NUMBERS(STEP(1, 2), STEP(1, 3), PARENT, TWO(1, 1, 2), TWO(1, 0, 3)));
    reads("child::bay//child::pallet", TEACHING, 0, NUMBERS(STEP(1, 2), BELOW, TWO(1, 0, 1), STEP(1, 3), TWO(1, 2, 3)));
    reads("/child::bay/..", TEACHING, 0, NUMBERS(STEP(1, 2), PARENT, TWO(1, 0, 1), ONE(7, 2)));
    reads("(/child::bay)/..", TEACHING, 0, NUMBERS(STEP(1, 2), ONE(7, 0), PARENT, TWO(1, 1, 2)));
    reads("/.//..", TEACHING, 0, NUMBERS(SELF, BELOW, TWO(1, 0, 1), PARENT, TWO(1, 2, 3), ONE(7, 4)));
    reads("$1//$0", TEACHING, 2, NUMBERS(ONE(6, 1), BELOW, TWO(1, 0, 1), ONE(6, 0), TWO(1, 2, 3)));

    /* the operators between paths, and that equals group leftwards */
    reads(". union .. union $0", TEACHING, 1, NUMBERS(SELF, PARENT, TWO(2, 0, 1), ONE(6, 0), TWO(2, 2, 3)));
    reads(". union (.. union $0)", TEACHING, 1, NUMBERS(SELF, PARENT, ONE(6, 0), TWO(2, 1, 2), TWO(2, 0, 3)));
    reads(". intersect .. except $0", TEACHING, 1, NUMBERS(SELF, PARENT, TWO(3, 0, 1), ONE(6, 0), TWO(4, 2, 3)));
    reads(". union .. except $0/.", TEACHING, 1, NUMBERS(SELF, PARENT, ONE(6, 0), SELF, TWO(1, 2, 3), TWO(4, 1, 4), TWO(2, 0, 5)));
    reads(". intersect /.. union //$1", TEACHING, 2,
          NUMBERS(SELF, PARENT, ONE(7, 1), TWO(3, 0, 2), BELOW, ONE(6, 1), TWO(1, 4, 5), ONE(7, 6), TWO(2, 3, 7)));
}

static void filters(void)
{
    reads(".[..][$0]", TEACHING, 1, NUMBERS(SELF, PARENT, ONE(8, 1), TWO(5, 0, 2), ONE(6, 0), ONE(8, 4), TWO(5, 3, 5)));
    reads(".[..[$0]]", TEACHING, 1, NUMBERS(SELF, PARENT, ONE(6, 0), ONE(8, 2), TWO(5, 1, 3), ONE(8, 4), TWO(5, 0, 5)));
    reads("./..[$0]", TEACHING, 1, NUMBERS(SELF, PARENT, ONE(6, 0), ONE(8, 2), TWO(5, 1, 3), TWO(1, 0, 4)));
    reads("(./..)[$0]", TEACHING, 1, NUMBERS(SELF, PARENT, TWO(1, 0, 1), ONE(6, 0), ONE(8, 3), TWO(5, 2, 4)));
    reads("/..[. is $2]", TEACHING, 3, NUMBERS(PARENT, ONE(12, 2), TWO(5, 0, 1), ONE(7, 2)));
    reads(".[/..]", TEACHING, 0, NUMBERS(SELF, PARENT, ONE(7, 1), ONE(8, 2), TWO(5, 0, 3)));

    /* the operators between tests */
    reads(".[(.. or $0) and .]", TEACHING, 1,
          NUMBERS(SELF, PARENT, ONE(8, 1), ONE(6, 0), ONE(8, 3), TWO(11, 2, 4), SELF, ONE(8, 6), TWO(10, 5, 7), TWO(5, 0, 8)));
    reads(".[. is $0 or . is $1 or . is $2]", TEACHING, 3,
          NUMBERS(SELF, ONE(12, 0), ONE(12, 1), TWO(11, 1, 2), ONE(12, 2), TWO(11, 3, 4), TWO(5, 0, 5)));
    reads(".[. is $0 and (. is $1 and . is $2)]", TEACHING, 3,
          NUMBERS(SELF, ONE(12, 0), ONE(12, 1), ONE(12, 2), TWO(10, 2, 3), TWO(10, 1, 4), TWO(5, 0, 5)));
    reads(".[.. union $0 and .]", TEACHING, 1,
          NUMBERS(SELF, PARENT, ONE(6, 0), TWO(2, 1, 2), ONE(8, 3), SELF, ONE(8, 5), TWO(10, 4, 6), TWO(5, 0, 7)));
    reads(".[not(not((. is $0)))]", TEACHING, 1, NUMBERS(SELF, ONE(12, 0), ONE(9, 1), ONE(9, 2), TWO(5, 0, 3)));
    reads(".[not(..)]", TEACHING, 0, NUMBERS(SELF, PARENT, ONE(8, 1), ONE(9, 2), TWO(5, 0, 3)));

    /* a bracket that holds a whole path is a path */
    reads(".[((..))/$0]", TEACHING, 1, NUMBERS(SELF, PARENT, ONE(6, 0), TWO(1, 1, 2), ONE(8, 3), TWO(5, 0, 4)));
    reads(".[(..) union $0]", TEACHING, 1, NUMBERS(SELF, PARENT, ONE(6, 0), TWO(2, 1, 2), ONE(8, 3), TWO(5, 0, 4)));
    reads(".[(..)[$0]]", TEACHING, 1, NUMBERS(SELF, PARENT, ONE(6, 0), ONE(8, 2), TWO(5, 1, 3), ONE(8, 4), TWO(5, 0, 5)));
}

/* The star behind a bracket that holds a path, and same. */
static void closures(void)
{
    reads("(.)*", TEACHING, 0, NUMBERS(SELF, ONE(13, 0)));
    reads("(child::node())*", TEACHING, 0, NUMBERS(STEP(1, ANY_NODE), ONE(13, 0)));
    reads("($2)*", TEACHING, 3, NUMBERS(ONE(6, 2), ONE(13, 0)));
    reads("((.))*", TEACHING, 0, NUMBERS(SELF, ONE(13, 0)));
    reads("((.)*)", TEACHING, 0, NUMBERS(SELF, ONE(13, 0)));
    reads("((child::pallet)*)*", TEACHING, 0, NUMBERS(STEP(1, 3), ONE(13, 0), ONE(13, 1)));
    reads("(child::bay/child::pallet)*", TEACHING, 0, NUMBERS(STEP(1, 2), STEP(1, 3), TWO(1, 0, 1), ONE(13, 2)));
    reads("(child::bay)*/child::pallet", TEACHING, 0, NUMBERS(STEP(1, 2), ONE(13, 0), STEP(1, 3), TWO(1, 1, 2)));
    reads("(child::bay)*//(..)*", TEACHING, 0, NUMBERS(STEP(1, 2), ONE(13, 0), BELOW, TWO(1, 1, 2), PARENT, ONE(13, 4), TWO(1, 3, 5)));
    reads("/(..)*", TEACHING, 0, NUMBERS(PARENT, ONE(13, 0), ONE(7, 1)));
    reads("(/..)*", TEACHING, 0, NUMBERS(PARENT, ONE(7, 0), ONE(13, 1)));
    reads("//(.)*", TEACHING, 0, NUMBERS(BELOW, SELF, ONE(13, 1), TWO(1, 0, 2), ONE(7, 3)));
    reads("(. union ..)* except $0", TEACHING, 1, NUMBERS(SELF, PARENT, TWO(2, 0, 1), ONE(13, 2), ONE(6, 0), TWO(4, 3, 4)));
    reads(". union (..)*", TEACHING, 0, NUMBERS(SELF, PARENT, ONE(13, 1), TWO(2, 0, 2)));
    /* a filter behind the star is over it, and one in the bracket under it */
    reads("(..)*[.][$0]", TEACHING, 1, NUMBERS(PARENT, ONE(13, 0), SELF, ONE(8, 2), TWO(5, 1, 3), ONE(6, 0), ONE(8, 5), TWO(5, 4, 6)));
    reads("(..[.])*", TEACHING, 0, NUMBERS(PARENT, SELF, ONE(8, 1), TWO(5, 0, 2), ONE(13, 3)));
    reads("(..)[.]/(.)*", TEACHING, 0, NUMBERS(PARENT, SELF, ONE(8, 1), TWO(5, 0, 2), SELF, ONE(13, 4), TWO(1, 3, 5)));
    reads(".[(..)*]", TEACHING, 0, NUMBERS(SELF, PARENT, ONE(13, 1), ONE(8, 2), TWO(5, 0, 3)));
    reads(".[(..)*/$0]", TEACHING, 1, NUMBERS(SELF, PARENT, ONE(13, 1), ONE(6, 0), TWO(1, 2, 3), ONE(8, 4), TWO(5, 0, 5)));
    reads(".[((..)*)]", TEACHING, 0, NUMBERS(SELF, PARENT, ONE(13, 1), ONE(8, 2), TWO(5, 0, 3)));
    reads(".[not((..)*)]", TEACHING, 0, NUMBERS(SELF, PARENT, ONE(13, 1), ONE(8, 2), ONE(9, 3), TWO(5, 0, 4)));
    reads(".[(.[(. or ..)])*]", TEACHING, 0,
          NUMBERS(SELF, SELF, SELF, ONE(8, 2), PARENT, ONE(8, 4), TWO(11, 3, 5), TWO(5, 1, 6), ONE(13, 7), ONE(8, 8), TWO(5, 0, 9)));

    reads(".[. same ..]", TEACHING, 0, NUMBERS(SELF, SELF, PARENT, TWO(14, 1, 2), TWO(5, 0, 3)));
    reads(".[$2 same $1]", TEACHING, 3, NUMBERS(SELF, ONE(6, 2), ONE(6, 1), TWO(14, 1, 2), TWO(5, 0, 3)));
    reads(".[(.) same (..)]", TEACHING, 0, NUMBERS(SELF, SELF, PARENT, TWO(14, 1, 2), TWO(5, 0, 3)));
    reads(".[(. same ..)]", TEACHING, 0, NUMBERS(SELF, SELF, PARENT, TWO(14, 1, 2), TWO(5, 0, 3)));
    reads(".[not(. same ..)]", TEACHING, 0, NUMBERS(SELF, SELF, PARENT, TWO(14, 1, 2), ONE(9, 3), TWO(5, 0, 4)));
    reads(".[/.. same //.]", TEACHING, 0,
          NUMBERS(SELF, PARENT, ONE(7, 1), BELOW, SELF, TWO(1, 3, 4), ONE(7, 5), TWO(14, 2, 6), TWO(5, 0, 7)));
    reads(".[(.)* same (..)*]", TEACHING, 0, NUMBERS(SELF, SELF, ONE(13, 1), PARENT, ONE(13, 3), TWO(14, 2, 4), TWO(5, 0, 5)));
    reads(".[..[. same ..] same .]", TEACHING, 0,
          NUMBERS(SELF, PARENT, SELF, PARENT, TWO(14, 2, 3), TWO(5, 1, 4), SELF, TWO(14, 5, 6), TWO(5, 0, 7)));
    reads("child::bay[child::pallet same descendant::*/..]", TEACHING, 0,
          NUMBERS(STEP(1, 2), STEP(1, 3), STEP(5, STAR), PARENT, TWO(1, 2, 3), TWO(14, 1, 4), TWO(5, 0, 5)));
    /* looser than union, and tighter than and */
    reads(".[. union .. same $0 except $1]", TEACHING, 2,
          NUMBERS(SELF, SELF, PARENT, TWO(2, 1, 2), ONE(6, 0), ONE(6, 1), TWO(4, 4, 5), TWO(14, 3, 6), TWO(5, 0, 7)));
    reads(".[. same .. and $0]", TEACHING, 1,
          NUMBERS(SELF, SELF, PARENT, TWO(14, 1, 2), ONE(6, 0), ONE(8, 4), TWO(10, 3, 5), TWO(5, 0, 6)));
    reads(".[$0 or . same ..]", TEACHING, 1,
          NUMBERS(SELF, ONE(6, 0), ONE(8, 1), SELF, PARENT, TWO(14, 3, 4), TWO(11, 2, 5), TWO(5, 0, 6)));
    reads(".[. same $0 and . same $1 or . is $0]", TEACHING, 2,
          NUMBERS(SELF, SELF, ONE(6, 0), TWO(14, 1, 2), SELF, ONE(6, 1), TWO(14, 4, 5), TWO(10, 3, 6), ONE(12, 0), TWO(11, 7, 8),
                  TWO(5, 0, 9)));
    reads(".[(. same .. or $0) and .]", TEACHING, 1,
          NUMBERS(SELF, SELF, PARENT, TWO(14, 1, 2), ONE(6, 0), ONE(8, 4), TWO(11, 3, 5), SELF, ONE(8, 7), TWO(10, 6, 8), TWO(5, 0, 9)));
    reads("child::same[child::same same child::and]", NAMES("\4same", "\3and"), 0,
          NUMBERS(STEP(1, 0), STEP(1, 0), STEP(1, 1), TWO(14, 1, 2), TWO(5, 0, 3)));
}

static void typed_names(void)
{
    /* a name may be that of an operator or an axis, or hold no letter */
    reads("child::or[child::and and child::not]", NAMES("\2or\3and", "\3not\4self"), 0,
          NUMBERS(STEP(1, 0), STEP(1, 1), ONE(8, 1), STEP(1, 2), ONE(8, 3), TWO(10, 2, 4), TWO(5, 0, 5)));
    reads("self::self union self::self", NAMES("", "\4self"), 0, NUMBERS(STEP(0, 0), STEP(0, 0), TWO(2, 0, 1)));
    reads("child::node[child::node() and child::nodes]", NAMES("\3nod\4node", "\4node\5nodes"), 0,
          NUMBERS(STEP(1, 1), STEP(1, ANY_NODE), ONE(8, 1), STEP(1, 3), ONE(8, 3), TWO(10, 2, 4), TWO(5, 0, 5)));
    reads("child::-_0-9", NAMES("\5-_0-8", "\5-_0-9"), 0, NUMBERS(STEP(1, 1)));

    /* of equal names the lowest tag counts; names that only begin alike, or are other letters, are other names */
    reads("child::bay", NAMES("\3bay\3bay", "\3bay"), 0, NUMBERS(STEP(1, 0)));
    reads("child::bay", NAMES("\2ba\4bays\3Bay\3bay\3bay", ""), 0, NUMBERS(STEP(1, 3)));
    reads("child::bay", NAMES("\2ba\4bays", "\3Bay\3bay\3bay"), 0, NUMBERS(STEP(1, 3)));
    refuses("child::bay", NAMES("\2ba\4bays\3Bay", "\7bay-bay"), 4, 25, 7);
    refuses("child::bay", NAMES("", ""), 4, 25, 7);
    reads("child::abcdefghijklmnopqrstuvwxyz012345", NAMES("", "\40abcdefghijklmnopqrstuvwxyz012345"), 0, NUMBERS(STEP(1, 0)));
    refuses("child::abcdefghijklmnopqrstuvwxyz0123456", NAMES("", "\40abcdefghijklmnopqrstuvwxyz012345"), 4, 25, 7);
    refuses("child::bay[child::shelf]/child::none", TEACHING, 256, 25, 18);
    refuses("child::bay[child::pallet]/child::none", TEACHING, 256, 25, 33);

    /* the tags 65533 and 65534 */
    static uint8_t many[2 * 65534];
    for (size_t i = 0; i < sizeof many; i += 2)
        many[i] = 1, many[i + 1] = 'a';
    reads("child::b", (struct vocabulary){many, 2 * 65533, TABLE("\1b")}, 0, NUMBERS(STEP(1, 65533)));
    refuses("child::b", (struct vocabulary){many, 2 * 65534, TABLE("\1b")}, 4, 25, 7);
    many[2 * 65533 + 1] = 'b';
    reads("child::b", (struct vocabulary){SLICE(many), TABLE("\1b")}, 0, NUMBERS(STEP(1, 65533)));

    /* every byte behind '::' */
    static const char letters[] = "abcdefghijklmnopqrstuvwxyzABCDEFGHIJKLMNOPQRSTUVWXYZ0123456789-_";
    uint8_t each[2 * (sizeof letters - 1)], text[] = "child::?";
    for (size_t i = 0; i < sizeof letters - 1; i++)
        each[2 * i] = 1, each[2 * i + 1] = (uint8_t)letters[i];
    for (int byte = 0; byte < 256; byte++) {
        const char *at = byte == 0 ? NULL : strchr(letters, byte);
        struct vocabulary v = {SLICE(each), NOTHING};
        text[7] = (uint8_t)byte;
        if (at != NULL || byte == '*')
            reading("a name or the star", text, 8, v, 4, READ(4, 0), NUMBERS(STEP(1, at != NULL ? (uint16_t)(at - letters) : STAR)));
        else
            reading("no name", text, 8, v, 4, UNREAD(24, 7), NOTHING);
    }
}

/* Texts that are not read, and the place of each. */
static const struct {
    const char *text;
    uint16_t place;
} unread[] = {
    {"child", 5}, {"child:", 6}, {"child::", 7}, {"childs::*", 5}, {"Child::*", 0}, {" child::*", 0},
    {"child::* ", 9}, {"child::*  union .", 9}, {"child::*union .", 8}, {"child::* union.", 14},
    {"child::* union  .", 15}, {"child::* or .", 9}, {"child::* and .", 9}, {". is $0", 3}, {".[. is $3]", 8},
    {".[. is$0]", 6}, {".[ .]", 2}, {".[. ]", 4}, {".[.. is $0]", 6}, {".[(.) is $0]", 7},
    {".[. is $0 union .]", 10}, {".[. is $0/.]", 9}, {".[. is $0[.]]", 9}, {".[not(.)/..]", 8},
    {".[not(.)[.]]", 8}, {".[not .]", 5}, {"not(.)", 0}, {".[(. or .)/.]", 10}, {".[(. or .)[.]]", 10},
    {".[(. or .) union .]", 11}, {"(. or .)", 3}, {".[(. and .]", 10}, {"(.]", 2}, {".[.)", 3}, {".)", 1},
    {".]", 1}, {"...", 2}, {"$3", 1}, {"$", 1}, {"$00", 2}, {"/", 1}, {"//", 2}, {"///.", 2}, {".///.", 3},
    {"./", 2}, {"./ .", 2}, {"/ .", 1}, {"/ union .", 1}, {"()", 1}, {".[]", 2}, {"child::**", 8},
    {"child::bay::*", 10}, {"child::bay[child::pallet", 24}, {"child::$0", 7}, {"/child::bay or /child::bay", 12},
    {". intersection .", 11}, {". unions .", 7}, {"attribute::*", 1}, {"following-siblings::*", 17},
    {"descendant-or-self:*", 19}, {"child::a.b", 8}, {"child::\303\251", 7}, {"child::*[position()=1]", 10},
    {"@a", 0}, {"a", 1}, {"*", 0}, {"child::bay|child::pallet", 10}, {"child::bay,child::pallet", 10},
    {"child::bay\n", 10}, {".[.. or", 7}, {".[..]or .", 5}, {"child::nod()", 10}, {"child::Node()", 11}, {"child::-node()", 12},
    {"child::node-()", 12}, {"child::nodenode()", 15}, {"child::node()()", 13}, {"child::node()s", 13}, {"child::node()::*", 13},
    {"child::node()*", 13}, {"child::*()", 8}, {"child::()", 7}, {"child::(node())", 7}, {"child::text()", 11}, {"./node()", 2},
    {".[node()]", 4}, {".[child::node(]", 14}, {"(child::node()", 14}, {"child::node() or .", 14}, {"child::node\n()", 11},
    /* a star stands behind a bracket that holds a path, and nowhere else */
    {".*", 1}, {"..*", 2}, {"$0*", 2}, {"/*", 1}, {"(*)", 1}, {"()*", 1}, {"(.)**", 4}, {"(.) *", 4}, {"(.)*.", 4}, {"(.)*(.)", 4},
    {"(.)*)", 4}, {"(.)*::*", 4}, {"(.)*name", 4}, {"(.)[.]*", 6}, {"(.)*[.]*", 7}, {"(./(.)*", 7}, {"child::(.)*", 7}, {"child::bay*", 10},
    {"(.)* ", 5}, {"(.)*  union .", 5}, {"(.)* union", 10}, {"(.)*union .", 4}, {"(.)* or .", 5}, {"(.)* is $0", 6}, {"(.)* same .", 5},
    {"(.)*/", 5}, {"(.)*//", 6}, {"(.)*/ .", 5}, {"(.)+", 3}, {"(.)?", 3},
    {".[(. or .)*]", 10}, {".[(. and .)*]", 11}, {".[(not(.))*]", 10}, {".[(. is $0)*]", 11}, {".[(. same .)*]", 12},
    {".[((. or .))*]", 12}, {".[not(.)*]", 8}, {".[. is $0*]", 9}, {".[(.)* is $0]", 8}, {".[(.)*", 6}, {".[(child::a or .)*]", 17},
    /* same stands between two paths, in a test, once */
    {". same .", 2}, {"(. same .)", 3}, {"(. same .)*", 3}, {"/. same .", 3}, {".[. same . same .]", 11}, {".[(. same .) same .]", 13},
    {".[. same (. same .)]", 12}, {".[. same]", 8}, {".[. same ]", 9}, {".[. same  .]", 9}, {".[.  same .]", 4}, {".[.same .]", 3},
    {".[. same.]", 8}, {".[ same .]", 2}, {".[same .]", 3}, {".[. sam .]", 7}, {".[. sames .]", 8}, {".[. Same .]", 4},
    {".[. same not(.)]", 9},
    {".[. same . is $0]", 12}, {".[not(.) same .]", 9}, {".[. is $0 same .]", 10}, {".[(. or .) same .]", 11}, {".[. same (. or .)]", 12},
    {".[(. same .)/.]", 12}, {".[(. same .)[.]]", 12}, {".[(. same .) union .]", 13}, {".[. same . or", 13}, {".[. same .", 10},
    {".[. same ./]", 11}, {".[. same . union", 16}, {".[. same . is", 12}, {".[. union same .]", 11}, {".[.[. same .] same", 18},
    {".[. = .]", 4},
};

static void refused_texts(void)
{
    static const uint8_t zeros[65537], zero[] = "\5store\0", long_name[] = "\41abcdefghijklmnopqrstuvwxyz0123456";

    /* 21 before all else, and 23 before what the text holds */
    reading("a length of 0", NOTHING, (struct vocabulary){TABLE(zero), TABLE(site)}, 0, UNREAD(21, 0), NOTHING);
    reading("both tables", NOTHING, (struct vocabulary){TABLE(long_name), site, 6}, 0, UNREAD(21, 0), NOTHING);
    reading("a name past the end", NOTHING, (struct vocabulary){TABLE(house), site, 6}, 0, UNREAD(21, 1), NOTHING);
    refuses("child::bay", (struct vocabulary){TABLE(long_name), TABLE(site)}, 4, 21, 0);
    refuses("child::bay", (struct vocabulary){TABLE(house), TABLE(zero)}, 4, 21, 1);
    refuses("", TEACHING, 256, 23, 0);
    reading("1,024 zeros", zeros, 1024, TEACHING, 0, UNREAD(24, 0), NOTHING);
    reading("1,025 zeros", zeros, 1025, TEACHING, 0, UNREAD(23, 0), NOTHING);
    reading("65,536 zeros", zeros, 65536, TEACHING, 0, UNREAD(23, 0), NOTHING);
    reading("65,537 zeros", zeros, 65537, TEACHING, 0, UNREAD(23, 0), NOTHING);

    /* 24, before names and room */
    for (size_t i = 0; i < LENGTH(unread); i++)
        refuses(unread[i].text, NAMES("", ""), 0, 24, unread[i].place);
    for (int byte = 0; byte < 256; byte++) {
        uint8_t text[1] = {(uint8_t)byte};
        if (byte != '.')
            reading("one byte", text, 1, TEACHING, 4, UNREAD(24, byte != 0 && strchr("/($acdflprs", byte) != NULL), NOTHING);
    }

    /* where a text that is read is cut, it is refused at its length or is read too */
    static const char whole[] = "//self::*[not(child::bay or . is $2) and (..//child::pallet intersect $0)/right::*[.]] except left::*";
    for (uint16_t length = 1; length <= 101; length++) {
        uint16_t table[256];
        gz_read_reply r = gz_read((const uint8_t *)whole, length, TABLE(house), TABLE(site), table, 256);
        bool read = length == 9 || length == 86 || length == 101;
        expect(read ? r.number == 0 : r.number == 24 && r.place == length, "gz_read", "a text that is cut", "reply");
    }
    static const char closed[] = "(child::bay)*[.. union . same (left::*)*/self::pallet or (. same $1) and .]/((..)*[.])*";
    for (uint16_t length = 1; length <= 87; length++) {
        uint16_t table[256];
        gz_read_reply r = gz_read((const uint8_t *)closed, length, TABLE(house), TABLE(site), table, 256);
        bool read = length == 12 || length == 13 || length == 75 || length == 86 || length == 87;
        expect(read ? r.number == 0 : r.number == 24 && r.place == length, "gz_read", "a text with stars that is cut", "reply");
    }
}

/* Every front of child::node(): behind the colons it ends in a name, which no tag has here, until the bracket opens. */
static void cut_before_node(void)
{
    for (uint16_t length = 1; length <= 13; length++) {
        bool named = 8 <= length && length <= 11;
        gz_read_reply reply = length == 13 ? READ(4, 0) : named ? UNREAD(25, 7) : UNREAD(24, length);
        reading("child::node() that is cut", (const uint8_t *)"child::node()", length, TEACHING, 4, reply,
                (const uint16_t[]){STEP(1, ANY_NODE)}, reply.count);
    }
}

/* The limits of a text and of a table. */
static void limits(void)
{
    static uint8_t text[1025];
    uint16_t table[256];
    memset(text, '(', 511);
    text[511] = text[512] = '.';
    memset(text + 513, ')', 512);
    reading("511 brackets", text, 1024, NAMES("", ""), 4, READ(4, 0), NUMBERS(PARENT));
    reading("a byte more", text, 1025, NAMES("", ""), 4, UNREAD(23, 0), NOTHING);
    memset(text, '(', 1024);
    reading("brackets that stay open", text, 1024, NAMES("", ""), 4, UNREAD(24, 1024), NOTHING);
    for (size_t i = 0; i < 1024; i++)
        text[i] = ".["[i % 2];
    reading("filters that stay open", text, 1024, NAMES("", ""), 4, UNREAD(24, 1024), NOTHING);
    text[1023] = ']';
    reading("a filter that has no end", text, 1024, NAMES("", ""), 4, UNREAD(24, 1024), NOTHING);
    /* stars of stars, as many as there is room for in a text, and in a table */
    memset(text, '(', 341);
    text[341] = '.';
    for (size_t i = 0; i < 341; i++)
        memcpy(text + 342 + 2 * i, ")*", 2);
    reading("341 stars", text, 1024, NAMES("", ""), 0, UNREAD(26, 0), NOTHING);
    reading("341 stars, one bracket open", text, 1022, NAMES("", ""), 0, UNREAD(24, 1022), NOTHING);
    reading("64 stars", text + 341 - 64, 193, NAMES("", ""), 0, UNREAD(26, 0), NOTHING);
    reading("63 stars and no room", text + 341 - 63, 190, NAMES("", ""), 255, UNREAD(20, 0), NOTHING);
    for (uint16_t e = 0; e < 64; e++) {
        const uint16_t self[] = {SELF}, star[] = {ONE(13, (uint16_t)(e - 1))};
        memcpy(table + 4 * e, e == 0 ? self : star, sizeof self);
    }
    reading("63 stars", text + 341 - 63, 190, NAMES("", ""), 256, READ(256, 0), SLICE(table));
    memcpy(text, "child::", 7);
    memset(text + 7, 'a', 1017);
    reading("a name of 1,017 bytes", text, 1024, NAMES("\1a", ""), 4, UNREAD(25, 7), NOTHING);

    /* '/' and 32 times '.': 64 entries; with one more, 65 or 66 */
    for (uint16_t e = 0; e < 63; e++) {
        const uint16_t odd[] = {SELF}, even[] = {TWO(1, (uint16_t)(e - 2), (uint16_t)(e - 1))};
        memcpy(table + 4 * e, e == 0 || e % 2 == 1 ? odd : even, sizeof odd);
    }
    memcpy(table + 4 * 63, (const uint16_t[]){ONE(7, 62)}, 8);
    for (size_t i = 0; i < 1024; i++)
        text[i] = "/."[i % 2];
    reading("64 entries", text, 64, TEACHING, 256, READ(256, 0), SLICE(table));
    reading("64 entries and more room", text, 64, TEACHING, 300, READ(256, 0), SLICE(table));
    reading("64 entries and room for 255 numbers", text, 64, TEACHING, 255, UNREAD(20, 0), NOTHING);
    reading("65 entries", text + 1, 65, TEACHING, 300, UNREAD(26, 0), NOTHING);
    reading("66 entries and no room", text, 66, TEACHING, 0, UNREAD(26, 0), NOTHING);
    reading("1,024 entries", text, 1024, TEACHING, 300, UNREAD(26, 0), NOTHING);
    memcpy(text + 1001, "/child::shelf", 13);
    reading("many entries and an unknown name", text, 1014, TEACHING, 300, UNREAD(25, 1009), NOTHING);
    refuses("child::shelf[", TEACHING, 0, 24, 13);
    refuses("child::shelf", TEACHING, 0, 25, 7);
    refuses("child::bay", TEACHING, 0, 20, 0);
}

/* What is read is evaluated. */
static void typed_image_on(const uint16_t *tree, size_t tree_len, const struct direction *d, const char *text, const char *from,
                           const char *result)
{
    uint16_t table[256];
    gz_read_reply r = gz_read((const uint8_t *)text, strlen(text), TABLE(house), TABLE(site), table, 256);
    expect(r.number == 0, "gz_read", text, "reply");
    query(text, table, r.count, r.columns, 0, 0);
    image(d, text, ON(tree, tree_len, table, r.count, r.columns, NOTHING), from, tree_len / 2, 0, 0, result);
}

static void typed_image(const struct direction *d, const char *text, const char *from, const char *result)
{
    typed_image_on(SLICE(warehouse), d, text, from, result);
}

/* A document node: what the star leaves out, and `node()` and what is short for it does not. */
static void typed_on_document(void)
{
    const struct direction *f = &forwards, *b = &backwards;
    typed_image_on(SLICE(document), f, "self::*", "1100000", "0100000");
    typed_image_on(SLICE(document), f, ".", "1100000", "1100000");
    typed_image_on(SLICE(document), f, "child::*", "1000000", "0100000");
    typed_image_on(SLICE(document), f, "parent::*", "0110000", "0100000");
    typed_image_on(SLICE(document), f, "..", "0110000", "1100000");
    typed_image_on(SLICE(document), b, "parent::*", "1100000", "0010010");
    typed_image_on(SLICE(document), b, "..", "1100000", "0110010");
    typed_image_on(SLICE(document), f, "ancestor::*", "0001000", "0110000");
    typed_image_on(SLICE(document), f, "ancestor::node()", "0001000", "1110000");
    typed_image_on(SLICE(document), f, "descendant-or-self::*", "1000000", "0111111");
    typed_image_on(SLICE(document), f, "descendant-or-self::node()", "1000000", "1111111");
    typed_image_on(SLICE(document), b, "descendant-or-self::*", "1000000", "0000000");
    typed_image_on(SLICE(document), b, "descendant-or-self::node()", "1000000", "1000000");
    typed_image_on(SLICE(document), f, "//child::*", "0000001", "0111111");
    typed_image_on(SLICE(document), b, "//child::*", "0100000", "1111111");
    typed_image_on(SLICE(document), f, "/descendant-or-self::*/child::*", "0000001", "0011111");
    typed_image_on(SLICE(document), b, "/descendant-or-self::*/child::*", "0100000", "0000000");
    typed_image_on(SLICE(document), f, "/.", "0000001", "1000000");
    typed_image_on(SLICE(document), f, "/self::*", "0000001", "0000000");
    typed_image_on(SLICE(document), f, ".[not(parent::*)]", "1111111", "1100000");
    typed_image_on(SLICE(document), f, ".[not(..)]", "1111111", "1000000");
    typed_image_on(SLICE(document), f, "/child::hall/child::bay", "1000000", "0010010");
    typed_image_on(SLICE(document), f, "(child::*)*", "1000000", "1111111");
    typed_image_on(SLICE(document), b, "(child::*)*", "0000001", "1100011");
    typed_image_on(SLICE(document), f, "(parent::*)*", "0000001", "0100011");
    typed_image_on(SLICE(document), f, "(..)*", "0000001", "1100011");
    typed_image_on(SLICE(document), f, ".[. same self::*]", "1111111", "0111111");
    typed_image_on(SLICE(document), f, ".[child::node() same child::hall]", "1111111", "1000000");
    typed_image_on(NUMBERS(65535, 65534), f, "self::*", "1", "0");
    typed_image_on(NUMBERS(65535, 65534), f, ".", "1", "1");
    typed_image_on(SLICE(warehouse), f, "ancestor-or-self::node()", "000001", "100011");
    typed_image_on(SLICE(warehouse), f, "ancestor-or-self::*", "000001", "100011");
}

/* A typed query that keeps the rule of quick pages, or breaks it at an entry. Of one that keeps it, with as many variables as it has and
   with more, quick pages are what pages are, on the warehouse and below a document node. The names are the tags themselves. */
static void ruled(const char *text, uint16_t number, uint16_t place)
{
    uint16_t table[256];
    gz_read_reply r = gz_read((const uint8_t *)text, strlen(text), TABLE("\0010\0011\0012\0013"), NOTHING, table, 256);
    expect(r.number == 0 && r.columns > 0, "gz_read", text, "reply");
    for (uint16_t columns = r.columns; columns <= 3; columns++)
        if (number == 29) {
            breaks(text, table, r.count, columns, place);
        } else {
            same_pages(text, LENT(table, r.count, columns, NOTHING));
            same_pages(text, ON(SLICE(document), table, r.count, columns, NOTHING));
        }
}

static void rules(void)
{
    /* the worked queries of docs/REFERENCE.md; tests/source/reference_examples.py compares the lines */
    ruled("descendant::2[. is $0]/child::3[. is $1]", 0, 0);
    ruled("$0 union child::2[. is $0]", 0, 0);
    ruled("self::2[. is $0 or . is $0]", 0, 0);
    ruled("(. except self::2)[. is $0]", 0, 0);
    ruled(".[. is $0]/self::2[. is $0]", 29, 6);
    ruled("$1[. is $1]", 29, 2);
    ruled("self::2[. is $0 and . is $0]", 29, 3);
    ruled("$0 intersect self::2", 29, 2);
    ruled("self::2 except $0", 29, 2);
    ruled("self::2[not(. is $0)]", 29, 2);

    ruled("(child::*)*[. is $0]", 0, 0);
    ruled(".[. is $0]/(child::*)*[. is $1]", 0, 0);
    ruled(".[. is $0][child::* same descendant::3]", 0, 0);
    ruled("descendant::2[. is $0]/child::3/(child::3)*[. is $1]", 0, 0);
    ruled("(child::2[. is $0])*", 29, 3);
    ruled("($0)*", 29, 1);
    ruled(".[child::3 same $0]", 29, 3);
    ruled(".[$0 same child::3]", 29, 3);
    ruled("(.[(child::2)* same $1])*", 29, 4);

    ruled("self::1 union child::2[. is $0]", 0, 0);
    ruled("(child::*)*[. is $2]/(right::*)*[. is $0]/(..)*[. is $1]", 0, 0);
    ruled("$0[(right::*)*/child::3 same descendant::*[left::*]]/(child::*)*[. is $1]", 0, 0);
    ruled(".[(.[child::2 same right::2])*/child::3 or . is $1][. is $0] union $1", 0, 0);
    ruled("self::0[. is $0]", 0, 0);
    ruled("child::2[. is $2]/child::3[. is $0]", 0, 0);
    ruled(".[. is $0]/following::*[. is $1]/ancestor::node()[. is $2]", 0, 0);
    ruled(".[. is $2]/ancestor-or-self::*[. is $1]/preceding::node()[. is $0]", 0, 0);
    ruled(".[. is $1 and child::*[. is $0] and not(right::*)]", 0, 0);
    ruled("$2[child::3]/child::*[. is $1][$0]", 0, 0);
    ruled("$0/$1/$2", 0, 0);
    ruled("$0 union $1/left::* union $2[not(..)]", 0, 0);
    ruled("/$1//self::3[. is $0]", 0, 0);
    ruled(".[/child::*[. is $0] or $1/child::3 or . is $1]", 0, 0);
    ruled("(descendant::* intersect following::*/..)[. is $1] union $0/(descendant::* except child::*)", 0, 0);
}

static void typed(void)
{
    const struct direction *f = &forwards, *b = &backwards;
    worked();
    paths();
    filters();
    closures();
    typed_names();
    refused_texts();
    cut_before_node();
    limits();
    typed_on_document();
    typed_image(f, "child::bay[child::pallet and not(right::*)]", "100000", "000010");
    typed_image(f, "following::*", "001000", "000111");
    typed_image(b, "child::pallet", "001001", "010010");
    typed_image(f, "descendant::* except child::*", "110000", "001101");
    typed_image(f, "/child::bay", "000001", "010010");
    typed_image(f, "//child::pallet", "000001", "001101");
    typed_image(f, ".//child::pallet[left::pallet]/..", "010000", "010000");
    typed_image(f, "/descendant::bay[not(child::pallet/right::*)]//self::pallet", "100000", "000001");
    typed_image(f, "(child::*)*", "010000", "011100");
    typed_image(b, "(child::*)*", "000100", "110100");
    typed_image(f, "(child::pallet)*", "110000", "111100");
    typed_image(f, "(right::*)*", "011000", "011110");
    typed_image(b, "(right::*)*", "000110", "011110");
    typed_image(f, "((child::*)*/right::*)*", "100000", "100110");
    typed_image(b, "((child::*)*/right::*)*", "000010", "110010");
    typed_image(b, ".[(child::pallet)*/self::pallet]", "111111", "011111");
    typed_image(f, ".[child::bay/child::pallet same descendant::pallet]", "111111", "100000");
    typed_image(b, "descendant::*[(right::*)*/self::bay[not(right::*)]]", "111111", "100000");
    typed_image(b, "child::bay[child::pallet same (child::*)*/self::*[right::*]]", "111111", "100000");
    typed_image(b, "child::bay[child::pallet same (child::*)*/self::*[right::*]]", "000010", "000000");

    gz_cursor cursor = {0};
    uint16_t table[256];
    static const char pairs[] = "descendant::bay[. is $0]/child::pallet[. is $1]";
    gz_read_reply r = gz_read(TABLE(pairs), TABLE(house), TABLE(site), table, 256);
    page(pairs, LENT(table, r.count, r.columns, NOTHING), &cursor, 64, ACCEPTED(3, false), NUMBERS(1, 2, 1, 3, 4, 5), AT(4, 5, 0));
    cursor = (gz_cursor){0};
    quick(pairs, LENT(table, r.count, r.columns, NOTHING), &cursor, 64, COUNTED(3, false, 19), NUMBERS(1, 2, 1, 3, 4, 5), AT(4, 5, 0));
}

/* Indexes. Both buffers stand in memory that is filled with the pattern, and all of it is compared. */

struct room {
    size_t next, tags;
};
#define ROOM(next, tags) (struct room){next, tags}
#define MADE(next, tags) (gz_index_reply){0, 0, next, tags}
#define UNMADE(number, place) (gz_index_reply){number, place, 0, 0}

static void making_of(const char *what, struct shared t, struct room room, gz_index_reply reply, const uint16_t *next,
                      const uint16_t *tags)
{
    uint16_t next_memory[MARGIN + 300 + MARGIN], next_wanted[LENGTH(next_memory)];
    uint16_t tags_memory[MARGIN + 800 + MARGIN], tags_wanted[LENGTH(tags_memory)];
    memset(next_memory, PATTERN, sizeof next_memory);
    memset(next_wanted, PATTERN, sizeof next_wanted);
    memset(tags_memory, PATTERN, sizeof tags_memory);
    memset(tags_wanted, PATTERN, sizeof tags_wanted);
    if (reply.number == 0) {
        memcpy(next_wanted + MARGIN, next, reply.next * sizeof *next);
        memcpy(tags_wanted + MARGIN, tags, reply.tags * sizeof *tags);
    }
    gz_index_reply r = gz_index(SHARED(t), room.next == 0 ? NULL : next_memory + MARGIN, room.next,
                                room.tags == 0 ? NULL : tags_memory + MARGIN, room.tags);
    expect(r.number == reply.number && r.place == reply.place, "gz_index", what, "reply");
    expect(r.next == reply.next && r.tags == reply.tags, "gz_index", what, "next or tags");
    expect(memcmp(next_memory, next_wanted, sizeof next_memory) == 0, "gz_index", what, "index");
    expect(memcmp(tags_memory, tags_wanted, sizeof tags_memory) == 0, "gz_index", what, "list of tags");
}

static void making(const char *what, const uint16_t *table, size_t length, struct room room, gz_index_reply reply, const uint16_t *next,
                   const uint16_t *tags)
{
    making_of(what, common(table, length), room, reply, next, tags);
}

/* An index that is made where the room just suffices and where there is more, and is not made where either buffer has less. */
static void makes(const char *what, const uint16_t *table, size_t length, const uint16_t *next, size_t next_len, const uint16_t *tags,
                  size_t tags_len)
{
    making(what, table, length, ROOM(next_len, tags_len), MADE(next_len, tags_len), next, tags);
    making(what, table, length, ROOM(next_len + 1, tags_len), MADE(next_len, tags_len), next, tags);
    making(what, table, length, ROOM(next_len, tags_len + 2), MADE(next_len, tags_len), next, tags);
    making(what, table, length, ROOM(300, 800), MADE(next_len, tags_len), next, tags);
    making(what, table, length, ROOM(next_len - 1, 800), UNMADE(20, 0), NULL, NULL);
    making(what, table, length, ROOM(300, tags_len - 1), UNMADE(20, 0), NULL, NULL);
    making(what, table, length, ROOM(300, 0), UNMADE(20, 0), NULL, NULL);
    making(what, table, length, ROOM(0, 800), UNMADE(20, 0), NULL, NULL);
    making(what, table, length, ROOM(0, 0), UNMADE(20, 0), NULL, NULL);
}

static void unmakes(const char *what, const uint16_t *table, size_t length, uint16_t number, uint16_t place)
{
    making(what, table, length, ROOM(300, 800), UNMADE(number, place), NULL, NULL);
    making(what, table, length, ROOM(0, 0), UNMADE(number, place), NULL, NULL);
}

static const uint16_t warehouse_next[] = {65535, 4, 3, 5, 65535, 65535};
static const uint16_t document_next[] = {65535, 65535, 5, 4, 6, 65535, 65535};

static void indexes(void)
{
    uint16_t table[2 * 257], next[256], tags[3 * 256];
    makes("the warehouse", SLICE(warehouse), SLICE(warehouse_next), NUMBERS(1, 0, 1, 2, 1, 2, 3, 2, 3));
    makes("one node", NUMBERS(65535, 0), NUMBERS(65535), NUMBERS(0, 0, 1));
    makes("the highest tag", NUMBERS(65535, 65533), NUMBERS(65535), NUMBERS(65533, 0, 1));
    makes("the lowest tag behind the highest", NUMBERS(65535, 65533, 0, 0, 1, 65533, 0, 0), NUMBERS(2, 3, 65535, 65535),
          NUMBERS(0, 1, 2, 65533, 0, 2));
    makes("a document node", SLICE(document), SLICE(document_next), NUMBERS(1, 1, 1, 2, 2, 2, 3, 3, 3, 65534, 0, 1));
    makes("a document node alone", NUMBERS(65535, 65534), NUMBERS(65535), NUMBERS(65534, 0, 1));
    makes("falling tags", NUMBERS(65535, 9, 0, 8, 0, 7), NUMBERS(65535, 65535, 65535), NUMBERS(7, 2, 1, 8, 1, 1, 9, 0, 1));
    makes("tags that differ in one byte", NUMBERS(65535, 256, 0, 1, 0, 257, 0, 0), NUMBERS(65535, 65535, 65535, 65535),
          NUMBERS(0, 3, 1, 1, 1, 1, 256, 0, 1, 257, 2, 1));

    /* as many nodes as a tree may have: all with one tag, all with different ones by falling tag, and 17 tags in turn */
    for (uint16_t x = 0; x < 257; x++)
        table[2 * x] = x == 0 ? 65535 : 0, table[2 * x + 1] = 5;
    for (uint16_t x = 0; x < 256; x++)
        next[x] = x == 255 ? 65535 : x + 1;
    makes("256 nodes with one tag", table, 512, SLICE(next), NUMBERS(5, 0, 256));
    unmakes("257 nodes", table, 514, 5, 0);
    for (uint16_t x = 0; x < 256; x++) {
        table[2 * x + 1] = 65533 - 256 * x;
        next[x] = 65535;
        tags[3 * x] = 253 + 256 * x, tags[3 * x + 1] = 255 - x, tags[3 * x + 2] = 1;
    }
    makes("256 tags", table, 512, SLICE(next), SLICE(tags));
    for (uint16_t x = 0; x < 256; x++) {
        table[2 * x + 1] = x % 17;
        next[x] = x + 17 < 256 ? x + 17 : 65535;
    }
    for (uint16_t k = 0; k < 17; k++)
        tags[3 * k] = k, tags[3 * k + 1] = k, tags[3 * k + 2] = k == 0 ? 16 : 15;
    makes("17 tags", table, 512, SLICE(next), tags, 3 * 17);

    unmakes("no tree", NOTHING, 5, 0);
    unmakes("half a node", warehouse, 11, 5, 0);
    unmakes("a root with a parent", NUMBERS(0, 1), 6, 0);
    unmakes("a bad parent before a bad tag", NUMBERS(65535, 65535, 0, 2, 2, 3), 6, 2);
    unmakes("tag 65534", NUMBERS(65535, 1, 0, 65534, 1, 65535), 7, 1);
    unmakes("tag 65535", NUMBERS(65535, 1, 0, 2, 1, 65535), 7, 2);
    unmakes("tag 65535 at node 0", NUMBERS(65535, 65535, 0, 65534), 7, 0);
    unmakes("two document nodes", NUMBERS(65535, 65534, 0, 65534), 7, 1);
}

/* Searches by an index. */

static void descend_in(const char *what, struct shared t, const uint16_t *next, size_t next_len, uint16_t start, uint16_t tag, size_t room,
                       uint16_t number, uint16_t place, const char *result)
{
    uint8_t memory[MARGIN + 300 + MARGIN], wanted[sizeof memory];
    memset(memory, PATTERN, sizeof memory);
    memset(wanted, PATTERN, sizeof wanted);
    bytes(wanted + MARGIN, result);
    gz_image_reply r = gz_descendants(SHARED(t), next, next_len, start, tag, room == 0 ? NULL : memory + MARGIN, room);
    expect(r.number == number && r.place == place, "gz_descendants", what, "reply");
    expect(r.count == ones(result), "gz_descendants", what, "count");
    expect(memcmp(memory, wanted, sizeof memory) == 0, "gz_descendants", what, "buffer");
}

static void descend(const char *what, const uint16_t *table, size_t table_len, const uint16_t *next, size_t next_len, uint16_t start,
                    uint16_t tag, size_t room, uint16_t number, uint16_t place, const char *result)
{
    descend_in(what, common(table, table_len), next, next_len, start, tag, room, number, place, result);
}
#define OWN SLICE(warehouse), SLICE(warehouse_next)
#define BY(...) SLICE(warehouse), NUMBERS(__VA_ARGS__)

static void descendants(void)
{
    descend("pallets of the hall", OWN, 0, 3, 6, 0, 0, "001101");
    descend("pallets of bay 1", OWN, 1, 3, 6, 0, 0, "001100");
    descend("pallets of bay 4", OWN, 4, 3, 300, 0, 0, "000001");
    descend("bays of the hall", OWN, 0, 2, 7, 0, 0, "010010");
    descend("a node is no descendant of itself", OWN, 0, 1, 6, 0, 0, "000000");
    descend("a leaf", OWN, 2, 3, 6, 0, 0, "000000");
    descend("the last node", OWN, 5, 3, 6, 0, 0, "000000");
    descend("a tag that no node has", OWN, 0, 4, 6, 0, 0, "000000");
    descend("65534", OWN, 0, 65534, 6, 0, 0, "000000");
    descend("65535 is no star", OWN, 0, 65535, 6, 0, 0, "000000");
    descend("one node", NUMBERS(65535, 7), NUMBERS(65535), 0, 7, 1, 0, 0, "0");
    descend("pallets below a document node", SLICE(document), SLICE(document_next), 0, 3, 7, 0, 0, "0001101");
    descend("the document node's tag", SLICE(document), SLICE(document_next), 0, 65534, 7, 0, 0, "0000000");
    descend("65535 below a document node", SLICE(document), SLICE(document_next), 0, 65535, 7, 0, 0, "0000000");

    /* the tree says where a chain begins, the index how it goes on; what it does not read may be anything */
    descend("other numbers at other tags", BY(7, 7, 3, 5, 7, 65535), 0, 3, 6, 0, 0, "001101");
    descend("a number behind the stop", BY(7, 7, 3, 5, 7, 7), 1, 3, 6, 0, 0, "001100");
    descend("a first node beyond the subtree", BY(7, 7, 7, 7, 7, 7), 2, 3, 6, 0, 0, "000000");
    descend("no first node", BY(7, 7, 7, 7, 7, 7), 0, 1, 6, 0, 0, "000000");
    descend("an end that comes early", BY(65535, 4, 65535, 5, 65535, 65535), 0, 3, 6, 0, 0, "001000");
    descend("a node left out", BY(65535, 4, 5, 5, 65535, 65535), 0, 3, 6, 0, 0, "001001");
    descend("a node left out for one beyond the subtree", BY(65535, 4, 5, 5, 65535, 65535), 1, 3, 6, 0, 0, "001000");

    /* 27: the number at which the chain would stop is read too */
    descend("the node itself", BY(65535, 4, 2, 5, 65535, 65535), 0, 3, 6, 27, 2, "");
    descend("an earlier node", BY(65535, 4, 3, 2, 65535, 65535), 0, 3, 6, 27, 3, "");
    descend("a node of another tag", BY(65535, 4, 3, 4, 65535, 65535), 0, 3, 6, 27, 3, "");
    descend("a node of another tag beyond the subtree", BY(65535, 4, 3, 4, 65535, 65535), 1, 3, 6, 27, 3, "");
    descend("n", BY(65535, 4, 6, 5, 65535, 65535), 0, 3, 6, 27, 2, "");
    descend("65534", BY(65535, 4, 3, 5, 65535, 65534), 0, 3, 6, 27, 5, "");
    descend("65534 beyond the subtree", BY(65535, 4, 3, 65534, 65535, 65535), 1, 3, 6, 27, 3, "");
    descend("0", BY(65535, 4, 3, 5, 65535, 0), 4, 3, 6, 27, 5, "");
    descend("two wrong numbers", BY(65535, 4, 3, 1, 65535, 1), 0, 3, 6, 27, 3, "");
    descend("an index of 5 numbers", SLICE(warehouse), warehouse_next, 5, 0, 3, 6, 27, 0, "");
    descend("an index of 7 numbers", BY(65535, 4, 3, 5, 65535, 65535, 65535), 0, 3, 6, 27, 0, "");
    descend("no index", SLICE(warehouse), NOTHING, 0, 3, 6, 27, 0, "");
    descend("no index where nothing is found", SLICE(warehouse), NOTHING, 0, 65535, 6, 27, 0, "");

    /* the other refusals, and their order */
    descend("no tree", NOTHING, SLICE(warehouse_next), 0, 3, 6, 5, 0, "");
    descend("half a node", warehouse, 11, NOTHING, 6, 3, 0, 5, 0, "");
    descend("a bad parent", NUMBERS(65535, 1, 1, 2), NUMBERS(65535, 65535), 2, 2, 2, 6, 1, "");
    descend("a bad tag", NUMBERS(65535, 1, 0, 65535), NOTHING, 0, 65535, 0, 7, 1, "");
    descend("start 6", OWN, 6, 3, 6, 36, 0, "");
    descend("start 65535", OWN, 65535, 3, 6, 36, 0, "");
    descend("start 6 before the index", SLICE(warehouse), NOTHING, 6, 3, 0, 36, 0, "");
    descend("the index before the room", BY(65535, 4, 3, 1, 65535, 1), 0, 3, 5, 27, 3, "");
    descend("room for 5 bytes", OWN, 0, 3, 5, 20, 0, "");
    descend("no room where nothing is found", OWN, 0, 9, 0, 20, 0, "");
}

/* Every number of descendants that there can be: from each node of a chain of 256. */
static void descendants_of_chain(void)
{
    uint16_t table[512], next[256], tags[3], room = 256;
    for (uint16_t x = 0; x < 256; x++)
        table[2 * x] = x == 0 ? 65535 : x - 1, table[2 * x + 1] = 65533;
    struct shared t = common(SLICE(table));
    gz_index_reply r = gz_index(SHARED(t), SLICE(next), SLICE(tags));
    expect(r.number == 0 && r.next == 256 && r.tags == 3, "gz_index", "a chain", "reply");
    for (uint16_t start = 0; start < 256; start++) {
        char all[257] = "";
        for (int y = 0; y < 256; y++)
            all[y] = y > start ? '1' : '0';
        descend("a chain", SLICE(table), SLICE(next), start, 65533, room, 0, 0, all);
    }
}

/* Two firms over one table. Each sees the common nodes and its own, below seen ones; hidden nodes are of all owners.

       0 hall
       |-- 1 bay
       |   |-- 2 pallet  of 1
       |   `-- 3 pallet  of 2
       |-- 4 bay  of 2
       |   `-- 5 pallet
       |-- 6 bay  of 1
       |   |-- 7 pallet  of 1
       |   `-- 8 pallet
       `-- 9 bay
           |-- 10 pallet  of 2
           `-- 11 pallet  of 2

   Party 1 sees 0, 1, 2, 6, 7, 8 and 9 as 0 to 6, and party 2 sees 0, 1, 3, 4, 5, 9, 10 and 11 as 0 to 7. */
static const uint16_t firms[] = {65535, 1, 0, 0, 2, 0, 1, 3, 1, 1, 3, 2, 0, 2, 2, 4, 3, 0,
                                 0, 2, 1, 6, 3, 1, 6, 3, 0, 0, 2, 0, 9, 3, 2, 9, 3, 2};
static const uint16_t seen_by_1[] = {65535, 1, 0, 2, 1, 3, 0, 2, 3, 3, 3, 3, 0, 2};
static const uint16_t seen_by_2[] = {65535, 1, 0, 2, 1, 3, 0, 2, 3, 3, 0, 2, 5, 3, 5, 3};
/* the hall of the header, of which both see one tree */
static const uint16_t halves[] = {65535, 1, 0, 0, 2, 0, 1, 3, 1, 1, 3, 2, 0, 2, 2, 4, 3, 2, 0, 2, 1, 6, 3, 0};
#define PARTY(p) shared_with(p, SLICE(firms))

static struct lent for_party(uint16_t party, const uint16_t *query, size_t query_len, uint16_t columns, const uint16_t *nodes,
                             size_t nodes_len)
{
    return (struct lent){PARTY(party), party == 1 ? 7 : 8, query, query_len, columns, nodes, nodes_len};
}

/* A seen tree that is made where the room just suffices and where there is more, and is not made where there is less. */
static void seen_as(const char *what, struct shared t, const uint16_t *seen, size_t seen_len)
{
    sees(what, t, seen_len, 0, 0, seen, seen_len);
    sees(what, t, seen_len + 1, 0, 0, seen, seen_len);
    sees(what, t, 600, 0, 0, seen, seen_len);
    sees(what, t, seen_len - 1, 20, 0, NOTHING);
    sees(what, t, 1, 20, 0, NOTHING);
    sees(what, t, 0, 20, 0, NOTHING);
    gz_reply r = gz_check_tree(TABLE_OF(t));
    expect(r.number == 0 && r.place == 0, "gz_check_tree", what, "reply");
}

static void seen_trees(void)
{
    uint16_t table[3 * 256], seen[512];
    seen_as("firms, party 1", PARTY(1), SLICE(seen_by_1));
    seen_as("firms, party 2", PARTY(2), SLICE(seen_by_2));
    for (uint16_t party = 1; party <= 2; party++) {
        uint16_t other = 3 - party;
        seen_as("one tree for both", shared_with(party, SLICE(halves)), NUMBERS(65535, 1, 0, 2, 1, 3, 0, 2, 3, 3));
        seen_as("one node", shared_with(party, NUMBERS(65535, 65533, 0)), NUMBERS(65535, 65533));
        seen_as("a document node", shared_with(party, NUMBERS(65535, 65534, 0, 0, 7, other)), NUMBERS(65535, 65534));
        seen_as("below a hidden node",
                shared_with(party, NUMBERS(65535, 1, 0, 0, 2, other, 1, 3, 0, 2, 4, party, 1, 5, party, 0, 6, party)),
                NUMBERS(65535, 1, 0, 6));

        /* as many nodes as there may be: a chain that is hidden from a node on, the other party's every second child, and its own */
        for (size_t first = 1; first <= 256; first += 51) {
            for (size_t x = 0; x < 256; x++) {
                table[3 * x] = x == 0 ? 65535 : (uint16_t)(x - 1), table[3 * x + 1] = (uint16_t)(x % 5);
                table[3 * x + 2] = x == first ? other : x % 3 == 0 ? 0 : party;
                seen[2 * x] = table[3 * x], seen[2 * x + 1] = table[3 * x + 1];
            }
            seen_as("a chain", shared_with(party, SLICE(table)), seen, 2 * first);
        }
        for (size_t x = 0; x < 256; x++) {
            table[3 * x] = x == 0 ? 65535 : 0, table[3 * x + 2] = x % 2 == 0 ? 0 : other;
            seen[x] = x % 2 == 0 ? table[3 * x] : table[3 * (x - 1) + 1];
        }
        seen_as("every second child", shared_with(party, SLICE(table)), seen, 256);
        for (size_t x = 1; x < 256; x++)
            table[3 * x + 2] = party;
        for (size_t x = 0; x < 256; x++)
            seen[2 * x] = table[3 * x], seen[2 * x + 1] = table[3 * x + 1];
        seen_as("all its own", shared_with(party, SLICE(table)), seen, 512);
        seen_as("all the other's", shared_with(other, SLICE(table)), seen, 2);
    }
}

/* Each party's answers, by hand. Whatever a call is lent is a number of the seen tree. */
static void two_firms(void)
{
    const struct direction *f = &forwards, *b = &backwards;
    image(f, "following::*, party 1", for_party(1, SLICE(following), 0, NOTHING), "0100000", 7, 0, 0, "0001111");
    image(f, "following::*, party 2", for_party(2, SLICE(following), 0, NOTHING), "00010000", 8, 0, 0, "00000111");
    image(b, "following::*, party 1", for_party(1, SLICE(following), 0, NOTHING), "0000010", 40, 0, 0, "0110100");
    image(b, "following::*, party 2", for_party(2, SLICE(following), 0, NOTHING), "00000100", 40, 0, 0, "01111000");
    image(f, "child::3, party 1", for_party(1, SLICE(child_3), 0, NOTHING), "1111111", 7, 0, 0, "0010110");
    image(f, "child::3, party 2", for_party(2, SLICE(child_3), 0, NOTHING), "11111111", 8, 0, 0, "00101011");
    image(b, "child::3, party 1", for_party(1, SLICE(child_3), 0, NOTHING), "0000110", 7, 0, 0, "0001000");
    image(b, "child::3, party 2", for_party(2, SLICE(child_3), 0, NOTHING), "00001100", 8, 0, 0, "00010000");
    image(f, "the last bay with pallets, party 1", for_party(1, SLICE(last_bay), 0, NOTHING), "1111111", 7, 0, 0, "0000000");
    image(f, "the last bay with pallets, party 2", for_party(2, SLICE(last_bay), 0, NOTHING), "11111111", 8, 0, 0, "00000100");
    image(f, "bay 3, pallet 5, party 1", for_party(1, SLICE(pallets), 2, NUMBERS(3, 5)), "1111111", 7, 0, 0, "0000010");
    image(f, "bay 3, pallet 5, party 2", for_party(2, SLICE(pallets), 2, NUMBERS(3, 5)), "11111111", 8, 0, 0, "00000000");
    image(f, "bay 5, pallet 7, party 2", for_party(2, SLICE(pallets), 2, NUMBERS(5, 7)), "11111111", 8, 0, 0, "00000001");

    relation("child::*, party 1", for_party(1, SLICE(child), 0, NOTHING), 49, 0, 0,
             "0101001" "0010000" "0000000" "0000110" "0000000" "0000000" "0000000");
    relation("child::*, party 2", for_party(2, SLICE(child), 0, NOTHING), 64, 0, 0,
             "01010100" "00100000" "00000000" "00001000" "00000000" "00000011" "00000000" "00000000");
    bit_relation("child::*, party 1", for_party(1, SLICE(child), 0, NOTHING), 28, 0, 0,
                 "0101001" "0010000" "0000000" "0000110" "0000000" "0000000" "0000000");
    bit_relation("child::*, party 2", for_party(2, SLICE(child), 0, NOTHING), 40, 0, 0,
                 "01010100" "00100000" "00000000" "00001000" "00000000" "00000011" "00000000" "00000000");

    /* a star leads to what is seen, and a same asks of what is seen */
    static const uint16_t below[] = {STEP(1, STAR), ONE(13, 0)};
    static const uint16_t with_pallets[] = {SELF, STEP(1, STAR), STEP(5, 3), TWO(14, 1, 2), TWO(5, 0, 3)};
    both_engines("(child::*)*, party 1", for_party(1, SLICE(below), 0, NOTHING),
                 "1111111" "0110000" "0010000" "0001110" "0000100" "0000010" "0000001");
    both_engines("(child::*)*, party 2", for_party(2, SLICE(below), 0, NOTHING),
                 "11111111" "01100000" "00100000" "00011000" "00001000" "00000111" "00000010" "00000001");
    both_engines(".[child::* same descendant::3], party 1", for_party(1, SLICE(with_pallets), 0, NOTHING),
                 "0000000" "0100000" "0000000" "0001000" "0000000" "0000000" "0000000");
    both_engines(".[child::* same descendant::3], party 2", for_party(2, SLICE(with_pallets), 0, NOTHING),
                 "00000000" "01000000" "00000000" "00010000" "00000000" "00000100" "00000000" "00000000");

    struct lent bays_of_1 = for_party(1, SLICE(pallets), 2, NOTHING), bays_of_2 = for_party(2, SLICE(pallets), 2, NOTHING);
    gz_cursor cursor = CURSOR(0, 9, 9, 900);
    page("rows 1 and 2, party 1", bays_of_1, &cursor, 4, ACCEPTED(2, true), NUMBERS(1, 2, 3, 4), AT(3, 4, 900));
    page("row 3, party 1", bays_of_1, &cursor, 4, ACCEPTED(1, false), NUMBERS(3, 5), AT(3, 5, 900));
    page("no more rows, party 1", bays_of_1, &cursor, 4, ACCEPTED(0, false), NOTHING, AT(3, 5, 900));
    cursor = (gz_cursor){0};
    page("all rows, party 2", bays_of_2, &cursor, 64, ACCEPTED(4, false), NUMBERS(1, 2, 3, 4, 5, 6, 5, 7), AT(5, 7, 0));
    cursor = (gz_cursor){0};
    quick("rows 1 and 2, party 1", bays_of_1, &cursor, 4, COUNTED(2, true, 18), NUMBERS(1, 2, 3, 4), AT(3, 4, 0));
    quick("row 3, party 1", bays_of_1, &cursor, 4, COUNTED(1, false, 5), NUMBERS(3, 5), AT(3, 5, 0));
    cursor = (gz_cursor){0};
    quick("all rows, party 2", bays_of_2, &cursor, 64, COUNTED(4, false, 33), NUMBERS(1, 2, 3, 4, 5, 6, 5, 7), AT(5, 7, 0));
    same_pages("party 1", bays_of_1);
    same_pages("party 2", bays_of_2);
    same_pages("party 1, three variables", for_party(1, SLICE(pallets), 3, NOTHING));
    same_pages("party 2, no row", for_party(2, NUMBERS(0, 0, 0, 9), 2, NOTHING));

    const uint16_t next_1[] = {65535, 3, 4, 6, 5, 65535, 65535}, next_2[] = {65535, 3, 4, 5, 6, 65535, 7, 65535};
    making_of("firms, party 1", PARTY(1), ROOM(7, 9), MADE(7, 9), next_1, (const uint16_t[]){1, 0, 1, 2, 1, 3, 3, 2, 3});
    making_of("firms, party 2", PARTY(2), ROOM(8, 9), MADE(8, 9), next_2, (const uint16_t[]){1, 0, 1, 2, 1, 3, 3, 2, 4});
    making_of("firms, party 1, short", PARTY(1), ROOM(6, 9), UNMADE(20, 0), NULL, NULL);
    making_of("firms, party 1, a short list", PARTY(1), ROOM(7, 8), UNMADE(20, 0), NULL, NULL);
    making_of("firms, party 2, short", PARTY(2), ROOM(7, 9), UNMADE(20, 0), NULL, NULL);
    descend_in("pallets of the hall, party 1", PARTY(1), SLICE(next_1), 0, 3, 7, 0, 0, "0010110");
    descend_in("pallets of the hall, party 2", PARTY(2), SLICE(next_2), 0, 3, 8, 0, 0, "00101011");
    descend_in("pallets of bay 3, party 1", PARTY(1), SLICE(next_1), 3, 3, 40, 0, 0, "0000110");
    descend_in("pallets of bay 5, party 2", PARTY(2), SLICE(next_2), 5, 3, 40, 0, 0, "00000011");
    descend_in("pallets of bay 6, party 1", PARTY(1), SLICE(next_1), 6, 3, 7, 0, 0, "0000000");

    /* a party's numbers are not the other's, nor the table's: refusals judge by what the party sees */
    descend_in("start 7, party 1", PARTY(1), SLICE(next_1), 7, 3, 7, 36, 0, "");
    descend_in("start 7, party 2", PARTY(2), SLICE(next_2), 7, 3, 8, 0, 0, "00000000");
    descend_in("start 8, party 2", PARTY(2), SLICE(next_2), 8, 3, 8, 36, 0, "");
    descend_in("the other's index", PARTY(1), SLICE(next_2), 0, 3, 7, 27, 0, "");
    descend_in("the table's index", PARTY(2), NUMBERS(65535, 4, 3, 5, 6, 7, 9, 8, 10, 65535, 11, 65535), 0, 3, 12, 27, 0, "");
    descend_in("an index of another tag", PARTY(2), NUMBERS(65535, 3, 5, 6, 6, 65535, 7, 65535), 0, 3, 8, 27, 2, "");
    descend_in("an index past the seen nodes", PARTY(1), NUMBERS(65535, 3, 7, 6, 5, 65535, 65535), 0, 3, 7, 27, 2, "");
    descend_in("a byte too little, party 1", PARTY(1), SLICE(next_1), 0, 3, 6, 20, 0, "");
    for (int i = 0; i < 2; i++) {
        const struct direction *d = i == 0 ? f : b;
        image(d, "a set of the table's nodes", for_party(1, SLICE(child), 0, NOTHING), "111111111111", 12, 18, 0, "");
        image(d, "a set of the other's nodes", for_party(1, SLICE(child), 0, NOTHING), "11111111", 8, 18, 0, "");
        image(d, "variable 1 at node 7", for_party(1, SLICE(pallets), 2, NUMBERS(6, 7)), "1111111", 7, 17, 1, "");
        image(d, "variable 0 at node 8", for_party(2, SLICE(pallets), 2, NUMBERS(8, 7)), "11111111", 8, 17, 0, "");
        image(d, "room for 6 bytes", for_party(1, SLICE(child), 0, NOTHING), "1111111", 6, 20, 0, "");
    }
    relation("room for 48 bytes", for_party(1, SLICE(child), 0, NOTHING), 48, 20, 0, "");
    relation("room for 63 bytes", for_party(2, SLICE(child), 0, NOTHING), 63, 20, 0, "");
    bit_relation("room for 27 words", for_party(1, SLICE(child), 0, NOTHING), 27, 20, 0, "");
    bit_relation("room for 31 words", for_party(2, SLICE(child), 0, NOTHING), 31, 20, 0, "");
    for (uint16_t party = 1; party <= 2; party++) {
        cursor = AT(0, 6 + party, 900);
        struct lent bays = for_party(party, SLICE(pallets), 2, NOTHING);
        page("a cursor past the seen nodes", bays, &cursor, 4, REFUSED(17, 1), NOTHING, AT(0, 6 + party, 900));
        quick("a cursor past the seen nodes", bays, &cursor, 4, UNCOUNTED(17, 1), NOTHING, AT(0, 6 + party, 900));
    }
}

/* A shared table or a party that is refused, by every function that takes them alike, whatever else these are lent, also where that is
   wrong too. Nothing is written. */
static void refused_by_all(const char *what, struct shared t, uint16_t number, uint16_t place)
{
    static const uint16_t sound[] = {0, 1, 0, 65535}, unsound[] = {99, 0, 0};
    const gz_cursor fresh = {0}, beyond = AT(65535, 65535, 65535);
    gz_reply r = gz_check_tree(TABLE_OF(t));
    if (number == 31)
        expect(r.number == 0 && r.place == 0, "gz_check_tree", what, "reply");
    else
        expect(r.number == number && r.place == place, "gz_check_tree", what, "reply");
    for (int wrong = 0; wrong < 2; wrong++) {
        struct lent l = {t, 1, wrong ? unsound : sound, wrong ? 3 : 4, wrong ? 9 : 0, wrong ? unsound : NULL, wrong ? 1 : 0};
        struct lent p = {t, 1, wrong ? unsound : sound, wrong ? 3 : 4, wrong ? 9 : 1, NULL, 0};
        gz_cursor cursor = wrong ? beyond : fresh;
        sees(what, t, wrong ? 0 : 600, number, place, NOTHING);
        image(&forwards, what, l, wrong ? "29" : "1", wrong ? 0 : 256, number, place, "");
        image(&backwards, what, l, wrong ? "29" : "1", wrong ? 0 : 256, number, place, "");
        relation(what, l, wrong ? 0 : 64, number, place, "");
        bit_relation(what, l, wrong ? 0 : 1024, number, place, "");
        page(what, p, &cursor, wrong ? 0 : 64, REFUSED(number, place), NOTHING, wrong ? beyond : fresh);
        quick(what, p, &cursor, wrong ? 0 : 64, UNCOUNTED(number, place), NOTHING, wrong ? beyond : fresh);
        making_of(what, t, wrong ? ROOM(0, 0) : ROOM(300, 800), UNMADE(number, place), NULL, NULL);
        descend_in(what, t, unsound, wrong ? 3 : 0, wrong ? 900 : 0, 3, wrong ? 0 : 300, number, place, "");
    }
}

/* The firms' table with another number at a place. */
static struct shared but(uint16_t party, size_t at, uint16_t number)
{
    struct shared t = PARTY(party);
    t.numbers[at] = number;
    return t;
}

static void refused_tables(void)
{
    static const uint16_t parties[] = {0, 3, 4, 255, 256, 257, 258, 32769, 65534, 65535};
    static const uint16_t owners[] = {3, 4, 255, 256, 257, 258, 65534, 65535};
    static const uint16_t many[3 * 257 + 1] = {65535};
    for (uint16_t party = 0; party <= 3; party++) {
        refused_by_all("no tree", shared_with(party, NOTHING), 5, 0);
        refused_by_all("one number", shared_with(party, firms, 1), 5, 0);
        refused_by_all("two numbers", shared_with(party, firms, 2), 5, 0);
        refused_by_all("two thirds of a node too many", shared_with(party, firms, 35), 5, 0);
        refused_by_all("a third of a node too many", shared_with(party, firms, 34), 5, 0);
        refused_by_all("512 numbers", shared_with(party, many, 512), 5, 0);
        refused_by_all("769 numbers", shared_with(party, many, 769), 5, 0);
        refused_by_all("257 nodes", shared_with(party, many, 771), 5, 0);
        /* hidden nodes too, and each check over the whole table before the next */
        refused_by_all("a parent of another branch", but(party, 3 * 8, 5), 6, 8);
        refused_by_all("a hidden node's parent", but(party, 3 * 5, 2), 6, 5);
        refused_by_all("a tag of 65534", but(party, 3 * 5 + 1, 65534), 7, 5);
        refused_by_all("a tag of 65535", but(party, 3 * 8 + 1, 65535), 7, 8);
        struct shared t = but(party, 2, 1);
        t.numbers[3 * 10 + 1] = 65535;
        refused_by_all("a tag before an owner", t, 7, 10);
        t.numbers[3 * 11] = 5;
        refused_by_all("a parent before both", t, 6, 11);
        /* 30, at every node, the lowest first, and node 0 is common */
        refused_by_all("a hall of party 1", but(party, 2, 1), 30, 0);
        refused_by_all("a hall of party 2", but(party, 2, 2), 30, 0);
        for (size_t i = 0; i < LENGTH(owners); i++)
            for (uint16_t x = 0; x < 12; x++) {
                struct shared o = but(party, 3 * x + 2, owners[i]);
                refused_by_all("an owner above 2", o, 30, x);
                o.numbers[35] = 3;
                refused_by_all("the lowest owner above 2", o, 30, x);
            }
        refused_by_all("two numbers a node", shared_with(party, SLICE(warehouse)), 6, 1);
    }
    for (size_t i = 0; i < LENGTH(parties); i++) {
        refused_by_all("a party that there is not", PARTY(parties[i]), 31, 0);
        refused_by_all("a party that there is not, one node", shared_with(parties[i], NUMBERS(65535, 1, 0)), 31, 0);
    }
}

/* Isolation. What a call leaves: its reply, and the memory with its buffers and its cursor. */
struct left {
    size_t reply[4];
    gz_cursor cursor;
    uint8_t memory[66000];
};
static struct left left_here, left_there;
enum { SEEN, FORWARDS, BACKWARDS, PAIRS, BITS, PAGE, QUICK, INDEX, DESCENDANTS, FUNCTIONS };
static const char *const function_names[] = {"gz_seen",  "gz_forwards",   "gz_backwards", "gz_pairs",      "gz_pairs_bits",
                                             "gz_page",  "gz_quick_page", "gz_index",     "gz_descendants"};

/* All else that a call is lent. */
struct besides {
    uint16_t query[64], columns, nodes[3], start, tag;
    size_t query_len, nodes_len, from_len, room;
    uint8_t from[256];
    uint16_t next[256];
    size_t next_len;
    gz_cursor cursor;
};

static void leave(int function, const struct shared *t, const struct besides *e, struct left *l, size_t size)
{
    uint8_t *bytes = l->memory + 64;
    uint16_t *numbers = (uint16_t *)(void *)bytes;
    gz_image_reply i = {0};
    memset(l->reply, 0, sizeof l->reply);
    memset(l->memory, PATTERN, size);
    l->cursor = e->cursor;
    if (function == SEEN) {
        gz_made_reply r = gz_seen(SHARED(*t), numbers, e->room);
        i = (gz_image_reply){r.number, r.place, r.count};
    } else if (function == FORWARDS || function == BACKWARDS) {
        image_function *f = function == FORWARDS ? gz_forwards : gz_backwards;
        i = f(SHARED(*t), e->query, e->query_len, e->columns, e->nodes, e->nodes_len, e->from, e->from_len, bytes, e->room);
    } else if (function == PAIRS || function == BITS) {
        gz_reply r = function == PAIRS ? gz_pairs(SHARED(*t), e->query, e->query_len, e->columns, e->nodes, e->nodes_len, bytes, e->room)
                                       : gz_pairs_bits(SHARED(*t), e->query, e->query_len, e->columns, e->nodes, e->nodes_len,
                                                       (uint64_t *)(void *)bytes, e->room);
        i = (gz_image_reply){r.number, r.place, 0};
    } else if (function == PAGE || function == QUICK) {
        struct lent lent = {*t, 0, e->query, e->query_len, e->columns, NULL, 0};
        gz_quick_reply r = paged(function == QUICK, lent, &l->cursor, numbers, e->room);
        i = (gz_image_reply){r.number, r.place, r.count};
        l->reply[2] = r.more, l->reply[3] = r.evaluations;
    } else if (function == INDEX) {
        gz_index_reply r = gz_index(SHARED(*t), numbers, e->room, numbers + 800, e->room);
        i = (gz_image_reply){r.number, r.place, r.next};
        l->reply[2] = r.tags;
    } else {
        i = gz_descendants(SHARED(*t), e->next, e->next_len, e->start, e->tag, bytes, e->room);
    }
    l->reply[0] = 65536u * i.number + i.place, l->reply[1] = i.count;
}

static size_t accepted_alike, refused_alike;

/* A call of one of the functions over two tables of which the party sees the same: all that it leaves is the same. */
static void alike(int function, const struct shared *here, const struct shared *there, const struct besides *e, size_t size)
{
    leave(function, here, e, &left_here, size);
    leave(function, there, e, &left_there, size);
    if (left_here.reply[0] == 0)
        accepted_alike++;
    else
        refused_alike++;
    expect(memcmp(left_here.reply, left_there.reply, sizeof left_here.reply) == 0, function_names[function], "one seen tree", "reply");
    expect(memcmp(left_here.memory, left_there.memory, size) == 0, function_names[function], "one seen tree", "buffer");
    expect(same_cursor(left_here.cursor, left_there.cursor), function_names[function], "one seen tree", "cursor");
}

static uint32_t drawn = 20565;

static uint16_t draw(size_t below)
{
    drawn = drawn * 1103515245 + 12345;
    return (uint16_t)((drawn >> 16) % below);
}

/* Sound and unsound calls of every function, over a seen tree of n nodes. */
static void all_alike(const struct shared *here, const struct shared *there, size_t n)
{
    static const struct {
        uint16_t table[64];
        size_t length;
        uint16_t columns;
    } asked[] = {{{0, 7, 0, 65535}, 4, 0},
                 {{0, 5, 0, 2}, 4, 0},
                 {{0, 8, 0, 65534}, 4, 1},
                 {{0, 1, 0, 65535, 0, 3, 0, 65535, 1, 0, 1, 0}, 12, 1},
                 {{0, 5, 0, 65535, 0, 1, 0, 65535, 4, 0, 1, 0}, 12, 0},
                 {{0, 5, 0, 2, 12, 0, 0, 0, 5, 0, 1, 0, 0, 1, 0, 3, 12, 1, 0, 0, 5, 3, 4, 0, 1, 2, 5, 0}, 28, 2},
                 {{6, 0, 0, 0, 0, 2, 0, 65534, 8, 1, 0, 0, 9, 2, 0, 0, 5, 0, 3, 0}, 20, 1},
                 {{6, 0, 0, 0, 12, 0, 0, 0, 5, 0, 1, 0}, 12, 1},
                 {{STEP(1, STAR), ONE(13, 0)}, 8, 0},
                 {{ONE(6, 0), STEP(1, STAR), STEP(5, 2), TWO(14, 1, 2), TWO(5, 0, 3)}, 20, 1},
                 {{0, 1, 1, 0}, 4, 1}};
    for (int function = 0; function < FUNCTIONS; function++)
        for (size_t q = 0; q < LENGTH(asked); q++)
            for (int wrong = 0; wrong < 4; wrong++) {
                struct besides e = {.columns = asked[q].columns, .query_len = asked[q].length, .from_len = n, .next_len = n};
                size_t each = function == SEEN ? 2 : function == PAIRS ? n : function == BITS ? 4 : function == INDEX ? 3 : 1;
                size_t due = each * n;
                memcpy(e.query, asked[q].table, sizeof asked[q].table);
                if (e.columns == 0 && (function == PAGE || function == QUICK))
                    e.columns = 1;
                e.nodes_len = e.columns;
                e.cursor = CURSOR(draw(2), draw(n), draw(n), draw(n));
                e.start = draw(n), e.tag = draw(5);
                for (size_t x = 0; x < n; x++)
                    e.from[x] = draw(2), e.next[x] = 65535;
                for (size_t k = 0; k < 3; k++)
                    e.nodes[k] = draw(n);
                e.room = due + draw(2);
                if (wrong == 1) /* too little room, or room for no row */
                    e.room = function == PAGE || function == QUICK ? (size_t)e.columns - 1 : due - 1;
                if (wrong == 2) /* the first number that is no node */
                    e.nodes[0] = e.cursor.last[0] = e.start = (uint16_t)n, e.cursor.begun = 1, e.from_len = n - 1;
                if (wrong == 3) { /* an index that leads anywhere */
                    e.from[draw(n)] = 2, e.start = 0;
                    for (size_t x = 0; x < n; x++)
                        e.next[x] = draw(n + 1);
                }
                alike(function, here, there, &e, 144 + (function == PAIRS ? n * n : function == INDEX ? 1600 + 6 * n : 32 * n));
            }
}

static void add_to(struct shared *t, uint16_t parent, uint16_t tag, uint16_t owner)
{
    uint16_t *end = t->numbers + t->length;
    end[0] = parent, end[1] = tag, end[2] = owner;
    t->length += 3;
}

/* A shared table of which the party sees exactly a tree of n nodes: seen nodes are common or its own, and before each but the first, and
   behind the last, stand some that it does not see, the other's or below one of those. */
static struct shared hiding(const uint16_t *tree, size_t n, uint16_t party, size_t most)
{
    struct shared t = {.party = party};
    uint16_t path[256], number[256];
    bool open[256];
    size_t depth = 0, level[256];
    for (size_t x = 0; x <= n; x++) {
        size_t keep = x == 0 ? 0 : x == n ? 1 : level[tree[2 * x]] + 1;
        for (size_t hidden = x == 0 ? 0 : draw(most + 1); hidden > 0 && t.length / 3 + (n - x) < 256; hidden--) {
            size_t k = keep - 1 + draw(depth - keep + 1);
            add_to(&t, path[k], draw(6), open[k] ? 3 - party : draw(3));
            path[k + 1] = (uint16_t)(t.length / 3 - 1), open[k + 1] = false;
            depth = k + 2;
        }
        if (x < n) {
            add_to(&t, x == 0 ? 65535 : number[tree[2 * x]], tree[2 * x + 1], x == 0 || draw(2) ? 0 : party);
            number[x] = path[keep] = (uint16_t)(t.length / 3 - 1), open[keep] = true;
            level[x] = keep;
            depth = keep + 1;
        }
    }
    return t;
}

static void random_tree(uint16_t *tree, size_t n)
{
    for (uint16_t x = 0; x < n; x++) {
        uint16_t parent = x == 0 ? 65535 : x - 1;
        while (x != 0 && parent != 0 && draw(2))
            parent = tree[2 * parent];
        tree[2 * x] = parent, tree[2 * x + 1] = x == 0 && draw(2) ? 65534 : draw(5);
    }
}

/* Two tables with one seen tree, and the tree itself, common to both; the tables differ in all else. */
static void isolated(const uint16_t *tree, size_t n, size_t most)
{
    for (uint16_t party = 1; party <= 2; party++) {
        struct shared here = hiding(tree, n, party, most), there = hiding(tree, n, party, most), whole = common(tree, 2 * n);
        whole.party = party;
        seen_as("a random table", here, tree, 2 * n);
        seen_as("a random table", there, tree, 2 * n);
        all_alike(&here, &there, n);
        all_alike(&here, &whole, n);
        whole.party = 3 - party; /* of a common tree the other party sees as much */
        all_alike(&there, &whole, n);
    }
}

static void isolation(void)
{
    uint16_t tree[512];
    for (uint16_t party = 1; party <= 2; party++) {
        /* no hidden node, and then other owners of seen ones; below, other hidden nodes */
        struct shared here = PARTY(party), there = party == 1 ? common(SLICE(seen_by_1)) : common(SLICE(seen_by_2));
        size_t n = party == 1 ? 7 : 8;
        there.party = party;
        all_alike(&here, &there, n);
        for (size_t i = 3; i < there.length; i += 3)
            there.numbers[i + 2] = i % 2 ? 0 : party;
        all_alike(&here, &there, n);
    }
    struct shared here = PARTY(1), other = here;
    other.numbers[3 * 3 + 1] = 9, other.numbers[3 * 5 + 1] = 0, other.numbers[3 * 5 + 2] = 1; /* a pallet's tag, another's tag and owner */
    other.numbers[3 * 8 + 2] = 1, other.numbers[3 * 11] = 10; /* a seen pallet no longer common, a hidden one below another */
    all_alike(&here, &other, 7);
    struct shared left = shared_with(1, SLICE(halves)), right = shared_with(2, SLICE(halves));
    all_alike(&left, &right, 5);
    for (size_t n = 1; n <= 24; n++)
        for (size_t most = 1; most <= 3; most += 2) {
            random_tree(tree, n);
            isolated(tree, n, most);
        }
    /* as many nodes as there may be, hidden and seen */
    random_tree(tree, 100);
    isolated(tree, 100, 4);
    random_tree(tree, 256);
    isolated(tree, 256, 1);
    expect(accepted_alike > 10000 && refused_alike > 10000, "isolation", "calls", "shares of accepted and refused ones");
}

/* Reversed queries. */

static const uint16_t converse[] = {0, 2, 1, 4, 3, 6, 5, 8, 7, 10, 9, 12, 11};

/* A query reversed into a buffer that has just the room, into one that has more, and not into those that have less. More variables than it
   names make no difference. What is made passes the check. */
static void reverses(const char *what, const uint16_t *table, size_t length, uint16_t columns, const uint16_t *back, size_t back_len)
{
    query(what, table, length, columns, 0, 0);
    for (; columns <= 3; columns++) {
        query(what, back, back_len, columns, 0, 0);
        reversing(what, table, length, columns, back_len, 0, 0, back, back_len);
        reversing(what, table, length, columns, back_len + 1, 0, 0, back, back_len);
        reversing(what, table, length, columns, 300, 0, 0, back, back_len);
        reversing(what, table, length, columns, back_len - 1, 20, 0, NOTHING);
        reversing(what, table, length, columns, 0, 20, 0, NOTHING);
    }
}

/* A step reversed: its three entries, from entry `at` on. */
#define BACK(at, axis, tag) STEP(0, tag), STEP(axis, ANY_NODE), TWO(1, at, (at) + 1)

/* Each kind of path, by hand. */
static void reversed_paths(void)
{
    static const uint16_t tests[] = {0, 3, 65533, ANY_NODE, STAR};
    for (uint16_t axis = 0; axis < LENGTH(axes); axis++)
        for (size_t i = 0; i < LENGTH(tests); i++)
            reverses(axes[axis], NUMBERS(STEP(axis, tests[i])), 0, NUMBERS(BACK(0, converse[axis], tests[i])));
    for (uint16_t v = 0; v < 3; v++)
        reverses("a variable", NUMBERS(ONE(6, v)), v + 1,
                 NUMBERS(SELF, ONE(12, v), TWO(5, 0, 1), STEP(12, ANY_NODE), TWO(1, 2, 3), BELOW, TWO(1, 4, 5)));
    reverses("child::2/right::3", NUMBERS(STEP(1, 2), STEP(3, 3), TWO(1, 0, 1)), 0, NUMBERS(BACK(0, 4, 3), BACK(3, 2, 2), TWO(1, 2, 5)));
    for (uint16_t kind = 2; kind <= 4; kind++)
        reverses("union, intersect, except", NUMBERS(STEP(1, 2), STEP(3, 3), TWO(kind, 0, 1)), 0,
                 NUMBERS(BACK(0, 2, 2), BACK(3, 4, 3), TWO(kind, 2, 5)));
    reverses("child::2[. is $1]", NUMBERS(STEP(1, 2), ONE(12, 1), TWO(5, 0, 1)), 2,
             NUMBERS(SELF, ONE(12, 1), TWO(5, 0, 1), BACK(3, 2, 2), TWO(1, 2, 5)));
    reverses("/child::2", NUMBERS(STEP(1, 2), ONE(7, 0)), 0,
             NUMBERS(BACK(0, 2, 2), SELF, PARENT, ONE(8, 4), ONE(9, 5), TWO(5, 3, 6), TWO(1, 2, 7), BELOW, TWO(1, 8, 9)));
    reverses("(child::2)*", NUMBERS(STEP(1, 2), ONE(13, 0)), 0, NUMBERS(BACK(0, 2, 2), ONE(13, 2)));
    /* runs, leftwards and rightwards */
    reverses("child::1/right::2/descendant::3", NUMBERS(STEP(1, 1), STEP(3, 2), TWO(1, 0, 1), STEP(5, 3), TWO(1, 2, 3)), 0,
             NUMBERS(BACK(0, 6, 3), BACK(3, 4, 2), BACK(6, 2, 1), TWO(1, 5, 8), TWO(1, 2, 9)));
    reverses("child::1/(right::2/descendant::3)", NUMBERS(STEP(1, 1), STEP(3, 2), STEP(5, 3), TWO(1, 1, 2), TWO(1, 0, 3)), 0,
             NUMBERS(BACK(0, 6, 3), BACK(3, 4, 2), TWO(1, 2, 5), BACK(7, 2, 1), TWO(1, 6, 9)));
    reverses("(/$0)* except ..[. is $0]", NUMBERS(ONE(6, 0), ONE(7, 0), ONE(13, 1), PARENT, ONE(12, 0), TWO(5, 3, 4), TWO(4, 2, 5)), 1,
             NUMBERS(SELF, ONE(12, 0), TWO(5, 0, 1), STEP(12, ANY_NODE), TWO(1, 2, 3), BELOW, TWO(1, 4, 5), SELF, PARENT, ONE(8, 8),
                     ONE(9, 9), TWO(5, 7, 10), TWO(1, 6, 11), BELOW, TWO(1, 12, 13), ONE(13, 14), SELF, ONE(12, 0), TWO(5, 16, 17),
                     BACK(19, 1, ANY_NODE), TWO(1, 18, 21), TWO(4, 15, 22)));
    reverses("child::3, reversed", NUMBERS(BACK(0, 2, 3)), 0, NUMBERS(BACK(0, 1, ANY_NODE), BACK(3, 0, 3), TWO(1, 2, 5)));
    reverses("bays with pallets", SLICE(pallets), 2,
             NUMBERS(SELF, ONE(12, 1), TWO(5, 0, 1), BACK(3, 2, 3), TWO(1, 2, 5), SELF, ONE(12, 0), TWO(5, 7, 8), BACK(10, 6, 2),
                     TWO(1, 9, 12), TWO(1, 6, 13)));
}

/* Node expressions of each kind, and paths of each kind in them: they are copied. */
static void copied_tests(void)
{
    reverses("some", NUMBERS(STEP(1, 2), STEP(1, 3), ONE(8, 1), TWO(5, 0, 2)), 0,
             NUMBERS(SELF, STEP(1, 3), ONE(8, 1), TWO(5, 0, 2), BACK(4, 2, 2), TWO(1, 3, 6)));
    reverses("some and not", SLICE(last_bay), 0,
             NUMBERS(SELF, STEP(1, 3), ONE(8, 1), STEP(3, STAR), ONE(8, 3), ONE(9, 4), TWO(10, 2, 5), TWO(5, 0, 6), BACK(8, 2, 2),
                     TWO(1, 7, 10)));
    for (uint16_t kind = 10; kind <= 11; kind++)
        reverses("and, or", NUMBERS(STEP(1, 2), ONE(12, 2), ONE(12, 0), TWO(kind, 1, 2), TWO(5, 0, 3)), 3,
                 NUMBERS(SELF, ONE(12, 2), ONE(12, 0), TWO(kind, 1, 2), TWO(5, 0, 3), BACK(5, 2, 2), TWO(1, 4, 7)));
    reverses("same", SLICE(under_same), 2,
             NUMBERS(SELF, STEP(1, 3), ONE(6, 1), TWO(14, 1, 2), TWO(5, 0, 3), SELF, ONE(12, 0), TWO(5, 5, 6), BACK(8, 0, ANY_NODE),
                     TWO(1, 7, 10), TWO(1, 4, 11)));
    reverses("every kind of path in a test: following::1[.[((/child::2)* union $0 intersect .)/right::* except ..] same left::3]",
             NUMBERS(STEP(7, 1), SELF, STEP(1, 2), ONE(7, 2), ONE(13, 3), ONE(6, 0), SELF, TWO(3, 5, 6), TWO(2, 4, 7), STEP(3, STAR),
                     TWO(1, 8, 9), PARENT, TWO(4, 10, 11), ONE(8, 12), TWO(5, 1, 13), STEP(4, 3), TWO(14, 14, 15), TWO(5, 0, 16)), 1,
             NUMBERS(SELF, SELF, STEP(1, 2), ONE(7, 2), ONE(13, 3), ONE(6, 0), SELF, TWO(3, 5, 6), TWO(2, 4, 7), STEP(3, STAR),
                     TWO(1, 8, 9), PARENT, TWO(4, 10, 11), ONE(8, 12), TWO(5, 1, 13), STEP(4, 3), TWO(14, 14, 15), TWO(5, 0, 16),
                     BACK(18, 8, 1), TWO(1, 17, 20)));
    /* what is lent in another order is made in the order of typed queries all the same */
    reverses("the right operand first", NUMBERS(STEP(3, 3), STEP(1, 2), TWO(1, 1, 0)), 0,
             NUMBERS(BACK(0, 4, 3), BACK(3, 2, 2), TWO(1, 2, 5)));
    reverses("operands between each other's",
             NUMBERS(STEP(1, 1), STEP(3, 2), STEP(5, 3), STEP(7, 4), TWO(2, 2, 0), TWO(3, 1, 3), TWO(1, 5, 4)), 0,
             NUMBERS(BACK(0, 6, 3), BACK(3, 2, 1), TWO(2, 2, 5), BACK(7, 4, 2), BACK(10, 8, 4), TWO(3, 9, 12), TWO(1, 6, 13)));
    reverses("a test before its path, the right of it first",
             NUMBERS(ONE(12, 1), STEP(1, 3), STEP(1, 2), ONE(8, 1), TWO(11, 3, 0), TWO(5, 2, 4)), 2,
             NUMBERS(SELF, STEP(1, 3), ONE(8, 1), ONE(12, 1), TWO(11, 2, 3), TWO(5, 0, 4), BACK(6, 2, 2), TWO(1, 5, 8)));
}

/* As many entries as a query may have, and more: 16 steps composed make 63 and 17 make 67; a star, a filter, a leading slash and a variable
   add their own. 26 is told before the room is looked at. */
static void reversed_limits(void)
{
    uint16_t lent[256], back[256];
    size_t entries = 0;
    for (uint16_t k = 1; k <= 32; k++) {
        memcpy(lent + 4 * entries++, (const uint16_t[]){STEP(1, k)}, 8);
        if (k > 1) {
            memcpy(lent + 4 * entries, (const uint16_t[]){TWO(1, (uint16_t)(entries - 2), (uint16_t)(entries - 1))}, 8);
            entries++;
        }
        gz_made_reply r = gz_reverse(lent, 4 * entries, 0, back, 256);
        bool due = k <= 16 ? r.number == 0 && r.count == 4 * (4u * k - 1) : r.number == 26 && r.count == 0;
        expect(due, "gz_reverse", "composed steps", "reply");
        for (size_t room = 0; k > 16 && room <= 300; room += 50)
            reversing("too many composed steps", lent, 4 * entries, 0, room, 26, 0, NOTHING);
    }
    /* stars over a step: 61 make 64 entries, and 62 make 65 */
    memcpy(lent, (const uint16_t[]){STEP(5, 2)}, 8);
    memcpy(back, (const uint16_t[]){BACK(0, 6, 2)}, 24);
    for (uint16_t e = 1; e < 64; e++)
        memcpy(lent + 4 * e, (const uint16_t[]){ONE(13, e - 1)}, 8);
    for (uint16_t e = 3; e < 64; e++)
        memcpy(back + 4 * e, (const uint16_t[]){ONE(13, e - 1)}, 8);
    reverses("61 stars", lent, 4 * 62, 0, SLICE(back));
    reversing("62 stars", lent, 4 * 63, 0, 300, 26, 0, NOTHING);
    reversing("63 stars", lent, 4 * 64, 0, 0, 26, 0, NOTHING);
    /* child::2[not(.. not(. is $0) ..)]: the test and 6 more */
    for (uint16_t e = 0; e < 64; e++)
        memcpy(lent + 4 * e, (const uint16_t[]){e == 0 ? 12 : 9, e == 0 ? 0 : e - 1, 0, 0}, 8);
    for (uint16_t test = 57; test <= 62; test++) {
        memcpy(lent + 4 * test, (const uint16_t[]){STEP(1, 2), TWO(5, test, test - 1)}, 16);
        memcpy(back, (const uint16_t[]){SELF, ONE(12, 0)}, 16);
        for (uint16_t e = 2; e <= test; e++)
            memcpy(back + 4 * e, (const uint16_t[]){ONE(9, e - 1)}, 8);
        if (test <= 58) {
            memcpy(back + 4 * (test + 1), (const uint16_t[]){TWO(5, 0, test), BACK(test + 2, 2, 2), TWO(1, test + 1, test + 4)}, 40);
            reverses("nots", lent, 4 * (test + 2u), 1, back, 4 * (test + 6u));
        } else {
            reversing("too many nots", lent, 4 * (test + 2u), 1, 300, 26, 0, NOTHING);
        }
        memcpy(lent + 4 * test, (const uint16_t[]){ONE(9, test - 1), ONE(9, test)}, 16);
    }
    /* 'from the root' adds 8, and a variable makes 7 */
    memcpy(lent, (const uint16_t[]){ONE(6, 0)}, 8);
    for (uint16_t e = 1; e < 64; e++) {
        memcpy(lent + 4 * e, (const uint16_t[]){ONE(7, e - 1)}, 8);
        gz_made_reply r = gz_reverse(lent, 4 * (e + 1u), 1, back, 256);
        bool due = e <= 7 ? r.number == 0 && r.count == 4 * (7 + 8u * e) : r.number == 26 && r.count == 0;
        expect(due, "gz_reverse", "from the root", "reply");
    }
}

/* What a path is typed as, and what its reverse is typed as, kind by kind; operands stand in brackets, which make no entry. 64 entries have
   less than 5,000 bytes. */
static char typing[8192];
static size_t typing_len;

static void type(const char *piece)
{
    memcpy(typing + typing_len, piece, strlen(piece));
    typing_len += strlen(piece);
}

static void type_step(uint16_t axis, uint16_t tag)
{
    static const char *const tags[] = {"store", "hall", "bay", "pallet"};
    type(axes[axis]), type("::"), type(tag == STAR ? "*" : tag == ANY_NODE ? "node()" : tags[tag]);
}

static void type_variable(uint16_t variable)
{
    static const char *const variables[] = {"$0", "$1", "$2"};
    type(variables[variable]);
}

static void type_path(const uint16_t *query, uint16_t e);
static void type_reverse(const uint16_t *query, uint16_t e);

/* An operand in brackets, as it is or reversed. */
static void type_operand(void (*typist)(const uint16_t *, uint16_t), const uint16_t *query, uint16_t e)
{
    type("("), typist(query, e), type(")");
}

static const char *const operators[] = {[1] = "/",      [2] = " union ", [3] = " intersect ", [4] = " except ",
                                        [10] = " and ", [11] = " or ",   [14] = " same "};

static void type_test(const uint16_t *query, uint16_t e)
{
    const uint16_t *f = query + 4 * e;
    if (f[0] == 8)
        type_operand(type_path, query, f[1]);
    else if (f[0] == 9)
        type("not"), type_operand(type_test, query, f[1]);
    else if (f[0] == 12)
        type(". is "), type_variable(f[1]);
    else {
        void (*typist)(const uint16_t *, uint16_t) = f[0] == 14 ? type_path : type_test;
        type("("), type_operand(typist, query, f[1]), type(operators[f[0]]), type_operand(typist, query, f[2]), type(")");
    }
}

static void type_path(const uint16_t *query, uint16_t e)
{
    const uint16_t *f = query + 4 * e;
    if (f[0] == 0)
        type_step(f[1], f[3]);
    else if (f[0] == 6)
        type_variable(f[1]);
    else if (f[0] == 7)
        type("/"), type_operand(type_path, query, f[1]);
    else {
        type_operand(type_path, query, f[1]);
        if (f[0] == 5)
            type("["), type_test(query, f[2]), type("]");
        else if (f[0] == 13)
            type("*");
        else
            type(operators[f[0]]), type_operand(type_path, query, f[2]);
    }
}

static void type_reverse(const uint16_t *query, uint16_t e)
{
    const uint16_t *f = query + 4 * e;
    uint16_t first = f[0] == 1 ? f[2] : f[1], second = f[0] == 1 ? f[1] : f[2];
    if (f[0] == 0)
        type_step(0, f[3]), type("/"), type_step(converse[f[1]], ANY_NODE);
    else if (f[0] == 6)
        type("self::node()[. is "), type_variable(f[1]), type("]/ancestor-or-self::node()/descendant-or-self::node()");
    else if (f[0] == 5)
        type("self::node()["), type_test(query, f[2]), type("]/"), type_operand(type_reverse, query, f[1]);
    else {
        type_operand(type_reverse, query, first);
        if (f[0] == 7)
            type("/self::node()[not(parent::node())]/descendant-or-self::node()");
        else if (f[0] == 13)
            type("*");
        else
            type(operators[f[0]]), type_operand(type_reverse, query, second);
    }
}

/* What is typed, read into a table of 256 numbers. */
static gz_read_reply read_typed(void (*typist)(const uint16_t *, uint16_t), const uint16_t *query, size_t entries, uint16_t *table)
{
    typing_len = 0;
    typist(query, (uint16_t)(entries - 1));
    return gz_read((const uint8_t *)typing, typing_len, TABLE(house), TABLE(site), table, 256);
}

/* A random query. Which operand's entries stand first is drawn too. */
static uint16_t random_query[4 * 256];
static size_t random_entries;

static uint16_t random_entry(uint16_t kind, uint16_t left, uint16_t right, uint16_t tag)
{
    memcpy(random_query + 4 * random_entries, (const uint16_t[]){kind, left, right, tag}, 8);
    return (uint16_t)random_entries++;
}

static uint16_t random_test(size_t depth);
static uint16_t random_path(size_t depth);

static uint16_t random_binary(uint16_t kind, size_t depth)
{
    uint16_t (*left)(size_t) = kind == 10 || kind == 11 ? random_test : random_path;
    uint16_t (*right)(size_t) = kind == 5 ? random_test : left;
    bool swap = draw(2);
    uint16_t a = swap ? right(depth - 1) : left(depth - 1), b = swap ? left(depth - 1) : right(depth - 1);
    return random_entry(kind, swap ? b : a, swap ? a : b, 0);
}

static uint16_t random_path(size_t depth)
{
    static const uint16_t kinds[] = {0, 0, 6, 1, 1, 2, 3, 4, 5, 5, 7, 13, 13}, tests[] = {0, 1, 2, 3, ANY_NODE, STAR};
    uint16_t kind = kinds[draw(depth == 0 ? 3 : LENGTH(kinds))];
    if (kind == 0)
        return random_entry(0, draw(13), 0, tests[draw(LENGTH(tests))]);
    if (kind == 6)
        return random_entry(6, draw(3), 0, 0);
    if (kind == 7 || kind == 13)
        return random_entry(kind, random_path(depth - 1), 0, 0);
    return random_binary(kind, depth);
}

static uint16_t random_test(size_t depth)
{
    static const uint16_t kinds[] = {12, 8, 8, 9, 10, 11, 14};
    uint16_t kind = kinds[draw(depth == 0 ? 1 : LENGTH(kinds))];
    if (kind == 12)
        return random_entry(12, draw(3), 0, 0);
    if (kind == 8 || kind == 9)
        return random_entry(kind, kind == 8 ? random_path(depth - 1) : random_test(depth - 1), 0, 0);
    return random_binary(kind, depth);
}

/* The pairs of a query, swapped or not. */
static void pairs_of(struct lent l, const uint16_t *query, size_t query_len, bool swap, uint8_t *cells)
{
    static uint8_t found[65536];
    size_t n = l.n;
    gz_reply r = gz_pairs(SHARED(l.tree), query, query_len, l.columns, l.nodes, l.nodes_len, found, sizeof found);
    expect(r.number == 0, "gz_pairs", "a reversed query", "reply");
    for (size_t x = 0; x < n; x++)
        for (size_t y = 0; y < n; y++)
            cells[x * n + y] = swap ? found[y * n + x] : found[x * n + y];
}

/* Over one tree and under one assignment: the reversed query's pairs are the query's, swapped; what either reaches forwards the other
   reaches backwards, from each node, of a large tree every 51st, from all and from every third; and where it can be reversed again, that
   has the query's pairs. */
static void swapped(struct lent l, const uint16_t *back, size_t back_len)
{
    static uint8_t here[65536], there[65536];
    static const struct direction *const directions[] = {&forwards, &backwards};
    uint16_t twice[256];
    size_t n = l.n;
    pairs_of(l, l.query, l.query_len, false, here);
    pairs_of(l, back, back_len, true, there);
    expect(memcmp(here, there, n * n) == 0, "gz_reverse", "a random query", "pairs");
    for (size_t set = 0; set < n + 2; set += n < 100 || set >= n - 1 ? 1 : 51)
        for (int i = 0; i < 2; i++) {
            uint8_t from[256], to[2][256] = {{0}};
            for (size_t x = 0; x < n; x++)
                from[x] = set < n ? x == set : set == n || x % 3 == 1;
            const struct direction *d = directions[i], *b = directions[!i];
            gz_image_reply r = d->function(SHARED(l.tree), l.query, l.query_len, l.columns, l.nodes, l.nodes_len, from, n, to[0], n);
            gz_image_reply s = b->function(SHARED(l.tree), back, back_len, l.columns, l.nodes, l.nodes_len, from, n, to[1], n);
            expect(r.number == 0 && s.number == 0 && r.count == s.count, b->name, "a reversed query", "reply");
            expect(memcmp(to[0], to[1], n) == 0, b->name, "a reversed query", "image");
        }
    gz_made_reply again = gz_reverse(back, back_len, l.columns, twice, 256);
    if (again.number == 0) {
        pairs_of(l, twice, again.count, false, there);
        expect(memcmp(here, there, n * n) == 0, "gz_reverse", "a random query, twice", "pairs");
    }
    expect(again.number == 0 ? again.count > back_len : again.number == 26, "gz_reverse", "a random query, twice", "reply");
}

/* Over trees of both parties, with and without hidden nodes: images and pairs, and the answers, which are the same; quick pages take both
   queries or neither. */
static void reversed_over_trees(const uint16_t *back, size_t back_len)
{
    uint16_t tree[512];
    size_t n = 1 + draw(6);
    random_tree(tree, n);
    for (uint16_t party = 1; party <= 2; party++) {
        const uint16_t nodes[] = {draw(n), draw(n), draw(n)};
        struct lent l = {hiding(tree, n, party, draw(3)), n, random_query, 4 * random_entries, 3, nodes, 3};
        swapped(l, back, back_len);
        uint16_t rows[LENGTH(every_row)], row[3];
        size_t answers = every_answer(l);
        memcpy(rows, every_row, sizeof rows);
        gz_cursor cursor = {0}, fresh = {0};
        gz_quick_reply q = paged(true, l, &cursor, row, 3);
        l.query = back, l.query_len = back_len;
        expect(every_answer(l) == answers && memcmp(rows, every_row, 6 * answers) == 0, "gz_reverse", "a random query", "answers");
        gz_quick_reply r = paged(true, l, &fresh, row, 3);
        expect((q.number == 0 || q.number == 29) && q.number == r.number, "gz_quick_page", "a reversed query", "reply");
    }
}

/* Random queries: the table that is made is the one that is read from what is typed, and so is that of the query in the order of typed
   queries; one that has too many entries is refused by both. */
static void random_reversals(void)
{
    size_t made = 0, refused = 0, unread_texts = 0;
    for (size_t i = 0; i < 3000; i++) {
        uint16_t table[256], due[256], back[256];
        random_entries = 0;
        random_path(draw(8));
        if (random_entries > 64)
            continue;
        gz_read_reply r = read_typed(type_path, random_query, random_entries, table);
        expect(r.number == 23 || (r.number == 0 && r.count == 4 * random_entries), "gz_read", "a random query", "reply");
        gz_read_reply s = read_typed(type_reverse, random_query, random_entries, due);
        expect(s.number == 23 || s.number == 26 || s.number == 0, "gz_read", "a random query, reversed", "reply");
        if (r.number == 23 || s.number == 23) {
            unread_texts++;
            continue;
        }
        reversing("a random query", random_query, 4 * random_entries, 3, 256, s.number, 0, due, s.count);
        reversing("a random query, typed", table, r.count, 3, 300, s.number, 0, due, s.count);
        if (s.number == 26) {
            refused++;
            continue;
        }
        made++;
        gz_reverse(random_query, 4 * random_entries, 3, back, 256);
        query("a random query, reversed", back, s.count, 3, 0, 0);
        reversed_over_trees(back, s.count);
    }
    expect(made > 1000 && refused > 100 && unread_texts < 500, "gz_reverse", "random queries", "shares of made and refused ones");
}

/* Typed queries, and what the reversed ones are typed as; and over the largest trees. */
static void typed_reversals(void)
{
    static const char *const texts[][2] = {
        {"child::pallet", "self::pallet/parent::node()"},
        {".", "./."},
        {"$1", ".[. is $1]/ancestor-or-self::node()/descendant-or-self::node()"},
        {"child::bay/child::pallet", "self::pallet/../(self::bay/..)"},
        {"child::bay union right::*", "self::bay/.. union self::*/left::node()"},
        {"child::bay intersect right::*", "self::bay/.. intersect self::*/left::node()"},
        {"child::bay except right::*", "self::bay/.. except self::*/left::node()"},
        {"child::bay[child::pallet]", ".[child::pallet]/(self::bay/..)"},
        {"/child::bay", "self::bay/../.[not(..)]/descendant-or-self::node()"},
        {"(child::pallet)*", "(self::pallet/..)*"},
        {"//child::pallet[not(right::*)]",
         ".[not(right::*)]/(self::pallet/..)/(./ancestor-or-self::node())/.[not(..)]/descendant-or-self::node()"},
        {"descendant::bay[. is $0]/child::pallet[. is $1]", ".[. is $1]/(self::pallet/..)/(.[. is $0]/(self::bay/ancestor::node()))"},
        {"child::bay[child::pallet same (child::*)*/$0][..]/(right::* union left::*)*",
         "(self::*/left::node() union self::*/right::node())*/(.[..]/(.[child::pallet same (child::*)*/$0]/(self::bay/..)))"}};
    fill_hall();
    fill_chain();
    for (size_t i = 0; i < LENGTH(texts); i++) {
        uint16_t table[256], back[256];
        const uint8_t *text = (const uint8_t *)texts[i][0], *turned = (const uint8_t *)texts[i][1];
        gz_read_reply r = gz_read(text, strlen(texts[i][0]), TABLE(house), TABLE(site), table, 256);
        gz_read_reply s = gz_read(turned, strlen(texts[i][1]), TABLE(house), TABLE(site), back, 256);
        expect(r.number == 0 && s.number == 0 && r.columns == s.columns, "gz_read", texts[i][0], "reply");
        reverses(texts[i][0], table, r.count, r.columns, back, s.count);
        for (uint16_t node = 0; node < 6; node++) {
            const uint16_t nodes[] = {node, (node * 5 + 2) % 6, 40 * node, 255 - 40 * node};
            swapped(LENT(table, r.count, r.columns, nodes, r.columns), back, s.count);
            swapped(ON(SLICE(document), table, r.count, r.columns, nodes, r.columns), back, s.count);
            if (node % 3 == 1) {
                swapped(ON(hall, 512, table, r.count, r.columns, nodes + 2, r.columns), back, s.count);
                swapped(ON(chain, 512, table, r.count, r.columns, nodes + 2, r.columns), back, s.count);
            }
        }
    }
}

static void reversals(void)
{
    reversed_paths();
    copied_tests();
    reversed_limits();
    typed_reversals();
    random_reversals();
}

int main(void)
{
    trees();
    queries();
    images();
    counts();
    relations();
    bit_relations();
    stars();
    sames();
    conversions();
    both_forms();
    large_stars();
    nested_queries();
    pages();
    quick_pages();
    broken_rules();
    fill_hall();
    places(1);
    places(9);
    places(100);
    places(225);
    places(256);
    dear_searches();
    blocks();
    large_blocks();
    names();
    typed();
    rules();
    indexes();
    descendants();
    descendants_of_chain();
    seen_trees();
    two_firms();
    refused_tables();
    isolation();
    reversals();
    printf("%d compared, %d wrong\n", tried, failed);
    return failed != 0;
}
