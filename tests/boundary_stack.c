/* The stack that a call takes is as include/geznauri.h has it: less than 1 KiB for a check and a name, less than 4 KiB where a seen tree
   is made, a typed query is read, an index is made or followed, or a relation turned from bytes to bits or back, less than 32 KiB where a
   query is reversed, less than 9 KiB for a query of one level, and less than 4 KiB for each further level of nesting; a page takes less
   than 14 KiB for one level, a quick one less than 13, and 4 KiB for each further one. Pairs in bits take so little for every query that
   stack and table together are smaller than a table of bytes; pairs in bytes take less than 64 KiB for every query, and all else that is
   asked of a query that nests less than 70, but a page may take what its levels allow: what its variables decide need not nest.
   Calls run on a stack that was filled with a pattern; how much of the pattern is gone, less what a thread takes that calls nothing, is
   what the call took. The tree of queries has one node, and of quick pages two: frames are of one size for all trees; for pairs in bits it
   has 256, as has what is turned. */
#define _GNU_SOURCE
#include "geznauri.h"
#include <pthread.h>
#include <stdio.h>
#include <stdlib.h>
#include <string.h>

#define PATTERN 0xA5
#define NESTING (70 * 1024) /* for a query that nests */
#define WRITTEN (64 * 1024) /* for pairs in bytes of every query */
#define REVERSED (32 * 1024) /* for the reversing of every query */
#define SIZE ((size_t)1 << 20)

static const uint16_t tree[] = {65535, 1, 0};
static uint16_t query[256];
static size_t entries;

static void entry(uint16_t kind, uint16_t left, uint16_t right, uint16_t tag)
{
    uint16_t *e = query + 4 * entries++;
    e[0] = kind, e[1] = left, e[2] = right, e[3] = tag;
}

static void *nothing(void *unused)
{
    return unused;
}

static void accepted(uint16_t number)
{
    if (number != 0) {
        printf("refused %u\n", number);
        exit(1);
    }
}

static void *checks(void *unused)
{
    static const uint8_t house[] = "\3bay", site[] = "\6pallet";
    gz_part name;
    accepted(gz_check_tree(tree, 3).number);
    accepted(gz_check_query(query, 4 * entries, 1).number);
    accepted(gz_name(house, 4, site, 7, 1, &name).number);
    return unused;
}

static void *images(void *unused)
{
    uint8_t from[1] = {1}, to[1];
    uint16_t nodes[1] = {0};
    accepted(gz_forwards(tree, 3, 1, query, 4 * entries, 1, nodes, 1, from, 1, to, 1).number);
    accepted(gz_backwards(tree, 3, 1, query, 4 * entries, 1, nodes, 1, from, 1, to, 1).number);
    return unused;
}

/* Pages of three variables, plain and quick. With two nodes, and room for the eight rows that there can be, each variable is filled and then
   sought again, while those behind it stand for any node. */
static const uint16_t two[] = {65535, 1, 0, 0, 1, 1};

static void *pages(void *unused)
{
    static uint16_t rows[24];
    gz_cursor cursor = {0};
    accepted(gz_page(two, 6, 1, query, 4 * entries, 3, &cursor, rows, 24).number);
    return unused;
}

static void *quick(void *unused)
{
    static uint16_t rows[24];
    gz_cursor cursor = {0};
    accepted(gz_quick_page(two, 6, 1, query, 4 * entries, 3, &cursor, rows, 24).number);
    return unused;
}

/* A query reversed. That it has too many entries is told when it is made. */
static void *reversing(void *unused)
{
    static uint16_t table[256];
    uint16_t number = gz_reverse(query, 4 * entries, 3, table, 256).number;
    if (number != 26)
        accepted(number);
    return unused;
}

/* Pairs in bits of the largest tree, and the largest table turned. */
static uint16_t large[768];
static uint64_t words[1024];
static uint8_t cells[65536];

static void *bits(void *unused)
{
    uint16_t nodes[1] = {0};
    accepted(gz_pairs_bits(large, 768, 1, query, 4 * entries, 1, nodes, 1, words, 1024).number);
    return unused;
}

static void *in_bytes(void *unused)
{
    uint16_t nodes[1] = {0};
    accepted(gz_pairs(large, 768, 1, query, 4 * entries, 1, nodes, 1, cells, 65536).number);
    return unused;
}

static void *turned(void *unused)
{
    accepted(gz_pack(256, cells, 65536, words, 1024).number);
    accepted(gz_unpack(256, words, 1024, cells, 65536).number);
    return unused;
}

static uint8_t text[1024];
static size_t text_len;
static uint16_t reply_due;

static void *reading(void *unused)
{
    static const uint8_t house[] = "\3bay", site[] = "\6pallet";
    static uint16_t table[256];
    if (gz_read(text, text_len, house, 4, site, 7, table, 256).number != reply_due) {
        printf("another reply than %u\n", reply_due);
        exit(1);
    }
    return unused;
}

/* The seen tree and the index of a tree as large as it may be: a chain, with the tags in turn. */
static uint16_t chain[768], chain_next[256], chain_tags[768];

static void *tree_seen(void *unused)
{
    static uint16_t table[512];
    accepted(gz_seen(chain, 768, 2, table, 512).number);
    return unused;
}

static void *index_made(void *unused)
{
    accepted(gz_index(chain, 768, 2, chain_next, 256, chain_tags, 768).number);
    return unused;
}

static void *index_followed(void *unused)
{
    static uint8_t to[256];
    accepted(gz_descendants(chain, 768, 2, chain_next, 256, 0, chain[4], to, 256).number);
    return unused;
}

static size_t taken(void *(*run)(void *))
{
    uint8_t *stack = aligned_alloc(4096, SIZE);
    pthread_attr_t attributes;
    pthread_t thread;
    size_t left = 0;
    if (stack == NULL)
        exit(1);
    memset(stack, PATTERN, SIZE);
    if (pthread_attr_init(&attributes) != 0 || pthread_attr_setstack(&attributes, stack, SIZE) != 0)
        exit(1);
    if (pthread_create(&thread, &attributes, run, NULL) != 0 || pthread_join(thread, NULL) != 0)
        exit(1);
    while (left < SIZE && stack[left] == PATTERN)
        left++;
    free(stack);
    return SIZE - left;
}

static int wrong;

static void most(size_t *of, size_t number)
{
    if (number > *of)
        *of = number;
}

/* The levels of the query, by the header's words: 1 for an entry without operands, and else one more than those of the operand
   that has the most. */
static size_t levels(size_t e)
{
    const uint16_t *f = query + 4 * e;
    bool left = f[0] != 0 && f[0] != 6 && f[0] != 12, right = (1 <= f[0] && f[0] <= 5) || f[0] == 10 || f[0] == 11 || f[0] == 14;
    size_t a = left ? levels(f[1]) : 0, b = right ? levels(f[2]) : 0;
    return 1 + (a < b ? b : a);
}

/* How deep the kinds 3, 4 and 13 nest, by the header's words; kind 14 counts double. A query nests that is two deep. */
static size_t depth(size_t e)
{
    const uint16_t *f = query + 4 * e;
    bool left = f[0] != 0 && f[0] != 6 && f[0] != 12, right = (1 <= f[0] && f[0] <= 5) || f[0] == 10 || f[0] == 11 || f[0] == 14;
    size_t a = left ? depth(f[1]) : 0, b = right ? depth(f[2]) : 0;
    return (f[0] == 3 || f[0] == 4 || f[0] == 13 ? 1 : f[0] == 14 ? 2 : 0) + (a < b ? b : a);
}

/* What a call may take for a query that nests, and else for its levels; `one` KiB for the first. */
static size_t limit(size_t levels, size_t one)
{
    return depth(entries - 1) >= 2 ? NESTING : one * 1024 + (levels - 1) * 4096;
}

static size_t page_limit(size_t levels)
{
    size_t by_levels = 14 * 1024 + (levels - 1) * 4096;
    return limit(levels, 14) < by_levels ? by_levels : limit(levels, 14);
}

/* The most that the reversing of a query took, of any shape. */
static size_t most_reversed;

static size_t reversed(void)
{
    size_t took = taken(reversing) - taken(nothing);
    most(&most_reversed, took);
    if (took >= REVERSED)
        wrong = 1;
    return took;
}

/* A quick page makes a table in which a variable that stands for any node has one level more. */
static size_t most_quick, most_page, most_one_page, most_nesting;

static void quick_at_most(const char *what, size_t expected)
{
    size_t took = taken(quick) - taken(nothing), paged = taken(pages) - taken(nothing);
    printf("%s, %zu levels: %zu bytes for a quick page, %zu for a page, %zu reversed\n", what, expected, took, paged, reversed());
    most(depth(entries - 1) >= 2 ? &most_nesting : &most_quick, took);
    most(&most_page, paged);
    if (expected == 1)
        most(&most_one_page, paged);
    if (levels(entries - 1) != expected || took >= limit(expected, 13) || paged >= page_limit(expected))
        wrong = 1;
}

/* The most that an image by a query that does not nest took: in all, for one level, and for each level beyond that. */
static size_t most_taken, most_one, most_level;

static void at_most(const char *what, size_t expected)
{
    size_t took = taken(images) - taken(nothing), checked = taken(checks) - taken(nothing);
    printf("%s, %zu levels: %zu bytes, and %zu for the checks\n", what, expected, took, checked);
    if (depth(entries - 1) >= 2)
        most(&most_nesting, took);
    else
        most(&most_taken, took);
    if (expected == 1)
        most(&most_one, took);
    else if (took > most_one && depth(entries - 1) < 2)
        most(&most_level, (took - most_one) / (expected - 1));
    if (levels(entries - 1) != expected || took >= limit(expected, 9) || checked >= 1024)
        wrong = 1;
    quick_at_most(what, expected);
}

/* The most that pairs in bits took, and in bytes. With the caller's table, which is lent, the former stays below the table of bytes. Of a
   query that nests the images and pages are measured too. */
static size_t most_bits, most_bytes;

static size_t in_bits(const char *what)
{
    size_t took = taken(bits) - taken(nothing), written = taken(in_bytes) - taken(nothing);
    size_t nesting = depth(entries - 1) >= 2 ? taken(images) - taken(nothing) : 0, paged = nesting ? taken(pages) - taken(nothing) : 0;
    printf("%s, %zu entries, in bits: %zu bytes, %zu in bytes; nesting: %zu and %zu for a page; %zu reversed\n", what, entries, took,
           written, nesting, paged, reversed());
    most(&most_bits, took);
    most(&most_bytes, written);
    most(&most_nesting, nesting);
    most(&most_nesting, paged);
    if (took + sizeof words >= sizeof cells || written >= WRITTEN || nesting >= NESTING || paged >= NESTING)
        wrong = 1;
    return took;
}

/* A text of some times a piece, a middle, and as many times the piece that closes it. */
static void nested(const char *open, size_t times, const char *middle, const char *close, uint16_t reply)
{
    text_len = 0;
    for (size_t i = 0; i < times; i++, text_len += strlen(open))
        memcpy(text + text_len, open, strlen(open));
    memcpy(text + text_len, middle, strlen(middle));
    text_len += strlen(middle);
    for (size_t i = 0; i < times; i++, text_len += strlen(close))
        memcpy(text + text_len, close, strlen(close));
    reply_due = reply;
    size_t took = taken(reading) - taken(nothing);
    printf("%zu times %s and %s, %zu bytes of text: %zu bytes\n", times, open, close, text_len, took);
    if (took >= 4096)
        wrong = 1;
}

static void indexed(uint16_t tags)
{
    for (uint16_t x = 0; x < 256; x++)
        chain[3 * x] = x == 0 ? 65535 : x - 1, chain[3 * x + 1] = x % tags, chain[3 * x + 2] = x % 2 ? 2 : 0;
    size_t seen = taken(tree_seen) - taken(nothing), made = taken(index_made) - taken(nothing);
    size_t followed = taken(index_followed) - taken(nothing);
    printf("a seen tree: %zu bytes\n", seen);
    printf("an index with %u tags: %zu bytes where it is made, %zu where it is followed\n", tags, made, followed);
    if (seen >= 4096 || made >= 4096 || followed >= 4096)
        wrong = 1;
}

/* Steps, all axes in turn; how many there are is told. */
static void steps(uint16_t count)
{
    entries = 0;
    for (uint16_t e = 0; e < count; e++)
        entry(0, e % 13, 0, e % 3 == 0 ? 65535 : 1);
}

/* So many more steps, a power of two, joined two by two until one path is left. */
static void balanced(uint16_t leaves, uint16_t kind)
{
    uint16_t first = (uint16_t)entries;
    for (uint16_t i = 0; i < leaves; i++)
        entry(0, i % 13, 0, i % 3 == 0 ? 65535 : 1);
    for (; first + 1u < entries; first += 2)
        entry(kind, first, first + 1, 0);
}

/* Pieces of a path over another path, one over the other: the entries of a piece, kind and operands, and how many levels it adds. Operands
   count from the path below, which is 0, through the piece's own entries; a step is self::*, which leads somewhere in every tree. */
static const struct piece {
    const char *name;
    size_t levels, count;
    uint16_t entries[6][3];
} pieces[] = {{"from the root", 1, 1, {{7, 0}}},
              {"compositions, leftwards", 1, 2, {{0}, {1, 0, 1}}},
              {"compositions, rightwards", 1, 2, {{0}, {1, 1, 0}}},
              {"unions, leftwards", 1, 2, {{0}, {2, 0, 1}}},
              {"unions, rightwards", 1, 2, {{0}, {2, 1, 0}}},
              {"intersections, leftwards", 1, 2, {{0}, {3, 0, 1}}},
              {"intersections, rightwards", 1, 2, {{0}, {3, 1, 0}}},
              {"differences, leftwards", 1, 2, {{0}, {4, 0, 1}}},
              {"differences, rightwards", 1, 2, {{0}, {4, 1, 0}}},
              {"filters in filters", 2, 3, {{8, 0}, {0}, {5, 2, 1}}},
              {"compositions in filters", 3, 5, {{0}, {1, 0, 1}, {8, 2}, {0}, {5, 4, 3}}},
              {"stars", 1, 1, {{13, 0}}},
              {"stars from the root", 2, 2, {{7, 0}, {13, 1}}},
              {"stars of compositions, leftwards", 2, 3, {{0}, {1, 0, 1}, {13, 2}}},
              {"stars of compositions, rightwards", 2, 3, {{0}, {1, 1, 0}, {13, 2}}},
              {"stars of unions", 2, 3, {{0}, {2, 0, 1}, {13, 2}}},
              {"stars of intersections", 2, 3, {{0}, {3, 0, 1}, {13, 2}}},
              {"stars of differences", 2, 3, {{0}, {4, 1, 0}, {13, 2}}},
              {"stars left in compositions of stars", 2, 4, {{13, 0}, {0}, {13, 2}, {1, 1, 3}}},
              {"stars in filters", 3, 4, {{13, 0}, {8, 1}, {0}, {5, 3, 2}}},
              {"stars in filters, left in compositions", 4, 6, {{13, 0}, {8, 1}, {0}, {5, 3, 2}, {0}, {1, 4, 5}}},
              {"same in filters, leftwards", 2, 4, {{0}, {14, 0, 1}, {0}, {5, 3, 2}}},
              {"same in filters, rightwards", 2, 4, {{0}, {14, 1, 0}, {0}, {5, 3, 2}}},
              {"same in filters, left in compositions", 3, 6, {{0}, {14, 0, 1}, {0}, {5, 3, 2}, {0}, {1, 4, 5}}},
              {"same of stars in filters", 3, 6, {{13, 0}, {0}, {13, 2}, {14, 1, 3}, {0}, {5, 5, 4}}},
              {"stars of filters by same", 3, 5, {{0}, {14, 0, 1}, {0}, {5, 3, 2}, {13, 4}}},
              {"same under not in filters", 3, 5, {{0}, {14, 0, 1}, {9, 2}, {0}, {5, 4, 3}}}};
#define PIECES (sizeof pieces / sizeof *pieces)

/* As many of them over the last path as there is room for in a query of so many entries; answers how many levels they add. */
static size_t deepen(const struct piece *piece, size_t most)
{
    size_t added = 0;
    for (; entries + piece->count <= most; added += piece->levels) {
        uint16_t path = (uint16_t)(entries - 1);
        for (size_t i = 0; i < piece->count; i++) {
            const uint16_t *e = piece->entries[i];
            bool right = (1 <= e[0] && e[0] <= 5) || e[0] == 14;
            if (e[0] == 0)
                entry(0, 0, 0, 65535);
            else
                entry(e[0], path + e[1], right ? path + e[2] : 0, 0);
        }
    }
    return added;
}

/* The same of a piece by its number, or of a filter around the last path with as many nots as there is room for. */
static void deepest(size_t i, size_t most)
{
    if (i < PIECES)
        deepen(&pieces[i], most);
    else if (entries + 3 <= most) {
        entry(8, (uint16_t)(entries - 1), 0, 0);
        while (entries + 2 < most)
            entry(9, (uint16_t)(entries - 1), 0, 0);
        entry(0, 1, 0, 65535);
        entry(5, (uint16_t)(entries - 1), (uint16_t)(entries - 2), 0);
    }
}

static const char *deepest_name(size_t i)
{
    return i < PIECES ? pieces[i].name : "not";
}

/* The shapes that keep most tables or nest deepest: 64 entries, or as many as the shape has. Each is tried bare and from the root. */
static void shapes_in_bits(void)
{
    /* every node hangs below the node before it, but every third below the root */
    for (uint16_t x = 0; x < 256; x++)
        large[3 * x] = x == 0 ? 65535 : x % 3 == 1 ? 0 : x - 1, large[3 * x + 1] = 1, large[3 * x + 2] = x % 2;
    for (uint16_t kind = 1; kind <= 4; kind++) {
        static const char *const names[] = {"compositions", "unions", "intersections", "differences"};
        printf("%s: ", names[kind - 1]);
        entries = 0;
        balanced(32, kind);
        in_bits("balanced");
        entry(7, (uint16_t)(entries - 1), 0, 0);
        printf("%s: ", names[kind - 1]);
        in_bits("balanced, from the root");
        for (int side = 0; side < 2; side++) {
            steps(32);
            for (uint16_t i = 0; i < 31; i++) {
                uint16_t before = 31 + i, next = 30 - i;
                entry(kind, side ? next : before, side ? before : next, 0);
            }
            printf("%s: ", names[kind - 1]);
            size_t took = in_bits(side ? "rightwards" : "leftwards");
            if (kind == 1 && took >= 18 * 1024)
                wrong = 1;
        }
        /* a filter at every join, with the joins before it inside: each filter holds a path of two operands */
        entries = 0;
        entry(0, 1, 0, 65535);
        while (entries + 5 <= 64) {
            uint16_t path = (uint16_t)(entries - 1);
            entry(0, 5, 0, 65535);
            entry(kind, path, path + 1, 0);
            entry(8, path + 2, 0, 0);
            entry(0, 11, 0, 65535);
            entry(5, path + 4, path + 3, 0);
        }
        printf("%s: ", names[kind - 1]);
        in_bits("in nested filters");
    }

    /* in balance, with another kind at each level than at the one below it */
    steps(32);
    for (uint16_t first = 0, e = 0; first + 1u < entries; first += 2, e++)
        entry((uint16_t)(1 + (e < 16 ? 0 : e < 24 ? 1 : e < 28 ? 3 : e < 30 ? 2 : 0)), first, first + 1, 0);
    in_bits("balanced, all kinds");

    /* filters in filters, a path from the root in 63 entries over it, and nots */
    entries = 0;
    entry(12, 0, 0, 0);
    while (entries + 3 <= 63) {
        uint16_t test = (uint16_t)(entries - 1);
        entry(0, 1, 0, 65535);
        entry(5, test + 1, test, 0);
        entry(8, test + 2, 0, 0);
    }
    entry(0, 1, 0, 65535);
    entry(5, (uint16_t)(entries - 1), (uint16_t)(entries - 2), 0);
    in_bits("filters in filters");
    entries = 0;
    entry(0, 5, 0, 65535);
    for (uint16_t e = 1; e < 64; e++)
        entry(7, e - 1, 0, 0);
    in_bits("from the root");
    entries = 0;
    entry(0, 1, 0, 65535);
    entry(8, 0, 0, 0);
    for (uint16_t e = 2; e < 62; e++)
        entry(9, e - 1, 0, 0);
    entry(0, 1, 0, 65535);
    entry(5, 62, 61, 0);
    in_bits("not");
    /* and and or, in balance over 'is' */
    entries = 0;
    for (int i = 0; i < 31; i++)
        entry(12, 0, 0, 0);
    for (uint16_t first = 0; first + 1u < entries && entries < 61; first += 2)
        entry(10 + first / 2 % 2, first, first + 1, 0);
    entry(0, 5, 0, 65535);
    entry(5, (uint16_t)(entries - 1), (uint16_t)(entries - 2), 0);
    in_bits("and, or");
    /* some tables kept aside, and as many levels as there are entries left */
    for (uint16_t leaves = 1; leaves <= 32; leaves *= 2)
        for (size_t i = 0; i <= PIECES; i++) {
            entries = 0;
            balanced(leaves, 2);
            deepest(i, 64);
            printf("%u leaves in balance: ", leaves);
            in_bits(deepest_name(i));
        }
    /* a star over each of 16 leaves in balance, and over each join of them */
    for (uint16_t kind = 1; kind <= 4; kind++) {
        uint16_t at[16], paths = 16;
        steps(paths);
        for (uint16_t i = 0; i < paths; i++)
            entry(13, i, 0, 0), at[i] = (uint16_t)(entries - 1);
        for (; paths > 1; paths /= 2)
            for (uint16_t i = 0; i < paths / 2; i++) {
                entry(kind, at[2 * i], at[2 * i + 1], 0);
                entry(13, (uint16_t)(entries - 1), 0, 0);
                at[i] = (uint16_t)(entries - 1);
            }
        in_bits("stars in balance");
    }
    /* a same of two paths in balance, in a filter, and as many levels over it as there are entries left */
    for (uint16_t left = 1; left <= 16; left *= 2)
        for (uint16_t right = 1; right <= 16 && left + right < 32; right *= 2)
            for (size_t i = 0; i <= PIECES; i++) {
                entries = 0;
                balanced(left, 1);
                uint16_t path = (uint16_t)(entries - 1);
                balanced(right, 2);
                uint16_t test = (uint16_t)entries;
                entry(14, path, test - 1, 0);
                entry(0, 5, 0, 65535);
                entry(5, test + 1, test, 0);
                deepest(i, 64);
                printf("a same of %u and %u leaves in balance: ", left, right);
                in_bits(deepest_name(i));
            }
    /* two to five tables kept aside while a path of as many levels as there are entries left, on either side of them, is evaluated */
    for (uint16_t largest = 2; largest <= 16; largest *= 2)
        for (uint16_t kind = 1; kind <= 4; kind++)
            for (size_t i = 0; i <= PIECES; i++)
                for (int side = 0; side < 2; side++) {
                    steps(1);
                    deepest(i, 66 - 4 * (size_t)largest);
                    for (uint16_t leaves = 1; leaves <= largest; leaves *= 2) {
                        uint16_t path = (uint16_t)(entries - 1);
                        balanced(leaves, 2);
                        uint16_t other = (uint16_t)(entries - 1);
                        entry(kind, side ? other : path, side ? path : other, 0);
                    }
                    printf("on the %s of %u leaves, kind %u: ", side ? "right" : "left", 2 * largest - 1, kind);
                    in_bits(deepest_name(i));
                }
    steps(1);
    if (in_bits("one step") >= 6144)
        wrong = 1;
    printf("in bits at most %zu bytes, in bytes %zu\n", most_bits, most_bytes);
}

/* Quick pages of the deepest queries that have the last variable at their end, as a path and as `. is` it: from the root, in filters in
   filters, and on either side of what may have a variable below it. */
static void shapes_with_variables(void)
{
    entries = 0;
    entry(6, 2, 0, 0);
    quick_at_most("a variable", 1);
    for (uint16_t e = 1; e < 64; e++)
        entry(7, e - 1, 0, 0);
    quick_at_most("a variable, from the root", 64);
    entries = 0;
    entry(12, 2, 0, 0);
    entry(0, 0, 0, 65535);
    entry(5, 1, 0, 0);
    for (uint16_t e = 3; e + 3 <= 64; e += 3) {
        entry(8, e - 1, 0, 0);
        entry(0, 0, 0, 65535);
        entry(5, e + 1, e, 0);
    }
    quick_at_most("is, in filters in filters", 42);
    for (uint16_t kind = 1; kind <= 2; kind++)
        for (int side = 0; side < 2; side++) {
            entries = 0;
            entry(6, 2, 0, 0);
            for (uint16_t e = 1; e + 2 <= 64; e += 2) {
                entry(0, 0, 0, 65535);
                entry(kind, side ? e : e - 1, side ? e - 1 : e, 0);
            }
            quick_at_most("a variable, in paths of two operands", 32);
        }
    for (uint16_t kind = 10; kind <= 11; kind++)
        for (int side = 0; side < 2; side++) {
            entries = 0;
            entry(12, 2, 0, 0);
            entry(12, 1, 0, 0);
            entry(kind, 0, 1, 0);
            for (uint16_t e = 3; e + 5 <= 64; e += 3) {
                entry(0, 0, 0, 65535);
                entry(8, e, 0, 0);
                entry(kind, side ? e + 1 : e - 1, side ? e - 1 : e + 1, 0);
            }
            entry(0, 0, 0, 65535);
            entry(5, (uint16_t)(entries - 1), (uint16_t)(entries - 2), 0);
            quick_at_most("is, in and or or", 22);
        }
    /* and beside what may have none below it, on either side of a composition */
    for (size_t i = 0; i < PIECES; i++)
        for (int side = 0; side < 2; side++) {
            entries = 0;
            entry(0, 0, 0, 65535);
            size_t added = deepen(&pieces[i], 62);
            uint16_t path = (uint16_t)(entries - 1);
            entry(6, 2, 0, 0);
            entry(1, side ? path + 1 : path, side ? path : path + 1, 0);
            printf("a variable beside ");
            quick_at_most(pieces[i].name, 2 + added);
        }
    /* a nest that no variable decides before what they decide, which is as deep as there are entries left */
    static const size_t flat[] = {0, 1, 2, 3, 4, 9, 10};
    for (size_t i = 0; i < sizeof flat / sizeof *flat; i++) {
        entries = 0;
        entry(0, 0, 0, 65535);
        entry(0, 0, 0, 65535);
        entry(14, 0, 1, 0);
        entry(0, 0, 0, 65535);
        entry(5, 3, 2, 0);
        entry(6, 2, 0, 0);
        size_t added = deepen(&pieces[flat[i]], 63);
        entry(1, 4, (uint16_t)(entries - 1), 0);
        printf("behind a nest: ");
        quick_at_most(pieces[flat[i]].name, added < 2 ? 4 : 2 + added);
    }
    printf("quick pages at most %zu bytes, pages %zu, and %zu for one level\n", most_quick, most_page, most_one_page);
}

/* What is reversed at the bottom of as many stars as there is room for: a step, a variable, a filter, and a path from the root; and a
   filter that is copied with as many nots as there is room for. */
static void shapes_reversed(void)
{
    static const uint16_t bottoms[][3][3] = {{{0}}, {{6, 2}}, {{0}, {12, 2}, {5, 0, 1}}, {{0}, {7, 0}}};
    static const size_t lengths[] = {1, 1, 3, 2};
    for (size_t i = 0; i < sizeof lengths / sizeof *lengths; i++) {
        entries = 0;
        for (size_t e = 0; e < lengths[i]; e++)
            entry(bottoms[i][e][0], bottoms[i][e][1], bottoms[i][e][2], 0);
        while (entries < 64)
            entry(13, (uint16_t)(entries - 1), 0, 0);
        printf("stars, %zu levels: %zu bytes reversed\n", levels(63), reversed());
    }
    entries = 0;
    entry(0, 5, 0, 65535);
    entry(12, 0, 0, 0);
    while (entries < 63)
        entry(9, (uint16_t)(entries - 1), 0, 0);
    entry(5, 0, 62, 0);
    printf("not, %zu levels: %zu bytes reversed\n", levels(63), reversed());
    printf("reversed at most %zu bytes\n", most_reversed);
}

int main(void)
{
    nested("", 0, ".", "", 0);
    nested("/child::bay", 32, "", "", 0);
    nested("/child::node()", 32, "", "", 0);
    nested("(", 511, "..", ")", 0);
    nested(".[", 20, ".", "]", 0);
    nested(".[child::pallet and not(", 9, ".", ")]", 0);
    nested(".[", 341, ".", "]", 26);
    nested("(.[not(", 102, ".", ")])", 26);
    nested("(/", 511, "..", "", 24);
    nested("(.[/", 256, "", "", 24);
    nested("child::pallet union ", 51, ".", "", 26);
    nested("child::shelf/", 78, ".", "", 25);
    nested("(", 63, ".", ")*", 0);
    nested("(", 341, ".", ")*", 26);
    nested("(", 341, ".", ")", 0);
    nested(".[. same ", 15, ".", "]", 0);
    nested(".[(.)* same (", 63, ".", ")*]", 26);
    nested(".[(", 170, ".", ")*]", 26);

    indexed(1);
    indexed(2);
    indexed(256);

    shapes_in_bits();
    size_t took = taken(turned) - taken(nothing);
    printf("a relation turned: %zu bytes\n", took);
    if (took >= 4096)
        wrong = 1;

    /* every axis, with a tag, with node() and with the star */
    static const uint16_t tests[] = {1, 65534, 65535};
    for (uint16_t axis = 0; axis <= 12; axis++)
        for (int i = 0; i < 3; i++) {
            entries = 0;
            entry(0, axis, 0, tests[i]);
            at_most("one step", 1);
        }

    /* a filter with a node expression of kinds 8 and 9 */
    entries = 0;
    entry(0, 0, 0, 65535);
    entry(8, 0, 0, 0);
    for (uint16_t e = 2; e < 62; e++)
        entry(9, e - 1, 0, 0);
    entry(0, 0, 0, 65535);
    entry(5, 62, 61, 0);
    at_most("not", 63);

    /* each piece over itself, as often as there is room for it */
    for (size_t i = 0; i < PIECES; i++) {
        entries = 0;
        entry(0, 0, 0, 65535);
        at_most(pieces[i].name, 1 + deepen(&pieces[i], 64));
    }
    shapes_with_variables();
    shapes_reversed();
    printf("at most %zu bytes, %zu for one level and %zu for each beyond it; %zu for queries that nest\n", most_taken, most_one, most_level,
           most_nesting);
    return wrong;
}
