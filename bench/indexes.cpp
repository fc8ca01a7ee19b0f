// Times the making of a tree's index beside two plain ways in C++ and libxml2's hash table. First each must make exactly the index
// of tables.h, and but for the hash table the list of the tags; one difference ends the run with status 1. Then it times each: the
// best of ROUNDS rounds of at least ROUND_NS, taking turns. It prints a line of a table in Markdown: nanoseconds a call, and how
// many times this engine's they are.
#include "bench.h"
#include "geznauri.h"
#include "tables.h"
#include <algorithm>
#include <cstdio>
#include <cstdlib>
#include <cstring>
#include <libxml/hash.h>
#include <numeric>

static const int ROUNDS = 7;
static const double ROUND_NS = 2e7;
static const size_t DUE_TAGS = sizeof due_tags / sizeof *due_tags;

static uint16_t next_of[256], tags[768];
static size_t tags_len;
static xmlChar names[NODES][8];

// This engine: the tree is checked in every call.
static void ours()
{
    tags_len = gz_index(shared, 3 * NODES, 1, next_of, 256, tags, 768).tags;
}

// Nodes that are sorted by their tags, and by number where these are equal, are linked in one pass.
template <class Node> static void link_sorted(Node node)
{
    tags_len = 0;
    for (size_t i = 0; i < NODES; i++) {
        uint16_t x = node(i), tag = tree[2 * x + 1];
        if (i == 0 || tags[tags_len - 3] != tag) {
            tags[tags_len] = tag, tags[tags_len + 1] = x, tags[tags_len + 2] = 0;
            tags_len += 3;
        } else {
            next_of[node(i - 1)] = x;
        }
        tags[tags_len - 1]++;
        next_of[x] = 65535;
    }
}

static void stable_sort()
{
    static uint16_t order[NODES];
    std::iota(order, order + NODES, 0);
    std::stable_sort(order, order + NODES, [](uint16_t x, uint16_t y) { return tree[2 * x + 1] < tree[2 * y + 1]; });
    link_sorted([](size_t i) { return order[i]; });
}

// The tag and the node in one number, so that the numbers are sorted and no tree is read.
static void sort_packed()
{
    static uint32_t keys[NODES];
    for (uint32_t x = 0; x < NODES; x++)
        keys[x] = (uint32_t)tree[2 * x + 1] << 16 | x;
    std::sort(keys, keys + NODES);
    link_sorted([](size_t i) { return (uint16_t)keys[i]; });
}

// A hash table from names to the last node so far. It has no order, so that no list is made.
static void hash_names()
{
    static uint16_t last[NODES];
    size_t count = 0;
    xmlHashTablePtr table = xmlHashCreate(NODES);
    for (uint16_t x = 0; x < NODES; x++) {
        uint16_t *entry = (uint16_t *)xmlHashLookup(table, names[x]);
        next_of[x] = 65535;
        if (entry) {
            next_of[*entry] = x;
        } else {
            entry = &last[count++];
            xmlHashAddEntry(table, names[x], entry);
        }
        *entry = x;
    }
    xmlHashFree(table, NULL);
    tags_len = 3 * count;
}

struct way {
    const char *name;
    void (*make)();
    bool lists;
};
static const way ways[] = {{"this engine", ours, true},
                           {"std::stable_sort", stable_sort, true},
                           {"std::sort of packed keys", sort_packed, true},
                           {"libxml2 " LIBXML_DOTTED_VERSION " hash", hash_names, false}};
static const size_t WAYS = sizeof ways / sizeof *ways;

static void compare(const way &w)
{
    memset(next_of, 7, sizeof next_of);
    memset(tags, 7, sizeof tags);
    w.make();
    bool same = memcmp(next_of, due_next, sizeof due_next) == 0 && tags_len == DUE_TAGS;
    if (!same || (w.lists && memcmp(tags, due_tags, sizeof due_tags) != 0)) {
        fprintf(stderr, "bench: %s makes another index\n", w.name);
        exit(1);
    }
}

// Nanoseconds a call, in one round.
static double round_of(const way &w)
{
    double began = now(), took;
    size_t calls = 0;
    do {
        for (int i = 0; i < 16; i++)
            w.make();
        calls += 16;
        took = now() - began;
    } while (took < ROUND_NS);
    return took / calls;
}

// With an argument the head of the table is printed too.
int main(int argc, char **)
{
    double best[WAYS];
    for (size_t x = 0; x < NODES; x++)
        snprintf((char *)names[x], sizeof names[x], "t%u", tree[2 * x + 1]);
    for (size_t i = 0; i < WAYS; i++) {
        compare(ways[i]);
        best[i] = 1e18;
    }
    for (int round = 0; round < ROUNDS; round++)
        for (size_t i = 0; i < WAYS; i++)
            best[i] = std::min(best[i], round_of(ways[i]));
    if (argc > 1) {
        printf("| index, %d nodes | %s, ns", NODES, ways[0].name);
        for (size_t i = 1; i < WAYS; i++)
            printf(" | %s, ns | ratio", ways[i].name);
        printf(" |\n|---|---:|---:|---:|---:|---:|---:|---:|\n");
    }
    printf("| %zu tags | %.0f", DUE_TAGS / 3, best[0]);
    for (size_t i = 1; i < WAYS; i++)
        printf(" | %.0f | %.1f", best[i], best[i] / best[0]);
    printf(" |\n");
    return 0;
}
