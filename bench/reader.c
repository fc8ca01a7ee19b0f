/* Times the reader of typed queries beside libxml2's xmlXPathCompile, on texts of 60 and 1,000 bytes that both take. First it reads
   the text of every query of tables.h, which must give that query's table; one difference ends the run with status 1. Then it times
   each text: the best of ROUNDS rounds of at least ROUND_NS, the two taking turns. It prints a table in Markdown: million bytes a
   second, and how many times libxml2's they are. */
#include "bench.h"
#include "geznauri.h"
#include "tables.h"
#include <libxml/xpath.h>
#include <stdio.h>
#include <stdlib.h>
#include <string.h>

#define ROUNDS 7
#define ROUND_NS 2e7
#define LENGTH(a) (sizeof(a) / sizeof *(a))

/* The names of the timed texts, 24 of them; and those of the queries, so that t1 has tag 1. */
static const uint8_t house[] = "\5store\4hall\3bay\6pallet\5crate\5aisle\4rack\5shelf\4slot\4dock\4gate\4yard\4ramp\5floor\4drum\4sack";
static const uint8_t site[] = "\26refrigerated-container\27hazardous-goods-cabinet\27automatic-wrapping-line\26returned-goods-counter"
                              "\26battery-charging-point\20weighing-station\20loading-platform\15packing-table";
static const uint8_t elements[] = "\2t0\2t1\2t2\2t3\2t4\2t5\2t6\2t7\2t8";
#define TABLE(a) a, sizeof(a) - 1

/* 64 entries, which is the most */
#define HALF                                                                                                                     \
    "descendant::refrigerated-container/ancestor::hazardous-goods-cabinet/following::automatic-wrapping-line"                    \
    "/preceding::returned-goods-counter[preceding-sibling::weighing-station or not(following-sibling::refrigerated-container)]"  \
    "/following-sibling::battery-charging-point/preceding-sibling::weighing-station/descendant-or-self::loading-platform"        \
    "/ancestor-or-self::packing-table[preceding-sibling::hazardous-goods-cabinet or not(following-sibling::battery-charging-point)]"
static const char *const texts[] = {
    "/descendant::bay[child::pallet and not(following::crate)]/..",
    "/" HALF "/" HALF "/ancestor-or-self::hazardous-goods-cabinet/following-sibling::pallet",
};

static uint16_t table[256];

static void fail(const char *what, const char *text)
{
    fprintf(stderr, "bench: %s: %s\n", what, text);
    exit(1);
}

static void ours(const char *text, size_t length)
{
    if (gz_read((const uint8_t *)text, length, TABLE(house), TABLE(site), table, LENGTH(table)).number != 0)
        fail("the reader refuses", text);
}

static void libxml2(const char *text, size_t length)
{
    (void)length;
    xmlXPathCompExprPtr compiled = xmlXPathCompile((const xmlChar *)text);
    if (!compiled)
        fail("libxml2 refuses", text);
    xmlXPathFreeCompExpr(compiled);
}

static void compare(void)
{
    for (size_t k = 0; k < LENGTH(queries); k++) {
        const struct query *q = &queries[k];
        gz_read_reply r = gz_read((const uint8_t *)q->text, strlen(q->text), TABLE(elements), NULL, 0, table, LENGTH(table));
        if (r.number != 0 || r.columns != 0 || r.count != q->length || memcmp(table, q->table, 2 * r.count) != 0)
            fail("another table is read", q->text);
    }
}

/* Nanoseconds a reading, in one round. */
static double round_of(void (*read)(const char *, size_t), const char *text, size_t length)
{
    double began = now(), took;
    size_t readings = 0;
    do {
        for (int i = 0; i < 16; i++)
            read(text, length);
        readings += 16;
        took = now() - began;
    } while (took < ROUND_NS);
    return took / readings;
}

int main(void)
{
    compare();
    printf("| text | this engine, million bytes a second | libxml2 %s | ratio |\n|---|---:|---:|---:|\n", LIBXML_DOTTED_VERSION);
    for (size_t k = 0; k < LENGTH(texts); k++) {
        double best[2] = {1e18, 1e18};
        size_t length = strlen(texts[k]);
        for (int round = 0; round < ROUNDS; round++)
            for (int i = 0; i < 2; i++) {
                double ns = round_of(i ? libxml2 : ours, texts[k], length);
                if (ns < best[i])
                    best[i] = ns;
            }
        printf("| %zu bytes | %.1f | %.1f | %.1f |\n", length, length * 1e3 / best[0], length * 1e3 / best[1], best[1] / best[0]);
        fflush(stdout);
    }
    return 0;
}
