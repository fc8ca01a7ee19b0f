/* Times queries that nest, each shape at several depths, on the tree of nested.h: one call of gz_forwards from the root, of gz_backwards
   from all nodes, of gz_pairs and of gz_pairs_bits. Every first call is made in a process of its own, which must find exactly the pairs
   of nested.h; one difference ends the run with status 1. A call that takes longer than LIMIT_S seconds is stopped, and that way is not
   tried deeper. Then it times each way: the best of ROUNDS rounds of at least ROUND_NS, or of as many as go into LIMIT_S, the ways taking
   turns.

       nested TITLE [HEADS COMMAND]...    prints a table in Markdown: microseconds a call. A COMMAND is another engine: it is run with
                                          the number of a shape and prints a line for each depth, a cell for each of its HEADS, which
                                          stand with ` | ` between them
       nested SHAPE                       such an engine: this program's cells of one shape, so that another library can be one */
#include "bench.h"
#include "geznauri.h"
#include <ctype.h>
#include <signal.h>
#include <stdbool.h>
#include <stdio.h>
#include <stdlib.h>
#include <string.h>
#include <sys/wait.h>
#include <unistd.h>

#define ROUNDS 7
#define ROUND_NS 2e7
#define LIMIT_S 2
#define WAYS 4
#define MOST_DEPTHS 8
#define MOST_CELLS 160
#define MOST_TEXT 1024
#define NO_CELL " | –"
#define LENGTH(a) (sizeof(a) / sizeof *(a))

/* A query: the shape's number and how it is written, the depth, the query as text and as a table, and its pairs in bits. */
struct nest {
    size_t shape;
    const char *title;
    size_t depth;
    const char *text;
    const uint16_t *table;
    size_t length;
    const uint64_t *due;
};

#include "nested.h"

static const struct nest *current;
static uint8_t first[NODES] = {1}, all[NODES], set[NODES], cells[NODES * NODES];
static uint64_t words[4 * NODES];

static void fail(const char *what)
{
    fprintf(stderr, "bench: %s\n", what);
    exit(1);
}

static bool due(size_t x, size_t y)
{
    return current->due[4 * x + y / 64] >> y % 64 & 1;
}

/* The four ways, and whether each found what is due. */
static bool forwards(void)
{
    return gz_forwards(shared, 3 * NODES, 1, current->table, current->length, 0, NULL, 0, first, NODES, set, NODES).number == 0;
}

static bool forwards_right(void)
{
    for (size_t y = 0; y < NODES; y++)
        if (set[y] != due(0, y))
            return false;
    return true;
}

static bool backwards(void)
{
    return gz_backwards(shared, 3 * NODES, 1, current->table, current->length, 0, NULL, 0, all, NODES, set, NODES).number == 0;
}

static bool backwards_right(void)
{
    for (size_t x = 0; x < NODES; x++) {
        const uint64_t *row = current->due + 4 * x;
        if (set[x] != ((row[0] | row[1] | row[2] | row[3]) != 0))
            return false;
    }
    return true;
}

static bool in_bytes(void)
{
    return gz_pairs(shared, 3 * NODES, 1, current->table, current->length, 0, NULL, 0, cells, sizeof cells).number == 0;
}

static bool bytes_right(void)
{
    for (size_t i = 0; i < sizeof cells; i++)
        if (cells[i] != due(i / NODES, i % NODES))
            return false;
    return true;
}

static bool in_bits(void)
{
    return gz_pairs_bits(shared, 3 * NODES, 1, current->table, current->length, 0, NULL, 0, words, 4 * NODES).number == 0;
}

static bool bits_right(void)
{
    return memcmp(words, current->due, sizeof words) == 0;
}

static const struct way {
    const char *head;
    bool (*run)(void), (*right)(void);
} ways[WAYS] = {{"forwards, µs", forwards, forwards_right},
                {"backwards, µs", backwards, backwards_right},
                {"pairs in bytes, µs", in_bytes, bytes_right},
                {"pairs in bits, µs", in_bits, bits_right}};

/* The text is read as the table that is timed. */
static void compare_text(void)
{
    static const uint8_t names[] = "\2t0\2t1\2t2";
    uint16_t table[256];
    size_t length = strlen(current->text);
    if (length > MOST_TEXT)
        return;
    gz_read_reply r = gz_read((const uint8_t *)current->text, length, names, sizeof names - 1, NULL, 0, table, LENGTH(table));
    if (r.number != 0 || r.count != current->length || memcmp(table, current->table, 2 * r.count) != 0)
        fail(current->text);
}

/* Whether the first call ends in time. */
static bool ends(const struct way *way)
{
    int status;
    pid_t child = fork();
    if (child == 0) {
        alarm(LIMIT_S);
        _exit(way->run() && way->right() ? 0 : 1);
    }
    if (child < 0 || waitpid(child, &status, 0) != child)
        fail("no process to be had");
    if (WIFSIGNALED(status) && WTERMSIG(status) == SIGALRM)
        return false;
    if (!WIFEXITED(status) || WEXITSTATUS(status) != 0) {
        fprintf(stderr, "bench: %s differs on %s\n", way->head, current->text);
        exit(1);
    }
    return true;
}

/* Nanoseconds a call, in one round. */
static double round_of(const struct way *way)
{
    double began = now(), took;
    size_t calls = 0;
    do {
        way->run();
        calls++;
        took = now() - began;
    } while (took < ROUND_NS);
    return took / calls;
}

/* The best microseconds of the ways that are not over their limit. */
static void measure(const bool *over, double *best)
{
    double spent[WAYS] = {0};
    for (size_t i = 0; i < WAYS; i++)
        best[i] = 1e18;
    for (int round = 0; round < ROUNDS; round++)
        for (size_t i = 0; i < WAYS; i++)
            if (!over[i] && spent[i] < LIMIT_S * 1e9) {
                double began = now(), us = round_of(&ways[i]) / 1e3;
                spent[i] += now() - began;
                if (us < best[i])
                    best[i] = us;
            }
}

/* The cells of one query; a way that is over its limit stays so. */
static void time_nest(const struct nest *nest, bool *over, char *line)
{
    bool was[WAYS];
    double best[WAYS];
    current = nest;
    compare_text();
    memcpy(was, over, sizeof was);
    for (size_t i = 0; i < WAYS; i++)
        over[i] = over[i] || !ends(&ways[i]);
    measure(over, best);
    line[0] = 0;
    for (size_t i = 0; i < WAYS; i++) {
        char *end = line + strlen(line);
        if (was[i])
            strcpy(end, NO_CELL);
        else if (over[i])
            sprintf(end, " | > %d s", LIMIT_S);
        else
            sprintf(end, " | %.1f", best[i]);
    }
}

/* The cells of a shape, a line for each depth: this program's. */
static void own_cells(size_t shape, char (*lines)[MOST_CELLS])
{
    bool over[WAYS] = {false};
    size_t depth = 0;
    for (size_t k = 0; k < LENGTH(nests); k++)
        if (nests[k].shape == shape)
            time_nest(&nests[k], over, lines[depth++]);
}

/* The same of another engine; dashes where it prints no line. */
static void other_cells(const char *heads, const char *command, size_t shape, char (*lines)[MOST_CELLS])
{
    char whole[2000];
    snprintf(whole, sizeof whole, "%s %zu", command, shape);
    FILE *printed = popen(whole, "r");
    if (!printed)
        fail(command);
    for (size_t depth = 0; depth < MOST_DEPTHS; depth++) {
        if (fgets(lines[depth], MOST_CELLS, printed)) {
            lines[depth][strcspn(lines[depth], "\n")] = 0;
            continue;
        }
        strcpy(lines[depth], NO_CELL);
        for (const char *head = heads; (head = strstr(head, " | ")); head++)
            strcat(lines[depth], NO_CELL);
    }
    if (pclose(printed) != 0)
        fail(command);
}

static size_t pairs_of(const struct nest *nest)
{
    size_t pairs = 0;
    for (size_t i = 0; i < 4 * NODES; i++)
        pairs += (size_t)__builtin_popcountll(nest->due[i]);
    return pairs;
}

static void print_shape(size_t shape, char **others, size_t other_count)
{
    static char lines[8][MOST_DEPTHS][MOST_CELLS];
    size_t depth = 0;
    own_cells(shape, lines[0]);
    for (size_t i = 0; i < other_count; i++)
        other_cells(others[2 * i], others[2 * i + 1], shape, lines[1 + i]);
    for (size_t k = 0; k < LENGTH(nests); k++)
        if (nests[k].shape == shape) {
            printf("| %s | %zu | %zu | %zu", nests[k].title, nests[k].depth, nests[k].length / 4, pairs_of(&nests[k]));
            for (size_t i = 0; i <= other_count; i++)
                printf("%s", lines[i][depth]);
            printf(" |\n");
            depth++;
        }
    fflush(stdout);
}

static void print_table(const char *title, char **others, size_t other_count)
{
    size_t columns = 4 + WAYS;
    printf("| %s | depth | entries | pairs", title);
    for (size_t i = 0; i < WAYS; i++)
        printf(" | %s", ways[i].head);
    for (size_t i = 0; i < other_count; i++) {
        printf(" | %s", others[2 * i]);
        columns++;
        for (const char *head = others[2 * i]; (head = strstr(head, " | ")); head++)
            columns++;
    }
    printf(" |\n|---");
    for (size_t i = 1; i < columns; i++)
        printf("|---:");
    printf("|\n");
    fflush(stdout);
    for (size_t shape = 0; shape <= nests[LENGTH(nests) - 1].shape; shape++)
        print_shape(shape, others, other_count);
}

int main(int argc, char **argv)
{
    static char lines[MOST_DEPTHS][MOST_CELLS];
    if (argc % 2 != 0 || argc > 14)
        fail("the arguments are a title, and heads and a command for each other engine, up to six; or a shape");
    memset(all, 1, sizeof all);
    if (isdigit((unsigned char)argv[1][0])) {
        own_cells((size_t)atoi(argv[1]), lines);
        for (size_t depth = 0; depth < MOST_DEPTHS && lines[depth][0]; depth++)
            printf("%s\n", lines[depth]);
    } else {
        print_table(argv[1], argv + 2, (size_t)(argc - 2) / 2);
    }
    return 0;
}
