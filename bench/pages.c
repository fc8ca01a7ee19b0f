/* Times pages of answers over the C boundary, plain and quick, and the program. First rows a second for one, two and three variables at
   6, 64 and 256 nodes, the first nodes of the benchmark's tree: a run pages through the answers with a buffer of PAGE rows, from a fresh
   cursor, until they end or RUN_NS have passed, and counts the rows that it was given. Then the time to list all answers of a query at
   256 nodes: by quick pages, by plain ones, and by the program, from a job file to its last line. Each must give exactly the rows that
   are due, which are read off the tree; one difference ends the run with status 1. A time is the best of ROUNDS rounds, or of as many as
   go into LIST_NS. Last, all answers by plain pages of queries that have few, or none, and that quick pages mostly refuse: each in a
   process of its own, which is stopped after LIMIT_S seconds. It prints three tables in Markdown.

       pages PROGRAM JOB [OLD]    the program, a file for its jobs and, to be shown beside in the last table, this program linked with
                                  another library
       pages NUMBER               one cell of the last table */
#include "geznauri.h"
#include "bench.h"
#include "tables.h"
#include <signal.h>
#include <stdio.h>
#include <stdlib.h>
#include <string.h>
#include <sys/wait.h>
#include <unistd.h>

#define PAGE 256
#define RUN_NS 3e8
#define ROUNDS 7
#define LIST_NS 2e9
#define MOST_ROWS 256
#define LIMIT_S 30
#define LENGTH(a) (sizeof(a) / sizeof *(a))

/* /descendant-or-self::*[. is $0]: a variable beyond the first plays no part, so that every row is an answer */
static const uint16_t every[] = {0, 11, 0, 65535, 12, 0, 0, 0, 5, 0, 1, 0, 7, 2, 0, 0};
/* /descendant-or-self::*[. is $0]/child::*[. is $1]: most rows are none */
static const uint16_t children[] = {0, 11, 0, 65535, 12, 0, 0, 0, 5, 0, 1, 0, 7, 2, 0, 0,
                                    0, 1, 0, 65535, 12, 1, 0, 0, 5, 4, 5, 0, 1, 3, 6, 0};
/* child::aisle[. is $0]/child::bay[. is $1]/child::pallet[. is $2] */
enum { HALL = 1, BAY, PALLET, AISLE };
static const uint16_t places[] = {0, 1, 0, AISLE, 12, 0, 0, 0, 5, 0, 1, 0, 0, 1, 0, BAY, 12, 1, 0, 0, 5, 3, 4, 0, 1, 2, 5, 0,
                                  0, 1, 0, PALLET, 12, 2, 0, 0, 5, 7, 8, 0, 1, 6, 9, 0};

/* child::aisle[. is $0]/child::bay[. is $1]/(child::pallet intersect $2) */
static const uint16_t met[] = {0, 1, 0, AISLE, 12, 0, 0, 0, 5, 0, 1, 0, 0, 1, 0, BAY, 12, 1, 0, 0, 5, 3, 4, 0, 1, 2, 5, 0,
                               0, 1, 0, PALLET, 6, 2, 0, 0, 3, 7, 8, 0, 1, 6, 9, 0};
/* the whole of places, intersect descendant::* */
static const uint16_t below[] = {0, 1, 0, AISLE, 12, 0, 0, 0, 5, 0, 1, 0, 0, 1, 0, BAY, 12, 1, 0, 0, 5, 3, 4, 0, 1, 2, 5, 0,
                                 0, 1, 0, PALLET, 12, 2, 0, 0, 5, 7, 8, 0, 1, 6, 9, 0, 0, 5, 0, 65535, 3, 10, 11, 0};

static void give_up_at(uint16_t number, uint16_t place)
{
    fprintf(stderr, "bench: a page is refused with %u at %u\n", number, place);
    exit(1);
}

/* A query over the first nodes of a tree, and the answers that are due, where they are told. */
struct list {
    const char *text;
    const uint16_t *tree;
    size_t nodes;
    const uint16_t *query;
    size_t length;
    uint16_t columns;
    uint16_t due[3 * MOST_ROWS];
    size_t count;
};

/* The next page. */
static gz_quick_reply page_of(const struct list *l, int quick, gz_cursor *cursor, uint16_t *rows)
{
    gz_quick_reply q = {0};
    if (quick) {
        q = gz_quick_page(l->tree, 3 * l->nodes, 1, l->query, l->length, l->columns, cursor, rows, (size_t)l->columns * PAGE);
    } else {
        gz_page_reply p = gz_page(l->tree, 3 * l->nodes, 1, l->query, l->length, l->columns, cursor, rows, (size_t)l->columns * PAGE);
        q = (gz_quick_reply){p.number, p.place, p.count, p.more, 0};
    }
    if (q.number != 0)
        give_up_at(q.number, q.place);
    return q;
}

/* Rows a second. */
static double rate(const struct list *l, int quick)
{
    static uint16_t rows[3 * PAGE];
    gz_cursor cursor = {0};
    double start = now(), found = 0;
    do {
        gz_quick_reply reply = page_of(l, quick, &cursor, rows);
        found += reply.count;
        if (!reply.more)
            memset(&cursor, 0, sizeof cursor);
    } while (now() - start < RUN_NS);
    return found / (now() - start) * 1e9;
}

static void rates(const char *what, const uint16_t *query, size_t length, uint16_t columns)
{
    static const size_t sizes[] = {6, 64, 256};
    printf("| %s, %u variable%s |", what, columns, columns > 1 ? "s" : "");
    for (size_t i = 0; i < LENGTH(sizes); i++) {
        struct list l = {.tree = shared, .nodes = sizes[i], .query = query, .length = length, .columns = columns};
        double plain = rate(&l, 0), quick = rate(&l, 1);
        printf(" %.0f | %.0f |", plain, quick);
        fflush(stdout);
    }
    printf("\n");
}

static void same(int holds, const char *what)
{
    if (!holds) {
        fprintf(stderr, "bench: %s differs from what is due\n", what);
        exit(1);
    }
}

/* All answers, by pages; answers how many evaluations quick ones took. */
static size_t list_pages(const struct list *l, int quick)
{
    static uint16_t rows[3 * PAGE];
    gz_cursor cursor = {0};
    gz_quick_reply reply;
    size_t given = 0, evaluations = 0;
    do {
        reply = page_of(l, quick, &cursor, rows);
        same(given + reply.count <= l->count && memcmp(rows, l->due + given * l->columns, reply.count * l->columns * 2) == 0, l->text);
        given += reply.count;
        evaluations += reply.evaluations;
    } while (reply.more);
    same(given == l->count, l->text);
    return evaluations;
}

/* All answers, by the program. */
static const char *program, *job;

static void write_job(const struct list *l)
{
    size_t query_at = 14 + 2 * l->length, tree_at = query_at + 6 * l->nodes;
    uint16_t trailer[] = {(uint16_t)tree_at, (uint16_t)(3 * l->nodes), (uint16_t)query_at, (uint16_t)l->length, l->columns, 1, 20565};
    FILE *file = fopen(job, "wb");
    if (!file || fwrite(l->tree, 6, l->nodes, file) != l->nodes || fwrite(l->query, 2, l->length, file) != l->length ||
        fwrite(trailer, 2, 7, file) != 7 || fclose(file) != 0)
        same(0, job);
}

static size_t list_program(const struct list *l, int unused)
{
    char command[1000], line[64], wanted[64];
    (void)unused;
    snprintf(command, sizeof command, "exec %s <%s", program, job);
    FILE *printed = popen(command, "r");
    for (size_t i = 0; i <= l->count; i++) {
        size_t end = 0;
        for (size_t k = 0; k < l->columns && i < l->count; k++)
            end += (size_t)sprintf(wanted + end, k ? " %u" : "%u", l->due[i * l->columns + k]);
        sprintf(wanted + end, i < l->count ? "\n" : "end %zu\n", l->count);
        same(printed && fgets(line, sizeof line, printed) && strcmp(line, wanted) == 0, program);
    }
    same(fgets(line, sizeof line, printed) == NULL && pclose(printed) == 0, program);
    return 0;
}

/* The best milliseconds. */
static double best(size_t (*run)(const struct list *, int), const struct list *l, int quick)
{
    double best = 1e18, began = now();
    for (int round = 0; round < ROUNDS && (round == 0 || now() - began < LIST_NS); round++) {
        double start = now(), took;
        run(l, quick);
        took = (now() - start) / 1e6;
        if (took < best)
            best = took;
    }
    return best;
}

static void time_list(const struct list *l)
{
    size_t evaluations = list_pages(l, 1);
    write_job(l);
    double quick = best(list_pages, l, 1), printed = best(list_program, l, 0), plain = best(list_pages, l, 0);
    printf("| `%s` | %zu | %zu | %.2f | %.2f | %.1f | %.2f |\n", l->text, l->count, evaluations, quick, plain, plain / quick, printed);
    fflush(stdout);
}

/* A node and its child, in the benchmark's tree. */
static void time_children(void)
{
    struct list l = {"/descendant-or-self::*[. is $0]/child::*[. is $1]", shared, NODES, children, LENGTH(children), 2, {0}, 0};
    for (uint16_t x = 0; x < NODES; x++)
        for (uint16_t y = 1; y < NODES; y++)
            if (tree[2 * y] == x)
                l.due[2 * l.count] = x, l.due[2 * l.count++ + 1] = y;
    time_list(&l);
}

/* A hall of five aisles, each with five bays, each with nine pallets: 256 nodes and 225 answers. */
static uint16_t hall[768], hall_nodes;

static uint16_t put(uint16_t parent, uint16_t tag)
{
    hall[3 * hall_nodes] = parent, hall[3 * hall_nodes + 1] = tag;
    return hall_nodes++;
}

/* The places of its pallets. */
static struct list places_by(const char *text, const uint16_t *query, size_t length)
{
    struct list l = {text, hall, 256, query, length, 3, {0}, 0};
    hall_nodes = 0;
    put(65535, HALL);
    for (int i = 0; i < 5; i++) {
        uint16_t aisle = put(0, AISLE);
        for (int j = 0; j < 5; j++) {
            uint16_t bay = put(aisle, BAY);
            for (int k = 0; k < 9; k++) {
                uint16_t row[] = {aisle, bay, put(bay, PALLET)};
                memcpy(l.due + 3 * l.count++, row, sizeof row);
            }
        }
    }
    return l;
}

static void time_places(void)
{
    struct list l = places_by("child::aisle[. is $0]/child::bay[. is $1]/child::pallet[. is $2]", places, LENGTH(places));
    time_list(&l);
}

/* The queries of which plain pages alone are timed: those of tables.h, and the places of pallets in other words. */
#define FEW (LENGTH(answers) + 2)

static struct list few(size_t k)
{
    if (k == LENGTH(answers))
        return places_by("child::aisle[. is $0]/child::bay[. is $1]/(child::pallet intersect $2)", met, LENGTH(met));
    if (k > LENGTH(answers))
        return places_by("child::aisle[. is $0]/child::bay[. is $1]/child::pallet[. is $2] intersect descendant::*", below, LENGTH(below));
    struct list l = {answers[k].text, shared, NODES, answers[k].table, answers[k].length, answers[k].columns, {0}, answers[k].count};
    same(l.count <= MOST_ROWS, "the room for answers");
    memcpy(l.due, answers[k].due, l.count * l.columns * 2);
    return l;
}

/* The text is read as the table that is timed. */
static void compare_text(const struct list *l)
{
    static const uint8_t tags[] = "\2t0\2t1\2t2\2t3\2t4\2t5\2t6\2t7\2t8\2t9", names[] = "\1-\4hall\3bay\6pallet\5aisle";
    const uint8_t *table = l->tree == hall ? names : tags;
    uint16_t query[256];
    gz_read_reply r = gz_read((const uint8_t *)l->text, strlen(l->text), table, strlen((const char *)table), NULL, 0, query, LENGTH(query));
    same(r.number == 0 && r.count == l->length && memcmp(query, l->query, 2 * r.count) == 0, l->text);
}

/* The cell of a query: the best milliseconds, or that it was stopped. */
static void few_cell(size_t k, char *cell, size_t room)
{
    struct list l = few(k);
    int ends[2], status;
    double ms = 0;
    compare_text(&l);
    same(pipe(ends) == 0, "a pipe");
    pid_t child = fork();
    if (child == 0) {
        alarm(LIMIT_S);
        ms = best(list_pages, &l, 0);
        _exit(write(ends[1], &ms, sizeof ms) == sizeof ms ? 0 : 1);
    }
    close(ends[1]);
    same(child > 0 && waitpid(child, &status, 0) == child, "a process");
    if (WIFSIGNALED(status) && WTERMSIG(status) == SIGALRM)
        snprintf(cell, room, "> %d s", LIMIT_S);
    else
        same(WIFEXITED(status) && WEXITSTATUS(status) == 0 && read(ends[0], &ms, sizeof ms) == sizeof ms, l.text);
    if (ms > 0)
        snprintf(cell, room, "%.3f", ms);
    close(ends[0]);
}

static void time_few(const char *old)
{
    printf(old ? "\n| all answers by plain pages, 256 nodes | variables | answers | gz_page, ms | before, ms |\n|---|---:|---:|---:|---:|\n"
               : "\n| all answers by plain pages, 256 nodes | variables | answers | gz_page, ms |\n|---|---:|---:|---:|\n");
    for (size_t k = 0; k < FEW; k++) {
        char cell[64], command[1000];
        struct list l = few(k);
        fflush(stdout);
        few_cell(k, cell, sizeof cell);
        printf("| `%s` | %u | %zu | %s |", l.text, l.columns, l.count, cell);
        if (old) {
            snprintf(command, sizeof command, "%s %zu", old, k);
            FILE *printed = popen(command, "r");
            same(printed && fgets(cell, sizeof cell, printed) && pclose(printed) == 0, old);
            printf(" %.*s |", (int)strcspn(cell, "\n"), cell);
        }
        printf("\n");
    }
}

int main(int argc, char **argv)
{
    if (argc == 2) {
        char cell[64];
        size_t k = (size_t)atoi(argv[1]);
        same(k < FEW, "the number of a query");
        few_cell(k, cell, sizeof cell);
        printf("%s\n", cell);
        return 0;
    }
    if (argc != 3 && argc != 4) {
        fprintf(stderr, "bench: the arguments are the program, a file for its jobs and, if any, this program with another library\n");
        return 1;
    }
    program = argv[1], job = argv[2];
    printf("| answers, rows a second | 6 nodes | quick | 64 nodes | quick | 256 nodes | quick |\n|---|---:|---:|---:|---:|---:|---:|\n");
    for (uint16_t columns = 1; columns <= 3; columns++)
        rates("every row", every, LENGTH(every), columns);
    rates("parent and child", children, LENGTH(children), 2);
    printf("\n| all answers, 256 nodes | answers | evaluations | gz_quick_page, ms | gz_page, ms | ratio | picklist, ms |\n");
    printf("|---|---:|---:|---:|---:|---:|---:|\n");
    time_children();
    time_places();
    time_few(argc == 4 ? argv[3] : NULL);
    return 0;
}
