/* How fast the library is: each call on each input by the library and by plain.c (newick.c for Newick texts), the straightforward
 * algorithm in plain C; a whole run also by fast.c, the library's own algorithm in plain C.
 * All are timed in turn in this one process, and their answers are compared after every round: a difference ends the program
 * with exit status 1. A time is processor time, the best of seven rounds, each of at least 0.05 seconds for each side. The
 * last lines give the worst ratios of the library's time to plain C's and to fast C's.
 */
#define _POSIX_C_SOURCE 200809L
#include "fast.h"
#include "inputs.h"
#include "plain.h"

#include <stdio.h>
#include <string.h>
#include <time.h>

#define ROUNDS 7
#define ROUND_SECONDS 0.05

/* What a call is given: any part that it takes. */
static struct {
    size_t n;
    uint32_t entries[MATRIX_ROOM];
    uint8_t table[TABLE_ROOM];
    splitbox_list list;
    uint8_t tree[TREE_ROOM];
    uint8_t text[TEXT_ROOM];
    size_t text_length;
    uint8_t record[RECORD_ROOM];
    size_t record_length;
} in;

/* What a call answers, zeros where it writes nothing. */
struct answer {
    uint64_t reply;
    uint64_t trials;
    splitbox_list list;
    uint8_t tree[TREE_ROOM];
    uint64_t sums[MATRIX_ROOM];
    size_t text_length;
    uint8_t text[TEXT_ROOM];
};

typedef void call(struct answer *out);

/* A list grown from the start to all n taxa by calls that have an allowance each. */
static void grow_by(uint64_t (*step)(splitbox_list *list, uint64_t *spent), struct answer *out)
{
    splitbox_start(SPLITBOX_LENT(&out->list));
    out->trials = 0;
    do {
        uint64_t spent;
        out->reply = step(&out->list, &spent);
        out->trials += spent;
    } while (out->reply == SPLITBOX_SHORT);
}

static void library_run_matrix(struct answer *out)
{
    out->reply = splitbox_run_matrix(in.n, in.entries, SPLITBOX_MATRIX(in.n), SPLITBOX_LENT(&out->list), &out->trials);
}
static void library_run_table(struct answer *out)
{
    out->reply = splitbox_run_table(in.n, in.table, SPLITBOX_TABLE(in.n), SPLITBOX_LENT(&out->list), &out->trials);
}
static uint64_t library_step_matrix(splitbox_list *list, uint64_t *spent)
{
    return splitbox_grow_matrix(in.n, in.entries, SPLITBOX_MATRIX(in.n), SPLITBOX_STEP, SPLITBOX_LENT(list), spent);
}
static uint64_t library_step_table(splitbox_list *list, uint64_t *spent)
{
    return splitbox_grow_table(in.n, in.table, SPLITBOX_TABLE(in.n), SPLITBOX_STEP, SPLITBOX_LENT(list), spent);
}
static void library_grow_matrix(struct answer *out) { grow_by(library_step_matrix, out); }
static void library_grow_table(struct answer *out) { grow_by(library_step_table, out); }
static void library_write_tree(struct answer *out)
{
    out->reply = splitbox_write_tree(in.n, SPLITBOX_GIVEN(&in.list), out->tree, SPLITBOX_TREE(in.n, in.list.rows));
}
static void library_read_tree(struct answer *out)
{
    out->reply = splitbox_read_tree(in.n, in.tree, SPLITBOX_TREE(in.n, in.list.rows), SPLITBOX_LENT(&out->list));
}
static void library_sum_paths(struct answer *out)
{
    out->reply = splitbox_sum_paths(in.n, SPLITBOX_GIVEN(&in.list), out->sums, SPLITBOX_MATRIX(in.n));
}
static void library_newick_length(struct answer *out)
{
    out->reply = splitbox_newick_length(in.n, SPLITBOX_GIVEN(&in.list), &out->text_length);
}
static void library_write_newick(struct answer *out)
{
    out->reply = splitbox_write_newick(in.n, SPLITBOX_GIVEN(&in.list), out->text, in.text_length);
}
static void library_read_newick(struct answer *out)
{
    out->reply = splitbox_read_newick(in.n, in.text, in.text_length, SPLITBOX_LENT(&out->list));
}
static void library_find_record(struct answer *out) { out->reply = splitbox_find_record(in.record, in.record_length); }
static void library_run_record(struct answer *out)
{
    out->reply = splitbox_run_record(in.record, in.record_length, SPLITBOX_LENT(&out->list), &out->trials);
}

static void c_run_matrix(struct answer *out)
{
    out->reply = plain_run_matrix(in.n, in.entries, SPLITBOX_MATRIX(in.n), &out->list, &out->trials);
}
static void c_run_table(struct answer *out)
{
    out->reply = plain_run_table(in.n, in.table, SPLITBOX_TABLE(in.n), &out->list, &out->trials);
}
static uint64_t c_step_matrix(splitbox_list *list, uint64_t *spent)
{
    return plain_grow_matrix(in.n, in.entries, SPLITBOX_MATRIX(in.n), SPLITBOX_STEP, list, spent);
}
static uint64_t c_step_table(splitbox_list *list, uint64_t *spent)
{
    return plain_grow_table(in.n, in.table, SPLITBOX_TABLE(in.n), SPLITBOX_STEP, list, spent);
}
static void c_grow_matrix(struct answer *out) { grow_by(c_step_matrix, out); }
static void c_grow_table(struct answer *out) { grow_by(c_step_table, out); }
static void c_write_tree(struct answer *out)
{
    out->reply = plain_write_tree(in.n, &in.list, out->tree, SPLITBOX_TREE(in.n, in.list.rows));
}
static void c_read_tree(struct answer *out)
{
    out->reply = plain_read_tree(in.n, in.tree, SPLITBOX_TREE(in.n, in.list.rows), &out->list);
}
static void c_sum_paths(struct answer *out)
{
    out->reply = plain_sum_paths(in.n, &in.list, out->sums, SPLITBOX_MATRIX(in.n));
}
static void c_newick_length(struct answer *out) { out->reply = plain_newick_length(in.n, &in.list, &out->text_length); }
static void c_write_newick(struct answer *out)
{
    out->reply = plain_write_newick(in.n, &in.list, out->text, in.text_length);
}
static void c_read_newick(struct answer *out)
{
    out->reply = plain_read_newick(in.n, in.text, in.text_length, &out->list);
}
static void c_find_record(struct answer *out) { out->reply = plain_find_record(in.record, in.record_length); }
static void c_run_record(struct answer *out)
{
    out->reply = plain_run_record(in.record, in.record_length, &out->list, &out->trials);
}

static void fast_c_run_matrix(struct answer *out)
{
    out->reply = fast_run_matrix(in.n, in.entries, SPLITBOX_MATRIX(in.n), &out->list, &out->trials);
}
static void fast_c_run_table(struct answer *out)
{
    out->reply = fast_run_table(in.n, in.table, SPLITBOX_TABLE(in.n), &out->list, &out->trials);
}

static double lesser(double p, double q) { return p < q ? p : q; }

/* The logarithm to base 2 of a number from 1 on, to three places (a static libm is not everywhere). */
static double log2_of(double x)
{
    double log = 0;
    for (; x >= 2; x /= 2)
        log += 1;
    for (double step = 0.5; step > 0.0005; step /= 2) {
        x *= x;
        if (x >= 2) {
            x /= 2;
            log += step;
        }
    }
    return log;
}

static double seconds_now(void)
{
    struct timespec t;
    clock_gettime(CLOCK_PROCESS_CPUTIME_ID, &t);
    return (double)t.tv_sec + 1e-9 * (double)t.tv_nsec;
}

/* Seconds of one call, over so many. */
static double seconds_of(call *f, size_t times, struct answer *out)
{
    double start = seconds_now();
    for (size_t i = 0; i < times; i++)
        f(out);
    return (seconds_now() - start) / (double)times;
}

static size_t times_for(double seconds) { return seconds < ROUND_SECONDS ? (size_t)(ROUND_SECONDS / seconds) + 1 : 1; }

/* The sides: the library, plain C and fast C. */
enum { LIBRARY, PLAIN, FAST, SIDES };

struct time {
    double of[SIDES]; /* 0 where a side has no such call */
};

static struct {
    double ratio;
    char where[64];
} worst[SIDES];

/* The sides timed in turn, answers compared; prints the line of the table. */
static struct time measure(const char *name, call *library, call *plain, call *fast)
{
    static struct answer by[SIDES];
    call *const calls[SIDES] = {library, plain, fast};
    struct time best = {{0}};
    size_t times[SIDES];
    memset(by, 0, sizeof by);
    for (int s = 0; s < SIDES; s++)
        if (calls[s] != NULL) {
            times[s] = times_for(seconds_of(calls[s], 1, &by[s]));
            best.of[s] = 1e9;
        }
    for (int round = 0; round < ROUNDS; round++)
        for (int s = 0; s < SIDES; s++)
            if (calls[s] != NULL) {
                best.of[s] = lesser(best.of[s], seconds_of(calls[s], times[s], &by[s]));
                if (by[s].reply != SPLITBOX_DONE || memcmp(&by[s], &by[LIBRARY], sizeof by[s]) != 0)
                    fail("the library and C answer differently");
            }
    printf("%-32s %3zu %12.1f", name, in.n, 1e6 * best.of[LIBRARY]);
    for (int s = PLAIN; s < SIDES; s++)
        if (calls[s] != NULL) {
            double ratio = best.of[LIBRARY] / best.of[s];
            printf(" %12.1f %7.2f", 1e6 * best.of[s], ratio);
            if (ratio > worst[s].ratio) {
                worst[s].ratio = ratio;
                snprintf(worst[s].where, sizeof worst[s].where, "%s, n = %zu", name, in.n);
            }
        }
    printf("\n");
    fflush(stdout);
    return best;
}

static void print_head(const char *what, bool fast)
{
    printf("%-32s %3s %12s %12s %7s", what, "n", "library us", "plain C us", "ratio");
    if (fast)
        printf(" %12s %7s", "fast C us", "ratio");
    printf("\n");
}

static const size_t sizes[] = {8, 16, 32, 64};
enum { SIZES = sizeof sizes / sizeof sizes[0] };

static void fill_table(size_t n, uint32_t *unused)
{
    (void)unused;
    tree_table(n, in.table);
}

static const struct {
    const char *name;
    void (*fill)(size_t n, uint32_t *entries);
    call *library, *plain, *fast;
} runs[] = {
    {"uniform matrix", uniform_matrix, library_run_matrix, c_run_matrix, fast_c_run_matrix},
    {"tree-made matrix", tree_matrix, library_run_matrix, c_run_matrix, fast_c_run_matrix},
    {"noisy matrix", noisy_matrix, library_run_matrix, c_run_matrix, fast_c_run_matrix},
    {"tree-made table", fill_table, library_run_table, c_run_table, fast_c_run_table},
};
enum { RUNS = sizeof runs / sizeof runs[0] };

static void measure_runs(void)
{
    struct time times[RUNS][SIZES];
    print_head("whole run", true);
    for (size_t r = 0; r < RUNS; r++)
        for (size_t s = 0; s < SIZES; s++) {
            in.n = sizes[s];
            runs[r].fill(in.n, in.entries);
            times[r][s] = measure(runs[r].name, runs[r].library, runs[r].plain, runs[r].fast);
        }
    printf("\n%-32s %8s %12s %6s %12s %6s %12s %6s\n", "the time grows by", "n to 2n", "library", "log2", "plain C", "log2",
           "fast C", "log2");
    for (size_t r = 0; r < RUNS; r++)
        for (size_t s = 1; s < SIZES; s++) {
            printf("%-32s %2zu to %2zu", runs[r].name, sizes[s - 1], sizes[s]);
            for (int side = 0; side < SIDES; side++) {
                double by = times[r][s].of[side] / times[r][s - 1].of[side];
                printf(" %12.1f %6.2f", by, log2_of(by));
            }
            printf("\n");
        }
}

static void measure_growth(void)
{
    in.n = 32;
    tree_matrix(in.n, in.entries);
    measure("grow_matrix, allowance 247", library_grow_matrix, c_grow_matrix, NULL);
    tree_table(in.n, in.table);
    measure("grow_table, allowance 247", library_grow_table, c_grow_table, NULL);
}

static void measure_trees(void)
{
    uint64_t trials;
    in.n = SPLITBOX_TAXA;
    tree_matrix(in.n, in.entries);
    if (plain_run_matrix(in.n, in.entries, SPLITBOX_MATRIX(in.n), &in.list, &trials) != SPLITBOX_DONE ||
        in.list.rows != SPLITBOX_ROWS ||
        plain_write_tree(in.n, &in.list, in.tree, SPLITBOX_TREE(in.n, in.list.rows)) != SPLITBOX_DONE)
        fail("a tree-made matrix of 64 taxa does not give 125 rows");
    measure("write_tree, 125 rows", library_write_tree, c_write_tree, NULL);
    measure("read_tree, 125 rows", library_read_tree, c_read_tree, NULL);
    measure("sum_paths, 125 rows", library_sum_paths, c_sum_paths, NULL);
}

static void tree_list(splitbox_list *list)
{
    uint64_t trials;
    tree_matrix(SPLITBOX_TAXA, in.entries);
    plain_run_matrix(SPLITBOX_TAXA, in.entries, MATRIX_ROOM, list, &trials);
}

static const struct {
    const char *write, *read;
    void (*make)(splitbox_list *list);
} newicks[] = {
    {"write_newick, deepest", "read_newick, deepest", deepest_list},
    {"write_newick, star", "read_newick, star", star_list},
    {"write_newick, random tree", "read_newick, random tree", tree_list},
};

static void measure_newick(void)
{
    in.n = SPLITBOX_TAXA;
    for (size_t i = 0; i < sizeof newicks / sizeof newicks[0]; i++) {
        newicks[i].make(&in.list);
        if (plain_newick_length(in.n, &in.list, &in.text_length) != SPLITBOX_DONE || in.text_length > TEXT_ROOM ||
            plain_write_newick(in.n, &in.list, in.text, in.text_length) != SPLITBOX_DONE)
            fail("a list for the measurements has no text");
        if (i == 0)
            measure("newick_length, deepest", library_newick_length, c_newick_length, NULL);
        measure(newicks[i].write, library_write_newick, c_write_newick, NULL);
        measure(newicks[i].read, library_read_newick, c_read_newick, NULL);
    }
}

static void measure_records(void)
{
    static uint8_t body[4 * MATRIX_ROOM];
    in.n = 64;
    tree_matrix(in.n, in.entries);
    matrix_body(in.n, in.entries, body);
    in.record_length = make_record(SPLITBOX_KIND_MATRIX, in.n, body, 4 * SPLITBOX_MATRIX(in.n), in.record);
    measure("find_record, matrix", library_find_record, c_find_record, NULL);
    measure("run_record, matrix", library_run_record, c_run_record, NULL);
    in.n = 36;
    tree_table(in.n, in.table);
    in.record_length = make_record(SPLITBOX_KIND_TABLE, in.n, in.table, SPLITBOX_TABLE(in.n), in.record);
    measure("find_record, table", library_find_record, c_find_record, NULL);
    measure("run_record, table", library_run_record, c_run_record, NULL);
}

int main(void)
{
    measure_runs();
    printf("\n");
    print_head("other calls", false);
    measure_growth();
    measure_trees();
    measure_newick();
    measure_records();
    printf("\nworst ratio to plain C: %.2f in %s\n", worst[PLAIN].ratio, worst[PLAIN].where);
    printf("worst ratio to fast C: %.2f in %s\n", worst[FAST].ratio, worst[FAST].where);
    return 0;
}
