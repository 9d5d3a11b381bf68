/* The checked calls of the outside tests: see calls.h. */
#include "calls.h"

#include "compare.h"

#include <string.h>

/* The four parts of a lent list, and the number of trials beside them. */
typedef struct lent_list {
    size_t *taxa, *rows;
    uint64_t *clusters;
    uint32_t *weights;
    uint64_t *trials;
} lent_list;

/* Lends the parts of a list: the given one, or random bytes where it is null. */
static lent_list lend_list(const splitbox_list *list)
{
    lent_list lent;
    lent.taxa = lend("taxa", sizeof(size_t), 1, list ? &list->taxa : NULL);
    lent.rows = lend("rows", sizeof(size_t), 1, list ? &list->rows : NULL);
    lent.clusters = lend("clusters", sizeof(uint64_t), SPLITBOX_ROWS, list ? list->clusters : NULL);
    lent.weights = lend("weights", sizeof(uint32_t), SPLITBOX_ROWS, list ? list->weights : NULL);
    lent.trials = lend("trials", sizeof(uint64_t), 1, NULL);
    return lent;
}

static void want_list(const lent_list *lent, const splitbox_list *list)
{
    want(lent->taxa, &list->taxa, sizeof list->taxa);
    want(lent->rows, &list->rows, sizeof list->rows);
    want(lent->clusters, list->clusters, sizeof list->clusters);
    want(lent->weights, list->weights, sizeof list->weights);
}

static void want_run(const lent_list *lent, const splitbox_list *list, uint64_t trials)
{
    want_list(lent, list);
    want(lent->trials, &trials, sizeof trials);
}

static bool refused(uint64_t reply) { return reply != SPLITBOX_DONE && reply != SPLITBOX_SHORT; }

static const void *lend_source(const source *s)
{
    if (s->kind == SPLITBOX_KIND_MATRIX)
        return lend("entries", sizeof(uint32_t), s->length, s->entries);
    return lend("bytes", 1, s->length, s->bytes);
}

void call_start(void)
{
    splitbox_list empty = {.taxa = 1};
    begin_case(FUNCTION_start, "a list to grow from");
    lent_list lent = lend_list(NULL);
    want_list(&lent, &empty);
    splitbox_start(lent.taxa, lent.rows, lent.clusters, lent.weights);
    end_case(0, 0);
}

/* The trials of a whole run whose answer is known. The answer for the first k taxa is its different non-empty restrictions. */
static uint64_t known_trials(const source *s, const splitbox_list *known)
{
    uint64_t trials = 0;
    for (size_t k = 1; k < known->taxa; k++) {
        uint64_t first = reference_first(k);
        splitbox_list restricted = {.taxa = k};
        for (size_t i = 0; i < known->rows; i++) {
            bool fresh = (known->clusters[i] & first) != 0;
            for (size_t j = 0; j < i; j++)
                fresh = fresh && (known->clusters[i] & first) != (known->clusters[j] & first);
            if (fresh)
                restricted.clusters[restricted.rows++] = known->clusters[i] & first;
        }
        trials += reference_next_cost(s, &restricted);
    }
    return trials;
}

void call_run(const source *s, const splitbox_list *known)
{
    bool matrix = s->kind == SPLITBOX_KIND_MATRIX;
    begin_case(matrix ? FUNCTION_run_matrix : FUNCTION_run_table, "n %zu, length %zu%s", s->n, s->length,
               known ? ", answer known" : "");
    const void *data = lend_source(s);
    lent_list lent = lend_list(NULL);
    splitbox_list list;
    uint64_t trials, wanted = SPLITBOX_DONE;
    if (known) {
        list = *known;
        trials = known_trials(s, known);
    } else
        wanted = reference_run(s, &list, &trials);
    if (!refused(wanted))
        want_run(&lent, &list, trials);
    end_case(wanted, (matrix ? splitbox_run_matrix(s->n, data, s->length, lent.taxa, lent.rows, lent.clusters, lent.weights,
                                                   lent.trials)
                             : splitbox_run_table(s->n, data, s->length, lent.taxa, lent.rows, lent.clusters, lent.weights,
                                                  lent.trials)));
}

uint64_t call_grow(const source *s, uint64_t allowance, splitbox_list *list)
{
    bool matrix = s->kind == SPLITBOX_KIND_MATRIX;
    begin_case(matrix ? FUNCTION_grow_matrix : FUNCTION_grow_table, "n %zu, length %zu, allowance %llu, taxa %zu, rows %zu",
               s->n, s->length, (unsigned long long)allowance, list->taxa, list->rows);
    const void *data = lend_source(s);
    lent_list lent = lend_list(list);
    uint64_t trials, wanted = reference_grow(s, allowance, list, &trials);
    if (!refused(wanted))
        want_run(&lent, list, trials);
    end_case(wanted, (matrix ? splitbox_grow_matrix(s->n, data, s->length, allowance, lent.taxa, lent.rows, lent.clusters,
                                                    lent.weights, lent.trials)
                             : splitbox_grow_table(s->n, data, s->length, allowance, lent.taxa, lent.rows, lent.clusters,
                                                   lent.weights, lent.trials)));
    return wanted;
}

uint64_t call_write_tree(size_t n, const splitbox_list *list, size_t out_length)
{
    static uint8_t body[1 << 16];
    begin_case(FUNCTION_write_tree, "n %zu, taxa %zu, rows %zu, output %zu", n, list->taxa, list->rows, out_length);
    lent_list lent = lend_list(list);
    uint8_t *out = lend("out", 1, out_length, NULL);
    uint64_t wanted = reference_write_tree(n, list, body, out_length);
    if (!refused(wanted))
        want(out, body, out_length);
    end_case(wanted, splitbox_write_tree(n, *lent.taxa, *lent.rows, lent.clusters, lent.weights, out, out_length));
    return wanted;
}

uint64_t call_sum_paths(size_t n, const splitbox_list *list, size_t out_length)
{
    static uint64_t sums[64 * 64];
    begin_case(FUNCTION_sum_paths, "n %zu, taxa %zu, rows %zu, output %zu", n, list->taxa, list->rows, out_length);
    lent_list lent = lend_list(list);
    uint64_t *out = lend("out", sizeof(uint64_t), out_length, NULL);
    uint64_t wanted = reference_sum_paths(n, list, sums, out_length);
    if (!refused(wanted))
        want(out, sums, out_length * sizeof *sums);
    end_case(wanted, splitbox_sum_paths(n, *lent.taxa, *lent.rows, lent.clusters, lent.weights, out, out_length));
    return wanted;
}

uint64_t call_read_tree(size_t n, const uint8_t *body, size_t length)
{
    begin_case(FUNCTION_read_tree, "n %zu, length %zu, m %u", n, length, length > 0 ? body[0] : 0);
    const uint8_t *bytes = lend("body", 1, length, body);
    lent_list lent = lend_list(NULL);
    splitbox_list list;
    uint64_t wanted = reference_read_tree(n, body, length, &list);
    if (!refused(wanted))
        want_list(&lent, &list);
    end_case(wanted, splitbox_read_tree(n, bytes, length, lent.taxa, lent.rows, lent.clusters, lent.weights));
    return wanted;
}

uint64_t call_newick_length(size_t n, const splitbox_list *list, size_t *length)
{
    begin_case(FUNCTION_newick_length, "n %zu, taxa %zu, rows %zu", n, list->taxa, list->rows);
    lent_list lent = lend_list(list);
    size_t *out = lend("length", sizeof(size_t), 1, NULL);
    uint64_t wanted = reference_newick_length(n, list, length);
    if (!refused(wanted))
        want(out, length, sizeof *length);
    end_case(wanted, splitbox_newick_length(n, *lent.taxa, *lent.rows, lent.clusters, lent.weights, out));
    return wanted;
}

uint64_t call_write_newick(size_t n, const splitbox_list *list, size_t out_length)
{
    static uint8_t text[1 << 16];
    begin_case(FUNCTION_write_newick, "n %zu, taxa %zu, rows %zu, output %zu", n, list->taxa, list->rows, out_length);
    lent_list lent = lend_list(list);
    uint8_t *out = lend("out", 1, out_length, NULL);
    uint64_t wanted = reference_write_newick(n, list, text, out_length);
    if (!refused(wanted))
        want(out, text, out_length);
    end_case(wanted, splitbox_write_newick(n, *lent.taxa, *lent.rows, lent.clusters, lent.weights, out, out_length));
    return wanted;
}

uint64_t call_read_newick(size_t n, const uint8_t *text, size_t length, splitbox_list *list)
{
    int shown = (int)(length < 150 ? length : 150);
    begin_case(FUNCTION_read_newick, "n %zu, length %zu, %.*s", n, length, shown, (const char *)text);
    const uint8_t *bytes = lend("text", 1, length, text);
    lent_list lent = lend_list(NULL);
    uint64_t wanted = reference_read_newick(n, text, length, list);
    if (!refused(wanted))
        want_list(&lent, list);
    end_case(wanted, splitbox_read_newick(n, bytes, length, lent.taxa, lent.rows, lent.clusters, lent.weights));
    return wanted;
}

/* Begins a case about a record and lends it. */
static const uint8_t *begin_record(function called, const uint8_t *bytes, size_t length)
{
    begin_case(called, "kind %u, n %u, length %zu", length > 2 ? bytes[2] : 0, length > 3 ? bytes[3] : 0, length);
    return lend("record", 1, length, bytes);
}

static void call_run_record(const uint8_t *bytes, size_t length)
{
    const uint8_t *record = begin_record(FUNCTION_run_record, bytes, length);
    lent_list lent = lend_list(NULL);
    splitbox_list list;
    uint64_t trials, wanted = reference_run_record(bytes, length, &list, &trials);
    if (!refused(wanted))
        want_run(&lent, &list, trials);
    end_case(wanted,
             splitbox_run_record(record, length, lent.taxa, lent.rows, lent.clusters, lent.weights, lent.trials));
}

void call_record(const uint8_t *bytes, size_t length, bool run)
{
    size_t start, body_length;
    const uint8_t *record = begin_record(FUNCTION_find_record, bytes, length);
    end_case(reference_find_record(bytes, length), splitbox_find_record(record, length));

    reference_body(bytes, length, &start, &body_length);
    record = begin_record(FUNCTION_body_start, bytes, length);
    end_case(start, splitbox_body_start(record, length));
    record = begin_record(FUNCTION_body_length, bytes, length);
    end_case(body_length, splitbox_body_length(record, length));

    for (unsigned kinds = 0; kinds < 8; kinds++) {
        bool matrices = kinds & 1, tables = kinds & 2, trees = kinds & 4;
        record = begin_record(FUNCTION_find_taken, bytes, length);
        end_case(reference_find_taken(bytes, length, matrices, tables, trees),
                 splitbox_find_taken(record, length, matrices, tables, trees));
    }
    if (run)
        call_run_record(bytes, length);
}

uint64_t call_write_record(uint8_t kind, size_t n, const uint8_t *body, size_t length, size_t out_length)
{
    static uint8_t written[1 << 20];
    begin_case(FUNCTION_write_record, "kind %u, n %zu, body %zu, output %zu", kind, n, length, out_length);
    const uint8_t *bytes = lend("body", 1, length, body);
    uint8_t *out = lend("out", 1, out_length, NULL);
    uint64_t wanted = reference_write_record(kind, n, body, length, written, out_length);
    if (!refused(wanted))
        want(out, written, out_length);
    end_case(wanted, splitbox_write_record(kind, n, bytes, length, out, out_length));
    return wanted;
}

uint64_t call_walk(const uint8_t *file, size_t length, size_t *place)
{
    begin_case(FUNCTION_walk, "file of %zu, place %zu", length, *place);
    const uint8_t *bytes = lend("file", 1, length, file);
    size_t *lent_place = lend("place", sizeof(size_t), 1, place);
    size_t *lent_start = lend("start", sizeof(size_t), 1, NULL), start = *lent_start;
    size_t *lent_length = lend("length", sizeof(size_t), 1, NULL), body_length = *lent_length;
    uint64_t wanted = reference_walk(file, length, place, &start, &body_length);
    want(lent_place, place, sizeof *place);
    want(lent_start, &start, sizeof start);
    want(lent_length, &body_length, sizeof body_length);
    end_case(wanted, splitbox_walk(bytes, length, lent_place, lent_start, lent_length));
    return wanted;
}
