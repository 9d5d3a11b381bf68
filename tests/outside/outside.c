/* The outside tests: every function of the header is called with many pseudo-random inputs, valid and damaged, and held against
 * the second implementation in reference.c.
 *
 *     outside [SEED [ROUNDS]]
 *
 * Prints what differed (20 at most), the cases of each function, and as its last line "N cases, M mismatches". Exit status 1 if
 * there were any, or if some function was never called. Built by the same compiler, a seed and a number of rounds always give
 * the same cases. */
#include "compare.h"
#include "calls.h"
#include "inputs.h"

#include <stdio.h>
#include <stdlib.h>
#include <string.h>

static uint8_t any_source_kind(void) { return chance(50) ? SPLITBOX_KIND_MATRIX : SPLITBOX_KIND_TABLE; }

static uint32_t heaviest(const source *s) { return s->kind == SPLITBOX_KIND_TABLE ? 1 : SPLITBOX_WEIGHT; }

static const splitbox_list empty = {.taxa = 1};

static bool same(const splitbox_list *one, const splitbox_list *other)
{
    return one->taxa == other->taxa && one->rows == other->rows &&
           memcmp(one->clusters, other->clusters, one->rows * sizeof *one->clusters) == 0 &&
           memcmp(one->weights, other->weights, one->rows * sizeof *one->weights) == 0;
}

/* Growth */

static uint64_t any_allowance(const splitbox_list *list)
{
    uint64_t cost = 2 * list->rows + 1;
    const uint64_t some[] = {0, 1, cost - 1, cost, cost + 1, 2 * cost + 2, below(50), below(300), 247, 7751, (uint64_t)1 << 32,
                             UINT64_MAX};
    return some[below(sizeof some / sizeof *some)];
}

/* Grows the list by one allowance after another, until it is done. */
static void grow_to_the_end(const source *s, splitbox_list *list)
{
    for (size_t calls = 0; calls < 2 * s->n; calls++)
        if (call_grow(s, any_allowance(list), list) == SPLITBOX_DONE)
            return;
    call_grow(s, UINT64_MAX, list);
}

static void accepted_sources(size_t n)
{
    source s = make_source(any_source_kind(), n);
    splitbox_list list, whole;
    uint64_t trials;
    call_run(&s, NULL);
    make_list(&list, 1, 0, 1);
    grow_to_the_end(&s, &list);
    if (n > BRUTE_FORCE)
        return;
    reference_run(&s, &whole, &trials);
    agree("a list grown to the end is that of the whole run", same(&list, &whole));
    agree("a whole run costs at most 2n^2 - 7n + 7 trials", trials <= 2 * n * n - 7 * n + 7);
}

/* A list that did not come from this matrix or table. */
static void carried_lists(size_t n)
{
    const unsigned keeps[] = {100, 60, 20};
    splitbox_list list;
    source s = make_source(any_source_kind(), n);
    make_list(&list, 1 + below(n), keeps[below(3)], chance(50) ? heaviest(&s) : 1);
    grow_to_the_end(&s, &list);
    list = empty; /* grown on one, carried to another */
    call_grow(&s, any_allowance(&list), &list);
    s = make_source(s.kind, n);
    grow_to_the_end(&s, &list);
}

/* The most rows that a list can have before its last taxon: the step costs 247 trials. */
static void last_taxon(void)
{
    splitbox_list list;
    source s = make_source(any_source_kind(), SPLITBOX_TAXA);
    make_list(&list, SPLITBOX_TAXA - 1, 100, heaviest(&s));
    agree("246 trials are short of the costliest taxon", call_grow(&s, SPLITBOX_STEP - 1, &list) == SPLITBOX_SHORT);
    agree("247 trials add it", call_grow(&s, SPLITBOX_STEP, &list) == SPLITBOX_DONE && list.taxa == SPLITBOX_TAXA);
}

static void known_answers(size_t n)
{
    splitbox_list known;
    source s = make_tree_source(any_source_kind(), n, &known);
    call_run(&s, &known);
}

static void damaged_sources(size_t n)
{
    source s = make_source(any_source_kind(), n);
    splitbox_list list;
    damage_source(&s);
    call_run(&s, NULL);
    make_list(&list, 1 + below(n), 50, heaviest(&s));
    if (chance(30))
        break_list(&list, n, heaviest(&s));
    call_grow(&s, any_allowance(&list), &list);
}

static void broken_lists(size_t n)
{
    splitbox_list list;
    source s = make_source(any_source_kind(), n);
    for (size_t i = 0; i < 4; i++) {
        make_list(&list, 1 + below(n), chance(50) ? 100 : 50, heaviest(&s));
        break_list(&list, n, heaviest(&s));
        call_grow(&s, chance(30) ? any_allowance(&empty) : 247, &list);
    }
}

/* The tree and path calls */

/* Mostly the exact length. */
static size_t any_length(size_t exact)
{
    const size_t wrong[] = {0, exact - 1, exact + 1, below(exact), exact + 5};
    return chance(75) ? exact : wrong[below(5)];
}

static void trees_of_lists(size_t n)
{
    splitbox_list list;
    make_list(&list, chance(90) ? n : 1 + below(n), chance(50) ? 100 : 60, SPLITBOX_WEIGHT);
    size_t tree_length = any_length(SPLITBOX_TREE(n, list.rows)), sums_length = any_length(SPLITBOX_MATRIX(n));
    if (chance(30))
        break_list(&list, n, SPLITBOX_WEIGHT);
    if (chance(10))
        n = odd_n(n);
    if (chance(5))
        list.taxa = n;
    call_write_tree(n, &list, tree_length);
    call_sum_paths(n, &list, sums_length);
}

static void trees_read(size_t n)
{
    static uint8_t body[SPLITBOX_TREE(64, SPLITBOX_ROWS) + 64], damaged[sizeof body];
    splitbox_list list;
    make_list(&list, n, chance(50) ? 100 : 40, SPLITBOX_WEIGHT);
    size_t length = chance(60) ? make_tree(n, &list, body) : make_free_tree(n, body);
    call_read_tree(n, body, length);
    renumber_tree(n, body);
    if (call_read_tree(n, body, length) == SPLITBOX_DONE) { /* written and read once more, in row order */
        reference_read_tree(n, body, length, &list);
        call_write_tree(n, &list, length);
        call_sum_paths(n, &list, SPLITBOX_MATRIX(n));
    }
    for (size_t i = 0; i < 8; i++) {
        memcpy(damaged, body, sizeof body);
        size_t damaged_length = damage_tree(n, damaged, length);
        call_read_tree(chance(97) ? n : odd_n(n), damaged, damaged_length);
    }
}

/* Newick texts */

static uint8_t text[TEXT_ROOM];

/* A list's text has the length that is told, and gives the list again. */
static void written_and_read(size_t n, const splitbox_list *list)
{
    size_t length = 0;
    splitbox_list read;
    if (call_newick_length(n, list, &length) != SPLITBOX_DONE)
        return;
    call_write_newick(n, list, length);
    reference_write_newick(n, list, text, length);
    agree("a list's text gives the list", call_read_newick(n, text, length, &read) == SPLITBOX_DONE && same(&read, list));
}

static void texts_of_lists(size_t n)
{
    size_t length = 20;
    splitbox_list list;
    make_list(&list, n, chance(50) ? 100 : 60, chance(50) ? SPLITBOX_WEIGHT : 12);
    written_and_read(n, &list);
    reference_newick_length(n, &list, &length);
    if (chance(40))
        break_list(&list, n, SPLITBOX_WEIGHT);
    if (chance(10))
        list.taxa = 1 + below(n);
    if (chance(10))
        n = odd_n(n);
    if (chance(5))
        list.taxa = n;
    call_newick_length(n, &list, &length);
    call_write_newick(n, &list, length);
    call_write_newick(n, &list, any_length(length));
}

/* Texts of one tree, from any vertex on and with children in any order, are answered alike; those of a list's tree give it. */
static void texts_of_one_tree(size_t n)
{
    const unsigned keeps[] = {100, 80, 40, 10};
    splitbox_list list, first, read;
    free_tree t;
    make_list(&list, n, keeps[below(4)], chance(50) ? SPLITBOX_WEIGHT : 12);
    make_free(&list, &t);
    for (size_t times = below(chance(5) ? 400 : n); times > 0; times--)
        loosen(&t, chance(50));
    bool spoiled = chance(50);
    for (size_t times = spoiled ? 1 + below(3) : 0; times > 0; times--)
        spoil(&t);
    unsigned number = 19;
    for (size_t i = 0; i < 4; i++) {
        size_t length = make_text(&t, text);
        uint64_t reply = call_read_newick(n, text, length, &read);
        if (splitbox_number(reply) == 19) /* from this vertex on it is too deep */
            continue;
        agree("a text of a list's tree gives that list", spoiled || (reply == SPLITBOX_DONE && same(&read, &list)));
        agree("texts of a tree get the same answer", number == 19 || (number == splitbox_number(reply) &&
                                                                      (reply != SPLITBOX_DONE || same(&read, &first))));
        number = splitbox_number(reply), first = read;
    }
    for (size_t i = 0; i < 6; i++) {
        size_t length = make_text(&t, text);
        fill(text + length, 16);
        length = damage_text(text, length);
        call_read_newick(chance(95) ? n : odd_n(n), text, length, &read);
    }
    call_read_newick(n + 1 - 2 * below(2), text, make_text(&t, text), &read); /* a taxon is missing, or one too many is there */
}

/* One text: cut at every place, and there a byte taken out, put in and put in place of the one there. */
static void damage_everywhere(size_t n)
{
    static uint8_t damaged[TEXT_ROOM];
    static const uint8_t bytes[] = "(),:;019 '[.x\n\xe9";
    splitbox_list list;
    free_tree t;
    make_list(&list, n, 70, 12);
    make_free(&list, &t);
    loosen(&t, false);
    size_t length = make_text(&t, text);
    for (size_t where = 0; where <= length; where++) {
        call_read_newick(n, text, where, &list);
        memcpy(damaged, text, where);
        memcpy(damaged + where, text + where + 1, length - where);
        call_read_newick(n, damaged, length - (where < length), &list);
        for (size_t i = 0; i < sizeof bytes; i++) { /* a zero byte too */
            damaged[where] = bytes[i];
            memcpy(damaged + where + 1, text + where, length - where);
            call_read_newick(n, damaged, length + 1, &list);
            memcpy(damaged + where + 1, text + where + 1, length - where);
            call_read_newick(n, damaged, length, &list);
        }
    }
}

/* Short texts just outside the grammar, brackets nested up to the limit and beyond, and bytes at random. */
static void odd_texts(void)
{
    static const char *const odd[] = {
        "", ";", "(", "()", "();", "0;", "0:0;", "(0:0)", "(0:0,1:0)", "(0:0,1:0);", "(0:0,1:0):5;", " (0:0,1:0);", "(0:0,1:0);x",
        "(0:0,1:0);;", "('0':0,1:0);", "(a:0,1:0);", "(0:0,1:0.5);", "(0:0[x],1:0);", "(0:0, 1:0);", "(0:00,1:0);", "(00:0,1:0);",
        "(0:0,01:0);", "(0,1);", "(0:,1:0);", "((0:0,1:0),2:0);", "((0:0,1:0):,2:0);", "(:0,1:0);", "(0:0,:0);", "(,);",
        "((),1:0);", "(0:-1,1:0);", "(0:1e3,1:0);", "(0:0,1:0)a;", "(0:0,1:0)\n;"};
    splitbox_list list;
    for (size_t i = 0; i < sizeof odd / sizeof *odd; i++)
        for (size_t n = 0; n < 4; n++)
            call_read_newick(n == 0 ? odd_n(2) : n, (const uint8_t *)odd[i], strlen(odd[i]), &list);
    for (size_t depth = 2; depth < 140; depth += depth < 120 ? 13 : 1) {
        size_t length = nested_text(depth, text);
        uint64_t reply = call_read_newick(3, text, length, &list);
        agree("130 brackets are taken, the 131st is not", reply == (depth <= 130 ? SPLITBOX_DONE : reference_reply(19, 130)));
        call_read_newick(3, text, below(length), &list);
    }
    for (size_t i = 0; i < 40; i++) {
        size_t length = below(20);
        for (size_t at = 0; at < length; at++)
            text[at] = text_byte();
        call_read_newick(2 + below(3), text, length, &list);
    }
}

/* From a matrix to the tree of its list, and that read back. */
static void trees_of_runs(size_t n)
{
    static uint8_t body[SPLITBOX_TREE(64, SPLITBOX_ROWS)];
    splitbox_list list;
    uint64_t trials;
    source s = make_source(any_source_kind(), n);
    reference_run(&s, &list, &trials);
    call_write_tree(n, &list, SPLITBOX_TREE(n, list.rows));
    call_sum_paths(n, &list, SPLITBOX_MATRIX(n));
    call_read_tree(n, body, make_tree(n, &list, body));
    written_and_read(n, &list);
}

/* Records */

static uint8_t record[RECORD_ROOM];

/* A record with the bytes that may follow it. */
static void records_found(size_t n)
{
    size_t length = make_record(n, record), behind = chance(50) ? below(20) : 0;
    fill(record + length, behind);
    call_record(record, length + behind, true);
    length = damage_record(record, length);
    call_record(record, length, true);
}

static void records_cut(void)
{
    size_t length = make_record(3, record);
    for (size_t cut = 0; cut < length; cut++)
        call_record(record, cut, chance(20));
    fill(record, 20);
    call_record(record, below(20), true);
}

static void records_written(size_t n)
{
    static uint8_t body[BODY_ROOM];
    uint8_t kind = (uint8_t)(1 + below(3));
    size_t length = make_body(kind, n, chance(40), body), whole = SPLITBOX_RECORD(length);
    if (chance(7))
        n = odd_n(n);
    if (chance(7))
        kind = (uint8_t)draw();
    if (call_write_record(kind, n, body, length, any_length(whole)) == SPLITBOX_DONE)
        call_record(record, reference_compose(kind, (uint8_t)n, body, length, record), false);
}

/* A file of several records, some of them damaged, with or without bytes behind them. */
static void files_walked(void)
{
    static uint8_t file[RECORD_ROOM];
    size_t length = 0, place = 0;
    for (size_t records = below(6); records > 0; records--) {
        size_t next = make_record(6, file + length);
        length += chance(10) ? damage_record(file + length, next) : next;
    }
    if (chance(20)) {
        fill(file + length, 12);
        length += below(12);
    }
    while (call_walk(file, length, &place) == SPLITBOX_DONE)
        ;
    const size_t places[] = {place, below(length + 1), length, length + 1, length + 7, SIZE_MAX - below(12), SIZE_MAX,
                             (size_t)1 << 63, SIZE_MAX - length};
    place = places[below(sizeof places / sizeof *places)];
    call_walk(file, length, &place);
}

/* The examples of document 02 §2, of what is read from it, and some more, each worked out by hand. */
static const struct {
    size_t n;
    const char *text;
    unsigned number;
    size_t place;
    splitbox_list list;
    const char *again; /* the list written, where that is another text */
} newick_figures[] = {
    {2, "(0:0,1:0);", 0, 0, {2, 0, {0}, {0}}, NULL},
    {2, "(0:0,1:7);", 0, 0, {2, 1, {2}, {7}}, NULL},
    {2, "(1:0,0:7);", 0, 0, {2, 1, {2}, {7}}, "(0:0,1:7);"},
    {3, "((0:1,1:2,2:3):0);", 0, 0, {3, 3, {2, 4, 6}, {2, 3, 1}}, "(0:0,(1:2,2:3):1);"},
    {3, "((1:0,2:0):2000000,0:0);", 0, 0, {3, 1, {6}, {2000000}}, "(0:0,(1:0,2:0):2000000);"},
    {4, "((0:1,1:2):3,2:4,3:5);", 0, 0, {4, 5, {2, 4, 8, 12, 14}, {2, 4, 5, 3, 1}}, "(0:0,(1:2,(2:4,3:5):3):1);"},
    {4, "(0:0,(1:6,(2:8,3:10):6):4);", 0, 0, {4, 5, {2, 4, 8, 12, 14}, {6, 8, 10, 6, 4}}, NULL},
    {4, "((3:10,2:8):6,(0:4):0,1:6);x", 0, 0, {4, 5, {2, 4, 8, 12, 14}, {6, 8, 10, 6, 4}}, "(0:0,(1:6,(2:8,3:10):6):4);"},
    {2, "", 19, 0, {0}, NULL},
    {2, "(0,1:1);", 19, 2, {0}, NULL},
    {2, "0:5;", 19, 0, {0}, NULL},
    {2, "(0:0,1:0):5;", 19, 9, {0}, NULL},
    {2, "(0:0,01:0);", 19, 6, {0}, NULL},
    {2, "(0:0,1:0)", 19, 9, {0}, NULL},
    {2, "(0:0,2:0,0:0);", 20, 5, {0}, NULL},
    {2, "(0:0,0:0,2:0);", 20, 5, {0}, NULL},
    {3, "(0:0,1:1);", 20, 9, {0}, NULL},
    {2, "(0:0,1:2000001);", 14, 7, {0}, NULL},
    {3, "((0:1,1:2,2:3):5);", 12, 15, {0}, NULL},
    {4, "((0:1,1:2):3,(2:4,3:5):6);", 13, 11, {0}, NULL},
    {2, "(0:5,1:3);", 13, 3, {0}, NULL},
    {2, "((0:5,1:3):1);", 12, 11, {0}, NULL},
    {2, "((0:5,1:3):2000001);", 14, 11, {0}, NULL},
};

static void figures_newick(void)
{
    for (size_t i = 0; i < sizeof newick_figures / sizeof *newick_figures; i++) {
        const char *given = newick_figures[i].text, *again = newick_figures[i].again;
        const splitbox_list *known = &newick_figures[i].list;
        splitbox_list list;
        size_t n = newick_figures[i].n, length = strlen(given);
        uint64_t reply = call_read_newick(n, (const uint8_t *)given, length, &list);
        agree(given, reply == reference_reply(newick_figures[i].number, newick_figures[i].place));
        if (newick_figures[i].number != 0)
            continue;
        again = again ? again : given;
        agree(given, same(&list, known));
        written_and_read(n, known);
        reply = reference_write_newick(n, known, text, strlen(again));
        agree(again, reply == SPLITBOX_DONE && memcmp(text, again, strlen(again)) == 0);
    }
}

/* Cases that the documents give with their figures; they bind the reference too. */
static void figures(void)
{
    const uint32_t a[] = {0, 5, 9, 10, 5, 0, 10, 11, 9, 10, 0, 9, 10, 11, 9, 0};
    const uint8_t table[] = {1, 1, 1, 1, 1}, circle[] = {2, 1, 0, 2, 0, 1, 1, 0, 0, 0, 1, 0, 0, 0};
    static const uint32_t zeros[64 * 64];
    const splitbox_list of_a = {4, 5, {2, 4, 8, 12, 14}, {6, 8, 10, 6, 4}}, none = {.taxa = 64};
    const splitbox_list of_table = {5, 7, {2, 4, 8, 16, 24, 28, 30}, {1, 1, 1, 1, 1, 1, 1}};
    source s = {SPLITBOX_KIND_MATRIX, 4, a, table, 16}, t = {SPLITBOX_KIND_TABLE, 5, a, table, 5};
    splitbox_list list = empty;
    uint64_t trials, paths[16];
    call_run(&s, &of_a);
    call_run(&s, NULL);
    agree("A with allowance 10 is short", call_grow(&s, 10, &list) == SPLITBOX_SHORT && list.taxa == 3);
    reference_run(&s, &list, &trials);
    agree("A's list and trials", trials == 11 && same(&list, &of_a));
    reference_sum_paths(4, &list, paths, 16);
    agree("path sum in A's tree", paths[3] == 20);
    call_run(&t, &of_table);
    call_run(&t, NULL);
    agree("a circle", call_read_tree(3, circle, sizeof circle) == reference_reply(10, 0));
    s = (source){SPLITBOX_KIND_MATRIX, 64, zeros, table, 64 * 64};
    call_run(&s, &none);
    call_run(&s, NULL);
    figures_newick();
}

/* One round: everything at small numbers of taxa, where the reference tries every split, and a little above. */
static void small_round(void)
{
    size_t small = 2 + below(BRUTE_FORCE - 1), middle = 2 + below(15);
    call_start();
    accepted_sources(small);
    known_answers(small);
    carried_lists(small);
    damaged_sources(small);
    broken_lists(chance(80) ? small : middle);
    trees_of_lists(chance(80) ? small : middle);
    trees_read(chance(50) ? small : middle);
    trees_of_runs(small);
    records_found(small);
    records_written(small);
    records_written(small);
    files_walked();
    texts_of_lists(chance(60) ? small : 2 + below(63));
    texts_of_one_tree(small);
    texts_of_one_tree(chance(60) ? middle : 2 + below(63));
}

/* The same at up to so many taxa: all that is cheap, and some of what costs. */
static void large_round(size_t most)
{
    size_t n = 9 + below(most - 8);
    known_answers(n);
    damaged_sources(n);
    broken_lists(n);
    trees_of_lists(n);
    trees_read(n);
    records_written(n);
}

int main(int count, char **words)
{
    uint64_t seed = count > 1 ? strtoull(words[1], NULL, 10) : 1;
    uint64_t rounds = count > 2 ? strtoull(words[2], NULL, 10) : 1500;
    seed_draws(seed);
    figures();
    for (uint64_t round = 0; round < rounds; round++) {
        small_round();
        if (round % 10 == 0)
            records_cut();
        if (round % 10 == 1)
            large_round(chance(50) ? 20 : 64);
        if (round % 50 == 2) {
            accepted_sources(9 + below(12));
            carried_lists(9 + below(12));
            records_found(20);
        }
        if (round % 100 == 3)
            trees_read(64), trees_of_lists(64);
    }
    for (size_t i = 0; i < 6; i++) { /* the largest, a few of each */
        known_answers(64);
        known_answers(64);
        last_taxon();
        accepted_sources(i == 0 ? 64 : 24 + below(41));
        carried_lists(24 + below(41));
        trees_of_runs(24 + below(17));
        records_found(64);
        texts_of_one_tree(64);
        texts_of_lists(64);
        damage_everywhere(2 + i);
        odd_texts();
    }
    return finish();
}
