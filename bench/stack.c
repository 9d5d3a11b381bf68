/* How much stack each function of include/splitbox.h uses.
 *
 * A call is run on a stack of its own whose memory is painted first; the lowest byte that changed tells how deep it went. It
 * is done with two paints, so that a byte written in one paint's colour shows under the other, and the depth of an empty call
 * is taken off. The inputs are the largest, and each call has to say DONE, so that all of its code is reached.
 * The last line gives the most; exit status 1 where that is above the limit of 65,536 bytes.
 */
#define _XOPEN_SOURCE 700
#include "inputs.h"

#include <stdio.h>
#include <string.h>
#include <ucontext.h>

enum { N = SPLITBOX_TAXA, LIMIT = 65536, STACK = 1 << 20 };

/* The inputs. */
static uint32_t entries[MATRIX_ROOM];
static uint8_t table[TABLE_ROOM], entries_body[4 * MATRIX_ROOM], tree[TREE_ROOM];
static uint8_t matrix_record[SPLITBOX_RECORD(4 * MATRIX_ROOM)], table_record[RECORD_ROOM];
static uint8_t tree_record[SPLITBOX_RECORD(TREE_ROOM)];
static splitbox_list full; /* the matrix's list, of 125 rows */
static splitbox_list deep; /* the one whose text is deepest */
static uint8_t text[2 * TEXT_ROOM];
static size_t deep_length, text_length;

/* What the calls write. */
static splitbox_list list;
static uint64_t trials, reply, sums[MATRIX_ROOM];
static uint8_t out[RECORD_ROOM];
static size_t place, start, length;

static void nothing(void) { reply = SPLITBOX_DONE; }
static void call_start(void)
{
    splitbox_start(SPLITBOX_LENT(&list));
    reply = SPLITBOX_DONE;
}
static void run_matrix(void) { reply = splitbox_run_matrix(N, entries, MATRIX_ROOM, SPLITBOX_LENT(&list), &trials); }
static void run_table(void) { reply = splitbox_run_table(N, table, TABLE_ROOM, SPLITBOX_LENT(&list), &trials); }
static void grow_matrix(void)
{
    splitbox_start(SPLITBOX_LENT(&list));
    reply = splitbox_grow_matrix(N, entries, MATRIX_ROOM, SPLITBOX_RUN, SPLITBOX_LENT(&list), &trials);
}
static void grow_table(void)
{
    splitbox_start(SPLITBOX_LENT(&list));
    reply = splitbox_grow_table(N, table, TABLE_ROOM, SPLITBOX_RUN, SPLITBOX_LENT(&list), &trials);
}
static void write_tree(void) { reply = splitbox_write_tree(N, SPLITBOX_GIVEN(&full), out, TREE_ROOM); }
static void read_tree(void) { reply = splitbox_read_tree(N, tree, TREE_ROOM, SPLITBOX_LENT(&list)); }
static void sum_paths(void) { reply = splitbox_sum_paths(N, SPLITBOX_GIVEN(&full), sums, MATRIX_ROOM); }
static void newick_length(void) { reply = splitbox_newick_length(N, SPLITBOX_GIVEN(&deep), &deep_length); }
static void write_newick(void) { reply = splitbox_write_newick(N, SPLITBOX_GIVEN(&deep), out, deep_length); }
static void read_newick(void) { reply = splitbox_read_newick(N, text, text_length, SPLITBOX_LENT(&list)); }
static void find_record(void) { reply = splitbox_find_record(table_record, sizeof table_record); }
static void find_taken(void) { reply = splitbox_find_taken(table_record, sizeof table_record, true, true, true); }
static void body_start(void)
{
    reply = splitbox_body_start(table_record, sizeof table_record) == 8 ? SPLITBOX_DONE : SPLITBOX_END;
}
static void body_length(void)
{
    reply = splitbox_body_length(table_record, sizeof table_record) == TABLE_ROOM ? SPLITBOX_DONE : SPLITBOX_END;
}
static void write_matrix_record(void)
{
    reply = splitbox_write_record(SPLITBOX_KIND_MATRIX, N, entries_body, sizeof entries_body, out, sizeof matrix_record);
}
static void write_table_record(void)
{
    reply = splitbox_write_record(SPLITBOX_KIND_TABLE, N, table, sizeof table, out, sizeof table_record);
}
static void write_tree_record(void)
{
    reply = splitbox_write_record(SPLITBOX_KIND_TREE, N, tree, sizeof tree, out, sizeof tree_record);
}
static void walk(void)
{
    place = 0;
    reply = splitbox_walk(tree_record, sizeof tree_record, &place, &start, &length);
}
static void run_matrix_record(void)
{
    reply = splitbox_run_record(matrix_record, sizeof matrix_record, SPLITBOX_LENT(&list), &trials);
}
static void run_table_record(void)
{
    reply = splitbox_run_record(table_record, sizeof table_record, SPLITBOX_LENT(&list), &trials);
}

/* Every function of the header, some with more than one input. */
static const struct {
    const char *name;
    const char *input;
    void (*call)(void);
} calls[] = {
    {"splitbox_start", "", call_start},
    {"splitbox_run_matrix", "64 taxa, 125 rows", run_matrix},
    {"splitbox_run_table", "64 taxa, 125 rows", run_table},
    {"splitbox_grow_matrix", "64 taxa, 125 rows", grow_matrix},
    {"splitbox_grow_table", "64 taxa, 125 rows", grow_table},
    {"splitbox_write_tree", "64 taxa, 125 rows", write_tree},
    {"splitbox_read_tree", "64 taxa, 125 rows", read_tree},
    {"splitbox_newick_length", "64 taxa, 63 brackets", newick_length},
    {"splitbox_write_newick", "64 taxa, 63 brackets", write_newick},
    {"splitbox_read_newick", "64 taxa, 130 brackets", read_newick},
    {"splitbox_sum_paths", "64 taxa, 125 rows", sum_paths},
    {"splitbox_find_record", "a table of 64 taxa", find_record},
    {"splitbox_find_taken", "a table of 64 taxa", find_taken},
    {"splitbox_body_start", "a table of 64 taxa", body_start},
    {"splitbox_body_length", "a table of 64 taxa", body_length},
    {"splitbox_write_record", "a matrix of 64 taxa", write_matrix_record},
    {"splitbox_write_record", "a table of 64 taxa", write_table_record},
    {"splitbox_write_record", "a tree of 64 taxa", write_tree_record},
    {"splitbox_walk", "a tree of 64 taxa", walk},
    {"splitbox_run_record", "a matrix of 64 taxa", run_matrix_record},
    {"splitbox_run_record", "a table of 64 taxa", run_table_record},
};
enum { CALLS = sizeof calls / sizeof calls[0] };

/* The bytes of its own stack that a call changes, from the lowest to the top, under one paint. */
static size_t depth_under(void (*call)(void), unsigned char paint)
{
    static unsigned char stack[STACK];
    static ucontext_t here, there;
    memset(stack, paint, sizeof stack);
    if (getcontext(&there) != 0)
        fail("no context");
    there.uc_stack.ss_sp = stack;
    there.uc_stack.ss_size = sizeof stack;
    there.uc_link = &here;
    makecontext(&there, call, 0);
    reply = SPLITBOX_END;
    if (swapcontext(&here, &there) != 0)
        fail("no switch of stacks");
    if (reply != SPLITBOX_DONE)
        fail("a call did not say DONE");
    size_t at = 0;
    while (at < sizeof stack && stack[at] == paint)
        at++;
    return sizeof stack - at;
}

static size_t depth_of(void (*call)(void))
{
    size_t one = depth_under(call, 0xa5);
    size_t other = depth_under(call, 0x5a);
    return one > other ? one : other;
}

static void put_text(const void *bytes, size_t count)
{
    memcpy(text + text_length, bytes, count);
    text_length += count;
}

/* The deepest list's text, in brackets by themselves with edges of length 0 until 130 are nested. */
static void make_text(void)
{
    deepest_list(&deep);
    newick_length();
    write_newick();
    if (reply != SPLITBOX_DONE)
        fail("the deepest list has no text");
    for (size_t depth = SPLITBOX_DEPTH; depth > N - 1; depth--)
        put_text("(", 1);
    put_text(out, deep_length - 1);
    for (size_t depth = SPLITBOX_DEPTH; depth > N - 1; depth--)
        put_text(":0)", 3);
    put_text(";", 1);
}

static void make_inputs(void)
{
    tree_matrix(N, entries);
    tree_table(N, table);
    run_table();
    if (reply != SPLITBOX_DONE || list.rows != SPLITBOX_ROWS)
        fail("a table of 64 taxa does not give 125 rows");
    run_matrix();
    full = list;
    if (reply != SPLITBOX_DONE || full.rows != SPLITBOX_ROWS)
        fail("a matrix of 64 taxa does not give 125 rows");
    write_tree();
    memcpy(tree, out, sizeof tree);
    matrix_body(N, entries, entries_body);
    make_record(SPLITBOX_KIND_MATRIX, N, entries_body, sizeof entries_body, matrix_record);
    make_record(SPLITBOX_KIND_TABLE, N, table, sizeof table, table_record);
    make_record(SPLITBOX_KIND_TREE, N, tree, sizeof tree, tree_record);
    make_text();
}

int main(void)
{
    make_inputs();
    size_t empty = depth_of(nothing), most = 0;
    const char *where = "";
    printf("%-24s %-24s %s\n", "stack of", "on", "bytes");
    for (size_t i = 0; i < CALLS; i++) {
        size_t used = depth_of(calls[i].call) - empty;
        printf("%-24s %-24s %zu\n", calls[i].name, calls[i].input, used);
        if (used > most) {
            most = used;
            where = calls[i].name;
        }
    }
    printf("most: %zu bytes in %s; limit %d\n", most, where, LIMIT);
    return most > LIMIT;
}
