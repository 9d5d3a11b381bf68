/* The second implementation of document 02 §2: Newick texts. See reference.h.
 *
 * Reading: a function for each rule of the grammar makes a tree of vertices and edges that has no direction. Edges of length 0
 * are joined one by one; the cluster of an edge is what can't be reached from taxon 0's home once that edge is taken out.
 * Writing: a vertex is the set of taxa at or below it, its children are the listed clusters next within that set. */
#include "reference.h"

#include <stdio.h>
#include <stdlib.h>
#include <string.h>

enum { ROOM = 1 << 16, DEEPEST = 130, HEAVIEST = 2000000, TEXT = 4096 };

/* Reading */

typedef struct edge {
    size_t one, other;
    uint32_t length; /* above HEAVIEST: HEAVIEST + 1 */
    size_t place;    /* of its first byte */
} edge;

typedef struct leaf {
    size_t vertex;
    uint32_t taxon;
    size_t place;
} leaf;

/* A text, how far it has been read, and its tree: vertex 0 is the outermost bracket, edges and leaves come as in the text. */
static const uint8_t *text;
static size_t text_length, at;
static size_t vertices, edge_count, leaf_count;
static edge edges[ROOM];
static leaf leaves[ROOM];

static bool next_is(char byte) { return at < text_length && text[at] == (uint8_t)byte; }

static bool next_is_digit(void) { return at < text_length && text[at] >= '0' && text[at] <= '9'; }

/* The rules. Each says whether the text goes on so; if not, `at` is the first byte that doesn't (or the end). */

static bool byte(char wanted)
{
    bool there = next_is(wanted);
    at += there;
    return there;
}

/* number = "0" | nonzero {digit} */
static bool number(uint32_t *value)
{
    *value = 0;
    if (byte('0'))
        return true;
    bool there = next_is_digit();
    for (; next_is_digit(); at++) {
        *value = 10 * *value + (text[at] - '0');
        if (*value > HEAVIEST)
            *value = HEAVIEST + 1;
    }
    return there;
}

static bool group(size_t depth, size_t vertex);

/* child = number ":" number | group ":" number */
static bool child(size_t depth, size_t above)
{
    size_t vertex = vertices++;
    if (vertex + 1 == ROOM) {
        fprintf(stderr, "reference: too long a text\n");
        abort();
    }
    if (next_is('(')) {
        if (!group(depth + 1, vertex))
            return false;
    } else {
        leaf *here = &leaves[leaf_count++];
        here->vertex = vertex, here->place = at;
        if (!number(&here->taxon))
            return false;
    }
    if (!byte(':'))
        return false;
    edge found = {vertex, above, 0, at};
    if (!number(&found.length))
        return false;
    edges[edge_count++] = found;
    return true;
}

/* group = "(" child {"," child} ")" */
static bool group(size_t depth, size_t vertex)
{
    if (depth > DEEPEST || !byte('('))
        return false;
    do
        if (!child(depth, vertex))
            return false;
    while (byte(','));
    return byte(')');
}

/* An edge of length 0 is dropped and its ends joined: whatever is at the one is then at the other. */
static void join_ends(size_t n, size_t *homes)
{
    size_t kept = 0;
    for (size_t i = 0; i < edge_count; i++) {
        edge dropped = edges[i];
        if (dropped.length > 0) {
            edges[kept++] = dropped;
            continue;
        }
        for (size_t j = 0; j < edge_count; j++) {
            if (edges[j].one == dropped.one)
                edges[j].one = dropped.other;
            if (edges[j].other == dropped.one)
                edges[j].other = dropped.other;
        }
        for (size_t taxon = 0; taxon < n; taxon++)
            if (homes[taxon] == dropped.one)
                homes[taxon] = dropped.other;
    }
    edge_count = kept;
}

/* The taxa beyond an edge, seen from taxon 0's home: without it they can't be reached from there. */
static uint64_t beyond(size_t taken, size_t n, const size_t *homes)
{
    static bool reached[ROOM];
    memset(reached, 0, vertices * sizeof *reached);
    reached[homes[0]] = true;
    for (bool more = true; more;) {
        more = false;
        for (size_t step = 0; step < 2 * edge_count; step++) { /* there and back, so that few rounds do */
            size_t i = step < edge_count ? step : 2 * edge_count - 1 - step;
            if (i != taken && reached[edges[i].one] != reached[edges[i].other])
                more = reached[edges[i].one] = reached[edges[i].other] = true;
        }
    }
    uint64_t taxa = 0;
    for (size_t taxon = 0; taxon < n; taxon++)
        if (!reached[homes[taxon]])
            taxa |= (uint64_t)1 << taxon;
    return taxa;
}

uint64_t reference_read_newick(size_t n, const uint8_t *given, size_t given_length, splitbox_list *list)
{
    static uint64_t clusters[ROOM];
    size_t homes[64];
    uint64_t met = 0;
    if (reference_n_refused(n))
        return reference_reply(1, 0);
    text = given, text_length = given_length;
    at = edge_count = leaf_count = 0;
    vertices = 1;
    if (!group(1, 0) || !byte(';'))
        return reference_reply(19, at);
    for (size_t i = 0; i < leaf_count; i++) {
        size_t taxon = leaves[i].taxon;
        if (taxon >= n || reference_has(met, taxon))
            return reference_reply(20, leaves[i].place);
        met |= (uint64_t)1 << taxon;
        homes[taxon] = leaves[i].vertex;
    }
    if (met != reference_first(n))
        return reference_reply(20, at - 1);
    join_ends(n, homes);
    for (size_t i = 0; i < edge_count; i++)
        if (edges[i].length > HEAVIEST)
            return reference_reply(14, edges[i].place);
    for (size_t i = 0; i < edge_count; i++)
        clusters[i] = beyond(i, n, homes);
    for (size_t i = 0; i < edge_count; i++)
        if (clusters[i] == 0)
            return reference_reply(12, edges[i].place);
    for (size_t i = 0; i < edge_count; i++)
        for (size_t j = i + 1; j < edge_count; j++)
            if (clusters[i] == clusters[j])
                return reference_reply(13, edges[i].place);
    *list = (splitbox_list){.taxa = n, .rows = edge_count};
    for (size_t i = 0; i < edge_count; i++)
        list->clusters[i] = clusters[i], list->weights[i] = edges[i].length;
    reference_sort_rows(list);
    return SPLITBOX_DONE;
}

/* Writing */

static char written[TEXT];
static size_t written_length;

static void put(const char *form, size_t value)
{
    written_length += (size_t)snprintf(written + written_length, TEXT - written_length, form, value);
}

static bool strictly_within(uint64_t inner, uint64_t outer) { return inner != outer && (inner & ~outer) == 0; }

static bool is_child(const splitbox_list *list, size_t row, uint64_t set)
{
    bool next = strictly_within(list->clusters[row], set);
    for (size_t i = 0; i < list->rows; i++)
        if (strictly_within(list->clusters[row], list->clusters[i]) && strictly_within(list->clusters[i], set))
            next = false;
    return next;
}

/* A vertex without its weight: a bare number for one taxon by itself, else all in brackets. */
static void put_vertex(const splitbox_list *list, uint64_t set)
{
    uint64_t own = set;
    const char *between = "(";
    for (size_t row = 0; row < list->rows; row++)
        if (is_child(list, row, set))
            own &= ~list->clusters[row];
    bool bare = own == set && (set & (set - 1)) == 0;
    for (size_t taxon = 0; taxon < 64; taxon++)
        if (reference_has(own, taxon)) {
            put(bare ? "" : between, 0);
            put(bare ? "%zu" : "%zu:0", taxon);
            between = ",";
        }
    for (size_t row = 0; row < list->rows; row++)
        if (is_child(list, row, set)) {
            put(between, 0);
            put_vertex(list, list->clusters[row]);
            put(":%zu", list->weights[row]);
            between = ",";
        }
    put(bare ? "" : ")", 0);
}

/* Refuses 1 and 8; else the text stands in `written`. */
static uint64_t write_out(size_t n, const splitbox_list *list)
{
    if (reference_n_refused(n))
        return reference_reply(1, 0);
    if (list->taxa != n || !reference_well_formed(n, HEAVIEST, list))
        return reference_reply(8, 0);
    written_length = 0;
    put_vertex(list, reference_first(n));
    put(";", 0);
    return SPLITBOX_DONE;
}

uint64_t reference_newick_length(size_t n, const splitbox_list *list, size_t *length)
{
    uint64_t refused = write_out(n, list);
    if (!refused)
        *length = written_length;
    return refused;
}

uint64_t reference_write_newick(size_t n, const splitbox_list *list, uint8_t *out, size_t out_length)
{
    uint64_t refused = write_out(n, list);
    if (!refused && out_length != written_length)
        return reference_reply(7, 0);
    if (!refused)
        memcpy(out, written, out_length);
    return refused;
}
