/* Inputs for the outside tests: Newick texts of trees that have no root, and damage to them. See inputs.h. */
#include "inputs.h"

#include "compare.h"

#include <stdio.h>
#include <string.h>

#define COUNT(array) (sizeof(array) / sizeof *(array))

/* The vertex of a row, or of the root: that of the smallest cluster around these taxa, other than they themselves. */
static size_t vertex_around(const splitbox_list *list, uint64_t taxa, bool strictly)
{
    size_t row = 0; /* clusters ascend, and one within another is the lesser number */
    while (row < list->rows && ((taxa & ~list->clusters[row]) != 0 || (strictly && taxa == list->clusters[row])))
        row++;
    return row;
}

void make_free(const splitbox_list *list, free_tree *t)
{
    *t = (free_tree){.n = list->taxa, .vertices = list->rows + 1, .edges = list->rows, .stump = SIZE_MAX};
    for (size_t i = 0; i < list->rows; i++)
        t->edge[i] = (free_edge){i, vertex_around(list, list->clusters[i], true), list->weights[i]};
    for (size_t taxon = 0; taxon < t->n; taxon++) {
        t->homes[taxon] = vertex_around(list, (uint64_t)1 << taxon, false);
        t->names[taxon] = taxon;
    }
}

static bool full(const free_tree *t) { return t->edges == FREE_EDGES; }

static void add_edge(free_tree *t, size_t one, size_t other, uint64_t length)
{
    t->edge[t->edges++] = (free_edge){one, other, length};
}

/* All that is at a vertex: pointers to its taxa's homes and to the ends there of its edges. */
static size_t things_at(free_tree *t, size_t vertex, size_t **things)
{
    size_t count = 0;
    for (size_t taxon = 0; taxon < t->n; taxon++)
        if (t->homes[taxon] == vertex)
            things[count++] = &t->homes[taxon];
    for (size_t i = 0; i < t->edges; i++) {
        if (t->edge[i].one == vertex)
            things[count++] = &t->edge[i].one;
        if (t->edge[i].other == vertex)
            things[count++] = &t->edge[i].other;
    }
    return count;
}

void loosen(free_tree *t, bool lengthen)
{
    size_t *things[64 + FREE_EDGES], vertex = below(t->vertices), count = things_at(t, vertex, things);
    if (count < 2 || full(t)) /* both ends need something, for an end without is no vertex of a text */
        return;
    size_t certain = below(count), left = (certain + 1 + below(count - 1)) % count;
    for (size_t i = 0; i < count; i++)
        if (i == certain || (i != left && !lengthen && chance(50)))
            *things[i] = t->vertices;
    add_edge(t, vertex, t->vertices++, 0);
}

void spoil(free_tree *t)
{
    const uint64_t lengths[] = {0, 1, 1999999, 2000000, 2000001, 2000002, 4294967296 + 5, 18446744073709551615u, LONG_NUMBER};
    const uint64_t wrong[] = {t->n, t->n + 1, 64, 65, 2000001, 4294967296, 18446744073709551615u, LONG_NUMBER, below(t->n)};
    size_t at = below(t->edges + 1), taxon = below(t->n), sort = below(10);
    if (sort == 0)
        t->names[taxon] = wrong[below(COUNT(wrong))];
    else if (sort == 1 && t->stump == SIZE_MAX && !full(t)) { /* a root with a single child and no taxon */
        t->stump = t->vertices++;
        add_edge(t, t->stump, below(t->stump), lengths[below(4)]);
    } else if (at < t->edges && sort < 6 && !full(t)) { /* a vertex on an edge: a root with two branches, perhaps */
        size_t other = t->edge[at].other;
        t->edge[at].other = t->vertices;
        add_edge(t, other, t->vertices++, chance(30) ? t->edge[at].length : below(3));
        if (chance(20))
            t->edge[at].length = 0;
    } else if (at < t->edges)
        t->edge[at].length = lengths[below(COUNT(lengths))];
}

/* Writing */

static uint8_t *out;

static void put_number(uint64_t number)
{
    if (number != LONG_NUMBER) {
        out += sprintf((char *)out, "%llu", (unsigned long long)number);
        return;
    }
    *out++ = (uint8_t)('1' + below(9));
    for (size_t digits = 7 + below(60); digits > 0; digits--)
        *out++ = (uint8_t)('0' + below(10));
}

/* A vertex reached by an edge (or by none), without that edge's length: its taxa and its other edges in any order. */
static void put_vertex(const free_tree *t, size_t vertex, size_t by)
{
    uint16_t items[64 + FREE_EDGES];
    size_t count = 0;
    for (size_t taxon = 0; taxon < t->n; taxon++)
        if (t->homes[taxon] == vertex)
            items[count++] = (uint16_t)taxon;
    for (size_t i = 0; i < t->edges; i++)
        if (i != by && (t->edge[i].one == vertex || t->edge[i].other == vertex))
            items[count++] = (uint16_t)(64 + i);
    if (count == 1 && items[0] < 64 && by != SIZE_MAX && chance(90)) {
        put_number(t->names[items[0]]);
        return;
    }
    *out++ = '(';
    for (size_t i = 0; i < count; i++) {
        size_t j = i + below(count - i), item = items[j];
        items[j] = items[i];
        if (i > 0)
            *out++ = ',';
        if (item < 64)
            put_number(t->names[item]);
        else {
            const free_edge *edge = &t->edge[item - 64];
            put_vertex(t, edge->one == vertex ? edge->other : edge->one, item - 64);
        }
        *out++ = ':';
        put_number(item < 64 ? 0 : t->edge[item - 64].length);
    }
    *out++ = ')';
}

size_t make_text(const free_tree *t, uint8_t *text)
{
    out = text;
    put_vertex(t, t->stump < t->vertices ? t->stump : below(t->vertices), SIZE_MAX);
    *out++ = ';';
    return (size_t)(out - text);
}

/* Damage */

uint8_t text_byte(void)
{
    static const char some[] = "((()))::,,;;0011223456789 '\"[]._-+eEa\t\r\n\xff";
    return chance(95) ? (uint8_t)some[below(sizeof some)] : (uint8_t)draw();
}

size_t damage_text(uint8_t *text, size_t length)
{
    static const char *const parts[] = {"[note]", "(", ")", ":0", ":1", "0", "1", ",", ";", " ", "00", ".5", "'", "taxon",
                                        "(0:0)", "():1", ",,"};
    for (size_t damages = chance(60) ? 1 : 1 + below(3); damages > 0 && length > 0; damages--) {
        const char *part = parts[below(COUNT(parts))];
        size_t where = below(length), size = strlen(part);
        switch (below(6)) {
        case 0: text[where] = text_byte(); break;
        case 1: memmove(text + where, text + where + 1, --length - where); break;
        case 2: length = where; break;
        case 3: /* two bytes change places */
            if (where > 0) {
                uint8_t kept = text[where];
                text[where] = text[where - 1], text[where - 1] = kept;
            }
            break;
        case 4: length += below(9) * (length < TEXT_ROOM / 2); break; /* whatever stands behind it */
        default:
            if (length < TEXT_ROOM / 2) {
                memmove(text + where + size, text + where, length - where);
                memcpy(text + where, part, size);
                length += size;
            }
        }
    }
    return length;
}

size_t nested_text(size_t depth, uint8_t *text)
{
    out = text;
    for (size_t i = 0; i < depth; i++)
        *out++ = '(';
    out += sprintf((char *)out, "0:0,1:0)");
    for (size_t i = 1; i < depth; i++)
        out += sprintf((char *)out, ":%zu%s)", i == depth / 2 ? (size_t)7 : (size_t)0, i == depth / 2 ? ",2:0" : "");
    *out++ = ';';
    return (size_t)(out - text);
}
