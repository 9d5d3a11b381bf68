/* What the outside tests compare with: see compare.h. */
#include "compare.h"

#include <stdarg.h>
#include <stdio.h>
#include <stdlib.h>
#include <string.h>

enum { STRETCH = 4 << 20, GUARD = 32, SLICES = 16, PRINTED = 20 };

#define FUNCTION_NAME(name) "splitbox_" #name,
static const char *const names[FUNCTION_COUNT] = {FUNCTIONS(FUNCTION_NAME)};

static uint64_t seed, state;
static uint64_t cases[FUNCTION_COUNT], total, mismatches;
static function current;
static char about[200];

/* The lent stretch as the library sees it, and as it should be afterwards. */
static _Alignas(16) unsigned char stretch[STRETCH], wanted_stretch[STRETCH];
static size_t used;
static struct { const char *name; size_t at, length; } slices[SLICES];
static size_t slice_count;

void seed_draws(uint64_t given) { seed = state = given; }

uint64_t draw(void) /* splitmix64 */
{
    uint64_t z = (state += 0x9E3779B97F4A7C15);
    z = (z ^ z >> 30) * 0xBF58476D1CE4E5B9;
    z = (z ^ z >> 27) * 0x94D049BB133111EB;
    return z ^ z >> 31;
}

size_t below(size_t bound) { return draw() % bound; }

bool chance(unsigned percent) { return below(100) < percent; }

void fill(void *memory, size_t length)
{
    unsigned char *bytes = memory;
    while (length > 0) {
        uint64_t random = draw();
        size_t part = length < sizeof random ? length : sizeof random;
        memcpy(bytes, &random, part);
        bytes += part, length -= part;
    }
}

/* Lengthens the stretch by random bytes. */
static void lengthen(size_t length)
{
    if (used + length > STRETCH) {
        fprintf(stderr, "too much is lent\n");
        abort();
    }
    fill(stretch + used, length);
    memcpy(wanted_stretch + used, stretch + used, length);
    used += length;
}

void begin_case(function called, const char *note, ...)
{
    va_list arguments;
    va_start(arguments, note);
    vsnprintf(about, sizeof about, note, arguments);
    va_end(arguments);
    current = called;
    cases[called]++;
    total++;
    used = slice_count = 0;
    lengthen(GUARD);
}

void *lend(const char *name, size_t size, size_t elements, const void *content)
{
    lengthen(size == 1 ? below(8) : (size - used % size) % size);
    size_t at = used;
    lengthen(size * elements + GUARD);
    if (slice_count == SLICES) {
        fprintf(stderr, "too many slices\n");
        abort();
    }
    slices[slice_count].name = name, slices[slice_count].at = at, slices[slice_count].length = size * elements;
    slice_count++;
    if (content) {
        memcpy(stretch + at, content, size * elements);
        memcpy(wanted_stretch + at, content, size * elements);
    }
    return stretch + at;
}

void want(const void *lent, const void *content, size_t length)
{
    memcpy(wanted_stretch + ((const unsigned char *)lent - stretch), content, length);
}

static void print_reply(const char *title, uint64_t reply)
{
    printf(" %s %u at %zu", title, splitbox_number(reply), splitbox_place(reply));
}

static void print_difference(void)
{
    size_t at = 0, last = 0;
    while (stretch[at] == wanted_stretch[at])
        at++;
    while (last + 1 < slice_count && slices[last + 1].at <= at)
        last++;
    const char *where = at < slices[last].at ? "before" : at < slices[last].at + slices[last].length ? "in" : "behind";
    printf("  %s %s, byte %td: wanted %02x got %02x\n", where, slices[last].name, (ptrdiff_t)(at - slices[last].at),
           wanted_stretch[at], stretch[at]);
}

void end_case(uint64_t wanted, uint64_t got)
{
    bool same = memcmp(stretch, wanted_stretch, used) == 0;
    if (wanted == got && same)
        return;
    if (++mismatches > PRINTED)
        return;
    printf("mismatch: %s, seed %llu, case %llu (%s)\n ", names[current], (unsigned long long)seed, (unsigned long long)total,
           about);
    print_reply("wanted", wanted);
    print_reply("got", got);
    printf("\n");
    if (!same)
        print_difference();
}

void agree(const char *what, bool holds)
{
    if (!holds && ++mismatches <= PRINTED)
        printf("mismatch: the reference against the documents: %s\n", what);
}

int finish(void)
{
    bool all = true;
    for (size_t i = 0; i < FUNCTION_COUNT; i++) {
        printf("%s %llu cases\n", names[i], (unsigned long long)cases[i]);
        all = all && cases[i] > 0;
    }
    if (!all)
        printf("some function was never called\n");
    printf("%llu cases, %llu mismatches\n", (unsigned long long)total, (unsigned long long)mismatches);
    return all && mismatches == 0 ? 0 : 1;
}
