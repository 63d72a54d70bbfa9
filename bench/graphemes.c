/*
 * graphemes FOLDER-OF-TEXTS ROUNDS: the proved run over UAX #29's clusters beside libunistring's u32_grapheme_breaks and ICU's iterator over
 * characters, over the same texts. A line for each text, size and side: nanoseconds a record, ours and theirs, and the ratio. Before anything
 * is timed the answers are compared.
 */
#include <stdint.h>
#include <stdio.h>
#include <stdlib.h>
#include <string.h>
#include <time.h>

#ifdef WITH_UNISTRING
#include <unigbrk.h>
#include <unistring/version.h>
#endif
#ifdef WITH_ICU
#include <unicode/ubrk.h>
#endif

#include "ezherbut.h"

enum { LONGEST = 4096, RECORDS_A_ROUND = 1 << 17 };

static const char *const names[] = {"english", "emoji", "myanmar", "hindi", "khmer"};
static const size_t sizes[] = {16, 256, LONGEST};

/* A text's records over and over to a size, and where each begins in UTF-16. */
typedef struct {
    size_t size;
    uint32_t scalars[LONGEST];
    uint8_t breaks[LONGEST], marks[LONGEST];
    uint16_t units[2 * LONGEST];
    size_t unit_of[LONGEST], unit_count;
    char answers[2 * LONGEST];
} sample;

static void fail(const char *what, const char *which)
{
    fprintf(stderr, "graphemes: %s: %s\n", what, which);
    exit(2);
}

/* The records of a line of the case layout: the scalar, the cluster break and the simple parser's emoji mark, fields 0, 1 and 6 of 14. */
static size_t read_records(const char *folder, const char *name, sample *s)
{
    static char line[1 << 16];
    char path[4096];
    snprintf(path, sizeof path, "%s/%s.txt", folder, name);
    FILE *file = fopen(path, "r");
    if (!file || !fgets(line, sizeof line, file))
        fail("cannot read", path);
    fclose(file);
    const char *at = line;
    for (int part = 0; part < 4; part++)
        at = strchr(at, ';') + 1;
    size_t count = 0;
    do {
        unsigned scalar, class, mark;
        if (count == LONGEST || sscanf(at, "%x,%u,%*u,%*u,%*u,%*u,%u", &scalar, &class, &mark) != 3)
            fail("not of the layout", path);
        s->scalars[count] = scalar;
        s->breaks[count] = class;
        s->marks[count++] = mark;
        at += strcspn(at, " ;");
    } while (*at++ == ' ');
    return count;
}

static void make(const char *folder, const char *name, size_t size, sample *s)
{
    size_t count = read_records(folder, name, s);
    s->size = size;
    s->unit_count = 0;
    for (size_t i = 0; i < size; i++) {
        uint32_t scalar = s->scalars[i] = s->scalars[i % count];
        s->breaks[i] = s->breaks[i % count];
        s->marks[i] = s->marks[i % count];
        s->unit_of[i] = s->unit_count;
        if (scalar >= 0x10000) {
            s->units[s->unit_count++] = 0xD7C0 + (scalar >> 10);
            scalar = 0xDC00 + (scalar & 0x3FF);
        }
        s->units[s->unit_count++] = scalar;
    }
}

static void by_forward(sample *s)
{
    uint64_t results[EZH_CHECK_CELLS];
    ezh_run_graphemes(s->breaks, s->size, s->marks, s->size, (uint8_t *)s->answers, sizeof s->answers, results, EZH_CHECK_CELLS);
}

static void by_back(sample *s)
{
    uint64_t results[EZH_CHECK_CELLS];
    ezh_run_graphemes_back(s->breaks, s->size, s->marks, s->size, (uint8_t *)s->answers, sizeof s->answers, results, EZH_CHECK_CELLS);
}

#ifdef WITH_UNISTRING
static void by_unistring(sample *s)
{
    u32_grapheme_breaks(s->scalars, s->size, s->answers);
}
#endif

#ifdef WITH_ICU
static UBreakIterator *iterator;

/* An answer for each unit, of which those of the records are looked at. */
static void by_icu(sample *s)
{
    UErrorCode status = U_ZERO_ERROR;
    ubrk_setText(iterator, (const UChar *)s->units, (int32_t)s->unit_count, &status);
    memset(s->answers, 0, s->unit_count);
    for (int32_t at = ubrk_first(iterator); at < (int32_t)s->unit_count; at = ubrk_next(iterator))
        s->answers[at] = 1;
}
#endif

typedef struct {
    const char *name;
    void (*run)(sample *);
    int by_units;
    double least;
} side;

static side sides[] = {
    {"forward", by_forward, 0, 0},
    {"looking back", by_back, 0, 0},
#ifdef WITH_UNISTRING
    {"libunistring", by_unistring, 0, 0},
#endif
#ifdef WITH_ICU
    {"ICU", by_icu, 1, 0},
#endif
};
enum { SIDES = sizeof sides / sizeof *sides };

/* How many records a side answers otherwise than the forward engine. */
static size_t differences(side *other, sample *s)
{
    char ours[LONGEST];
    size_t count = 0;
    by_forward(s);
    memcpy(ours, s->answers, s->size);
    other->run(s);
    for (size_t i = 0; i < s->size; i++)
        count += ours[i] != s->answers[other->by_units ? s->unit_of[i] : i];
    return count;
}

static double nanoseconds(side *one, sample *s)
{
    struct timespec from, to;
    size_t times = RECORDS_A_ROUND / s->size;
    clock_gettime(CLOCK_MONOTONIC, &from);
    for (size_t i = 0; i < times; i++) {
        one->run(s);
        __asm__ volatile("" : : "r"(s) : "memory");
    }
    clock_gettime(CLOCK_MONOTONIC, &to);
    return ((to.tv_sec - from.tv_sec) * 1e9 + (to.tv_nsec - from.tv_nsec)) / (double)(times * s->size);
}

static void compare(const char *name, sample *s, int rounds)
{
    for (int i = 0; i < SIDES; i++)
        sides[i].least = 1e9;
    for (int round = 0; round < rounds; round++)
        for (int i = 0; i < SIDES; i++) {
            double took = nanoseconds(&sides[i], s);
            if (took < sides[i].least)
                sides[i].least = took;
        }
    printf("%s %zu forward %.2f ns", name, s->size, sides[0].least);
    for (int i = 1; i < SIDES; i++)
        printf("; %s %.2f: %.3f, %zu differ", sides[i].name, sides[i].least, sides[0].least / sides[i].least, differences(&sides[i], s));
    printf("\n");
    fflush(stdout);
}

int main(int argc, char **argv)
{
    static sample s;
    if (argc != 3)
        fail("usage", "graphemes FOLDER-OF-TEXTS ROUNDS");
#ifdef WITH_UNISTRING
    printf("libunistring %d.%d\n", _libunistring_version >> 16, _libunistring_version >> 8 & 0xFF);
#endif
#ifdef WITH_ICU
    UErrorCode status = U_ZERO_ERROR;
    iterator = ubrk_open(UBRK_CHARACTER, "en", NULL, 0, &status);
    if (U_FAILURE(status))
        fail("ICU", u_errorName(status));
    printf("ICU %s, Unicode %s\n", U_ICU_VERSION, U_UNICODE_VERSION);
#endif
    for (size_t i = 0; i < sizeof names / sizeof *names; i++)
        for (size_t j = 0; j < sizeof sizes / sizeof *sizes; j++) {
            make(argv[1], names[i], sizes[j], &s);
            compare(names[i], &s, atoi(argv[2]));
        }
#ifdef WITH_ICU
    ubrk_close(iterator);
#endif
    return 0;
}
