/*
 * Classes from Unicode's property files: a few lines of each are read, and a label is looked up. Then lines that are refused, each with its
 * number, and the ranges that are held stay as they were.
 */
#include <stdio.h>
#include <string.h>

#include "ezherbut.h"

enum { CELLS = 4, SCALARS = 4 };

static uint32_t cluster_firsts[CELLS], cluster_lasts[CELLS], word_firsts[CELLS], word_lasts[CELLS];
static uint8_t cluster_codes[CELLS], word_codes[CELLS];
static ezh_ranges clusters = {CELLS, cluster_firsts, cluster_lasts, cluster_codes, 0};
static ezh_ranges words = {CELLS, word_firsts, word_lasts, word_codes, 0};

/* Reads lines into a set, and keeps the number of ranges that it holds then. */
static void read_lines(const char *lines, uint64_t file, ezh_ranges *set) {
    uint64_t results[EZH_READ_CELLS];
    uint64_t refusal =
        ezh_read_properties(file, (const uint8_t *)lines, strlen(lines), EZH_RANGES(*set), results, EZH_READ_CELLS);
    set->held = results[EZH_READ_HELD];
    if (refusal == 0) {
        printf("file %d: %d ranges held\n", (int)file, (int)set->held);
    } else {
        printf("file %d: refused %d, line %d; %d ranges held\n", (int)file, (int)refusal, (int)results[EZH_INDEX], (int)set->held);
    }
}

static void print_ranges(const ezh_ranges *set) {
    for (size_t i = 0; i < set->held; i++) {
        printf("  %04X..%04X code %d\n", (unsigned)set->firsts[i], (unsigned)set->lasts[i], set->codes[i]);
    }
}

static void print_classes(const uint32_t *scalars) {
    uint8_t breaks[SCALARS], classes[SCALARS];
    uint64_t results[EZH_CHECK_CELLS];
    uint64_t refusal = ezh_lookup(scalars, SCALARS, EZH_RANGES(clusters), EZH_RANGES(words), breaks, SCALARS, classes, SCALARS, results,
                                  EZH_CHECK_CELLS);
    if (refusal != 0) {
        printf("lookup: refused %d, side %d, index %d\n", (int)refusal, (int)results[EZH_SIDE], (int)results[EZH_INDEX]);
        return;
    }
    for (int i = 0; i < SCALARS; i++) {
        printf("  %04X: cluster break %d, word class %d\n", (unsigned)scalars[i], breaks[i], classes[i]);
    }
}

int main(void) {
    const uint32_t label[SCALARS] = {0x41, 0x301, 0x1F1E6, 0x20}, surrogate[SCALARS] = {0x41, 0xD800};
    read_lines("# as published\n1F1E6..1F1FF ; Regional_Indicator # E0.0\n0300..036F ; Extend # Mn\n", EZH_FILE_CLUSTER, &clusters);
    read_lines("0041..005A;ALetter\r\n0300..036F;Extend\r\n1F1E6..1F1FF;Regional_Indicator", EZH_FILE_WORD, &words);
    print_ranges(&clusters);
    print_classes(label);
    print_classes(surrogate);
    read_lines("200D;ZWJ\n0600..0605;Prepent\n", EZH_FILE_CLUSTER, &clusters);
    read_lines("200D;ZWJ\n\n0605..0600;Prepend\n", EZH_FILE_CLUSTER, &clusters);
    read_lines("036F..0370;Extend\n", EZH_FILE_CLUSTER, &clusters);
    read_lines("000D;CR\n000A;LF\n200D;ZWJ\n", EZH_FILE_CLUSTER, &clusters);
    read_lines("200D;ZWJ\n", EZH_FILE_WORD + 1, &clusters);
    print_ranges(&clusters);
    return 0;
}
