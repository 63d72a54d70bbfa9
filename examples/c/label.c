/*
 * The story's label, U+1004 U+103A U+1039, a Myanmar kinzi at the end of the text, in both modes; then the same label with a class that
 * is in no list, and other calls that are refused; then words, lines and UAX #29's clusters.
 */
#include <stdio.h>

#include "ezherbut.h"

enum { RECORDS = 3 };

static const uint8_t zeros[RECORDS] = {0};
static const uint16_t zeros16[RECORDS] = {0};
static const uint8_t rest[RECORDS] = {EZH_USE_REST, EZH_USE_REST, EZH_USE_REST};
static const uint32_t scalars[RECORDS] = {0x1004, 0x103A, 0x1039};

static ezh_text label(const uint8_t *myanmars) {
    return (ezh_text){
        .records = RECORDS,
        .scalars = scalars,
        .breaks = zeros,
        .uses = rest,
        .myanmars = myanmars,
        .categories = zeros,
        .words = zeros,
        .semojis = zeros,
        .memojis = zeros,
        .cemojis = zeros,
        .pictographs = zeros,
        .selectors = zeros,
        .decomposes = zeros,
        .firsts = zeros16,
        .counts = zeros,
        .parts = 0,
        /* no parts: any pointer that is not null */
        .pscalars = scalars,
        .pbreaks = zeros,
        .puses = zeros,
        .pcategories = zeros,
    };
}

/* Every call from the start to the end, one line for each cluster. */
static void print_clusters(const char *name, uint64_t mode, ezh_text t) {
    uint32_t chars[EZH_CLUSTER_CELLS];
    uint8_t classes[EZH_CLUSTER_CELLS];
    uint16_t records[EZH_CLUSTER_CELLS], noted[EZH_CLUSTER_CELLS];
    uint64_t results[EZH_STEP_CELLS] = {0};
    printf("%s mode:\n", name);
    for (;;) {
        uint64_t refusal = ezh_step(EZH_MYANMAR, mode, results[EZH_STEP_PLACE], EZH_TEXT(t), chars, EZH_CLUSTER_CELLS, classes,
                                    EZH_CLUSTER_CELLS, records, EZH_CLUSTER_CELLS, noted, EZH_CLUSTER_CELLS, results,
                                    EZH_STEP_CELLS);
        if (refusal != 0) {
            printf("  refused %d, side %d, index %d\n", (int)refusal, (int)results[EZH_SIDE], (int)results[EZH_INDEX]);
            return;
        }
        if (results[EZH_STEP_WHAT] != EZH_WHAT_FOUND) {
            return;
        }
        printf("  cluster:");
        for (uint64_t i = 0; i < results[EZH_STEP_CHARACTERS]; i++) {
            printf(" U+%04X class %d", (unsigned)chars[i], classes[i]);
        }
        printf(", passed %d%s\n", (int)results[EZH_STEP_PASSED], results[EZH_STEP_BROKEN] ? ", broken" : "");
    }
}

/* A full run: how many clusters and characters. */
static void print_counts(const char *name, uint64_t mode, ezh_text t) {
    enum { CELLS = 2 * RECORDS };
    uint32_t chars[CELLS];
    uint8_t classes[CELLS];
    uint16_t clusters[CELLS];
    uint64_t results[EZH_RUN_CELLS];
    uint64_t refusal =
        ezh_run(EZH_MYANMAR, mode, EZH_TEXT(t), chars, CELLS, classes, CELLS, clusters, CELLS, results, EZH_RUN_CELLS);
    if (refusal != 0) {
        printf("%s run: refused %d\n", name, (int)refusal);
        return;
    }
    printf("%s run: clusters %d, characters %d\n", name, (int)results[EZH_RUN_CLUSTERS], (int)results[EZH_RUN_CHARACTERS]);
}

/* What is refused before the text is looked at: a parser that is none, and a results column without room, which stays as it is. */
static void print_refusals(ezh_text t) {
    uint64_t results[EZH_CHECK_CELLS] = {7, 7, 7};
    uint64_t refusal = ezh_check(EZH_KHMER + 1, EZH_TEXT(t), results, EZH_CHECK_CELLS);
    printf("parser 4: refused %d, side %d\n", (int)refusal, (int)results[EZH_SIDE]);
    results[EZH_REFUSAL] = 7;
    refusal = ezh_check(EZH_MYANMAR, EZH_TEXT(t), results, EZH_CHECK_CELLS - 1);
    printf("two cells of results: refused %d, first cell %d\n", (int)refusal, (int)results[EZH_REFUSAL]);
}

/* "LF RI RI RI": the RI after a newline is not counted. */
static void print_words(void) {
    const uint8_t words[4] = {EZH_WORD_LF, EZH_WORD_RI, EZH_WORD_RI, EZH_WORD_RI};
    const uint8_t pictographs[4] = {0};
    uint8_t out[4];
    uint64_t results[EZH_CHECK_CELLS];
    if (ezh_run_words(words, 4, pictographs, 4, out, 4, results, EZH_CHECK_CELLS) == 0) {
        printf("words: %d %d %d %d\n", out[0], out[1], out[2], out[3]);
    }
}

/* "a b": a line may be broken before the second letter. Then a strength that is none, and a table that lacks its last cell. */
static void print_lines(void) {
    const uint8_t lines[3] = {EZH_LINE_AL, EZH_LINE_SP, EZH_LINE_AL};
    const uint8_t words[3] = {EZH_WORD_ALETTER, EZH_WORD_WSEGSPACE, EZH_WORD_ALETTER};
    const size_t cells = sizeof EZH_PAIR_TABLE;
    uint8_t out[3];
    uint64_t results[EZH_CHECK_CELLS];
    for (uint64_t strength = EZH_STRENGTH_NORMAL; strength <= EZH_STRENGTH_KEEPALL + 1; strength++) {
        uint64_t refusal =
            ezh_run_lines(strength, EZH_PAIR_TABLE, cells, lines, 3, words, 3, zeros, 3, out, 3, results, EZH_CHECK_CELLS);
        if (refusal != 0) {
            printf("lines, strength %d: refused %d, side %d\n", (int)strength, (int)refusal, (int)results[EZH_SIDE]);
        } else {
            printf("lines, strength %d: %d %d %d\n", (int)strength, out[0], out[1], out[2]);
        }
    }
    uint64_t refusal =
        ezh_run_lines(EZH_STRENGTH_NORMAL, EZH_PAIR_TABLE, cells - 1, lines, 3, words, 3, zeros, 3, out, 3, results, EZH_CHECK_CELLS);
    printf("a table without its last cell: refused %d\n", (int)refusal);
}

/* A flag of two RI, a third RI, a letter with its mark, and two emoji joined by ZWJ, of which the first has a mark: by the engine that goes
 * forward, by the one that looks back, and by steps from the start. Then a mark that is none. */
static void print_graphemes(void) {
    enum { COUNT = 9 };
    const uint8_t breaks[COUNT] = {EZH_BREAK_RI, EZH_BREAK_RI, EZH_BREAK_RI, EZH_BREAK_XX, EZH_BREAK_EX,
                                   EZH_BREAK_XX, EZH_BREAK_EX, EZH_BREAK_ZWJ, EZH_BREAK_XX};
    uint8_t emojis[COUNT] = {0, 0, 0, 0, 0, 1, 0, 0, 1};
    uint8_t out[COUNT];
    uint64_t results[EZH_GRAPHEME_CELLS] = {0, 0, 0, EZH_GRAPHEME_START, 0, 0, 0};
    ezh_run_graphemes(breaks, COUNT, emojis, COUNT, out, COUNT, results, EZH_CHECK_CELLS);
    printf("clusters of UAX #29:");
    for (int i = 0; i < COUNT; i++) {
        printf(" %d", out[i]);
    }
    ezh_run_graphemes_back(breaks, COUNT, emojis, COUNT, out, COUNT, results, EZH_CHECK_CELLS);
    printf("\nlooking back:       ");
    for (int i = 0; i < COUNT; i++) {
        printf(" %d", out[i]);
    }
    printf("\nstep by step:       ");
    for (int i = 0; i < COUNT; i++) {
        ezh_step_grapheme(results[EZH_GRAPHEME_PREVIOUS], results[EZH_GRAPHEME_ODD], results[EZH_GRAPHEME_EXTENDED],
                          results[EZH_GRAPHEME_JOINED], breaks[i], emojis[i], results, EZH_GRAPHEME_CELLS);
        printf(" %d", (int)results[EZH_GRAPHEME_ANSWER]);
    }
    emojis[4] = 2;
    uint64_t refusal = ezh_check_graphemes(breaks, COUNT, emojis, COUNT, results, EZH_CHECK_CELLS);
    printf("\na mark that is none: refused %d, side %d, index %d\n", (int)refusal, (int)results[EZH_SIDE], (int)results[EZH_INDEX]);
}

int main(void) {
    const uint8_t kinzi[RECORDS] = {EZH_MYANMAR_C, EZH_MYANMAR_AS, EZH_MYANMAR_H};
    const uint8_t unlisted[RECORDS] = {EZH_MYANMAR_C, EZH_MYANMAR_AS, EZH_MYANMAR_REST + 1};
    print_clusters("crate", EZH_CRATE, label(kinzi));
    print_clusters("whole", EZH_WHOLE, label(kinzi));
    print_counts("crate", EZH_CRATE, label(kinzi));
    print_counts("whole", EZH_WHOLE, label(kinzi));
    print_clusters("a class outside its list, whole", EZH_WHOLE, label(unlisted));
    print_refusals(label(kinzi));
    print_words();
    print_lines();
    print_graphemes();
    return 0;
}
