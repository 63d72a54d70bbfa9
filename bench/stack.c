/*
 * Bytes of stack that each call takes, for bench/stack. A call is made in a thread whose stack is painted; afterwards the paint is gone as
 * far down as the call came. What is counted begins at the frame of the C function that calls, so that the arguments are counted too.
 */
#include <pthread.h>
#include <stdio.h>
#include <stdlib.h>
#include <string.h>
#include <sys/mman.h>

#include "ezherbut.h"

enum { MOST = 4096, CELLS = 6 * MOST, STACK = 256 * 1024, PAINT = 0xA5, STEPS = 64 };

/* A record of a pattern: scalar, cluster break, USE class, Myanmar class, emoji. */
typedef struct {
    uint32_t scalar;
    uint8_t brk, use, myanmar, emoji;
} kind;

#define LETTER {0x61, EZH_BREAK_XX, EZH_USE_B, EZH_MYANMAR_C, 0}
#define JOINER {0x34F, EZH_BREAK_EX, EZH_USE_O, EZH_MYANMAR_O, 0}
#define VS16 {0xFE0F, EZH_BREAK_EX, EZH_USE_VS, EZH_MYANMAR_VS, 0}
#define COMPLEX(class) {0x61, EZH_BREAK_XX, EZH_USE_##class, EZH_MYANMAR_REST, 0}
#define MYANMAR(class) {0x61, EZH_BREAK_XX, EZH_USE_REST, EZH_MYANMAR_##class, 0}

/* Texts that go every way, as the binding's test has them. The third kind is of no real class, so that a full run goes by the calls. */
static const kind joined[] = {LETTER, JOINER, JOINER, JOINER, JOINER, JOINER, JOINER, JOINER, JOINER, JOINER, JOINER, JOINER,
                              JOINER, JOINER, JOINER, JOINER, JOINER, JOINER, JOINER, JOINER, JOINER, JOINER, JOINER, JOINER,
                              JOINER, JOINER, JOINER, JOINER, JOINER, JOINER, JOINER, JOINER, JOINER};
static const kind emoji[] = {{0x1F600, EZH_BREAK_XX, EZH_USE_O, EZH_MYANMAR_O, 1}, VS16, JOINER, JOINER};
static const kind odd[] = {{0x1F600, EZH_BREAK_XX, EZH_USE_B, EZH_MYANMAR_C, 1}, VS16, JOINER, JOINER};
static const kind numbers[] = {COMPLEX(N), COMPLEX(VS), COMPLEX(HN), COMPLEX(N), COMPLEX(VS)};
static const kind syllable[] = {COMPLEX(B),     COMPLEX(VS),   COMPLEX(CMABV), COMPLEX(CMBLW), COMPLEX(H),    COMPLEX(B),
                                COMPLEX(VS),    COMPLEX(CMABV), COMPLEX(SUB),  COMPLEX(CMBLW), COMPLEX(MPRE), COMPLEX(MBLW),
                                COMPLEX(VPRE),  COMPLEX(VABV), COMPLEX(VMPRE), COMPLEX(VMPST), COMPLEX(FABV), COMPLEX(FM)};
static const kind myanmar[] = {MYANMAR(C),  MYANMAR(VS), MYANMAR(H),    MYANMAR(C),  MYANMAR(AS), MYANMAR(MY), MYANMAR(AS), MYANMAR(MW),
                               MYANMAR(MH), MYANMAR(VPRE), MYANMAR(A),  MYANMAR(DB), MYANMAR(VPST), MYANMAR(MH), MYANMAR(AS),
                               MYANMAR(VABV), MYANMAR(A), MYANMAR(DB),  MYANMAR(PT), MYANMAR(A),  MYANMAR(DB), MYANMAR(AS), MYANMAR(V),
                               MYANMAR(J)};
static const kind kinzi[] = {{0x1004, EZH_BREAK_XX, EZH_USE_REST, EZH_MYANMAR_C, 0},
                             {0x103A, EZH_BREAK_XX, EZH_USE_REST, EZH_MYANMAR_AS, 0},
                             {0x1039, EZH_BREAK_XX, EZH_USE_REST, EZH_MYANMAR_H, 0}};
static const kind letter[] = {LETTER};
static const kind sign[] = {{0x17BE, EZH_BREAK_XX, EZH_USE_VABV, EZH_MYANMAR_REST, 0}};

/* A pattern, and the decompose mark and the count of parts of each record: the parts are three that all share. */
static const struct {
    const kind *kinds;
    size_t count;
    uint8_t decompose, parts, tokens;
} patterns[] = {
#define PATTERN(kinds, decompose, parts, tokens) {kinds, sizeof kinds / sizeof *kinds, decompose, parts, tokens}
    PATTERN(letter, 0, 0, 1),   PATTERN(joined, 0, 0, 1),  PATTERN(emoji, 0, 0, 1), PATTERN(odd, 0, 0, 1),
    PATTERN(numbers, 0, 0, 1),  PATTERN(syllable, 0, 0, 1), PATTERN(myanmar, 0, 0, 1), PATTERN(kinzi, 0, 0, 1),
    PATTERN(letter, 1, 0, 1),   PATTERN(letter, 1, 3, 3),  PATTERN(sign, 0, 1, 2),
};

static uint32_t scalars[MOST];
static uint8_t breaks[MOST], uses[MOST], myanmars[MOST], emojis[MOST], zeros[MOST], decomposes[MOST], counts[MOST], conjuncts[MOST];
static uint16_t firsts[MOST];
static const uint32_t pscalars[] = {0x17C1, 0x17C1, 0x17C1};
static const uint8_t pbreaks[] = {0, 0, 0}, puses[] = {EZH_USE_VPRE, EZH_USE_VPRE, EZH_USE_VPRE};

static ezh_text text = {0,         scalars, breaks, uses,  myanmars, zeros,   zeros,   emojis, emojis,  emojis,
                        emojis,    zeros,   decomposes, firsts, counts, 3,    pscalars, pbreaks, puses, pbreaks};

static void lend(size_t pattern, size_t tokens) {
    text.records = tokens / patterns[pattern].tokens < MOST ? tokens / patterns[pattern].tokens : MOST;
    for (size_t i = 0; i < text.records; i++) {
        kind k = patterns[pattern].kinds[i % patterns[pattern].count];
        scalars[i] = k.scalar;
        breaks[i] = k.brk;
        uses[i] = k.use;
        myanmars[i] = k.myanmar;
        emojis[i] = k.emoji;
        decomposes[i] = patterns[pattern].decompose;
        counts[i] = patterns[pattern].parts;
        conjuncts[i] = i % 2 ? EZH_CONJUNCT_LINKER : EZH_CONJUNCT_CONSONANT;
    }
}

/* A line of a property file for each record, all of one length. */
enum { LINE = sizeof "010000;L\n" - 1 };
static char lines[MOST * LINE + 1];

static void write_lines(void) {
    for (unsigned i = 0; i < MOST; i++) {
        sprintf(lines + i * LINE, "%06X;L\n", 0x10000 + i);
    }
}

/* The call under way, and what it writes. */
enum { CHECK, RUN, STEP, CHECK_WORDS, RUN_WORDS, STEP_WORD, RUN_LINES, STEP_LINE, STEP_NEXT, CHECK_GRAPHEMES, RUN_GRAPHEMES, RUN_GRAPHEMES_BACK,
       STEP_GRAPHEME, CHECK_EDITION, RUN_EDITION, RUN_EDITION_BACK, STEP_EDITION, READ, LOOKUP, CALLS };
static const char *names[] = {"ezh_check",     "ezh_run",       "ezh_step",      "ezh_check_words",     "ezh_run_words", "ezh_step_word",
                              "ezh_run_lines", "ezh_step_line", "ezh_step_next", "ezh_check_graphemes", "ezh_run_graphemes",
                              "ezh_run_graphemes_back", "ezh_step_grapheme", "ezh_check_edition", "ezh_run_edition", "ezh_run_edition_back",
                              "ezh_step_edition", "ezh_read_properties", "ezh_lookup"};
static int call;
static uint64_t parser, mode, strength, results[EZH_STEP_CELLS];
static size_t place;
static uint32_t out_scalars[CELLS], out_lasts[CELLS];
static uint8_t out_classes[CELLS], out_words[CELLS];
static uint16_t out_numbers[CELLS], out_noted[EZH_CLUSTER_CELLS];
static ezh_ranges ranges = {CELLS, out_scalars, out_lasts, out_classes, 0};
static unsigned char *stack, *frame;

#define TABLE EZH_PAIR_TABLE, sizeof EZH_PAIR_TABLE
/* the edition that does more, and its columns */
#define EDITION EZH_UNICODE_15_1, breaks, text.records, emojis, text.records, conjuncts, text.records

static void *made(void *none) {
    frame = __builtin_frame_address(0);
    switch (call) {
    case CHECK:
        ezh_check(parser, EZH_TEXT(text), results, EZH_STEP_CELLS);
        break;
    case RUN:
        ezh_run(parser, mode, EZH_TEXT(text), out_scalars, CELLS, out_classes, CELLS, out_numbers, CELLS, results, EZH_STEP_CELLS);
        break;
    case STEP:
        ezh_step(parser, mode, place, EZH_TEXT(text), out_scalars, CELLS, out_classes, CELLS, out_numbers, CELLS, out_noted,
                 EZH_CLUSTER_CELLS, results, EZH_STEP_CELLS);
        break;
    case CHECK_WORDS:
        ezh_check_words(zeros, text.records, emojis, text.records, results, EZH_STEP_CELLS);
        break;
    case RUN_WORDS:
        ezh_run_words(zeros, text.records, emojis, text.records, out_classes, CELLS, results, EZH_STEP_CELLS);
        break;
    case STEP_WORD:
        ezh_step_word(1, EZH_WORD_OTHER, 0, 0, zeros[0], emojis[0], zeros, text.records, results, EZH_STEP_CELLS);
        break;
    case RUN_LINES:
        ezh_run_lines(strength, TABLE, zeros, text.records, zeros, text.records, emojis, text.records, out_classes, CELLS, results,
                      EZH_STEP_CELLS);
        break;
    case STEP_LINE:
        ezh_step_line(strength, TABLE, EZH_LINE_START, zeros, text.records, zeros[0], results, EZH_STEP_CELLS);
        break;
    case STEP_NEXT:
        ezh_step_next(strength, TABLE, EZH_LINE_START, zeros, text.records, 1, EZH_WORD_OTHER, 0, 0, zeros[0], zeros[0], emojis[0], zeros,
                      text.records, results, EZH_STEP_CELLS);
        break;
    case CHECK_GRAPHEMES:
        ezh_check_graphemes(zeros, text.records, emojis, text.records, results, EZH_STEP_CELLS);
        break;
    case RUN_GRAPHEMES:
        ezh_run_graphemes(zeros, text.records, emojis, text.records, out_classes, CELLS, results, EZH_STEP_CELLS);
        break;
    case RUN_GRAPHEMES_BACK:
        ezh_run_graphemes_back(zeros, text.records, emojis, text.records, out_classes, CELLS, results, EZH_STEP_CELLS);
        break;
    case STEP_GRAPHEME:
        ezh_step_grapheme(EZH_GRAPHEME_START, 0, 0, 0, zeros[0], emojis[0], results, EZH_STEP_CELLS);
        break;
    case CHECK_EDITION:
        ezh_check_edition(EDITION, results, EZH_STEP_CELLS);
        break;
    case RUN_EDITION:
        ezh_run_edition(EDITION, out_classes, CELLS, results, EZH_STEP_CELLS);
        break;
    case RUN_EDITION_BACK:
        ezh_run_edition_back(EDITION, out_classes, CELLS, results, EZH_STEP_CELLS);
        break;
    case STEP_EDITION:
        ezh_step_edition(EZH_UNICODE_15_1, EZH_GRAPHEME_START, 0, 0, 0, 0, 0, zeros[0], emojis[0], conjuncts[0], results, EZH_STEP_CELLS);
        break;
    case READ:
        ezh_read_properties(EZH_FILE_CLUSTER, (const uint8_t *)lines, text.records * LINE, EZH_RANGES(ranges), results, EZH_STEP_CELLS);
        break;
    default:
        ezh_lookup(scalars, text.records, EZH_RANGES(ranges), EZH_RANGES(ranges), out_words, MOST, out_words + MOST, MOST, results,
                   EZH_STEP_CELLS);
    }
    return none;
}

static size_t measured(void) {
    pthread_attr_t attributes;
    pthread_t thread;
    memset(stack, PAINT, STACK);
    if (pthread_attr_init(&attributes) || pthread_attr_setstack(&attributes, stack, STACK) ||
        pthread_create(&thread, &attributes, made, NULL) || pthread_join(thread, NULL) || results[EZH_REFUSAL] != 0) {
        fprintf(stderr, "stack: %s failed or was refused\n", names[call]);
        exit(1);
    }
    pthread_attr_destroy(&attributes);
    unsigned char *low = stack;
    while (*low == PAINT) {
        low++;
    }
    return (size_t)(frame - low);
}

static void at_least(size_t *most, size_t bytes) {
    if (*most < bytes) {
        *most = bytes;
    }
}

/*
 * The most that a call takes, over the texts, the modes, the strengths of a call over lines, and the places of a stepping call, of which
 * a long text has the first few.
 */
static size_t most(size_t tokens) {
    size_t bytes = 0;
    for (size_t pattern = 0; pattern < sizeof patterns / sizeof *patterns; pattern++) {
        lend(pattern, tokens);
        for (mode = EZH_CRATE; mode <= EZH_WHOLE; mode++) {
            for (strength = EZH_STRENGTH_NORMAL; call >= RUN_LINES && call <= STEP_NEXT && strength < EZH_STRENGTH_KEEPALL; strength++) {
                at_least(&bytes, measured());
            }
            place = 0;
            for (int steps = 0; steps < STEPS; steps++) {
                at_least(&bytes, measured());
                if (call != STEP || results[EZH_STEP_WHAT] != 0) {
                    break;
                }
                place = results[EZH_STEP_PLACE];
            }
        }
    }
    return bytes;
}

int main(void) {
    static const char *parsers[] = {"simple", "Myanmar", "complex", "Khmer"};
    stack = mmap(NULL, STACK, PROT_READ | PROT_WRITE, MAP_PRIVATE | MAP_ANONYMOUS, -1, 0);
    if (stack == MAP_FAILED) {
        return 1;
    }
    write_lines();
    printf("%-22s %-8s %10s %10s\n", "call", "parser", "a label", "any text");
    for (call = CHECK; call < CALLS; call++) {
        for (parser = EZH_SIMPLE; parser <= EZH_KHMER; parser++) {
            size_t label = most(256), any = most(3 * MOST);
            if (call < CHECK_WORDS || parser == EZH_SIMPLE) {
                printf("%-22s %-8s %10zu %10zu\n", names[call], call < CHECK_WORDS ? parsers[parser] : "", label, any);
            }
        }
    }
    return 0;
}
