/*
 * Ezherbut from C: proved text segmentation. Link target/native/libexports.a (tools/archive exports writes it).
 *
 * Columns. Every column is a pointer and its count of elements. A pointer is not null, also where the count is 0. A column that is
 * written overlaps no other column of the call. Nothing is kept between two calls.
 *
 * Stack. A call on a label of up to 256 tokens fits in 16 KiB, a call on any text in 256 KiB. Measured on x86-64: 14.2 KB for a label
 * (ezh_step; ezh_run 13.0 KB, simple 1.3), 110 KB for the longest text, of which 96 KiB hold its tokens; the check, the words, the lines
 * and UAX #29's clusters need less than 1 KB, the check of a refused text 1.2 KB. ezh_read_properties needs 148 KB, whatever it is lent, of
 * which 144 KiB hold the ranges of one call; ezh_lookup less than 1 KB. bench/stack measures it anew.
 *
 * A text is 18 columns, in this order in every call. Fourteen with a cell for each record: scalar, cluster break, USE class, Myanmar
 * class, category, word class, then the marks (0 no, 1 yes) emoji for the simple, the Myanmar and the complex parser, pictograph,
 * variation selector, decompose, then first part and count of parts. Four with a cell for each part: scalar, cluster break, USE class,
 * category. The complex parsers see the parts of a record that is marked decompose instead of it; one that has none is no token in crate
 * mode, and stands for itself in whole mode. The codes, and the numbers of parsers, modes, strengths and answers, are in ezherbut_codes.h. A text has at most 4,096
 * records and 4,096 parts.
 *
 * A line table is one column of cells, in rows of 44: one for each line class, and one for the end of the text, which is never asked. A
 * cell is the row that comes next (its value modulo 64), 0x40 where a break is mandatory, 0x80 where one is allowed. EZH_PAIR_TABLE in
 * ezherbut_codes.h is swash's own.
 *
 * UAX #29's clusters are a mode of their own, with calls of their own: the rules GB1 to GB999 of Unicode 15.0 over two columns, cluster break
 * and the simple parser's emoji marks, with no limit of 32 characters. Two engines give the same answers. The calls …_edition take an edition
 * besides, EZH_UNICODE_15_0 or EZH_UNICODE_15_1, and a third column, the conjunct codes (EZH_CONJUNCT_…, Unicode's Indic_Conjunct_Break): 15.1
 * has one rule more, GB9c, by which a conjunct of Devanagari, Bengali, Gujarati, Oriya, Telugu or Malayalam is one cluster. Unicode publishes
 * the codes since 15.1, as InCB in DerivedCoreProperties.txt, which ezh_read_properties does not read.
 *
 * The properties of a text's records can be read from Unicode's own files, GraphemeBreakProperty.txt and WordBreakProperty.txt.
 * ezh_read_properties fills range columns from the lines of one of them, a set of three columns for each file: the first scalar, the last
 * scalar and the code of each range. How many ranges a set holds is handed in and out, 0 at first. The cells of a set are those of its
 * shortest column. ezh_lookup then fills the columns cluster break and word class of a text; a scalar in no range has code 0.
 *
 * Results. Each function returns a refusal, 0 where there is none, and writes numbers to the results column, which comes last: the
 * refusal, its side and its index in the first three cells, then what the function says below. Cells past those keep their content.
 *
 * Refusals, in testing order. With any of them no lent column changes but the results column.
 *
 *   9  the results column has fewer cells than the function writes: the results column is left as it was too
 *   4  side neither: the parser, the mode, the strength or the property file is not of its list
 *  15  the edition is neither of the two
 *   1  a column of the text is longer than 4,096; the lent bytes of a property file are more than 65,536
 *   2  columns of one set differ in length
 *  10  a line table is not whole rows of 44, has fewer than 45 rows, or has a cell that names a row it has not
 *   3  a scalar above 10FFFF or in D800 to DFFF: side and index say where
 *   4  a code or a mark outside its list: side and index say where
 *   5  a count of parts above 3, or first part plus count above the number of parts: index says where
 *   6  complex parsers: U+034F with a USE class that they look for behind the marks CMAbv of a base (CMBlw, SUB, H, FM,
 *      FAbv, FBlw, FPst, and those that begin with M, VA, VB, VP or VM): side and index say where
 *   7  complex parser with Khmer: an unmarked U+17BE, 17BF, 17C0, 17C4 or 17C5 whose parts are not exactly one, U+17C1
 *   8  the place is neither a token nor the end; for words, lines and UAX #29's clusters, a state that is none
 *   9  a column for the answer is too short
 *
 * 3, 4 and 6 are looked for in the parts by rising index, then 3, 4, 5 and 6 in the records by rising index.
 *
 * Refusals of a line of a property file. The side is neither, and the index is the number of the line, from 1 in the bytes lent. The lines
 * are judged in turn, so that the first one that is refused decides, and in it the lowest number.
 *
 *  11  the line is malformed: it is not blank, and neither "0041;VALUE" nor "0041..0043;VALUE", with blanks around the fields and perhaps
 *      a comment after #; or a scalar is above 10FFFF, or the range runs downward
 *  12  the value is no name of that file; names are compared byte by byte
 *  13  the range shares a scalar with one that is held or of an earlier line
 *  14  the range finds no cell; with index 0, of no line: there are fewer cells than ranges are said to be held
 */
#ifndef EZHERBUT_H
#define EZHERBUT_H

#include <stddef.h>
#include <stdint.h>

#include "ezherbut_codes.h"

#ifdef __cplusplus
extern "C" {
#endif

/* The first cells of every results column. */
enum {
    EZH_REFUSAL = 0,
    /* EZH_SIDE_NEITHER, EZH_SIDE_RECORD or EZH_SIDE_PART */
    EZH_SIDE = 1,
    /* of a record or a part from 0; of the line of a property file from 1 */
    EZH_INDEX = 2,
    /* how many cells a check, a run of words, lines or UAX #29's clusters and a lookup write */
    EZH_CHECK_CELLS = 3,
};

/* The further cells of ezh_run's results. */
enum {
    EZH_RUN_CLUSTERS = 3,
    EZH_RUN_CHARACTERS = 4,
    EZH_RUN_CELLS = 5,
};

/* The further cells of ezh_step's results. */
enum {
    /* EZH_WHAT_FOUND a cluster, EZH_WHAT_OVER the end, EZH_WHAT_REFUSED a refusal */
    EZH_STEP_WHAT = 3,
    /* the next place; with a refusal the place that was given */
    EZH_STEP_PLACE = 4,
    /* how many tokens the call passed, the distance between the two places */
    EZH_STEP_PASSED = 5,
    /* how many characters the cluster has, at most EZH_CLUSTER_CELLS */
    EZH_STEP_CHARACTERS = 6,
    /* EZH_EMOJI_NONE, EZH_EMOJI_DEFAULT, EZH_EMOJI_TEXT or EZH_EMOJI_COLOR */
    EZH_STEP_EMOJI = 7,
    /* EZH_SPACE_NONE, EZH_SPACE_NEWLINE, or EZH_SPACE_FROM the scalar in the next cell */
    EZH_STEP_SPACE = 8,
    EZH_STEP_SPACE_SCALAR = 9,
    EZH_STEP_BROKEN = 10,
    EZH_STEP_NORMALISE = 11,
    EZH_STEP_CELLS = 12,
};

/* How many cells each of ezh_step's cluster columns needs. */
enum { EZH_CLUSTER_CELLS = 32 };

/* The further cells of ezh_step_word's results: the state after the record, and whether a word begins at it. */
enum {
    EZH_WORD_FIRST = 3,
    EZH_WORD_PREVIOUS = 4,
    EZH_WORD_PREVENT = 5,
    EZH_WORD_COUNT = 6,
    EZH_WORD_ANSWER = 7,
    EZH_WORD_CELLS = 8,
};

/*
 * The further cells of ezh_step_line's results: the row after the record, and EZH_BOUNDARY_NONE, EZH_BOUNDARY_LINE or
 * EZH_BOUNDARY_MANDATORY before it.
 */
enum {
    EZH_LINE_ROW = 3,
    EZH_LINE_ANSWER = 4,
    EZH_LINE_CELLS = 5,
};

/* The further cells of ezh_step_next's results: the states after the record, and one of EZH_BOUNDARY_… before it. */
enum {
    EZH_NEXT_ROW = 3,
    EZH_NEXT_FIRST = 4,
    EZH_NEXT_PREVIOUS = 5,
    EZH_NEXT_PREVENT = 6,
    EZH_NEXT_COUNT = 7,
    EZH_NEXT_ANSWER = 8,
    EZH_NEXT_CELLS = 9,
};

/* The row in which every text starts. */
enum { EZH_LINE_START = 44 };

/* The further cells of ezh_step_grapheme's results: the state after the record, and whether a cluster starts at it. */
enum {
    EZH_GRAPHEME_PREVIOUS = 3,
    EZH_GRAPHEME_ODD = 4,
    EZH_GRAPHEME_EXTENDED = 5,
    EZH_GRAPHEME_JOINED = 6,
    EZH_GRAPHEME_ANSWER = 7,
    EZH_GRAPHEME_CELLS = 8,
};

/* The class before the first record of a text: none. */
enum { EZH_GRAPHEME_START = 14 };

/* Editions of UAX #29: those of Unicode 15.0 and of Unicode 15.1. */
enum {
    EZH_UNICODE_15_0 = 150,
    EZH_UNICODE_15_1 = 151,
};

/* The further cells of ezh_step_edition's results: the state after the record, and whether a cluster starts at it. */
enum {
    EZH_EDITION_PREVIOUS = 3,
    EZH_EDITION_ODD = 4,
    EZH_EDITION_EXTENDED = 5,
    EZH_EDITION_JOINED = 6,
    EZH_EDITION_BEGUN = 7,
    EZH_EDITION_LINKED = 8,
    EZH_EDITION_ANSWER = 9,
    EZH_EDITION_CELLS = 10,
};

/* The further cells of ezh_read_properties' results. */
enum {
    /* how many ranges are held then; with a refusal the number that was given */
    EZH_READ_HELD = 3,
    EZH_READ_CELLS = 4,
};

/* How many bytes of a property file are lent at most in one call. Both files of Unicode 15.0 have more: they are cut after an LF. */
enum { EZH_PROPERTY_BYTES = 65536 };

/* The parameters of a text, and a text of columns that have one length, written out as these arguments by EZH_TEXT. */
#define EZH_TEXT_PARAMETERS                                                                                                        \
    const uint32_t *scalars, size_t scalars_count, const uint8_t *breaks, size_t breaks_count, const uint8_t *uses,                \
        size_t uses_count, const uint8_t *myanmars, size_t myanmars_count, const uint8_t *categories, size_t categories_count,     \
        const uint8_t *words, size_t words_count, const uint8_t *semojis, size_t semojis_count, const uint8_t *memojis,            \
        size_t memojis_count, const uint8_t *cemojis, size_t cemojis_count, const uint8_t *pictographs, size_t pictographs_count,  \
        const uint8_t *selectors, size_t selectors_count, const uint8_t *decomposes, size_t decomposes_count,                      \
        const uint16_t *firsts, size_t firsts_count, const uint8_t *counts, size_t counts_count, const uint32_t *pscalars,         \
        size_t pscalars_count, const uint8_t *pbreaks, size_t pbreaks_count, const uint8_t *puses, size_t puses_count,             \
        const uint8_t *pcategories, size_t pcategories_count

typedef struct {
    size_t records;
    const uint32_t *scalars;
    const uint8_t *breaks, *uses, *myanmars, *categories, *words;
    const uint8_t *semojis, *memojis, *cemojis, *pictographs, *selectors, *decomposes;
    const uint16_t *firsts;
    const uint8_t *counts;
    size_t parts;
    const uint32_t *pscalars;
    const uint8_t *pbreaks, *puses, *pcategories;
} ezh_text;

#define EZH_TEXT(t)                                                                                                                \
    (t).scalars, (t).records, (t).breaks, (t).records, (t).uses, (t).records, (t).myanmars, (t).records, (t).categories,           \
        (t).records, (t).words, (t).records, (t).semojis, (t).records, (t).memojis, (t).records, (t).cemojis, (t).records,         \
        (t).pictographs, (t).records, (t).selectors, (t).records, (t).decomposes, (t).records, (t).firsts, (t).records,            \
        (t).counts, (t).records, (t).pscalars, (t).parts, (t).pbreaks, (t).parts, (t).puses, (t).parts, (t).pcategories, (t).parts

/* Range columns that have one length, written out as arguments by EZH_RANGES. */
typedef struct {
    size_t cells;
    uint32_t *firsts, *lasts;
    uint8_t *codes;
    size_t held;
} ezh_ranges;

#define EZH_RANGES(r) (r).firsts, (r).cells, (r).lasts, (r).cells, (r).codes, (r).cells, (r).held

/* The check of a text for a parser. Results: EZH_CHECK_CELLS. Refusals: 9 (results), 4 (parser), 1 to 7. */
uint64_t ezh_check(uint64_t parser, EZH_TEXT_PARAMETERS, uint64_t *results, size_t results_count);

/*
 * A full run: for each pushed character its scalar, its shape class and the number of its cluster, from 0, in the first cells of the
 * three columns. Results: EZH_RUN_CELLS; clusters and characters are 0 with a refusal.
 * Refusals: 9 (results), 4 (parser, mode), 1 to 7, and 9 where the shortest of the three columns has fewer than twice as many cells as
 * the text has tokens. Simple and Myanmar have a token for each record, the complex parsers at most three: six cells for each record
 * are always enough. In whole mode every record has a token.
 */
uint64_t ezh_run(uint64_t parser, uint64_t mode, EZH_TEXT_PARAMETERS, uint32_t *oscalars, size_t oscalars_count,
                 uint8_t *oclasses, size_t oclasses_count, uint16_t *oclusters, size_t oclusters_count,
                 uint64_t *results, size_t results_count);

/*
 * One call from a place: 0 is the start, and each call hands back the next place. The cluster's characters stand in the first cells of
 * the four columns: scalar, shape class, record index, and how many tokens are noted directly after the character (variation
 * selectors of an emoji, which are not pushed). Results: EZH_STEP_CELLS. At the end: the end, no character, passed 0.
 * Refusals: 9 (results), 4 (parser, mode), 1 to 8, and 9 where the shortest of the four columns has fewer than EZH_CLUSTER_CELLS
 * cells. With a refusal the place is the one given, passed is 0, and there is no character.
 * Every call judges the whole text anew; a text that is segmented whole is better run by ezh_run.
 */
uint64_t ezh_step(uint64_t parser, uint64_t mode, size_t place, EZH_TEXT_PARAMETERS, uint32_t *cscalars,
                  size_t cscalars_count, uint8_t *cclasses, size_t cclasses_count, uint16_t *crecords,
                  size_t crecords_count, uint16_t *cnoted, size_t cnoted_count, uint64_t *results,
                  size_t results_count);

/* The check of the two columns of a word run: word class and pictograph. Results: EZH_CHECK_CELLS. Refusals: 9 (results), 1, 2, 4. */
uint64_t ezh_check_words(const uint8_t *words, size_t words_count, const uint8_t *pictographs, size_t pictographs_count,
                         uint64_t *results, size_t results_count);

/*
 * A word run: 1 for each record that a word boundary stands before, else 0. Results: EZH_CHECK_CELLS.
 * Refusals: 9 (results), 1, 2, 4, and 9 where out has fewer cells than there are records.
 */
uint64_t ezh_run_words(const uint8_t *words, size_t words_count, const uint8_t *pictographs, size_t pictographs_count, uint8_t *out,
                       size_t out_count, uint64_t *results, size_t results_count);

/*
 * A word step: a state (first and prevent 0 or 1, the class before, a count of 0 to 2), one record's word class and pictograph mark,
 * and the word classes of the records after it, of which only the first is looked at; none where that column is empty. The state
 * before the first record is 1, EZH_WORD_OTHER, 0, 0. Results: EZH_WORD_CELLS.
 * Refusals: 9 (results), 4 (record, index 0) for a class or mark outside its list, 8 for a state that is none. With a refusal the
 * state is the one given and the answer 0.
 */
uint64_t ezh_step_word(uint64_t first, uint64_t previous, uint64_t prevent, uint64_t count, uint64_t word, uint64_t pictograph,
                       const uint8_t *rest, size_t rest_count, uint64_t *results, size_t results_count);

/*
 * A run of lines: for each record what stands before it, EZH_BOUNDARY_MANDATORY where a line must be broken, EZH_BOUNDARY_LINE where it
 * may be, else EZH_BOUNDARY_WORD where a word boundary stands, else EZH_BOUNDARY_NONE. The strength is EZH_STRENGTH_NORMAL,
 * EZH_STRENGTH_BREAKALL (break inside words too) or EZH_STRENGTH_KEEPALL (no break between two of AI, AL, ID, NU, HY, H2, H3, JL, JV, JT, CJ). Results:
 * EZH_CHECK_CELLS.
 * Refusals: 9 (results), 4 (strength), 1 and 2 of the columns lines, words and pictographs, 10, 4 of any of the three by rising index,
 * and 9 where out has fewer cells than there are records.
 */
uint64_t ezh_run_lines(uint64_t strength, const uint8_t *table, size_t table_count, const uint8_t *lines, size_t lines_count,
                       const uint8_t *words, size_t words_count, const uint8_t *pictographs, size_t pictographs_count, uint8_t *out,
                       size_t out_count, uint64_t *results, size_t results_count);

/*
 * A line step: a row, the line classes of the records before this one, of which only the last is looked at and none where that column is
 * empty, and this record's line class. A text starts in row EZH_LINE_START with no class before. Results: EZH_LINE_CELLS.
 * Refusals: 9 (results), 4 (strength), 10, 4 (record, index 0) for a class outside its list, 8 for a row that the table has not or that
 * is above 255, or a class before that is outside its list. With a refusal the row is the one given and the answer 0.
 * Every call judges the whole table anew; a text is better run by ezh_run_lines.
 */
uint64_t ezh_step_line(uint64_t strength, const uint8_t *table, size_t table_count, uint64_t row, const uint8_t *before,
                       size_t before_count, uint64_t line, uint64_t *results, size_t results_count);

/*
 * One step of both machines: a row and the line classes before as ezh_step_line has them, a word state, one record's line class, word
 * class and pictograph mark, and the word classes after it as ezh_step_word has them. Results: EZH_NEXT_CELLS.
 * Refusals: 9 (results), 4 (strength), 10, 4 (record, index 0) for a class or mark outside its list, also of the next record, 8 for a
 * state of either machine that is none. With a refusal the states are those given and the answer 0.
 */
uint64_t ezh_step_next(uint64_t strength, const uint8_t *table, size_t table_count, uint64_t row, const uint8_t *before,
                       size_t before_count, uint64_t first, uint64_t previous, uint64_t prevent, uint64_t count, uint64_t line,
                       uint64_t word, uint64_t pictograph, const uint8_t *rest, size_t rest_count, uint64_t *results,
                       size_t results_count);

/* The check of the two columns of a run over UAX #29's clusters. Results: EZH_CHECK_CELLS. Refusals: 9 (results), 1, 2, 4. */
uint64_t ezh_check_graphemes(const uint8_t *breaks, size_t breaks_count, const uint8_t *semojis, size_t semojis_count,
                             uint64_t *results, size_t results_count);

/*
 * A run over UAX #29's clusters: 1 for each record that a cluster starts at, else 0; the first record starts one. Any record may have the
 * emoji mark: the rules look at characters, not at what a font shows. Results: EZH_CHECK_CELLS.
 * Refusals: 9 (results), 1, 2, 4, and 9 where out has fewer cells than there are records.
 * ezh_run_graphemes goes forward with a small state and looks at each record once; ezh_run_graphemes_back looks back from each record and
 * gives the same answers.
 */
uint64_t ezh_run_graphemes(const uint8_t *breaks, size_t breaks_count, const uint8_t *semojis, size_t semojis_count, uint8_t *out,
                           size_t out_count, uint64_t *results, size_t results_count);
uint64_t ezh_run_graphemes_back(const uint8_t *breaks, size_t breaks_count, const uint8_t *semojis, size_t semojis_count,
                                uint8_t *out, size_t out_count, uint64_t *results, size_t results_count);

/*
 * A step over UAX #29's clusters: a state (the cluster break before, and the marks odd, extended and joined, 0 or 1), and one record's
 * cluster break and emoji mark. The state before the first record is EZH_GRAPHEME_START, 0, 0, 0. Odd: an odd number of RI stand before.
 * Extended: a record with the emoji mark stands before, and only EX behind it. Joined: such a record, EX, then ZWJ.
 * Results: EZH_GRAPHEME_CELLS.
 * Refusals: 9 (results), 4 (record, index 0) for a class or mark outside its list, 8 for a state that no text leads to. With a refusal
 * the state is the one given and the answer 0.
 */
uint64_t ezh_step_grapheme(uint64_t previous, uint64_t odd, uint64_t extended, uint64_t joined, uint64_t cluster_break,
                           uint64_t semoji, uint64_t *results, size_t results_count);

/* The check of the three columns of a run by an edition. Results: EZH_CHECK_CELLS. Refusals: 9 (results), 15, 1, 2, 4. */
uint64_t ezh_check_edition(uint64_t edition, const uint8_t *breaks, size_t breaks_count, const uint8_t *semojis, size_t semojis_count,
                           const uint8_t *conjuncts, size_t conjuncts_count, uint64_t *results, size_t results_count);

/*
 * A run over UAX #29's clusters by an edition: 1 for each record that a cluster starts at, else 0. In 15.0 the answers are those of
 * ezh_run_graphemes, whatever codes of the list there are, and so they are in 15.1 where every code is EZH_CONJUNCT_NONE. Else 15.1 takes starts
 * away: behind a consonant, then linkers and extenders in any order with at least one linker, a consonant starts no cluster, unless it or the
 * record before it is CN, CR or LF. Results: EZH_CHECK_CELLS.
 * Refusals: 9 (results), 15, 1, 2, 4 of any of the three by rising index, in both editions, and 9 where out has fewer cells than there are
 * records.
 * ezh_run_edition goes forward; ezh_run_edition_back looks back from each record and gives the same answers.
 */
uint64_t ezh_run_edition(uint64_t edition, const uint8_t *breaks, size_t breaks_count, const uint8_t *semojis, size_t semojis_count,
                         const uint8_t *conjuncts, size_t conjuncts_count, uint8_t *out, size_t out_count, uint64_t *results,
                         size_t results_count);
uint64_t ezh_run_edition_back(uint64_t edition, const uint8_t *breaks, size_t breaks_count, const uint8_t *semojis,
                              size_t semojis_count, const uint8_t *conjuncts, size_t conjuncts_count, uint8_t *out, size_t out_count,
                              uint64_t *results, size_t results_count);

/*
 * A step over UAX #29's clusters by an edition: a state as ezh_step_grapheme has it and two marks more, and one record's cluster break, emoji
 * mark and conjunct code. The state before the first record is EZH_GRAPHEME_START, 0, 0, 0, 0, 0. Begun: a consonant stands before, and only
 * linkers and extenders behind it. Linked: a linker is among these. Both are kept in either edition. Results: EZH_EDITION_CELLS.
 * Refusals: 9 (results), 15, 4 (record, index 0) for a class, mark or code outside its list, 8 for a state that no text leads to. With a
 * refusal the state is the one given and the answer 0.
 */
uint64_t ezh_step_edition(uint64_t edition, uint64_t previous, uint64_t odd, uint64_t extended, uint64_t joined, uint64_t begun,
                          uint64_t linked, uint64_t cluster_break, uint64_t semoji, uint64_t conjunct, uint64_t *results,
                          size_t results_count);

/*
 * The ranges of the lines of a property file, EZH_FILE_CLUSTER or EZH_FILE_WORD, put into range columns of which the first `held` cells
 * are ranges already. Afterwards all of them stand in the order of their scalars. The bytes are at most EZH_PROPERTY_BYTES; a longer file
 * is lent in pieces that are cut after an LF, each with the number that the call before has told. A cut inside a line cannot be seen. The
 * last line needs no LF, and a CR before an LF is a part of the line's end. Results: EZH_READ_CELLS.
 * Refusals: 9 (results), 4 (file), 1, 14 with index 0, then line by line 11, 12, 13, 14. With a refusal of any line nothing of the other
 * lines is read either.
 */
uint64_t ezh_read_properties(uint64_t file, const uint8_t *bytes, size_t bytes_count, uint32_t *firsts, size_t firsts_count,
                             uint32_t *lasts, size_t lasts_count, uint8_t *codes, size_t codes_count, size_t held,
                             uint64_t *results, size_t results_count);

/*
 * The lookup: the cluster break and the word class of each scalar of a text, in the first cells of two columns, from the ranges of both
 * files. Of ranges that share a scalar, which no call of the reader leaves, the first in the columns decides; a scalar in no range is
 * EZH_BREAK_XX and EZH_WORD_OTHER. A text of any length is looked up. Results: EZH_CHECK_CELLS.
 * Refusals: 9 (results), 3 (record) by rising index, and 9 where breaks or words has fewer cells than there are scalars.
 */
uint64_t ezh_lookup(const uint32_t *scalars, size_t scalars_count, const uint32_t *cluster_firsts, size_t cluster_firsts_count,
                    const uint32_t *cluster_lasts, size_t cluster_lasts_count, const uint8_t *cluster_codes, size_t cluster_codes_count,
                    size_t cluster_held, const uint32_t *word_firsts, size_t word_firsts_count, const uint32_t *word_lasts,
                    size_t word_lasts_count, const uint8_t *word_codes, size_t word_codes_count, size_t word_held, uint8_t *breaks,
                    size_t breaks_count, uint8_t *words, size_t words_count, uint64_t *results, size_t results_count);

#ifdef __cplusplus
}
#endif

#endif
