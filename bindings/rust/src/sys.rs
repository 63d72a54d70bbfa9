//! The functions of the static library, as include/ezherbut.h has them.

/// A check of classes and marks.
pub(crate) type MarkedCheck = unsafe extern "C" fn(*const u8, usize, *const u8, usize, *mut u64, usize) -> u64;

/// A run over classes and marks: of words, or of an engine of UAX #29's clusters.
pub(crate) type MarkedRun = unsafe extern "C" fn(*const u8, usize, *const u8, usize, *mut u8, usize, *mut u64, usize) -> u64;

/// An engine of UAX #29's clusters by an edition.
pub(crate) type EditionRun =
    unsafe extern "C" fn(u64, *const u8, usize, *const u8, usize, *const u8, usize, *mut u8, usize, *mut u64, usize) -> u64;

/// Declares functions that take a text: its 18 columns, each as a pointer and a count, after the parameters before the semicolon.
macro_rules! over_a_text {
    ($(fn $name:ident($($before:ident: $before_type:ty),*; $($after:ident: $after_type:ty),*);)*) => {
        extern "C" {
            $(pub(crate) fn $name(
                $($before: $before_type,)*
                scalars: *const u32, scalars_count: usize,
                breaks: *const u8, breaks_count: usize,
                uses: *const u8, uses_count: usize,
                myanmars: *const u8, myanmars_count: usize,
                categories: *const u8, categories_count: usize,
                words: *const u8, words_count: usize,
                semojis: *const u8, semojis_count: usize,
                memojis: *const u8, memojis_count: usize,
                cemojis: *const u8, cemojis_count: usize,
                pictographs: *const u8, pictographs_count: usize,
                selectors: *const u8, selectors_count: usize,
                decomposes: *const u8, decomposes_count: usize,
                firsts: *const u16, firsts_count: usize,
                counts: *const u8, counts_count: usize,
                pscalars: *const u32, pscalars_count: usize,
                pbreaks: *const u8, pbreaks_count: usize,
                puses: *const u8, puses_count: usize,
                pcategories: *const u8, pcategories_count: usize,
                $($after: $after_type,)*
            ) -> u64;)*
        }
    };
}

over_a_text! {
    fn ezh_check(parser: u64; results: *mut u64, results_count: usize);
    fn ezh_run(parser: u64, mode: u64;
        oscalars: *mut u32, oscalars_count: usize,
        oclasses: *mut u8, oclasses_count: usize,
        oclusters: *mut u16, oclusters_count: usize,
        results: *mut u64, results_count: usize);
    fn ezh_step(parser: u64, mode: u64, place: usize;
        cscalars: *mut u32, cscalars_count: usize,
        cclasses: *mut u8, cclasses_count: usize,
        crecords: *mut u16, crecords_count: usize,
        cnoted: *mut u16, cnoted_count: usize,
        results: *mut u64, results_count: usize);
}

extern "C" {
    pub(crate) fn ezh_check_words(
        words: *const u8,
        words_count: usize,
        pictographs: *const u8,
        pictographs_count: usize,
        results: *mut u64,
        results_count: usize,
    ) -> u64;
    pub(crate) fn ezh_run_words(
        words: *const u8,
        words_count: usize,
        pictographs: *const u8,
        pictographs_count: usize,
        out: *mut u8,
        out_count: usize,
        results: *mut u64,
        results_count: usize,
    ) -> u64;
    pub(crate) fn ezh_step_word(
        first: u64,
        previous: u64,
        prevent: u64,
        count: u64,
        word: u64,
        pictograph: u64,
        rest: *const u8,
        rest_count: usize,
        results: *mut u64,
        results_count: usize,
    ) -> u64;
    pub(crate) fn ezh_run_lines(
        strength: u64,
        table: *const u8,
        table_count: usize,
        lines: *const u8,
        lines_count: usize,
        words: *const u8,
        words_count: usize,
        pictographs: *const u8,
        pictographs_count: usize,
        out: *mut u8,
        out_count: usize,
        results: *mut u64,
        results_count: usize,
    ) -> u64;
    pub(crate) fn ezh_step_line(
        strength: u64,
        table: *const u8,
        table_count: usize,
        row: u64,
        before: *const u8,
        before_count: usize,
        line: u64,
        results: *mut u64,
        results_count: usize,
    ) -> u64;
    pub(crate) fn ezh_step_next(
        strength: u64,
        table: *const u8,
        table_count: usize,
        row: u64,
        before: *const u8,
        before_count: usize,
        first: u64,
        previous: u64,
        prevent: u64,
        count: u64,
        line: u64,
        word: u64,
        pictograph: u64,
        rest: *const u8,
        rest_count: usize,
        results: *mut u64,
        results_count: usize,
    ) -> u64;
    pub(crate) fn ezh_check_graphemes(
        breaks: *const u8,
        breaks_count: usize,
        semojis: *const u8,
        semojis_count: usize,
        results: *mut u64,
        results_count: usize,
    ) -> u64;
    pub(crate) fn ezh_run_graphemes(
        breaks: *const u8,
        breaks_count: usize,
        semojis: *const u8,
        semojis_count: usize,
        out: *mut u8,
        out_count: usize,
        results: *mut u64,
        results_count: usize,
    ) -> u64;
    pub(crate) fn ezh_run_graphemes_back(
        breaks: *const u8,
        breaks_count: usize,
        semojis: *const u8,
        semojis_count: usize,
        out: *mut u8,
        out_count: usize,
        results: *mut u64,
        results_count: usize,
    ) -> u64;
    pub(crate) fn ezh_step_grapheme(
        previous: u64,
        odd: u64,
        extended: u64,
        joined: u64,
        cluster_break: u64,
        semoji: u64,
        results: *mut u64,
        results_count: usize,
    ) -> u64;
    pub(crate) fn ezh_check_edition(
        edition: u64,
        breaks: *const u8,
        breaks_count: usize,
        semojis: *const u8,
        semojis_count: usize,
        conjuncts: *const u8,
        conjuncts_count: usize,
        results: *mut u64,
        results_count: usize,
    ) -> u64;
    pub(crate) fn ezh_run_edition(
        edition: u64,
        breaks: *const u8,
        breaks_count: usize,
        semojis: *const u8,
        semojis_count: usize,
        conjuncts: *const u8,
        conjuncts_count: usize,
        out: *mut u8,
        out_count: usize,
        results: *mut u64,
        results_count: usize,
    ) -> u64;
    pub(crate) fn ezh_run_edition_back(
        edition: u64,
        breaks: *const u8,
        breaks_count: usize,
        semojis: *const u8,
        semojis_count: usize,
        conjuncts: *const u8,
        conjuncts_count: usize,
        out: *mut u8,
        out_count: usize,
        results: *mut u64,
        results_count: usize,
    ) -> u64;
    pub(crate) fn ezh_step_edition(
        edition: u64,
        previous: u64,
        odd: u64,
        extended: u64,
        joined: u64,
        begun: u64,
        linked: u64,
        cluster_break: u64,
        semoji: u64,
        conjunct: u64,
        results: *mut u64,
        results_count: usize,
    ) -> u64;
    pub(crate) fn ezh_read_properties(
        file: u64,
        bytes: *const u8,
        bytes_count: usize,
        firsts: *mut u32,
        firsts_count: usize,
        lasts: *mut u32,
        lasts_count: usize,
        codes: *mut u8,
        codes_count: usize,
        held: usize,
        results: *mut u64,
        results_count: usize,
    ) -> u64;
    pub(crate) fn ezh_lookup(
        scalars: *const u32,
        scalars_count: usize,
        cluster_firsts: *const u32,
        cluster_firsts_count: usize,
        cluster_lasts: *const u32,
        cluster_lasts_count: usize,
        cluster_codes: *const u8,
        cluster_codes_count: usize,
        cluster_held: usize,
        word_firsts: *const u32,
        word_firsts_count: usize,
        word_lasts: *const u32,
        word_lasts_count: usize,
        word_codes: *const u8,
        word_codes_count: usize,
        word_held: usize,
        breaks: *mut u8,
        breaks_count: usize,
        words: *mut u8,
        words_count: usize,
        results: *mut u64,
        results_count: usize,
    ) -> u64;
}

/// Calls one of the functions over a text.
macro_rules! call {
    ($name:ident($($before:expr),*; $text:expr; $($after:expr),*)) => {
        $crate::sys::$name(
            $($before,)*
            $text.scalars.as_ptr(), $text.scalars.len(),
            $text.breaks.as_ptr(), $text.breaks.len(),
            $text.uses.as_ptr(), $text.uses.len(),
            $text.myanmars.as_ptr(), $text.myanmars.len(),
            $text.categories.as_ptr(), $text.categories.len(),
            $text.words.as_ptr(), $text.words.len(),
            $text.semojis.as_ptr(), $text.semojis.len(),
            $text.memojis.as_ptr(), $text.memojis.len(),
            $text.cemojis.as_ptr(), $text.cemojis.len(),
            $text.pictographs.as_ptr(), $text.pictographs.len(),
            $text.selectors.as_ptr(), $text.selectors.len(),
            $text.decomposes.as_ptr(), $text.decomposes.len(),
            $text.firsts.as_ptr(), $text.firsts.len(),
            $text.counts.as_ptr(), $text.counts.len(),
            $text.pscalars.as_ptr(), $text.pscalars.len(),
            $text.pbreaks.as_ptr(), $text.pbreaks.len(),
            $text.puses.as_ptr(), $text.puses.len(),
            $text.pcategories.as_ptr(), $text.pcategories.len(),
            $($after.as_mut_ptr(), $after.len(),)*
        )
    };
}

pub(crate) use call;
