//! Clusters by an edition of UAX #29: of Unicode 15.0, or of 15.1, in which a conjunct of Devanagari, Bengali, Gujarati, Oriya, Telugu
//! or Malayalam is one cluster.

use crate::{sys, Columns, GraphemeState, Graphemes, Refusal};

/// An edition of UAX #29.
#[derive(Clone, Copy, Debug, PartialEq, Eq)]
pub enum Edition {
    Unicode15_0,
    /// With GB9c: behind a consonant, then linkers and extenders in any order with at least one linker, a consonant starts no cluster,
    /// unless it or the record before it is CN, CR or LF.
    Unicode15_1,
}

impl Edition {
    fn number(self) -> u64 {
        match self {
            Edition::Unicode15_0 => 150,
            Edition::Unicode15_1 => 151,
        }
    }
}

/// Whether three columns, cluster break, the simple parser's emoji mark and conjunct code, are fit for a run by an edition.
pub fn edition_check(edition: Edition, breaks: &[u8], semojis: &[u8], conjuncts: &[u8]) -> Result<(), Refusal> {
    let mut results = [0; 3];
    // Safe: every pointer and count is a slice's, and the library stays inside them for every input.
    unsafe {
        sys::ezh_check_edition(
            edition.number(),
            breaks.as_ptr(),
            breaks.len(),
            semojis.as_ptr(),
            semojis.len(),
            conjuncts.as_ptr(),
            conjuncts.len(),
            results.as_mut_ptr(),
            results.len(),
        )
    };
    Refusal::in_results(&results)
}

/// A run over UAX #29's clusters by an edition: 1 in `out` for each record that a cluster starts at, else 0. Cells past the records keep their
/// content, and with a refusal all do. It goes forward; [`edition_run_back`] gives the same answers.
///
/// The conjunct codes are Unicode's Indic_Conjunct_Break ([`codes::conjunct`](crate::codes::conjunct)), published since 15.1 as InCB in
/// DerivedCoreProperties.txt, which [`Properties`](crate::Properties) does not read. In 15.0 they are judged and not looked
/// at further, and in 15.1 a column of zeros gives the answers of 15.0.
pub fn edition_run(edition: Edition, breaks: &[u8], semojis: &[u8], conjuncts: &[u8], out: &mut [u8]) -> Result<(), Refusal> {
    run_by(sys::ezh_run_edition, edition, breaks, semojis, conjuncts, out)
}

/// The same answers as [`edition_run`], each decided from the edition's rules by looking back from its record.
pub fn edition_run_back(edition: Edition, breaks: &[u8], semojis: &[u8], conjuncts: &[u8], out: &mut [u8]) -> Result<(), Refusal> {
    run_by(sys::ezh_run_edition_back, edition, breaks, semojis, conjuncts, out)
}

fn run_by(run: sys::EditionRun, edition: Edition, breaks: &[u8], semojis: &[u8], conjuncts: &[u8], out: &mut [u8]) -> Result<(), Refusal> {
    let mut results = [0; 3];
    // Safe: as above, and a `&mut` overlaps nothing else.
    unsafe {
        run(
            edition.number(),
            breaks.as_ptr(),
            breaks.len(),
            semojis.as_ptr(),
            semojis.len(),
            conjuncts.as_ptr(),
            conjuncts.len(),
            out.as_mut_ptr(),
            out.len(),
            results.as_mut_ptr(),
            results.len(),
        )
    };
    Refusal::in_results(&results)
}

impl Columns<'_> {
    /// The clusters of the text by an edition of UAX #29; the text's conjunct codes are lent beside it, and of the text only its cluster
    /// breaks and the simple parser's emoji marks are looked at.
    ///
    /// ```
    /// use ezherbut::codes::conjunct::{CONSONANT, LINKER};
    /// use ezherbut::codes::{category, cluster_break, myanmar_class, use_class, word_break};
    /// use ezherbut::{Edition, Marks, Record, Text};
    ///
    /// // the conjunct of two consonants: U+0915 U+094D U+0924
    /// let mut text = Text::new();
    /// for (letter, cluster_break) in [('क', cluster_break::XX), ('\u{94D}', cluster_break::EX), ('त', cluster_break::XX)] {
    ///     text.push(Record {
    ///         scalar: letter.into(),
    ///         cluster_break,
    ///         use_class: use_class::REST,
    ///         myanmar_class: myanmar_class::REST,
    ///         category: category::OTHER,
    ///         word: word_break::OTHER,
    ///         marks: Marks::NONE,
    ///     });
    /// }
    /// let conjuncts = [CONSONANT, LINKER, CONSONANT];
    /// let old: Vec<_> = text.graphemes_of(Edition::Unicode15_0, &conjuncts)?.collect();
    /// assert_eq!(old, [0..2, 2..3]);
    /// let new: Vec<_> = text.graphemes_of(Edition::Unicode15_1, &conjuncts)?.collect();
    /// assert_eq!(new, [0..3]);
    /// # Ok::<(), ezherbut::Refusal>(())
    /// ```
    pub fn graphemes_of(self, edition: Edition, conjuncts: &[u8]) -> Result<Graphemes, Refusal> {
        let mut starts = vec![0; self.breaks.len()];
        edition_run(edition, self.breaks, self.semojis, conjuncts, &mut starts)?;
        Ok(Graphemes::new(starts))
    }
}

/// What is kept of the records before a place, by the engine that goes forward by an edition.
///
/// ```
/// use ezherbut::codes::cluster_break::{EX, XX};
/// use ezherbut::codes::conjunct::{CONSONANT, LINKER};
/// use ezherbut::{Edition, EditionState};
///
/// let (state, _) = EditionState::START.step(Edition::Unicode15_1, XX, 0, CONSONANT)?;
/// let (state, _) = state.step(Edition::Unicode15_1, EX, 0, LINKER)?;
/// let (_, starts) = state.step(Edition::Unicode15_1, XX, 0, CONSONANT)?;
/// assert!(!starts);
/// # Ok::<(), ezherbut::Refusal>(())
/// ```
#[derive(Clone, Copy, Debug, PartialEq, Eq)]
pub struct EditionState {
    /// What every edition keeps.
    pub graphemes: GraphemeState,
    /// A consonant stands before, and only linkers and extenders behind it.
    pub begun: bool,
    /// A linker is among these.
    pub linked: bool,
}

impl EditionState {
    /// The state before the first record.
    pub const START: EditionState = EditionState {
        graphemes: GraphemeState::START,
        begun: false,
        linked: false,
    };

    /// One record with its cluster break, emoji mark and conjunct code. The state after it, and whether a cluster starts at it.
    pub fn step(self, edition: Edition, cluster_break: u8, semoji: u8, conjunct: u8) -> Result<(EditionState, bool), Refusal> {
        let mut results = [0; 10];
        // Safe: as above.
        unsafe {
            sys::ezh_step_edition(
                edition.number(),
                self.graphemes.previous.into(),
                self.graphemes.odd.into(),
                self.graphemes.extended.into(),
                self.graphemes.joined.into(),
                self.begun.into(),
                self.linked.into(),
                cluster_break.into(),
                semoji.into(),
                conjunct.into(),
                results.as_mut_ptr(),
                results.len(),
            )
        };
        Refusal::in_results(&results)?;
        let state = EditionState {
            graphemes: GraphemeState::in_results(&results),
            begun: results[7] == 1,
            linked: results[8] == 1,
        };
        Ok((state, results[9] == 1))
    }
}
