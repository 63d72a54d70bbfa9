//! A text as columns, and a builder of them.

use crate::{Clusters, Edition, Graphemes, Mode, Parser, Pieces, Refusal, Run, Strength, Words};

/// A lent text: 14 columns with a cell for each record, four with a cell for each part. Columns of any lengths and any codes may be lent;
/// every call checks them and refuses what is not a text.
#[derive(Clone, Copy, Debug)]
pub struct Columns<'a> {
    pub scalars: &'a [u32],
    pub breaks: &'a [u8],
    pub uses: &'a [u8],
    pub myanmars: &'a [u8],
    pub categories: &'a [u8],
    pub words: &'a [u8],
    pub semojis: &'a [u8],
    pub memojis: &'a [u8],
    pub cemojis: &'a [u8],
    pub pictographs: &'a [u8],
    pub selectors: &'a [u8],
    pub decomposes: &'a [u8],
    pub firsts: &'a [u16],
    pub counts: &'a [u8],
    pub pscalars: &'a [u32],
    pub pbreaks: &'a [u8],
    pub puses: &'a [u8],
    pub pcategories: &'a [u8],
}

/// The marks of a record.
#[derive(Clone, Copy, Debug, Default, PartialEq, Eq)]
pub struct Marks {
    /// Emoji, as each of the three parsers sees it.
    pub emoji_simple: bool,
    pub emoji_myanmar: bool,
    pub emoji_complex: bool,
    pub pictograph: bool,
    pub variation_selector: bool,
    /// The complex parsers see the record's parts in its place.
    pub decompose: bool,
}

impl Marks {
    pub const NONE: Marks = Marks {
        emoji_simple: false,
        emoji_myanmar: false,
        emoji_complex: false,
        pictograph: false,
        variation_selector: false,
        decompose: false,
    };
}

/// A character with its classes (the codes are in [`codes`](crate::codes)). No field has a default: a class that is left out by mistake
/// must not be read as another.
#[derive(Clone, Copy, Debug, PartialEq, Eq)]
pub struct Record {
    pub scalar: u32,
    pub cluster_break: u8,
    pub use_class: u8,
    pub myanmar_class: u8,
    pub category: u8,
    pub word: u8,
    pub marks: Marks,
}

/// A part of a character.
#[derive(Clone, Copy, Debug, PartialEq, Eq)]
pub struct Part {
    pub scalar: u32,
    pub cluster_break: u8,
    pub use_class: u8,
    pub category: u8,
}

/// A text that is built record by record.
///
/// ```
/// use ezherbut::codes::{category, cluster_break, myanmar_class, use_class, word_break};
/// use ezherbut::{Marks, Mode, Parser, Record, Text};
///
/// // the kinzi of a label: U+1004 U+103A U+1039
/// let mut text = Text::new();
/// for (scalar, myanmar_class) in [(0x1004, myanmar_class::C), (0x103A, myanmar_class::AS), (0x1039, myanmar_class::H)] {
///     text.push(Record {
///         scalar,
///         cluster_break: cluster_break::XX,
///         use_class: use_class::REST,
///         myanmar_class,
///         category: category::OTHER,
///         word: word_break::ALETTER,
///         marks: Marks::NONE,
///     });
/// }
///
/// // swash pushes the last character twice; whole mode does not
/// let in_crate: Result<Vec<_>, _> = text.clusters(Parser::Myanmar, Mode::Crate).collect();
/// assert_eq!(in_crate.unwrap()[0].characters.len(), 4);
/// let whole: Result<Vec<_>, _> = text.clusters(Parser::Myanmar, Mode::Whole).collect();
/// assert_eq!(whole.unwrap()[0].characters.len(), 3);
/// ```
#[derive(Clone, Debug, Default)]
pub struct Text {
    scalars: Vec<u32>,
    breaks: Vec<u8>,
    uses: Vec<u8>,
    myanmars: Vec<u8>,
    categories: Vec<u8>,
    words: Vec<u8>,
    semojis: Vec<u8>,
    memojis: Vec<u8>,
    cemojis: Vec<u8>,
    pictographs: Vec<u8>,
    selectors: Vec<u8>,
    decomposes: Vec<u8>,
    firsts: Vec<u16>,
    counts: Vec<u8>,
    pscalars: Vec<u32>,
    pbreaks: Vec<u8>,
    puses: Vec<u8>,
    pcategories: Vec<u8>,
}

impl Text {
    pub fn new() -> Text {
        Text::default()
    }

    /// How many records the text has.
    pub fn len(&self) -> usize {
        self.scalars.len()
    }

    pub fn is_empty(&self) -> bool {
        self.scalars.is_empty()
    }

    /// One more record, without parts. Where it is marked decompose all the same, it is no token of the complex parser in crate mode, as
    /// in swash; in whole mode it stands for itself.
    ///
    /// ```
    /// use ezherbut::codes::{category, cluster_break, myanmar_class, use_class, word_break};
    /// use ezherbut::{Marks, Mode, Parser, Record, Text};
    ///
    /// let mut text = Text::new();
    /// text.push(Record {
    ///     scalar: 0x17BE,
    ///     cluster_break: cluster_break::SM,
    ///     use_class: use_class::VABV,
    ///     myanmar_class: myanmar_class::REST,
    ///     category: category::OTHER,
    ///     word: word_break::EXTEND,
    ///     marks: Marks { decompose: true, ..Marks::NONE },
    /// });
    /// assert_eq!(text.clusters(Parser::Khmer, Mode::Crate).count(), 0);
    /// let whole: Result<Vec<_>, _> = text.clusters(Parser::Khmer, Mode::Whole).collect();
    /// assert_eq!(whole.unwrap()[0].characters[0].record, 0);
    /// ```
    pub fn push(&mut self, record: Record) {
        self.push_with_parts(record, &[]);
    }

    /// One more record with its parts. A text has at most 4,096 parts in all and a record at most 3; what is above is refused by
    /// the calls over the text.
    pub fn push_with_parts(&mut self, record: Record, parts: &[Part]) {
        self.scalars.push(record.scalar);
        self.breaks.push(record.cluster_break);
        self.uses.push(record.use_class);
        self.myanmars.push(record.myanmar_class);
        self.categories.push(record.category);
        self.words.push(record.word);
        self.semojis.push(record.marks.emoji_simple.into());
        self.memojis.push(record.marks.emoji_myanmar.into());
        self.cemojis.push(record.marks.emoji_complex.into());
        self.pictographs.push(record.marks.pictograph.into());
        self.selectors.push(record.marks.variation_selector.into());
        self.decomposes.push(record.marks.decompose.into());
        // a number too large for its column stays too large: both columns refuse their largest value
        self.firsts.push(u16::try_from(self.pscalars.len()).unwrap_or(u16::MAX));
        self.counts.push(u8::try_from(parts.len()).unwrap_or(u8::MAX));
        for part in parts {
            self.pscalars.push(part.scalar);
            self.pbreaks.push(part.cluster_break);
            self.puses.push(part.use_class);
            self.pcategories.push(part.category);
        }
    }

    /// The columns, to be lent.
    pub fn columns(&self) -> Columns<'_> {
        Columns {
            scalars: &self.scalars,
            breaks: &self.breaks,
            uses: &self.uses,
            myanmars: &self.myanmars,
            categories: &self.categories,
            words: &self.words,
            semojis: &self.semojis,
            memojis: &self.memojis,
            cemojis: &self.cemojis,
            pictographs: &self.pictographs,
            selectors: &self.selectors,
            decomposes: &self.decomposes,
            firsts: &self.firsts,
            counts: &self.counts,
            pscalars: &self.pscalars,
            pbreaks: &self.pbreaks,
            puses: &self.puses,
            pcategories: &self.pcategories,
        }
    }

    /// See [`Columns::check`].
    pub fn check(&self, parser: Parser) -> Result<(), Refusal> {
        self.columns().check(parser)
    }

    /// See [`Columns::clusters`].
    pub fn clusters(&self, parser: Parser, mode: Mode) -> Clusters<'_> {
        self.columns().clusters(parser, mode)
    }

    /// See [`Columns::run`].
    pub fn run(&self, parser: Parser, mode: Mode) -> Result<Run, Refusal> {
        self.columns().run(parser, mode)
    }

    /// See [`Columns::words`].
    pub fn words(&self) -> Result<Words, Refusal> {
        self.columns().words()
    }

    /// See [`Columns::graphemes`].
    pub fn graphemes(&self) -> Result<Graphemes, Refusal> {
        self.columns().graphemes()
    }

    /// See [`Columns::graphemes_of`].
    pub fn graphemes_of(&self, edition: Edition, conjuncts: &[u8]) -> Result<Graphemes, Refusal> {
        self.columns().graphemes_of(edition, conjuncts)
    }

    /// See [`Columns::lines`].
    pub fn lines(&self, classes: &[u8], table: &[u8], strength: Strength) -> Result<Pieces, Refusal> {
        self.columns().lines(classes, table, strength)
    }
}
