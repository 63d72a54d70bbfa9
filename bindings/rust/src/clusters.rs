//! Clusters: one call after the other, or a full run.

use crate::codes::{emoji, mode, parser, space, what};
use crate::sys::call;
use crate::{Columns, Refusal};

/// Which grammar. `Khmer` is the complex one for a text in the Khmer script.
#[derive(Clone, Copy, Debug, PartialEq, Eq)]
pub enum Parser {
    Simple,
    Myanmar,
    Complex,
    Khmer,
}

impl Parser {
    fn number(self) -> u64 {
        match self {
            Parser::Simple => parser::SIMPLE,
            Parser::Myanmar => parser::MYANMAR,
            Parser::Complex => parser::COMPLEX,
            Parser::Khmer => parser::KHMER,
        }
    }
}

/// The answers of swash 0.2.10, or the same grammar with no character repeated, no record lost, and CR and LF in one cluster.
#[derive(Clone, Copy, Debug, PartialEq, Eq)]
pub enum Mode {
    Crate,
    Whole,
}

impl Mode {
    fn number(self) -> u64 {
        match self {
            Mode::Crate => mode::CRATE,
            Mode::Whole => mode::WHOLE,
        }
    }
}

#[derive(Clone, Copy, Debug, PartialEq, Eq)]
pub enum Emoji {
    None,
    Default,
    Text,
    Color,
}

#[derive(Clone, Copy, Debug, PartialEq, Eq)]
pub enum Space {
    None,
    Newline,
    From(u32),
}

/// A character of a cluster.
#[derive(Clone, Copy, Debug, PartialEq, Eq)]
pub struct Character {
    pub scalar: u32,
    /// Its shape class, a code of [`codes::shape`](crate::codes::shape).
    pub class: u8,
    /// The index of its record.
    pub record: usize,
    /// How many tokens are noted directly after it and not pushed.
    pub noted: usize,
}

#[derive(Clone, Debug, PartialEq, Eq)]
pub struct Cluster {
    /// At most 32.
    pub characters: Vec<Character>,
    pub emoji: Emoji,
    pub space: Space,
    pub broken: bool,
    pub normalise: bool,
}

/// What one call from a place hands back.
#[derive(Clone, Debug, PartialEq, Eq)]
pub struct Step {
    /// The next place: a token's number, or the number of tokens, which is the end.
    pub place: usize,
    /// How many tokens the call passed.
    pub passed: usize,
    /// None at the end.
    pub cluster: Option<Cluster>,
}

/// How many clusters and characters a full run wrote.
#[derive(Clone, Copy, Debug, PartialEq, Eq)]
pub struct Counts {
    pub clusters: usize,
    pub characters: usize,
}

/// A full run: a cell of each column for each pushed character.
#[derive(Clone, Debug, PartialEq, Eq)]
pub struct Run {
    pub clusters: usize,
    pub scalars: Vec<u32>,
    /// Shape classes, codes of [`codes::shape`](crate::codes::shape).
    pub classes: Vec<u8>,
    /// The number of the character's cluster, from 0.
    pub numbers: Vec<u16>,
}

const CELLS: usize = 32;

/// The columns and results of a stepping call, as include/ezherbut.h orders them.
struct Handed {
    scalars: [u32; CELLS],
    classes: [u8; CELLS],
    records: [u16; CELLS],
    noted: [u16; CELLS],
    results: [u64; 12],
}

impl Handed {
    fn character(&self, i: usize) -> Character {
        Character {
            scalar: self.scalars[i],
            class: self.classes[i],
            record: self.records[i].into(),
            noted: self.noted[i].into(),
        }
    }

    fn cluster(&self) -> Cluster {
        Cluster {
            characters: (0..self.results[6] as usize).map(|i| self.character(i)).collect(),
            emoji: match self.results[7] {
                emoji::NONE => Emoji::None,
                emoji::DEFAULT => Emoji::Default,
                emoji::TEXT => Emoji::Text,
                _ => Emoji::Color,
            },
            space: match self.results[8] {
                space::NONE => Space::None,
                space::NEWLINE => Space::Newline,
                _ => Space::From(self.results[9] as u32),
            },
            broken: self.results[10] == 1,
            normalise: self.results[11] == 1,
        }
    }

    fn step(&self) -> Result<Step, Refusal> {
        Refusal::in_results(&self.results)?;
        Ok(Step {
            place: self.results[4] as usize,
            passed: self.results[5] as usize,
            cluster: (self.results[3] == what::FOUND).then(|| self.cluster()),
        })
    }
}

impl<'a> Columns<'a> {
    /// Whether the columns are a text for the parser.
    pub fn check(self, parser: Parser) -> Result<(), Refusal> {
        let mut results = [0; 3];
        // Safe: every pointer and count is a slice's, and the library stays inside them for every input.
        unsafe { call!(ezh_check(parser.number(); self; results)) };
        Refusal::in_results(&results)
    }

    /// One call from a place; 0 is the start.
    pub fn step(self, parser: Parser, mode: Mode, place: usize) -> Result<Step, Refusal> {
        let mut to = Handed {
            scalars: [0; CELLS],
            classes: [0; CELLS],
            records: [0; CELLS],
            noted: [0; CELLS],
            results: [0; 12],
        };
        // Safe: as above; the columns that are written are this call's own.
        unsafe { call!(ezh_step(parser.number(), mode.number(), place; self; to.scalars, to.classes, to.records, to.noted, to.results)) };
        to.step()
    }

    /// The clusters from the start to the end. Every call judges the whole text anew; [`run`](Columns::run) judges it once.
    ///
    /// After a refusal nothing follows.
    pub fn clusters(self, parser: Parser, mode: Mode) -> Clusters<'a> {
        Clusters {
            columns: self,
            parser,
            mode,
            place: 0,
            over: false,
        }
    }

    /// A full run into lent columns; with a refusal they stay as they are. Each needs twice as many cells as the text has tokens, for
    /// which six for each record are enough.
    pub fn run_into(
        self,
        parser: Parser,
        mode: Mode,
        scalars: &mut [u32],
        classes: &mut [u8],
        numbers: &mut [u16],
    ) -> Result<Counts, Refusal> {
        let mut results = [0; 5];
        // Safe: as above, and a `&mut` overlaps nothing else.
        unsafe { call!(ezh_run(parser.number(), mode.number(); self; scalars, classes, numbers, results)) };
        Refusal::in_results(&results)?;
        Ok(Counts {
            clusters: results[3] as usize,
            characters: results[4] as usize,
        })
    }

    /// A full run.
    ///
    /// ```
    /// use ezherbut::{Mode, Parser, Text};
    /// let run = Text::new().run(Parser::Simple, Mode::Whole).unwrap();
    /// assert_eq!((run.clusters, run.scalars.len()), (0, 0));
    /// ```
    pub fn run(self, parser: Parser, mode: Mode) -> Result<Run, Refusal> {
        self.check(parser)?;
        let cells = 6 * self.scalars.len();
        let mut run = Run {
            clusters: 0,
            scalars: vec![0; cells],
            classes: vec![0; cells],
            numbers: vec![0; cells],
        };
        let counts = self.run_into(parser, mode, &mut run.scalars, &mut run.classes, &mut run.numbers)?;
        run.clusters = counts.clusters;
        run.scalars.truncate(counts.characters);
        run.classes.truncate(counts.characters);
        run.numbers.truncate(counts.characters);
        Ok(run)
    }
}

/// The clusters of a text, one call after the other.
#[derive(Clone, Debug)]
pub struct Clusters<'a> {
    columns: Columns<'a>,
    parser: Parser,
    mode: Mode,
    place: usize,
    over: bool,
}

impl Clusters<'_> {
    /// The place that the next call begins at.
    pub fn place(&self) -> usize {
        self.place
    }
}

impl Iterator for Clusters<'_> {
    type Item = Result<Cluster, Refusal>;

    fn next(&mut self) -> Option<Result<Cluster, Refusal>> {
        if self.over {
            return None;
        }
        let step = self.columns.step(self.parser, self.mode, self.place);
        let step = match step {
            Ok(step) => step,
            Err(refusal) => {
                self.over = true;
                return Some(Err(refusal));
            }
        };
        self.place = step.place;
        self.over = step.cluster.is_none();
        step.cluster.map(Ok)
    }
}
