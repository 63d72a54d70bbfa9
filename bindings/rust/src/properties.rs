//! Unicode's property files: read into ranges, in which the classes of a text are looked up.

use std::error::Error;
use std::fmt;
use std::ops::RangeInclusive;

use crate::codes::file;
use crate::{sys, Refusal};

/// How many bytes one call of the library takes.
const MOST: usize = 65_536;
/// How many characters of a line its error prints.
const SHOWN: usize = 200;

/// Which of the two property files.
#[derive(Clone, Copy, Debug, PartialEq, Eq)]
pub enum PropertyFile {
    /// `GraphemeBreakProperty.txt`, whose values are the [cluster breaks](crate::codes::cluster_break).
    Cluster,
    /// `WordBreakProperty.txt`, whose values are the [word classes](crate::codes::word_break).
    Word,
}

impl PropertyFile {
    fn number(self) -> u64 {
        match self {
            PropertyFile::Cluster => file::CLUSTER,
            PropertyFile::Word => file::WORD,
        }
    }
}

/// Scalars with one class.
#[derive(Clone, Debug, PartialEq, Eq)]
pub struct PropertyRange {
    pub scalars: RangeInclusive<u32>,
    pub code: u8,
}

/// The classes of a text: for each scalar its cluster break and its word class.
#[derive(Clone, Debug, Default, PartialEq, Eq)]
pub struct Classes {
    pub breaks: Vec<u8>,
    pub words: Vec<u8>,
}

/// Why a property file was not read: its first line that is refused.
#[derive(Clone, Debug, PartialEq, Eq)]
pub struct LineError {
    /// 11 for a malformed line, 12 for a value that is no name of that file, 13 for a range that shares a scalar with an earlier one, of
    /// this file or held, 1 for a line that has more than 65,536 bytes with its line end.
    pub number: u8,
    /// The number of the line in the whole file, from 1.
    pub line: usize,
    /// The line without its line end.
    pub bytes: Vec<u8>,
}

impl LineError {
    /// The error of a line by its number among the lines of a piece, before which the file has so many lines.
    fn of(number: u8, piece: &[u8], index: usize, before: usize) -> LineError {
        let line = piece.split(is_end).nth(index - 1).unwrap_or_default();
        LineError {
            number,
            line: before + index,
            bytes: line.strip_suffix(b"\r").unwrap_or(line).to_vec(),
        }
    }

    fn reason(&self) -> &'static str {
        match self.number {
            1 => "line of more than 65,536 bytes",
            11 => "malformed line",
            12 => "unknown value",
            _ => "range that meets an earlier one",
        }
    }
}

impl fmt::Display for LineError {
    /// As `line 12: 12 unknown value: 0041;Foo`. What cannot be seen, as a byte order mark, is written as an escape, and a long line is cut.
    fn fmt(&self, f: &mut fmt::Formatter<'_>) -> fmt::Result {
        write!(f, "line {}: {} {}: ", self.line, self.number, self.reason())?;
        let text = String::from_utf8_lossy(&self.bytes);
        let mut characters = text.chars();
        for character in characters.by_ref().take(SHOWN) {
            match character {
                '"' | '\'' | '\\' => write!(f, "{character}")?,
                _ => write!(f, "{}", character.escape_debug())?,
            }
        }
        match characters.next() {
            Some(_) => write!(f, "…"),
            None => Ok(()),
        }
    }
}

impl Error for LineError {}

/// The ranges of both property files, in the order of their scalars.
///
/// ```
/// use ezherbut::codes::{cluster_break, word_break};
/// use ezherbut::Properties;
///
/// let mut properties = Properties::new();
/// properties.read_clusters(b"# Mn\n0300..036F    ; Extend # COMBINING GRAVE ACCENT..\n")?;
/// properties.read_words(b"0041..005A ; ALetter\n0300..036F ; Extend\n")?;
/// let classes = properties.classes_of("A\u{301}!");
/// assert_eq!(classes.breaks, [cluster_break::XX, cluster_break::EX, cluster_break::XX]);
/// assert_eq!(classes.words, [word_break::ALETTER, word_break::EXTEND, word_break::OTHER]);
///
/// // a misspelt name is an error and never a default, and nothing of that file is kept
/// let error = properties.read_words(b"0061..007A ; ALetter\n0030..0039 ; Numerik\n").unwrap_err();
/// assert_eq!(error.to_string(), "line 2: 12 unknown value: 0030..0039 ; Numerik");
/// assert_eq!(properties.classes_of("a").words, [word_break::OTHER]);
/// # Ok::<(), ezherbut::LineError>(())
/// ```
#[derive(Clone, Debug, Default, PartialEq, Eq)]
pub struct Properties {
    clusters: Set,
    words: Set,
}

impl Properties {
    /// No ranges: every scalar is of no class, code 0.
    pub fn new() -> Properties {
        Properties::default()
    }

    /// Reads a whole file of any length, and says how many ranges it brought; they come beside those that are held already. After an
    /// error the ranges are what they were before.
    ///
    /// A line ends with LF or CR LF, the last one with the file. Blank lines and what follows a `#` are passed over. A file may be read in
    /// several calls if it is cut after line ends.
    pub fn read(&mut self, file: PropertyFile, bytes: &[u8]) -> Result<usize, LineError> {
        let held = self.set_mut(file);
        let mut set = held.clone();
        let mut rest = bytes;
        let mut before = 0;
        while !rest.is_empty() {
            let piece = first_piece(rest, before)?;
            set.read_piece(file, piece, before)?;
            before += ends_in(piece);
            rest = &rest[piece.len()..];
        }
        let brought = set.codes.len() - held.codes.len();
        *held = set;
        Ok(brought)
    }

    /// Reads `GraphemeBreakProperty.txt`; see [`read`](Properties::read).
    pub fn read_clusters(&mut self, bytes: &[u8]) -> Result<usize, LineError> {
        self.read(PropertyFile::Cluster, bytes)
    }

    /// Reads `WordBreakProperty.txt`; see [`read`](Properties::read).
    pub fn read_words(&mut self, bytes: &[u8]) -> Result<usize, LineError> {
        self.read(PropertyFile::Word, bytes)
    }

    /// The ranges of a file, in the order of their scalars; `len` is how many there are.
    ///
    /// ```
    /// use ezherbut::codes::cluster_break;
    /// use ezherbut::{Properties, PropertyFile, PropertyRange};
    ///
    /// let mut properties = Properties::new();
    /// properties.read_clusters(b"200D;ZWJ\n0300..036F;Extend")?;
    /// let mut ranges = properties.ranges(PropertyFile::Cluster);
    /// assert_eq!(ranges.len(), 2);
    /// assert_eq!(ranges.next(), Some(PropertyRange { scalars: 0x300..=0x36F, code: cluster_break::EX }));
    /// # Ok::<(), ezherbut::LineError>(())
    /// ```
    pub fn ranges(&self, file: PropertyFile) -> impl ExactSizeIterator<Item = PropertyRange> + '_ {
        let set = self.set(file);
        let scalars = set.firsts.iter().zip(&set.lasts);
        scalars.zip(&set.codes).map(|((&first, &last), &code)| PropertyRange {
            scalars: first..=last,
            code,
        })
    }

    /// The classes of scalars. A scalar in no range has code 0. One above 10FFFF or in D800 to DFFF is refused.
    pub fn classes(&self, scalars: &[u32]) -> Result<Classes, Refusal> {
        let mut classes = Classes {
            breaks: vec![0; scalars.len()],
            words: vec![0; scalars.len()],
        };
        self.classes_into(scalars, &mut classes.breaks, &mut classes.words)?;
        Ok(classes)
    }

    /// The classes of the characters of a text, which are never refused.
    pub fn classes_of(&self, text: &str) -> Classes {
        let scalars: Vec<u32> = text.chars().map(u32::from).collect();
        self.classes(&scalars).expect("a char is a scalar")
    }

    /// The classes of scalars, in columns that are there already. Cells past the scalars keep their content, and with a refusal all do.
    pub fn classes_into(&self, scalars: &[u32], breaks: &mut [u8], words: &mut [u8]) -> Result<(), Refusal> {
        let mut results = [0; 3];
        // Safe: every pointer and count is a slice's, the library stays inside them for every input, and a `&mut` overlaps nothing else.
        unsafe {
            sys::ezh_lookup(
                scalars.as_ptr(),
                scalars.len(),
                self.clusters.firsts.as_ptr(),
                self.clusters.firsts.len(),
                self.clusters.lasts.as_ptr(),
                self.clusters.lasts.len(),
                self.clusters.codes.as_ptr(),
                self.clusters.codes.len(),
                self.clusters.codes.len(),
                self.words.firsts.as_ptr(),
                self.words.firsts.len(),
                self.words.lasts.as_ptr(),
                self.words.lasts.len(),
                self.words.codes.as_ptr(),
                self.words.codes.len(),
                self.words.codes.len(),
                breaks.as_mut_ptr(),
                breaks.len(),
                words.as_mut_ptr(),
                words.len(),
                results.as_mut_ptr(),
                results.len(),
            )
        };
        Refusal::in_results(&results)
    }

    fn set(&self, file: PropertyFile) -> &Set {
        match file {
            PropertyFile::Cluster => &self.clusters,
            PropertyFile::Word => &self.words,
        }
    }

    fn set_mut(&mut self, file: PropertyFile) -> &mut Set {
        match file {
            PropertyFile::Cluster => &mut self.clusters,
            PropertyFile::Word => &mut self.words,
        }
    }
}

/// The ranges of one file, with no cell to spare.
#[derive(Clone, Debug, Default, PartialEq, Eq)]
struct Set {
    firsts: Vec<u32>,
    lasts: Vec<u32>,
    codes: Vec<u8>,
}

impl Set {
    fn resize(&mut self, cells: usize) {
        self.firsts.resize(cells, 0);
        self.lasts.resize(cells, 0);
        self.codes.resize(cells, 0);
    }

    /// Reads a piece of a file, before which so many lines stand. It is short enough and each line finds a cell, so that every refusal is
    /// of a line, and none is 14.
    fn read_piece(&mut self, file: PropertyFile, piece: &[u8], before: usize) -> Result<(), LineError> {
        let held = self.codes.len();
        self.resize(held + ends_in(piece) + 1);
        let mut results = [0; 4];
        // Safe: as above.
        unsafe {
            sys::ezh_read_properties(
                file.number(),
                piece.as_ptr(),
                piece.len(),
                self.firsts.as_mut_ptr(),
                self.firsts.len(),
                self.lasts.as_mut_ptr(),
                self.lasts.len(),
                self.codes.as_mut_ptr(),
                self.codes.len(),
                held,
                results.as_mut_ptr(),
                results.len(),
            )
        };
        self.resize(results[3] as usize);
        match Refusal::in_results(&results) {
            Ok(()) => Ok(()),
            Err(refusal) => Err(LineError::of(refusal.number, piece, refusal.index, before)),
        }
    }
}

fn is_end(byte: &u8) -> bool {
    *byte == b'\n'
}

fn ends_in(bytes: &[u8]) -> usize {
    bytes.iter().filter(|byte| is_end(byte)).count()
}

/// As many whole lines as one call takes; `before` is how many lines stand before them in the file.
fn first_piece(bytes: &[u8], before: usize) -> Result<&[u8], LineError> {
    if bytes.len() <= MOST {
        return Ok(bytes);
    }
    match bytes[..MOST].iter().rposition(is_end) {
        Some(end) => Ok(&bytes[..=end]),
        None => Err(LineError::of(1, bytes, 1, before)),
    }
}
