//! The lines of cases in crate mode, of words and of lines. `None` for all that is not the oracle's business; whether
//! a text is accepted (SCOPE 5) is said here a second time, without the refusal's number.

use crate::lines::{self, LineCase};
use crate::text::cluster::{CharInfo, Token};
use crate::text::{
    Category, ClusterBreak, LineBreak, MyanmarClass, Part, Parts, Properties, Record, Script, State, UseClass, WordBreak,
};

pub const LONGEST: usize = 4096;

#[derive(Copy, Clone, PartialEq, Eq)]
pub enum Kind {
    Simple,
    Myanmar,
    Complex(Script),
}

pub enum Case {
    Clusters { kind: Kind, feed: Vec<Token>, tokens: usize },
    Run(Vec<Record>),
    Step { state: State, record: Record, next: Option<WordBreak> },
    Line(LineCase),
}

pub fn read(line: &str) -> Option<Case> {
    let fields: Vec<&str> = line.split(';').collect();
    match fields[..] {
        ["W", cells, records] => run(cells, records),
        ["w", state, record, next] => step(state, record, next),
        ["l" | "n" | "L", ..] => lines::read(&fields).map(Case::Line),
        [parser, "crate", script, place, records, parts] => {
            clusters(kind(parser, script)?, number::<u16>(place)?.into(), records, parts)
        }
        _ => None,
    }
}

fn kind(parser: &str, script: &str) -> Option<Kind> {
    match (parser, script) {
        ("S", "-") => Some(Kind::Simple),
        ("M", "-") => Some(Kind::Myanmar),
        ("C", "-") => Some(Kind::Complex(Script::Any)),
        ("C", "K") => Some(Kind::Complex(Script::Khmer)),
        _ => None,
    }
}

fn run(cells: &str, records: &str) -> Option<Case> {
    let records: Vec<Record> = items(records).map(word_record).collect::<Option<_>>()?;
    let cells: usize = number::<u16>(cells)?.into();
    (records.len() <= LONGEST.min(cells)).then_some(Case::Run(records))
}

fn step(state: &str, record: &str, next: &str) -> Option<Case> {
    Some(Case::Step { state: word_state(state)?, record: word_record(record)?, next: following(next)? })
}

pub fn word_state(item: &str) -> Option<State> {
    let fields: Vec<&str> = item.split(',').collect();
    let [first, prev, prevent_next, count] = fields[..] else {
        return None;
    };
    let state = State {
        first: mark(first)?,
        prev: WordBreak::from_code(number(prev)?)?,
        prevent_next: mark(prevent_next)?,
        count: number(count)?,
    };
    (state.count <= 2).then_some(state)
}

/// The class of the record after, if there is one.
pub fn following(item: &str) -> Option<Option<WordBreak>> {
    match item {
        "-" => Some(None),
        class => Some(Some(WordBreak::from_code(number(class)?)?)),
    }
}

fn word_record(item: &str) -> Option<Record> {
    let (class, pictograph) = item.split_once(',')?;
    let word = WordBreak::from_code(number(class)?)?;
    Some(Record { line: LineBreak::default(), word, pictograph: mark(pictograph)? })
}

fn clusters(kind: Kind, place: usize, records: &str, parts: &str) -> Option<Case> {
    let parts: Vec<Part> = items(parts).map(part).collect::<Option<_>>()?;
    if parts.len() > LONGEST || kind.is_complex() && parts.iter().any(|part| barred(part.ch, &part.properties)) {
        return None;
    }
    let records: Vec<Token> =
        items(records).enumerate().map(|(index, item)| record(index, item, &parts, kind)).collect::<Option<_>>()?;
    if records.len() > LONGEST {
        return None;
    }
    let (feed, tokens) = enter(numbered(records, kind), place, kind)?;
    Some(Case::Clusters { kind, feed, tokens })
}

fn part(item: &str) -> Option<Part> {
    let fields: Vec<&str> = item.split(',').collect();
    let [scalar, cluster_break, use_class, category] = fields[..] else {
        return None;
    };
    let properties = Properties {
        cluster_break: ClusterBreak::from_code(number(cluster_break)?)?,
        use_class: UseClass::from_code(number(use_class)?)?,
        category: Category::from_code(number(category)?)?,
        ..Properties::default()
    };
    Some(Part { ch: character(scalar)?, properties })
}

fn record(index: usize, item: &str, parts: &[Part], kind: Kind) -> Option<Token> {
    let fields: Vec<&str> = item.split(',').collect();
    #[rustfmt::skip]
    let [
        scalar, cluster_break, use_class, myanmar, category, word, simple, of_myanmar, complex,
        pictograph, selector, decompose, first, count,
    ] = fields[..] else {
        return None;
    };
    let ch = character(scalar)?;
    let properties = Properties {
        cluster_break: ClusterBreak::from_code(number(cluster_break)?)?,
        use_class: UseClass::from_code(number(use_class)?)?,
        category: Category::from_code(number(category)?)?,
        word: WordBreak::from_code(number(word)?)?,
        pictograph: mark(pictograph)?,
        token: index,
        ..Properties::default()
    };
    let (first, count) = (usize::from(number::<u16>(first)?), usize::from(number::<u8>(count)?));
    let own = parts.get(first..first + count).filter(|own| own.len() <= 3)?;
    let info = CharInfo {
        properties,
        myanmar: MyanmarClass::from_code(number(myanmar)?)?,
        emoji_simple: mark(simple)?,
        emoji_myanmar: mark(of_myanmar)?,
        emoji_complex: mark(complex)?,
        selector: mark(selector)?,
        decompose: mark(decompose)?,
        parts: Parts::new(own.iter().copied()),
    };
    let refused = kind.is_complex() && barred(ch, &properties)
        || splits(kind, ch) && !info.decompose && !matches!(own, [Part { ch: '\u{17C1}', .. }]);
    (!refused).then_some(Token { ch, info, data: index as u32 })
}

/// Refusal 6, its classes written out.
fn barred(ch: char, properties: &Properties) -> bool {
    use UseClass::*;
    ch == '\u{34F}'
        && matches!(
            properties.use_class,
            CMBlw | SUB | H | FM | FAbv | FBlw | FPst | MAbv | MBlw | MPre | MPst | VAbv | VBlw | VPre | VPst
                | VMAbv | VMBlw | VMPre | VMPst
        )
}

/// The five Khmer signs that give U+17C1 first.
fn splits(kind: Kind, ch: char) -> bool {
    kind == Kind::Complex(Script::Khmer) && matches!(ch as u32, 0x17BE | 0x17BF | 0x17C0 | 0x17C4 | 0x17C5)
}

/// How many tokens a record gives.
fn width(record: &Token, kind: Kind) -> usize {
    match kind {
        Kind::Complex(_) if record.info.decompose => record.info.parts.len(),
        Kind::Complex(_) if splits(kind, record.ch) => 2,
        _ => 1,
    }
}

/// Every token's number written into it, so that it says its place wherever it is pushed.
fn numbered(mut records: Vec<Token>, kind: Kind) -> Vec<(usize, Token)> {
    let mut at = 0;
    let mut all = Vec::new();
    for record in &mut records {
        record.info.parts = record.info.parts.numbered_from(at);
        record.info.properties.token = at + usize::from(splits(kind, record.ch) && !record.info.decompose);
        all.push((at, *record));
        at += width(record, kind);
    }
    all
}

/// The records from a place on and the number of all tokens. Inside a record's tokens the
/// first record lent is one that decomposes into what is left of them.
fn enter(records: Vec<(usize, Token)>, place: usize, kind: Kind) -> Option<(Vec<Token>, usize)> {
    let tokens = records.last().map_or(0, |(at, record)| at + width(record, kind));
    let mut feed = Vec::new();
    for (at, record) in records {
        let passed = place.saturating_sub(at);
        if passed == 0 {
            feed.push(record);
        } else if passed < width(&record, kind) {
            feed.push(rest_of(record, passed));
        }
    }
    (place <= tokens).then_some((feed, tokens))
}

fn rest_of(mut record: Token, passed: usize) -> Token {
    if record.info.decompose {
        record.info.parts = record.info.parts.after(passed);
    } else {
        let itself = Part { ch: record.ch, properties: record.info.properties };
        record.info.parts = Parts::new([itself].into_iter());
        record.info.decompose = true;
    }
    record
}

impl Kind {
    fn is_complex(self) -> bool {
        matches!(self, Self::Complex(_))
    }
}

pub fn items(field: &str) -> impl Iterator<Item = &str> {
    field.split(' ').filter(move |_| !field.is_empty())
}

fn character(digits: &str) -> Option<char> {
    unsigned(digits).and_then(|digits| char::from_u32(u32::from_str_radix(digits, 16).ok()?))
}

pub fn number<N: std::str::FromStr>(digits: &str) -> Option<N> {
    unsigned(digits).and_then(|digits| digits.parse().ok())
}

/// Rust would read a plus sign too.
fn unsigned(digits: &str) -> Option<&str> {
    (!digits.starts_with('+')).then_some(digits)
}

pub fn mark(digits: &str) -> Option<bool> {
    match number::<u8>(digits)? {
        0 => Some(false),
        1 => Some(true),
        _ => None,
    }
}
