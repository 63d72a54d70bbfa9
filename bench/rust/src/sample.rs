//! A text of a script: the records of a case line, over and over to a size, for both sides.

use crate::text::cluster::{CharInfo, Token};
use crate::text::words::{with_line, Record as WordRecord};
use crate::text::{Category, ClusterBreak, Lent, MyanmarClass, Part as RustPart, Parts, Properties, UseClass, WordBreak};
use ezherbut::{Marks, Parser, Part, Record, Text};
use std::collections::HashMap;

pub struct Sample {
    pub parser: Parser,
    pub text: Text,
    pub tokens: Vec<Token>,
    /// The line classes, which the text has not.
    pub lines: Vec<u8>,
    pub words: Vec<WordRecord>,
    /// The records as the text that `next` is given.
    pub both: Vec<char>,
    pub lent: Lent,
}

fn number<N: TryFrom<u32>>(field: &str) -> N {
    N::try_from(field.parse().expect("a decimal")).ok().expect("in range")
}

fn scalar(field: &str) -> u32 {
    u32::from_str_radix(field, 16).expect("a scalar")
}

fn mark(field: &str) -> bool {
    field == "1"
}

fn fields(items: &str) -> Vec<Vec<&str>> {
    items
        .split(' ')
        .filter(|item| !item.is_empty())
        .map(|item| item.split(',').collect())
        .collect()
}

fn parser(kind: &str, script: &str) -> Parser {
    match (kind, script) {
        ("S", _) => Parser::Simple,
        ("M", _) => Parser::Myanmar,
        ("C", "K") => Parser::Khmer,
        _ => Parser::Complex,
    }
}

fn part(item: &[&str]) -> Part {
    Part {
        scalar: scalar(item[0]),
        cluster_break: number(item[1]),
        use_class: number(item[2]),
        category: number(item[3]),
    }
}

fn record(item: &[&str]) -> Record {
    Record {
        scalar: scalar(item[0]),
        cluster_break: number(item[1]),
        use_class: number(item[2]),
        myanmar_class: number(item[3]),
        category: number(item[4]),
        word: number(item[5]),
        marks: Marks {
            emoji_simple: mark(item[6]),
            emoji_myanmar: mark(item[7]),
            emoji_complex: mark(item[8]),
            pictograph: mark(item[9]),
            variation_selector: mark(item[10]),
            decompose: mark(item[11]),
        },
    }
}

fn character(scalar: u32) -> char {
    char::from_u32(scalar).expect("a scalar value")
}

fn properties(cluster_break: u8, use_class: u8, category: u8) -> Properties {
    Properties {
        cluster_break: ClusterBreak::from_code(cluster_break).unwrap(),
        use_class: UseClass::from_code(use_class).unwrap(),
        category: Category::from_code(category).unwrap(),
        ..Properties::default()
    }
}

fn token(record: &Record, index: usize) -> Token {
    let info = CharInfo {
        properties: properties(record.cluster_break, record.use_class, record.category),
        myanmar: MyanmarClass::from_code(record.myanmar_class).unwrap(),
        emoji_simple: record.marks.emoji_simple,
        emoji_myanmar: record.marks.emoji_myanmar,
        emoji_complex: record.marks.emoji_complex,
        selector: record.marks.variation_selector,
        decompose: record.marks.decompose,
    };
    Token {
        ch: character(record.scalar),
        info,
        data: index as u32,
    }
}

/// The parts of the marked records by scalar, and every part's properties, each once.
fn lent(records: &[(Record, Vec<Part>)]) -> Lent {
    let (mut marked, mut parts) = (Vec::<Parts>::new(), Vec::<RustPart>::new());
    for (record, own) in records {
        let of = character(record.scalar);
        if record.marks.decompose && marked.iter().all(|one| one.of != of) {
            let mut chars = ['\0'; 3];
            own.iter().zip(&mut chars).for_each(|(part, ch)| *ch = character(part.scalar));
            marked.push(Parts { of, chars, len: own.len() });
        }
        for part in own {
            let ch = character(part.scalar);
            if parts.iter().all(|one| one.ch != ch) {
                parts.push(RustPart {
                    ch,
                    properties: properties(part.cluster_break, part.use_class, part.category),
                });
            }
        }
    }
    Lent::Parts(marked.leak(), parts.leak())
}

impl Sample {
    /// `classes` has a line for each scalar, with its line class by number, and comments.
    pub fn of(line: &str, classes: &str, size: usize) -> Self {
        let classes: HashMap<u32, u8> = classes
            .lines()
            .filter(|line| !line.starts_with('#'))
            .map(|line| {
                let fields: Vec<&str> = line.split(' ').collect();
                (scalar(fields[0]), number(fields[1]))
            })
            .collect();
        let columns: Vec<&str> = line.trim_end().split(';').collect();
        let parts: Vec<Part> = fields(columns[5]).iter().map(|item| part(item)).collect();
        let records: Vec<(Record, Vec<Part>)> = fields(columns[4])
            .iter()
            .map(|item| {
                let first: usize = number::<u16>(item[12]).into();
                let count: usize = number::<u8>(item[13]).into();
                (record(item), parts[first..first + count].to_vec())
            })
            .collect();
        let mut sample = Self {
            parser: parser(columns[0], columns[2]),
            text: Text::new(),
            tokens: Vec::new(),
            lines: Vec::new(),
            words: Vec::new(),
            both: Vec::new(),
            lent: lent(&records),
        };
        for (index, (record, own)) in records.iter().cycle().take(size).enumerate() {
            sample.text.push_with_parts(*record, own);
            sample.tokens.push(token(record, index));
            let line = classes[&record.scalar];
            let word = WordRecord {
                class: WordBreak::from_code(record.word).unwrap(),
                pictograph: record.marks.pictograph,
            };
            sample.lines.push(line);
            sample.words.push(word);
            sample.both.push(with_line(word, line));
        }
        sample
    }
}
