//! Answers in the form that the cases ask for.

use crate::case::{Case, Kind};
use crate::lines::word_item;
use crate::text::cluster::{CharCluster, Emoji, Parser, Whitespace};
use crate::text::{words, Record, State, WordBreak};
use std::fmt::Write;

pub fn of(case: &Case) -> String {
    match case {
        Case::Clusters { kind, feed, tokens } => {
            let parser = match *kind {
                Kind::Simple => Parser::simple(feed.clone()),
                Kind::Myanmar => Parser::myanmar(feed.clone()),
                Kind::Complex(script) => Parser::complex(script, feed.clone()),
            };
            calls(parser, *tokens)
        }
        Case::Run(records) => words::run(records).iter().map(|&answer| digit(answer)).collect::<Vec<_>>().join(" "),
        Case::Step { state, record, next } => step(*state, *record, *next),
        Case::Line(case) => case.answer(),
    }
}

fn digit(answer: bool) -> &'static str {
    if answer { "1" } else { "0" }
}

fn calls(parser: Parser, tokens: usize) -> String {
    let mut line = tokens.to_string();
    for call in parser.calls(tokens) {
        let _ = write!(line, "|{}>{}:{}:{}", call.start, call.next, characters(&call.cluster), info(&call.cluster));
    }
    line
}

fn characters(cluster: &CharCluster) -> String {
    let each = cluster.pushed.iter().map(|pushed| {
        let token = pushed.token;
        format!("{:04X}.{}.{}.{}", token.ch as u32, pushed.class as u8, token.data, pushed.noted)
    });
    each.collect::<Vec<_>>().join(",")
}

fn info(cluster: &CharCluster) -> String {
    let info = cluster.info();
    let emoji = match info.emoji {
        Emoji::None => 'n',
        Emoji::Default => 'D',
        Emoji::Text => 'T',
        Emoji::Color => 'C',
    };
    let space = match info.space {
        Whitespace::None => "-".to_string(),
        Whitespace::Newline => "N".to_string(),
        Whitespace::Scalar(ch) => format!("{:04X}", ch as u32),
    };
    let broken = if info.broken { 'B' } else { '.' };
    let normalize = if cluster.normalize { 'Z' } else { '.' };
    format!("{emoji}{space}{broken}{normalize}")
}

/// With each of the four settings of the two flags that are left out (SCOPE 7.1): no answer depends
/// on them, nor does the state that is kept.
fn step(state: State, record: Record, next: Option<WordBreak>) -> String {
    let settings = [(false, false), (false, true), (true, false), (true, true)];
    let [one, rest @ ..] = settings.map(|flags| words::step(state, flags, record, next));
    if rest.iter().any(|other| *other != one) {
        return "! the flags change the answer".to_string();
    }
    let (answer, after) = one;
    format!("{};{}", answer as u8, word_item(after))
}
