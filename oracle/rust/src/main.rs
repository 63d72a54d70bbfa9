//! The judge of crate mode, of words and of lines: the files of swash 0.2.10, unchanged, over lent columns.
//! Reads cases from standard input and prints one line of answers for each. Lines that are
//! not its business (whole mode, full runs, texts that are refused (SCOPE 5), lines not of the
//! layout) are answered `-`.

#![allow(dead_code, unused_imports)] // mod.rs names more than the parsers need.

mod answer;
mod case;
#[cfg(feature = "coverage")]
mod coverage;
mod lines;
mod text;

use std::io::{self, BufRead, BufWriter, Write};

/// The answer to a line; in a build for coverage, the blocks that the line takes.
fn answer(line: &str) -> Option<String> {
    #[cfg(feature = "coverage")]
    coverage::clear();
    let answer = case::read(line).map(|case| answer::of(&case));
    #[cfg(feature = "coverage")]
    let answer = answer.map(|_| coverage::taken());
    answer
}

fn main() -> io::Result<()> {
    let mut out = BufWriter::new(io::stdout().lock());
    #[cfg(feature = "coverage")]
    writeln!(out, "{}", coverage::blocks())?;
    for line in io::stdin().lock().split(b'\n') {
        let line = String::from_utf8_lossy(&line?).into_owned();
        if line.trim_matches(' ').is_empty() || line.starts_with('#') {
            continue;
        }
        writeln!(out, "{}", answer(&line).as_deref().unwrap_or("-"))?;
    }
    out.flush()
}
