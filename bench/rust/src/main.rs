//! The full run with its check, the stepping calls, the word run and the run of lines of the proved library beside the Rust of swash
//! 0.2.10, in one process, over the same texts. Prints one line for each text, size and sort of call.
//!
//!     bench FOLDER-OF-TEXTS ROUNDS [run|steps|words|lines]..             all sorts of call, or these
//!     bench FOLDER-OF-TEXTS TEXT SIZE run|steps|words|lines ours|rust TIMES    only calls one side, so that its instructions can be counted

#![allow(dead_code, unused_imports)] // the shims name more than this program needs.

mod sample;
mod text;

use ezherbut::codes::PAIR_TABLE;
use ezherbut::{Mode, Parser, Strength};
use sample::Sample;
use std::hint::black_box;
use std::time::Instant;
use text::cluster::{CharCluster, Parser as RustParser};
use text::{words, Script};

const SIZES: [usize; 3] = [16, 256, 4096];

/// What both sides write: scalars, classes and cluster numbers.
struct Out {
    scalars: Vec<u32>,
    classes: Vec<u8>,
    numbers: Vec<u16>,
}

impl Out {
    fn new(size: usize) -> Self {
        Self {
            scalars: vec![0; 6 * size],
            classes: vec![0; 6 * size],
            numbers: vec![0; 6 * size],
        }
    }

    fn written(&self, n: usize) -> (&[u32], &[u8], &[u16]) {
        (&self.scalars[..n], &self.classes[..n], &self.numbers[..n])
    }
}

fn our_run(sample: &Sample, out: &mut Out) -> usize {
    let columns = sample.text.columns();
    let counts = columns.run_into(sample.parser, Mode::Crate, &mut out.scalars, &mut out.classes, &mut out.numbers);
    counts.expect("an accepted text").characters
}

fn rust_parser(sample: &Sample) -> RustParser<'_> {
    match sample.parser {
        Parser::Simple => RustParser::simple(&sample.tokens),
        Parser::Myanmar => RustParser::myanmar(&sample.tokens),
        Parser::Complex => RustParser::complex(Script::Any, &sample.tokens),
        Parser::Khmer => RustParser::complex(Script::Khmer, &sample.tokens),
    }
}

fn rust_run(sample: &Sample, out: &mut Out) -> usize {
    sample.lent.lend();
    let mut parser = rust_parser(sample);
    let mut cluster = CharCluster::new();
    let (mut at, mut number) = (0, 0);
    while parser.next(&mut cluster) {
        for pushed in cluster.pushed() {
            out.scalars[at] = pushed.ch as u32;
            out.classes[at] = pushed.class as u8;
            out.numbers[at] = number;
            at += 1;
        }
        number += 1;
    }
    at
}

/// All calls from the start to the end; every one judges the whole text.
fn our_steps(sample: &Sample, _: &mut Out) -> usize {
    let columns = sample.text.columns();
    let (mut place, mut pushed) = (0, 0);
    loop {
        let step = columns.step(sample.parser, Mode::Crate, place).expect("an accepted text");
        let Some(cluster) = step.cluster else {
            return pushed;
        };
        pushed += black_box(cluster).characters.len();
        place = step.place;
    }
}

fn rust_steps(sample: &Sample, _: &mut Out) -> usize {
    sample.lent.lend();
    let (mut parser, mut cluster, mut pushed) = (rust_parser(sample), CharCluster::new(), 0);
    while parser.next(&mut cluster) {
        pushed += black_box(&cluster).pushed().len();
    }
    pushed
}

fn our_words(sample: &Sample, out: &mut Out) -> usize {
    let columns = sample.text.columns();
    ezherbut::word_run(columns.words, columns.pictographs, &mut out.classes).expect("accepted words");
    columns.words.len()
}

fn rust_words(sample: &Sample, out: &mut Out) -> usize {
    for (cell, answer) in out.classes.iter_mut().zip(words::run(&sample.words)) {
        *cell = answer as u8;
    }
    sample.words.len()
}

/// The answers of `next`: lines and words.
fn our_lines(sample: &Sample, out: &mut Out) -> usize {
    let columns = sample.text.columns();
    let (words, pictographs) = (columns.words, columns.pictographs);
    let run = ezherbut::line_run(&sample.lines, words, pictographs, &PAIR_TABLE, Strength::Normal, &mut out.classes);
    run.expect("accepted lines");
    sample.lines.len()
}

fn rust_lines(sample: &Sample, out: &mut Out) -> usize {
    for (cell, answer) in out.classes.iter_mut().zip(words::run_both(&sample.both)) {
        *cell = answer as u8;
    }
    sample.lines.len()
}

type Side = fn(&Sample, &mut Out) -> usize;

/// Nanoseconds a record of some repetitions.
fn time(side: Side, sample: &Sample, out: &mut Out, repetitions: usize) -> f64 {
    let start = Instant::now();
    for _ in 0..repetitions {
        black_box(side(black_box(sample), out));
        black_box(&out.classes);
    }
    start.elapsed().as_nanos() as f64 / (repetitions * sample.text.len()) as f64
}

/// The least of the rounds, and the largest as a multiple of it.
fn least(times: &[f64]) -> (f64, f64) {
    let least = times.iter().copied().fold(f64::INFINITY, f64::min);
    (least, times.iter().copied().fold(0.0, f64::max) / least)
}

/// Both sides in turn, round after round.
fn compare(name: &str, what: &str, sample: &Sample, ours: Side, rust: Side, rounds: usize) {
    let size = sample.text.len();
    let mut out = Out::new(size);
    let repetitions = if what == "steps" {
        (40_000_000 / (size * size)).clamp(1, 20_000)
    } else {
        400_000 / size
    };
    let mut times = (Vec::new(), Vec::new());
    for _ in 0..rounds {
        times.0.push(time(ours, sample, &mut out, repetitions));
        times.1.push(time(rust, sample, &mut out, repetitions));
    }
    let ((our, our_spread), (their, their_spread)) = (least(&times.0), least(&times.1));
    println!(
        "{name} {size} {what} ours {our:.1} x{our_spread:.2} rust {their:.1} x{their_spread:.2} ratio {:.2}",
        our / their
    );
}

/// A time is only worth something where the answers are equal.
fn agree(sample: &Sample) {
    let (mut one, mut two) = (Out::new(sample.text.len()), Out::new(sample.text.len()));
    let n = our_run(sample, &mut one);
    assert!(
        n == rust_run(sample, &mut two) && one.written(n) == two.written(n),
        "the runs differ"
    );
    assert!(our_steps(sample, &mut one) == rust_steps(sample, &mut two), "the calls differ");
    let n = our_words(sample, &mut one);
    assert!(
        n == rust_words(sample, &mut two) && one.written(n).1 == two.written(n).1,
        "the words differ"
    );
    let n = our_lines(sample, &mut one);
    assert!(
        n == rust_lines(sample, &mut two) && one.written(n).1 == two.written(n).1,
        "the lines differ"
    );
}

const SIDES: [(&str, Side, Side); 4] = [
    ("run", our_run, rust_run),
    ("steps", our_steps, rust_steps),
    ("words", our_words, rust_words),
    ("lines", our_lines, rust_lines),
];

fn sample(folder: &str, name: &str, size: usize) -> Sample {
    let read = |name: &str| std::fs::read_to_string(format!("{folder}/{name}.txt")).expect("a file of the folder");
    Sample::of(&read(name), &read("line-classes"), size)
}

fn measure(folder: &str, rounds: usize, only: &[&str]) {
    for name in ["english", "myanmar", "hindi", "khmer", "emoji"] {
        for size in SIZES {
            let sample = sample(folder, name, size);
            agree(&sample);
            for (what, ours, rust) in SIDES.into_iter().filter(|one| only.is_empty() || only.contains(&one.0)) {
                compare(name, what, &sample, ours, rust, rounds);
            }
        }
    }
}

fn call(sample: &Sample, what: &str, side: &str, times: usize) {
    let (_, ours, rust) = SIDES.iter().find(|one| one.0 == what).expect("run, steps, words or lines");
    let side = if side == "ours" { ours } else { rust };
    let mut out = Out::new(sample.text.len());
    for _ in 0..times {
        black_box(side(black_box(sample), &mut out));
        black_box(&out.classes);
    }
}

fn main() {
    let words: Vec<String> = std::env::args().skip(1).collect();
    let words: Vec<&str> = words.iter().map(String::as_str).collect();
    match words[..] {
        [folder, rounds, ref only @ ..] if rounds.parse::<usize>().is_ok() => measure(folder, rounds.parse().unwrap(), only),
        [folder, name, size, what, side, times] => {
            let sample = sample(folder, name, size.parse().expect("a size"));
            call(&sample, what, side, times.parse().expect("a number of times"));
        }
        _ => panic!("usage: bench FOLDER-OF-TEXTS (ROUNDS [WHAT].. | TEXT SIZE WHAT SIDE TIMES)"),
    }
}
