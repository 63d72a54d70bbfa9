//! How long Unicode's property files take: `cargo bench --bench properties -- CLUSTER-FILE WORD-FILE`. Prints, for each file, its bytes, its
//! ranges, and the least time of many readings; then the lookup of all scalars.

use std::ffi::OsString;
use std::hint::black_box;
use std::time::{Duration, Instant};
use std::{env, fs};

use ezherbut::{Properties, PropertyFile};

const ROUNDS: usize = 300;

/// The least time of many calls.
fn least(rounds: usize, mut call: impl FnMut()) -> Duration {
    let timed = |_| {
        let start = Instant::now();
        call();
        start.elapsed()
    };
    (0..rounds).map(timed).min().expect("there are rounds")
}

fn milliseconds(time: Duration) -> String {
    format!("{:.3} ms", time.as_secs_f64() * 1000.0)
}

fn main() {
    // cargo adds the word --bench
    let paths: Vec<OsString> = env::args_os().skip(1).filter(|word| word != "--bench").collect();
    let [cluster, word] = &paths[..] else {
        eprintln!("usage: cargo bench --bench properties -- CLUSTER-FILE WORD-FILE");
        std::process::exit(2);
    };
    let mut properties = Properties::new();
    for (path, file) in [(cluster, PropertyFile::Cluster), (word, PropertyFile::Word)] {
        let bytes = fs::read(path).expect("a file that can be read");
        let time = least(ROUNDS, || {
            black_box(Properties::new().read(file, black_box(&bytes))).expect("a property file");
        });
        let ranges = properties.read(file, &bytes).expect("a property file");
        println!("{file:?}: {} bytes, {ranges} ranges, {}", bytes.len(), milliseconds(time));
    }
    let scalars: Vec<u32> = (0..=char::MAX as u32).filter(|&scalar| char::from_u32(scalar).is_some()).collect();
    let (mut breaks, mut words) = (vec![0; scalars.len()], vec![0; scalars.len()]);
    let time = least(ROUNDS / 100, || {
        properties
            .classes_into(black_box(&scalars), &mut breaks, &mut words)
            .expect("scalars");
    });
    println!("lookup: {} scalars, {}", scalars.len(), milliseconds(time));
}
