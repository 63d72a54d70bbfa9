//! What Unicode's property files hold: `cargo run --example properties GraphemeBreakProperty.txt WordBreakProperty.txt`, from
//! `bindings/rust`, after `tools/archive exports`.
//!
//! Prints how many ranges each file has, or which line stands in the way and why. A name that is misspelt, or ranges that meet, must not
//! become a default that nobody sees: so a file is read whole or not at all.

use std::ffi::OsString;
use std::process::ExitCode;
use std::{env, fs};

use ezherbut::{Properties, PropertyFile};

const USAGE: &str = "\
usage: properties CLUSTER-FILE WORD-FILE

Reads GraphemeBreakProperty.txt and WordBreakProperty.txt, of any edition of Unicode, and prints how many ranges each has, or
the first line that stands in the way, why, and the line itself.

  11 malformed line                   not \"0041;VALUE\" or \"0041..005A;VALUE\", perhaps with a comment after #
  12 unknown value                    no name of that file; names are compared letter by letter
  13 range that meets an earlier one  a scalar would have two values

Exit status: 0 both files were read, 1 a line stands in the way, 2 the arguments are not two files that can be read.
";

/// What the program prints, and its exit status.
pub struct Outcome {
    pub out: String,
    pub err: String,
    pub status: u8,
}

impl Outcome {
    fn misused(err: String) -> Outcome {
        Outcome {
            out: String::new(),
            err,
            status: 2,
        }
    }
}

/// What is said of a file by that name, and whether it was read.
fn said(name: &str, file: PropertyFile, bytes: &[u8], properties: &mut Properties) -> (String, bool) {
    match properties.read(file, bytes) {
        Ok(1) => (format!("{name}: 1 range\n"), true),
        Ok(ranges) => (format!("{name}: {ranges} ranges\n"), true),
        Err(error) => (format!("{name}: {error}\n"), false),
    }
}

/// The program, by its arguments.
pub fn outcome(arguments: &[OsString]) -> Outcome {
    if arguments.iter().any(|argument| argument == "--help") {
        return Outcome {
            out: USAGE.to_string(),
            err: String::new(),
            status: 0,
        };
    }
    let [cluster, word] = arguments else {
        return Outcome::misused(USAGE.to_string());
    };
    let mut properties = Properties::new();
    let mut out = String::new();
    let mut are_read = true;
    for (path, file) in [(cluster, PropertyFile::Cluster), (word, PropertyFile::Word)] {
        let name = path.to_string_lossy();
        let bytes = match fs::read(path) {
            Ok(bytes) => bytes,
            Err(error) => return Outcome::misused(format!("properties: {name}: {error}\n")),
        };
        let (line, is_read) = said(&name, file, &bytes, &mut properties);
        out += &line;
        are_read &= is_read;
    }
    Outcome {
        out,
        err: String::new(),
        status: if are_read { 0 } else { 1 },
    }
}

fn main() -> ExitCode {
    let arguments: Vec<OsString> = env::args_os().skip(1).collect();
    let Outcome { out, err, status } = outcome(&arguments);
    print!("{out}");
    eprint!("{err}");
    ExitCode::from(status)
}
