//! Labels wrapped into a box: `cargo run --example wrap`, from `bindings/rust`, after `tools/archive exports`.
//!
//! A line takes as many pieces as fit. A piece is only broken where it is wider than the box; where a break is mandatory a new line
//! begins. Spaces at the end of a line take no room.
//!
//! A program asks its own Unicode tables for the classes. Here a small lookup has those of the sample labels, and a character that it
//! does not know is an error, never a default.

use ezherbut::codes::{line_break as l, word_break as w, PAIR_TABLE};
use ezherbut::{lines, Piece, Refusal, Strength};

/// The labels, the width of their box and how strongly words hold together.
const LABELS: [(&str, usize, Strength); 6] = [
    ("liver, right lobe (14-6 cm)", 12, Strength::Normal),
    ("liver, right lobe\ngallbladder: no stones", 12, Strength::Normal),
    ("upper gastroduodenoscopy 2.0", 12, Strength::Normal),
    ("upper gastroduodenoscopy 2.0", 12, Strength::BreakAll),
    ("検査 肝臓の右葉、14\u{A0}cm", 12, Strength::Normal),
    ("検査 肝臓の右葉、14\u{A0}cm", 12, Strength::KeepAll),
];

/// What a box has to know of a character: its line class, its word class and its width.
struct Known(u8, u8, usize);

fn known(character: char) -> Known {
    match character {
        'a'..='z' => Known(l::AL, w::ALETTER, 1),
        '0'..='9' => Known(l::NU, w::NU, 1),
        ' ' => Known(l::SP, w::WSEGSPACE, 1),
        '\u{A0}' => Known(l::GL, w::OTHER, 1),
        '\n' => Known(l::LF, w::LF, 0),
        '-' => Known(l::HY, w::OTHER, 1),
        ',' => Known(l::IS, w::MN, 1),
        ':' => Known(l::IS, w::ML, 1),
        '.' => Known(l::IS, w::MIDNUMLET, 1),
        '(' => Known(l::OP, w::OTHER, 1),
        ')' => Known(l::CP, w::OTHER, 1),
        'の' | '一'..='鿿' => Known(l::ID, w::OTHER, 2),
        '、' => Known(l::CL, w::OTHER, 2),
        _ => panic!("no classes for {character:?}"),
    }
}

/// The lines of a label in a box of that width.
fn wrapped(label: &str, width: usize, strength: Strength) -> Result<Vec<String>, Refusal> {
    let characters: Vec<char> = label.chars().collect();
    let classes: Vec<u8> = characters.iter().map(|&character| known(character).0).collect();
    let words: Vec<u8> = characters.iter().map(|&character| known(character).1).collect();
    let mut done = vec![String::new()];
    for Piece { records, mandatory } in lines(&classes, &words, &vec![0; words.len()], &PAIR_TABLE, strength)? {
        let piece: String = characters[records].iter().collect();
        let mut line = done.pop().expect("there is always a last line");
        if !line.is_empty() && wide(&line) + wide(without_end(&piece)) > width {
            done.push(std::mem::take(&mut line));
        }
        for character in piece.chars() {
            // a line that has no room for a character of the piece began with it: the piece is wider than the box
            if wide(&line) + known(character).2 > width && !is_end(character) {
                done.push(std::mem::take(&mut line));
            }
            line.push(character);
        }
        done.push(line);
        if mandatory {
            done.push(String::new());
        }
    }
    Ok(done.iter().map(|line| without_end(line).to_string()).collect())
}

/// What takes no room at the end of a line.
fn is_end(character: char) -> bool {
    character == ' ' || character == '\n'
}

fn without_end(text: &str) -> &str {
    text.trim_end_matches(is_end)
}

fn wide(text: &str) -> usize {
    text.chars().map(|character| known(character).2).sum()
}

/// Every label in its box.
pub fn drawn() -> String {
    let mut drawn = String::new();
    for (label, width, strength) in LABELS {
        drawn += &format!("{strength:?}\n┌{}┐\n", "─".repeat(width));
        for line in wrapped(label, width, strength).expect("classes of the lists") {
            drawn += &format!("│{line}{}│\n", " ".repeat(width - wide(&line)));
        }
        drawn += &format!("└{}┘\n", "─".repeat(width));
    }
    drawn
}

fn main() {
    print!("{}", drawn());
}
