//! Property files: what is read and what is refused, with its line; files that are cut; Unicode's own files.

use std::fs;
use std::path::PathBuf;

use ezherbut::codes::{cluster_break as c, word_break as w};
use ezherbut::{Classes, LineError, Properties, PropertyFile, PropertyRange, Refusal, Side};

#[allow(dead_code)]
#[path = "../examples/properties.rs"]
mod program;

/// How many bytes one call of the library takes.
const MOST: usize = 65_536;

/// The ranges of a file as numbers.
fn ranges(properties: &Properties, file: PropertyFile) -> Vec<(u32, u32, u8)> {
    let numbers = |PropertyRange { scalars, code }| (*scalars.start(), *scalars.end(), code);
    properties.ranges(file).map(numbers).collect()
}

/// What the lines of a cluster file hold.
fn clusters(lines: &[u8]) -> Result<Vec<(u32, u32, u8)>, LineError> {
    let mut properties = Properties::new();
    let count = properties.read_clusters(lines)?;
    let held = ranges(&properties, PropertyFile::Cluster);
    assert_eq!(held.len(), count);
    Ok(held)
}

/// The error that lines of a cluster file give, as it is printed.
fn error(lines: &[u8]) -> String {
    clusters(lines).unwrap_err().to_string()
}

#[test]
fn lines_as_published() {
    let lines =
        b"# GraphemeBreakProperty-15.0.0.txt\n\n000D          ; CR # Cc       <control-000D>\n0300..036F    ; Extend # Mn [112] \xFF\n";
    assert_eq!(clusters(lines), Ok(vec![(0xD, 0xD, c::CR), (0x300, 0x36F, c::EX)]));
    assert_eq!(clusters(b""), Ok(vec![]));
}

#[test]
fn line_ends() {
    let both = vec![(0xA, 0xA, c::LF), (0xD, 0xD, c::CR)];
    assert_eq!(clusters(b"000A;LF\r\n000D;CR\r\n"), Ok(both.clone()));
    assert_eq!(clusters(b"000A;LF\n000D;CR"), Ok(both.clone()));
    assert_eq!(clusters(b"000A;LF\n000D;CR\r"), Ok(both));
    assert_eq!(error(b"000A;LF\r000D;CR\r"), r"line 1: 11 malformed line: 000A;LF\r000D;CR");
}

#[test]
fn a_misspelt_name() {
    assert_eq!(
        error(b"000A;LF\n0300..036F;Extand # Mn\n"),
        "line 2: 12 unknown value: 0300..036F;Extand # Mn"
    );
    assert_eq!(error(b"0300..036F;extend"), "line 1: 12 unknown value: 0300..036F;extend");
    assert_eq!(error(b"0300..036F;EX"), "line 1: 12 unknown value: 0300..036F;EX");
    // the name is one of the other file
    assert_eq!(error(b"0041;ALetter\r\n"), "line 1: 12 unknown value: 0041;ALetter");
    let refused = Properties::new().read_words(b"0041;ALetter\n0300;SpacingMark").unwrap_err();
    assert_eq!(
        (refused.number, refused.line, refused.bytes.as_slice()),
        (12, 2, &b"0300;SpacingMark"[..])
    );
}

#[test]
fn malformed_lines() {
    assert_eq!(error(b"036F..0300;Extend\n"), "line 1: 11 malformed line: 036F..0300;Extend");
    assert_eq!(error(b"0300\n"), "line 1: 11 malformed line: 0300");
    assert_eq!(error(b"0300;\n"), "line 1: 11 malformed line: 0300;");
    assert_eq!(error(b"\n\n110000;Extend\n"), "line 3: 11 malformed line: 110000;Extend");
    // what cannot be seen is printed too: a byte order mark, a no-break space, a tab
    assert_eq!(
        error(b"\xEF\xBB\xBF# a comment\n"),
        r"line 1: 11 malformed line: \u{feff}# a comment"
    );
    assert_eq!(error(b"0300\xC2\xA0;Extend"), r"line 1: 11 malformed line: 0300\u{a0};Extend");
    assert_eq!(error(b"0300\t036F;Extend"), r"line 1: 11 malformed line: 0300\t036F;Extend");
    assert_eq!(error(b"0300;Ext\xFFend\"'\\"), "line 1: 12 unknown value: 0300;Ext\u{FFFD}end\"'\\");
}

#[test]
fn ranges_that_meet() {
    let meets = "line 2: 13 range that meets an earlier one: 036F..0370;Extend";
    assert_eq!(error(b"0300..036F;Extend\n036F..0370;Extend\n"), meets);
    assert_eq!(error(b"0041;Other\n0041;L\n"), "line 2: 13 range that meets an earlier one: 0041;L");
    // to touch is no meeting, and each file has ranges of its own
    let mut properties = Properties::new();
    assert_eq!(properties.read_clusters(b"0370;Extend\n0300..036F;Extend\n"), Ok(2));
    assert_eq!(properties.read_words(b"0300;Extend"), Ok(1));
    let held = properties.clone();
    assert_eq!(properties.read_clusters(b"0299;L\n036F;Extend").unwrap_err().line, 2);
    assert_eq!(properties, held);
}

#[test]
fn the_lowest_line_decides() {
    assert_eq!(clusters(b"0041;L\n0041;L\nx").unwrap_err().number, 13);
    assert_eq!(clusters(b"0041;L\nx\n0041;L").unwrap_err().number, 11);
}

/// Lines of a range each, from a scalar on, and a comment that makes a line as long as it is asked for.
fn long_file(from: u32, lines: u32, length: usize) -> Vec<u8> {
    let line = |scalar: u32| format!("{scalar:06X};Extend{}\n", "#".repeat(length - 14));
    (from..from + lines).flat_map(|scalar| line(scalar).into_bytes()).collect()
}

#[test]
fn a_file_in_pieces() {
    // the cut falls inside of a line, at its end, and after it
    for length in [99, 128, 64, 4096, MOST / 2, MOST / 2 + 1, MOST] {
        let lines = (3 * MOST / length) as u32 + 1;
        let bytes = long_file(0x10000, lines, length);
        let held = clusters(&bytes).unwrap();
        let all: Vec<(u32, u32, u8)> = (0x10000..0x10000 + lines).map(|scalar| (scalar, scalar, c::EX)).collect();
        assert_eq!(held, all, "{length}");
    }
}

#[test]
fn the_line_in_the_whole_file() {
    let mut bytes = long_file(0x10000, 2000, 100);
    bytes.extend(b"010000;Extend # again\r\n010001;Extend\n");
    let meets = "line 2001: 13 range that meets an earlier one: 010000;Extend # again";
    assert_eq!(error(&bytes), meets);
    // nothing is kept of the pieces before
    let mut properties = Properties::new();
    properties.read_clusters(b"0041;L\n").unwrap();
    let held = properties.clone();
    assert_eq!(properties.read_clusters(&bytes).unwrap_err().line, 2001);
    assert_eq!(properties, held);
    assert_eq!(properties.classes(&[0x10000]).unwrap().breaks, [c::XX]);
}

#[test]
fn a_line_that_is_too_long() {
    let mut bytes = b"0041;L\n".to_vec();
    bytes.extend(long_file(0x10000, 1, MOST + 1));
    let refused = clusters(&bytes).unwrap_err();
    assert_eq!((refused.number, refused.line, refused.bytes.len()), (1, 2, MOST));
    let shown = format!("line 2: 1 line of more than 65,536 bytes: 010000;Extend{}…", "#".repeat(187));
    assert_eq!(refused.to_string(), shown);
    // the last line needs no end, and then has a byte more
    let mut bytes = long_file(0x10000, 1, MOST + 1);
    bytes.pop();
    assert_eq!(clusters(&bytes), Ok(vec![(0x10000, 0x10000, c::EX)]));
}

#[test]
fn the_lookup() {
    let mut properties = Properties::new();
    assert_eq!(properties.classes(&[]), Ok(Classes::default()));
    properties
        .read_clusters(b"0300..036F;Extend\n1F1E6..1F1FF;Regional_Indicator")
        .unwrap();
    properties.read_words(b"0041..005A;ALetter\n0300..036F;Extend").unwrap();
    let classes = Classes {
        breaks: vec![c::XX, c::EX, c::RI, c::XX],
        words: vec![w::ALETTER, w::EXTEND, w::OTHER, w::OTHER],
    };
    assert_eq!(properties.classes(&[0x5A, 0x36F, 0x1F1FF, 0x10FFFF]), Ok(classes.clone()));
    assert_eq!(properties.classes_of("Z\u{36F}\u{1F1FF}\u{10FFFF}"), classes);
    let bad = |index| Refusal {
        number: 3,
        side: Side::Record,
        index,
    };
    assert_eq!(properties.classes(&[0x41, 0xD800]), Err(bad(1)));
    assert_eq!(properties.classes(&[0x110000]), Err(bad(0)));
    let (mut breaks, mut words) = ([7; 2], [7; 1]);
    assert_eq!(properties.classes_into(&[0x300], &mut breaks, &mut words), Ok(()));
    assert_eq!((breaks, words), ([c::EX, 7], [w::EXTEND]));
    let short = properties.classes_into(&[0x41, 0x42], &mut breaks, &mut words).unwrap_err();
    assert_eq!((short.number, breaks, words), (9, [c::EX, 7], [w::EXTEND]));
}

/// A property file of Unicode's, from Debian's `unicode-data` or from the folder that `EZHERBUT_UNICODE` names.
fn published(name: &str) -> Option<Vec<u8>> {
    let folder = std::env::var_os("EZHERBUT_UNICODE").unwrap_or("/usr/share/unicode".into());
    let path = PathBuf::from(folder).join("auxiliary").join(name);
    let bytes = fs::read(&path).ok();
    if bytes.is_none() {
        println!("skipped: no {}", path.display());
    }
    bytes
}

/// The code of every scalar, by a reading of its own: no line is judged.
fn simply_read(bytes: &[u8], names: &str) -> Vec<u8> {
    let mut codes = vec![0; 0x110000];
    for line in std::str::from_utf8(bytes).unwrap().lines() {
        let Some((scalars, value)) = line.split('#').next().unwrap().split_once(';') else {
            continue;
        };
        let (first, last) = scalars.trim().split_once("..").unwrap_or((scalars.trim(), scalars.trim()));
        let number = |digits| usize::from_str_radix(digits, 16).unwrap();
        let code = names.split(' ').position(|name| name == value.trim()).expect(line);
        codes[number(first)..=number(last)].fill(code as u8);
    }
    codes
}

/// The names of each file's values, in the order of their codes.
const CLUSTER_NAMES: &str = "Other Control CR LF L V T LV LVT Regional_Indicator Extend SpacingMark ZWJ Prepend";
const WORD_NAMES: &str = "Other CR LF Newline Extend ZWJ Format WSegSpace ALetter Hebrew_Letter MidLetter MidNumLet MidNum Numeric \
    Single_Quote Double_Quote Katakana ExtendNumLet Regional_Indicator";

#[test]
fn the_files_of_unicode_15() {
    let (Some(cluster), Some(word)) = (published("GraphemeBreakProperty.txt"), published("WordBreakProperty.txt")) else {
        return;
    };
    let mut properties = Properties::new();
    assert_eq!(properties.read_clusters(&cluster), Ok(1391));
    assert_eq!(properties.read_words(&word), Ok(1359));
    for file in [PropertyFile::Cluster, PropertyFile::Word] {
        assert!(ranges(&properties, file).windows(2).all(|pair| pair[0].1 < pair[1].0));
    }
    let (breaks, words) = (simply_read(&cluster, CLUSTER_NAMES), simply_read(&word, WORD_NAMES));
    let scalars: Vec<u32> = (0..0x110000).filter(|scalar| !(0xD800..0xE000).contains(scalar)).collect();
    let classes = properties.classes(&scalars).unwrap();
    let of = |codes: &[u8]| -> Vec<u8> { scalars.iter().map(|&scalar| codes[scalar as usize]).collect() };
    assert_eq!(scalars.len(), 0x110000 - 0x800);
    assert!(classes.breaks == of(&breaks));
    assert!(classes.words == of(&words));
}

/// What the program answers to two arguments: its standard output, and its exit status.
fn answered(arguments: [&PathBuf; 2]) -> (String, u8) {
    let outcome = program::outcome(&arguments.map(|path| path.clone().into_os_string()));
    (outcome.out + &outcome.err, outcome.status)
}

#[test]
fn the_program() {
    let folder = std::env::temp_dir().join(format!("ezherbut-properties-{}", std::process::id()));
    fs::create_dir_all(&folder).unwrap();
    let write = |name: &str, bytes: &[u8]| {
        let path = folder.join(name);
        fs::write(&path, bytes).unwrap();
        path
    };
    let good = write("good", b"000D;CR\n000A;LF\n");
    let one = write("one", b"000D;CR");
    let bad = write("bad", b"000D;CR\n000B;VT\n");
    let (g, o, b) = (good.display(), one.display(), bad.display());
    assert_eq!(answered([&good, &one]), (format!("{g}: 2 ranges\n{o}: 1 range\n"), 0));
    assert_eq!(
        answered([&bad, &good]),
        (format!("{b}: line 2: 12 unknown value: 000B;VT\n{g}: 2 ranges\n"), 1)
    );
    let (said, status) = answered([&folder.join("none"), &good]);
    assert!(said.starts_with("properties: ") && status == 2, "{said}");
    fs::remove_dir_all(&folder).unwrap();
    for (arguments, status) in [(&["--help"][..], 0), (&[], 2), (&["a"], 2), (&["a", "b", "c"], 2)] {
        let arguments: Vec<_> = arguments.iter().map(|&argument| argument.into()).collect();
        let outcome = program::outcome(&arguments);
        assert!((outcome.out + &outcome.err).starts_with("usage: properties CLUSTER-FILE WORD-FILE\n"));
        assert_eq!(outcome.status, status);
    }
}
