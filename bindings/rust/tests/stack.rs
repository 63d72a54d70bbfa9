//! Every call in little stack: any accepted text and any lines of a property file in a thread of 256 KiB, a label of up to 256 tokens in
//! 16 KiB.
//!
//! A thread of 16 KiB would not do: the system takes some of it for the thread itself, and the standard library for its start. So a label's
//! calls are made deep down in the stack of a larger thread, where 16 KiB are left above the guard page; the binding's own frames are
//! within them. A call that needs more meets the guard page, and the test ends by a signal.
#![cfg(target_os = "linux")]

use std::hint::black_box;
use std::thread;

use ezherbut::codes::{category, cluster_break, conjunct, line_break, myanmar_class, use_class, word_break, PAIR_TABLE};
use ezherbut::{edition_check, edition_run, edition_run_back, grapheme_run, grapheme_run_back, line_run, word_check, word_run};
use ezherbut::{BoundaryState, Columns, Edition, EditionState, GraphemeState, LineState, Mode, Parser, Properties, Strength, WordState};

const THREAD: usize = 256 * 1024;
const LABEL: usize = 16 * 1024;
const PARSERS: [Parser; 4] = [Parser::Simple, Parser::Myanmar, Parser::Complex, Parser::Khmer];
const MODES: [Mode; 2] = [Mode::Crate, Mode::Whole];
const EDITIONS: [Edition; 2] = [Edition::Unicode15_0, Edition::Unicode15_1];
const STRENGTHS: [Strength; 3] = [Strength::Normal, Strength::BreakAll, Strength::KeepAll];

/// A record: its scalar, its cluster break, USE and Myanmar class, and whether it is an emoji for each parser.
#[derive(Clone, Copy)]
struct Kind(u32, u8, u8, u8, bool);

const LETTER: Kind = Kind(0x61, cluster_break::XX, use_class::B, myanmar_class::C, false);
const JOINER: Kind = Kind(0x34F, cluster_break::EX, use_class::O, myanmar_class::O, false);
const EMOJI: Kind = Kind(0x1F600, cluster_break::XX, use_class::O, myanmar_class::O, true);
/// An emoji of a class that no data give it: such a text has no way through a full run's table.
const ODD: Kind = Kind(0x1F600, cluster_break::XX, use_class::B, myanmar_class::C, true);
const VS16: Kind = Kind(0xFE0F, cluster_break::EX, use_class::VS, myanmar_class::VS, false);
const ZWJ: Kind = Kind(0x200D, cluster_break::ZWJ, use_class::ZWJ, myanmar_class::O, false);

/// The columns of a text; the parts are three of one kind, which records share.
struct Lent {
    name: &'static str,
    tokens: usize,
    scalars: Vec<u32>,
    breaks: Vec<u8>,
    uses: Vec<u8>,
    myanmars: Vec<u8>,
    emojis: Vec<u8>,
    zeros: Vec<u8>,
    decomposes: Vec<u8>,
    firsts: Vec<u16>,
    counts: Vec<u8>,
}

impl Lent {
    /// A pattern over and over, to so many records or to the most that a text has.
    fn of(name: &'static str, tokens: usize, pattern: &[Kind]) -> Lent {
        let n = tokens.min(4096);
        let kinds = || pattern.iter().cycle().take(n);
        Lent {
            name,
            tokens: n,
            scalars: kinds().map(|kind| kind.0).collect(),
            breaks: kinds().map(|kind| kind.1).collect(),
            uses: kinds().map(|kind| kind.2).collect(),
            myanmars: kinds().map(|kind| kind.3).collect(),
            emojis: kinds().map(|kind| kind.4.into()).collect(),
            zeros: vec![0; n],
            decomposes: vec![0; n],
            firsts: vec![0; n],
            counts: vec![0; n],
        }
    }

    /// The same, each record with so many parts.
    fn in_parts(name: &'static str, records: usize, scalar: u32, decompose: u8, count: u8) -> Lent {
        let text = Lent::of(name, records, &[Kind(scalar, LETTER.1, use_class::VABV, LETTER.3, false)]);
        let n = text.tokens;
        Lent {
            decomposes: vec![decompose; n],
            counts: vec![count; n],
            // an unmarked sign that Khmer splits is its part and itself; a marked record without parts stands for itself in whole mode
            tokens: n * usize::from(if decompose == 1 { count.max(1) } else { 1 + count }),
            ..text
        }
    }

    fn columns(&self) -> Columns<'_> {
        Columns {
            scalars: &self.scalars,
            breaks: &self.breaks,
            uses: &self.uses,
            myanmars: &self.myanmars,
            categories: &self.zeros,
            words: &self.zeros,
            semojis: &self.emojis,
            memojis: &self.emojis,
            cemojis: &self.emojis,
            pictographs: &self.emojis,
            selectors: &self.zeros,
            decomposes: &self.decomposes,
            firsts: &self.firsts,
            counts: &self.counts,
            pscalars: &[0x17C1; 3],
            pbreaks: &[cluster_break::XX; 3],
            puses: &[use_class::VPRE; 3],
            pcategories: &[category::OTHER; 3],
        }
    }
}

/// Texts of about so many tokens, which go every way: by the table and by the calls, through runs of U+034F and deep into each grammar.
fn texts(tokens: usize) -> Vec<Lent> {
    use myanmar_class as m;
    use use_class as u;
    let complex = |&class: &u8| Kind(0x61, LETTER.1, class, m::REST, false);
    let myanmar = |&class: &u8| Kind(0x61, LETTER.1, u::REST, class, false);
    let numbers: Vec<Kind> = [u::N, u::VS, u::HN, u::N, u::VS].iter().map(complex).collect();
    let syllable: Vec<Kind> = [
        u::B, u::VS, u::CMABV, u::CMBLW, u::H, u::B, u::VS, u::CMABV, u::SUB, u::CMBLW, u::MPRE, u::MBLW, u::VPRE, u::VABV, u::VMPRE,
        u::VMPST, u::FABV, u::FM,
    ]
    .iter()
    .map(complex)
    .collect();
    let myanmar_syllable: Vec<Kind> = [
        m::C, m::VS, m::H, m::C, m::AS, m::MY, m::AS, m::MW, m::MH, m::VPRE, m::A, m::DB, m::VPST, m::MH, m::AS, m::VABV, m::A, m::DB, m::PT,
        m::A, m::DB, m::AS, m::V, m::J,
    ]
    .iter()
    .map(myanmar)
    .collect();
    let kinzi = [
        Kind(0x1004, LETTER.1, u::REST, m::C, false),
        Kind(0x103A, LETTER.1, u::REST, m::AS, false),
        Kind(0x1039, LETTER.1, u::REST, m::H, false),
    ];
    let mut joined = [JOINER; 33];
    joined[0] = LETTER;
    vec![
        Lent::of("letters", tokens, &[LETTER]),
        Lent::of("U+034F", tokens, &joined),
        Lent::of("emoji", tokens, &[EMOJI, VS16, ZWJ]),
        Lent::of("emoji before U+034F", tokens, &[EMOJI, VS16, JOINER, JOINER]),
        Lent::of("emoji of another class", tokens, &[ODD, VS16, JOINER, JOINER]),
        Lent::of("numbers", tokens, &numbers),
        Lent::of("syllables", tokens, &syllable),
        Lent::of("Myanmar syllables", tokens, &myanmar_syllable),
        Lent::of("kinzi", tokens, &kinzi),
        Lent::in_parts("marked, no parts", tokens, 0x61, 1, 0),
        Lent::in_parts("marked, three parts", tokens / 3, 0x61, 1, 3),
        Lent::in_parts("Khmer signs", tokens / 2, 0x17BE, 0, 1),
    ]
}

/// The columns that a full run and the runs of words, lines and UAX #29's clusters write.
struct Out {
    scalars: Vec<u32>,
    classes: Vec<u8>,
    numbers: Vec<u16>,
    words: Vec<u8>,
}

impl Out {
    fn new() -> Out {
        let cells = 6 * 4096;
        Out {
            scalars: vec![0; cells],
            classes: vec![0; cells],
            numbers: vec![0; cells],
            words: vec![0; cells],
        }
    }
}

/// Every call on a text, each made by `within`. What a call answers is looked at outside.
fn every_call(text: &Lent, out: &mut Out, within: impl Fn(&mut dyn FnMut())) {
    let columns = text.columns();
    let mut accepted = false;
    for parser in PARSERS {
        within(&mut || accepted = columns.check(parser).is_ok());
        assert!(accepted, "{}", text.name);
        for mode in MODES {
            within(&mut || {
                let run = columns.run_into(parser, mode, &mut out.scalars, &mut out.classes, &mut out.numbers);
                accepted = run.is_ok();
            });
            assert!(accepted, "{}", text.name);
            let mut place = 0;
            let mut over = false;
            while !over {
                let mut step = None;
                within(&mut || step = Some(columns.step(parser, mode, place)));
                let step = step.unwrap().expect(text.name);
                over = step.cluster.is_none();
                place = step.place;
            }
        }
    }
    within(&mut || accepted = word_check(columns.words, columns.pictographs).is_ok());
    assert!(accepted, "{}", text.name);
    within(&mut || accepted = word_run(columns.words, columns.pictographs, &mut out.words).is_ok());
    assert!(accepted, "{}", text.name);
    for run in [grapheme_run, grapheme_run_back] {
        within(&mut || accepted = run(columns.breaks, columns.semojis, &mut out.words).is_ok());
        assert!(accepted, "{}", text.name);
    }
    within(&mut || accepted = GraphemeState::START.step(cluster_break::XX, 0).is_ok());
    assert!(accepted, "{}", text.name);
    // zeros and ones are conjunct codes too
    let (breaks, emojis, conjuncts) = (columns.breaks, columns.semojis, &text.decomposes);
    for edition in EDITIONS {
        within(&mut || accepted = edition_check(edition, breaks, emojis, conjuncts).is_ok());
        assert!(accepted, "{}", text.name);
        for run in [edition_run, edition_run_back] {
            within(&mut || accepted = run(edition, breaks, emojis, conjuncts, &mut out.words).is_ok());
            assert!(accepted, "{}", text.name);
        }
        within(&mut || accepted = EditionState::START.step(edition, cluster_break::XX, 0, conjunct::CONSONANT).is_ok());
        assert!(accepted, "{}", text.name);
    }
    within(&mut || accepted = WordState::START.step(word_break::OTHER, 0, columns.words).is_ok());
    assert!(accepted, "{}", text.name);
    // zeros are line classes too
    let (lines, words, pictographs) = (&text.zeros, columns.words, columns.pictographs);
    for strength in STRENGTHS {
        within(&mut || accepted = line_run(lines, words, pictographs, &PAIR_TABLE, strength, &mut out.words).is_ok());
        assert!(accepted, "{}", text.name);
        within(&mut || accepted = LineState::START.step(&PAIR_TABLE, strength, line_break::AL).is_ok());
        assert!(accepted, "{}", text.name);
        within(&mut || {
            let step = BoundaryState::START.next(&PAIR_TABLE, strength, line_break::AL, word_break::OTHER, 0, columns.words);
            accepted = step.is_ok();
        });
        assert!(accepted, "{}", text.name);
    }
}

fn in_thread(call: impl FnOnce() + Send) {
    thread::scope(|scope| {
        let thread = thread::Builder::new().stack_size(THREAD).spawn_scoped(scope, call).unwrap();
        thread.join().unwrap();
    });
}

/// `pthread_attr_t`, with room to spare.
#[repr(C, align(16))]
struct Attributes([u8; 128]);

extern "C" {
    fn pthread_self() -> usize;
    fn pthread_getattr_np(thread: usize, attributes: *mut Attributes) -> i32;
    fn pthread_attr_getstack(attributes: *const Attributes, low: *mut usize, size: *mut usize) -> i32;
    fn pthread_attr_destroy(attributes: *mut Attributes) -> i32;
}

/// The lowest address of this thread's stack. The guard page is below it.
fn lowest() -> usize {
    let mut attributes = Attributes([0; 128]);
    let (mut low, mut size) = (0, 0);
    // Safe: the attributes are made by the first call and read by the second.
    unsafe {
        assert_eq!(pthread_getattr_np(pthread_self(), &mut attributes), 0);
        assert_eq!(pthread_attr_getstack(&attributes, &mut low, &mut size), 0);
        pthread_attr_destroy(&mut attributes);
    }
    low
}

/// Makes the call where at most so many bytes are left between this frame and an address.
#[inline(never)]
fn deep_down(low: usize, left: usize, call: &mut dyn FnMut()) {
    let here = [0u8; 64];
    if black_box(here.as_ptr()) as usize - low <= left {
        call();
    } else {
        deep_down(low, left, call);
    }
    black_box(&here);
}

#[test]
fn any_text_in_256_kib() {
    let texts = texts(12_288);
    let mut out = Out::new();
    in_thread(|| {
        for text in &texts {
            every_call(text, &mut out, |call| call());
        }
    });
}

#[test]
fn a_label_in_16_kib() {
    let texts = texts(256);
    let mut out = Out::new();
    in_thread(|| {
        let low = lowest();
        for text in &texts {
            assert!(text.tokens <= 256);
            every_call(text, &mut out, |call| deep_down(low, LABEL, call));
        }
    });
}

#[test]
fn a_property_file_in_256_kib() {
    // as many ranges as one call takes in lines of this length
    let count = 65_536 / "010000;L\n".len();
    let lines: String = (0..count).map(|i| format!("{:06X};L\n", 0x10000 + i)).collect();
    let scalars: Vec<u32> = (0x10000..0x10100).collect();
    let (mut breaks, mut words) = (vec![0; 256], vec![0; 256]);
    in_thread(|| {
        let mut properties = Properties::new();
        assert_eq!(properties.read_clusters(lines.as_bytes()), Ok(count));
        let mut accepted = false;
        deep_down(lowest(), LABEL, &mut || {
            accepted = properties.classes_into(&scalars, &mut breaks, &mut words).is_ok();
        });
        assert!(accepted);
    });
    assert!(breaks.iter().all(|&code| code == cluster_break::L));
}
