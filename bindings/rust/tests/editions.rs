//! Clusters by an edition of UAX #29: both engines, the steps beside the runs, the known lines of 15.1, what binds the editions, and what is
//! refused.

use ezherbut::codes::cluster_break::{CN, EX, RI, SM, XX, ZWJ};
use ezherbut::codes::conjunct::{CONSONANT, EXTEND, LINKER, NONE};
use ezherbut::Edition::{Unicode15_0, Unicode15_1};
use ezherbut::{edition_check, edition_run, edition_run_back, grapheme_run, Edition, EditionState, GraphemeState, Refusal, Side, Text};

const EDITIONS: [Edition; 2] = [Unicode15_0, Unicode15_1];

/// Cluster break, emoji mark, conjunct code.
type Record = (u8, u8, u8);

struct Columns {
    breaks: Vec<u8>,
    emojis: Vec<u8>,
    conjuncts: Vec<u8>,
}

fn columns(records: &[Record]) -> Columns {
    Columns {
        breaks: records.iter().map(|record| record.0).collect(),
        emojis: records.iter().map(|record| record.1).collect(),
        conjuncts: records.iter().map(|record| record.2).collect(),
    }
}

/// The answers by the engine that goes forward; the other one and the steps give the same.
fn answers(edition: Edition, records: &[Record]) -> Vec<u8> {
    let Columns { breaks, emojis, conjuncts } = columns(records);
    let (mut forward, mut back) = (vec![7; records.len()], vec![7; records.len()]);
    edition_run(edition, &breaks, &emojis, &conjuncts, &mut forward).unwrap();
    edition_run_back(edition, &breaks, &emojis, &conjuncts, &mut back).unwrap();
    assert_eq!(forward, back);
    assert_eq!(edition_check(edition, &breaks, &emojis, &conjuncts), Ok(()));
    let mut state = EditionState::START;
    for (&(class, emoji, conjunct), &answer) in records.iter().zip(&forward) {
        let (after, starts) = state.step(edition, class, emoji, conjunct).unwrap();
        assert_eq!(u8::from(starts), answer);
        assert_eq!(after.graphemes.previous, class);
        state = after;
    }
    forward
}

fn refusal(number: u8) -> Refusal {
    Refusal {
        number,
        side: Side::Neither,
        index: 0,
    }
}

fn at_record(index: usize) -> Refusal {
    Refusal {
        number: 4,
        side: Side::Record,
        index,
    }
}

/// What Unicode's files say of the characters of the known lines.
fn record(letter: char) -> Record {
    match letter {
        'क' | 'त' => (XX, 0, CONSONANT),
        '\u{94D}' => (EX, 0, LINKER),
        '\u{93C}' => (EX, 0, EXTEND),
        '\u{200D}' => (ZWJ, 0, EXTEND),
        '\u{200C}' => (EX, 0, NONE),
        'a' => (XX, 0, NONE),
        _ => panic!("{letter:?}"),
    }
}

#[test]
fn known_lines() {
    for (line, last) in [
        ("क\u{94D}त", 0),
        ("क\u{94D}\u{94D}त", 0),
        ("क\u{94D}\u{200D}त", 0),
        ("क\u{200D}\u{94D}त", 0),
        ("क\u{93C}\u{94D}त", 0),
        ("क\u{94D}\u{93C}त", 0),
        ("कत", 1),
        ("क\u{93C}त", 1),
        ("क\u{200D}त", 1),
        ("a\u{94D}त", 1),
        ("क\u{94D}a", 1),
        ("क\u{200C}\u{94D}त", 1),
        ("क\u{94D}\u{200C}त", 1),
    ] {
        let records: Vec<Record> = line.chars().map(record).collect();
        let mut expected = vec![0; records.len()];
        expected[0] = 1;
        *expected.last_mut().unwrap() = 1;
        assert_eq!(answers(Unicode15_0, &records), expected, "{line:?}");
        *expected.last_mut().unwrap() = last;
        assert_eq!(answers(Unicode15_1, &records), expected, "{line:?}");
    }
}

#[test]
fn controls_come_first_and_the_column_is_looked_at_alone() {
    for (records, expected) in [
        (vec![(XX, 0, CONSONANT), (CN, 0, LINKER), (XX, 0, CONSONANT)], [1, 1, 1].to_vec()),
        (vec![(XX, 0, CONSONANT), (EX, 0, LINKER), (CN, 0, CONSONANT)], [1, 0, 1].to_vec()),
        (
            vec![(XX, 0, CONSONANT), (CN, 0, LINKER), (EX, 0, EXTEND), (XX, 0, CONSONANT)],
            [1, 1, 1, 0].to_vec(),
        ),
        (vec![(RI, 0, CONSONANT), (SM, 0, LINKER), (RI, 0, CONSONANT)], [1, 0, 0].to_vec()),
        (vec![(XX, 1, CONSONANT), (ZWJ, 0, LINKER), (XX, 1, CONSONANT)], [1, 0, 0].to_vec()),
    ] {
        assert_eq!(answers(Unicode15_1, &records), expected, "{records:?}");
    }
}

/// Every two records stand somewhere in a row, and many three.
#[test]
fn what_binds_the_editions() {
    let all: Vec<Record> = (0..14 * 2 * 4).map(|code: u8| (code / 8, code / 4 % 2, code % 4)).collect();
    let records: Vec<Record> = (0..112 * 112)
        .flat_map(|text: usize| [all[text / 112], all[text % 112], all[text * 37 % 112]])
        .collect();
    let mut taken = 0;
    for text in records.chunks(4096) {
        let [old, new] = EDITIONS.map(|edition| answers(edition, text));
        let Columns { breaks, emojis, .. } = columns(text);
        let mut of_two = vec![7; text.len()];
        grapheme_run(&breaks, &emojis, &mut of_two).unwrap();
        assert_eq!(old, of_two);
        assert!(old.iter().zip(&new).all(|(before, after)| after <= before));
        taken += old.iter().zip(&new).filter(|(before, after)| after < before).count();
        let bare: Vec<Record> = text.iter().map(|&(class, emoji, _)| (class, emoji, NONE)).collect();
        assert_eq!(answers(Unicode15_1, &bare), old);
    }
    assert!(taken > 100, "{taken}");
}

#[test]
fn there_is_no_limit_of_32() {
    let text: Vec<Record> = (0..4096)
        .map(|at| if at % 2 == 0 { (XX, 0, CONSONANT) } else { (EX, 0, LINKER) })
        .collect();
    let mut expected = vec![0; 4096];
    expected[0] = 1;
    assert_eq!(answers(Unicode15_1, &text), expected);
}

#[test]
fn what_the_runs_refuse_and_in_which_order() {
    for (edition, run) in EDITIONS
        .iter()
        .flat_map(|&edition| [(edition, edition_run as Run), (edition, edition_run_back as Run)])
    {
        let mut out = [7; 2];
        let mut run = |breaks: &[u8], emojis: &[u8], conjuncts: &[u8]| {
            let answer = run(edition, breaks, emojis, conjuncts, &mut out);
            assert_eq!(out, [7; 2]);
            answer
        };
        assert_eq!(run(&[14; 3], &[0; 3], &[0; 4097]), Err(refusal(1)));
        assert_eq!(run(&[14; 2], &[0; 2], &[0; 1]), Err(refusal(2)));
        assert_eq!(run(&[14; 2], &[0; 1], &[0; 2]), Err(refusal(2)));
        assert_eq!(run(&[0, 0, 14], &[0, 0, 2], &[0, 4, 0]), Err(at_record(1)));
        assert_eq!(run(&[0, 0, 14], &[0, 2, 0], &[0, 0, 4]), Err(at_record(1)));
        assert_eq!(run(&[0, 14, 0], &[0, 0, 2], &[0, 0, 4]), Err(at_record(1)));
        assert_eq!(run(&[0; 3], &[0; 3], &[0; 3]), Err(refusal(9)));
    }
    // cells past the records keep their content
    let mut out = [7; 3];
    assert_eq!(edition_run(Unicode15_1, &[XX, EX], &[0, 0], &[CONSONANT, LINKER], &mut out), Ok(()));
    assert_eq!(out, [1, 0, 7]);
}

type Run = fn(Edition, &[u8], &[u8], &[u8], &mut [u8]) -> Result<(), Refusal>;

#[test]
fn states_that_no_text_leads_to() {
    let start = EditionState::START;
    let behind = EditionState {
        graphemes: GraphemeState {
            previous: EX,
            ..GraphemeState::START
        },
        ..start
    };
    for edition in EDITIONS {
        for (class, emoji, conjunct) in [(14, 0, 0), (XX, 2, 0), (XX, 0, 4)] {
            assert_eq!(start.step(edition, class, emoji, conjunct), Err(at_record(0)));
        }
        for state in [
            EditionState { begun: true, ..start },
            EditionState { linked: true, ..behind },
            EditionState {
                graphemes: GraphemeState {
                    odd: true,
                    ..GraphemeState::START
                },
                ..start
            },
        ] {
            assert_eq!(state.step(edition, XX, 0, NONE), Err(refusal(8)), "{state:?}");
            // the record is judged before the state
            assert_eq!(state.step(edition, XX, 0, 4), Err(at_record(0)), "{state:?}");
        }
        assert!(EditionState { begun: true, ..behind }.step(edition, XX, 0, NONE).is_ok());
    }
}

#[test]
fn an_empty_text() {
    for edition in EDITIONS {
        assert_eq!(Text::new().graphemes_of(edition, &[]).unwrap().next(), None);
        assert_eq!(Text::new().graphemes_of(edition, &[0]).unwrap_err(), refusal(2));
    }
}

/// No call of the binding gives 15, since an edition is a value of its own; the C face's words for it.
#[test]
fn the_words_for_an_edition_that_is_none() {
    assert_eq!(
        refusal(15).to_string(),
        "refusal 15: the edition is neither that of Unicode 15.0 nor that of 15.1"
    );
}
