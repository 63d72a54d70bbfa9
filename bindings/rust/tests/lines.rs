//! Line breaks: the answers of each strength, the steps beside the run, what is refused, and the pieces.

use ezherbut::codes::{boundary, line_break as l, word_break as w, PAIR_TABLE};
use ezherbut::{line_run, lines, Boundary, BoundaryState, LineState, Piece, Refusal, Side, Strength, Text, WordState};

const STRENGTHS: [Strength; 3] = [Strength::Normal, Strength::BreakAll, Strength::KeepAll];

/// The answers to records of line class, word class and pictograph mark.
fn answers(strength: Strength, table: &[u8], records: &[[u8; 3]]) -> Result<Vec<u8>, Refusal> {
    let column = |at: usize| -> Vec<u8> { records.iter().map(|record| record[at]).collect() };
    let mut out = vec![0; records.len()];
    line_run(&column(0), &column(1), &column(2), table, strength, &mut out)?;
    Ok(out)
}

fn refusal(number: u8) -> Refusal {
    Refusal {
        number,
        side: Side::Neither,
        index: 0,
    }
}

fn at_record(index: usize) -> Refusal {
    Refusal {
        number: 4,
        side: Side::Record,
        index,
    }
}

const LETTER: [u8; 3] = [l::AL, w::ALETTER, 0];
const SPACE: [u8; 3] = [l::SP, w::WSEGSPACE, 0];

#[test]
fn the_examples_of_the_case_layout() {
    let mandatory = [236; 45 * 44];
    let short = [0; 45 * 43];
    assert_eq!(answers(Strength::Normal, &PAIR_TABLE, &[LETTER, SPACE, LETTER]), Ok(vec![1, 1, 2]));
    assert_eq!(answers(Strength::BreakAll, &PAIR_TABLE, &[LETTER, LETTER]), Ok(vec![1, 2]));
    assert_eq!(answers(Strength::KeepAll, &mandatory, &[LETTER, LETTER]), Ok(vec![3, 0]));
    assert_eq!(answers(Strength::Normal, &short, &[LETTER]), Err(refusal(10)));
    let state = LineState {
        row: l::AL,
        previous: Some(l::AL),
    };
    assert_eq!(state.step(&PAIR_TABLE, Strength::BreakAll, l::AL), Ok((state, Boundary::Line)));
    let (next, before) = BoundaryState::START
        .next(&PAIR_TABLE, Strength::Normal, l::ID, w::OTHER, 0, &[])
        .unwrap();
    let word = WordState {
        first: false,
        ..WordState::START
    };
    let line = LineState {
        row: 20,
        previous: Some(l::ID),
    };
    assert_eq!((next, before), (BoundaryState { line, word }, Boundary::Word));
}

#[test]
fn ideographs_hold_together_by_keep_all_alone() {
    let ideographs = [[l::ID, w::OTHER, 0]; 2];
    assert_eq!(answers(Strength::Normal, &PAIR_TABLE, &ideographs), Ok(vec![1, 2]));
    assert_eq!(answers(Strength::BreakAll, &PAIR_TABLE, &ideographs), Ok(vec![1, 2]));
    assert_eq!(answers(Strength::KeepAll, &PAIR_TABLE, &ideographs), Ok(vec![1, 1]));
}

#[test]
fn the_steps_answer_as_the_run() {
    let records: Vec<[u8; 3]> = (0..43)
        .flat_map(|class| [[class, class % 19, class % 2], LETTER, [class, 0, 1]])
        .collect();
    let words: Vec<u8> = records.iter().map(|record| record[1]).collect();
    for strength in STRENGTHS {
        let run = answers(strength, &PAIR_TABLE, &records).unwrap();
        let (mut line, mut both) = (LineState::START, BoundaryState::START);
        for (at, &[class, word, pictograph]) in records.iter().enumerate() {
            let (after, before) = both.next(&PAIR_TABLE, strength, class, word, pictograph, &words[at + 1..]).unwrap();
            assert_eq!(Boundary::of(run[at]), Some(before));
            let (line_after, line_before) = line.step(&PAIR_TABLE, strength, class).unwrap();
            let line_answer = if before == Boundary::Word { Boundary::None } else { before };
            assert_eq!((line_after, line_before), (after.line, line_answer));
            (line, both) = (line_after, after);
        }
    }
}

#[test]
fn what_the_run_refuses_and_in_which_order() {
    let bad_table = [0; 44 * 44];
    let mut out = [7; 2];
    let mut run = |lines: &[u8], words: &[u8], pictographs: &[u8], table: &[u8]| {
        let answer = line_run(lines, words, pictographs, table, Strength::Normal, &mut out);
        assert_eq!(out, [7; 2]);
        answer
    };
    assert_eq!(run(&[0; 4097], &[0; 4097], &[0; 4097], &bad_table), Err(refusal(1)));
    assert_eq!(run(&[0; 2], &[0; 1], &[0; 2], &bad_table), Err(refusal(2)));
    assert_eq!(run(&[0; 2], &[0; 2], &[0; 1], &bad_table), Err(refusal(2)));
    assert_eq!(run(&[43; 2], &[0; 2], &[0; 2], &bad_table), Err(refusal(10)));
    assert_eq!(run(&[0, 43, 43], &[0; 3], &[0; 3], &PAIR_TABLE), Err(at_record(1)));
    assert_eq!(run(&[0; 3], &[0, 0, 19], &[0; 3], &PAIR_TABLE), Err(at_record(2)));
    assert_eq!(run(&[0; 3], &[0; 3], &[2, 0, 0], &PAIR_TABLE), Err(at_record(0)));
    assert_eq!(run(&[0; 3], &[0; 3], &[0; 3], &PAIR_TABLE), Err(refusal(9)));
    assert_eq!(
        refusal(10).to_string(),
        "refusal 10: a line table is not whole rows of 44, has fewer than 45, or names a row that it has not"
    );
}

#[test]
fn the_three_tables_that_are_none() {
    let run = |table: &[u8]| lines(&[], &[], &[], table, Strength::Normal).map(|_| ());
    assert_eq!(run(&[0; 45 * 44]), Ok(()));
    assert_eq!(run(&[0; 45 * 44 + 1]), Err(refusal(10)));
    assert_eq!(run(&[0; 44 * 44]), Err(refusal(10)));
    assert_eq!(run(&[]), Err(refusal(10)));
    let mut names = [0; 45 * 44];
    names[1979] = 45;
    assert_eq!(run(&names), Err(refusal(10)));
}

#[test]
fn states_that_are_none() {
    let step = |row, previous| LineState { row, previous }.step(&PAIR_TABLE, Strength::Normal, l::AL);
    assert!(step(52, Some(42)).is_ok());
    assert_eq!(step(53, None), Err(refusal(8)));
    assert_eq!(step(0, Some(43)), Err(refusal(8)));
    // the record is judged before the state
    let state = LineState { row: 53, previous: None };
    assert_eq!(state.step(&PAIR_TABLE, Strength::Normal, 43), Err(at_record(0)));
    let word = WordState {
        count: 3,
        ..WordState::START
    };
    let both = BoundaryState {
        word,
        ..BoundaryState::START
    };
    assert_eq!(both.next(&PAIR_TABLE, Strength::Normal, l::AL, 0, 0, &[]), Err(refusal(8)));
    assert_eq!(both.next(&PAIR_TABLE, Strength::Normal, l::AL, 0, 0, &[19]), Err(at_record(0)));
}

#[test]
fn pieces() {
    assert_eq!(lines(&[], &[], &[], &PAIR_TABLE, Strength::Normal).unwrap().next(), None);
    assert_eq!(Text::new().lines(&[], &PAIR_TABLE, Strength::KeepAll).unwrap().next(), None);
    // the answer before the first record ends no piece
    let mandatory = [236; 45 * 44];
    let pieces: Vec<Piece> = lines(&[l::AL; 2], &[0; 2], &[0; 2], &mandatory, Strength::Normal)
        .unwrap()
        .collect();
    let piece = |records, mandatory| Piece { records, mandatory };
    assert_eq!(pieces, [piece(0..1, true), piece(1..2, false)]);
}

#[test]
fn boundaries_by_number() {
    let all: Vec<Option<Boundary>> = (0..5).map(Boundary::of).collect();
    let known = [Boundary::None, Boundary::Word, Boundary::Line, Boundary::Mandatory];
    assert_eq!(all[..4], known.map(Some));
    assert_eq!(all[4], None);
    assert_eq!(boundary::MANDATORY, 3);
}
