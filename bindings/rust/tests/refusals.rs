//! What the lists cannot hold: columns of different lengths, and what a refusal says.

use ezherbut::{word_run, Columns, Mode, Parser, Refusal, Side, WordState};

const EMPTY: Columns = Columns {
    scalars: &[],
    breaks: &[],
    uses: &[],
    myanmars: &[],
    categories: &[],
    words: &[],
    semojis: &[],
    memojis: &[],
    cemojis: &[],
    pictographs: &[],
    selectors: &[],
    decomposes: &[],
    firsts: &[],
    counts: &[],
    pscalars: &[],
    pbreaks: &[],
    puses: &[],
    pcategories: &[],
};

#[test]
fn columns_of_different_lengths() {
    let uneven = Refusal {
        number: 2,
        side: Side::Neither,
        index: 0,
    };
    let columns = Columns { counts: &[0], ..EMPTY };
    assert_eq!(columns.check(Parser::Simple), Err(uneven));
    assert_eq!(columns.step(Parser::Simple, Mode::Whole, 0), Err(uneven));
    assert_eq!(columns.run(Parser::Simple, Mode::Whole), Err(uneven));
    assert_eq!(word_run(&[0], &[], &mut [0]), Err(uneven));
    assert_eq!(uneven.to_string(), "refusal 2: columns of one set differ in length");
}

#[test]
fn after_a_refusal_nothing_follows() {
    let columns = Columns { counts: &[0], ..EMPTY };
    let mut clusters = columns.clusters(Parser::Myanmar, Mode::Crate);
    assert!(clusters.next().unwrap().is_err());
    assert_eq!(clusters.next(), None);
}

#[test]
fn an_empty_text() {
    assert_eq!(EMPTY.clusters(Parser::Khmer, Mode::Crate).next(), None);
    assert_eq!(EMPTY.words().unwrap().next(), None);
    let past = EMPTY.step(Parser::Simple, Mode::Whole, 1).unwrap_err();
    assert_eq!(
        past.to_string(),
        "refusal 8: the place is neither a token nor the end, or the state of a step is none"
    );
}

#[test]
fn a_part_outside_its_list() {
    let columns = Columns {
        pscalars: &[0x41],
        pbreaks: &[14],
        puses: &[0],
        pcategories: &[0],
        ..EMPTY
    };
    let refusal = columns.check(Parser::Complex).unwrap_err();
    assert_eq!(refusal.to_string(), "refusal 4: a code or mark is outside its list (part 0)");
}

#[test]
fn a_word_state_that_is_none() {
    let state = WordState {
        count: 3,
        ..WordState::START
    };
    assert_eq!(
        state.step(0, 0, &[]),
        Err(Refusal {
            number: 8,
            side: Side::Neither,
            index: 0
        })
    );
    // the record is judged before the state
    assert_eq!(state.step(19, 0, &[]).unwrap_err().number, 4);
}
