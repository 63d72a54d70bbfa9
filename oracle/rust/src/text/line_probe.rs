// The probe of lines, included beside analyze.rs and beside its copy over a lent table: it sets any
// state, and asks `check_line` and `next` themselves. Every probe lends a text by one type of iterator,
// so that there is one copy of each function whose blocks are counted.

use super::{Lent, LineState, Record, State, Strength};

fn strength_of(strength: Strength) -> WordBreakStrength {
    match strength {
        Strength::Normal => WordBreakStrength::Normal,
        Strength::BreakAll => WordBreakStrength::BreakAll,
        Strength::KeepAll => WordBreakStrength::KeepAll,
    }
}

fn line_state_of(inner: &BoundaryState) -> LineState {
    LineState { row: inner.line_state.0, prev: inner.line_state.1 }
}

fn word_state_of(inner: &BoundaryState) -> State {
    State { first: inner.first, prev: inner.prev, prevent_next: inner.prevent_next, count: inner.ri_count }
}

/// One `check_line`.
pub fn line_step(strength: Strength, state: LineState, class: LineBreak) -> (Boundary, LineState) {
    let mut inner = BoundaryState {
        strength: strength_of(strength),
        line_state: (state.row, state.prev),
        ..BoundaryState::new()
    };
    let answer = inner.check_line(Properties { line: class, ..Properties::default() });
    (answer, line_state_of(&inner))
}

/// One `next`, with the two flags of the Rust's state that are left out (SCOPE 7.1).
pub fn next_step(
    strength: Strength,
    line: LineState,
    word: State,
    flags: (bool, bool),
    record: Record,
    next: Option<WordBreak>,
) -> (Boundary, LineState, State) {
    Lent::Records.lend();
    let mut inner = BoundaryState {
        strength: strength_of(strength),
        line_state: (line.row, line.prev),
        first: word.first,
        prev: word.prev,
        prevent_next: word.prevent_next,
        ri_count: word.count,
        emoji: flags.0,
        next_emoji: flags.1,
        ..BoundaryState::new()
    };
    let text: Vec<Record> = [record].into_iter().chain(next.map(Record::following)).collect();
    let (_, answer) = inner.next(&mut Record::text(&text).iter()).unwrap();
    (answer, line_state_of(&inner), word_state_of(&inner))
}

/// `next` until the text ends.
pub fn line_run(strength: Strength, records: &[Record]) -> Vec<Boundary> {
    Lent::Records.lend();
    let mut inner = BoundaryState { strength: strength_of(strength), ..BoundaryState::new() };
    let text = Record::text(records);
    let mut rest = text.iter();
    std::iter::from_fn(|| inner.next(&mut rest)).map(|(_, answer)| answer).collect()
}
