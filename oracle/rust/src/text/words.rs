//! analyze.rs itself, with probes beside it that set any state: the file is included, so
//! that its private state is at hand and not a byte of it changes.

include!("analyze.rs");
include!("line_probe.rs");

/// One step from a state, with the two flags of the Rust's state that are left out (SCOPE 7.1).
pub fn step(state: State, flags: (bool, bool), record: Record, next: Option<WordBreak>) -> (bool, State) {
    Lent::Records.lend();
    let mut inner = BoundaryState {
        first: state.first,
        prev: state.prev,
        prevent_next: state.prevent_next,
        ri_count: state.count,
        emoji: flags.0,
        next_emoji: flags.1,
        ..BoundaryState::new()
    };
    let rest: Vec<Record> = next.map(Record::following).into_iter().collect();
    let answer = inner.check_word(record.properties(), &mut Record::text(&rest).iter());
    (answer, word_state_of(&inner))
}

pub fn run(records: &[Record]) -> Vec<bool> {
    Lent::Records.lend();
    let mut state = BoundaryState::new();
    let text = Record::text(records);
    let mut rest = text.iter();
    let mut answers = Vec::new();
    while let Some(ch) = rest.next() {
        answers.push(state.check_word(ch.properties(), &mut rest));
    }
    answers
}
