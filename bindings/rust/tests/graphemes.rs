//! Clusters as UAX #29 has them: both engines, the steps beside the run, what is refused, and the ranges.

use ezherbut::codes::cluster_break::{CN, CR, EX, LF, RI, XX, ZWJ};
use ezherbut::{grapheme_check, grapheme_run, grapheme_run_back, GraphemeState, Refusal, Side, Text};

/// The answers to records of cluster break and emoji mark, by the engine that goes forward; the other one gives the same.
fn answers(records: &[(u8, u8)]) -> Result<Vec<u8>, Refusal> {
    let (breaks, emojis): (Vec<u8>, Vec<u8>) = records.iter().copied().unzip();
    let (mut forward, mut back) = (vec![7; records.len()], vec![7; records.len()]);
    let run = grapheme_run(&breaks, &emojis, &mut forward);
    assert_eq!(grapheme_run_back(&breaks, &emojis, &mut back), run);
    assert_eq!(forward, back);
    assert_eq!(grapheme_check(&breaks, &emojis), run);
    run.map(|()| forward)
}

fn refusal(number: u8) -> Refusal {
    Refusal {
        number,
        side: Side::Neither,
        index: 0,
    }
}

fn at_record(index: usize) -> Refusal {
    Refusal {
        number: 4,
        side: Side::Record,
        index,
    }
}

#[test]
fn marks_on_any_class() {
    assert_eq!(answers(&[(EX, 1), (ZWJ, 0), (XX, 1)]), Ok(vec![1, 0, 0]));
    assert_eq!(answers(&[(XX, 1), (ZWJ, 1), (ZWJ, 0), (XX, 1)]), Ok(vec![1, 0, 0, 0]));
    assert_eq!(answers(&[(CN, 1), (ZWJ, 0), (XX, 1)]), Ok(vec![1, 1, 0]));
    assert_eq!(answers(&[(RI, 0), (EX, 0), (RI, 0), (RI, 0)]), Ok(vec![1, 0, 1, 0]));
    assert_eq!(answers(&[(CR, 0), (LF, 0), (LF, 0)]), Ok(vec![1, 0, 1]));
}

#[test]
fn there_is_no_limit_of_32() {
    let mut expected = vec![0; 4096];
    expected[0] = 1;
    assert_eq!(answers(&[(EX, 0); 4096]), Ok(expected));
}

/// Every three records stand somewhere in a row.
#[test]
fn the_steps_answer_as_the_runs() {
    let all: Vec<(u8, u8)> = (0..14).flat_map(|class| [(class, 0), (class, 1)]).collect();
    let records: Vec<(u8, u8)> = (0..28 * 28 * 28)
        .flat_map(|text: usize| [all[text / 784], all[text / 28 % 28], all[text % 28]])
        .collect();
    for text in records.chunks(4096) {
        let mut state = GraphemeState::START;
        for (&(class, emoji), answer) in text.iter().zip(answers(text).unwrap()) {
            let (after, starts) = state.step(class, emoji).unwrap();
            assert_eq!(u8::from(starts), answer);
            assert_eq!(after.previous, class);
            state = after;
        }
    }
}

#[test]
fn what_the_runs_refuse_and_in_which_order() {
    for run in [grapheme_run, grapheme_run_back] {
        let mut out = [7; 2];
        let mut run = |breaks: &[u8], emojis: &[u8]| {
            let answer = run(breaks, emojis, &mut out);
            assert_eq!(out, [7; 2]);
            answer
        };
        assert_eq!(run(&[14; 4097], &[0; 1]), Err(refusal(1)));
        assert_eq!(run(&[14; 2], &[0; 1]), Err(refusal(2)));
        assert_eq!(run(&[0, 14, 0], &[0, 0, 2]), Err(at_record(1)));
        assert_eq!(run(&[0, 0, 14], &[0, 2, 0]), Err(at_record(1)));
        assert_eq!(run(&[0; 3], &[0; 3]), Err(refusal(9)));
    }
    // cells past the records keep their content
    let mut out = [7; 3];
    assert_eq!(grapheme_run(&[XX, EX], &[0, 0], &mut out), Ok(()));
    assert_eq!(out, [1, 0, 7]);
}

#[test]
fn states_that_no_text_leads_to() {
    let start = GraphemeState::START;
    assert_eq!(start.step(14, 0), Err(at_record(0)));
    assert_eq!(start.step(XX, 2), Err(at_record(0)));
    for state in [
        GraphemeState { previous: 15, ..start },
        GraphemeState { odd: true, ..start },
        GraphemeState {
            previous: EX,
            joined: true,
            ..start
        },
        GraphemeState { extended: true, ..start },
    ] {
        assert_eq!(state.step(XX, 0), Err(refusal(8)), "{state:?}");
        // the record is judged before the state
        assert_eq!(state.step(14, 0), Err(at_record(0)), "{state:?}");
    }
    assert_eq!(
        refusal(8).to_string(),
        "refusal 8: the place is neither a token nor the end, or the state of a step is none"
    );
}

#[test]
fn an_empty_text() {
    assert_eq!(answers(&[]), Ok(vec![]));
    assert_eq!(Text::new().graphemes().unwrap().next(), None);
}
