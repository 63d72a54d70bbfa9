//! Every case of the fixed lists, answered through the binding. The layout of cases and answers is in oracle/README.md; lines that are not of
//! the layout are for the program that reads them, and are left out here.

use std::collections::BTreeMap;
use std::fs;

use ezherbut::codes::PAIR_TABLE;
use ezherbut::{grapheme_check, grapheme_run, grapheme_run_back, line_run, word_check, word_run, BoundaryState, LineState};
use ezherbut::{Boundary, Cluster, Columns, Emoji, Mode, Parser, Refusal, Side, Space, Strength, WordState};

/// The columns of a case, of any codes.
#[derive(Default)]
struct Case {
    scalars: Vec<u32>,
    bytes: [Vec<u8>; 12],
    firsts: Vec<u16>,
    pscalars: Vec<u32>,
    pbytes: [Vec<u8>; 3],
}

fn items(list: &str) -> impl Iterator<Item = Vec<&str>> {
    list.split(' ')
        .filter(|item| !item.is_empty())
        .map(|item| item.split(',').collect())
}

fn hex(field: &str) -> u32 {
    u32::from_str_radix(field, 16).unwrap()
}

impl Case {
    fn of(records: &str, parts: &str) -> Case {
        let mut case = Case::default();
        for fields in items(records) {
            case.scalars.push(hex(fields[0]));
            // the count of parts is the twelfth column of bytes
            for (column, field) in case.bytes.iter_mut().zip(fields[1..12].iter().chain(&fields[13..])) {
                column.push(field.parse().unwrap());
            }
            case.firsts.push(fields[12].parse().unwrap());
        }
        for fields in items(parts) {
            case.pscalars.push(hex(fields[0]));
            for (column, field) in case.pbytes.iter_mut().zip(&fields[1..]) {
                column.push(field.parse().unwrap());
            }
        }
        case
    }

    fn columns(&self) -> Columns<'_> {
        let [breaks, uses, myanmars, categories, words, semojis, memojis, cemojis, pictographs, selectors, decomposes, counts] =
            &self.bytes;
        let [pbreaks, puses, pcategories] = &self.pbytes;
        Columns {
            scalars: &self.scalars,
            breaks,
            uses,
            myanmars,
            categories,
            words,
            semojis,
            memojis,
            cemojis,
            pictographs,
            selectors,
            decomposes,
            firsts: &self.firsts,
            counts,
            pscalars: &self.pscalars,
            pbreaks,
            puses,
            pcategories,
        }
    }
}

fn refused(refusal: Refusal) -> String {
    let side = match refusal.side {
        Side::Record => 'r',
        Side::Part => 'p',
        Side::Neither => '-',
    };
    format!("R {} {} {side}", refusal.number, refusal.index)
}

/// A call passes the refusals of the check on as they are (SCOPE 5.5): what it refuses and the check does not is its own number, 8 or 9.
fn hold_to_check<T>(check: Result<(), Refusal>, call: &Result<T, Refusal>) {
    match (check, call) {
        (Ok(()), Ok(_)) => {}
        (Ok(()), Err(refusal)) => assert!(7 < refusal.number),
        (Err(refusal), call) => assert_eq!(call.as_ref().err(), Some(&refusal)),
    }
}

fn info(cluster: &Cluster) -> String {
    let emoji = match cluster.emoji {
        Emoji::None => 'n',
        Emoji::Default => 'D',
        Emoji::Text => 'T',
        Emoji::Color => 'C',
    };
    let space = match cluster.space {
        Space::None => "-".to_string(),
        Space::Newline => "N".to_string(),
        Space::From(scalar) => format!("{scalar:04X}"),
    };
    let broken = if cluster.broken { 'B' } else { '.' };
    let normalise = if cluster.normalise { 'Z' } else { '.' };
    format!("{emoji}{space}{broken}{normalise}")
}

/// `TOKENS|call|call|…`, from a place to the end.
fn calls(columns: Columns, parser: Parser, mode: Mode, mut place: usize) -> Result<String, Refusal> {
    let mut answer = String::new();
    loop {
        let step = columns.step(parser, mode, place)?;
        let Some(cluster) = step.cluster else {
            return Ok(format!("{place}{answer}"));
        };
        assert_eq!(step.passed, step.place - place);
        let characters: Vec<String> = cluster
            .characters
            .iter()
            .map(|c| format!("{:04X}.{}.{}.{}", c.scalar, c.class, c.record, c.noted))
            .collect();
        answer += &format!("|{place}>{}:{}:{}", step.place, characters.join(","), info(&cluster));
        place = step.place;
    }
}

/// `CLUSTERS PUSHED|scalar.class.cluster …`, and that the cells past the written ones, with a refusal all, keep their content.
fn full_run(columns: Columns, parser: Parser, mode: Mode, cells: usize) -> Result<String, Refusal> {
    let (mut scalars, mut classes, mut numbers) = (vec![7; cells], vec![7; cells], vec![7; cells]);
    let counts = columns.run_into(parser, mode, &mut scalars, &mut classes, &mut numbers);
    let written = counts.map_or(0, |counts| counts.characters);
    assert!(scalars[written..].iter().all(|&cell| cell == 7));
    assert!(classes[written..].iter().all(|&cell| cell == 7));
    assert!(numbers[written..].iter().all(|&cell| cell == 7));
    let counts = counts?;
    let characters: Vec<String> = (0..written)
        .map(|i| format!("{:04X}.{}.{}", scalars[i], classes[i], numbers[i]))
        .collect();
    Ok(format!("{} {}|{}", counts.clusters, counts.characters, characters.join(" ")))
}

fn clusters_case(kind: char, fields: &[&str]) -> String {
    let &[mode, script, number, records, parts] = fields else {
        panic!("{fields:?}");
    };
    let parser = match (kind.to_ascii_uppercase(), script) {
        ('S', _) => Parser::Simple,
        ('M', _) => Parser::Myanmar,
        (_, "K") => Parser::Khmer,
        _ => Parser::Complex,
    };
    let mode = if mode == "crate" { Mode::Crate } else { Mode::Whole };
    let case = Case::of(records, parts);
    let number = number.parse().unwrap();
    let answer = if kind.is_ascii_uppercase() {
        calls(case.columns(), parser, mode, number)
    } else {
        full_run(case.columns(), parser, mode, number)
    };
    hold_to_check(case.columns().check(parser), &answer);
    answer.unwrap_or_else(refused)
}

/// The cells of a run, and that those past the written ones, with a refusal all, keep their content.
fn cells(out: &[u8], run: Result<(), Refusal>, records: usize) -> String {
    let written = run.map_or(0, |()| records);
    assert!(out[written..].iter().all(|&cell| cell == 7));
    match run {
        Ok(()) => out[..written].iter().map(u8::to_string).collect::<Vec<_>>().join(" "),
        Err(refusal) => refused(refusal),
    }
}

fn bytes(list: &str) -> Vec<u8> {
    list.split(',').map(|field| field.parse().unwrap()).collect()
}

type Check = fn(&[u8], &[u8]) -> Result<(), Refusal>;
type Run = fn(&[u8], &[u8], &mut [u8]) -> Result<(), Refusal>;

/// A run over classes and marks: of words, or of an engine of UAX #29's clusters.
fn marked_case(check: Check, run: Run, fields: &[&str]) -> String {
    let &[room, records] = fields else {
        panic!("{fields:?}");
    };
    let pairs: Vec<Vec<u8>> = records.split(' ').filter(|item| !item.is_empty()).map(bytes).collect();
    let column = |at: usize| -> Vec<u8> { pairs.iter().map(|pair| pair[at]).collect() };
    let (classes, marks) = (column(0), column(1));
    let mut out = vec![7; room.parse().unwrap()];
    let answer = run(&classes, &marks, &mut out);
    hold_to_check(check(&classes, &marks), &answer);
    cells(&out, answer, classes.len())
}

fn word_state(list: &str) -> WordState {
    let state = bytes(list);
    WordState {
        first: state[0] == 1,
        previous: state[1],
        prevent: state[2] == 1,
        count: state[3],
    }
}

fn shown_word(state: WordState) -> String {
    let (first, prevent) = (u8::from(state.first), u8::from(state.prevent));
    format!("{first},{},{prevent},{}", state.previous, state.count)
}

fn word_step_case(fields: &[&str]) -> String {
    let &[state, word, next] = fields else {
        panic!("{fields:?}");
    };
    let (state, word) = (word_state(state), bytes(word));
    let rest: Vec<u8> = next.parse().into_iter().collect();
    let (answer, state) = match state.step(word[0], word[1], &rest) {
        Ok((after, begins)) => (u8::from(begins).to_string(), after),
        Err(refusal) => (refused(refusal), state),
    };
    format!("{answer};{}", shown_word(state))
}

fn strength(name: &str) -> Strength {
    match name {
        "Normal" => Strength::Normal,
        "BreakAll" => Strength::BreakAll,
        _ => Strength::KeepAll,
    }
}

/// `crate`, or cells, some of them as `COUNT*cell`.
fn table(list: &str) -> Vec<u8> {
    if list == "crate" {
        return PAIR_TABLE.to_vec();
    }
    let items = list.split(' ').filter(|item| !item.is_empty());
    let repeated = items.map(|item| item.split_once('*').unwrap_or(("1", item)));
    repeated
        .flat_map(|(count, cell)| vec![cell.parse().unwrap(); count.parse().unwrap()])
        .collect()
}

fn line_state(list: &str) -> LineState {
    let (row, previous) = list.split_once(',').unwrap();
    LineState {
        row: row.parse().unwrap(),
        previous: previous.parse().ok(),
    }
}

fn shown_line(state: LineState) -> String {
    let previous = state.previous.map_or("-".to_string(), |class| class.to_string());
    format!("{},{previous}", state.row)
}

fn shown(boundary: Boundary) -> String {
    (boundary as u8).to_string()
}

fn lines_case(fields: &[&str]) -> String {
    let &[by, cells_of_table, room, records] = fields else {
        panic!("{fields:?}");
    };
    let records: Vec<Vec<u8>> = records.split(' ').filter(|item| !item.is_empty()).map(bytes).collect();
    let column = |at: usize| -> Vec<u8> { records.iter().map(|record| record[at]).collect() };
    let mut out = vec![7; room.parse().unwrap()];
    let run = line_run(&column(0), &column(1), &column(2), &table(cells_of_table), strength(by), &mut out);
    cells(&out, run, records.len())
}

fn line_step_case(fields: &[&str]) -> String {
    let &[by, cells, state, class] = fields else {
        panic!("{fields:?}");
    };
    let state = line_state(state);
    let (answer, state) = match state.step(&table(cells), strength(by), class.parse().unwrap()) {
        Ok((after, before)) => (shown(before), after),
        Err(refusal) => (refused(refusal), state),
    };
    format!("{answer};{}", shown_line(state))
}

fn next_case(fields: &[&str]) -> String {
    let &[by, cells, line, word, record, next] = fields else {
        panic!("{fields:?}");
    };
    let state = BoundaryState {
        line: line_state(line),
        word: word_state(word),
    };
    let record = bytes(record);
    let rest: Vec<u8> = next.parse().into_iter().collect();
    let (answer, state) = match state.next(&table(cells), strength(by), record[0], record[1], record[2], &rest) {
        Ok((after, before)) => (shown(before), after),
        Err(refusal) => (refused(refusal), state),
    };
    format!("{answer};{};{}", shown_line(state.line), shown_word(state.word))
}

fn answer(line: &str) -> (char, String) {
    let fields: Vec<&str> = line.split(';').collect();
    let kind = fields[0].chars().next().unwrap();
    let answer = match kind {
        'W' => marked_case(word_check, word_run, &fields[1..]),
        'G' => marked_case(grapheme_check, grapheme_run_back, &fields[1..]),
        'g' => marked_case(grapheme_check, grapheme_run, &fields[1..]),
        'w' => word_step_case(&fields[1..]),
        'L' => lines_case(&fields[1..]),
        'l' => line_step_case(&fields[1..]),
        'n' => next_case(&fields[1..]),
        _ => clusters_case(kind, &fields[1..]),
    };
    (kind, answer)
}

fn list(name: &str) -> String {
    fs::read_to_string(format!("{}/../../crates/replay/{name}", env!("CARGO_MANIFEST_DIR"))).unwrap()
}

#[test]
fn the_fixed_lists() {
    let (cases, answers) = (list("stdin"), list("stdout"));
    let cases: Vec<&str> = cases
        .lines()
        .filter(|line| !line.trim_matches(' ').is_empty() && !line.starts_with('#'))
        .collect();
    let answers: Vec<&str> = answers.lines().collect();
    assert_eq!(cases.len(), answers.len());
    let mut compared = BTreeMap::new();
    for (case, expected) in cases.into_iter().zip(answers) {
        // what is not of the layout, and property files: a case's sets have so many cells, and those of the binding grow
        if expected.starts_with('?') || case.starts_with('F') {
            continue;
        }
        let (kind, given) = answer(case);
        assert_eq!(given, expected, "{case}");
        *compared.entry(kind).or_insert(0) += 1;
    }
    println!("compared: {compared:?}");
    // each kind has its cases, so that a list that is read wrongly does not pass
    for (kinds, least) in [("SMCWwsmc", 400), ("Gg", 100), ("lnL", 20)] {
        for kind in kinds.chars() {
            assert!(compared.get(&kind).is_some_and(|&count| least < count), "{kind}: {compared:?}");
        }
    }
}

/// The kinds of line breaks, by the examples of their layout.
#[test]
fn line_breaks() {
    for (case, expected) in [
        ("L;Normal;crate;3;1,8,0 37,7,0 1,8,0", "1 1 2"),
        ("L;BreakAll;crate;2;1,8,0 1,8,0", "1 2"),
        ("L;KeepAll;1980*236;2;1,8,0 1,8,0", "3 0"),
        ("L;Normal;1935*0;9;1,8,0", "R 10 0 -"),
        ("l;BreakAll;crate;1,1;1", "2;1,1"),
        ("l;Normal;1979*0 45;44,-;43", "R 10 0 -;44,-"),
        ("l;Normal;crate;53,42;43", "R 4 0 r;53,42"),
        ("n;Normal;crate;44,-;1,0,0,0;20,0,0;-", "1;20,20;0,0,0,0"),
        ("n;KeepAll;crate;44,-;1,0,0,3;20,0,0;18", "R 8 0 -;44,-;1,0,0,3"),
    ] {
        assert_eq!(answer(case).1, expected, "{case}");
    }
}
