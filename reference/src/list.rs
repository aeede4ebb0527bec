//! A list of calls, as text, and what comes of it: sections 8 and 5 of the specification.
//! Line 1 has n, b, c and the values of a. Each further line is a call: 1 with a summary or 0 without, act, window, moment, then the summary
//! that is lent: its four counts, the longest wait and what each window has waited. What a line leaves out at its end is 0.

use crate::answer::Answer;
use crate::machine::*;
use crate::summary::*;

#[derive(Clone, Debug, PartialEq, Eq)]
pub struct Call {
    pub recorded: bool,
    pub act: u64,
    pub window: u64,
    pub moment: u64,
    pub summary: Summary,
}

#[derive(Clone, Debug, PartialEq, Eq)]
pub struct List {
    pub values: Values,
    pub calls: Vec<Call>,
}

/// Makes one call; the summary is as the call leaves it.
pub fn make(table: Table, call: &mut Call) -> (Answer, Table) {
    if call.recorded {
        recorded_step(table, &mut call.summary, call.act, call.window, call.moment)
    } else {
        step(table, call.act, call.window, call.moment)
    }
}

// The list as text

pub fn text(list: &List) -> String {
    let calls = list.calls.iter().map(call_line);
    [values_line(&list.values)].into_iter().chain(calls).map(|line| line + "\n").collect()
}

fn values_line(values: &Values) -> String {
    let &Values { n, b, c, ref a } = values;
    joined(&[&[n, b, c], up_to_the_last(a)].concat())
}

fn call_line(call: &Call) -> String {
    let mut numbers = vec![call.recorded as u64, call.act, call.window, call.moment];
    if call.summary != Summary::new() {
        numbers.extend(counts(&call.summary));
        numbers.extend_from_slice(up_to_the_last(&call.summary.waited));
    }
    joined(&numbers)
}

/// The numbers up to the last that is not 0.
fn up_to_the_last(numbers: &[u64]) -> &[u64] {
    let shown = numbers.iter().rposition(|&number| number != 0).map_or(0, |last| last + 1);
    &numbers[..shown]
}

fn counts(summary: &Summary) -> [u64; 5] {
    [summary.accepted, summary.refused, summary.entries, summary.exits, summary.longest_wait]
}

fn joined(numbers: &[u64]) -> String {
    numbers.iter().map(u64::to_string).collect::<Vec<_>>().join(",")
}

/// The list of a text, if it is one.
pub fn read(text: &str) -> Option<List> {
    let mut lines = text.lines().map(numbers);
    let first = lines.next()??;
    let values = Values::new(first[0], first[1], first[2], &first[3..]);
    Some(List { values, calls: lines.map(|line| Some(call(&line?))).collect::<Option<_>>()? })
}

/// The numbers of a line: four of the call, five of the summary, and what each window has waited.
type Numbers = [u64; 9 + WINDOWS];

fn numbers(line: &str) -> Option<Numbers> {
    let mut numbers = [0; 9 + WINDOWS];
    for (place, word) in line.split(',').enumerate() {
        *numbers.get_mut(place)? = word.parse().ok()?;
    }
    Some(numbers)
}

fn call(line: &Numbers) -> Call {
    let mut summary = Summary {
        accepted: line[4],
        refused: line[5],
        entries: line[6],
        exits: line[7],
        longest_wait: line[8],
        ..Summary::new()
    };
    summary.waited.copy_from_slice(&line[9..]);
    Call { recorded: line[0] != 0, act: line[1], window: line[2], moment: line[3], summary }
}

// What comes of it

/// What comes of the list, beside what comes of the same acts with one summary, new at the start and lent to every step: of each
/// call the answer, the summary that it leaves and the whole table, and the same with the one summary; before them, those of the
/// fresh table.
pub fn outcome(list: &List) -> String {
    let n = list.values.n;
    let (answer, mut table) = fresh(list.values);
    let (mut one, mut one_table) = (Summary::new(), table);
    let mut lines = answer_line("fresh", answer) + &table_line(n, &table);
    lines += &came("fresh", answer, n, &one, &one_table);
    for call in &list.calls {
        let mut call = call.clone();
        let (answer, one_answer);
        (answer, table) = make(table, &mut call);
        (one_answer, one_table) = recorded_step(one_table, &mut one, call.act, call.window, call.moment);
        lines += &came("call", answer, n, &call.summary, &table);
        lines += &came("one", one_answer, n, &one, &one_table);
    }
    lines
}

fn came(name: &str, answer: Answer, n: u64, summary: &Summary, table: &Table) -> String {
    answer_line(name, answer) + &summary_line(n, summary) + &table_line(n, table)
}

fn answer_line(name: &str, answer: Answer) -> String {
    line(name, &[answer.number, answer.window, answer.moment])
}

/// The four counts, the longest wait, and what the windows 1 to n have waited.
fn summary_line(n: u64, summary: &Summary) -> String {
    line("summary", &[&counts(summary), &summary.waited[..shown(n)]].concat())
}

/// n, b, c, the clock, the word; and of the windows 1 to the n that was asked for the values of a, and then place and arrival.
fn table_line(asked: u64, table: &Table) -> String {
    let &Table { values: Values { n, b, c, ref a }, clock, word, ref places } = table;
    let entry = |&place: &Place| [number_of(place), place.arrival().unwrap_or(0)];
    let entries: Vec<u64> = places[..shown(asked)].iter().flat_map(entry).collect();
    line("table", &[&[n, b, c, clock, word], &a[..shown(asked)], &entries].concat())
}

/// How many windows are shown of a table that was asked for with that n.
fn shown(n: u64) -> usize {
    n.min(WINDOWS as u64) as usize
}

fn line(name: &str, numbers: &[u64]) -> String {
    format!("{name},{}\n", joined(numbers))
}

/// [2.70]
pub fn number_of(place: Place) -> u64 {
    match place {
        Place::Remainder => 0,
        Place::Testing(_) => 1,
        Place::Setting(_) => 2,
        Place::Checking(_) => 3,
        Place::Entering(_) => 4,
        Place::Selling => 5,
        Place::Resetting(_) => 6,
        Place::Leaving(_) => 7,
    }
}
