//! The stored calls of `vectors`, which a library is held to, but for those of a board: the reference makes the same of them. Those of
//! notebooks are in `notebook.rs`.

mod stored;

use reference::answer::{bare, Answer, ACCEPTED, NO_TABLE};
use reference::deadline::*;
use reference::machine::*;
use reference::recording::{read_into, write};
use reference::spans::spans;
use reference::summary::{recorded_step, Summary};
use std::collections::BTreeSet;
use stored::{answered, bytes, fields, fixed, numbers, FILLED};

/// The three parts of a table of either kind, as numbers; those that a part leaves out at its end are 0.
fn parts(field: &str, stride: usize) -> ([u64; 5], Vec<u64>, Vec<u64>) {
    let parts: Vec<&str> = field.split(';').collect();
    let &[header, limits, entries] = &parts[..] else { panic!("no table: {field}") };
    let mut entries = numbers(entries);
    entries.resize(stride * WINDOWS, 0);
    (fixed(header), numbers(limits), entries)
}

/// `n b c clock word ; a .. ; place arrival ..`
fn table(field: &str) -> Table {
    let ([n, b, c, clock, word], limits, entries) = parts(field, 2);
    let places = std::array::from_fn(|window| {
        Place::numbered(entries[2 * window], entries[2 * window + 1]).expect("a place")
    });
    Table { values: Values::new(n, b, c, &limits), clock, word, places }
}

/// `n b c clock word ; a .. ; place first last ..`
fn deadline_table(field: &str) -> DeadlineTable {
    let (header, mut limits, entries) = parts(field, 3);
    limits.resize(WINDOWS, 0);
    let lent = [&header[..], &limits, &entries].concat();
    DeadlineTable::from_numbers(&lent).expect("a table of deadlines")
}

/// The counts, and what the windows have waited; those that are left out at the end have waited 0.
fn summary(field: &str) -> Summary {
    let numbers = numbers(field);
    let &[accepted, refused, entries, exits, longest_wait, ref waited @ ..] = &numbers[..] else {
        panic!("no summary")
    };
    let mut summary = Summary { accepted, refused, entries, exits, longest_wait, ..Summary::new() };
    summary.waited[..waited.len()].copy_from_slice(waited);
    summary
}

/// `n b c` and the values of a that are lent.
fn values(field: &str, limits: &str) -> Values {
    let [n, b, c] = fixed(field);
    Values::new(n, b, c, &numbers(limits))
}

/// A refused line has no table after it: the calls by value give one of which no value stands.
#[test]
fn fresh_tables() {
    for line in include_str!("../vectors/fresh.txt").lines() {
        let [asked, limits, wanted, after] = fields(line);
        let values = values(asked, limits);
        let due = if after.is_empty() { fresh(Values::default()).1 } else { table(after) };
        assert_eq!(fresh(values), (answered(wanted), due), "{line}");
        let due = if after.is_empty() { deadline_fresh(Values::default()).1 } else { deadline_table(after) };
        assert_eq!(deadline_fresh(values), (answered(wanted), due), "{line}");
    }
}

#[test]
fn steps() {
    for line in include_str!("../vectors/step.txt").lines() {
        let [before, call, wanted, after] = fields(line);
        let [act, window, moment] = fixed(call);
        let came = step(table(before), act, window, moment);
        assert_eq!(came, (answered(wanted), table(after)), "{line}");
    }
}

#[test]
fn recorded_steps() {
    for line in include_str!("../vectors/recorded.txt").lines() {
        let [before, lent, call, wanted, after, left] = fields(line);
        let [act, window, moment] = fixed(call);
        let mut counted = summary(lent);
        let came = recorded_step(table(before), &mut counted, act, window, moment);
        assert_eq!(came, (answered(wanted), table(after)), "{line}");
        assert_eq!(counted, summary(left), "{line}");
    }
}

#[test]
fn readings() {
    for line in include_str!("../vectors/reader.txt").lines() {
        let [text, lengths, wanted, values, after] = fields(line);
        let lengths: [u64; 4] = fixed(lengths);
        let [mut a, mut times, mut windows, mut acts] = lengths.map(|length| vec![FILLED; length as usize]);
        let (answer, read) = read_into(&bytes(text), &mut a, &mut times, &mut windows, &mut acts);
        assert_eq!((answer, [read.n, read.b, read.c]), (answered(wanted), fixed(values)), "{line}");
        let due = numbers(&after.replace(['[', ']', ','], " "));
        assert_eq!([a, times, windows, acts].concat(), due, "{line}");
    }
}

/// An output as it is after a call.
fn quoted(field: &str) -> String {
    field.trim_matches('"').replace("\\n", "\n")
}

fn output(length: &str) -> Vec<u8> {
    let [length] = fixed(length);
    vec![b'#'; length as usize]
}

#[test]
fn writings() {
    for line in include_str!("../vectors/writer.txt").lines() {
        let [asked, limits, steps, length, wanted, after] = fields(line);
        let steps = numbers(steps);
        let column = |number: usize| steps.iter().skip(number).step_by(3).copied().collect::<Vec<u64>>();
        let mut out = output(length);
        let came = write(values(asked, limits), &column(0), &column(1), &column(2), &mut out);
        assert_eq!((came, out), (answered(wanted), quoted(after).into_bytes()), "{line}");
    }
}

#[test]
fn readings_of_spans() {
    for line in include_str!("../vectors/spans.txt").lines() {
        let [text, length, wanted, after] = fields(line);
        let mut out = output(length);
        let came = spans(&bytes(text), &mut out);
        assert_eq!((came, out), (answered(wanted), quoted(after).into_bytes()), "{line}");
    }
}

const DEADLINES: &str = include_str!("../vectors/deadline.txt");

#[test]
fn steps_of_deadlines() {
    for line in DEADLINES.lines() {
        let [before, call, wanted, after] = fields(line);
        let [act, window, moment] = fixed(call);
        let came = deadline_step(deadline_table(before), act, window, moment);
        assert_eq!(came, (answered(wanted), deadline_table(after)), "{line}");
    }
}

#[test]
fn steps_of_deadlines_have_every_answer_and_every_act_from_every_place() {
    let (mut answers, mut tried) = (BTreeSet::new(), BTreeSet::new());
    for line in DEADLINES.lines() {
        let [before, call, wanted, _] = fields(line);
        let ([act, window, _], Answer { number, .. }) = (fixed(call), answered(wanted));
        answers.insert(number);
        // those that are judged by the place
        if matches!(number, 0 | 9 | 10) && window > 0 {
            tried.insert((act, deadline_table(before).place(window).number()));
        }
    }
    assert_eq!(answers, BTreeSet::from([0, 1, 4, 5, 6, 7, 8, 9, 10]));
    assert_eq!(tried, (TRY..=WITHDRAW).flat_map(|act| (0..8).map(move |place| (act, place))).collect());
}

/// A refused line has no table after it: the calls by value give that of a refused fresh one.
#[test]
fn matching_tables() {
    for line in include_str!("../vectors/matching.txt").lines() {
        let [call, before, wanted, after] = fields(line);
        let (wanted, is_told) = (answered(wanted), !after.is_empty());
        assert_eq!(wanted, bare(if is_told { ACCEPTED } else { NO_TABLE }), "{line}");
        match call {
            "to_deadlines" => {
                let refused = deadline_fresh(Values::default()).1;
                let due = if is_told { deadline_table(after) } else { refused };
                assert_eq!(to_deadlines(&table(before)), (wanted, due), "{line}");
            }
            "to_arrivals" => {
                let due = if is_told { table(after) } else { fresh(Values::default()).1 };
                assert_eq!(to_arrivals(&deadline_table(before)), (wanted, due), "{line}");
            }
            _ => panic!("{call} is no call"),
        }
    }
}
