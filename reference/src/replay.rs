//! What the program `replay` prints: section 7 of the specification.
//! It lends no summary: no recording is long enough for answer 3, and 2 cannot follow from a new one.

use crate::answer::{bare, Answer, ACCEPTED};
use crate::machine::{fresh, step};
use crate::recording::{read, Fault, Recording, Step};

const NAMES: &str = "line,answer,window,moment\n";

pub fn replay(text: &[u8]) -> String {
    match read(text) {
        Ok(recording) => under(NAMES, run(&recording).map(|taken| line_of(taken.line, taken.answer))),
        Err(fault) => faulty(fault),
    }
}

/// [7.30] What is printed of a faulty recording.
pub fn faulty(fault: Fault) -> String {
    under(NAMES, [line_of(fault.line, bare(fault.number))])
}

/// A step as it was taken in the run of its recording.
#[derive(Clone, Copy, Debug, PartialEq, Eq)]
pub struct Taken {
    pub line: u64,
    pub step: Step,
    pub answer: Answer,
}

/// [7.40] [7.45]
pub fn run(recording: &Recording) -> impl Iterator<Item = Taken> + '_ {
    let (_, mut table) = fresh(recording.values);
    (recording.first_line..).zip(&recording.steps).map(move |(line, &recorded)| {
        let answer;
        (answer, table) = step(table, recorded.act, recorded.window, recorded.time);
        Taken { line, step: recorded, answer }
    })
}

/// [11.10] The steps that are accepted in the run, in their order.
pub fn accepted(recording: &Recording) -> impl Iterator<Item = Step> + '_ {
    run(recording).filter(|taken| taken.answer.number == ACCEPTED).map(|taken| taken.step)
}

/// Lines under a line of names.
pub fn under(names: &str, lines: impl IntoIterator<Item = String>) -> String {
    [names.into()].into_iter().chain(lines).collect()
}

fn line_of(line: u64, answer: Answer) -> String {
    format!("{line},{},{},{}\n", answer.number, answer.window, answer.moment)
}
