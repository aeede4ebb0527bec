//! How often each answer was due from random calls, of boards, of spans, of the second engine, of accepted acts and of notebooks apart, and what
//! the calls came upon.

use crate::calls::Verdict;
use crate::sights::{Sight, Sights};
use reference::answer::*;
use reference::notebook::Comparison;
use std::ops::RangeInclusive;

/// Differences beyond these are only counted.
const SHOWN: u64 = 5;

/// What all others may answer.
const OTHERS: RangeInclusive<u64> = ACCEPTED..=SHORT_OUTPUT;
/// What a board may answer that is set up, told of an entry or shown.
const OF_BOARDS: [u64; 8] =
    [ACCEPTED, NO_SUMMARY, BACKWARD, END_OF_CLOCK, NO_WINDOW, SHORT_OUTPUT, WIDTH, BOARD_FULL];

/// What spans may be answered.
const OF_SPANS: [u64; 7] = [ACCEPTED, WINDOW_COUNT, LIMITS, NAMES, LINE, LENGTH, SHORT_OUTPUT];

/// What the second engine may answer: its steps, its fresh tables, and the calls from one kind of table to the other.
const OF_DEADLINES: [u64; 12] = [
    ACCEPTED,
    NO_TABLE,
    BACKWARD,
    END_OF_CLOCK,
    NO_ACT,
    NO_WINDOW,
    LATE,
    OUT_OF_PLACE,
    EARLY,
    WINDOW_COUNT,
    LIMITS,
    SHORT_OUTPUT,
];

/// What accepted acts may be answered.
const OF_ACCEPTED: [u64; 8] = [ACCEPTED, NO_WINDOW, WINDOW_COUNT, LIMITS, NAMES, LINE, LENGTH, SHORT_OUTPUT];

/// What notebooks that are compared may be answered.
const OF_NOTEBOOKS: [u64; 4] = [ACCEPTED, BOUNDS, OTHER_ACTS, NO_SHIFT];

/// The number that is due from a call, of one of these kinds or of a board and the rest, and whether it and all else came.
pub struct Outcome {
    pub other: Option<u64>,
    pub board: Option<u64>,
    pub spans: Option<u64>,
    pub deadlines: Option<u64>,
    pub accepted: Option<u64>,
    pub notebooks: Option<u64>,
    pub verdict: Verdict,
}

pub fn of_other((answer, verdict): (Answer, Verdict)) -> Outcome {
    Outcome { other: Some(answer.number), ..of_none(verdict) }
}

pub fn of_board((answer, verdict): (Answer, Verdict)) -> Outcome {
    Outcome { board: Some(answer.number), ..of_none(verdict) }
}

pub fn of_spans((answer, verdict): (Answer, Verdict)) -> Outcome {
    Outcome { spans: Some(answer.number), ..of_none(verdict) }
}

pub fn of_deadlines((answer, verdict): (Answer, Verdict)) -> Outcome {
    Outcome { deadlines: Some(answer.number), ..of_none(verdict) }
}

pub fn of_accepted((answer, verdict): (Answer, Verdict)) -> Outcome {
    Outcome { accepted: Some(answer.number), ..of_none(verdict) }
}

pub fn of_notebooks((comparison, verdict): (Comparison, Verdict)) -> Outcome {
    Outcome { notebooks: Some(comparison.number), ..of_none(verdict) }
}

fn of_none(verdict: Verdict) -> Outcome {
    Outcome {
        other: None,
        board: None,
        spans: None,
        deadlines: None,
        accepted: None,
        notebooks: None,
        verdict,
    }
}

#[derive(Default)]
pub struct Tally {
    pub calls: u64,
    differ: u64,
    others: Answers,
    boards: Answers,
    spans: Answers,
    deadlines: Answers,
    accepted: Answers,
    notebooks: Answers,
    pub sights: Sights,
}

impl Tally {
    /// The place of a call is said where it differs.
    pub fn count(&mut self, outcome: Outcome, place: impl Fn() -> String) {
        let Outcome { other, board, spans, deadlines, accepted, notebooks, verdict } = outcome;
        self.calls += 1;
        self.others.count(other);
        self.boards.count(board);
        self.spans.count(spans);
        self.deadlines.count(deadlines);
        self.accepted.count(accepted);
        self.notebooks.count(notebooks);
        if let (Some(_), Some(board)) = (other, board) {
            self.sights.look(if board == ACCEPTED { Sight::EntryTaken } else { Sight::EntryRefused }, true);
        }
        if let Err(difference) = verdict {
            self.differ += 1;
            if self.differ <= SHOWN {
                println!("{}: {difference}", place());
            }
        }
    }

    /// Says it all; true if nothing differs and nothing is missing.
    pub fn report(&self) -> bool {
        let Tally { calls, differ, others, boards, spans, deadlines, accepted, notebooks, sights } = self;
        println!("answers: {}", others.said(OTHERS));
        println!("answers of boards: {}", boards.said(OF_BOARDS));
        println!("answers of spans: {}", spans.said(OF_SPANS));
        println!("answers of the second engine: {}", deadlines.said(OF_DEADLINES));
        println!("answers of accepted acts: {}", accepted.said(OF_ACCEPTED));
        println!("answers of notebooks: {}", notebooks.said(OF_NOTEBOOKS));
        sights.say();
        let answers = [
            (others.missing(OTHERS), "an answer of all others"),
            (boards.missing(OF_BOARDS), "an answer of boards"),
            (spans.missing(OF_SPANS), "an answer of spans"),
            (deadlines.missing(OF_DEADLINES), "an answer of the second engine"),
            (accepted.missing(OF_ACCEPTED), "an answer of accepted acts"),
            (notebooks.missing(OF_NOTEBOOKS), "an answer of notebooks"),
        ];
        let answers = answers.into_iter().filter_map(|(is_missing, what)| is_missing.then_some(what));
        let missing: Vec<&str> = answers.chain(sights.missing()).collect();
        for what in &missing {
            println!("did not come up: {what}");
        }
        println!("differential: {calls} calls, {differ} differ");
        missing.is_empty() && *differ == 0
    }
}

/// How often each number was due.
#[derive(Default)]
struct Answers([u64; NO_SHIFT as usize + 1]);

impl Answers {
    fn count(&mut self, due: Option<u64>) {
        if let Some(number) = due {
            self.0[number as usize] += 1;
        }
    }

    fn said(&self, numbers: impl IntoIterator<Item = u64>) -> String {
        let times = numbers.into_iter().map(|number| format!("{number}: {}", self.0[number as usize]));
        times.collect::<Vec<String>>().join(", ")
    }

    fn missing(&self, numbers: impl IntoIterator<Item = u64>) -> bool {
        numbers.into_iter().any(|number| self.0[number as usize] == 0)
    }
}
