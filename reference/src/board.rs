//! The foyer board, and the recorded step that tells it of an entry: section 10 of the specification.
//! A board goes in and comes back by value, as a table does: each call gets the board that the last gave back.

use crate::answer::*;
use crate::machine::{accepted, Table, CLOCK_END, WINDOWS};
use crate::summary::{recorded_refusal, Summary};

/// The greatest W.
pub const W_END: u64 = 1_000_000_000;
/// The entries that a board has room for.
pub const ROOM: usize = 1_024;

/// An accepted crit, as the board was told of it.
#[derive(Clone, Copy, Debug, PartialEq, Eq)]
pub struct Entry {
    pub moment: u64,
    pub window: u64,
    pub wait: u64,
}

#[derive(Clone, Debug, PartialEq, Eq)]
pub struct Board {
    pub w: u64,
    /// The last moment told.
    pub last: u64,
    /// The entries that have not given up their places, in the order in which they were told.
    pub kept: Vec<Entry>,
}

/// [10.60] [10.65] Refused or not, all but W is the same.
pub fn set_up(w: u64) -> (Answer, Board) {
    let (number, w) = if in_range(w) { (ACCEPTED, w) } else { (WIDTH, 0) };
    (bare(number), Board { w, last: 0, kept: Vec::new() })
}

/// [10.20]
fn in_range(w: u64) -> bool {
    (1..=W_END).contains(&w)
}

impl Board {
    /// [10.30] [10.35]
    pub fn sound(&self) -> bool {
        in_range(self.w)
            && self.kept.len() <= ROOM
            && self.kept.windows(2).all(|pair| pair[0].moment <= pair[1].moment)
            && self.kept.iter().all(|entry| entry.moment <= self.last)
    }

    /// [10.70] An entry more, and the figures with it.
    pub fn add(mut self, moment: u64, window: u64, wait: u64) -> (Answer, Board) {
        if let Some(refusal) = self.refusal(moment) {
            return (refusal, self);
        }
        if !(1..=WINDOWS as u64).contains(&window) {
            return (bare(NO_WINDOW), self);
        }
        if self.full_at(moment) {
            return (bare(BOARD_FULL), self);
        }
        self.move_to(moment);
        self.kept.push(Entry { moment, window, wait });
        (self.figures(), self)
    }

    /// [10.80] The figures at a clock, which the board has then been told.
    pub fn show(mut self, clock: u64) -> (Answer, Board) {
        if let Some(refusal) = self.refusal(clock) {
            return (refusal, self);
        }
        self.move_to(clock);
        (self.figures(), self)
    }

    /// [10.90] The answers 2, 4 and 5 to a moment or clock.
    fn refusal(&self, moment: u64) -> Option<Answer> {
        if !self.sound() {
            return Some(bare(NO_SUMMARY));
        }
        if moment < self.last {
            return Some(answer(BACKWARD, 0, self.last));
        }
        (moment > CLOCK_END).then_some(bare(END_OF_CLOCK))
    }

    /// Whether no entry has expired that could give up its place.
    fn full_at(&self, clock: u64) -> bool {
        self.kept.len() == ROOM && self.kept.iter().all(|entry| counts(self.w, clock, entry))
    }

    /// [10.55] Tells the board a moment or clock, at which expired entries give up their places.
    fn move_to(&mut self, clock: u64) {
        let w = self.w;
        self.last = clock;
        self.kept.retain(|entry| counts(w, clock, entry));
    }

    /// [10.50] Of all entries that are kept.
    fn figures(&self) -> Answer {
        let longest = self.kept.iter().map(|entry| entry.wait).max();
        answer(ACCEPTED, self.kept.len() as u64, longest.unwrap_or(0))
    }
}

/// [10.40] Taken apart, so that no sum wraps.
fn counts(w: u64, clock: u64, entry: &Entry) -> bool {
    clock < w || entry.moment > clock - w
}

/// The answers of a recorded step and of the board beside it.
#[derive(Clone, Copy, Debug, PartialEq, Eq)]
pub struct Told {
    pub step: Answer,
    pub board: Answer,
}

/// [10.200] [10.205] The recorded step, of which the board is told if it is an accepted crit, with the wait that the crit ends. It stands,
/// whatever the board answers.
pub fn record_and_tell(
    table: Table,
    summary: &mut Summary,
    board: Board,
    act: u64,
    window: u64,
    moment: u64,
) -> (Told, Table, Board) {
    if let Some(step) = recorded_refusal(&table, summary, act, window, moment) {
        return (Told { step, board: bare(ACCEPTED) }, table, board);
    }
    let wait = summary.count_accepted(&table, act, window, moment);
    let (step, table) = accepted(table, act, window, moment);
    let (told, board) = match wait {
        Some(wait) => board.add(moment, window, wait),
        None => (bare(ACCEPTED), board),
    };
    (Told { step, board: told }, table, board)
}
