//! Calls of a board, one after another from a setting up on, and what comes of them: section 10 of the specification. Once by the board,
//! which gives places up; and once by a list that forgets nothing, as the request says what the figures are of.

use crate::answer::*;
use crate::board::*;
use crate::machine::{CLOCK_END, WINDOWS};

#[derive(Clone, Copy, Debug, PartialEq, Eq)]
pub enum BoardCall {
    SetUp(u64),
    Add(Entry),
    Show(u64),
}

/// A setting up has no use for the board that was there.
pub fn make(board: Board, call: BoardCall) -> (Answer, Board) {
    match call {
        BoardCall::SetUp(w) => set_up(w),
        BoardCall::Add(Entry { moment, window, wait }) => board.add(moment, window, wait),
        BoardCall::Show(clock) => board.show(clock),
    }
}

/// All entries that were accepted since setting up, from which every answer can be worked out [10.150]. Before a setting up, and after a
/// refused one, W is 0.
#[derive(Clone, Debug, Default)]
pub struct FullList {
    w: u64,
    /// the moment or clock of the last accepted call
    last: u64,
    entries: Vec<Entry>,
}

impl FullList {
    /// The answer that is due to a call, after which the list has what it told, if it is accepted.
    pub fn answer(&mut self, call: BoardCall) -> Answer {
        let (moment, entry) = match call {
            BoardCall::SetUp(w) => return self.set_up(w),
            BoardCall::Add(entry) => (entry.moment, Some(entry)),
            BoardCall::Show(clock) => (clock, None),
        };
        if let Some(refusal) = self.refusal(moment, entry) {
            return refusal;
        }
        self.last = moment;
        self.entries.extend(entry);
        self.figures(moment)
    }

    pub fn entries(&self) -> &[Entry] {
        &self.entries
    }

    fn set_up(&mut self, w: u64) -> Answer {
        let stands = (1..=W_END).contains(&w);
        *self = FullList { w: if stands { w } else { 0 }, ..FullList::default() };
        bare(if stands { ACCEPTED } else { WIDTH })
    }

    fn refusal(&self, moment: u64, entry: Option<Entry>) -> Option<Answer> {
        if self.w == 0 {
            return Some(bare(NO_SUMMARY));
        }
        if moment < self.last {
            return Some(answer(BACKWARD, 0, self.last));
        }
        if moment > CLOCK_END {
            return Some(bare(END_OF_CLOCK));
        }
        if !(1..=WINDOWS as u64).contains(&entry?.window) {
            return Some(bare(NO_WINDOW));
        }
        (self.figures(moment).window == ROOM as u64).then_some(bare(BOARD_FULL))
    }

    /// How many count at that clock, and the longest wait among them. No accepted moment is past the clock's end, so the sum does not wrap.
    fn figures(&self, clock: u64) -> Answer {
        let counting = self.entries.iter().filter(|entry| entry.moment + self.w > clock);
        let (count, longest) =
            counting.fold((0, 0), |(count, longest), entry| (count + 1, entry.wait.max(longest)));
        answer(ACCEPTED, count, longest)
    }
}
