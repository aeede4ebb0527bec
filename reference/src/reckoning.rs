//! The summary of a list of recorded steps, handed on from one to the next, by the acts and what they were answered: section 5 of the
//! specification, from [5.120] to [5.128]. No table and no summary helps: what the clock is and who tries and sells, the acts tell.

use crate::answer::{Answer, ACCEPTED};
use crate::machine::*;
use crate::promises::Kept;
use crate::summary::Summary;
use std::collections::{BTreeMap, BTreeSet};

/// Where a window came to try.
#[derive(Clone, Copy)]
struct Try {
    moment: u64,
    /// how many acts were accepted up to it, itself among them
    place: usize,
}

/// What an accepted crit ended.
#[derive(Clone, Copy, Debug, PartialEq, Eq)]
pub struct Wait {
    /// [5.125] the unused time of the accepted acts after the try, up to the crit and with it
    pub unused: u64,
    /// [5.128] all the time from the try to the crit
    pub whole: u64,
}

#[derive(Default)]
pub struct Reckoning {
    /// [5.122] the moment of the last accepted act
    clock: u64,
    /// [5.123] of each accepted act, the clock's advance in it, or 0 if somebody sold before it
    unused: Vec<u64>,
    refused: u64,
    exits: u64,
    /// of each accepted crit
    waits: Vec<Wait>,
    /// [5.122] a window tries from its try on until it is let in or withdraws, and sells from its crit until its exit
    trying: BTreeMap<u64, Try>,
    selling: BTreeSet<u64>,
}

impl Reckoning {
    /// After a call of the list; none of them is answered with 1, 2 or 3.
    pub fn after(&mut self, call: [u64; 3], answer: Answer) {
        if answer.number == ACCEPTED {
            self.accepted(call);
        } else {
            self.refused += 1;
        }
    }

    fn accepted(&mut self, [act, window, moment]: [u64; 3]) {
        self.unused.push(if self.selling.is_empty() { moment - self.clock } else { 0 });
        self.clock = moment;
        match act {
            TRY => {
                self.trying.insert(window, Try { moment, place: self.unused.len() });
            }
            CRIT => {
                self.waits.extend(self.wait(window));
                self.trying.remove(&window);
                self.selling.insert(window);
            }
            EXIT => {
                self.exits += 1;
                self.selling.remove(&window);
            }
            WITHDRAW => {
                self.trying.remove(&window);
            }
            _ => {}
        }
    }

    /// [5.124] So far, of a window that is trying.
    fn wait(&self, window: u64) -> Option<Wait> {
        let Try { moment, place } = *self.trying.get(&window)?;
        Some(Wait { unused: self.unused[place..].iter().sum(), whole: self.clock - moment })
    }

    /// Of each accepted crit, in order.
    pub fn waits(&self) -> &[Wait] {
        &self.waits
    }

    /// [5.120] [5.125]
    pub fn summary(&self) -> Summary {
        let waited = |window| self.wait(window).map_or(0, |wait| wait.unused);
        Summary {
            accepted: self.unused.len() as u64,
            refused: self.refused,
            entries: self.waits.len() as u64,
            exits: self.exits,
            longest_wait: self.waits.iter().map(|wait| wait.unused).max().unwrap_or(0),
            waited: std::array::from_fn(|index| waited(index as u64 + 1)),
        }
    }

    /// [5.126] That the list has left this table and this summary.
    pub fn left(&self, table: &Table, summary: &Summary) -> Kept {
        let (reckoned, left) = ((self.clock, self.summary()), (table.clock, summary.clone()));
        if reckoned != left {
            return Err(format!("acts and answers come to {reckoned:?}, not {left:?}"));
        }
        (1..=WINDOWS as u64).try_for_each(|window| self.left_at(window, table, summary))
    }

    /// [5.128] Who does not try has waited 0, and who tries has waited no longer than since the try: that was a wait when time in which another
    /// sold counted too.
    fn left_at(&self, window: u64, table: &Table, summary: &Summary) -> Kept {
        let (wait, sells) = (self.wait(window), self.selling.contains(&window));
        let place = table.place(window);
        if (wait.is_some(), sells) != (place.is_trying(), place == Place::Selling) {
            return Err(format!("by the acts, window {window} is not at {place:?}"));
        }
        let waited = summary.waited[window as usize - 1];
        let whole = wait.map_or(0, |wait| wait.whole);
        if waited > whole {
            return Err(format!("window {window} has waited {waited} in the {whole} since its try"));
        }
        Ok(())
    }
}
