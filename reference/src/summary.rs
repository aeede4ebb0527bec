//! The running summary and the recorded step: section 5 of the specification.
//! A table goes by value, but a summary is lent, [5.30].

use crate::answer::*;
use crate::machine::*;

/// The greatest sum of accepted and refused acts, and the greatest longest wait.
pub const SUMMARY_END: u64 = 1_000_000_000_000;

#[derive(Clone, Debug, PartialEq, Eq)]
pub struct Summary {
    pub accepted: u64,
    pub refused: u64,
    pub entries: u64,
    pub exits: u64,
    pub longest_wait: u64,
    /// What window w has waited so far is `waited[w - 1]`.
    pub waited: [u64; WINDOWS],
}

impl Summary {
    /// [5.20]
    pub fn new() -> Summary {
        Summary { accepted: 0, refused: 0, entries: 0, exits: 0, longest_wait: 0, waited: [0; WINDOWS] }
    }

    /// The clock is that of the table beside which the summary is lent, before the act.
    pub fn sound(&self, clock: u64) -> bool {
        // A sum that overflows is above every bound.
        let calls = self.accepted.saturating_add(self.refused);
        let passages = self.entries.saturating_add(self.exits);
        calls <= SUMMARY_END
            && passages <= self.accepted
            && self.longest_wait <= SUMMARY_END
            && self.waited.iter().all(|&waited| waited <= clock)
    }

    /// Of a sound summary.
    fn full(&self) -> bool {
        self.accepted + self.refused == SUMMARY_END
    }

    /// [5.70] An accepted act, at the table before it; the wait that it ends, if it is a crit.
    pub fn count_accepted(&mut self, table: &Table, act: u64, window: u64, moment: u64) -> Option<u64> {
        self.accepted += 1;
        self.add_unused_time(table, moment);
        match act {
            TRY | WITHDRAW => self.waited[window as usize - 1] = 0,
            CRIT => return Some(self.end_wait(window)),
            EXIT => self.exits += 1,
            _ => {}
        }
        None
    }

    /// [5.80] Each window that is trying waits, whoever acts; the one that is let in too.
    fn add_unused_time(&mut self, table: &Table, moment: u64) {
        let unused = unused_time(table, moment);
        for (waited, place) in self.waited.iter_mut().zip(&table.places) {
            if place.is_trying() {
                *waited += unused;
            }
        }
    }

    /// [5.90] By an entry.
    fn end_wait(&mut self, window: u64) -> u64 {
        self.entries += 1;
        let wait = std::mem::take(&mut self.waited[window as usize - 1]);
        self.longest_wait = self.longest_wait.max(wait);
        wait
    }
}

impl Default for Summary {
    fn default() -> Self {
        Summary::new()
    }
}

/// [5.75] The clock's advance in an accepted act before which nobody sold.
fn unused_time(table: &Table, moment: u64) -> u64 {
    if table.seller() == 0 {
        moment - table.clock
    } else {
        0
    }
}

/// The step with a summary.
pub fn recorded_step(
    table: Table,
    summary: &mut Summary,
    act: u64,
    window: u64,
    moment: u64,
) -> (Answer, Table) {
    if let Some(refusal) = recorded_refusal(&table, summary, act, window, moment) {
        return (refusal, table);
    }
    summary.count_accepted(&table, act, window, moment);
    accepted(table, act, window, moment)
}

/// Rows 1, 2 and 3 come before 4 to 10, which are counted.
pub fn recorded_refusal(
    table: &Table,
    summary: &mut Summary,
    act: u64,
    window: u64,
    moment: u64,
) -> Option<Answer> {
    if !table.sound() {
        return Some(bare(NO_TABLE));
    }
    if !summary.sound(table.clock) {
        return Some(bare(NO_SUMMARY));
    }
    if summary.full() {
        return Some(bare(SUMMARY_FULL));
    }
    let refusal = refusal(table, act, window, moment);
    summary.refused += u64::from(refusal.is_some());
    refusal
}
