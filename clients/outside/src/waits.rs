//! What a recorded step comes upon that its waits turn on: who tries and who sells, whether the clock advances, and which sums it finds.

use crate::sights::{Sight, Sights};
use reference::answer::{Answer, ACCEPTED, BACKWARD, EARLY, NO_SUMMARY};
use reference::machine::{Place, Table, CRIT, TRY, WINDOWS, WITHDRAW};
use reference::summary::Summary;

/// A recorded step with the table and the summary that it finds, and the answer that is due.
pub struct Found<'a> {
    pub table: &'a Table,
    pub summary: &'a Summary,
    pub call: [u64; 3],
    pub answer: Answer,
}

impl Found<'_> {
    pub fn look(&self, sights: &mut Sights) {
        match self.answer.number {
            ACCEPTED => self.look_at_counted(sights),
            NO_SUMMARY => self.look_at_unsound(sights),
            BACKWARD..=EARLY => {
                sights.look(Sight::RefusedInUnused, self.advance() > 0 && self.somebody_waits())
            }
            _ => {}
        }
    }

    fn look_at_counted(&self, sights: &mut Sights) {
        let [act, window, _] = self.call;
        let (advances, sellers) = (self.advance() > 0, self.sellers());
        sights.look(Sight::NoAdvance, !advances && self.somebody_waits());
        sights.look(Sight::OneSold, advances && sellers == 1 && self.somebody_tries());
        sights.look(Sight::TwoSold, advances && sellers > 1 && self.somebody_tries());
        sights.look(Sight::CritInUnused, advances && sellers == 0 && act == CRIT);
        sights.look(Sight::CritWhileSold, advances && sellers > 0 && act == CRIT);
        sights.look(Sight::TryAfterSum, act == TRY && self.sum(window) > 0);
        sights.look(Sight::WithdrawAfterSum, act == WITHDRAW && self.sum(window) > 0);
        if advances && self.somebody_waits() {
            self.look_at_sums(sights);
        }
    }

    /// In unused time.
    fn look_at_sums(&self, sights: &mut Sights) {
        let n = self.table.values.n;
        let of_no_try = |window| self.sum(window) > 0 && !self.tries(window);
        let at_clock = |window| self.sum(window) == self.table.clock && self.tries(window);
        sights.look(Sight::Unused, true);
        sights.look(Sight::OfNoTry, (1..=n).any(of_no_try));
        sights.look(Sight::AboveN, (n + 1..=WINDOWS as u64).any(of_no_try));
        sights.look(Sight::AtClock, self.table.clock > 0 && (1..=n).any(at_clock));
    }

    /// Whether it is for a sum alone, which is too great by 1.
    fn look_at_unsound(&self, sights: &mut Sights) {
        let (n, clock) = (self.table.values.n, self.table.clock);
        let is_past = |window| self.sum(window) == clock + 1;
        let waited = self.summary.waited.map(|waited| waited - u64::from(waited == clock + 1));
        let otherwise_sound = Summary { waited, ..self.summary.clone() }.sound(clock);
        sights.look(Sight::PastClock, otherwise_sound && (1..=n).any(is_past));
        sights.look(Sight::PastClockAboveN, otherwise_sound && (n + 1..=WINDOWS as u64).any(is_past));
    }

    /// Of a moment before the clock, 0.
    fn advance(&self) -> u64 {
        self.call[2].saturating_sub(self.table.clock)
    }

    fn sellers(&self) -> usize {
        self.table.places.iter().filter(|place| **place == Place::Selling).count()
    }

    fn tries(&self, window: u64) -> bool {
        self.table.place(window).is_trying()
    }

    fn somebody_tries(&self) -> bool {
        (1..=self.table.values.n).any(|window| self.tries(window))
    }

    fn somebody_waits(&self) -> bool {
        self.sellers() == 0 && self.somebody_tries()
    }

    /// What a window of 1 to 96 has waited.
    fn sum(&self, window: u64) -> u64 {
        self.summary.waited[window as usize - 1]
    }
}
