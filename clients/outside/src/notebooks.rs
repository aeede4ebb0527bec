//! What a comparison of notebooks is lent, what it has to answer, by the reference, and what it comes upon.

use crate::sights::{Sight, Sights};
use reference::answer::{ACCEPTED, BOUNDS, NO_SHIFT, OTHER_ACTS};
use reference::machine::{CLOCK_END, LAST_ACT};
use reference::notebook::{compare, Comparison, SHIFT_END};

/// The lists of a notebook.
#[derive(Clone, Debug, Default)]
pub struct Lists {
    pub times: Vec<u64>,
    pub acts: Vec<u64>,
}

impl Lists {
    /// How many places count.
    pub fn count(&self) -> usize {
        self.times.len().min(self.acts.len())
    }

    fn counted_times(&self) -> &[u64] {
        &self.times[..self.count()]
    }

    fn counted_acts(&self) -> &[u64] {
        &self.acts[..self.count()]
    }

    /// The list behind which places do not count: the longer one; of two that are as long either, as asked for.
    pub fn longer(&mut self, times_if_even: bool) -> &mut Vec<u64> {
        let Lists { times, acts } = self;
        if times.len() > acts.len() || (times.len() == acts.len() && times_if_even) {
            times
        } else {
            acts
        }
    }
}

/// Past the end of the clock.
fn has_past(times: &[u64]) -> bool {
    times.iter().any(|&time| time > CLOCK_END)
}

/// A till's notebook and the one that the box kept.
#[derive(Clone, Debug)]
pub struct Notebooks {
    pub till: Lists,
    pub kept: Lists,
    pub d: u64,
    pub e: u64,
}

impl Notebooks {
    pub fn due(&self) -> Comparison {
        self.with(self.d, self.e)
    }

    /// The same lists with another d and e.
    fn with(&self, d: u64, e: u64) -> Comparison {
        let Notebooks { till, kept, .. } = self;
        compare((&till.times, &till.acts), (&kept.times, &kept.acts), d, e)
    }

    /// What there is to see, by the answer that is due.
    pub fn look(&self, due: Comparison, sights: &mut Sights) {
        match due.number {
            ACCEPTED if self.kept.count() == 0 => sights.look(Sight::NoEntry, self.d > 0),
            ACCEPTED => self.look_at_shift(due.shift, sights),
            BOUNDS => self.look_at_bounds(sights),
            OTHER_ACTS => self.look_at_acts(sights),
            NO_SHIFT => self.look_at_missed(sights),
            _ => {}
        }
        if due.number != BOUNDS {
            self.look_behind(sights);
        }
    }

    fn look_at_shift(&self, shift: i64, sights: &mut Sights) {
        let d = self.d as i64;
        let is_next_too = shift < d && self.differences().all(|off| off.abs_diff(shift + 1) <= self.e);
        let mut acts = self.kept.counted_acts().iter();
        let mut times = [&self.till, &self.kept].into_iter().flat_map(Lists::counted_times);
        sights.look(Sight::ShiftAtLeast, d > 0 && shift == -d);
        sights.look(Sight::ShiftAtMost, d > 0 && shift == d);
        sights.look(Sight::ShiftBelow0, -d < shift && shift < 0);
        sights.look(Sight::ShiftAbove0, 0 < shift && shift < d);
        sights.look(Sight::SeveralShifts, is_next_too);
        sights.look(Sight::OnlyShift, self.e > 0 && !is_next_too);
        sights.look(Sight::WidestD, self.d == SHIFT_END);
        sights.look(Sight::WidestE, self.e == SHIFT_END);
        sights.look(Sight::TimeAtTheEnd, times.any(|&time| time == CLOCK_END));
        sights.look(Sight::NoActAlike, acts.any(|&act| act > LAST_ACT));
    }

    fn look_at_bounds(&self, sights: &mut Sights) {
        let Notebooks { till, kept, d, e } = self;
        let times = [till, kept].map(Lists::counted_times);
        let shared = till.count().min(kept.count());
        let past = [*d > SHIFT_END, *e > SHIFT_END, has_past(times[0]), has_past(times[1])];
        let is_alone = past.iter().filter(|is_past| **is_past).count() == 1;
        let seen = [Sight::PastD, Sight::PastE, Sight::PastOfTill, Sight::PastOfBox];
        for (sight, is_past) in seen.into_iter().zip(past) {
            sights.look(sight, is_past && is_alone);
        }
        let is_behind = past[..2] == [false; 2] && times.iter().all(|times| !has_past(&times[..shared]));
        sights.look(Sight::PastBehindTheOther, is_behind);
        sights.look(Sight::PastAndOtherActs, till.counted_acts() != kept.counted_acts());
    }

    fn look_at_acts(&self, sights: &mut Sights) {
        let [till, kept] = [&self.till, &self.kept].map(Lists::counted_acts);
        let (shorter, longer) = if till.len() < kept.len() { (till, kept) } else { (kept, till) };
        sights.look(Sight::OneActMore, longer.len() == shorter.len() + 1 && longer.starts_with(shorter));
        if till.len() == kept.len() {
            let last = till.len() - 1;
            sights.look(Sight::OtherFirstAct, last > 0 && till[1..] == kept[1..]);
            sights.look(Sight::OtherLastAct, last > 0 && till[..last] == kept[..last]);
            sights.look(Sight::OtherActsAndNoShift, !self.would_agree(|off| off));
        }
    }

    fn look_at_missed(&self, sights: &mut Sights) {
        let agrees = |d, e| self.with(d, e).number == ACCEPTED;
        sights.look(Sight::MissedByD, agrees(self.d + 1, self.e));
        sights.look(Sight::MissedByE, agrees(self.d, self.e + 1));
        sights.look(Sight::Missed32Bits, self.would_agree(|off| i64::from(off as i32)));
    }

    /// Where a time past its limit does not count.
    fn look_behind(&self, sights: &mut Sights) {
        let past_behind = |lists: &Lists| has_past(&lists.times[lists.count()..]);
        let acts_behind = |lists: &Lists| lists.acts.len() > lists.count();
        sights.look(Sight::UncountedOfTill, past_behind(&self.till));
        sights.look(Sight::UncountedOfBox, past_behind(&self.kept));
        sights.look(Sight::UncountedActs, acts_behind(&self.till) || acts_behind(&self.kept));
    }

    /// The time of the box less that of the till, place by place.
    fn differences(&self) -> impl Iterator<Item = i64> + '_ {
        let pairs = self.till.counted_times().iter().zip(self.kept.counted_times());
        pairs.map(|(&till_time, &time)| time as i64 - till_time as i64)
    }

    /// Whether some shift would serve, if differences were these and acts were of no account.
    fn would_agree(&self, seen: impl Fn(i64) -> i64) -> bool {
        let (d, e) = (self.d as i64, self.e as i64);
        let (mut least, mut greatest) = (-d, d);
        for off in self.differences().map(seen) {
            (least, greatest) = (least.max(off - e), greatest.min(off + e));
        }
        least <= greatest
    }
}
