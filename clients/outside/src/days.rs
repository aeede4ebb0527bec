//! Days: a recording, the accepted acts of its windows, and notebooks of tills that are held against these.

use crate::accepted::Recorded;
use crate::calls::{self, Verdict};
use crate::notebooks::Lists;
use crate::shaken::notebooks;
use crate::sights::Sights;
use crate::tally::{of_accepted, of_notebooks, Outcome};
use reference::answer::Answer;
use reference::generator::generate;
use reference::generator::random::Random;
use reference::notebook::Comparison;

pub struct Day {
    pub random: Random,
    recorded: Recorded,
    /// those that were taken last, if any were
    accepted: Option<Lists>,
    pub sights: Sights,
}

impl Day {
    pub fn new(mut random: Random) -> Day {
        let recorded = Recorded::new(generate(random.below(1 << 32), 0).text);
        Day { random, recorded, accepted: None, sights: Sights::default() }
    }

    /// How many calls are made of it; nothing can be held against a faulty one.
    pub fn length(&mut self, longest: u64) -> u64 {
        if self.recorded.is_faulty() {
            2
        } else {
            self.random.between(1, longest)
        }
    }

    pub fn call(&mut self) -> Outcome {
        match &self.accepted {
            Some(accepted) if !self.random.chance(6) => {
                of_notebooks(compare(&mut self.random, accepted, &mut self.sights))
            }
            _ => of_accepted(self.take_accepted()),
        }
    }

    fn take_accepted(&mut self) -> (Answer, Verdict) {
        let (answer, verdict, taken) = self.recorded.call(&mut self.random, &mut self.sights);
        self.accepted = taken.or(self.accepted.take());
        (answer, verdict)
    }
}

fn compare(random: &mut Random, accepted: &Lists, sights: &mut Sights) -> (Comparison, Verdict) {
    let made = notebooks(random, accepted);
    let due = made.due();
    made.look(due, sights);
    let verdict = calls::compare_logs(&made, due);
    (due, verdict.map_err(|what| format!("{made:?}: {what}")))
}
