//! What a walk goes on from: its table, its summary and its board, as its calls have left them; and what holds of these where they started
//! fresh, as of every list of calls.

use crate::boards;
use crate::calls::{self, Verdict};
use crate::distances::{look_at_act, look_at_refused, OF_WALKS};
use crate::encoding::{entry_at, summary_in, table_in};
use crate::lists::Made;
use crate::sights::{Sight, Sights};
use crate::tables::start;
use crate::waits::Found;
use funnelfawn::raw::BOARD;
use reference::answer::{Answer, ACCEPTED, LATE, NO_TABLE};
use reference::generator::lists::foreign;
use reference::generator::random::Random;
use reference::machine::{fresh, Place, Table, CRIT, WITHDRAW};
use reference::promises::Promises;
use reference::reckoning::{Reckoning, Wait};
use reference::summary::Summary;

pub struct Course {
    pub table: Table,
    pub summary: Summary,
    pub board: Vec<u64>,
    /// those of the calls so far, if the table was fresh at the start
    promises: Option<Promises>,
    /// of a threaded walk, whose summary was new then too, and changes with the table and never alone
    reckoning: Option<Reckoning>,
    pub sights: Sights,
}

impl Course {
    pub fn new(random: &mut Random) -> Course {
        let table = start(random);
        let is_fresh = table == fresh(table.values).1;
        let is_threaded = is_fresh && random.chance(50);
        let is_new = is_threaded || random.chance(50);
        Course {
            table,
            summary: if is_new { Summary::new() } else { foreign(random, table.clock) },
            board: boards::start(random, table.clock),
            promises: is_fresh.then(Promises::default),
            reckoning: is_threaded.then(Reckoning::default),
            sights: Sights::default(),
        }
    }

    pub fn is_threaded(&self) -> bool {
        self.reckoning.is_some()
    }

    /// After a step on such a list, which left these numbers.
    pub fn step(&mut self, lent: &Made, call: [u64; 3], answer: Answer, after: &[u64]) -> Verdict {
        self.look_at_table(lent, answer);
        if lent.own {
            self.keep_table(call, answer, after)
        } else {
            Ok(())
        }
    }

    /// After a recorded step on such lists, those of a table and of a summary.
    pub fn record(
        &mut self,
        lent: [&Made; 2],
        call: [u64; 3],
        answer: Answer,
        after: [&[u64]; 2],
    ) -> Verdict {
        self.look_at_table(lent[0], answer);
        self.look(lent, call, answer);
        let own = lent.map(|list| list.own);
        match own {
            [true, true] => {
                self.keep_table(call, answer, after[0])?;
                self.keep_summary(call, answer, after[1])
            }
            [true, false] if !self.is_threaded() => self.keep_table(call, answer, after[0]),
            _ => Ok(()),
        }
    }

    /// What a step came upon that was refused for its table.
    fn look_at_table(&mut self, lent: &Made, answer: Answer) {
        if let Some(table) = table_in(&lent.numbers).filter(|_| answer.number == NO_TABLE) {
            look_at_refused(&table, &mut self.sights);
        }
    }

    /// What the recorded step came upon.
    fn look(&mut self, [table, summary]: [&Made; 2], call: [u64; 3], answer: Answer) {
        let lists = (table_in(&table.numbers), summary_in(&summary.numbers));
        if let (Some(table), Some(summary)) = lists {
            Found { table: &table, summary: &summary, call, answer }.look(&mut self.sights);
        }
    }

    /// The table, with the promises that hold of it.
    fn keep_table(&mut self, call: [u64; 3], answer: Answer, after: &[u64]) -> Verdict {
        let is_accepted = answer.number == ACCEPTED;
        self.sights.look(Sight::Withdraw, is_accepted && call[0] == WITHDRAW);
        self.sights.look(Sight::Crowded, is_accepted && is_crowded(&self.table));
        self.sights.look(Sight::Level, answer.number == LATE && is_shared(&self.table, answer.moment));
        self.sights.look(Sight::UnequalAccepted, is_accepted && is_unequal(&self.table));
        self.sights.look(Sight::LateByOwn, answer.number == LATE && came_later(&self.table, answer.window));
        look_at_act(&self.table, call[2], answer, OF_WALKS, &mut self.sights);
        self.table = table_in(after).expect("a table stays one");
        let Some(promises) = &mut self.promises else { return Ok(()) };
        self.sights.look(Sight::Promised, true);
        promises.after(call, answer, &self.table, |call| calls::accepts(after, call))
    }

    /// The summary: a threaded walk's, and its table, are what acts and answers come to.
    fn keep_summary(&mut self, call: [u64; 3], answer: Answer, after: &[u64]) -> Verdict {
        self.summary = summary_in(after).expect("a call keeps a list's length");
        let Some(reckoning) = &mut self.reckoning else { return Ok(()) };
        reckoning.after(call, answer);
        self.sights.look(Sight::Threaded, true);
        if let (CRIT, ACCEPTED, Some(wait)) = (call[0], answer.number, reckoning.waits().last()) {
            self.sights.look(Sight::SoldMeanwhile, wait.unused < wait.whole);
        }
        reckoning.left(&self.table, &self.summary)
    }

    /// After a board has taken the entry of a recorded step on such lists: of a threaded walk the wait of its last entry is that of acts and
    /// answers.
    pub fn entry(&self, lent: [&Made; 2], board: &[u64]) -> Verdict {
        let is_own = lent.iter().all(|list| list.own);
        let last = self.reckoning.as_ref().filter(|_| is_own).and_then(|reckoning| reckoning.waits().last());
        let Some(&Wait { unused, .. }) = last else { return Ok(()) };
        let told = board[entry_at((board[2] + board[3]) as usize - 1)][2];
        if told != unused {
            return Err(format!("the board was told of a wait of {told}, not {unused}"));
        }
        Ok(())
    }

    pub fn keep_board(&mut self, own: bool, after: &[u64]) {
        if own {
            self.board = after[..BOARD].to_vec();
        }
    }
}

/// Several windows, and nobody in remainder.
fn is_crowded(table: &Table) -> bool {
    let n = table.values.n;
    n > 1 && (1..=n).all(|window| table.place(window) != Place::Remainder)
}

/// Whether two windows have another a.
fn is_unequal(table: &Table) -> bool {
    let values = &table.values;
    (2..=values.n).any(|window| values.a_of(window) != values.a_of(1))
}

/// Whether a window, which is late before all others, came after another one, and neither of them is checking: with one a for both, the other
/// would be late first.
fn came_later(table: &Table, late: u64) -> bool {
    let arrival = |window| match table.place(window) {
        Place::Checking(_) => None,
        place => place.arrival(),
    };
    let came = arrival(late);
    came.is_some() && (1..=table.values.n).any(|window| arrival(window).is_some() && arrival(window) < came)
}

/// Whether a latest moment is that of several windows.
fn is_shared(table: &Table, latest: u64) -> bool {
    (1..=table.values.n).filter(|&window| table.latest(window) == Some(latest)).count() > 1
}
