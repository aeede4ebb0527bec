//! What every list of calls keeps to, from a fresh table on: section 8 of the specification, from [8.70] to [8.120].
//! The calls are made elsewhere; each is looked at with the answer to it and the table that it left.

use crate::answer::{Answer, ACCEPTED};
use crate::machine::*;

/// The first promise that is broken, if one is.
pub type Kept = Result<(), String>;

/// One bit for each window.
type Windows = u128;

/// [8.70] From a point on at which a window was trying and none was selling.
#[derive(Clone, Copy, PartialEq, Eq)]
struct Span {
    /// the clock at its start
    start: u64,
    /// [8.78] the windows that were trying at its start and have had no withdraw accepted since
    staying: Windows,
}

/// The spans in which a wait is owed. Before the first call nobody tries, and there is none.
#[derive(Default)]
pub struct Promises {
    spans: Vec<Span>,
}

impl Promises {
    /// After a call; `accepts` tells of an act, a window and a moment whether a step would accept them on the table that is left.
    pub fn after(
        &mut self,
        [act, window, _]: [u64; 3],
        answer: Answer,
        table: &Table,
        accepts: impl Fn([u64; 3]) -> bool,
    ) -> Kept {
        let accepted = answer.number == ACCEPTED;
        if accepted && act == WITHDRAW {
            self.withdrawn(window);
        }
        self.owed_wait(table)?;
        // the crit itself is still within
        if accepted && act == CRIT {
            self.spans.clear();
        }
        self.start_span(table);
        one_seller(table)?;
        seller_named(answer, table)?;
        time_can_pass(table, &accepts)?;
        the_due_can_act(table, &accepts)
    }

    /// A span in which nobody stays is owed no wait any more.
    fn withdrawn(&mut self, window: u64) {
        for span in &mut self.spans {
            span.staying &= !bit(window);
        }
        self.spans.retain(|span| span.staying != 0);
    }

    /// [8.80] By the largest a.
    fn owed_wait(&self, table: &Table) -> Kept {
        let owed = 2 * table.values.c + 5 * table.values.largest_a();
        let broken = |span: &&Span| table.clock > span.start + owed;
        match self.spans.iter().find(broken) {
            Some(span) => Err(format!("nobody is let in from {} to {}", span.start, table.clock)),
            None => Ok(()),
        }
    }

    fn start_span(&mut self, table: &Table) {
        let trying = windows(table).filter(|&window| table.place(window).is_trying());
        let span = Span { start: table.clock, staying: trying.map(bit).sum() };
        // after a refused call the point is the last one again
        if table.seller() == 0 && span.staying != 0 && self.spans.last() != Some(&span) {
            self.spans.push(span);
        }
    }
}

fn bit(window: u64) -> Windows {
    1 << window
}

fn windows(table: &Table) -> impl Iterator<Item = u64> {
    1..=table.values.n
}

/// [8.90]
fn one_seller(table: &Table) -> Kept {
    match windows(table).filter(|&window| table.place(window) == Place::Selling).count() {
        0 | 1 => Ok(()),
        sellers => Err(format!("{sellers} windows sell")),
    }
}

/// [8.100]
fn seller_named(answer: Answer, table: &Table) -> Kept {
    if answer.number == ACCEPTED && answer.window != table.seller() {
        return Err(format!("the answer names window {}, and {} sells", answer.window, table.seller()));
    }
    Ok(())
}

fn is_due(table: &Table, window: u64) -> bool {
    table.latest(window) == Some(table.clock)
}

/// [8.110]
fn time_can_pass(table: &Table, accepts: impl Fn([u64; 3]) -> bool) -> Kept {
    let someone_due = windows(table).any(|window| is_due(table, window));
    if table.clock < CLOCK_END && accepts([WAIT, 0, table.clock + 1]) == someone_due {
        return Err(format!(
            "at {} a wait of 1 is {}",
            table.clock,
            if someone_due { "accepted" } else { "refused" }
        ));
    }
    Ok(())
}

/// [8.120] A withdraw would be no help to one who wants to be let in.
fn the_due_can_act(table: &Table, accepts: impl Fn([u64; 3]) -> bool) -> Kept {
    let leads_on = |act: &u64| *act != WITHDRAW;
    let can_act = |window| (TRY..=LAST_ACT).filter(leads_on).any(|act| accepts([act, window, table.clock]));
    match windows(table).find(|&window| is_due(table, window) && !can_act(window)) {
        Some(window) => {
            Err(format!("window {window} is due at {} and has no act but to withdraw", table.clock))
        }
        None => Ok(()),
    }
}
