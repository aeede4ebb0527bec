//! Both engines of the library beside each other: an act is made on a table and on a deadline table that match, and each is held to its own
//! engine of the reference. Both have to give one answer, and after the act each list has to be what comes of the other.

use crate::calls::{self, Verdict};
use crate::encoding::{deadline_numbers, table_numbers};
use crate::expected;
use crate::handed::Handed;
use funnelfawn::raw::{DEADLINES, TABLE};
use reference::answer::{bare, Answer, ACCEPTED, NO_TABLE};
use reference::deadline::DeadlineTable;
use reference::machine::Table;

/// What fills a list before another table comes into it.
const FILLED: u64 = 7777;

/// A table and a deadline table that match, as the acts of the two engines have left them.
pub struct Pair {
    pub table: Vec<u64>,
    pub deadlines: Vec<u64>,
}

impl Pair {
    pub fn new(table: &Table, deadlines: &DeadlineTable) -> Pair {
        Pair { table: table_numbers(table), deadlines: deadline_numbers(deadlines) }
    }

    /// One act of both: the answer that is due, and whether it and all else came.
    pub fn take(&mut self, call: [u64; 3]) -> (Answer, Verdict) {
        let (table, deadlines) = (self.table.clone(), self.deadlines.clone());
        let [act, window, moment] = call;
        let answer = expected::step(&mut self.table, act, window, moment);
        let second = expected::step_deadlines(&mut self.deadlines, call);
        let verdict = alike(answer, second)
            .and_then(|()| calls::step(&table, call, (answer, &self.table)))
            .and_then(|()| calls::step_deadlines(&deadlines, call, (answer, &self.deadlines)))
            .and_then(|()| self.matches());
        (answer, verdict.map_err(|what| format!("{call:?} on {table:?} and {deadlines:?}: {what}")))
    }

    /// To and fro.
    fn matches(&self) -> Verdict {
        let done = bare(ACCEPTED);
        calls::to_deadlines(&self.table, &[FILLED; DEADLINES], (done, &self.deadlines))?;
        calls::to_arrivals(&self.deadlines, &[FILLED; TABLE], (done, &self.table))
    }
}

fn alike(first: Answer, second: Answer) -> Verdict {
    if first != second {
        return Err(format!("the engines of the reference answer {first:?} and {second:?}"));
    }
    Ok(())
}

/// Fresh tables of both engines [12.82].
pub fn fresh(handed: &Handed) -> (Answer, Verdict) {
    let filled = Pair { table: vec![FILLED; TABLE], deadlines: vec![FILLED; DEADLINES] };
    let mut made = Pair { table: filled.table.clone(), deadlines: filled.deadlines.clone() };
    let answer = expected::fresh(handed.values(), &mut made.table);
    let second = expected::fresh_deadlines(handed.values(), &mut made.deadlines);
    let mut verdict = alike(answer, second)
        .and_then(|()| calls::fresh(handed, &filled.table, (answer, &made.table)))
        .and_then(|()| calls::fresh_deadlines(handed, &filled.deadlines, (answer, &made.deadlines)));
    if answer.number == ACCEPTED {
        verdict = verdict.and_then(|()| made.matches());
    }
    (answer, verdict.map_err(|what| format!("both fresh, {handed:?}: {what}")))
}

/// A deadline table that is not sound, and the table that it matches, if there is one: 1 from either engine and on the way from either, and
/// all numbers stay.
pub fn refuse(table: Option<&Table>, deadlines: &DeadlineTable, call: [u64; 3]) -> (Answer, Verdict) {
    let refused = bare(NO_TABLE);
    let numbers = deadline_numbers(deadlines);
    let [deadlines_out, table_out] = [vec![FILLED; DEADLINES], vec![FILLED; TABLE]];
    let mut verdict = alike(refused, expected::step_deadlines(&mut numbers.clone(), call))
        .and_then(|()| calls::step_deadlines(&numbers, call, (refused, &numbers)))
        .and_then(|()| calls::to_arrivals(&numbers, &table_out, (refused, &table_out)));
    if let Some(table) = table.map(table_numbers) {
        verdict = verdict
            .and_then(|()| calls::step(&table, call, (refused, &table)))
            .and_then(|()| calls::to_deadlines(&table, &deadlines_out, (refused, &deadlines_out)));
    }
    (refused, verdict.map_err(|what| format!("{call:?} on {numbers:?}: {what}")))
}
