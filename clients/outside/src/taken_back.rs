//! A try and, directly after it and at the same moment, the withdraw of its window: the table is the one before the try but for the clock.
//! What is wanted of the withdraw comes from this sentence, [3.95], and not from the reference.

use crate::acts::a_try;
use crate::calls::{self, Verdict};
use crate::encoding::table_numbers;
use crate::expected;
use reference::answer::{answer, Answer, ACCEPTED};
use reference::generator::random::Random;
use reference::machine::{Table, WITHDRAW};

/// The answer that is due to a try at a sound table, and whether it came and, where it is accepted, the withdraw takes it back.
pub fn call(random: &mut Random, table: &Table) -> (Answer, Verdict) {
    let call @ [act, window, moment] = a_try(random, table);
    let before = table_numbers(table);
    let mut testing = before.clone();
    let due = expected::step(&mut testing, act, window, moment);
    let verdict = calls::step(&before, call, (due, &testing));
    if due.number != ACCEPTED {
        return (due, verdict.map_err(|what| format!("try {call:?} on {before:?}: {what}")));
    }
    let after = table_numbers(&Table { clock: moment, ..*table });
    let accepted = answer(ACCEPTED, table.seller(), moment);
    let taken_back = calls::step(&testing, [WITHDRAW, window, moment], (accepted, &after));
    let verdict = verdict.and(taken_back.map_err(|what| format!("taken back, {what}")));
    (due, verdict.map_err(|what| format!("try {call:?} on {before:?}: {what}")))
}
