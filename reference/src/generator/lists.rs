//! Lists of calls whose acts follow a table as a walk does, with summaries of every make: none, new, left by an earlier step, of
//! another make, full or about to be, and not sound in each of the ways there are.

use super::random::Random;
use super::walk::{small_values, Walk};
use crate::answer::{NO_SUMMARY, SUMMARY_FULL};
use crate::list::*;
use crate::machine::*;
use crate::recording::Step;
use crate::summary::{Summary, SUMMARY_END};

/// A list of so many calls. An act that its summary has refused is tried again, so that most lists come to an entry, whatever the
/// summaries are.
pub fn list(random: &mut Random, count: u64) -> List {
    let values = match random.below(8) {
        0 => small_values(random, 1, 1),
        1 => small_values(random, 90, 96),
        _ => small_values(random, 2, 5),
    };
    let start = if random.chance(10) { CLOCK_END - random.between(20, 60) } else { random.below(4) };
    let wild = random.pick(&[3, 8, 20]);
    let (_, mut table) = fresh(values);
    let mut left = Summary::new();
    let mut next = Some(Step::wait(start));
    let mut calls = Vec::new();
    for _ in 0..count {
        let step = next.unwrap_or_else(|| walked(random, table, wild));
        let (recorded, summary) = lent(random, table.clock, &left, wild);
        let mut call = Call { recorded, act: step.act, window: step.window, moment: step.time, summary };
        calls.push(call.clone());
        let answer;
        (answer, table) = make(table, &mut call);
        let unusable = matches!(answer.number, NO_SUMMARY | SUMMARY_FULL);
        if recorded && !unusable {
            left = call.summary;
        }
        next = unusable.then_some(step);
    }
    List { values, calls }
}

/// A step of a walk at that table, or now and then one that no recording has.
fn walked(random: &mut Random, table: Table, wild: u64) -> Step {
    let mut step = Walk { random, table, focus: table.values.n.min(3), pause: 3 }.step(wild);
    if random.chance(3) {
        exceed(random, &mut step);
    }
    step
}

/// A number that no step of a recording can have.
fn exceed(random: &mut Random, step: &mut Step) {
    match random.below(3) {
        0 => step.act = random.pick(&[10, 255, u64::MAX]),
        1 => step.window = u64::MAX,
        _ => step.time = u64::MAX,
    }
}

/// Whether a summary is lent, and which. A step without one has it beside it all the same now and then, and must leave it.
fn lent(random: &mut Random, clock: u64, left: &Summary, wild: u64) -> (bool, Summary) {
    if random.chance(wild) {
        return (!random.chance(10), unsound_or_full(random, clock));
    }
    match random.below(8) {
        0 | 1 => (false, Summary::new()),
        2 => (false, foreign(random, clock)),
        3 => (true, Summary::new()),
        4 => (true, foreign(random, clock)),
        _ => (true, left.clone()),
    }
}

/// A sound one with any counts, in which windows that do not try may have waited too, and any window all the time of the clock.
pub fn foreign(random: &mut Random, clock: u64) -> Summary {
    let most = random.pick(&[0, 3, 1_000, SUMMARY_END / 2]);
    let accepted = random.between(0, most);
    let entries = random.between(0, accepted);
    let mut summary = Summary {
        accepted,
        refused: random.below(SUMMARY_END / 2),
        entries,
        exits: random.between(0, accepted - entries),
        longest_wait: random.pick(&[0, 1, 40, SUMMARY_END]),
        ..Summary::new()
    };
    let first = random.pick(&[0, 0, 1, 50]);
    for waited in summary.waited.iter_mut().skip(first).take(random.index(WINDOWS + 1)) {
        let any = random.between(0, clock);
        *waited = random.pick(&[0, any, any, clock]);
    }
    summary
}

/// One that is full, that one more act makes full, or that is not sound in one way.
pub fn unsound_or_full(random: &mut Random, clock: u64) -> Summary {
    let mut summary = foreign(random, clock);
    match random.below(10) {
        0 | 1 => summary.refused = SUMMARY_END - summary.accepted,
        2 => summary.refused = SUMMARY_END - summary.accepted - 1,
        3 => summary.refused = SUMMARY_END - summary.accepted + 1,
        4 => summary.refused = u64::MAX - random.between(0, summary.accepted),
        5 => summary.exits = summary.accepted - summary.entries + 1,
        6 => summary.exits = u64::MAX - random.between(0, summary.entries),
        7 => summary.longest_wait = random.pick(&[SUMMARY_END + 1, u64::MAX]),
        _ => summary.waited[any_window(random)] = random.pick(&[clock + 1, clock + 1, u64::MAX]),
    }
    summary
}

/// The place of a sum: as often one that every table with windows has as one that few have.
fn any_window(random: &mut Random) -> usize {
    let any = random.index(WINDOWS);
    random.pick(&[0, 1, any, any, WINDOWS - 1])
}
