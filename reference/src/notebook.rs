//! A till's notebook held against what the box accepted of its window, and that out of a recording: section 13 of the specification.
//! The shifts that serve are an interval, of which each pair of times may cut something off at either end.

use crate::answer::*;
use crate::machine::CLOCK_END;
use crate::recording::{read, Step};
use crate::replay::accepted;

/// [13.30] The greatest d, and the greatest e.
pub const SHIFT_END: u64 = 1_000_000;

/// A list of times and one of acts, as they are lent.
pub type Notebook<'a> = (&'a [u64], &'a [u64]);

/// [13.60] The window is always 0.
#[derive(Clone, Copy, Debug, PartialEq, Eq)]
pub struct Comparison {
    pub number: u64,
    pub window: u64,
    pub shift: i64,
}

/// The shift is 0 where the number is not.
pub fn comparison(number: u64, shift: i64) -> Comparison {
    Comparison { number, window: 0, shift }
}

/// [13.90] The till's notebook, held against the one that the box kept.
pub fn compare(till: Notebook, kept: Notebook, d: u64, e: u64) -> Comparison {
    let (till_times, till_acts) = counted(till);
    let (times, acts) = counted(kept);
    if d > SHIFT_END || e > SHIFT_END || till_times.iter().chain(times).any(|&time| time > CLOCK_END) {
        return comparison(BOUNDS, 0);
    }
    if till_acts != acts {
        return comparison(OTHER_ACTS, 0);
    }
    match least_shift(till_times, times, d as i64, e as i64) {
        Some(shift) => comparison(ACCEPTED, shift),
        None => comparison(NO_SHIFT, 0),
    }
}

/// [13.10] The places that count: those that both lists have.
fn counted((times, acts): Notebook) -> Notebook {
    let count = times.len().min(acts.len());
    (&times[..count], &acts[..count])
}

/// [13.50] The least shift that serves, of times that are within bounds and as many on either side.
fn least_shift(till_times: &[u64], times: &[u64], d: i64, e: i64) -> Option<i64> {
    let (mut least, mut greatest) = (-d, d);
    for (&till_time, &time) in till_times.iter().zip(times) {
        let difference = time as i64 - till_time as i64;
        least = least.max(difference - e);
        greatest = greatest.min(difference + e);
    }
    (least <= greatest).then_some(least)
}

/// [13.120] [13.125] The accepted acts of a window of a recording. A fault has its line, as with `spans`; then come 7 and, last, 16.
pub fn accepted_acts(text: &[u8], window: u64, times: &mut [u64], acts: &mut [u64]) -> Answer {
    let recording = match read(text) {
        Ok(recording) => recording,
        Err(fault) => return answer(fault.number, 0, fault.line),
    };
    if !(1..=recording.values.n).contains(&window) {
        return bare(NO_WINDOW);
    }
    let steps: Vec<Step> = accepted(&recording).filter(|step| step.window == window).collect();
    if steps.len() > times.len().min(acts.len()) {
        return bare(SHORT_OUTPUT);
    }
    for (step, (time, act)) in steps.iter().zip(times.iter_mut().zip(acts)) {
        (*time, *act) = (step.time, step.act);
    }
    answer(ACCEPTED, 0, steps.len() as u64)
}
