//! The cases of a notebook that is held against another in plain numbers, and the loop, for the library and the reference. They have the
//! numbers from 301 on, beside those of boards.rs.

use crate::cases::{calls, chosen};

/// The moments and the acts of as many entries.
pub struct Notebook {
    pub moments: Vec<u64>,
    pub acts: Vec<u64>,
}

/// The two that a case compares again and again, and its e.
pub struct Case {
    pub till: Notebook,
    pub kept: Notebook,
    pub e: u64,
}

// 301 to 304 agree: no entries, 10, 100 and 1,000, by a clock that is behind by 1,200, give or take 3. From 305 on there are 1,000. In 305 e is
// less than that, and no shift serves. The act at the last place differs in 306, and the one at the first in 307, where all moments are looked
// at nevertheless. In 308 the last moment is past the clock's end, in the list that is looked at last.
pub fn chosen_case() -> Case {
    const OTHER_ACT: u64 = 9;
    const PAST_END: u64 = 1_000_000_000_001;
    let number = chosen();
    let count = match number {
        302 => 10,
        303 => 100,
        304.. => 1000,
        _ => 0,
    };
    let till = notebook_of(count, |i| 10_000 * i + 8_800 + i * 7919 % 7 - 3);
    let mut kept = notebook_of(count, |i| 10_000 * (i + 1));
    match number {
        306 => kept.acts[999] = OTHER_ACT,
        307 => kept.acts[0] = OTHER_ACT,
        308 => kept.moments[999] = PAST_END,
        _ => {}
    }
    Case { till, kept, e: if number == 305 { 2 } else { 3 } }
}

/// Entry i, from 0, came at the moment that is told.
fn notebook_of(count: u64, moment_of: impl Fn(u64) -> u64) -> Notebook {
    Notebook { moments: (0..count).map(moment_of).collect(), acts: (0..count).map(|i| i % 8 + 1).collect() }
}

/// Makes the comparisons of the chosen case, each with a d of its own, of which nearly a million are within bounds. Gives back the sum of all
/// answers.
pub fn run(mut compare: impl FnMut(u64) -> [u64; 3]) -> u64 {
    let mut sum = 0u64;
    for i in 0..calls(chosen()) {
        sum = compare(2_000 + i).into_iter().fold(sum, u64::wrapping_add);
    }
    sum
}
