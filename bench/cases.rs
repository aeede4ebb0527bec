//! The cases of the benchmarks in plain numbers, and the loop, for every program in Rust that runs them.
//! crates/workload/src/lib.rt has all but those of kinds 10 and 14 in Rattle, under the same numbers.

// A case is 10 times its kind and a digit for its windows: 1, 2 and 3 for 2, 24 and 96. 0 makes no step: what it costs is taken off the
// others. Kinds 1 to 3 have idle tables: rounds of accepted acts; window 1 is late; the last window came after the clock. Kinds 4 to 6 are
// the same on busy ones, where every window is testing and the word is held, so that an accepted test leads back to testing. Kind 7 has its
// windows in the six timed places in turn, and waits at the clock's own moment. Kind 8 is out of place; in kind 9 window 1 came after the
// clock. The acts of kind 10 are accepted crits of window 1, which is put back to entering before each. From 11 on the limits are wide, and
// each act moves the clock: a test of window 1 as in kind 4, a wait as in kind 7, and a test of window 2 as in kind 4 while window 1 sells.
// Kind 14 waits on an idle table whose clock is past each of the summary's sums and not past their bits together: a recorded step cannot
// tell from these that the sums are sound, and looks at them one by one. Kind 15 is kind 11 with an a of its own for each window; in all others
// they have the same.
const ACCEPTED: u64 = 1;
const LATE: u64 = 2;
const UNSOUND: u64 = 3;
const BUSY: u64 = 4;
const BUSY_LATE: u64 = 5;
const BUSY_UNSOUND: u64 = 6;
const MIXED: u64 = 7;
const OUT_OF_PLACE: u64 = 8;
const UNSOUND_FIRST: u64 = 9;
const CRIT: u64 = 10;
const MOVING: u64 = 11;
const MIXED_MOVING: u64 = 12;
const SELLING: u64 = 13;
const APART: u64 = 14;
const UNEQUAL: u64 = 15;

/// The only case whose table has a count of windows that is not sound.
const UNSOUND_COUNT: u64 = 94;

/// The limits that all windows of a case share: b, c. In the wide ones nobody is late in a million acts, or nearly so many.
pub fn limits_of(case: u64) -> [u64; 2] {
    if case / 10 < MOVING {
        return [8, 12];
    }
    [1_000_001, 2_000_000]
}

/// The a of a window; above n it is 0.
pub fn a_of(case: u64, window: u64) -> u64 {
    match case / 10 {
        _ if count_of(case) < window => 0,
        ..MOVING => 5,
        UNEQUAL => 1_000_000 - window,
        _ => 1_000_000,
    }
}

/// How many windows a case has.
fn size_of(case: u64) -> u64 {
    match case % 10 {
        1 => 2,
        2 => 24,
        _ => 96,
    }
}

/// The n of its table.
pub fn count_of(case: u64) -> u64 {
    if case == UNSOUND_COUNT {
        return 97;
    }
    size_of(case)
}

pub fn word_of(case: u64) -> u64 {
    match case / 10 {
        BUSY..=MIXED | MOVING..=SELLING | UNEQUAL => 1,
        _ => 0,
    }
}

/// Where the clock stands before the first act.
pub fn clock_of(case: u64) -> u64 {
    match case / 10 {
        APART => 1_000_000,
        _ => 0,
    }
}

/// What a window, one above n too, has waited before the first act. Of kind 14 it is 524,288 or one less, and the bits of both are
/// 1,048,575: the clock is there after 48,575 acts.
#[allow(dead_code)] // not every program keeps a summary
pub fn waited_of(case: u64, window: u64) -> u64 {
    match case / 10 {
        APART => 524_288 - window % 2,
        _ => 0,
    }
}

/// The place of a window by its number, and its arrival there; the clock of those that arrived is 0, so 9 is not sound.
pub fn place_of(case: u64, window: u64) -> (u64, u64) {
    let last = size_of(case);
    match case / 10 {
        _ if last < window => (0, 0),
        LATE if window == 1 => (1, 0),
        UNSOUND_FIRST if window == 1 => (1, 9),
        UNSOUND | BUSY_UNSOUND if window == last => (1, 9),
        SELLING if window == 1 => (5, 0),
        BUSY | BUSY_LATE | BUSY_UNSOUND | MOVING | SELLING | UNEQUAL => (1, 0),
        MIXED | MIXED_MOVING => (timed_place((window - 1) % 6), 0),
        _ => (0, 0),
    }
}

/// Of six numbers in a row each of the timed places: all but remainder, which is 0, and selling, which is 5.
fn timed_place(k: u64) -> u64 {
    k + 1 + k / 4
}

/// The act of a kind that makes the same one again and again.
fn only_act(kind: u64) -> Option<[u64; 3]> {
    match kind {
        ACCEPTED | BUSY | CRIT.. => None,
        MIXED => Some([0, 0, 0]),
        OUT_OF_PLACE => Some([8, 1, 0]),
        _ => Some([0, 0, 1000]),
    }
}

/// The acts of the other kinds. The 2,000 steps of workload do not reach its turn at 16,000, and more steps here do not turn: the clock goes on.
fn act_of(kind: u64, size: u64, i: u64) -> [u64; 3] {
    let (round, place) = (i / 8, i % 8);
    match kind {
        ACCEPTED => [place + 1, round % size + 1, round * 20 + place + place / 3 * 8 - place / 6 * 8],
        BUSY => [2, i % size + 1, i / size],
        MOVING | UNEQUAL => [2, 1, i],
        MIXED_MOVING => [0, 0, i],
        SELLING => [2, 2, i],
        APART => [0, 0, clock_of(10 * kind) + i + 1],
        _ => [5, 1, i],
    }
}

/// The number that the program's arguments have at a place.
fn argument(place: usize) -> Option<u64> {
    std::env::args().nth(place).map(|word| word.parse().expect("a number"))
}

/// The case, which is the first argument.
pub fn chosen() -> u64 {
    argument(1).unwrap_or(0)
}

/// As many calls as the second argument says, or 2,000.
pub fn calls(case: u64) -> u64 {
    if case == 0 {
        return 0;
    }
    argument(2).unwrap_or(2000)
}

/// Makes the steps, and gives back the sum of all answers.
pub fn run(case: u64, mut step: impl FnMut([u64; 3]) -> [u64; 3]) -> u64 {
    let (kind, size) = (case / 10, size_of(case));
    let only = only_act(kind);
    let mut sum = 0u64;
    for i in 0..calls(case) {
        sum = step(only.unwrap_or_else(|| act_of(kind, size, i))).into_iter().fold(sum, u64::wrapping_add);
    }
    sum
}
