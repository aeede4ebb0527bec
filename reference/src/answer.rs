//! The answers of the box: section 4 of the specification.
//! Where its table has - for a window or a moment, an answer holds 0.

/// [4.0] The answer to an accepted act, to a fresh table and a new board that stand, to what a board accepts, to a reading and to a writing,
/// and to notebooks that agree.
pub const ACCEPTED: u64 = 0;

// [4.1] to [4.21], the rows of the table, under their names there.
pub const NO_TABLE: u64 = 1;
pub const NO_SUMMARY: u64 = 2;
pub const SUMMARY_FULL: u64 = 3;
pub const BACKWARD: u64 = 4;
pub const END_OF_CLOCK: u64 = 5;
pub const NO_ACT: u64 = 6;
pub const NO_WINDOW: u64 = 7;
pub const LATE: u64 = 8;
pub const OUT_OF_PLACE: u64 = 9;
pub const EARLY: u64 = 10;
pub const WINDOW_COUNT: u64 = 11;
pub const LIMITS: u64 = 12;
pub const NAMES: u64 = 13;
pub const LINE: u64 = 14;
pub const LENGTH: u64 = 15;
pub const SHORT_OUTPUT: u64 = 16;
pub const WIDTH: u64 = 17;
pub const BOARD_FULL: u64 = 18;
pub const BOUNDS: u64 = 19;
pub const OTHER_ACTS: u64 = 20;
pub const NO_SHIFT: u64 = 21;

#[derive(Clone, Copy, Debug, PartialEq, Eq)]
pub struct Answer {
    pub number: u64,
    pub window: u64,
    pub moment: u64,
}

/// [4.50]
pub fn answer(number: u64, window: u64, moment: u64) -> Answer {
    Answer { number, window, moment }
}

/// An answer with nothing behind its number.
pub fn bare(number: u64) -> Answer {
    answer(number, 0, 0)
}
