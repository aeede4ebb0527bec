//! The cases of a board in plain numbers, and the loop, for the library and the reference. They have the numbers from 201 on, beside those
//! of cases.rs.

use crate::cases::{calls, chosen};

/// What a case starts from, and what it does again and again. Entry i of the start, from 0, came at the moment i.
pub struct Case {
    pub w: u64,
    pub kept: u64,
    /// the place of the first entry; the reference has no places
    #[allow(dead_code)]
    pub first: usize,
    pub adds: bool,
    /// before each call
    pub is_emptied: bool,
}

// 201 to 204 add: to an empty board; to 100 and to 1,024 entries, of which one expires at each adding, so that the next one finds as many,
// and the ring goes round; and to 1,024 that all count, which is refused with 18. 205 to 208 show: an empty board, 100 entries, 1,024, and
// as many around the end of the ring; none of them expires.
pub fn chosen_case() -> Case {
    const ALL_COUNT: u64 = 1_000_000_000;
    let number = chosen();
    let (w, kept) = match number {
        202 => (100, 100),
        203 => (1024, 1024),
        206 => (ALL_COUNT, 100),
        204 | 207 | 208 => (ALL_COUNT, 1024),
        _ => (ALL_COUNT, 0),
    };
    let first = if number == 208 { 512 } else { 0 };
    Case { w, kept, first, adds: number < 205, is_emptied: number == 201 }
}

impl Case {
    /// The moment of the last entry of the start.
    pub fn last(&self) -> u64 {
        self.kept.saturating_sub(1)
    }

    /// The entries of the start.
    pub fn entries(&self) -> impl Iterator<Item = [u64; 3]> {
        (0..self.kept).map(entry_of)
    }
}

/// Moment, window and wait.
fn entry_of(i: u64) -> [u64; 3] {
    [i, i % 96 + 1, i * 7919 % 1009]
}

/// Makes the calls of the chosen case, which go on where its start ends, each on what the one before left. A showing takes the moment
/// alone. Gives back the sum of all answers, and the last board.
pub fn run<T>(case: &Case, mut board: T, call: impl Fn(T, [u64; 3]) -> ([u64; 3], T)) -> (u64, T) {
    let mut sum = 0u64;
    for i in 0..calls(chosen()) {
        let answer;
        (answer, board) = call(board, entry_of(case.kept + i));
        sum = answer.into_iter().fold(sum, u64::wrapping_add);
    }
    (sum, board)
}
