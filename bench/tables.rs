//! The table that a case of cases.rs starts from, and the deadline table that matches it, as the library is lent them.

use crate::cases;
use crate::raw::{AT_LIMITS, DEADLINES, DEADLINES_STRIDE, HEADER, STRIDE, TABLE};

pub fn table_of(case: u64) -> [u64; TABLE] {
    let mut table = [0; TABLE];
    let [b, c] = cases::limits_of(case);
    let (n, clock, word) = (cases::count_of(case), cases::clock_of(case), cases::word_of(case));
    table[..AT_LIMITS].copy_from_slice(&[n, b, c, clock, word]);
    for (window, a) in (1..).zip(&mut table[AT_LIMITS..HEADER]) {
        *a = cases::a_of(case, window);
    }
    for (window, entry) in (1..).zip(table[HEADER..].chunks_exact_mut(STRIDE)) {
        let (place, arrival) = cases::place_of(case, window);
        entry.copy_from_slice(&[place, arrival]);
    }
    table
}

/// Not all tables of the cases are sound, so it is not what the library turns.
#[allow(dead_code)] // not every program steps on one
pub fn deadlines_of(case: u64) -> [u64; DEADLINES] {
    const CHECKING: u64 = 3;
    const SELLING: u64 = 5;
    let mut deadlines = [0; DEADLINES];
    let [b, c] = cases::limits_of(case);
    deadlines[..HEADER].copy_from_slice(&table_of(case)[..HEADER]);
    for (window, entry) in (1..).zip(deadlines[HEADER..].chunks_exact_mut(DEADLINES_STRIDE)) {
        entry.copy_from_slice(&match cases::place_of(case, window) {
            (place @ (0 | SELLING), _) => [place, 0, 0],
            (CHECKING, arrival) => [CHECKING, arrival + b, arrival + c],
            (place, arrival) => [place, arrival, arrival + cases::a_of(case, window)],
        });
    }
    deadlines
}
