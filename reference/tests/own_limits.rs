//! Each window has an a of its own: which values stand, that latest moments, lateness and soundness are by the own a, in both engines, and
//! that the owed wait is by the largest.

use reference::answer::*;
use reference::deadline::{deadline_fresh, deadline_step, to_deadlines};
use reference::generator::{generate, generate_list};
use reference::machine::*;
use reference::promises::Promises;
use reference::recording::read;

/// The number that a call for a fresh table is answered with, whichever the engine.
fn answered(values: Values) -> u64 {
    let (answer, table) = fresh(values);
    let (same, deadlines) = deadline_fresh(values);
    assert_eq!((answer, table.values), (same, deadlines.values));
    assert_eq!(table.sound(), answer.number == ACCEPTED);
    answer.number
}

/// With another a of a window.
fn with(mut values: Values, window: u64, a: u64) -> Values {
    values.a[window as usize - 1] = a;
    values
}

/// [2.30] [2.32]
#[test]
fn every_a_is_judged() {
    for n in [1, 2, 7, 95, 96] {
        let values = Values::equal(n, 5, 8, 12);
        for window in 1..=WINDOWS as u64 {
            let stand = |a| answered(with(values, window, a)) == ACCEPTED;
            let due = if window <= n {
                [false, true, true, false, false]
            } else {
                [true, false, false, false, false]
            };
            assert_eq!([0, 1, 7, 8, u64::MAX].map(stand), due, "window {window} of {n}");
        }
    }
}

#[test]
fn b_and_c_are_judged_beside_them() {
    let all = |b, c| answered(Values::new(2, b, c, &[5, 7]));
    assert_eq!([(8, 8), (8, LIMIT_END)].map(|(b, c)| all(b, c)), [ACCEPTED; 2]);
    let wrong = [(7, 12), (8, 7), (8, LIMIT_END + 1), (0, 0), (u64::MAX, u64::MAX)];
    assert_eq!(wrong.map(|(b, c)| all(b, c)), [LIMITS; 5]);
    assert_eq!(answered(Values::new(2, LIMIT_END, LIMIT_END, &[1, LIMIT_END - 1])), ACCEPTED);
}

/// [4.90]
#[test]
fn the_count_comes_first() {
    for n in [0, 97, u64::MAX] {
        assert_eq!(answered(Values::equal(n, 0, 8, 7)), WINDOW_COUNT);
    }
}

/// [9.45]
#[test]
fn lists_that_are_lent() {
    let of = |list: &[u64]| answered(Values::new(2, 8, 12, list));
    assert_eq!([of(&[]), of(&[5]), of(&[5, 7]), of(&[5, 7, 0])], [LIMITS, LIMITS, ACCEPTED, ACCEPTED]);
    let mut long = vec![0; 99];
    long[..2].copy_from_slice(&[5, 7]);
    assert_eq!(of(&long), ACCEPTED);
    long[96] = u64::MAX;
    assert_eq!(of(&long), ACCEPTED, "nobody looks past the 96th");
    long[95] = 1;
    assert_eq!(of(&long), LIMITS);
}

/// Window 1 has an a of 2 and window 2 one of 9, at clock 20.
fn two_ages(places: [Place; 2]) -> Table {
    let mut table = Table { clock: 20, ..fresh(Values::new(2, 10, 30, &[2, 9])).1 };
    table.places[..2].copy_from_slice(&places);
    table
}

/// Both engines' answer to an act.
fn both(table: Table, act: u64, window: u64, moment: u64) -> Answer {
    let (answer, after) = step(table, act, window, moment);
    let (turned, deadlines) = to_deadlines(&table);
    assert_eq!(turned.number, ACCEPTED);
    let (same, left) = deadline_step(deadlines, act, window, moment);
    assert_eq!((same, left), (answer, to_deadlines(&after).1));
    answer
}

/// [2.90] The place is left at the latest moment, and one after it the window is late.
#[test]
fn the_deadline_is_the_windows_own() {
    let timed = [
        (Place::Testing(20), TEST),
        (Place::Setting(20), SET),
        (Place::Entering(20), CRIT),
        (Place::Resetting(20), RESET),
        (Place::Leaving(20), REM),
    ];
    for (place, act) in timed {
        let fast = two_ages([place, Place::Remainder]);
        assert_eq!(both(fast, act, 1, 22).number, ACCEPTED);
        assert_eq!(both(fast, act, 1, 23), answer(LATE, 1, 22));
        let slow = two_ages([Place::Remainder, place]);
        assert_eq!(both(slow, act, 2, 29).number, ACCEPTED);
        assert_eq!(both(slow, act, 2, 30), answer(LATE, 2, 29));
    }
}

#[test]
fn a_check_is_by_b_and_c_alone() {
    for (window, places) in
        [(1, [Place::Checking(20), Place::Remainder]), (2, [Place::Remainder, Place::Checking(20)])]
    {
        let table = two_ages(places);
        assert_eq!(both(table, CHECK, window, 29), answer(EARLY, window, 30));
        assert_eq!(both(table, CHECK, window, 50).number, ACCEPTED);
        assert_eq!(both(table, CHECK, window, 51), answer(LATE, window, 50));
    }
}

/// [4.8] The smallest latest moment need not be of who came first; of equal ones the lowest window is told.
#[test]
fn the_first_to_be_late_is_told() {
    let came_later = two_ages([Place::Testing(20), Place::Testing(15)]);
    assert_eq!(both(came_later, WAIT, 0, 25), answer(LATE, 1, 22));
    let equal = two_ages([Place::Testing(20), Place::Testing(13)]);
    assert_eq!(both(equal, WAIT, 0, 23), answer(LATE, 1, 22));
    let came_first = two_ages([Place::Testing(20), Place::Testing(12)]);
    assert_eq!(both(came_first, WAIT, 0, 23), answer(LATE, 2, 21));
}

/// [2.120]
#[test]
fn a_table_is_sound_by_the_own_a() {
    let fast = |arrival| two_ages([Place::Leaving(arrival), Place::Remainder]).sound();
    let slow = |arrival| two_ages([Place::Remainder, Place::Leaving(arrival)]).sound();
    assert_eq!([17, 18, 20, 21].map(fast), [false, true, true, false]);
    assert_eq!([10, 11, 20, 21].map(slow), [false, true, true, false]);
    let above_n = |a| {
        let table = two_ages([Place::Remainder; 2]);
        Table { values: with(table.values, 3, a), ..table }
    };
    assert!(above_n(0).sound());
    assert_eq!(step(above_n(1), WAIT, 0, 20), (bare(NO_TABLE), above_n(1)));
}

/// [8.80] [2.92] 2c + 5a is 2 * 30 + 5 * 9 here, and no more by what stands above n.
#[test]
fn the_owed_wait_is_by_the_largest_a() {
    let mut table = two_ages([Place::Testing(20), Place::Remainder]);
    assert_eq!(table.values.largest_a(), 9);
    assert_eq!(with(table.values, 3, 99).largest_a(), 9);
    let mut promises = Promises::default();
    // what a machine that overlooks every latest moment would make of waits
    let mut waited = |moment| {
        (table.clock, table.places[0]) = (moment, Place::Testing(moment));
        let accepts = |[act, window, moment]: [u64; 3]| step(table, act, window, moment).0.number == ACCEPTED;
        promises.after([WAIT, 0, moment], answer(ACCEPTED, 0, moment), &table, accepts)
    };
    assert_eq!((waited(20), waited(20 + 105)), (Ok(()), Ok(())));
    assert!(waited(20 + 106).is_err());
}

fn unequal(values: &Values) -> bool {
    values.a[..values.n as usize].iter().any(|&a| a != values.a_of(1))
}

#[test]
fn generated_recordings_and_lists_have_unequal_limits() {
    let recordings = (0..400).filter_map(|index| read(&generate(1, index).text).ok());
    let (some, others): (Vec<_>, Vec<_>) = recordings.partition(|recording| unequal(&recording.values));
    assert!(some.len() > 60 && others.len() > 60, "{} and {}", some.len(), others.len());
    let lists = (0..100).map(|index| generate_list(1, 5, index));
    let (some, others): (Vec<_>, Vec<_>) = lists.partition(|list| unequal(&list.values));
    assert!(some.len() > 20 && others.len() > 20, "{} and {}", some.len(), others.len());
}
