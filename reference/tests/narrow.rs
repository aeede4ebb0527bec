//! The search for the first latest moment once more, in which the smallest so far is a number of 32 bits, counted from the clock: on sound tables
//! of every make and of both engines it tells the moment and the window that the reference finds, and on no other does it tell a wrong moment.

use reference::deadline::*;
use reference::generator::deadlines::{damaged_pair, sound_pair, Damage};
use reference::generator::generate;
use reference::generator::random::Random;
use reference::generator::walk::TURN;
use reference::machine::*;
use reference::recording::{read, Recording};

/// The smallest distance so far, and the lowest window that has it.
#[derive(Clone, Copy, Debug, PartialEq, Eq)]
struct Found {
    distance: u32,
    window: u64,
}

const NOTHING: Found = Found { distance: u32::MAX, window: 0 };

/// Goes over windows with their latest moments; None where one of these is before the clock, or farther from it than 32 bits tell.
fn search(clock: u64, latest: &[(u64, u128)]) -> Option<Found> {
    let mut found = NOTHING;
    for &(window, latest) in latest {
        let distance = u32::try_from(latest.checked_sub(u128::from(clock))?).ok()?;
        if distance < found.distance {
            found = Found { distance, window };
        }
    }
    Some(found)
}

/// [2.90] Of any table; an arrival that is not sound may make a moment too great for 64 bits.
fn latest_of(table: &Table) -> Vec<(u64, u128)> {
    let of = |window| {
        let place = table.place(window);
        let is_checking = matches!(place, Place::Checking(_));
        let limit = if is_checking { table.values.c } else { table.values.a_of(window) };
        place.arrival().map(|arrival| (window, u128::from(arrival) + u128::from(limit)))
    };
    (1..=WINDOWS as u64).filter_map(of).collect()
}

fn last_of(table: &DeadlineTable) -> Vec<(u64, u128)> {
    let of = |window| table.place(window).moments().map(|moments| (window, u128::from(moments.last)));
    (1..=WINDOWS as u64).filter_map(of).collect()
}

/// What the search finds in a sound table, once it is held to the smallest latest moment and the lowest window that has it.
fn told(found: Option<Found>, clock: u64, c: u64, first: Option<(u64, u64)>) -> Found {
    let found = found.expect("a sound table has no distance past 32 bits");
    let Some(first) = first else {
        assert_eq!(found, NOTHING);
        return found;
    };
    assert_eq!((clock + u64::from(found.distance), found.window), first);
    assert!(u64::from(found.distance) <= c, "{found:?} is past c, {c}");
    found
}

fn told_by(table: &Table) -> Found {
    told(search(table.clock, &latest_of(table)), table.clock, table.values.c, table.first_latest())
}

fn told_by_deadlines(table: &DeadlineTable) -> Found {
    told(search(table.clock, &last_of(table)), table.clock, table.values.c, table.smallest_last())
}

/// Of both engines.
fn told_alike(table: &Table) -> Found {
    let found = told_by(table);
    assert_eq!(told_by_deadlines(&to_deadlines(table).1), found);
    found
}

#[test]
fn sound_tables_of_any_make() {
    let (mut none, mut far, mut shared, mut turned) = (0, 0, 0, 0);
    for index in 0..20_000 {
        let (table, deadlines) = sound_pair(&mut Random::new(17, index));
        let found = told_alike(&table);
        assert_eq!(told_by_deadlines(&deadlines), found);
        let first = table.first_latest().map_or(0, |(latest, _)| u128::from(latest));
        let latest = latest_of(&table);
        none += u64::from(found == NOTHING);
        far += u64::from(found != NOTHING && found.distance > u32::from(u16::MAX));
        shared += u64::from(latest.iter().filter(|&&(_, latest)| latest == first).count() > 1);
        turned += u64::from(latest.iter().any(|&(_, latest)| latest >> 32 != u128::from(table.clock >> 32)));
    }
    assert!([none, far, shared, turned].iter().all(|&times| times > 500), "{none} {far} {shared} {turned}");
}

/// From a fresh table on.
#[test]
fn tables_of_walks() {
    let mut far = 0;
    for Recording { values, steps, .. } in (0..400).filter_map(|index| read(&generate(17, index).text).ok()) {
        let (_, mut table) = fresh(values);
        for taken in steps {
            (_, table) = step(table, taken.act, taken.window, taken.time);
            let found = told_alike(&table);
            far += u64::from(found != NOTHING && found.distance > u32::from(u16::MAX));
        }
    }
    assert!(far > 500, "{far} distances are past 16 bits");
}

/// Whatever is wrong with a table, what is found in it is no other moment than its own first one.
#[test]
fn damaged_tables() {
    for damage in Damage::ALL {
        for index in 0..1_000 {
            let (table, deadlines) = damaged_pair(&mut Random::new(18, index), damage);
            let all = last_of(&deadlines);
            found_is_the_first(deadlines.clock, &all);
            table.inspect(|table| found_is_the_first(table.clock, &latest_of(table)));
            // one that has passed is never taken for one to come, by turns of the clock either
            let passed = all.iter().any(|&(_, last)| last < u128::from(deadlines.clock));
            assert!(!passed || search(deadlines.clock, &all).is_none());
            assert!(damage != Damage::Past || passed);
        }
    }
}

fn found_is_the_first(clock: u64, latest: &[(u64, u128)]) {
    let Some(found) = search(clock, latest).filter(|found| *found != NOTHING) else { return };
    let first = latest.iter().map(|&(window, latest)| (latest, window)).min();
    assert_eq!(Some((u128::from(clock) + u128::from(found.distance), found.window)), first);
}

// At the edges

/// Windows with those values of a, which test since those arrivals.
fn testing<const COUNT: usize>(clock: u64, a: [u64; COUNT], arrivals: [u64; COUNT]) -> Table {
    let (_, mut table) = fresh(Values::new(COUNT as u64, LIMIT_END, LIMIT_END, &a));
    table.clock = clock;
    for (place, arrival) in table.places.iter_mut().zip(arrivals) {
        *place = Place::Testing(arrival);
    }
    table
}

#[test]
fn distances_past_16_bits() {
    let at = |a| told_alike(&testing(TURN - 5, a, [TURN - 5; 3]));
    assert_eq!(at([65_537, 65_536, 65_535]), Found { distance: 65_535, window: 3 });
    assert_eq!(at([65_537, 65_536, 131_072]), Found { distance: 65_536, window: 2 });
    assert_eq!(at([131_073, 196_608, 131_072 + 9]), Found { distance: 131_073, window: 1 });
}

#[test]
fn the_lowest_of_equals() {
    // who came last is window 1
    let equal = testing(9_000_000, [1_000_000, 4_000_000, 9_999_999], [9_000_000, 6_000_000, 1]);
    assert_eq!(told_alike(&equal), Found { distance: 1_000_000, window: 1 });
    let mut checked = equal;
    checked.places[1] = Place::Checking(0);
    assert_eq!(told_alike(&checked), Found { distance: 1_000_000, window: 1 });
    checked.places[0] = Place::Selling;
    assert_eq!(told_alike(&checked), Found { distance: 1_000_000, window: 2 });
}

#[test]
fn from_0_to_c() {
    let checking = |arrival| {
        let mut table = testing(CLOCK_END, [1, 1], [CLOCK_END; 2]);
        table.places[..2].copy_from_slice(&[Place::Remainder, Place::Checking(arrival)]);
        table
    };
    let most = told_alike(&checking(CLOCK_END));
    assert_eq!(most, Found { distance: LIMIT_END as u32, window: 2 });
    assert_eq!(told_alike(&checking(CLOCK_END - LIMIT_END)), Found { distance: 0, window: 2 });
}

/// Cut to 32 bits the distance would be one of a sound table.
#[test]
fn a_moment_that_has_passed_by_turns() {
    for turns in [1, 2, 232] {
        for little in [0, 1, 5] {
            let table = testing(CLOCK_END, [5], [CLOCK_END - TURN * turns - little]);
            let [(_, latest)] = latest_of(&table)[..] else { panic!("one window is timed") };
            assert!(u64::from((latest as u64).wrapping_sub(table.clock) as u32) <= 5);
            assert_eq!((table.sound(), search(table.clock, &latest_of(&table))), (false, None));
        }
    }
}
