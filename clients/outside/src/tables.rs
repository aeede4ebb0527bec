//! Sound tables for a walk to start from, those that no walk reaches too.

use reference::generator::random::Random;
use reference::generator::walk::{any_values, before_a_turn};
use reference::machine::*;

/// A fresh table, or one with any places, no seller or one or two or more, at any clock, its end too; or with nobody in remainder, and with
/// the same latest moment for most windows.
pub fn start(random: &mut Random) -> Table {
    let (_, table) = fresh(values(random));
    match random.below(20) {
        0..=9 => table,
        10..=16 => busy(random, table),
        _ => level(random, table),
    }
}

/// Windows that all have the same a, or each its own.
fn values(random: &mut Random) -> Values {
    let n = random.pick(&[1, 2, 3, 8, 24, 95, 96]);
    let limits = [
        [1, 2, 2],
        [5, 6, 6],
        [5, 8, 12],
        [2, 6, 30],
        [9, 40, 60],
        [65_537, 70_000, 200_000],
        [1, 9_999_999, LIMIT_END],
        [9_999_999, LIMIT_END, LIMIT_END],
    ];
    let picked = random.pick(&limits);
    any_values(random, n, picked)
}

fn busy(random: &mut Random, mut table: Table) -> Table {
    table.clock = match random.below(5) {
        0 => random.below(40),
        1 => random.below(CLOCK_END),
        2 => CLOCK_END - random.below(40),
        3 => before_a_turn(random),
        _ => CLOCK_END,
    };
    table.word = random.between(0, table.values.n);
    let percent = random.pick(&[20, 60, 100]);
    for window in 1..=table.values.n {
        if random.chance(percent) {
            table.places[window as usize - 1] = place(random, &table, window);
        }
    }
    seat_sellers(random, &mut table);
    table
}

/// Those who came to sell, or none, one or two others; of a hundred windows hardly ever so few would sell.
fn seat_sellers(random: &mut Random, table: &mut Table) {
    let most = random.below(4);
    if most == 3 {
        return;
    }
    for place in table.places.iter_mut().filter(|place| **place == Place::Selling) {
        *place = Place::Testing(table.clock);
    }
    for _ in 0..most {
        table.places[random.index(table.values.n as usize)] = Place::Selling;
    }
}

/// Every window in a timed place, with one latest moment or the next: where they are late, the lowest of many is to be told.
fn level(random: &mut Random, mut table: Table) -> Table {
    let turn = before_a_turn(random);
    let clocks = [LIMIT_END, CLOCK_END / 2, turn, CLOCK_END - LIMIT_END, CLOCK_END - 1, CLOCK_END];
    table.clock = random.pick(&clocks);
    table.word = random.between(0, table.values.n);
    let Values { n, c, a, .. } = table.values;
    // no later than any window may have come
    let smallest = a[..n as usize].iter().min().expect("at least one window");
    let first = random.between(table.clock, table.clock + smallest - 1);
    for (place, own) in table.places.iter_mut().zip(&a[..n as usize]) {
        let latest = first + u64::from(random.chance(20));
        *place = timed_place(random, latest - own, latest - c);
    }
    table
}

/// A place with an arrival that is sound, at an edge now and then.
fn place(random: &mut Random, table: &Table, window: u64) -> Place {
    let mut arrival = |limit| {
        let first = table.clock.saturating_sub(limit);
        match random.below(40) {
            0 => first,
            1..=10 => table.clock,
            _ => random.between(first, table.clock),
        }
    };
    let (timed, checked) = (arrival(table.values.a_of(window)), arrival(table.values.c));
    if random.below(7) == 0 {
        return Place::Selling;
    }
    timed_place(random, timed, checked)
}

/// One of the timed places, with an arrival of its own for checking.
fn timed_place(random: &mut Random, timed: u64, checked: u64) -> Place {
    let places = [
        Place::Testing(timed),
        Place::Setting(timed),
        Place::Checking(checked),
        Place::Entering(timed),
        Place::Resetting(timed),
        Place::Leaving(timed),
    ];
    random.pick(&places)
}
