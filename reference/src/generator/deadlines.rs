//! Pairs of tables that match, one with arrivals and one with deadlines: sound ones, those that no list of calls reaches too, and damaged
//! ones, among them tables of deadlines that match no table at all.

use super::random::Random;
use super::walk::{any_values, before_a_turn, small_values, TURN};
use crate::deadline::*;
use crate::list::number_of;
use crate::machine::*;
use std::array::from_fn;

/// The numbers of the places that have moments, and of checking among them.
const TIMED: [u64; 6] = [1, 2, CHECKING, 4, 6, 7];
const CHECKING: u64 = 3;

/// A sound table, with any places at any clock, and the table of deadlines that it matches.
pub fn sound_pair(random: &mut Random) -> (Table, DeadlineTable) {
    let table = sound_table(random);
    (table, deadlines_of(&table))
}

fn sound_table(random: &mut Random) -> Table {
    let (_, mut table) = fresh(values(random));
    table.clock = match random.below(6) {
        0 => random.below(40),
        1 => random.below(CLOCK_END),
        2 => CLOCK_END - random.below(40),
        3 => CLOCK_END,
        4 => before_a_turn(random),
        _ => 0,
    };
    table.word = random.between(0, table.values.n);
    let percent = random.pick(&[20, 60, 100]);
    for window in 1..=table.values.n {
        if random.chance(percent) {
            table.places[window as usize - 1] = sound_place(random, &table, window);
        }
    }
    table
}

fn values(random: &mut Random) -> Values {
    match random.below(4) {
        0 => {
            let n = random.between(1, 4);
            any_values(random, n, [9_999_999, LIMIT_END, LIMIT_END])
        }
        1 => small_values(random, 90, 96),
        _ => small_values(random, 1, 5),
    }
}

/// Any place for a window, with an arrival that is sound, as early and as late as may be now and then.
fn sound_place(random: &mut Random, table: &Table, window: u64) -> Place {
    let number = random.below(8);
    let (_, limit) = limits(&table.values, window, number);
    let soonest = table.clock.saturating_sub(limit);
    let any = random.between(soonest, table.clock);
    let arrival = random.pick(&[soonest, any, any, table.clock]);
    Place::numbered(number, arrival).expect("one of the eight")
}

/// How long after its arrival a window may act at the place of that number, and how long after it the window has to.
fn limits(values: &Values, window: u64, number: u64) -> (u64, u64) {
    if number == CHECKING {
        (values.b, values.c)
    } else {
        (0, values.a_of(window))
    }
}

/// The table of deadlines that a table matches; past 2^64 a moment starts at 0 again, and then they do not match.
fn deadlines_of(table: &Table) -> DeadlineTable {
    let &Table { values, clock, word, .. } = table;
    let places = from_fn(|entry| held(table, entry as u64 + 1));
    DeadlineTable { values, clock, word, places }
}

fn held(table: &Table, window: u64) -> DeadlinePlace {
    let place = table.place(window);
    let number = number_of(place);
    let moments = moments_from(limits(&table.values, window, number), place.arrival().unwrap_or(0));
    DeadlinePlace::numbered(number, moments).expect("one of the eight")
}

fn moments_from((least, most): (u64, u64), arrival: u64) -> Moments {
    Moments { first: arrival.wrapping_add(least), last: arrival.wrapping_add(most) }
}

/// What is wrong with a table.
#[derive(Clone, Copy, Debug, PartialEq, Eq)]
pub enum Damage {
    /// the number of windows, b or c do not stand, or the a of every window
    Values,
    /// the a of one window does not stand, of one above n too
    OwnLimit,
    /// the clock is past its end
    Clock,
    /// the word names a window above n
    Word,
    /// a window above n is not in remainder
    AboveN,
    /// an arrival is after the clock, by a little or by nearly a turn
    Later,
    /// a last moment is before the clock, by a little or by nearly one turn or more
    Past,
    /// an arrival is near 2^64, and so are the moments, or they are small again
    Huge,
    /// the two moments are of different arrivals
    Apart,
    /// a check has its first moment before b, so that it would have come before moment 0
    BelowB,
}

impl Damage {
    pub const ALL: [Damage; 10] = [
        Damage::Values,
        Damage::OwnLimit,
        Damage::Clock,
        Damage::Word,
        Damage::AboveN,
        Damage::Later,
        Damage::Past,
        Damage::Huge,
        Damage::Apart,
        Damage::BelowB,
    ];
}

/// A table of deadlines that is not sound, with the table that it matches, if there is one.
pub fn damaged_pair(random: &mut Random, damage: Damage) -> (Option<Table>, DeadlineTable) {
    let mut table = sound_table(random);
    // a window in a timed place, which some of the damage is done to
    let number = if damage == Damage::BelowB { CHECKING } else { random.pick(&TIMED) };
    let window = random.between(1, table.values.n);
    let (_, limit) = limits(&table.values, window, number);
    let arrival = damage_table(random, &mut table, damage, limit);
    table.places[window as usize - 1] = Place::numbered(number, arrival).expect("one of the eight");
    let mut deadlines = deadlines_of(&table);
    damage_moments(random, &mut deadlines, damage, window);
    (matching(&table, &deadlines).then_some(table), deadlines)
}

/// Does what a table of arrivals can show, and gives the arrival of the picked window, which has to act so long after it.
fn damage_table(random: &mut Random, table: &mut Table, damage: Damage, limit: u64) -> u64 {
    match damage {
        Damage::Values => damage_values(random, &mut table.values),
        Damage::OwnLimit => damage_own_limit(random, &mut table.values),
        Damage::Clock => table.clock = random.pick(&[CLOCK_END + 1, 1 << 63, u64::MAX]),
        Damage::Word => table.word = random.pick(&[table.values.n + 1, 97, u64::MAX]),
        Damage::AboveN => place_above_n(random, table),
        Damage::Later => {
            let (little, turn) = (random.between(1, 3), TURN - random.between(0, limit));
            return table.clock + random.pick(&[little, turn]);
        }
        Damage::Past => {
            let little = limit + random.between(1, 3);
            let turns = TURN * random.pick(&[1, 1, 2, 200]) + random.between(0, limit);
            let ago = random.pick(&[little, turns]);
            table.clock = table.clock.max(ago);
            return table.clock - ago;
        }
        Damage::Huge => return u64::MAX - random.below(2 * limit),
        Damage::Apart | Damage::BelowB => {}
    }
    table.clock
}

fn damage_values(random: &mut Random, values: &mut Values) {
    match random.below(6) {
        0 => values.n = random.pick(&[0, 97, u64::MAX]),
        1 => values.a = [0; WINDOWS],
        2 => values.a = [values.b; WINDOWS],
        3 => values.b = random.pick(&[values.c + 1, values.b + TURN]),
        4 => values.c = random.pick(&[LIMIT_END + 1, values.c + TURN, u64::MAX]),
        _ => values.a = [u64::MAX; WINDOWS],
    }
}

fn damage_own_limit(random: &mut Random, values: &mut Values) {
    let Values { n, b, .. } = *values;
    let window = random.between(1, WINDOWS as u64);
    let picked = random.pick(&[1, n, (n + 1).min(WINDOWS as u64), window]);
    let a = &mut values.a[picked as usize - 1];
    let faults = if picked <= n { [0, b, *a + TURN, u64::MAX] } else { [1, b - 1, TURN, u64::MAX] };
    *a = random.pick(&faults);
}

fn place_above_n(random: &mut Random, table: &mut Table) {
    table.values.n = table.values.n.min(WINDOWS as u64 - 1);
    table.values.a[table.values.n as usize..].fill(0);
    table.word = table.word.min(table.values.n);
    let above = random.between(table.values.n + 1, WINDOWS as u64);
    let number = random.between(1, 7);
    table.places[above as usize - 1] = Place::numbered(number, table.clock).expect("one of the eight");
}

/// Does what only a table of deadlines can show to the moments of a window.
fn damage_moments(random: &mut Random, deadlines: &mut DeadlineTable, damage: Damage, window: u64) {
    let place = &mut deadlines.places[window as usize - 1];
    let Values { b, c, .. } = deadlines.values;
    let moments = match (damage, place.moments()) {
        (Damage::Apart, Some(moments)) => drawn_apart(random, moments),
        (Damage::BelowB, Some(_)) => {
            let before = random.between(1, b);
            Moments { first: b - before, last: c - before }
        }
        _ => return,
    };
    *place = DeadlinePlace::numbered(place.number(), moments).expect("one of the eight");
}

/// One of the two moments is another than it was.
fn drawn_apart(random: &mut Random, moments: Moments) -> Moments {
    let Moments { first, last } = moments;
    let little = random.between(1, 3);
    let off = random.pick(&[little, little, TURN]);
    match random.below(5) {
        0 => Moments { first: first + off, last },
        1 => Moments { first: first.wrapping_sub(off), last },
        2 => Moments { first, last: last + off },
        3 => Moments { first, last: last.wrapping_sub(off) },
        _ => Moments { first, last: u64::MAX },
    }
}
