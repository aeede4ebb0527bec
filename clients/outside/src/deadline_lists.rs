//! Lists of numbers as they are lent to the second engine: those of a deadline table, whole, damaged, cut short, and with more behind them;
//! and lists for what goes from one kind of table to the other.

use crate::acts::any_number;
use crate::encoding::deadline_numbers;
use crate::lists::{
    a_above, a_at_an_edge, change, cut, edge, lengthen, lower, off_by_one, part_of_header, turned, Made,
};
use funnelfawn::raw::{DEADLINES, DEADLINES_STRIDE, HEADER};
use reference::deadline::DeadlineTable;
use reference::generator::random::Random;
use reference::generator::walk::TURN;
use reference::machine::Values;

/// The numbers of the places that have moments, and of checking among them.
const TIMED: [u64; 6] = [1, 2, CHECKING, 4, 6, 7];
const CHECKING: u64 = 3;

/// The numbers of a deadline table, of which some are damaged or missing that many times in a hundred; some have more numbers behind them.
pub fn lent_deadlines(random: &mut Random, deadlines: &DeadlineTable, percent: u64) -> Made {
    let mut numbers = deadline_numbers(deadlines);
    let own = !random.chance(percent);
    if !own {
        damage(random, deadlines, &mut numbers);
    }
    lengthen(random, &mut numbers);
    Made { numbers, own }
}

fn damage(random: &mut Random, deadlines: &DeadlineTable, numbers: &mut Vec<u64>) {
    let values = &deadlines.values;
    let within = random.between(1, values.n);
    match random.below(14) {
        0 => {
            let part = part_of_header(random, values, numbers);
            change(random, part)
        }
        1 => change(random, &mut numbers[..DEADLINES]),
        2 => edge(random, values, numbers),
        3 => {
            let part = part_of_header(random, values, numbers);
            off_by_one(random, part)
        }
        4 => entry(numbers, within)[0] = random.pick(&[0, 3, 5, 8, 9, 255, 256, 261, 1 << 32, u64::MAX]),
        5 => off_by_one(random, &mut entry(numbers, within)[1..]),
        6..=9 => entry(numbers, within).copy_from_slice(&at_an_edge(random, deadlines, within)),
        10 => above(random, deadlines, numbers),
        11 => a_at_an_edge(random, values, numbers),
        12 => a_above(random, values, numbers),
        _ => cut(random, numbers),
    }
}

fn entry(numbers: &mut [u64], window: u64) -> &mut [u64] {
    let start = HEADER + DEADLINES_STRIDE * (window as usize - 1);
    &mut numbers[start..start + DEADLINES_STRIDE]
}

/// A timed place with the moments of an arrival that is just sound, or just not, or turns away, or would have been before moment 0: there it is
/// near 2^64, and moments may be small again. Now and then one of the two is off by one, or by a turn.
fn at_an_edge(random: &mut Random, deadlines: &DeadlineTable, window: u64) -> [u64; DEADLINES_STRIDE] {
    let (&Values { b, c, .. }, clock) = (&deadlines.values, deadlines.clock);
    let place = random.pick(&TIMED);
    let limits @ [least, most] = if place == CHECKING { [b, c] } else { [0, deadlines.values.a_of(window)] };
    let soonest = clock.wrapping_sub(most);
    let turned = turned(random, clock, most);
    let arrivals = [
        clock,
        clock + 1,
        soonest,
        soonest.wrapping_sub(1),
        least.wrapping_neg(),
        most.wrapping_neg(),
        most.wrapping_neg().wrapping_sub(1),
        u64::MAX,
        turned,
        turned,
    ];
    let arrival = random.pick(&arrivals);
    let [first, last] = limits.map(|limit| arrival.wrapping_add(limit).wrapping_add(off(random)));
    [place, first, last]
}

fn off(random: &mut Random) -> u64 {
    random.pick(&[0, 0, 0, 0, 0, 0, 0, 0, 1, u64::MAX, TURN])
}

/// An entry above n that would be sound at n, or a place or a moment alone. Of 96 windows the last one becomes one too many.
fn above(random: &mut Random, deadlines: &DeadlineTable, numbers: &mut [u64]) {
    let n = deadlines.values.n.min(95);
    lower(n, numbers);
    let sound = [1, deadlines.clock, deadlines.clock + deadlines.values.a_of(n)];
    let entries = [sound, [5, 0, 0], [8, 0, 0], [0, 1, 0], [0, 0, 1], [0, 0, u64::MAX]];
    let any = random.between(n + 1, 96);
    let window = random.pick(&[n + 1, 96, any]);
    entry(numbers, window).copy_from_slice(&random.pick(&entries));
}

/// As many numbers as a deadline table has, any at all, of which those before the entries may be those of a sound one.
pub fn any_numbers(random: &mut Random, deadlines: &DeadlineTable) -> Vec<u64> {
    let mut numbers: Vec<u64> = (0..DEADLINES).map(|_| any_number(random, 0)).collect();
    if random.chance(70) {
        numbers[..HEADER].copy_from_slice(&deadline_numbers(deadlines)[..HEADER]);
    }
    numbers
}

/// A list for a table that needs so many numbers: as long as that, longer, or too short, by one mostly.
pub fn output(random: &mut Random, needed: usize) -> Vec<u64> {
    let length = match random.below(10) {
        0 | 1 => needed - 1,
        2 => random.index(needed),
        3..=5 => needed + 1 + random.index(4),
        _ => needed,
    };
    vec![any_number(random, 7777); length]
}
