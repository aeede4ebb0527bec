//! Lists of numbers as they are lent: those of a table or a summary, whole, damaged, cut short, and with more behind them.

use crate::acts::any_number;
use crate::encoding::{summary_numbers, table_numbers};
use funnelfawn::raw::{AT_B, AT_C, AT_CLOCK, AT_LIMITS, AT_N, AT_WORD, HEADER, STRIDE, TABLE};
use reference::generator::lists::{foreign, unsound_or_full};
use reference::generator::random::Random;
use reference::generator::walk::TURN;
use reference::machine::{Table, Values, CLOCK_END, LIMIT_END, WINDOWS};
use reference::summary::Summary;

/// A list of numbers to be lent, and whether they start with those that they were made from.
pub struct Made {
    pub numbers: Vec<u64>,
    pub own: bool,
}

/// The numbers of a table, of which some are damaged or missing that many times in a hundred; some have more numbers behind them.
pub fn lent_table(random: &mut Random, table: &Table, percent: u64) -> Made {
    let mut numbers = table_numbers(table);
    let own = !random.chance(percent);
    if !own {
        damage_table(random, table, &mut numbers);
    }
    lengthen(random, &mut numbers);
    Made { numbers, own }
}

fn damage_table(random: &mut Random, table: &Table, numbers: &mut Vec<u64>) {
    let within = random.between(1, table.values.n);
    match random.below(12) {
        0 => {
            let part = part_of_header(random, &table.values, numbers);
            change(random, part)
        }
        1 => change(random, &mut numbers[..TABLE]),
        2 => edge(random, &table.values, numbers),
        3 => entry(numbers, within)[0] = random.pick(&[8, 9, 255, 256, 261, 1 << 32, u64::MAX]),
        4 => entry(numbers, within).copy_from_slice(&untimed(random, table)),
        5 => entry(numbers, within).copy_from_slice(&overdue(random, table, within)),
        6 => above(random, table, numbers),
        7 => {
            let part = part_of_header(random, &table.values, numbers);
            off_by_one(random, part)
        }
        8 => numbers[AT_CLOCK] = clock_edge(random, table),
        9 => a_at_an_edge(random, &table.values, numbers),
        10 => a_above(random, &table.values, numbers),
        _ => cut(random, numbers),
    }
}

/// Of what both kinds of table begin with: all but the values of a, those of windows up to n, or those of all.
pub fn part_of_header<'a>(random: &mut Random, values: &Values, numbers: &'a mut [u64]) -> &'a mut [u64] {
    match random.below(4) {
        0 | 1 => &mut numbers[..AT_LIMITS],
        2 => &mut numbers[AT_LIMITS..AT_LIMITS + values.n as usize],
        _ => &mut numbers[AT_LIMITS..HEADER],
    }
}

/// The a of a window up to n at the ends of its rule, or just outside, or a turn too great.
pub fn a_at_an_edge(random: &mut Random, values: &Values, numbers: &mut [u64]) {
    let window = random.index(values.n as usize);
    let turned = values.a[window] + TURN;
    numbers[AT_LIMITS + window] = random.pick(&[0, 1, values.b - 1, values.b, turned, u64::MAX]);
}

/// The a of a window above n, which is in remainder, is not 0: one that would stand up to n, or one that would not. Of 96 windows the last one
/// becomes one too many, and gives up its place.
pub fn a_above(random: &mut Random, values: &Values, numbers: &mut [u64]) {
    let n = values.n.min(95);
    if values.n > n {
        lower(n, numbers);
        let stride = (numbers.len() - HEADER) / WINDOWS;
        numbers[HEADER + stride * n as usize..].fill(0);
    }
    let any = random.between(n + 1, 96);
    let window = random.pick(&[n + 1, 96, any]) as usize;
    numbers[AT_LIMITS + window - 1] = random.pick(&[1, values.b - 1, values.b, 1 << 32, u64::MAX]);
}

/// Makes it a table of n windows, of which those above n have no a, and the word is none of theirs.
pub fn lower(n: u64, numbers: &mut [u64]) {
    numbers[AT_N] = n;
    numbers[AT_WORD] = numbers[AT_WORD].min(n);
    numbers[AT_LIMITS + n as usize..HEADER].fill(0);
}

fn entry(numbers: &mut [u64], window: u64) -> &mut [u64] {
    let start = HEADER + STRIDE * (window as usize - 1);
    &mut numbers[start..start + STRIDE]
}

/// One number changed to anything.
pub fn change(random: &mut Random, numbers: &mut [u64]) {
    let place = random.index(numbers.len());
    numbers[place] = any_number(random, numbers[place]);
}

/// One number of those before the values of a, of a table of either kind, just outside its rule, or a turn too great.
pub fn edge(random: &mut Random, values: &Values, numbers: &mut [u64]) {
    let &Values { n, b, c, .. } = values;
    let edges = [
        (AT_N, 0),
        (AT_N, 97),
        (AT_N, n - 1),
        (AT_N, n + 1),
        (AT_B, values.largest_a()),
        (AT_B, c + 1),
        (AT_C, b - 1),
        (AT_C, LIMIT_END + 1),
        (AT_B, b + TURN),
        (AT_C, c + TURN),
        (AT_CLOCK, CLOCK_END + 1),
        (AT_WORD, n + 1),
    ];
    let (place, number) = random.pick(&edges);
    numbers[place] = number;
}

/// One of some numbers, more or less by 1.
pub fn off_by_one(random: &mut Random, numbers: &mut [u64]) {
    let place = random.index(numbers.len());
    numbers[place] = numbers[place].wrapping_add(random.pick(&[1, u64::MAX]));
}

/// A clock at the first latest moment or at the last arrival, or past these: one that is sound for all windows but a few.
fn clock_edge(random: &mut Random, table: &Table) -> u64 {
    let latest = table.first_latest().map_or(CLOCK_END, |(latest, _)| latest);
    let arrival = table.places.iter().filter_map(|place| place.arrival()).max().unwrap_or(0);
    random.pick(&[latest, latest + 1, arrival, arrival.saturating_sub(1)])
}

/// An arrival beside a place that carries none.
fn untimed(random: &mut Random, table: &Table) -> [u64; STRIDE] {
    [random.pick(&[0, 5]), random.pick(&[1, table.clock.max(1), u64::MAX])]
}

/// A timed place whose arrival is to come, also where the latest moment would be 2^64 or more and starts from 0 again; or whose latest
/// moment has passed; or which is turns away from one that is sound.
fn overdue(random: &mut Random, table: &Table, window: u64) -> [u64; STRIDE] {
    let place = random.pick(&[1, 2, 3, 4, 6, 7]);
    let limit = if place == 3 { table.values.c } else { table.values.a_of(window) };
    let to_come = table.clock + 1;
    let passed = table.clock.checked_sub(limit + 1).unwrap_or(to_come);
    let again_0 = limit.wrapping_neg();
    let again_clock = again_0 + table.clock.min(limit - 1);
    let turned = turned(random, table.clock, limit);
    [place, random.pick(&[passed, to_come, again_0, again_clock, u64::MAX, turned, turned, turned])]
}

/// An arrival that is turns before or after one that is sound by such a limit: in 32 bits the clock has moved on as far since.
pub fn turned(random: &mut Random, clock: u64, limit: u64) -> u64 {
    let ago = random.between(0, limit.min(clock));
    let turns = TURN.wrapping_mul(random.pick(&[1, 1, 2, 200, u64::MAX]));
    (clock - ago).wrapping_sub(turns)
}

/// An entry above n that would be sound at n, or that has a place alone or an arrival alone. Of 96 windows the last one becomes one too many.
fn above(random: &mut Random, table: &Table, numbers: &mut [u64]) {
    let n = table.values.n.min(95);
    lower(n, numbers);
    let place = random.between(1, 7);
    let sound = [place, if place == 5 { 0 } else { table.clock }];
    let place_alone = [random.pick(&[place, 8, u64::MAX]), 0];
    let arrival_alone = [0, random.pick(&[1, table.clock.max(1), u64::MAX])];
    let any = random.between(n + 1, 96);
    let window = random.pick(&[n + 1, 96, any]);
    entry(numbers, window).copy_from_slice(&random.pick(&[sound, place_alone, arrival_alone]));
}

/// Fewer numbers than the list should have.
pub fn cut(random: &mut Random, numbers: &mut Vec<u64>) {
    let length = numbers.len();
    let shorter = random.index(length);
    let lengths = [0, AT_LIMITS, HEADER, HEADER + 1, 198, length - 2, length - 1, shorter];
    numbers.truncate(random.pick(&lengths).min(length - 1));
}

/// A few numbers more, behind those that a list needs or in the stead of those that were cut.
pub fn lengthen(random: &mut Random, numbers: &mut Vec<u64>) {
    if random.chance(25) {
        numbers.extend((0..random.between(1, 5)).map(|_| random.below(u64::MAX)));
    }
}

/// The numbers of the walk's own summary, mostly, or of another make: sound, full or about to be, not sound, damaged, cut short.
pub fn lent_summary(random: &mut Random, clock: u64, own: &Summary) -> Made {
    let kind = random.below(20);
    let mut numbers = summary_numbers(&match kind {
        0 | 1 => foreign(random, clock),
        2 | 3 => unsound_or_full(random, clock),
        _ => own.clone(),
    });
    match kind {
        4 => change(random, &mut numbers),
        5 => cut(random, &mut numbers),
        _ => {}
    }
    lengthen(random, &mut numbers);
    Made { numbers, own: kind > 5 }
}
