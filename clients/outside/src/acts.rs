//! Acts for a sound table: mostly those that a walk at it would take, now and then with a number that is wild, or later by 2^32 microseconds or some
//! times that.

use reference::generator::random::Random;
use reference::generator::walk::{act_from, turns_later, Walk};
use reference::machine::{Place, Table, CLOCK_END, CRIT, LIMIT_END, TRY};

/// Act, window and moment.
pub fn act(random: &mut Random, table: &Table) -> [u64; 3] {
    let mut call = if random.chance(15) { last_window(random, table) } else { likely(random, table) };
    if random.chance(6) {
        let place = random.index(call.len());
        call[place] = any_number(random, call[place]);
    } else if random.chance(2) {
        call[1] = random.pick(&[0, table.values.n + 1, 96, 97, u64::MAX]);
    } else if random.chance(3) {
        call[2] = turns_later(random, call[2]);
    }
    call
}

fn likely(random: &mut Random, table: &Table) -> [u64; 3] {
    let (focus, wild) = (table.values.n.min(random.pick(&[4, 96])), random.pick(&[2, 2, 30]));
    let step = Walk { random, table: *table, focus, pause: 3 }.step(wild);
    [step.act, step.window, step.time]
}

/// An act that leaves the place of window n, the last with an entry of its own.
fn last_window(random: &mut Random, table: &Table) -> [u64; 3] {
    let n = table.values.n;
    let moment = moment(random, table).max(table.earliest(n).unwrap_or(0));
    [act_from(random, table.place(n)), n, moment]
}

/// A try at a moment when nobody is late, of a window in remainder if there is one.
pub fn a_try(random: &mut Random, table: &Table) -> [u64; 3] {
    let n = table.values.n;
    let away: Vec<u64> = (1..=n).filter(|&window| table.place(window) == Place::Remainder).collect();
    let window = if away.is_empty() { n } else { random.pick(&away) };
    [TRY, window, moment(random, table)]
}

/// As `act`, but the crit of a window that may enter comes more often.
pub fn act_or_crit(random: &mut Random, table: &Table) -> [u64; 3] {
    let entering = |&window: &u64| matches!(table.place(window), Place::Entering(_));
    match (1..=table.values.n).find(entering).filter(|_| random.chance(60)) {
        Some(window) => [CRIT, window, moment(random, table)],
        None => act(random, table),
    }
}

/// One at which nobody is late.
fn moment(random: &mut Random, table: &Table) -> u64 {
    Walk { random, table: *table, focus: table.values.n, pause: 3 }.moment()
}

/// The edges of the specification's rules, and those of smaller numbers than 64 bits hold.
const EDGES: [u64; 15] = [
    0,
    1,
    8,
    9,
    10,
    96,
    97,
    LIMIT_END,
    LIMIT_END + 1,
    CLOCK_END,
    CLOCK_END + 1,
    1 << 32,
    1 << 63,
    u64::MAX - 1,
    u64::MAX,
];

/// An edge, a number that differs from the given one by 1 or in one bit, or any at all.
pub fn any_number(random: &mut Random, given: u64) -> u64 {
    match random.below(5) {
        0 | 1 => random.pick(&EDGES),
        2 => given.wrapping_add(random.pick(&[1, u64::MAX])),
        3 => given ^ (1 << random.below(64)),
        _ => random.below(u64::MAX),
    }
}
