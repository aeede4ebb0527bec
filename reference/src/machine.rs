//! The table of windows and its step: sections 2, 3 and 4 of the specification.
//! A table goes in and comes back by value, as [21.50] has it.

use crate::answer::*;
use Place::*;

/// The last moment of the clock.
pub const CLOCK_END: u64 = 1_000_000_000_000;
/// The greatest c.
pub const LIMIT_END: u64 = 10_000_000;
/// The entries of every table, whatever its n.
pub const WINDOWS: usize = 96;

// The numbers of the acts, [3.0] to [3.9].
pub const WAIT: u64 = 0;
pub const TRY: u64 = 1;
pub const TEST: u64 = 2;
pub const SET: u64 = 3;
pub const CHECK: u64 = 4;
pub const CRIT: u64 = 5;
pub const EXIT: u64 = 6;
pub const RESET: u64 = 7;
pub const REM: u64 = 8;
pub const WITHDRAW: u64 = 9;
pub const LAST_ACT: u64 = WITHDRAW;

/// [2.80] The number in a timed place is the arrival.
#[derive(Clone, Copy, Debug, PartialEq, Eq)]
pub enum Place {
    Remainder,
    Testing(u64),
    Setting(u64),
    Checking(u64),
    Entering(u64),
    Selling,
    Resetting(u64),
    Leaving(u64),
}

impl Place {
    /// The place with a number of [2.70], 0 to 7; the arrival is of no account where a place has none.
    pub fn numbered(number: u64, arrival: u64) -> Option<Place> {
        Some(match number {
            0 => Remainder,
            1 => Testing(arrival),
            2 => Setting(arrival),
            3 => Checking(arrival),
            4 => Entering(arrival),
            5 => Selling,
            6 => Resetting(arrival),
            7 => Leaving(arrival),
            _ => return None,
        })
    }

    pub fn arrival(self) -> Option<u64> {
        match self {
            Remainder | Selling => None,
            Testing(arrival) | Setting(arrival) | Checking(arrival) => Some(arrival),
            Entering(arrival) | Resetting(arrival) | Leaving(arrival) => Some(arrival),
        }
    }

    /// [2.110]
    pub fn is_trying(self) -> bool {
        matches!(self, Testing(_) | Setting(_) | Checking(_) | Entering(_))
    }
}

/// [2.10] The number of windows and the limits.
#[derive(Clone, Copy, Debug, PartialEq, Eq)]
pub struct Values {
    pub n: u64,
    pub b: u64,
    pub c: u64,
    /// The a of window w is `a[w - 1]`.
    pub a: [u64; WINDOWS],
}

impl Values {
    /// [9.45] The values of a are the first 96 of a list; those that it does not have are 0.
    pub fn new(n: u64, b: u64, c: u64, list: &[u64]) -> Values {
        let mut values = Values { n, b, c, a: [0; WINDOWS] };
        for (a, &given) in values.a.iter_mut().zip(list) {
            *a = given;
        }
        values
    }

    /// [6.45] The same a for each of n windows.
    pub const fn equal(n: u64, a: u64, b: u64, c: u64) -> Values {
        let mut values = Values { n, b, c, a: [0; WINDOWS] };
        let mut entry = 0;
        while entry < WINDOWS && (entry as u64) < n {
            values.a[entry] = a;
            entry += 1;
        }
        values
    }

    /// [4.90] The number of the refusal, if they do not stand.
    pub fn refusal(&self) -> Option<u64> {
        if !count_stands(self.n) {
            return Some(WINDOW_COUNT);
        }
        (!self.limits_stand()).then_some(LIMITS)
    }

    /// [2.30] [2.32] Of an n that stands.
    fn limits_stand(&self) -> bool {
        let (own, above) = self.a.split_at(self.n as usize);
        self.b <= self.c
            && self.c <= LIMIT_END
            && own.iter().all(|a| (1..self.b).contains(a))
            && above.iter().all(|&a| a == 0)
    }

    /// The a of a window.
    pub fn a_of(&self, window: u64) -> u64 {
        self.a[window as usize - 1]
    }

    /// [2.92] Of windows 1 to n.
    pub fn largest_a(&self) -> u64 {
        let count = self.n.min(WINDOWS as u64) as usize;
        self.a[..count].iter().copied().max().unwrap_or(0)
    }
}

impl Default for Values {
    /// [4.100] Where there are none, all are 0.
    fn default() -> Self {
        Values::equal(0, 0, 0, 0)
    }
}

/// [2.20]
pub fn count_stands(n: u64) -> bool {
    (1..=WINDOWS as u64).contains(&n)
}

/// The table; the entry of window w is `places[w - 1]`.
#[derive(Clone, Copy, Debug, PartialEq, Eq)]
pub struct Table {
    pub values: Values,
    pub clock: u64,
    pub word: u64,
    pub places: [Place; WINDOWS],
}

/// [2.65] [4.100] Refused or not, all but the values is the same.
pub fn fresh(values: Values) -> (Answer, Table) {
    let (number, values) = match values.refusal() {
        Some(number) => (number, Values::default()),
        None => (ACCEPTED, values),
    };
    let table = Table { values, clock: 0, word: 0, places: [Remainder; WINDOWS] };
    (bare(number), table)
}

impl Table {
    pub fn place(&self, window: u64) -> Place {
        self.places[window as usize - 1]
    }

    /// [2.100] Only a window with an arrival has one.
    pub fn earliest(&self, window: u64) -> Option<u64> {
        match self.place(window) {
            Checking(arrival) => Some(arrival + self.values.b),
            place => place.arrival(),
        }
    }

    /// [2.90] By the window's own a, but for checking.
    pub fn latest(&self, window: u64) -> Option<u64> {
        match self.place(window) {
            Checking(arrival) => Some(arrival + self.values.c),
            place => place.arrival().map(|arrival| arrival + self.values.a_of(window)),
        }
    }

    /// The smallest latest moment and the lowest window that has it.
    pub fn first_latest(&self) -> Option<(u64, u64)> {
        let timed = |window| self.latest(window).map(|latest| (latest, window));
        (1..=self.values.n).filter_map(timed).min()
    }

    /// The lowest window that is selling, or 0.
    pub fn seller(&self) -> u64 {
        (1..=WINDOWS as u64).find(|&window| self.place(window) == Selling).unwrap_or(0)
    }

    /// [2.120] [2.130]
    pub fn sound(&self) -> bool {
        self.values.refusal().is_none()
            && self.clock <= CLOCK_END
            && self.word <= self.values.n
            && (1..=WINDOWS as u64).all(|window| self.sound_at(window))
    }

    /// [2.120] What is asked of the entry of one window.
    fn sound_at(&self, window: u64) -> bool {
        let place = self.place(window);
        // The arrival is looked at first: one within the clock's range leaves the latest moment no overflow.
        let in_time =
            |arrival| arrival <= self.clock && self.latest(window).is_some_and(|latest| self.clock <= latest);
        (window <= self.values.n || place == Remainder) && place.arrival().is_none_or(in_time)
    }
}

/// The step without a summary.
pub fn step(table: Table, act: u64, window: u64, moment: u64) -> (Answer, Table) {
    if !table.sound() {
        return (bare(NO_TABLE), table);
    }
    match refusal(&table, act, window, moment) {
        Some(refusal) => (refusal, table),
        None => accepted(table, act, window, moment),
    }
}

/// [4.80] The answers 4 to 10, on a sound table.
pub fn refusal(table: &Table, act: u64, window: u64, moment: u64) -> Option<Answer> {
    if moment < table.clock {
        return Some(answer(BACKWARD, 0, table.clock));
    }
    if moment > CLOCK_END {
        return Some(bare(END_OF_CLOCK));
    }
    if act > LAST_ACT {
        return Some(bare(NO_ACT));
    }
    let there = (1..=table.values.n).contains(&window);
    if (act == WAIT && window != 0) || (act != WAIT && !there) {
        return Some(bare(NO_WINDOW));
    }
    // Of any window, the acting one or another, and for a wait too.
    if let Some((latest, late)) = table.first_latest().filter(|&(latest, _)| moment > latest) {
        return Some(answer(LATE, late, latest));
    }
    if act == WAIT {
        return None;
    }
    if !starts_from(act, table.place(window)) {
        return Some(answer(OUT_OF_PLACE, window, 0));
    }
    // Of the other acts none is early: their earliest moment is the arrival, which the clock has reached.
    let earliest = table.earliest(window).filter(|&earliest| act == CHECK && moment < earliest);
    earliest.map(|earliest| answer(EARLY, window, earliest))
}

/// Whether an act leaves that place, by [3.1] to [3.9]; a wait leaves none.
fn starts_from(act: u64, place: Place) -> bool {
    matches!(
        (act, place),
        (TRY, Remainder)
            | (TEST, Testing(_))
            | (SET, Setting(_))
            | (CHECK, Checking(_))
            | (CRIT, Entering(_))
            | (EXIT, Selling)
            | (RESET, Resetting(_))
            | (REM, Leaving(_))
            | (WITHDRAW, Testing(_))
    )
}

/// [3.50] [3.70] [4.60] An accepted act: its answer, and the table after it.
pub fn accepted(mut table: Table, act: u64, window: u64, moment: u64) -> (Answer, Table) {
    table.clock = moment;
    if act != WAIT {
        table.places[window as usize - 1] = destination(&table, act, window, moment);
    }
    match act {
        SET => table.word = window,
        RESET => table.word = 0,
        _ => {}
    }
    (answer(ACCEPTED, table.seller(), table.clock), table)
}

/// Where the act leads, by [3.1] to [3.9] and [3.60].
fn destination(table: &Table, act: u64, window: u64, moment: u64) -> Place {
    match act {
        TRY => Testing(moment),
        TEST if table.word == 0 => Setting(moment),
        TEST => Testing(moment),
        SET => Checking(moment),
        CHECK if table.word == window => Entering(moment),
        CHECK => Testing(moment),
        CRIT => Selling,
        EXIT => Resetting(moment),
        RESET => Leaving(moment),
        REM | WITHDRAW => Remainder,
        _ => unreachable!("a wait moves no window, and an act above 9 is refused"),
    }
}
