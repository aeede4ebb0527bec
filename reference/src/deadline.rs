//! The second engine, whose timed places hold the first and the last moment of their window where `machine.rs` has its arrival: section 12 of
//! the specification. It steps from moments to moments; an arrival is looked for only to tell whether a table is sound. Below it stand what
//! goes from one kind of table to the other, and a table as the numbers that a library is lent.

use crate::answer::*;
use crate::list::number_of;
use crate::machine::*;
use std::array::from_fn;
use DeadlinePlace::*;

/// The first and the last moment at which a window may act.
#[derive(Clone, Copy, Debug, Default, PartialEq, Eq)]
pub struct Moments {
    pub first: u64,
    pub last: u64,
}

/// [12.10] Remainder and selling hold neither moment.
#[derive(Clone, Copy, Debug, PartialEq, Eq)]
pub enum DeadlinePlace {
    Remainder,
    Testing(Moments),
    Setting(Moments),
    Checking(Moments),
    Entering(Moments),
    Selling,
    Resetting(Moments),
    Leaving(Moments),
}

impl DeadlinePlace {
    /// The place with a number of [2.70], 0 to 7; the moments are of no account where a place has none.
    pub fn numbered(number: u64, moments: Moments) -> Option<DeadlinePlace> {
        Some(match number {
            0 => Remainder,
            1 => Testing(moments),
            2 => Setting(moments),
            3 => Checking(moments),
            4 => Entering(moments),
            5 => Selling,
            6 => Resetting(moments),
            7 => Leaving(moments),
            _ => return None,
        })
    }

    /// [2.70]
    pub fn number(self) -> u64 {
        match self {
            Remainder => 0,
            Testing(_) => 1,
            Setting(_) => 2,
            Checking(_) => 3,
            Entering(_) => 4,
            Selling => 5,
            Resetting(_) => 6,
            Leaving(_) => 7,
        }
    }

    pub fn moments(self) -> Option<Moments> {
        match self {
            Remainder | Selling => None,
            Testing(moments) | Setting(moments) | Checking(moments) => Some(moments),
            Entering(moments) | Resetting(moments) | Leaving(moments) => Some(moments),
        }
    }

    /// The arrival that both moments of a window at this place are of, if there is one. It is found by differences: no moment is so great that
    /// a sum could overflow.
    pub fn arrival(self, values: &Values, window: u64) -> Option<u64> {
        let Moments { first, last } = self.moments()?;
        // how long after it the window may act, and how long after it the window has to
        let (least, most) =
            if matches!(self, Checking(_)) { (values.b, values.c) } else { (0, values.a_of(window)) };
        let arrival = first.checked_sub(least)?;
        (last.checked_sub(most) == Some(arrival)).then_some(arrival)
    }
}

/// The table of deadlines; the entry of window w is `places[w - 1]`.
#[derive(Clone, Copy, Debug, PartialEq, Eq)]
pub struct DeadlineTable {
    pub values: Values,
    pub clock: u64,
    pub word: u64,
    pub places: [DeadlinePlace; WINDOWS],
}

/// [12.40] Refused or not, all but the values is the same.
pub fn deadline_fresh(values: Values) -> (Answer, DeadlineTable) {
    let (number, values) = match values.refusal() {
        Some(number) => (number, Values::default()),
        None => (ACCEPTED, values),
    };
    let table = DeadlineTable { values, clock: 0, word: 0, places: [Remainder; WINDOWS] };
    (bare(number), table)
}

impl DeadlineTable {
    pub fn place(&self, window: u64) -> DeadlinePlace {
        self.places[window as usize - 1]
    }

    /// The smallest last moment and the lowest window that has it.
    pub fn smallest_last(&self) -> Option<(u64, u64)> {
        let timed = |window| self.place(window).moments().map(|moments| (moments.last, window));
        (1..=self.values.n).filter_map(timed).min()
    }

    /// The lowest window that is selling, or 0.
    pub fn seller(&self) -> u64 {
        (1..=WINDOWS as u64).find(|&window| self.place(window) == Selling).unwrap_or(0)
    }

    /// [12.30]
    pub fn sound(&self) -> bool {
        self.values.refusal().is_none()
            && self.clock <= CLOCK_END
            && self.word <= self.values.n
            && (1..=WINDOWS as u64).all(|window| self.sound_at(window))
    }

    /// [12.30] What is asked of the entry of one window.
    fn sound_at(&self, window: u64) -> bool {
        let place = self.place(window);
        let in_time = |moments: Moments| {
            let arrival = place.arrival(&self.values, window);
            arrival.is_some_and(|arrival| arrival <= self.clock) && self.clock <= moments.last
        };
        (window <= self.values.n || place == Remainder) && place.moments().is_none_or(in_time)
    }
}

/// [12.50]
pub fn deadline_step(table: DeadlineTable, act: u64, window: u64, moment: u64) -> (Answer, DeadlineTable) {
    if !table.sound() {
        return (bare(NO_TABLE), table);
    }
    match refusal(&table, act, window, moment) {
        Some(refusal) => (refusal, table),
        None => accepted(table, act, window, moment),
    }
}

/// [4.80] [12.50] The answers 4 to 10, on a sound table.
fn refusal(table: &DeadlineTable, act: u64, window: u64, moment: u64) -> Option<Answer> {
    if moment < table.clock {
        return Some(answer(BACKWARD, 0, table.clock));
    }
    if moment > CLOCK_END {
        return Some(bare(END_OF_CLOCK));
    }
    if act > LAST_ACT {
        return Some(bare(NO_ACT));
    }
    let there = (1..=table.values.n).contains(&window);
    if (act == WAIT && window != 0) || (act != WAIT && !there) {
        return Some(bare(NO_WINDOW));
    }
    // Of any window, the acting one or another, and for a wait too.
    if let Some((last, late)) = table.smallest_last().filter(|&(last, _)| moment > last) {
        return Some(answer(LATE, late, last));
    }
    if act == WAIT {
        return None;
    }
    let place = table.place(window);
    if !leaves(act, place) {
        return Some(answer(OUT_OF_PLACE, window, 0));
    }
    // This is a check: elsewhere the clock has reached the first moment.
    let early = place.moments().filter(|moments| moment < moments.first);
    early.map(|moments| answer(EARLY, window, moments.first))
}

/// Whether an act leaves that place, by [3.1] to [3.9]; a wait leaves none.
fn leaves(act: u64, place: DeadlinePlace) -> bool {
    matches!(
        (act, place),
        (TRY, Remainder)
            | (TEST | WITHDRAW, Testing(_))
            | (SET, Setting(_))
            | (CHECK, Checking(_))
            | (CRIT, Entering(_))
            | (EXIT, Selling)
            | (RESET, Resetting(_))
            | (REM, Leaving(_))
    )
}

/// [4.60] [12.60] An accepted act: its answer, and the table after it.
fn accepted(mut table: DeadlineTable, act: u64, window: u64, moment: u64) -> (Answer, DeadlineTable) {
    table.clock = moment;
    if act != WAIT {
        table.places[window as usize - 1] = destination(&table, act, window, moment);
    }
    match act {
        SET => table.word = window,
        RESET => table.word = 0,
        _ => {}
    }
    (answer(ACCEPTED, table.seller(), moment), table)
}

/// [12.60] Where the act leads, and until when. The moment is within the clock's range, so that the sums fit.
fn destination(table: &DeadlineTable, act: u64, window: u64, moment: u64) -> DeadlinePlace {
    let Values { b, c, .. } = table.values;
    let from_now = Moments { first: moment, last: moment + table.values.a_of(window) };
    match act {
        TRY => Testing(from_now),
        TEST if table.word == 0 => Setting(from_now),
        TEST => Testing(from_now),
        SET => Checking(Moments { first: moment + b, last: moment + c }),
        CHECK if table.word == window => Entering(from_now),
        CHECK => Testing(from_now),
        CRIT => Selling,
        EXIT => Resetting(from_now),
        RESET => Leaving(from_now),
        REM | WITHDRAW => Remainder,
        _ => unreachable!("a wait moves no window, and an act above 9 is refused"),
    }
}

// From one kind of table to the other

/// [12.20] Whether two tables match, sound or not.
pub fn matching(table: &Table, deadlines: &DeadlineTable) -> bool {
    let alike = |window| {
        let (place, held) = (table.place(window), deadlines.place(window));
        number_of(place) == held.number() && place.arrival() == held.arrival(&table.values, window)
    };
    (table.values, table.clock, table.word) == (deadlines.values, deadlines.clock, deadlines.word)
        && (1..=WINDOWS as u64).all(alike)
}

/// [12.100] The table of deadlines that a sound table matches; for another 1, and the table of a refused fresh one.
pub fn to_deadlines(table: &Table) -> (Answer, DeadlineTable) {
    if !table.sound() {
        return (bare(NO_TABLE), deadline_fresh(Values::default()).1);
    }
    let &Table { values, clock, word, .. } = table;
    let places = from_fn(|entry| with_moments(table, entry as u64 + 1));
    (bare(ACCEPTED), DeadlineTable { values, clock, word, places })
}

/// [12.20] The place of a window of a sound table, with its earliest and its latest moment.
fn with_moments(table: &Table, window: u64) -> DeadlinePlace {
    let moments = table.earliest(window).zip(table.latest(window));
    let (first, last) = moments.unwrap_or_default();
    DeadlinePlace::numbered(number_of(table.place(window)), Moments { first, last })
        .expect("a place's number")
}

/// [12.100] [12.35] The table that a sound table of deadlines matches; for another 1, and the table of a refused fresh one.
pub fn to_arrivals(deadlines: &DeadlineTable) -> (Answer, Table) {
    if !deadlines.sound() {
        return (bare(NO_TABLE), fresh(Values::default()).1);
    }
    let &DeadlineTable { values, clock, word, .. } = deadlines;
    let places = from_fn(|entry| with_arrival(deadlines, entry as u64 + 1));
    (bare(ACCEPTED), Table { values, clock, word, places })
}

/// [12.20] The place of a window of a sound table of deadlines, with the arrival that its moments are of.
fn with_arrival(deadlines: &DeadlineTable, window: u64) -> Place {
    let place = deadlines.place(window);
    let arrival = place.arrival(&deadlines.values, window).unwrap_or_default();
    Place::numbered(place.number(), arrival).expect("a place's number")
}

// As numbers

/// Where the values of a stand, after n, b, c, the clock and the word.
const LIMITS_AT: usize = 5;
/// All that comes before the entries.
const HEADER: usize = LIMITS_AT + WINDOWS;
/// The place of a window, its first and its last moment.
const STRIDE: usize = 3;
/// How many numbers a table of deadlines is lent as.
pub const DEADLINE_NUMBERS: usize = HEADER + STRIDE * WINDOWS;

impl DeadlineTable {
    /// [12.110] Remainder and selling have 0 for both moments.
    pub fn numbers(&self) -> [u64; DEADLINE_NUMBERS] {
        let Values { n, b, c, a } = self.values;
        let mut numbers = [0; DEADLINE_NUMBERS];
        numbers[..LIMITS_AT].copy_from_slice(&[n, b, c, self.clock, self.word]);
        numbers[LIMITS_AT..HEADER].copy_from_slice(&a);
        for (entry, place) in numbers[HEADER..].chunks_mut(STRIDE).zip(&self.places) {
            let Moments { first, last } = place.moments().unwrap_or_default();
            entry.copy_from_slice(&[place.number(), first, last]);
        }
        numbers
    }

    /// The table that a list starts with, if it is long enough and its numbers tell one, sound or not.
    pub fn from_numbers(numbers: &[u64]) -> Option<DeadlineTable> {
        let (header, entries) = numbers.get(..DEADLINE_NUMBERS)?.split_at(HEADER);
        let &[n, b, c, clock, word, ref a @ ..] = header else { return None };
        let mut places = [Remainder; WINDOWS];
        for (place, entry) in places.iter_mut().zip(entries.chunks(STRIDE)) {
            *place = place_in(entry[0], Moments { first: entry[1], last: entry[2] })?;
        }
        Some(DeadlineTable { values: Values::new(n, b, c, a), clock, word, places })
    }
}

/// [12.115] None where a place without moments has a number beside it.
fn place_in(number: u64, moments: Moments) -> Option<DeadlinePlace> {
    let place = DeadlinePlace::numbered(number, moments)?;
    (place.moments().unwrap_or_default() == moments).then_some(place)
}
