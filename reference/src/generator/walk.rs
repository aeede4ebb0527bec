//! Walks: faultless recordings whose steps follow a table, most of them accepted, the rest refused at an edge.
//! A walk's family says how many windows and which limits it has, where it starts and how wild it is.

use super::random::Random;
use super::shapes::Shape;
use super::Generated;
use crate::machine::*;
use crate::recording::{line_of, Step};

/// What a walk is like.
pub struct Mood {
    /// the number of steps
    pub steps: u64,
    /// how many steps in a hundred are not the likely ones
    pub wild: u64,
    /// the clock's first move, if not 0
    pub start: u64,
    /// most acts are those of windows 1 to focus
    pub focus: u64,
    /// the longest pause between most steps
    pub pause: u64,
    /// how many steps in a hundred come turns later than they would
    pub far: u64,
}

/// A distance in 32 bits is the same again after so many microseconds.
pub const TURN: u64 = 1 << 32;

/// The a of windows that all have the same, and b and c.
type Limits = [u64; 3];

/// Limits at the ends of their rule.
const EXTREMES: [Limits; 7] = [
    [1, 2, 2],
    [1, 2, 10_000_000],
    [1, 9_999_999, 10_000_000],
    [1, 10_000_000, 10_000_000],
    [5, 6, 6],
    [5, 8, 12],
    [9_999_999, 10_000_000, 10_000_000],
];

/// A walk of some family, in a recording of that shape and of about so many bytes at most.
pub fn recording(random: &mut Random, shape: Shape, bytes: usize) -> Generated {
    let (family, values, mood) = match random.below(10) {
        0 | 1 => small(random),
        2 => many(random),
        3 => limits(random),
        4 => clock_end(random),
        5 => wild(random),
        6 => contention(random),
        7 => two_ages(random),
        8 => far(random),
        _ => orderly(random),
    };
    Generated { family, text: text(random, shape, values, mood, bytes) }
}

type Family = (&'static str, Values, Mood);

/// 1 to 4 windows.
fn small(random: &mut Random) -> Family {
    let mood = Mood { steps: random.between(5, 150), wild: 20, start: 0, focus: 4, pause: 4, far: 0 };
    ("walk-small", small_values(random, 1, 4), mood)
}

/// 40 to 96 windows.
fn many(random: &mut Random) -> Family {
    let mood = Mood { steps: random.between(40, 260), wild: 12, start: 0, focus: 96, pause: 2, far: 0 };
    ("walk-many", small_values(random, 40, 96), mood)
}

/// Limits and numbers of windows at the ends of their rule.
fn limits(random: &mut Random) -> Family {
    let mood =
        Mood { steps: random.between(20, 200), wild: 20, start: 0, focus: 3, pause: LIMIT_END, far: 0 };
    let (n, extreme) = (random.pick(&[1, 2, 3, 95, 96]), random.pick(&EXTREMES));
    ("walk-limits", any_values(random, n, extreme), mood)
}

/// Starts close to the end of the clock.
fn clock_end(random: &mut Random) -> Family {
    let start = CLOCK_END - random.below(40);
    let mood = Mood { steps: random.between(20, 120), wild: 20, start, focus: 3, pause: 3, far: 0 };
    let (n, small) = (random.between(1, 3), small_limits(random));
    let limits = if random.chance(50) { random.pick(&EXTREMES) } else { small };
    ("walk-clock-end", any_values(random, n, limits), mood)
}

/// Mostly refused.
fn wild(random: &mut Random) -> Family {
    let mood = Mood { steps: random.between(20, 200), wild: 75, start: 0, focus: 6, pause: 3, far: 0 };
    ("walk-wild", small_values(random, 1, 6), mood)
}

/// Many windows set the word before one of them checks it.
fn contention(random: &mut Random) -> Family {
    let mood = Mood { steps: random.between(60, 250), wild: 3, start: 0, focus: 5, pause: 2, far: 0 };
    let a = random.between(3, 9);
    let (n, c) = (random.between(2, 5), a + random.between(1, 12));
    ("walk-contention", any_values(random, n, [a, a + 1, c]), mood)
}

/// Some windows have an a of a few microseconds, and the others one that is many times longer.
fn two_ages(random: &mut Random) -> Family {
    let mood = Mood { steps: random.between(60, 250), wild: 5, start: 0, focus: 5, pause: 20, far: 0 };
    let (n, b) = (random.between(2, 5), random.between(40, 90));
    let mut values = Values::equal(n, b - 1, b, b + random.between(0, 60));
    for own in &mut values.a[..n as usize] {
        let (short, long) = (random.between(1, 4), random.between(b / 2, b - 1));
        *own = random.pick(&[short, long]);
    }
    ("walk-two-ages", values, mood)
}

/// Nearly all accepted, with many entries.
fn orderly(random: &mut Random) -> Family {
    let mood = Mood { steps: random.between(30, 220), wild: 1, start: 0, focus: 2, pause: 6, far: 0 };
    ("walk-orderly", small_values(random, 1, 3), mood)
}

/// Limits of up to ten seconds, latest moments on both sides of a turn, and steps that come turns later.
fn far(random: &mut Random) -> Family {
    let start = before_a_turn(random);
    let mood = Mood { steps: random.between(30, 150), wild: 10, start, focus: 3, pause: LIMIT_END, far: 8 };
    let (n, b) = (random.between(1, 4), random.between(200_000, LIMIT_END));
    let c = random.between(b, LIMIT_END);
    ("walk-far", any_values(random, n, [b - 1, b, c]), mood)
}

/// A moment from which on a stay can end after one of the clock's turns, be it a long one or of a few microseconds.
pub fn before_a_turn(random: &mut Random) -> u64 {
    let (few, many) = (random.between(1, 5), random.between(1, LIMIT_END));
    TURN * random.between(1, CLOCK_END / TURN) - random.pick(&[few, many])
}

/// The moment that is one turn after another, or more.
pub fn turns_later(random: &mut Random, moment: u64) -> u64 {
    moment.saturating_add(TURN * random.pick(&[1, 1, 2, 200]))
}

/// So many windows, and limits of a few microseconds.
pub fn small_values(random: &mut Random, fewest: u64, most: u64) -> Values {
    let (n, limits) = (random.between(fewest, most), small_limits(random));
    any_values(random, n, limits)
}

fn small_limits(random: &mut Random) -> Limits {
    let a = random.between(1, 6);
    let b = a + random.between(1, 4);
    [a, b, b + random.between(0, 6)]
}

/// Windows that all have this a, or each its own below b, often as small and as great as may be.
pub fn any_values(random: &mut Random, n: u64, [a, b, c]: Limits) -> Values {
    let mut values = Values::equal(n, a, b, c);
    if random.chance(60) {
        for own in &mut values.a[..n as usize] {
            let any = random.between(1, b - 1);
            *own = random.pick(&[1, b - 1, any, any]);
        }
    }
    values
}

/// A whole recording of such a walk, with values that fit its shape.
pub fn text(random: &mut Random, shape: Shape, values: Values, mood: Mood, bytes: usize) -> Vec<u8> {
    let values = shape.fitted(values);
    let (_, table) = fresh(values);
    let mut walk = Walk { random, table, focus: mood.focus.min(values.n), pause: mood.pause };
    let mut text = shape.head(values);
    if mood.start > 0 {
        text += &walk.take(Step::wait(mood.start));
    }
    for _ in 0..mood.steps {
        if text.len() >= bytes {
            break;
        }
        let step = walk.step(mood.wild);
        let step = walk.now_or_far(step, mood.far);
        text += &walk.take(step);
    }
    text.into_bytes()
}

/// An act that leaves a place: of the two that leave testing a test mostly, and a withdraw now and then.
pub fn act_from(random: &mut Random, place: Place) -> u64 {
    match place {
        Place::Remainder => TRY,
        Place::Testing(_) if random.chance(12) => WITHDRAW,
        Place::Testing(_) => TEST,
        Place::Setting(_) => SET,
        Place::Checking(_) => CHECK,
        Place::Entering(_) => CRIT,
        Place::Selling => EXIT,
        Place::Resetting(_) => RESET,
        Place::Leaving(_) => REM,
    }
}

/// A walk at a table.
pub struct Walk<'a> {
    pub random: &'a mut Random,
    pub table: Table,
    pub focus: u64,
    pub pause: u64,
}

impl Walk<'_> {
    /// A step that is not a likely one that many times in a hundred.
    pub fn step(&mut self, wild: u64) -> Step {
        if self.random.chance(wild) {
            self.wild_step()
        } else {
            self.likely_step()
        }
    }

    /// The step, or that many times in a hundred the same step turns later, where that can still be written.
    fn now_or_far(&mut self, step: Step, percent: u64) -> Step {
        if step.time <= CLOCK_END && self.random.chance(percent) {
            return Step { time: turns_later(self.random, step.time), ..step };
        }
        step
    }

    /// Makes the step and gives its line.
    fn take(&mut self, taken: Step) -> String {
        (_, self.table) = step(self.table, taken.act, taken.window, taken.time);
        line_of(&taken).expect("a walk's steps have a form")
    }

    fn any_window(&mut self) -> u64 {
        self.random.between(1, self.table.values.n)
    }

    fn likely_window(&mut self) -> u64 {
        if self.random.chance(90) {
            self.random.between(1, self.focus)
        } else {
            self.any_window()
        }
    }

    /// The last moment at which nobody is late.
    fn last_moment(&self) -> u64 {
        let unbounded = (self.table.clock + self.table.values.c, 0);
        let (latest, _) = self.table.first_latest().unwrap_or(unbounded);
        latest.min(CLOCK_END)
    }

    /// A moment from the clock to the last one, these two often.
    pub fn moment(&mut self) -> u64 {
        let (clock, last) = (self.table.clock, self.last_moment());
        match self.random.below(10) {
            0..=3 => clock,
            4 | 5 => last,
            6 => last.min(clock + 1),
            7 | 8 => self.random.between(clock, last.min(clock + self.pause)),
            _ => self.random.between(clock, last),
        }
    }

    /// A step that is likely to be accepted.
    fn likely_step(&mut self) -> Step {
        let time = self.moment();
        if self.random.chance(6) {
            return Step::wait(time);
        }
        let window = self.likely_window();
        match self.table.place(window) {
            Place::Checking(arrival) => self.check_step(window, arrival),
            place => Step { time, window, act: act_from(self.random, place) },
        }
    }

    /// A check at its earliest moment, mostly; if another window has to act before that, mostly that act.
    fn check_step(&mut self, window: u64, arrival: u64) -> Step {
        let earliest = arrival + self.table.values.b;
        let time = match self.random.below(8) {
            0 => self.table.clock.max(earliest - 1),
            1 => self.moment(),
            _ => self.table.clock.max(earliest),
        };
        match self.table.first_latest() {
            Some((latest, first)) if latest < time && self.random.chance(70) => {
                let act = act_from(self.random, self.table.place(first));
                Step { time: latest, window: first, act }
            }
            _ => Step { time, window, act: CHECK },
        }
    }

    /// A step at an edge: backward, late, of a window that is not there, past the clock's end, out of place.
    fn wild_step(&mut self) -> Step {
        let (n, clock, last) = (self.table.values.n, self.table.clock, self.last_moment());
        let window = self.likely_window();
        let natural = act_from(self.random, self.table.place(window));
        let act = self.random.between(WAIT, WITHDRAW);
        let within = self.moment();
        let just_before = clock.saturating_sub(self.random.between(1, 3));
        match self.random.below(11) {
            0 => Step { time: just_before, window, act: natural },
            1 => Step { time: just_before, window: self.random.pick(&[0, n + 1, window]), act },
            2 => Step { time: 0, window, act },
            3 => Step { time: within, window, act },
            4 => Step { time: within, window: self.random.pick(&[0, n + 1, 96, 97, 99_999_999]), act },
            5 => Step { time: within, window, act: WAIT },
            6 => Step { time: last + 1, window, act: natural },
            7 => Step { time: last + 1, window: self.any_window(), act },
            8 => Step { time: last + self.random.below(5), window, act },
            9 => Step::wait(last + 1),
            _ => self.far_step(window, act),
        }
    }

    /// A step past the clock's end; now and then at it, which can leave the rest of the walk there.
    fn far_step(&mut self, window: u64, act: u64) -> Step {
        let past = !self.random.chance(10);
        let times = if past { [CLOCK_END + 1, 9_999_999_999_999] } else { [CLOCK_END - 1, CLOCK_END] };
        let time = self.random.pick(&times);
        Step { time, window: if act == WAIT { 0 } else { window }, act }
    }
}
