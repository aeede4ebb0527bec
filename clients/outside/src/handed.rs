//! What is handed to the calls that make a table or write a recording: n, b, c, and a list of values of a, of any length and with any numbers.

use crate::acts::any_number;
use crate::sights::{Sight, Sights};
use reference::answer::{Answer, ACCEPTED, LIMITS};
use reference::generator::random::Random;
use reference::machine::{Values, WINDOWS};

#[derive(Clone, Debug)]
pub struct Handed {
    pub n: u64,
    pub b: u64,
    pub c: u64,
    pub a: Vec<u64>,
}

/// Values that stand, of which one may be another number then, with a list for those of a that is as long as needed, shorter or longer.
pub fn handed(random: &mut Random, values: &Values) -> Handed {
    let mut handed = Handed::read(values);
    match random.below(10) {
        0 => handed.n = any_number(random, handed.n),
        1 => handed.b = any_number(random, handed.b),
        2 => handed.c = any_number(random, handed.c),
        3 => handed.a[a_window(random, 1, values.n)] = off_its_rule(random, values),
        4 if values.n < WINDOWS as u64 => {
            handed.a[a_window(random, values.n + 1, WINDOWS as u64)] = off_zero(random, values)
        }
        _ => {}
    }
    let length = length(random, values.n as usize);
    // past the 96th any will do
    handed.a.resize_with(length, || random.below(u64::MAX));
    handed
}

/// The place of a window between two, these often.
fn a_window(random: &mut Random, first: u64, last: u64) -> usize {
    let any = random.between(first, last);
    random.pick(&[first, any, last]) as usize - 1
}

/// For a window up to n: at the ends of the rule, or any number.
fn off_its_rule(random: &mut Random, values: &Values) -> u64 {
    let any = any_number(random, values.b);
    random.pick(&[0, 1, values.b - 1, values.b, any])
}

/// For a window above n: numbers that would stand up to n, and others.
fn off_zero(random: &mut Random, values: &Values) -> u64 {
    let any = any_number(random, 0);
    random.pick(&[1, values.b - 1, values.b, u64::MAX, any])
}

/// Of a list for n windows: n or 96 mostly, else one less than these, none, more, or between them.
fn length(random: &mut Random, n: usize) -> usize {
    let (between, longer) = (n + random.index(WINDOWS - n + 1), WINDOWS + random.index(5));
    match random.below(10) {
        0..=2 => n,
        3..=5 => WINDOWS,
        6 => n - 1,
        7 => random.pick(&[0, WINDOWS - 1]),
        8 => between,
        _ => longer,
    }
}

impl Handed {
    /// As a reading leaves them, all 96.
    pub fn read(values: &Values) -> Handed {
        Handed { n: values.n, b: values.b, c: values.c, a: values.a.to_vec() }
    }

    pub fn values(&self) -> Values {
        Values::new(self.n, self.b, self.c, &self.a)
    }

    /// What was handed, by the answer that is due to it.
    pub fn look(&self, answer: Answer, sights: &mut Sights) {
        let (length, n, values) = (self.a.len(), self.n, self.values());
        if answer.number == ACCEPTED {
            let own = &values.a[..n as usize];
            sights.look(Sight::Unequal, own.iter().any(|a| *a != own[0]));
            sights.look(Sight::FewerThanAll, length < WINDOWS);
            sights.look(Sight::MoreThanAll, length > WINDOWS);
        }
        if answer.number == LIMITS {
            let all_but = |mut values: Values, windows: std::ops::Range<usize>, stands: u64| {
                values.a[windows].fill(stands);
                values.refusal().is_none()
            };
            let count = n as usize;
            sights.look(Sight::FewerThanN, length < count && all_but(values, length..count, 1));
            sights.look(Sight::ValueAboveN, all_but(values, count..WINDOWS, 0));
        }
    }
}
