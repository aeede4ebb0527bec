//! The two shapes of a recording: what stands before the steps in each, and which limits it can tell.

use super::random::Random;
use crate::machine::Values;
use crate::recording::head;

#[derive(Clone, Copy, Debug, PartialEq, Eq)]
pub enum Shape {
    /// the one that is written
    New,
    /// the one with a single a for all windows, which is only read
    Former,
}

impl Shape {
    pub fn any(random: &mut Random) -> Shape {
        if random.chance(30) {
            Shape::Former
        } else {
            Shape::New
        }
    }

    /// The values, or the nearest that the shape has a place for: the a of window 1 for all.
    pub fn fitted(self, values: Values) -> Values {
        match self {
            Shape::New => values,
            Shape::Former => Values::equal(values.n, values.a_of(1), values.b, values.c),
        }
    }

    /// The lines before the steps, of values that fit.
    pub fn head(self, values: Values) -> String {
        match self {
            Shape::New => head(values),
            Shape::Former => former_head(values),
        }
    }
}

/// [6.45]
fn former_head(values: Values) -> String {
    let Values { n, b, c, .. } = values;
    format!("windows,a,b,c\n{n},{},{b},{c}\ntime,window,act\n", values.a_of(1))
}
