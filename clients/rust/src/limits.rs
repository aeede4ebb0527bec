//! The limits of a lock: section 2 of docs/SPECIFICATION.md.

use crate::raw;

/// The limits of a lock: b and c, which all its windows share, and an a for each of them.
///
/// There are as many windows as `a` has values. So no n stands beside them that could be another number than theirs, and no value above n,
/// where the library for C asks for 0; and as the fields have names, none is taken for another. What a recording has is handed to a table as
/// it is.
///
/// They may be any at all: [`Table::fresh`](crate::Table::fresh) and [`Recording::write`](crate::Recording::write) judge them, and answer
/// [`WindowCount`](crate::Refusal::WindowCount) or [`Limits`](crate::Refusal::Limits), [2.20] and [2.30].
///
/// ```
/// use funnelfawn::{Act, Limits, Refusal, Table};
///
/// // a new till and an old one, which has more time for each step
/// let mut table = Table::fresh(&Limits { a: vec![5, 30], b: 40, c: 60 })?;
/// table.step(Act::Try, 1, 0)?;
/// table.step(Act::Try, 2, 0)?;
/// assert_eq!(table.step(Act::Wait, 0, 6), Err(Refusal::Late { window: 1, latest: 5 }));
/// table.step(Act::Withdraw, 1, 5)?;
/// assert_eq!(table.step(Act::Wait, 0, 31), Err(Refusal::Late { window: 2, latest: 30 }));
/// # Ok::<(), Refusal>(())
/// ```
#[derive(Clone, Debug, PartialEq, Eq, Hash)]
pub struct Limits {
    /// that of window w at w - 1: how long it has for each step but a check, [2.90]
    pub a: Vec<u64>,
    /// how long after its set a check comes at the earliest
    pub b: u64,
    /// how long after its set it comes at the latest
    pub c: u64,
}

impl Limits {
    /// Those of n windows with tills of one age, the same a for each. Of more windows than there can be it has one too many, however
    /// great n is.
    ///
    /// ```
    /// use funnelfawn::Limits;
    ///
    /// assert_eq!(Limits::equal(2, 5, 8, 12), Limits { a: vec![5, 5], b: 8, c: 12 });
    /// ```
    pub fn equal(n: u64, a: u64, b: u64, c: u64) -> Limits {
        let windows = usize::try_from(n).unwrap_or(usize::MAX).min(raw::WINDOWS + 1);
        Limits { a: vec![a; windows], b, c }
    }

    /// The number of windows, n.
    pub fn windows(&self) -> u64 {
        self.a.len() as u64
    }
}
