//! The acts: section 3 of docs/SPECIFICATION.md, which calls them actions.

use crate::answer::Refusal;

/// The ten acts, each as the number that its clause has, [3.0] to [3.9].
#[derive(Clone, Copy, Debug, PartialEq, Eq, Hash)]
pub enum Act {
    Wait,
    Try,
    Test,
    Set,
    Check,
    Crit,
    Exit,
    Reset,
    Rem,
    /// For a window whose patron walks off: from testing back to remainder, and the word stays. Anywhere else it is
    /// [`Refusal::OutOfPlace`], and past the window's latest moment [`Refusal::Late`].
    ///
    /// Of a table from [`Table::fresh`](crate::Table::fresh) on: from a point at which a window is trying and nobody sells, the clock moves
    /// on by at most 2c + 5a, with the largest a of all windows, until some window is let in, as long as one that was trying then has not
    /// withdrawn since, [8.78] and [8.80].
    Withdraw,
}

impl Act {
    /// Each at the place of its number.
    pub const ALL: [Act; 10] = [
        Act::Wait,
        Act::Try,
        Act::Test,
        Act::Set,
        Act::Check,
        Act::Crit,
        Act::Exit,
        Act::Reset,
        Act::Rem,
        Act::Withdraw,
    ];
}

impl From<Act> for u64 {
    fn from(act: Act) -> u64 {
        act as u64
    }
}

impl TryFrom<u64> for Act {
    type Error = Refusal;

    fn try_from(number: u64) -> Result<Act, Refusal> {
        Act::ALL.into_iter().find(|&act| u64::from(act) == number).ok_or(Refusal::NoAct)
    }
}
