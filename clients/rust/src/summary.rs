//! The running summary: section 5 of docs/SPECIFICATION.md.

use crate::layout;
use crate::raw;

/// A summary, as the numbers that the library keeps of it. [`Table::record`](crate::Table::record) brings it up to date.
///
/// A wait is in unused time, in which nobody sells: from a window's try to its crit, the clock's advance in those acts before which no window
/// sold, [5.75]. Here window 2 tries at 10, and window 1 sells from 12 to 15; at 16, window 2 has waited 2 and then 1:
///
/// ```
/// use funnelfawn::{Act::*, Limits, Refusal, Summary, Table};
///
/// let (mut table, mut summary) = (Table::fresh(&Limits::equal(2, 5, 8, 12))?, Summary::new());
/// for (act, moment) in [(Try, 0), (Test, 1), (Set, 2)] {
///     table.record(&mut summary, act, 1, moment)?;
/// }
/// for (act, window, moment) in [(Try, 2, 10), (Check, 1, 11), (Crit, 1, 12), (Test, 2, 14), (Exit, 1, 15), (Reset, 1, 16)] {
///     table.record(&mut summary, act, window, moment)?;
/// }
/// assert_eq!((summary.waited(1), summary.waited(2), summary.longest_wait()), (Some(0), Some(3), 12));
/// # Ok::<(), Refusal>(())
/// ```
///
/// The promise of 2c + 5a, see [`Act::Withdraw`](crate::Act::Withdraw), is of the unused time until some window is let in. The wait of one
/// window can be longer, as others may be let in before it.
#[derive(Clone, Debug, PartialEq, Eq)]
pub struct Summary {
    pub(crate) numbers: [u64; raw::SUMMARY],
}

impl Summary {
    pub fn new() -> Summary {
        let mut summary = Summary::from_numbers([0; raw::SUMMARY]);
        raw::new_summary(&mut summary.numbers);
        summary
    }

    pub fn accepted(&self) -> u64 {
        self.numbers[0]
    }

    pub fn refused(&self) -> u64 {
        self.numbers[1]
    }

    pub fn entries(&self) -> u64 {
        self.numbers[2]
    }

    pub fn exits(&self) -> u64 {
        self.numbers[3]
    }

    /// The longest wait that an accepted crit has ended, [5.90].
    pub fn longest_wait(&self) -> u64 {
        self.numbers[4]
    }

    /// What a window of 1 to 96 has waited since its last try, or since the summary was new, if that was later; 0 where it has entered
    /// or withdrawn since, [5.80]. In stored numbers a window that is not trying may have any up to the clock, [5.85].
    pub fn waited(&self, window: u64) -> Option<u64> {
        let index = usize::try_from(window.checked_sub(1)?).ok()?;
        self.numbers[raw::WAITED..].get(index).copied()
    }

    /// The numbers in the order of include/funnelfawn.h, to be stored, with [`raw::LAYOUT`](crate::raw::LAYOUT) beside them.
    pub fn numbers(&self) -> &[u64; raw::SUMMARY] {
        &self.numbers
    }

    /// A summary of stored numbers. Any will do, as each call judges them anew and may answer
    /// [`NoSummary`](crate::Refusal::NoSummary); but those stored with another layout may mean something else, and no call tells: see
    /// [`raw::LAYOUT`](crate::raw::LAYOUT).
    pub fn from_numbers(numbers: [u64; raw::SUMMARY]) -> Summary {
        layout::assert_same();
        Summary { numbers }
    }
}

impl Default for Summary {
    fn default() -> Summary {
        Summary::new()
    }
}
