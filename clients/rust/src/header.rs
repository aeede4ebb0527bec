//! What tables of both kinds begin with, and where the entry of a window stands behind it: [9.10] and [12.110] of docs/SPECIFICATION.md.

use crate::limits::Limits;
use crate::raw;

/// The numbers of a table of either kind, sound or not.
pub(crate) struct Header<'a>(pub &'a [u64]);

impl<'a> Header<'a> {
    pub fn windows(&self) -> u64 {
        self.0[raw::AT_N]
    }

    pub fn limits(&self) -> Limits {
        let Header(numbers) = self;
        let a = (1..=raw::WINDOWS as u64).map_while(|window| self.a(window)).collect();
        Limits { a, b: numbers[raw::AT_B], c: numbers[raw::AT_C] }
    }

    pub fn a(&self, window: u64) -> Option<u64> {
        self.index(window).map(|index| self.0[raw::AT_LIMITS + index])
    }

    pub fn clock(&self) -> u64 {
        self.0[raw::AT_CLOCK]
    }

    pub fn word(&self) -> u64 {
        self.0[raw::AT_WORD]
    }

    /// The entry of a window, where each has so many numbers.
    pub fn entry(&self, window: u64, stride: usize) -> Option<&'a [u64]> {
        self.0[raw::HEADER..].chunks_exact(stride).nth(self.index(window)?)
    }

    /// The place of a window of 1 to n among all windows. In numbers that tell no sound table n may be more than there are.
    fn index(&self, window: u64) -> Option<usize> {
        let index = usize::try_from(window.checked_sub(1)?).ok()?;
        (window <= self.windows() && index < raw::WINDOWS).then_some(index)
    }
}
