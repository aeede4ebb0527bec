//! The second engine, which has the first and the last moment of each window written out: section 12 of docs/SPECIFICATION.md, which calls
//! its table a state of deadlines.

use crate::answer::{Accepted, Refusal};
use crate::header::Header;
use crate::layout;
use crate::limits::Limits;
use crate::raw;
use crate::table::{Place, Table};

/// The first and the last moment at which a window may leave the place where it is.
///
/// The first is the moment at which it came there or, in checking, b later; the last is the window's own a after that moment or, in checking,
/// c.
#[derive(Clone, Copy, Debug, PartialEq, Eq, Hash)]
pub struct Moments {
    /// before it a check is [`Refusal::Early`]; elsewhere the clock has reached it
    pub first: u64,
    /// past it any act of any window, and a wait too, is [`Refusal::Late`]
    pub last: u64,
}

/// A deadline table, as the numbers that the library keeps of it: a [`Table`] in first and last moments, for who thinks in these.
///
/// A table and a deadline table match if they are the same but for this, and each window's two moments are its earliest and its latest,
/// [12.20]. From two that match, every act at every moment gets the same answer, and leaves two that match, [12.80]; so all that is promised
/// of lists of acts holds here too, [12.90], and of a lock that is handed on, [12.97]. Like a table it cannot be cloned: the lock holds for
/// one copy, handed on, and [`from_table`](DeadlineTable::from_table) and [`into_table`](DeadlineTable::into_table) hand it on from one engine to the other.
///
/// ```
/// use funnelfawn::{Accepted, Act, DeadlineTable, Limits, Moments, Place, Refusal};
///
/// let mut deadlines = DeadlineTable::fresh(&Limits { a: vec![5, 7], b: 8, c: 12 })?;
/// deadlines.step(Act::Try, 1, 3)?;
/// assert_eq!(deadlines.place(1), Some((Place::Testing, Some(Moments { first: 3, last: 8 }))));
/// deadlines.step(Act::Test, 1, 5)?;
/// deadlines.step(Act::Set, 1, 7)?;
/// // a check may not come before b has passed, and has until c
/// assert_eq!(deadlines.place(1), Some((Place::Checking, Some(Moments { first: 15, last: 19 }))));
/// deadlines.step(Act::Check, 1, 15)?;
/// assert_eq!(deadlines.step(Act::Crit, 1, 20)?, Accepted { selling: Some(1), clock: 20 });
/// // a window sells for as long as it likes
/// assert_eq!(deadlines.place(1), Some((Place::Selling, None)));
/// # Ok::<(), Refusal>(())
/// ```
#[derive(Debug, PartialEq, Eq)]
pub struct DeadlineTable {
    numbers: [u64; raw::DEADLINES],
}

impl DeadlineTable {
    /// A deadline table of as many windows as the limits have values of a: all in remainder, at clock 0, with word 0. If they are refused
    /// there is none.
    pub fn fresh(limits: &Limits) -> Result<DeadlineTable, Refusal> {
        let mut deadlines = DeadlineTable::from_numbers([0; raw::DEADLINES]);
        let Limits { a, b, c } = limits;
        raw::fresh_deadlines(limits.windows(), *b, *c, a, &mut deadlines.numbers).result()?;
        Ok(deadlines)
    }

    /// The one that matches a table. It takes the table's place: where both went on, they would be two locks. To look at a table that goes
    /// on by itself, hand over a copy, `Table::from_numbers(*table.numbers())`, and make no act of it.
    ///
    /// A table that is not sound matches no sound one, and is [`NoTable`](Refusal::NoTable), as it is to every act.
    /// It is gone then: who wants its numbers copies them before.
    pub fn from_table(table: Table) -> Result<DeadlineTable, Refusal> {
        let mut deadlines = DeadlineTable::from_numbers([0; raw::DEADLINES]);
        raw::to_deadlines(table.numbers(), &mut deadlines.numbers).result()?;
        Ok(deadlines)
    }

    /// The table that matches this one, in its place; [`NoTable`](Refusal::NoTable) where this one is not sound. What goes both ways is the
    /// same again, [12.105].
    pub fn into_table(self) -> Result<Table, Refusal> {
        let mut numbers = [0; raw::TABLE];
        raw::to_arrivals(&self.numbers, &mut numbers).result()?;
        Ok(Table::from_numbers(numbers))
    }

    /// One act of a window, 0 for a wait, at a moment, which becomes the clock: the answer is that of [`Table::step`] on the table that
    /// matches. A refusal leaves the deadline table as it was.
    pub fn step(&mut self, act: impl Into<u64>, window: u64, moment: u64) -> Result<Accepted, Refusal> {
        raw::step_deadlines(&mut self.numbers, act.into(), window, moment).accepted()
    }

    fn header(&self) -> Header<'_> {
        Header(&self.numbers)
    }

    /// The number of windows, n.
    pub fn windows(&self) -> u64 {
        self.header().windows()
    }

    /// Its limits, as those of [`Table::limits`].
    pub fn limits(&self) -> Limits {
        self.header().limits()
    }

    /// The a of a window of 1 to n.
    pub fn a(&self, window: u64) -> Option<u64> {
        self.header().a(window)
    }

    pub fn clock(&self) -> u64 {
        self.header().clock()
    }

    /// The shared word [2.50]: a window, or 0 where it is free.
    pub fn word(&self) -> u64 {
        self.header().word()
    }

    /// The place of a window of 1 to n, and its first and last moment if the place is timed.
    pub fn place(&self, window: u64) -> Option<(Place, Option<Moments>)> {
        let entry = self.header().entry(window, raw::DEADLINES_STRIDE)?;
        let place = Place::try_from(entry[0]).ok()?;
        Some((place, place.timed().then_some(Moments { first: entry[1], last: entry[2] })))
    }

    /// The numbers in the order of include/funnelfawn.h, to be stored, with [`raw::LAYOUT`](crate::raw::LAYOUT) beside them.
    pub fn numbers(&self) -> &[u64; raw::DEADLINES] {
        &self.numbers
    }

    /// A deadline table of stored numbers. Any will do, as each call judges them anew and may answer [`NoTable`](Refusal::NoTable): it does
    /// so too where the first and the last moment of a window are not those of one arrival, [12.35]. But those stored with another layout mean
    /// something else, and no call tells: [`raw::LAYOUT`](crate::raw::LAYOUT) has what to do.
    pub fn from_numbers(numbers: [u64; raw::DEADLINES]) -> DeadlineTable {
        layout::assert_same();
        DeadlineTable { numbers }
    }
}
