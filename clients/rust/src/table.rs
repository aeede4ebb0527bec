//! The table of windows and its steps: sections 2 and 3 of docs/SPECIFICATION.md, which calls it a state and its windows processes.

use crate::answer::{Accepted, Refusal};
use crate::board::{Board, Told};
use crate::header::Header;
use crate::layout;
use crate::limits::Limits;
use crate::raw;
use crate::summary::Summary;

/// The places in the order of their numbers [2.70]; selling is what the specification calls critical.
#[derive(Clone, Copy, Debug, PartialEq, Eq, Hash)]
pub enum Place {
    Remainder,
    Testing,
    Setting,
    Checking,
    Entering,
    Selling,
    Resetting,
    Leaving,
}

impl Place {
    /// Each at the place of its number.
    pub const ALL: [Place; 8] = [
        Place::Remainder,
        Place::Testing,
        Place::Setting,
        Place::Checking,
        Place::Entering,
        Place::Selling,
        Place::Resetting,
        Place::Leaving,
    ];

    /// Whether a window has an arrival there: in all places but two [2.80].
    pub fn timed(self) -> bool {
        !matches!(self, Place::Remainder | Place::Selling)
    }
}

impl From<Place> for u64 {
    fn from(place: Place) -> u64 {
        place as u64
    }
}

impl TryFrom<u64> for Place {
    type Error = Refusal;

    /// Numbers with another place tell no table.
    fn try_from(number: u64) -> Result<Place, Refusal> {
        Place::ALL.into_iter().find(|&place| u64::from(place) == number).ok_or(Refusal::NoTable)
    }
}

/// A table of windows, as the numbers that the library keeps of it. It cannot be cloned: the lock holds for one copy, handed on.
#[derive(Debug, PartialEq, Eq)]
pub struct Table {
    numbers: [u64; raw::TABLE],
}

impl Table {
    /// A table of as many windows as the limits have values of a: all in remainder, at clock 0, with word 0. If they are refused there is no
    /// table.
    pub fn fresh(limits: &Limits) -> Result<Table, Refusal> {
        let mut table = Table::from_numbers([0; raw::TABLE]);
        raw::fresh(limits.windows(), limits.b, limits.c, &limits.a, &mut table.numbers).result()?;
        Ok(table)
    }

    /// One act of a window, 0 for a wait, at a moment, which becomes the clock. A refusal leaves the table as it was.
    pub fn step(&mut self, act: impl Into<u64>, window: u64, moment: u64) -> Result<Accepted, Refusal> {
        raw::step(&mut self.numbers, act.into(), window, moment).accepted()
    }

    /// The same, counted. Of the refusals [`NoTable`](Refusal::NoTable), [`NoSummary`](Refusal::NoSummary) and
    /// [`SummaryFull`](Refusal::SummaryFull) leave the summary as it was, the others raise its count of refused acts.
    pub fn record(
        &mut self,
        summary: &mut Summary,
        act: impl Into<u64>,
        window: u64,
        moment: u64,
    ) -> Result<Accepted, Refusal> {
        raw::record(&mut self.numbers, &mut summary.numbers, act.into(), window, moment).accepted()
    }

    /// The same, and the board is told of an accepted crit, with the wait that it ends in the summary. The step stands, whatever the board
    /// answers: a new board that only this call and showings tell refuses an entry with [`BoardFull`](Refusal::BoardFull), or with
    /// [`Backward`](Refusal::Backward) where it was shown at a later clock; one of stored numbers may answer
    /// [`NoSummary`](Refusal::NoSummary).
    ///
    /// ```
    /// use funnelfawn::{Act, Board, Figures, Limits, Refusal, Summary, Table};
    ///
    /// let mut table = Table::fresh(&Limits::equal(2, 5, 8, 12))?;
    /// let (mut summary, mut board) = (Summary::new(), Board::set_up(30)?);
    /// for (act, moment) in [(Act::Try, 0), (Act::Test, 1), (Act::Set, 2), (Act::Check, 10)] {
    ///     let told = table.record_and_tell(&mut summary, &mut board, act, 1, moment);
    ///     assert!(told.step.is_ok() && told.board.is_none());
    /// }
    /// let told = table.record_and_tell(&mut summary, &mut board, Act::Crit, 1, 12);
    /// assert_eq!(told.board, Some(Ok(Figures { entries: 1, longest_wait: 12 })));
    /// # Ok::<(), Refusal>(())
    /// ```
    pub fn record_and_tell(
        &mut self,
        summary: &mut Summary,
        board: &mut Board,
        act: impl Into<u64>,
        window: u64,
        moment: u64,
    ) -> Told {
        let (table, summary, board) = (&mut self.numbers, &mut summary.numbers, &mut board.numbers[..]);
        raw::record_and_tell(table, summary, board, act.into(), window, moment).into()
    }

    fn header(&self) -> Header<'_> {
        Header(&self.numbers)
    }

    /// The number of windows, n.
    pub fn windows(&self) -> u64 {
        self.header().windows()
    }

    /// Its limits, with an a for each window of 1 to n. Where the numbers tell no sound table and n is above 96 there are 96 of them.
    pub fn limits(&self) -> Limits {
        self.header().limits()
    }

    /// The a of a window of 1 to n.
    pub fn a(&self, window: u64) -> Option<u64> {
        self.header().a(window)
    }

    pub fn clock(&self) -> u64 {
        self.header().clock()
    }

    /// The shared word [2.50]: a window, or 0 where it is free.
    pub fn word(&self) -> u64 {
        self.header().word()
    }

    /// The place of a window of 1 to n, and its arrival if the place is timed.
    pub fn place(&self, window: u64) -> Option<(Place, Option<u64>)> {
        let entry = self.header().entry(window, raw::STRIDE)?;
        let place = Place::try_from(entry[0]).ok()?;
        Some((place, place.timed().then_some(entry[1])))
    }

    /// The numbers in the order of include/funnelfawn.h, to be stored, with [`raw::LAYOUT`](crate::raw::LAYOUT) beside them.
    pub fn numbers(&self) -> &[u64; raw::TABLE] {
        &self.numbers
    }

    /// A table of stored numbers. Any will do, as each call judges them anew and may answer [`NoTable`](Refusal::NoTable);
    /// but those stored with another layout mean something else, and no call tells: [`raw::LAYOUT`](crate::raw::LAYOUT) has what to do.
    pub fn from_numbers(numbers: [u64; raw::TABLE]) -> Table {
        layout::assert_same();
        Table { numbers }
    }
}
