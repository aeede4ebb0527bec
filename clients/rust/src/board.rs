//! The foyer board: section 10 of docs/SPECIFICATION.md. It tells how many windows were let in during the last W microseconds, and the
//! longest wait among them.

use crate::answer::{Accepted, Figures, Refusal};
use crate::layout;
use crate::raw;

/// A board, as the numbers that the library keeps of it. [`Table::record_and_tell`](crate::Table::record_and_tell) tells it of each entry;
/// [`add`](Board::add) is for who has entries from elsewhere.
///
/// ```
/// use funnelfawn::{Board, Figures, Refusal};
///
/// let mut board = Board::set_up(30)?;
/// assert_eq!(board.add(12, 1, 12)?, Figures { entries: 1, longest_wait: 12 });
/// assert_eq!(board.add(28, 2, 9)?, Figures { entries: 2, longest_wait: 12 });
/// // at 42 the entry of 12 has expired
/// assert_eq!(board.show(42)?, Figures { entries: 1, longest_wait: 9 });
/// assert_eq!(board.add(41, 1, 3), Err(Refusal::Backward { clock: 42 }));
/// # Ok::<(), Refusal>(())
/// ```
#[derive(Clone, Debug, PartialEq, Eq)]
pub struct Board {
    // 24 KB, so that handing a board over does not copy them
    pub(crate) numbers: Box<[u64; raw::BOARD]>,
}

impl Board {
    /// A board of the last w microseconds, from 1 to 1,000,000,000: without an entry, and told the moment 0. If w is refused there is no
    /// board.
    pub fn set_up(w: u64) -> Result<Board, Refusal> {
        let mut board = Board::from_numbers([0; raw::BOARD]);
        raw::set_up_board(w, &mut board.numbers[..]).result()?;
        Ok(board)
    }

    /// An entry more, and the figures with it. What has expired at its moment gives up its place first; a refusal leaves the board as it
    /// was.
    pub fn add(&mut self, moment: u64, window: u64, wait: u64) -> Result<Figures, Refusal> {
        raw::add_to_board(&mut self.numbers[..], moment, window, wait).figures()
    }

    /// The figures at a clock, which becomes the last moment told: the board takes no entry before it from then on. So show at the table's
    /// clock; to look further ahead, show a clone: `board.clone().show(now)`.
    pub fn show(&mut self, clock: u64) -> Result<Figures, Refusal> {
        raw::show_board(&mut self.numbers[..], clock).figures()
    }

    /// W.
    pub fn width(&self) -> u64 {
        self.numbers[0]
    }

    /// The moment of the last entry that was accepted, or of the last showing if that was later.
    pub fn last_told(&self) -> u64 {
        self.numbers[1]
    }

    /// The numbers in the order of include/funnelfawn.h, to be stored, with [`raw::LAYOUT`](crate::raw::LAYOUT) beside them.
    pub fn numbers(&self) -> &[u64; raw::BOARD] {
        &self.numbers
    }

    /// A board of stored numbers. Any will do, as each call judges them anew and may answer [`NoSummary`](Refusal::NoSummary);
    /// but those stored with another layout may mean something else, and no call tells: see [`raw::LAYOUT`](crate::raw::LAYOUT).
    pub fn from_numbers(numbers: [u64; raw::BOARD]) -> Board {
        layout::assert_same();
        Board { numbers: Box::new(numbers) }
    }
}

/// What came of an act that tells a board.
#[derive(Clone, Copy, Debug, PartialEq, Eq)]
pub struct Told {
    pub step: Result<Accepted, Refusal>,
    /// nothing where the act was not an accepted crit, and the board was left alone
    pub board: Option<Result<Figures, Refusal>>,
}

impl From<raw::Told> for Told {
    /// A board that was told of an entry and accepts it counts that one at least [10.205].
    fn from(told: raw::Told) -> Told {
        let figures = told.board.figures();
        let alone = figures == Ok(Figures { entries: 0, longest_wait: 0 });
        Told { step: told.step.accepted(), board: (!alone).then_some(figures) }
    }
}
