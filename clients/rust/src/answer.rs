//! What an answer says: section 4 of docs/SPECIFICATION.md. Number 0 is an acceptance, 1 to 21 are refusals.

use crate::raw::{Answer, Comparison};
use std::fmt::{Display, Formatter, Result as Written};

/// The answer to an accepted act.
#[derive(Clone, Copy, Debug, PartialEq, Eq)]
pub struct Accepted {
    /// of the windows that sell after it, the one with the lowest number [4.60]
    pub selling: Option<u64>,
    pub clock: u64,
}

/// The answer of a board that accepts [10.50].
#[derive(Clone, Copy, Debug, PartialEq, Eq)]
pub struct Figures {
    /// how many entries count
    pub entries: u64,
    /// the longest wait among them, 0 where none counts; one that a [`Table`](crate::Table) told is in unused time, as in a
    /// [`Summary`](crate::Summary)
    pub longest_wait: u64,
}

/// Why nothing was done: [4.1] to [4.21] in their order, each with what the answer carries, but for the line with 11 and 12, which a
/// [`Fault`] has. A board that is not sound is a [`NoSummary`](Refusal::NoSummary), and for a board the clock of
/// [`Backward`](Refusal::Backward) is the last moment that it was told.
#[derive(Clone, Copy, Debug, PartialEq, Eq)]
pub enum Refusal {
    NoTable,
    NoSummary,
    SummaryFull,
    Backward { clock: u64 },
    EndOfClock,
    NoAct,
    NoWindow,
    Late { window: u64, latest: u64 },
    OutOfPlace { window: u64 },
    Early { window: u64, earliest: u64 },
    WindowCount,
    Limits,
    Names { line: u64 },
    Line { line: u64 },
    Length,
    ShortOutput,
    Width,
    BoardFull,
    Bounds,
    OtherActs,
    NoShift,
}

/// Why a recording has no spans, or no accepted acts of a window: the refusal, and the line of the recording that
/// [`replay`](crate::replay) names for it.
///
/// The line stands beside the refusal, as [`WindowCount`](Refusal::WindowCount) and [`Limits`](Refusal::Limits) carry none: they refuse
/// fresh tables too, which have no lines. [`Names`](Refusal::Names) and [`Line`](Refusal::Line) carry the same line as stands here. Who has
/// no use for it lets `?` turn a fault into its refusal.
#[derive(Clone, Copy, Debug, PartialEq, Eq)]
pub struct Fault {
    pub refusal: Refusal,
    /// nothing where the text is too long, or has no such window, which is the fault of no line
    pub line: Option<u64>,
}

impl Answer {
    /// The answer itself if its number is 0, else what its number says.
    pub fn result(self) -> Result<Answer, Refusal> {
        let Answer { number, window, moment } = self;
        Err(match number {
            0 => return Ok(self),
            1 => Refusal::NoTable,
            2 => Refusal::NoSummary,
            3 => Refusal::SummaryFull,
            4 => Refusal::Backward { clock: moment },
            5 => Refusal::EndOfClock,
            6 => Refusal::NoAct,
            7 => Refusal::NoWindow,
            8 => Refusal::Late { window, latest: moment },
            9 => Refusal::OutOfPlace { window },
            10 => Refusal::Early { window, earliest: moment },
            11 => Refusal::WindowCount,
            12 => Refusal::Limits,
            13 => Refusal::Names { line: moment },
            14 => Refusal::Line { line: moment },
            15 => Refusal::Length,
            16 => Refusal::ShortOutput,
            17 => Refusal::Width,
            18 => Refusal::BoardFull,
            19 => Refusal::Bounds,
            20 => Refusal::OtherActs,
            21 => Refusal::NoShift,
            _ => panic!("the library gives no answer with the number {number}"),
        })
    }

    /// The answer of spans and of accepted acts: how many bytes their text has, or how many there are; or why there are none, with the line
    /// that the answer carries.
    pub(crate) fn written(self) -> Result<usize, Fault> {
        let line = (self.moment != 0).then_some(self.moment);
        self.result().map(|answer| answer.moment as usize).map_err(|refusal| Fault { refusal, line })
    }

    /// The answer to an act.
    pub(crate) fn accepted(self) -> Result<Accepted, Refusal> {
        let Answer { window, moment, .. } = self.result()?;
        Ok(Accepted { selling: (window != 0).then_some(window), clock: moment })
    }

    /// The answer of a board.
    pub(crate) fn figures(self) -> Result<Figures, Refusal> {
        let Answer { window, moment, .. } = self.result()?;
        Ok(Figures { entries: window, longest_wait: moment })
    }
}

impl Comparison {
    /// The shift if its number is 0, else what its number says.
    pub fn result(self) -> Result<i64, Refusal> {
        let Comparison { number, window, shift } = self;
        Answer { number, window, moment: 0 }.result().map(|_| shift)
    }
}

impl Refusal {
    /// The number of the answer, which its clause has after the point.
    pub fn number(&self) -> u64 {
        match self {
            Refusal::NoTable => 1,
            Refusal::NoSummary => 2,
            Refusal::SummaryFull => 3,
            Refusal::Backward { .. } => 4,
            Refusal::EndOfClock => 5,
            Refusal::NoAct => 6,
            Refusal::NoWindow => 7,
            Refusal::Late { .. } => 8,
            Refusal::OutOfPlace { .. } => 9,
            Refusal::Early { .. } => 10,
            Refusal::WindowCount => 11,
            Refusal::Limits => 12,
            Refusal::Names { .. } => 13,
            Refusal::Line { .. } => 14,
            Refusal::Length => 15,
            Refusal::ShortOutput => 16,
            Refusal::Width => 17,
            Refusal::BoardFull => 18,
            Refusal::Bounds => 19,
            Refusal::OtherActs => 20,
            Refusal::NoShift => 21,
        }
    }
}

impl Display for Refusal {
    fn fmt(&self, to: &mut Formatter) -> Written {
        match self {
            Refusal::NoTable => write!(to, "the table is not sound"),
            Refusal::NoSummary => write!(to, "the summary, or the board, is not sound"),
            Refusal::SummaryFull => write!(to, "the summary is full"),
            Refusal::Backward { clock } => {
                write!(to, "the moment is before {clock}, the clock or the last moment told")
            }
            Refusal::EndOfClock => write!(to, "the moment is past the clock's end"),
            Refusal::NoAct => write!(to, "there is no such act"),
            Refusal::NoWindow => write!(to, "there is no such window, or the act wait names one"),
            Refusal::Late { window, latest } => write!(to, "window {window} has to act by {latest}"),
            Refusal::OutOfPlace { window } => write!(to, "window {window} is not where the act starts from"),
            Refusal::Early { window, earliest } => write!(to, "window {window} may check from {earliest} on"),
            Refusal::WindowCount => write!(to, "the number of windows is outside 1 to 96"),
            Refusal::Limits => write!(to, "the limits break 1 ≤ each a < b ≤ c ≤ 10,000,000"),
            Refusal::Names { line } => write!(to, "line {line} is not the names line that it should be"),
            Refusal::Line { line } => write!(to, "line {line} differs from its form"),
            Refusal::Length => write!(to, "the text is longer than 65,536 bytes"),
            Refusal::ShortOutput => write!(to, "a lent output is too short"),
            Refusal::Width => write!(to, "the W of a board is outside 1 to 1,000,000,000"),
            Refusal::BoardFull => write!(to, "1,024 entries of the board still count"),
            Refusal::Bounds => {
                write!(to, "d or e is above 1,000,000, or a noted moment is past the clock's end")
            }
            Refusal::OtherActs => write!(to, "the two notebooks have not the same acts"),
            Refusal::NoShift => write!(to, "no shift from -d to d brings all moments within e"),
        }
    }
}

impl std::error::Error for Refusal {}

impl Display for Fault {
    /// The words of the refusal; the line stands in front where they leave it out.
    fn fmt(&self, to: &mut Formatter) -> Written {
        match self {
            Fault { refusal: refusal @ (Refusal::WindowCount | Refusal::Limits), line: Some(line) } => {
                write!(to, "line {line}: {refusal}")
            }
            Fault { refusal, .. } => refusal.fmt(to),
        }
    }
}

impl std::error::Error for Fault {}

impl From<Fault> for Refusal {
    fn from(fault: Fault) -> Refusal {
        fault.refusal
    }
}
