//! The functions of the library for C, one by one, on slices of any length. include/funnelfawn.h says what each gives back.
//!
//! They are safe: what the header asks of a caller (aligned pointers to as many elements as are told, lists that do not overlap
//! unless they are only read, nobody else at them during the call) is what a slice is, and the library is proved to keep within it.

use crate::ffi::*;

/// The layout of the lists below, of tables of both kinds, summaries and boards, as one number: whoever lends lists of his own to the
/// functions here compares it with [`layout`] once. [`Table`](crate::Table), [`DeadlineTable`](crate::DeadlineTable),
/// [`Summary`](crate::Summary) and [`Board`](crate::Board) do it themselves.
///
/// Whoever stores numbers stores this number beside them, as no call tells by what layout they were stored: they may be sound by another one
/// too, and mean something else. docs/CHANGES.md of the repository says what changed from layout to layout, and what to do with numbers that
/// were stored. Those of a table that were stored with layout 2, which has one a for all windows, are laid out anew:
///
/// ```
/// use funnelfawn::raw::{TABLE, WINDOWS};
/// use funnelfawn::{Act, Limits, Refusal, Table};
///
/// /// Of a table, 198 numbers; so it is with a deadline table, of 294.
/// fn laid_out_anew(stored: &[u64; 198]) -> [u64; TABLE] {
///     let &[n, a, b, c, clock, word, ref entries @ ..] = stored;
///     let mut values = [0; WINDOWS];
///     values[..n as usize].fill(a);
///     [&[n, b, c, clock, word][..], &values, entries].concat().try_into().expect("a table")
/// }
///
/// // two windows with the limits 5, 8 and 12, of which the first came to testing at 3
/// let mut stored = [0; 198];
/// stored[..8].copy_from_slice(&[2, 5, 8, 12, 3, 0, 1, 3]);
/// let mut table = Table::fresh(&Limits::equal(2, 5, 8, 12))?;
/// table.step(Act::Try, 1, 3)?;
/// assert_eq!(Table::from_numbers(laid_out_anew(&stored)), table);
/// # Ok::<(), Refusal>(())
/// ```
pub const LAYOUT: u64 = 3;
/// The entries of every table, whatever its n, and its values of a.
pub const WINDOWS: usize = 96;
/// Where a table of either kind has n.
pub const AT_N: usize = 0;
/// Where it has b.
pub const AT_B: usize = 1;
/// Where it has c.
pub const AT_C: usize = 2;
/// Where it has the clock.
pub const AT_CLOCK: usize = 3;
/// Where it has the word.
pub const AT_WORD: usize = 4;
/// Where it has the a of window 1; those of the others follow, and are 0 above n.
pub const AT_LIMITS: usize = 5;
/// The numbers of a table before its entries.
pub const HEADER: usize = AT_LIMITS + WINDOWS;
/// The numbers of an entry: place, arrival.
pub const STRIDE: usize = 2;
/// The numbers of a table.
pub const TABLE: usize = HEADER + STRIDE * WINDOWS;
/// The numbers of an entry of a deadline table, which begins as a table does: place, first moment, last moment.
pub const DEADLINES_STRIDE: usize = 3;
/// The numbers of a deadline table.
pub const DEADLINES: usize = HEADER + DEADLINES_STRIDE * WINDOWS;
/// The numbers of a summary before what each window has waited so far: accepted, refused, entries, exits, the longest wait.
pub const WAITED: usize = 5;
/// The numbers of a summary.
pub const SUMMARY: usize = WAITED + WINDOWS;
/// The numbers of a board before its places: W, the last moment told, the place of the first kept entry, how many are kept.
pub const BOARD_HEADER: usize = 4;
/// The numbers of a place of a board: moment, window, wait.
pub const BOARD_STRIDE: usize = 3;
/// The places of a board, a ring: place 0 comes after the last.
pub const PLACES: usize = 1_024;
/// The numbers of a board.
pub const BOARD: usize = BOARD_HEADER + BOARD_STRIDE * PLACES;
/// The bytes of the longest recording.
pub const MOST_TEXT: usize = 65_536;
/// The steps that a recording holds at most.
pub const MOST_STEPS: usize = 8_187;
/// The bytes that always suffice for what `replay` prints.
pub const MOST_REPORT: usize = 687_734;
/// What the d and the e of a comparison may be at most.
pub const MOST_SHIFT: u64 = 1_000_000;

/// An answer, [4.50]: window and moment are 0 where it carries none.
#[repr(C)]
#[derive(Clone, Copy, Debug, PartialEq, Eq)]
pub struct Answer {
    pub number: u64,
    pub window: u64,
    pub moment: u64,
}

/// The answers of a recorded step and of the board beside it.
#[repr(C)]
#[derive(Clone, Copy, Debug, PartialEq, Eq)]
pub struct Told {
    pub step: Answer,
    pub board: Answer,
}

/// A reading's answer, and n, b and c, which are 0 where it is refused.
#[repr(C)]
#[derive(Clone, Copy, Debug, PartialEq, Eq)]
pub struct Reading {
    pub answer: Answer,
    pub n: u64,
    pub b: u64,
    pub c: u64,
}

/// What a comparison answers, [13.60]: the window is always 0, and so is the shift where the number is not 0.
#[repr(C)]
#[derive(Clone, Copy, Debug, PartialEq, Eq)]
pub struct Comparison {
    pub number: u64,
    pub window: u64,
    pub shift: i64,
}

/// The layout of the archive.
pub fn layout() -> u64 {
    unsafe { funnelfawn_layout() }
}

/// Of the list `a` the first [`WINDOWS`] numbers are looked at, and 0 stands for those that it has not; above n nothing but 0 may stand there.
/// So n numbers are enough. [`Table::fresh`](crate::Table::fresh) sees to it.
///
/// Look at the answer before stepping on the list: refused, it is as it was, and one that held an older table holds that table still,
/// sound if it was sound. [`Table::fresh`](crate::Table::fresh) gives no table then.
pub fn fresh(n: u64, b: u64, c: u64, a: &[u64], table: &mut [u64]) -> Answer {
    unsafe { funnelfawn_fresh(n, b, c, a.as_ptr(), a.len(), table.as_mut_ptr(), table.len()) }
}

pub fn step(table: &mut [u64], act: u64, window: u64, moment: u64) -> Answer {
    unsafe { funnelfawn_step(table.as_mut_ptr(), table.len(), act, window, moment) }
}

pub fn new_summary(summary: &mut [u64]) -> Answer {
    unsafe { funnelfawn_new_summary(summary.as_mut_ptr(), summary.len()) }
}

pub fn record(table: &mut [u64], summary: &mut [u64], act: u64, window: u64, moment: u64) -> Answer {
    unsafe {
        funnelfawn_record(
            table.as_mut_ptr(),
            table.len(),
            summary.as_mut_ptr(),
            summary.len(),
            act,
            window,
            moment,
        )
    }
}

/// Look at the answer: with 17 the list holds a board that no call accepts, and a list that is too short is as it was.
/// [`Board::set_up`](crate::Board::set_up) gives no board then.
pub fn set_up_board(w: u64, board: &mut [u64]) -> Answer {
    unsafe { funnelfawn_set_up_board(w, board.as_mut_ptr(), board.len()) }
}

pub fn add_to_board(board: &mut [u64], moment: u64, window: u64, wait: u64) -> Answer {
    unsafe { funnelfawn_add_to_board(board.as_mut_ptr(), board.len(), moment, window, wait) }
}

pub fn show_board(board: &mut [u64], clock: u64) -> Answer {
    unsafe { funnelfawn_show_board(board.as_mut_ptr(), board.len(), clock) }
}

#[rustfmt::skip]
pub fn record_and_tell(
    table: &mut [u64], summary: &mut [u64], board: &mut [u64], act: u64, window: u64, moment: u64,
) -> Told {
    unsafe {
        funnelfawn_record_and_tell(
            table.as_mut_ptr(), table.len(), summary.as_mut_ptr(), summary.len(), board.as_mut_ptr(), board.len(),
            act, window, moment,
        )
    }
}

/// As [`fresh`]: refused, the list is as it was.
pub fn fresh_deadlines(n: u64, b: u64, c: u64, a: &[u64], deadlines: &mut [u64]) -> Answer {
    unsafe {
        funnelfawn_fresh_deadlines(n, b, c, a.as_ptr(), a.len(), deadlines.as_mut_ptr(), deadlines.len())
    }
}

pub fn step_deadlines(deadlines: &mut [u64], act: u64, window: u64, moment: u64) -> Answer {
    unsafe { funnelfawn_step_deadlines(deadlines.as_mut_ptr(), deadlines.len(), act, window, moment) }
}

/// The table stays as it is; refused, so does the other list.
pub fn to_deadlines(table: &[u64], deadlines: &mut [u64]) -> Answer {
    unsafe { funnelfawn_to_deadlines(table.as_ptr(), table.len(), deadlines.as_mut_ptr(), deadlines.len()) }
}

/// The other way.
pub fn to_arrivals(deadlines: &[u64], table: &mut [u64]) -> Answer {
    unsafe { funnelfawn_to_arrivals(deadlines.as_ptr(), deadlines.len(), table.as_mut_ptr(), table.len()) }
}

/// All [`WINDOWS`] values of a go to the list `a`, with 0 above n: so it can be handed to [`fresh`] and [`write()`] as it is, [9.105]. With fewer
/// places there it is refused with 16, whatever n is.
#[rustfmt::skip]
pub fn read(text: &[u8], a: &mut [u64], moments: &mut [u64], windows: &mut [u64], acts: &mut [u64]) -> Reading {
    unsafe {
        funnelfawn_read(
            text.as_ptr(), text.len(), a.as_mut_ptr(), a.len(),
            moments.as_mut_ptr(), moments.len(), windows.as_mut_ptr(), windows.len(), acts.as_mut_ptr(), acts.len(),
        )
    }
}

/// The values are n, b, c; the list `a` is as [`fresh`] has it.
#[rustfmt::skip]
pub fn write(values: [u64; 3], a: &[u64], moments: &[u64], windows: &[u64], acts: &[u64], out: &mut [u8]) -> Answer {
    let [n, b, c] = values;
    unsafe {
        funnelfawn_write(
            n, b, c, a.as_ptr(), a.len(),
            moments.as_ptr(), moments.len(), windows.as_ptr(), windows.len(), acts.as_ptr(), acts.len(),
            out.as_mut_ptr(), out.len(),
        )
    }
}

pub fn replay(text: &[u8], out: &mut [u8]) -> Answer {
    unsafe { funnelfawn_replay(text.as_ptr(), text.len(), out.as_mut_ptr(), out.len()) }
}

/// As many bytes as the text has always suffice. A fault has its line for a moment, with 11 and 12 too, whose [`Refusal`](crate::Refusal)
/// has none; [`spans_text`](crate::spans_text) keeps it.
pub fn spans(text: &[u8], out: &mut [u8]) -> Answer {
    unsafe { funnelfawn_spans(text.as_ptr(), text.len(), out.as_mut_ptr(), out.len()) }
}

/// [`MOST_STEPS`] places in each of the two lists always suffice. A fault has its line for a moment, as with [`spans`].
pub fn accepted_acts(text: &[u8], window: u64, moments: &mut [u64], acts: &mut [u64]) -> Answer {
    unsafe {
        funnelfawn_accepted_acts(
            text.as_ptr(),
            text.len(),
            window,
            moments.as_mut_ptr(),
            moments.len(),
            acts.as_mut_ptr(),
            acts.len(),
        )
    }
}

/// Of the two lists of a notebook the shorter one sets its length, and what stands in the longer one past that does not count.
#[rustfmt::skip]
pub fn compare_logs(
    till_moments: &[u64], till_acts: &[u64], box_moments: &[u64], box_acts: &[u64], d: u64, e: u64,
) -> Comparison {
    unsafe {
        funnelfawn_compare_logs(
            till_moments.as_ptr(), till_moments.len(), till_acts.as_ptr(), till_acts.len(),
            box_moments.as_ptr(), box_moments.len(), box_acts.as_ptr(), box_acts.len(), d, e,
        )
    }
}
