//! What the functions of include/funnelfawn.h have to give back and leave in the lent lists, worked out from the reference.

use crate::encoding::*;
use funnelfawn::raw::{BOARD, BOARD_HEADER, DEADLINES, SUMMARY, TABLE};
use reference::answer::*;
use reference::board::{self, Board, Told};
use reference::deadline::{self, deadline_fresh, deadline_step};
use reference::machine::{self, Table, Values};
use reference::replay;
use reference::summary::{recorded_step, Summary};

/// 11 and 12 come first, as the table is only an output.
pub fn fresh(values: Values, table: &mut [u64]) -> Answer {
    let (answer, made) = machine::fresh(values);
    if answer.number != ACCEPTED {
        return answer;
    }
    if table.len() < TABLE {
        return bare(SHORT_OUTPUT);
    }
    store_table(&made, table);
    answer
}

pub fn step(table: &mut [u64], act: u64, window: u64, moment: u64) -> Answer {
    let Some(told) = table_in(table) else { return bare(NO_TABLE) };
    let (answer, after) = machine::step(told, act, window, moment);
    store_table(&after, table);
    answer
}

pub fn new_summary(summary: &mut [u64]) -> Answer {
    if summary.len() < SUMMARY {
        return bare(SHORT_OUTPUT);
    }
    store_summary(&Summary::new(), summary);
    bare(ACCEPTED)
}

/// A table that is not sound comes before a summary that is too short.
pub fn record(table: &mut [u64], summary: &mut [u64], act: u64, window: u64, moment: u64) -> Answer {
    let Some(told) = table_in(table).filter(Table::sound) else { return bare(NO_TABLE) };
    let Some(mut counted) = summary_in(summary) else { return bare(NO_SUMMARY) };
    let (answer, after) = recorded_step(told, &mut counted, act, window, moment);
    store_table(&after, table);
    store_summary(&counted, summary);
    answer
}

/// Nothing but the first four numbers is written, and with 17 too. The board is only an output: 16 comes last.
pub fn set_up_board(w: u64, numbers: &mut [u64]) -> Answer {
    let (answer, Board { w, last, .. }) = board::set_up(w);
    if numbers.len() >= BOARD {
        numbers[..BOARD_HEADER].copy_from_slice(&[w, last, 0, 0]);
        return answer;
    }
    if answer.number == ACCEPTED {
        bare(SHORT_OUTPUT)
    } else {
        answer
    }
}

pub fn add_to_board(numbers: &mut [u64], [moment, window, wait]: [u64; 3]) -> Answer {
    let Some(board) = board_in(numbers) else { return bare(NO_SUMMARY) };
    let (answer, board) = board.add(moment, window, wait);
    keep(&board, answer, true, numbers);
    answer
}

pub fn show_board(numbers: &mut [u64], clock: u64) -> Answer {
    let Some(board) = board_in(numbers) else { return bare(NO_SUMMARY) };
    let (answer, board) = board.show(clock);
    keep(&board, answer, false, numbers);
    answer
}

/// Brings the numbers up to date if the call was accepted; they tell the board that it left, be it accepted or refused.
fn keep(board: &Board, answer: Answer, adds: bool, numbers: &mut [u64]) {
    if answer.number == ACCEPTED {
        store_told(board, adds, numbers);
    }
    assert_eq!(board_in(numbers).as_ref(), Some(board));
}

/// The board is looked at only where a crit is accepted, whose entry an accepting board counts.
pub fn record_and_tell(
    table: &mut [u64],
    summary: &mut [u64],
    numbers: &mut [u64],
    [act, window, moment]: [u64; 3],
) -> Told {
    let alone = |number| Told { step: bare(number), board: bare(ACCEPTED) };
    let Some(told) = table_in(table).filter(Table::sound) else { return alone(NO_TABLE) };
    let Some(mut counted) = summary_in(summary) else { return alone(NO_SUMMARY) };
    // numbers that tell no board are refused as those of one that is not sound
    let found = board_in(numbers);
    let is_board = found.is_some();
    let board = found.unwrap_or_else(|| board::set_up(0).1);
    let (answers, after, board) = board::record_and_tell(told, &mut counted, board, act, window, moment);
    store_table(&after, table);
    store_summary(&counted, summary);
    if answers.board != bare(ACCEPTED) && is_board {
        keep(&board, answers.board, true, numbers);
    }
    answers
}

/// As with `fresh`, 11 and 12 come first.
pub fn fresh_deadlines(values: Values, deadlines: &mut [u64]) -> Answer {
    let (answer, made) = deadline_fresh(values);
    if answer.number != ACCEPTED {
        return answer;
    }
    if deadlines.len() < DEADLINES {
        return bare(SHORT_OUTPUT);
    }
    store_deadlines(&made, deadlines);
    answer
}

pub fn step_deadlines(deadlines: &mut [u64], [act, window, moment]: [u64; 3]) -> Answer {
    let Some(told) = deadlines_in(deadlines) else { return bare(NO_TABLE) };
    let (answer, after) = deadline_step(told, act, window, moment);
    store_deadlines(&after, deadlines);
    answer
}

/// A table that is not sound comes before a list that is too short for the other.
pub fn to_deadlines(table: &[u64], deadlines: &mut [u64]) -> Answer {
    let Some(told) = table_in(table) else { return bare(NO_TABLE) };
    let (answer, matching) = deadline::to_deadlines(&told);
    if answer.number != ACCEPTED {
        return answer;
    }
    if deadlines.len() < DEADLINES {
        return bare(SHORT_OUTPUT);
    }
    store_deadlines(&matching, deadlines);
    answer
}

/// The same the other way.
pub fn to_arrivals(deadlines: &[u64], table: &mut [u64]) -> Answer {
    let Some(told) = deadlines_in(deadlines) else { return bare(NO_TABLE) };
    let (answer, matching) = deadline::to_arrivals(&told);
    if answer.number != ACCEPTED {
        return answer;
    }
    if table.len() < TABLE {
        return bare(SHORT_OUTPUT);
    }
    store_table(&matching, table);
    answer
}

pub fn replay(text: &[u8], out: &mut [u8]) -> Answer {
    let report = replay::replay(text);
    if out.len() < report.len() {
        return bare(SHORT_OUTPUT);
    }
    out[..report.len()].copy_from_slice(report.as_bytes());
    answer(ACCEPTED, 0, report.len() as u64)
}
