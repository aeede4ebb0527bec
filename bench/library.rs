//! The cases run through the C library; with `--cfg recorded` through its recorded step, with `--cfg told` through that which tells a board,
//! with `--cfg deadlines` through the step of the second engine.
//! The calls are declared as the Rust package does.

mod cases;
#[allow(dead_code)]
#[path = "../clients/rust/src/ffi.rs"]
mod ffi;
#[allow(dead_code)]
#[path = "../clients/rust/src/raw.rs"]
mod raw;
mod tables;

use raw::{Answer, AT_CLOCK};
#[cfg(not(deadlines))]
use tables::table_of;

fn numbers(answer: Answer) -> [u64; 3] {
    [answer.number, answer.window, answer.moment]
}

#[cfg(deadlines)]
fn main() {
    let case = cases::chosen();
    let mut deadlines = tables::deadlines_of(case);
    let sum = cases::run(case, |[act, window, moment]| numbers(raw::step_deadlines(&mut deadlines, act, window, moment)));
    println!("{} {}", sum, deadlines[AT_CLOCK]);
}

#[cfg(not(any(recorded, told, deadlines)))]
fn main() {
    let case = cases::chosen();
    let mut table = table_of(case);
    let sum = cases::run(case, |[act, window, moment]| numbers(raw::step(&mut table, act, window, moment)));
    println!("{} {}", sum, table[AT_CLOCK]);
}

#[cfg(recorded)]
fn summary_of(case: u64) -> [u64; raw::SUMMARY] {
    let mut summary = [0; raw::SUMMARY];
    for (window, waited) in (1..).zip(&mut summary[raw::WAITED..]) {
        *waited = cases::waited_of(case, window);
    }
    summary
}

/// Prints the four counts and the longest wait too: they show that the acts were counted.
#[cfg(recorded)]
fn main() {
    let case = cases::chosen();
    let (mut table, mut summary) = (table_of(case), summary_of(case));
    let sum = cases::run(case, |[act, window, moment]| {
        numbers(raw::record(&mut table, &mut summary, act, window, moment))
    });
    println!("{} {} {:?}", sum, table[AT_CLOCK], &summary[..raw::WAITED]);
}

/// Accepted crits, a microsecond after one another, of which the board keeps 100.
#[cfg(told)]
fn main() {
    use raw::HEADER;
    const ENTERING: u64 = 4;
    let case = cases::chosen();
    let (mut table, mut summary, mut board) = (table_of(case), [0u64; raw::SUMMARY], [0u64; raw::BOARD]);
    assert_eq!(raw::set_up_board(100, &mut board).number, 0);
    let sum = cases::run(case, |[act, window, moment]| {
        (table[HEADER], table[HEADER + 1]) = (ENTERING, table[AT_CLOCK]);
        let told = raw::record_and_tell(&mut table, &mut summary, &mut board, act, window, moment);
        let (step, board) = (numbers(told.step), numbers(told.board));
        [step[0] + board[0], step[1] + board[1], step[2] + board[2]]
    });
    println!("{} {} {:?}", sum, table[AT_CLOCK], &summary[..raw::WAITED]);
}
