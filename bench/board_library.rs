//! The cases of boards.rs run through the C library. The calls are declared as the Rust package does.

mod boards;
#[allow(dead_code)]
mod cases;
#[allow(dead_code)]
#[path = "../clients/rust/src/ffi.rs"]
mod ffi;
#[allow(dead_code)]
#[path = "../clients/rust/src/raw.rs"]
mod raw;

use boards::Case;
use raw::{Answer, BOARD, BOARD_HEADER, BOARD_STRIDE, PLACES};

const LAST: usize = 1;
const KEPT: usize = 3;

fn board_of(case: &Case) -> [u64; BOARD] {
    let mut board = [0; BOARD];
    assert_eq!(raw::set_up_board(case.w, &mut board).number, 0);
    board[LAST..BOARD_HEADER].copy_from_slice(&[case.last(), case.first as u64, case.kept]);
    for (place, entry) in (case.first..).zip(case.entries()) {
        let start = BOARD_HEADER + BOARD_STRIDE * (place % PLACES);
        board[start..start + BOARD_STRIDE].copy_from_slice(&entry);
    }
    board
}

fn numbers(answer: Answer) -> [u64; 3] {
    [answer.number, answer.window, answer.moment]
}

fn main() {
    let case = boards::chosen_case();
    let mut lent = board_of(&case);
    let (sum, board) = boards::run(&case, &mut lent, |board, [moment, window, wait]| {
        if case.is_emptied {
            board[KEPT] = 0;
        }
        let answer = if case.adds {
            raw::add_to_board(board, moment, window, wait)
        } else {
            raw::show_board(board, moment)
        };
        (numbers(answer), board)
    });
    println!("{} {} {}", sum, board[LAST], board[KEPT]);
}
