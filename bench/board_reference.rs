//! The cases of boards.rs run through the board of the reference, by value as it is.

mod boards;
#[allow(dead_code)]
mod cases;

use boards::Case;
use reference::answer::Answer;
use reference::board::{set_up, Board, Entry};

fn board_of(case: &Case) -> Board {
    let (_, mut board) = set_up(case.w);
    board.last = case.last();
    board.kept.extend(case.entries().map(|[moment, window, wait]| Entry { moment, window, wait }));
    board
}

/// Calls, as those of the library are.
#[inline(never)]
fn added(board: Board, moment: u64, window: u64, wait: u64) -> (Answer, Board) {
    board.add(moment, window, wait)
}

#[inline(never)]
fn shown(board: Board, clock: u64) -> (Answer, Board) {
    board.show(clock)
}

fn main() {
    let case = boards::chosen_case();
    let (sum, board) = boards::run(&case, board_of(&case), |mut board, [moment, window, wait]| {
        if case.is_emptied {
            board.kept.clear();
        }
        let (answer, board) =
            if case.adds { added(board, moment, window, wait) } else { shown(board, moment) };
        ([answer.number, answer.window, answer.moment], board)
    });
    println!("{} {} {}", sum, board.last, board.kept.len());
}
