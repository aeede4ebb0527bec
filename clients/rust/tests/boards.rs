//! The foyer board: what counts, its ring, and the acts that tell it.

use funnelfawn::Act::*;
use funnelfawn::{raw, Accepted, Act, Board, Figures, Limits, Place, Refusal, Summary, Table};

const PLACES: u64 = raw::PLACES as u64;

fn figures(entries: u64, longest_wait: u64) -> Result<Figures, Refusal> {
    Ok(Figures { entries, longest_wait })
}

#[test]
fn what_counts() {
    let mut board = Board::set_up(10).unwrap();
    assert_eq!((board.width(), board.last_told()), (10, 0));
    assert_eq!(board.show(0), figures(0, 0));
    assert_eq!(board.add(0, 1, u64::MAX), figures(1, u64::MAX));
    assert_eq!(board.add(5, 96, 7), figures(2, u64::MAX));
    assert_eq!(board.show(9), figures(2, u64::MAX));
    assert_eq!(board.show(10), figures(1, 7));
    assert_eq!(board.show(14), figures(1, 7));
    assert_eq!(board.show(15), figures(0, 0));
    assert_eq!((board.width(), board.last_told()), (10, 15));
}

#[test]
fn the_widest_and_the_narrowest() {
    let mut narrow = Board::set_up(1).unwrap();
    assert_eq!(narrow.add(7, 1, 3), figures(1, 3));
    assert_eq!(narrow.add(7, 1, 2), figures(2, 3));
    assert_eq!(narrow.add(8, 1, 0), figures(1, 0));
    let mut wide = Board::set_up(1_000_000_000).unwrap();
    assert_eq!(wide.add(0, 1, 3), figures(1, 3));
    assert_eq!(wide.show(999_999_999), figures(1, 3));
    assert_eq!(wide.show(1_000_000_000), figures(0, 0));
}

/// Each entry after the 1,024th takes the place of one that has expired by then.
#[test]
fn the_ring_goes_round() {
    let mut board = Board::set_up(PLACES).unwrap();
    for moment in 0..3 * PLACES {
        assert_eq!(
            board.add(moment, 1, 3 * PLACES - moment),
            figures((moment + 1).min(PLACES), longest(moment))
        );
    }
    assert_eq!(board.show(4 * PLACES - 2), figures(1, 1));
}

/// The waits fall, so the longest is that of the oldest entry that counts.
fn longest(moment: u64) -> u64 {
    3 * PLACES - (moment + 1).saturating_sub(PLACES)
}

#[test]
fn a_board_is_stored_and_read_back() {
    let mut board = Board::set_up(10).unwrap();
    board.add(5, 2, 3).unwrap();
    let mut again = Board::from_numbers(*board.numbers());
    assert_eq!(again, board);
    assert_eq!(again.show(14), figures(1, 3));
    assert_eq!(again.numbers()[..7], [10, 14, 0, 1, 5, 2, 3]);
}

struct Sale {
    table: Table,
    summary: Summary,
    board: Board,
}

impl Sale {
    /// Of two windows, on a board of the last w.
    fn new(w: u64) -> Sale {
        let table = Table::fresh(&Limits::equal(2, 5, 8, 12)).unwrap();
        Sale { table, summary: Summary::new(), board: Board::set_up(w).unwrap() }
    }

    /// What an accepted act tells the board.
    fn accept(&mut self, act: Act, window: u64, moment: u64) -> Option<Result<Figures, Refusal>> {
        let told = self.table.record_and_tell(&mut self.summary, &mut self.board, act, window, moment);
        assert!(told.step.is_ok());
        told.board
    }

    /// Acts of a window of which the board is not told.
    fn untold(&mut self, window: u64, acts: &[(Act, u64)]) {
        for &(act, moment) in acts {
            assert_eq!(self.accept(act, window, moment), None);
        }
    }

    /// The acts of a window from its try to the check that lets it in.
    fn to_entering(&mut self, window: u64, tried: u64) {
        self.untold(window, &[(Try, tried), (Test, tried + 1), (Set, tried + 2), (Check, tried + 10)]);
    }
}

#[test]
fn acts_that_tell_a_board() {
    let mut sale = Sale::new(30);
    sale.to_entering(1, 0);
    assert_eq!(sale.accept(Crit, 1, 12), Some(figures(1, 12)));
    sale.untold(1, &[(Exit, 13), (Reset, 14), (Rem, 15), (Try, 15), (Withdraw, 15)]);
    sale.to_entering(2, 15);
    // a crit that is refused, and one at which the board has been shown at a later clock
    let refused = sale.table.record_and_tell(&mut sale.summary, &mut sale.board, Crit, 1, 26);
    assert_eq!((refused.step, refused.board), (Err(Refusal::OutOfPlace { window: 1 }), None));
    sale.board.show(27).unwrap();
    let told = sale.table.record_and_tell(&mut sale.summary, &mut sale.board, Crit, 2, 26);
    assert_eq!(told.step, Ok(Accepted { selling: Some(2), clock: 26 }));
    assert_eq!(told.board, Some(Err(Refusal::Backward { clock: 27 })));
    assert_eq!((sale.summary.entries(), sale.board.show(27)), (2, figures(1, 12)));
}

/// The table under "The foyer board" in docs/guide/waits.md, row by row, with the acts that it leaves out.
#[test]
fn the_readme_s_board() {
    let answer = raw::set_up_board(60, &mut [0; raw::BOARD]);
    assert_eq!(answer, raw::Answer { number: 0, window: 0, moment: 0 });
    let mut sale = Sale::new(60);
    sale.untold(2, &[(Try, 3), (Test, 4), (Set, 8)]);
    sale.untold(1, &[(Try, 16)]);
    sale.untold(2, &[(Check, 18)]);
    assert_eq!(sale.accept(Crit, 2, 20), Some(figures(1, 17)));
    // the word is window 2's until it resets it
    sale.untold(1, &[(Test, 21), (Test, 26)]);
    sale.untold(2, &[(Exit, 27), (Reset, 31)]);
    sale.untold(1, &[(Test, 31)]);
    sale.untold(2, &[(Rem, 32)]);
    sale.untold(1, &[(Set, 36), (Check, 46)]);
    // window 2 sold from 20 to 27, so that of 50 - 16 these 7 are no part of the wait
    assert_eq!(sale.accept(Crit, 1, 50), Some(figures(2, 27)));
    sale.untold(1, &[(Exit, 52), (Reset, 54), (Rem, 56)]);
    sale.to_entering(2, 65);
    assert_eq!(sale.board.show(79), figures(2, 27));
    assert_eq!(sale.board.show(80), figures(1, 27));
    assert_eq!(sale.accept(Crit, 2, 79), Some(Err(Refusal::Backward { clock: 80 })));
    assert_eq!(sale.table.place(2), Some((Place::Selling, None)));
    assert_eq!(sale.board.show(110), figures(0, 0));
    assert_eq!(sale.summary.entries(), 3);
}
