//! Waits: what is unused time and whose, which numbers a summary may hold of it, and what they say beside the bound 2c + 5a.

use funnelfawn::Act::*;
use funnelfawn::{raw, read, Act, Board, Limits, Refusal, Step, Summary, Table};

const INPUT: &[u8] = include_bytes!("../../c/waits.csv");

/// What is kept of a sale of two windows.
struct Sale {
    table: Table,
    summary: Summary,
    board: Board,
}

impl Sale {
    fn new(a: u64, b: u64, c: u64) -> Sale {
        let table = Table::fresh(&Limits::equal(2, a, b, c)).unwrap();
        Sale { table, summary: Summary::new(), board: Board::set_up(1_000_000_000).unwrap() }
    }

    /// An accepted act; and the longest wait that the board then knows, if it was told.
    fn accept(&mut self, act: impl Into<u64>, window: u64, moment: u64) -> Option<u64> {
        let told = self.table.record_and_tell(&mut self.summary, &mut self.board, act, window, moment);
        assert!(told.step.is_ok());
        told.board.map(|figures| figures.unwrap().longest_wait)
    }

    /// Acts of a window, all at one moment, none of which tells the board.
    fn at(&mut self, moment: u64, window: u64, acts: &[Act]) {
        for &act in acts {
            assert_eq!(self.accept(act, window, moment), None);
        }
    }

    fn waited(&self) -> [u64; 2] {
        [1, 2].map(|window| self.summary.waited(window).unwrap())
    }
}

/// The second one, of 9, leaves the longest.
#[test]
fn a_wait_grows_until_the_entry() {
    let mut table = Table::fresh(&Limits::equal(1, 5, 8, 12)).unwrap();
    let mut summary = Summary::new();
    let first = [(7, Try, 0), (8, Test, 1), (9, Set, 2), (17, Check, 10), (18, Crit, 0), (19, Exit, 0)];
    let second = [
        (20, Reset, 0),
        (21, Rem, 0),
        (22, Try, 0),
        (22, Test, 0),
        (22, Set, 0),
        (30, Check, 8),
        (31, Crit, 0),
    ];
    for (moment, act, waited) in first.into_iter().chain(second) {
        assert!(table.record(&mut summary, act, 1, moment).is_ok());
        assert_eq!(summary.waited(1), Some(waited));
    }
    assert_eq!((summary.entries(), summary.exits(), summary.longest_wait()), (2, 1, 11));
}

/// The sale under "The longest wait" in docs/guide/waits.md: window 2 tries at 100 and is let in at 1,000, and from 150 to 900 window 1 sells.
#[test]
fn the_readme_s_wait() {
    let recording = read(INPUT).unwrap();
    assert_eq!(recording.limits, Limits::equal(2, 80, 90, 100));
    let mut sale = Sale::new(80, 90, 100);
    let mut entries = Vec::new();
    for Step { moment, window, act } in recording.steps {
        if let Some(longest) = sale.accept(act, window, moment) {
            entries.push((window, moment, longest, sale.waited()));
        }
        if window == 2 && (150..900).contains(&moment) {
            assert_eq!(sale.waited(), [0, 50]);
        }
    }
    assert_eq!(entries, [(1, 150, 130, [0, 50]), (2, 1_000, 150, [0, 0])]);
    assert_eq!((sale.summary.longest_wait(), 2 * 100 + 5 * 80), (50 + 100, 600));
}

/// The bound is of the line and not of each window: window 1 is let in six times, 10 apart and for no time at all, each time with the word
/// taken before window 2 tests. So window 2 waits 68, though 2c + 5a is 49.
#[test]
fn a_wait_past_the_bound() {
    let mut sale = Sale::new(5, 8, 12);
    sale.at(0, 2, &[Try]);
    for round in 0..6 {
        let start = 10 * round;
        sale.at(start, 1, &[Try, Test, Set]);
        sale.at(start + 3, 2, &[Test]);
        sale.at(start + 8, 2, &[Test]);
        sale.at(start + 10, 1, &[Check]);
        assert_eq!(sale.accept(Crit, 1, start + 10), Some(10));
        sale.at(start + 10, 1, &[Exit, Reset, Rem]);
        assert_eq!(sale.waited(), [0, start + 10]);
    }
    sale.at(60, 2, &[Test, Set]);
    sale.at(68, 2, &[Check]);
    assert_eq!(sale.accept(Crit, 2, 68), Some(68));
    assert_eq!((sale.summary.entries(), sale.summary.longest_wait()), (7, 68));
}

/// Of windows that are not trying, or past n, a number stays as it was lent; a try, a crit and a withdraw leave that of their own window 0.
#[test]
fn whose_it_is() {
    let mut table = Table::fresh(&Limits::equal(3, 5, 8, 12)).unwrap();
    for (act, window) in [(Wait, 0), (Try, 1), (Test, 1), (Set, 1), (Try, 2)] {
        table.step(act, window, 30).unwrap();
    }
    let mut numbers = *Summary::new().numbers();
    numbers[raw::WAITED..].fill(7);
    let mut summary = Summary::from_numbers(numbers);
    let mut waited = |act, window, moment| {
        table.record(&mut summary, act, window, moment).unwrap();
        [1, 2, 3, 4, 96].map(|window| summary.waited(window).unwrap())
    };
    assert_eq!(waited(Wait, 0, 33), [10, 10, 7, 7, 7]);
    assert_eq!(waited(Try, 3, 34), [11, 11, 0, 7, 7]);
    assert_eq!(waited(Withdraw, 2, 35), [12, 0, 1, 7, 7]);
    assert_eq!(waited(Test, 3, 38), [15, 0, 4, 7, 7]);
    assert_eq!(waited(Check, 1, 40), [17, 0, 6, 7, 7]);
    assert_eq!(waited(Crit, 1, 42), [0, 0, 8, 7, 7]);
    assert_eq!(waited(Test, 3, 43), [0, 0, 8, 7, 7]);
    assert_eq!(waited(Exit, 1, 45), [0, 0, 8, 7, 7]);
    assert_eq!(waited(Reset, 1, 46), [0, 0, 9, 7, 7]);
    assert_eq!((summary.longest_wait(), summary.accepted()), (19, 9));
}

/// Each of the 96 numbers may be the clock and not more. At the clock they stay sound, as whoever waits does so by what the clock moves.
#[test]
fn at_most_the_clock() {
    for window in 1..=raw::WINDOWS {
        let mut table = Table::fresh(&Limits::equal(1, 5, 8, 12)).unwrap();
        table.step(Try, 1, 30).unwrap();
        let mut numbers = *Summary::new().numbers();
        numbers[raw::WAITED + window - 1] = 31;
        let mut summary = Summary::from_numbers(numbers);
        assert_eq!(table.record(&mut summary, Wait, 0, 32), Err(Refusal::NoSummary));
        assert_eq!((*summary.numbers(), table.clock()), (numbers, 30));
        numbers[raw::WAITED + window - 1] = 30;
        let mut summary = Summary::from_numbers(numbers);
        for moment in [32, 35] {
            assert!(table.record(&mut summary, Wait, 0, moment).is_ok());
        }
        assert_eq!(summary.waited(window as u64), Some(if window == 1 { 35 } else { 30 }));
    }
}
