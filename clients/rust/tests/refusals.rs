//! Each refusal, 1 to 18, with what it carries, and what it leaves of the table, the summary and the board. Those of notebooks, 19 to 21, are
//! in notebook.rs, and here only by their numbers and words.

use funnelfawn::{raw, read, Act, Board, Limits, Place, Recording, Refusal, Step, Summary, Table};

const END: u64 = 1_000_000_000_000;

/// Window 1 came to checking at 0, and the clock is at 7: its earliest moment is 8 and its latest 12.
fn checking() -> Table {
    let mut table = Table::fresh(&Limits::equal(2, 5, 8, 12)).unwrap();
    for (act, window, moment) in [(Act::Try, 1, 0), (Act::Test, 1, 0), (Act::Set, 1, 0), (Act::Wait, 0, 7)] {
        table.step(act, window, moment).unwrap();
    }
    table
}

/// The refusal of an act on that table, which has to come from both kinds of step and leave the table alone.
fn refused(act: impl Into<u64>, window: u64, moment: u64) -> Refusal {
    let act = act.into();
    let (mut table, mut summary) = (checking(), Summary::new());
    let refusal = table.step(act, window, moment).unwrap_err();
    assert_eq!(table.record(&mut summary, act, window, moment), Err(refusal));
    assert_eq!(table, checking());
    assert_eq!((summary.accepted(), summary.refused()), (0, 1));
    refusal
}

#[test]
fn acts() {
    assert_eq!(refused(Act::Check, 1, 6), Refusal::Backward { clock: 7 });
    assert_eq!(refused(Act::Check, 1, END + 1), Refusal::EndOfClock);
    assert_eq!(refused(10u64, 1, 7), Refusal::NoAct);
    assert_eq!(refused(Act::Try, 3, 7), Refusal::NoWindow);
    assert_eq!(refused(Act::Wait, 1, 7), Refusal::NoWindow);
    assert_eq!(refused(Act::Try, 2, 13), Refusal::Late { window: 1, latest: 12 });
    assert_eq!(refused(Act::Crit, 1, 7), Refusal::OutOfPlace { window: 1 });
    assert_eq!(refused(Act::Check, 1, 7), Refusal::Early { window: 1, earliest: 8 });
}

#[test]
fn no_table() {
    let mut numbers = *checking().numbers();
    // the word is no window of this table [2.50]
    numbers[raw::AT_WORD] = 3;
    let (mut table, mut summary) = (Table::from_numbers(numbers), Summary::new());
    assert_eq!(table.step(Act::Wait, 0, 7), Err(Refusal::NoTable));
    assert_eq!(table.record(&mut summary, Act::Wait, 0, 7), Err(Refusal::NoTable));
    assert_eq!((*table.numbers(), summary), (numbers, Summary::new()));
}

/// The refusal of a wait with that summary, which stays as it was.
fn refused_with(numbers: [u64; raw::SUMMARY]) -> Refusal {
    let (mut table, mut summary) = (checking(), Summary::from_numbers(numbers));
    let refusal = table.record(&mut summary, Act::Wait, 0, 7).unwrap_err();
    assert_eq!((table, *summary.numbers()), (checking(), numbers));
    refusal
}

#[test]
fn no_summary_and_summary_full() {
    let mut numbers = *Summary::new().numbers();
    numbers[1] = END;
    assert_eq!(refused_with(numbers), Refusal::SummaryFull);
    numbers[0] = 1;
    assert_eq!(refused_with(numbers), Refusal::NoSummary);
}

#[test]
fn fresh_tables() {
    assert_eq!(Table::fresh(&Limits::equal(0, 5, 8, 12)), Err(Refusal::WindowCount));
    assert_eq!(Table::fresh(&Limits::equal(97, 5, 5, 12)), Err(Refusal::WindowCount));
    assert_eq!(Table::fresh(&Limits::equal(96, 5, 5, 6)), Err(Refusal::Limits));
    assert!(Table::fresh(&Limits::equal(96, 5, 6, 6)).is_ok());
    // more than can be counted out
    assert_eq!(Table::fresh(&Limits::equal(u64::MAX, 5, 8, 12)), Err(Refusal::WindowCount));
}

#[test]
fn recordings() {
    assert_eq!(read(b""), Err(Refusal::Names { line: 1 }));
    assert_eq!(read(b"windows,a,b,c\n97,5,8,12\n"), Err(Refusal::WindowCount));
    assert_eq!(read(b"windows,a,b,c\n2,5,5,12\n"), Err(Refusal::Limits));
    assert_eq!(read(b"windows,a,b,c\n2,5,8,12\n"), Err(Refusal::Names { line: 3 }));
    let five = b"windows,a,b,c\n2,5,8,12\ntime,window,act\n0,1,try\n00,1,test\n";
    assert_eq!(read(five), Err(Refusal::Line { line: 5 }));
    assert_eq!(read(b"windows,b,c\n97,8,12\n"), Err(Refusal::WindowCount));
    assert_eq!(read(b"windows,b,c\n2,8,7\ntime,window,act\n"), Err(Refusal::Names { line: 3 }));
    assert_eq!(read(b"windows,b,c\n2,8,7\nwindow,a\n2,5\n"), Err(Refusal::Line { line: 4 }));
    assert_eq!(read(b"windows,b,c\n2,8,7\nwindow,a\n1,5\n"), Err(Refusal::Line { line: 5 }));
    assert_eq!(read(b"windows,b,c\n2,8,7\nwindow,a\n1,5\n2,5\n"), Err(Refusal::Limits));
    assert_eq!(read(b"windows,b,c\n2,8,12\nwindow,a\n1,5\n2,5\n"), Err(Refusal::Names { line: 6 }));
    let eight = b"windows,b,c\n2,8,12\nwindow,a\n1,5\n2,5\ntime,window,act\n0,1,try\n00,1,test\n";
    assert_eq!(read(eight), Err(Refusal::Line { line: 8 }));
    assert_eq!(read(&[b'#'; 65_537]), Err(Refusal::Length));
}

#[test]
fn writings() {
    let step = Step { moment: 9_999_999_999_999, window: 99_999_999, act: 9 };
    let good = Recording { limits: Limits::equal(2, 5, 8, 12), steps: vec![step; 3] };
    assert!(good.write().is_ok());
    let with_limits = |limits| Recording { limits, ..good.clone() }.write();
    for n in [0, 97, u64::MAX] {
        assert_eq!(with_limits(Limits::equal(n, 5, 8, 12)), Err(Refusal::WindowCount));
    }
    for a in [vec![8, 5], vec![5, 8], vec![5, 0], vec![5, u64::MAX]] {
        assert_eq!(with_limits(Limits { a, b: 8, c: 12 }), Err(Refusal::Limits));
    }
    let with = |odd| Recording { steps: vec![step, odd, odd], ..good.clone() }.write();
    // the first step is on line 5 + n
    let eighth = Err(Refusal::Line { line: 8 });
    assert_eq!(with(Step { moment: 10_000_000_000_000, ..step }), eighth);
    assert_eq!(with(Step { window: 100_000_000, ..step }), eighth);
    assert_eq!(with(Step { act: 10, ..step }), eighth);
    assert_eq!(Recording { steps: vec![step; 8_187], ..good }.write(), Err(Refusal::Length));
}

#[test]
fn short_output() {
    let short = raw::fresh(2, 8, 12, &[5, 7], &mut [0; raw::TABLE - 1]);
    assert_eq!(short.result(), Err(Refusal::ShortOutput));
}

#[test]
fn boards() {
    for w in [0, 1_000_000_001, u64::MAX] {
        assert_eq!(Board::set_up(w), Err(Refusal::Width));
    }
    let mut board = Board::set_up(10).unwrap();
    for _ in 0..raw::PLACES {
        board.add(5, 96, u64::MAX).unwrap();
    }
    let full = board.clone();
    assert_eq!(board.add(4, 0, 0), Err(Refusal::Backward { clock: 5 }));
    assert_eq!(board.show(4), Err(Refusal::Backward { clock: 5 }));
    assert_eq!(board.add(END + 1, 0, 0), Err(Refusal::EndOfClock));
    assert_eq!(board.show(END + 1), Err(Refusal::EndOfClock));
    assert_eq!(board.add(14, 0, 0), Err(Refusal::NoWindow));
    assert_eq!(board.add(14, 97, 0), Err(Refusal::NoWindow));
    assert_eq!(board.add(14, 1, 0), Err(Refusal::BoardFull));
    assert_eq!(board, full);
}

#[test]
fn no_board() {
    // W, the place of the first kept entry, how many are kept: one past each of their rules
    for (place, number) in [(0, 0), (0, 1_000_000_001), (2, raw::PLACES as u64), (3, raw::PLACES as u64 + 1)]
    {
        let mut numbers = *Board::set_up(10).unwrap().numbers();
        numbers[place] = number;
        let mut board = Board::from_numbers(numbers);
        assert_eq!(board.add(7, 1, 0), Err(Refusal::NoSummary));
        assert_eq!(board.show(7), Err(Refusal::NoSummary));
        assert_eq!(*board.numbers(), numbers);
    }
}

#[test]
fn numbers_and_words() {
    for number in 1..=21 {
        let answer = raw::Answer { number, window: 71, moment: 82 };
        let refusal = answer.result().unwrap_err();
        assert_eq!(refusal.number(), number);
        let words = refusal.to_string();
        assert_eq!(words.contains("71"), matches!(number, 8..=10), "{words}");
        assert_eq!(words.contains("82"), matches!(number, 4 | 8 | 10 | 13 | 14), "{words}");
    }
    let error: Box<dyn std::error::Error> = Refusal::Late { window: 1, latest: 21 }.into();
    assert_eq!(error.to_string(), "window 1 has to act by 21");
}

#[test]
fn acts_and_places_by_number() {
    for number in 0..=9 {
        assert_eq!(Act::try_from(number).map(u64::from), Ok(number));
    }
    assert_eq!(Act::try_from(10), Err(Refusal::NoAct));
    for number in 0..=7 {
        assert_eq!(Place::try_from(number).map(u64::from), Ok(number));
    }
    assert_eq!(Place::try_from(8), Err(Refusal::NoTable));
}
