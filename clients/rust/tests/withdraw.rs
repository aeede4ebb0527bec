//! Leaving the line: what a withdraw makes of the table and the summary, and what it does to the wait that is owed.

use funnelfawn::raw::AT_CLOCK;
use funnelfawn::Act::*;
use funnelfawn::{read, replay, Accepted, Act, Limits, Place, Refusal, Summary, Table};

const INPUT: &[u8] = include_bytes!("../../../examples/withdraw.csv");

const OUTPUT: &str = "line,answer,window,moment
4,0,0,0
5,0,0,2
6,0,0,3
7,0,0,4
8,9,1,0
9,8,2,8
10,0,0,8
11,0,0,12
12,0,1,14
13,0,1,15
";

/// A table of two windows after these acts, all of which are accepted.
fn after(acts: &[(Act, u64, u64)]) -> Table {
    let mut table = Table::fresh(&Limits::equal(2, 5, 8, 12)).unwrap();
    for &(act, window, moment) in acts {
        assert!(table.step(act, window, moment).is_ok());
    }
    table
}

fn nobody(clock: u64) -> Result<Accepted, Refusal> {
    Ok(Accepted { selling: None, clock })
}

/// Window 1 has the word all the while.
#[test]
fn a_try_is_taken_back() {
    let mut table = after(&[(Try, 1, 0), (Test, 1, 0), (Set, 1, 0)]);
    let mut left = *table.numbers();
    assert_eq!(table.step(Try, 2, 6), nobody(6));
    assert_eq!(table.step(Withdraw, 2, 6), nobody(6));
    left[AT_CLOCK] = 6;
    assert_eq!((*table.numbers(), table.word()), (left, 1));
}

#[test]
fn from_no_other_place() {
    let round = [(Try, 0), (Test, 0), (Set, 0), (Check, 8), (Crit, 8), (Exit, 8), (Reset, 8), (Rem, 8)];
    let mut table = after(&[]);
    let mut refused = Vec::new();
    for (act, moment) in round {
        let (place, _) = table.place(1).unwrap();
        if place != Place::Testing {
            let before = *table.numbers();
            assert_eq!(table.step(Withdraw, 1, table.clock()), Err(Refusal::OutOfPlace { window: 1 }));
            assert_eq!(*table.numbers(), before);
            refused.push(place);
        }
        assert!(table.step(act, 1, moment).is_ok());
    }
    let others = Place::ALL.into_iter().filter(|&place| place != Place::Testing);
    assert!(others.eq(refused));
}

#[test]
fn by_the_latest_moment() {
    let mut table = after(&[(Try, 1, 0), (Try, 2, 1)]);
    assert_eq!(table.step(Withdraw, 1, 6), Err(Refusal::Late { window: 1, latest: 5 }));
    assert_eq!(table.step(Withdraw, 2, 6), Err(Refusal::Late { window: 1, latest: 5 }));
    assert_eq!(table.step(Withdraw, 1, 5), nobody(5));
    assert_eq!(table.step(Withdraw, 2, 6), nobody(6));
}

/// As in [8.144]: nobody is left to whom 2c + 5a = 49 is owed.
#[test]
fn all_withdraw_and_the_clock_runs_on() {
    let mut table = after(&[(Try, 1, 0), (Try, 2, 0), (Withdraw, 1, 3), (Withdraw, 2, 5)]);
    assert_eq!(table.step(Wait, 0, 50), nobody(50));
}

#[test]
fn a_wait_is_counted_from_the_later_try() {
    let mut table = after(&[]);
    let mut summary = Summary::new();
    for (moment, window, act, waited) in [
        (3, 1, Try, 0),
        (5, 0, Wait, 2),
        (7, 1, Withdraw, 0),
        (20, 1, Try, 0),
        (21, 1, Test, 1),
        (22, 1, Set, 2),
        (30, 1, Check, 10),
    ] {
        assert_eq!(table.record(&mut summary, act, window, moment), nobody(moment));
        assert_eq!(summary.waited(1), Some(waited));
    }
    assert_eq!((summary.accepted(), summary.longest_wait()), (7, 0));
    assert!(table.record(&mut summary, Crit, 1, 32).is_ok());
    assert_eq!((summary.accepted(), summary.refused()), (8, 0));
    assert_eq!((summary.entries(), summary.exits(), summary.longest_wait()), (1, 0, 12));
}

/// The table in docs/guide/withdrawing.md, row by row.
#[test]
fn the_readme_s_recording() {
    assert_eq!(String::from_utf8(replay(INPUT)).unwrap(), OUTPUT);
    let recording = read(INPUT).unwrap();
    assert_eq!(recording.steps.iter().filter(|step| step.act == Withdraw.into()).count(), 3);
    assert_eq!(read(&recording.write().unwrap()), Ok(recording));
}
