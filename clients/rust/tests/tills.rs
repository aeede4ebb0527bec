//! Tills of two ages: each window's latest moments use its own a, and 2c + 5a has the largest.

use funnelfawn::Act::*;
use funnelfawn::{read, replay, Accepted, DeadlineTable, Limits, Moments, Place, Refusal, Summary, Table};

const INPUT: &[u8] = include_bytes!("../../../examples/tills.csv");

const OUTPUT: &str = "line,answer,window,moment
7,0,0,0
8,0,0,0
9,8,1,5
10,0,0,5
11,8,1,10
12,0,0,10
13,0,0,30
14,0,0,50
15,8,1,55
16,0,1,55
17,0,1,60
18,0,0,80
19,8,1,85
20,0,0,85
21,0,0,90
22,0,0,90
23,0,0,120
24,0,0,160
25,0,2,190
";

/// A new till and an old one.
fn limits() -> Limits {
    Limits { a: vec![5, 30], b: 40, c: 60 }
}

fn nobody(clock: u64) -> Result<Accepted, Refusal> {
    Ok(Accepted { selling: None, clock })
}

/// Whether the older one is window 2 or window 1.
#[test]
fn each_by_its_own() {
    for a in [[5, 30], [30, 5]] {
        let (new, old) = if a[0] == 5 { (1, 2) } else { (2, 1) };
        let mut table = Table::fresh(&Limits { a: a.to_vec(), b: 40, c: 60 }).unwrap();
        for window in [1, 2] {
            assert_eq!(table.step(Try, window, 0), nobody(0));
        }
        assert_eq!(table.step(Test, old, 6), Err(Refusal::Late { window: new, latest: 5 }));
        assert_eq!(table.step(Withdraw, new, 5), nobody(5));
        assert_eq!(table.step(Wait, 0, 31), Err(Refusal::Late { window: old, latest: 30 }));
        assert_eq!(table.step(Test, old, 30), nobody(30));
        assert_eq!(table.step(Set, old, 60), nobody(60));
        // b and c are for all of them
        assert_eq!(table.step(Check, old, 99), Err(Refusal::Early { window: old, earliest: 100 }));
        assert_eq!(table.step(Check, old, 121), Err(Refusal::Late { window: old, latest: 120 }));
        assert_eq!(table.step(Check, old, 120), nobody(120));
        assert_eq!(table.step(Crit, old, 150), Ok(Accepted { selling: Some(old), clock: 150 }));
    }
}

/// By the second engine: only checking has the same two moments for both.
#[test]
fn first_and_last_moments() {
    let mut deadlines = DeadlineTable::fresh(&limits()).unwrap();
    let timed = |place, first, last| Some((place, Some(Moments { first, last })));
    for (window, last) in [(1, 12), (2, 37)] {
        assert_eq!(deadlines.step(Try, window, 7), nobody(7));
        assert_eq!(deadlines.place(window), timed(Place::Testing, 7, last));
        assert_eq!(deadlines.step(Test, window, 7), nobody(7));
        assert_eq!(deadlines.place(window), timed(Place::Setting, 7, last));
    }
    for window in [1, 2] {
        assert_eq!(deadlines.step(Set, window, 7), nobody(7));
        assert_eq!(deadlines.place(window), timed(Place::Checking, 47, 67));
    }
    // the word is window 2's
    for (window, place, last) in [(1, Place::Testing, 55), (2, Place::Entering, 80)] {
        assert_eq!(deadlines.step(Check, window, 50), nobody(50));
        assert_eq!(deadlines.place(window), timed(place, 50, last));
    }
    assert_eq!(deadlines.step(Crit, 2, 56), Err(Refusal::Late { window: 1, latest: 55 }));
    assert_eq!(deadlines.step(Withdraw, 1, 55), nobody(55));
    assert_eq!(deadlines.step(Crit, 2, 81), Err(Refusal::Late { window: 2, latest: 80 }));
    assert_eq!(deadlines.step(Crit, 2, 80), Ok(Accepted { selling: Some(2), clock: 80 }));
}

#[test]
fn the_recording() {
    assert_eq!(String::from_utf8(replay(INPUT)).unwrap(), OUTPUT);
    let recording = read(INPUT).unwrap();
    assert_eq!(recording.limits, limits());
    // of this shape the same bytes come back
    assert_eq!(recording.write().unwrap(), INPUT);
    let (mut table, mut summary) = (Table::fresh(&recording.limits).unwrap(), Summary::new());
    for step in &recording.steps {
        let _ = table.record(&mut summary, step.act, step.window, step.moment);
    }
    assert_eq!((table.limits(), table.clock()), (limits(), 190));
    assert_eq!((summary.accepted(), summary.refused(), summary.longest_wait()), (15, 4, 165));
}

/// Window 2 alone is trying, from 0 on, and takes all the time that it has: it is let in at 150, which is later than 2c + 5a with the a of the
/// newer till would have it, 145, and within what it is with the larger one, 270.
#[test]
fn the_largest_in_the_bound() {
    let mut table = Table::fresh(&limits()).unwrap();
    for (act, moment) in [(Try, 0), (Test, 30), (Set, 60), (Check, 120)] {
        assert_eq!(table.step(act, 2, moment), nobody(moment));
    }
    assert_eq!(table.step(Crit, 2, 151), Err(Refusal::Late { window: 2, latest: 150 }));
    assert_eq!(table.step(Crit, 2, 150), Ok(Accepted { selling: Some(2), clock: 150 }));
    assert_eq!((2 * 60 + 5 * 5, 2 * 60 + 5 * 30), (145, 270));
}
