//! The whole case of the specification [7.60], answer by answer: by steps, by counted steps, and as a recording, of the former shape as it
//! is and of the one that is written now [7.65].

use funnelfawn::Act::*;
use funnelfawn::{read, replay, Accepted, Act, Limits, Place, Refusal, Step, Summary, Table};

const INPUT: &[u8] = include_bytes!("../../../examples/two-windows.csv");

const OUTPUT: &str = "line,answer,window,moment
4,0,0,0
5,0,0,3
6,0,0,3
7,0,0,4
8,0,0,8
9,0,0,9
10,10,1,16
11,0,0,16
12,0,0,18
13,8,1,21
14,0,0,20
15,0,2,20
16,4,0,20
";

type Outcome = Result<Accepted, Refusal>;

fn nobody(clock: u64) -> Outcome {
    Ok(Accepted { selling: None, clock })
}

/// The acts of its recording beside the answers of its report.
fn case() -> [(u64, u64, Act, Outcome); 13] {
    [
        (0, 1, Try, nobody(0)),
        (3, 1, Test, nobody(3)),
        (3, 2, Try, nobody(3)),
        (4, 2, Test, nobody(4)),
        (8, 1, Set, nobody(8)),
        (9, 2, Set, nobody(9)),
        (15, 1, Check, Err(Refusal::Early { window: 1, earliest: 16 })),
        (16, 1, Check, nobody(16)),
        (18, 2, Check, nobody(18)),
        (24, 0, Wait, Err(Refusal::Late { window: 1, latest: 21 })),
        (20, 1, Test, nobody(20)),
        (20, 2, Crit, Ok(Accepted { selling: Some(2), clock: 20 })),
        (19, 0, Wait, Err(Refusal::Backward { clock: 20 })),
    ]
}

/// The table that the case leaves: the check of window 1 found the word of window 2.
fn assert_left(table: &Table) {
    assert_eq!((table.windows(), table.limits()), (2, Limits::equal(2, 5, 8, 12)));
    assert_eq!((table.clock(), table.word()), (20, 2));
    assert_eq!(table.place(0), None);
    assert_eq!(table.place(1), Some((Place::Testing, Some(20))));
    assert_eq!(table.place(2), Some((Place::Selling, None)));
    assert_eq!(table.place(3), None);
}

#[test]
fn by_steps() {
    let mut table = Table::fresh(&Limits::equal(2, 5, 8, 12)).unwrap();
    for (moment, window, act, outcome) in case() {
        let before = *table.numbers();
        assert_eq!(table.step(act, window, moment), outcome);
        assert!(outcome.is_ok() || *table.numbers() == before);
    }
    assert_left(&table);
}

#[test]
fn by_counted_steps() {
    let mut table = Table::fresh(&Limits::equal(2, 5, 8, 12)).unwrap();
    let mut summary = Summary::new();
    for (moment, window, act, outcome) in case() {
        assert_eq!(table.record(&mut summary, act, window, moment), outcome);
    }
    assert_left(&table);
    assert_eq!((summary.accepted(), summary.refused()), (10, 3));
    assert_eq!((summary.entries(), summary.exits()), (1, 0));
    // window 2 tried at 3 and was let in at 20; nobody has sold while window 1 is trying, from 0 to 20
    assert_eq!(summary.longest_wait(), 17);
    let waited = [0, 1, 2, 96, 97, u64::MAX].map(|window| summary.waited(window));
    assert_eq!(waited, [None, Some(20), Some(0), Some(0), None, None]);
}

#[test]
fn as_a_recording() {
    assert_eq!(String::from_utf8(replay(INPUT)).unwrap(), OUTPUT);
    let recording = read(INPUT).unwrap();
    assert_eq!(recording.limits, Limits::equal(2, 5, 8, 12));
    let steps = case().map(|(moment, window, act, _)| Step { moment, window, act: act.into() });
    assert_eq!(recording.steps, steps);
}

/// What is written has three lines more, so each answer stands three lines farther down; and it is written again as it is.
#[test]
fn as_it_is_written() {
    let recording = read(INPUT).unwrap();
    let written = recording.write().unwrap();
    let steps = INPUT.strip_prefix(b"windows,a,b,c\n2,5,8,12\n").unwrap();
    assert_eq!(written, [b"windows,b,c\n2,8,12\nwindow,a\n1,5\n2,5\n", steps].concat());
    assert_eq!(read(&written).as_ref(), Ok(&recording));
    assert_eq!(read(&written).unwrap().write(), Ok(written.clone()));
    let moved = |line: &str| {
        let (number, answer) = line.split_once(',').unwrap();
        number.parse().map_or(format!("{line}\n"), |number: u64| format!("{},{answer}\n", number + 3))
    };
    let report: String = OUTPUT.lines().map(moved).collect();
    assert_eq!(String::from_utf8(replay(&written)).unwrap(), report);
}
