//! Lists of any length, as `raw` lends them: too short ones, and what stands past the end.

use funnelfawn::raw::*;
use funnelfawn::{replay, DeadlineTable, Limits, Refusal, Summary, Table};

const TEXT: &[u8] = b"windows,b,c\n2,8,12\nwindow,a\n1,5\n2,7\ntime,window,act\n0,1,try\n3,1,test\n";
const REPORT: &[u8] = b"line,answer,window,moment\n7,0,0,0\n8,0,0,3\n";
const FORMER: &[u8] = b"windows,a,b,c\n2,5,8,12\ntime,window,act\n0,1,try\n3,1,test\n";
const PAST: u64 = 7777;

fn bare(number: u64) -> Answer {
    Answer { number, window: 0, moment: 0 }
}

/// The a of two windows.
const A: [u64; 2] = [5, 7];

fn limits() -> Limits {
    Limits { a: A.to_vec(), b: 8, c: 12 }
}

fn table() -> Vec<u64> {
    Table::fresh(&limits()).unwrap().numbers().to_vec()
}

/// What is lent has these lengths as long as the layout is 3.
#[test]
fn the_layout() {
    assert_eq!((layout(), LAYOUT), (3, 3));
    assert_eq!((TABLE, SUMMARY, WAITED, BOARD), (293, 101, 5, 3_076));
    assert_eq!((DEADLINES, DEADLINES_STRIDE), (389, 3));
    assert_eq!([AT_N, AT_B, AT_C, AT_CLOCK, AT_WORD, AT_LIMITS, HEADER], [0, 1, 2, 3, 4, 5, 101]);
}

/// A list of values of a in three calls, of which each has to answer the same; but for the writing, which has no room.
fn takes(n: u64, b: u64, c: u64, a: &[u64]) -> Answer {
    let (mut table, mut deadlines) = ([PAST; TABLE], [PAST; DEADLINES]);
    let answer = fresh(n, b, c, a, &mut table);
    assert_eq!(fresh_deadlines(n, b, c, a, &mut deadlines), answer);
    let written = write([n, b, c], a, &[], &[], &[], &mut []);
    if answer.number != 0 {
        assert_eq!((written, table, deadlines), (answer, [PAST; TABLE], [PAST; DEADLINES]));
        return answer;
    }
    assert_eq!((answer, written), (bare(0), bare(16)));
    let mut values = a[..a.len().min(WINDOWS)].to_vec();
    values.resize(WINDOWS, 0);
    assert_eq!((&table[AT_LIMITS..HEADER], &deadlines[..HEADER]), (&values[..], &table[..HEADER]));
    answer
}

/// [9.45] As many as there are windows, fewer, and more, of which those above n have to be 0 and those past the 96th may be any.
#[test]
fn values_of_a() {
    let with = |count: usize, above: u64| [&A[..], &vec![above; count - A.len()]].concat();
    for count in [2, 3, 95, 96] {
        assert_eq!(takes(2, 8, 12, &with(count, 0)), bare(0));
    }
    for count in [3, 95, 96, 97] {
        assert_eq!(takes(2, 8, 12, &with(count, 5)), bare(12));
    }
    for a in [&[][..], &[5], &[0, 5], &[5, 0], &[8, 5], &[5, 8], &[u64::MAX, 5], &[5, 1 << 32]] {
        assert_eq!(takes(2, 8, 12, a), bare(12));
    }
    let past_the_last = [&with(96, 0)[..], &[PAST, 5]].concat();
    assert_eq!(takes(2, 8, 12, &past_the_last), bare(0));
    assert_eq!(takes(96, 8, 12, &[5; 200]), bare(0));
    assert_eq!(takes(95, 8, 12, &[5; 96]), bare(12));
    assert_eq!(takes(96, 8, 12, &[5; 95]), bare(12));
    // n is looked at first, and then all limits
    for n in [0, 97, u64::MAX] {
        assert_eq!(takes(n, 8, 7, &[]), bare(11));
    }
    for (b, c) in [(7, 12), (5, 12), (8, 7), (8, 10_000_001), (0, 0)] {
        assert_eq!(takes(2, b, c, &A), bare(12));
    }
}

/// Where the a of each window stands, in tables of both kinds.
#[test]
fn the_a_of_each_window() {
    let limits = Limits { a: (1..=96).collect(), b: 97, c: 97 };
    let (table, deadlines) = (Table::fresh(&limits).unwrap(), DeadlineTable::fresh(&limits).unwrap());
    assert_eq!((table.limits(), deadlines.limits()), (limits.clone(), limits));
    for window in 1..=96 {
        assert_eq!((table.a(window), deadlines.a(window)), (Some(window), Some(window)));
        assert_eq!(table.numbers()[AT_LIMITS + window as usize - 1], window);
    }
    for window in [0, 97, u64::MAX] {
        assert_eq!((table.a(window), deadlines.a(window)), (None, None));
    }
    let two = Table::from_numbers(self::table().try_into().unwrap());
    assert_eq!([1, 2, 3].map(|window| two.a(window)), [Some(5), Some(7), None]);
    // a list that tells no table
    let mut numbers = *table.numbers();
    numbers[AT_N] = u64::MAX;
    let damaged = Table::from_numbers(numbers);
    assert_eq!((damaged.limits().windows(), damaged.a(97), damaged.place(97)), (96, None, None));
}

#[test]
fn short_tables_and_summaries() {
    for length in [0, 1, AT_LIMITS, HEADER, HEADER + 1, 198, TABLE - 2, TABLE - 1] {
        let mut short = table()[..length].to_vec();
        let mut summary = [0; SUMMARY];
        assert_eq!(step(&mut short, 0, 0, 1), bare(1));
        assert_eq!(record(&mut short, &mut summary, 0, 0, 1), bare(1));
        assert_eq!(fresh(2, 8, 12, &A, &mut short), bare(16));
        assert_eq!(fresh(2, 8, 12, &[5], &mut short), bare(12));
        assert_eq!(fresh(0, 8, 12, &A, &mut short), bare(11));
        assert_eq!((&short[..], summary), (&table()[..length], [0; SUMMARY]));
    }
    for length in [0, 1, WAITED, SUMMARY - 1] {
        let mut short = vec![PAST; length];
        assert_eq!(new_summary(&mut short), bare(16));
        assert_eq!(record(&mut table(), &mut short, 0, 0, 1), bare(2));
        assert_eq!(record(&mut [], &mut short, 0, 0, 1), bare(1));
        assert_eq!(short, vec![PAST; length]);
    }
}

#[test]
fn past_a_table_and_a_summary() {
    let (mut long, mut summary) = ([PAST; TABLE + 3], [PAST; SUMMARY + 3]);
    assert_eq!(fresh(2, 8, 12, &A, &mut long), bare(0));
    assert_eq!(new_summary(&mut summary), bare(0));
    assert_eq!(record(&mut long, &mut summary, 1, 2, 4), Answer { number: 0, window: 0, moment: 4 });
    assert_eq!(record(&mut long, &mut summary, 0, 0, 7), Answer { number: 0, window: 0, moment: 7 });
    assert_eq!(step(&mut long, 2, 2, 9), Answer { number: 0, window: 0, moment: 9 });
    let mut left = table();
    left[AT_CLOCK] = 9;
    left[HEADER + STRIDE..HEADER + 2 * STRIDE].copy_from_slice(&[2, 9]);
    left.extend([PAST; 3]);
    assert_eq!(long[..], left);
    let mut counted = Summary::new().numbers().to_vec();
    (counted[0], counted[WAITED + 1]) = (2, 3);
    counted.extend([PAST; 3]);
    assert_eq!(summary[..], counted);
}

#[test]
fn short_boards() {
    for length in [0, 1, BOARD_HEADER, BOARD_HEADER + BOARD_STRIDE, BOARD - 1] {
        let mut short = vec![PAST; length];
        assert_eq!(set_up_board(10, &mut short), bare(16));
        assert_eq!(set_up_board(0, &mut short), bare(17));
        assert_eq!(add_to_board(&mut short, 1, 1, 0), bare(2));
        assert_eq!(show_board(&mut short, 1), bare(2));
        assert_eq!(short, vec![PAST; length]);
    }
}

#[test]
fn past_a_board() {
    let mut long = [PAST; BOARD + 3];
    assert_eq!(set_up_board(10, &mut long), bare(0));
    assert_eq!(add_to_board(&mut long, 4, 2, 3), Answer { number: 0, window: 1, moment: 3 });
    assert_eq!(show_board(&mut long, 5), Answer { number: 0, window: 1, moment: 3 });
    let mut left = vec![10, 5, 0, 1, 4, 2, 3];
    left.resize(BOARD + 3, PAST);
    assert_eq!(long[..], left);
    assert_eq!(set_up_board(0, &mut long), bare(17));
    assert_eq!(add_to_board(&mut long, 6, 2, 3), bare(2));
    left[..BOARD_HEADER].fill(0);
    assert_eq!(long[..], left);
}

#[test]
fn a_step_stands_beside_a_short_board() {
    let mut tables = [table(), table()];
    let mut summaries = [[0; SUMMARY]; 2];
    for (act, moment) in [(1, 0), (2, 1), (3, 2), (4, 10), (5, 12)] {
        let [table, alone] = &mut tables;
        let [summary, counted] = &mut summaries;
        let told = record_and_tell(table, summary, &mut [PAST; BOARD - 1], act, 2, moment);
        assert_eq!(told.step, record(alone, counted, act, 2, moment));
        assert_eq!((told.step.number, told.board), (0, bare(if act == 5 { 2 } else { 0 })));
    }
    assert_eq!((&tables[0], summaries[0]), (&tables[1], summaries[1]));
}

#[test]
fn numbers_that_tell_no_table() {
    // a place above 7, an arrival in remainder, an arrival in selling
    for entry in [[8, 0], [0, 1], [5, 1], [256, 0], [1 << 32, 0]] {
        let mut damaged = table();
        damaged[HEADER..HEADER + STRIDE].copy_from_slice(&entry);
        let before = damaged.clone();
        assert_eq!(step(&mut damaged, 0, 0, 1), bare(1));
        assert_eq!(damaged, before);
    }
}

/// What becomes of the lists of a reading, each as long as told: that of the values of a, and the three of the steps.
fn lists(text: &[u8], lengths: [usize; 4]) -> (Reading, [Vec<u64>; 4]) {
    let [mut a, mut moments, mut windows, mut acts] = lengths.map(|length| vec![PAST; length]);
    let reading = read(text, &mut a, &mut moments, &mut windows, &mut acts);
    (reading, [a, moments, windows, acts])
}

#[test]
fn lists_of_a_reading() {
    // 96 values have to find room, of however few windows, and two steps
    let refused = Reading { answer: bare(16), n: 0, b: 0, c: 0 };
    for lengths in [[96, 2, 2, 1], [95, 2, 2, 2], [2, 2, 2, 2], [0, 0, 0, 0]] {
        for text in [TEXT, FORMER] {
            assert_eq!(lists(text, lengths), (refused, lengths.map(|length| vec![PAST; length])));
        }
    }
    let reading = Reading { answer: Answer { number: 0, window: 0, moment: 2 }, n: 2, b: 8, c: 12 };
    for (text, a) in [(TEXT, A), (FORMER, [5, 5])] {
        for length in [96, 99] {
            let values = [&a[..], &[0; 94], &vec![PAST; length - 96]].concat();
            let stored = [values, vec![0, 3], vec![1, 1, PAST], vec![1, 2, PAST, PAST]];
            assert_eq!(lists(text, [length, 2, 3, 4]), (reading, stored));
        }
    }
}

/// A fault comes before a list that is too short, and leaves all of them, whatever was read before it.
#[test]
fn lists_of_a_faulty_reading() {
    let faults: [(&[u8], Answer); 5] = [
        (b"windows,b,c\n2,8,7\nwindow,a\n1,5\n2,7\n", bare(12)),
        (b"windows,b,c\n97,8,12\n", bare(11)),
        (b"windows,b,c\n2,8,12\nwindow,a\n1,5\n3,7\n", Answer { number: 14, window: 0, moment: 5 }),
        (&TEXT[..TEXT.len() - 1], Answer { number: 14, window: 0, moment: 8 }),
        (&FORMER[..FORMER.len() - 1], Answer { number: 14, window: 0, moment: 5 }),
    ];
    for (text, answer) in faults {
        for lengths in [[96, 2, 2, 2], [0, 0, 0, 0]] {
            let left = lengths.map(|length| vec![PAST; length]);
            assert_eq!(lists(text, lengths), (Reading { answer, n: 0, b: 0, c: 0 }, left));
        }
    }
}

/// An output that is one byte short stays, and so do the bytes past one that suffices.
fn output(text: &[u8], call: impl Fn(&mut [u8]) -> Answer) {
    let mut short = vec![b'~'; text.len() - 1];
    assert_eq!(call(&mut short), bare(16));
    assert_eq!(short, vec![b'~'; text.len() - 1]);
    let mut long = vec![b'~'; text.len() + 3];
    assert_eq!(call(&mut long), Answer { number: 0, window: 0, moment: text.len() as u64 });
    assert_eq!(long, [text, b"~~~"].concat());
}

#[test]
fn outputs() {
    // the shortest list sets the number of steps
    output(TEXT, |out| write([2, 8, 12], &A, &[0, 3], &[1, 1, 9], &[1, 2, 3, 4], out));
    output(REPORT, |out| funnelfawn::raw::replay(TEXT, out));
    assert_eq!(replay(TEXT), REPORT);
}

/// The most steps are those of the former shape, and the same steps cannot be written any more; of the shape that is written there is one
/// less.
#[test]
fn the_most_that_a_recording_holds() {
    let former = (&b"windows,a,b,c\n1,1,2,2\ntime,window,act\n"[..], MOST_STEPS);
    let written = (&b"windows,b,c\n1,2,2\nwindow,a\n1,1\ntime,window,act\n"[..], MOST_STEPS - 1);
    for (head, steps) in [former, written] {
        let text = [head, &b"0,1,try\n".repeat(steps)].concat();
        assert!(text.len() <= MOST_TEXT && text.len() + 8 > MOST_TEXT);
        let recording = funnelfawn::read(&text).unwrap();
        assert_eq!((recording.steps.len(), &recording.limits), (steps, &Limits::equal(1, 1, 2, 2)));
        let again = if steps == MOST_STEPS { Err(Refusal::Length) } else { Ok(text.clone()) };
        assert_eq!(recording.write(), again);
        assert_eq!(replay(&text).iter().filter(|&&byte| byte == b'\n').count(), 1 + steps);
    }
}
