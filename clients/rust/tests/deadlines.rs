//! The second engine, on first and last moments: the whole case through both, what is refused, and the way from one kind of table to the
//! other and back.

use funnelfawn::raw::{self, Answer, AT_B, AT_C, AT_CLOCK, AT_LIMITS, AT_N, AT_WORD};
use funnelfawn::raw::{DEADLINES, DEADLINES_STRIDE, HEADER, STRIDE, TABLE};
use funnelfawn::Act::*;
use funnelfawn::{read, replay, Accepted, Act, DeadlineTable, Limits, Moments, Place, Refusal, Step, Table};

const WHOLE_CASE: &[u8] = include_bytes!("../../../examples/two-windows.csv");
const WITHDRAWS: &[u8] = include_bytes!("../../../examples/withdraw.csv");
const SALES: &[u8] = include_bytes!("../../../examples/spans.csv");
const WAITS: &[u8] = include_bytes!("../../c/waits.csv");
const TILLS: &[u8] = include_bytes!("../../../examples/tills.csv");

const END: u64 = 1_000_000_000_000;
const PAST: u64 = 7777;
/// The timed places, by their numbers; the third is checking.
const TIMED: [u64; 6] = [1, 2, 3, 4, 6, 7];

fn bare(number: u64) -> Answer {
    Answer { number, window: 0, moment: 0 }
}

fn nobody(clock: u64) -> Result<Accepted, Refusal> {
    Ok(Accepted { selling: None, clock })
}

/// A copy, as neither kind of table can be cloned.
fn copy(table: &Table) -> Table {
    Table::from_numbers(*table.numbers())
}

fn copy_of_deadlines(deadlines: &DeadlineTable) -> DeadlineTable {
    DeadlineTable::from_numbers(*deadlines.numbers())
}

/// Each of the two is what comes of the other; so what goes both ways is the same again.
fn assert_match(table: &Table, deadlines: &DeadlineTable) {
    assert_eq!(DeadlineTable::from_table(copy(table)).as_ref(), Ok(deadlines));
    assert_eq!(copy_of_deadlines(deadlines).into_table().as_ref(), Ok(table));
}

/// The lines that `replay` prints, from the answers of both engines.
fn by_both(text: &[u8]) -> (String, Table, DeadlineTable) {
    let recording = read(text).unwrap();
    let (mut table, mut deadlines) =
        (Table::fresh(&recording.limits).unwrap(), DeadlineTable::fresh(&recording.limits).unwrap());
    assert_match(&table, &deadlines);
    let mut report = String::from("line,answer,window,moment\n");
    // the lines of the steps are the last ones
    let lines = text.iter().filter(|&&byte| byte == b'\n').count();
    for (line, Step { moment, window, act }) in (lines - recording.steps.len() + 1..).zip(recording.steps) {
        let mut raw = *deadlines.numbers();
        let answer = raw::step_deadlines(&mut raw, act, window, moment);
        report += &format!("{line},{},{},{}\n", answer.number, answer.window, answer.moment);
        let outcome = table.step(act, window, moment);
        assert_eq!(deadlines.step(act, window, moment), outcome);
        assert_eq!(*deadlines.numbers(), raw);
        assert_match(&table, &deadlines);
    }
    (report, table, deadlines)
}

#[test]
fn the_whole_case() {
    let (report, table, deadlines) = by_both(WHOLE_CASE);
    assert_eq!(report.into_bytes(), replay(WHOLE_CASE));
    assert_eq!((deadlines.windows(), deadlines.limits()), (2, Limits::equal(2, 5, 8, 12)));
    assert_eq!((deadlines.clock(), deadlines.word()), (20, 2));
    let places = [0, 1, 2, 3, u64::MAX].map(|window| deadlines.place(window));
    let testing = (Place::Testing, Some(Moments { first: 20, last: 25 }));
    assert_eq!(places, [None, Some(testing), Some((Place::Selling, None)), None, None]);
    assert_eq!(table.place(1), Some((Place::Testing, Some(20))));
}

#[test]
fn other_recordings() {
    for text in [WITHDRAWS, SALES, WAITS, TILLS] {
        let (report, ..) = by_both(text);
        assert_eq!(report.into_bytes(), replay(text));
    }
}

/// Window 96 goes once round: place, first and last moment after each act, [12.60].
#[test]
fn first_and_last_moments() {
    let mut deadlines = DeadlineTable::fresh(&Limits::equal(96, 5, 8, 12)).unwrap();
    let timed = |place, first, last| (place, Some(Moments { first, last }));
    let round: [(Act, u64, (Place, Option<Moments>)); 11] = [
        (Try, 2, timed(Place::Testing, 2, 7)),
        (Withdraw, 7, (Place::Remainder, None)),
        (Try, 8, timed(Place::Testing, 8, 13)),
        (Test, 10, timed(Place::Setting, 10, 15)),
        (Set, 11, timed(Place::Checking, 19, 23)),
        (Check, 23, timed(Place::Entering, 23, 28)),
        (Crit, 23, (Place::Selling, None)),
        (Exit, 99, timed(Place::Resetting, 99, 104)),
        (Reset, 104, timed(Place::Leaving, 104, 109)),
        (Rem, 105, (Place::Remainder, None)),
        (Try, 105, timed(Place::Testing, 105, 110)),
    ];
    for (act, moment, place) in round {
        let selling = (place.0 == Place::Selling).then_some(96);
        assert_eq!(deadlines.step(act, 96, moment), Ok(Accepted { selling, clock: moment }));
        assert_eq!(deadlines.place(96), Some(place));
    }
    // the word is another's: a test renews both moments, and a check goes back to testing
    for (act, window) in [(Try, 1), (Test, 1), (Set, 1)] {
        deadlines.step(act, window, 105).unwrap();
    }
    assert_eq!(deadlines.step(Test, 96, 110), nobody(110));
    assert_eq!(deadlines.place(96), Some(timed(Place::Testing, 110, 115)));
}

/// Window 1 came to checking at 0, and the clock is at 7: it may check from 8 to 12.
fn checking() -> DeadlineTable {
    let mut deadlines = DeadlineTable::fresh(&Limits::equal(2, 5, 8, 12)).unwrap();
    for (act, window, moment) in [(Try, 1, 0), (Test, 1, 0), (Set, 1, 0), (Wait, 0, 7)] {
        deadlines.step(act, window, moment).unwrap();
    }
    deadlines
}

/// The refusal of an act on that deadline table, which stays, and of the same act on the table that matches.
fn refused(act: impl Into<u64>, window: u64, moment: u64) -> Refusal {
    let (act, mut deadlines) = (act.into(), checking());
    let refusal = deadlines.step(act, window, moment).unwrap_err();
    assert_eq!(deadlines, checking());
    assert_eq!(deadlines.into_table().unwrap().step(act, window, moment), Err(refusal));
    refusal
}

#[test]
fn refused_acts() {
    assert_eq!(refused(Check, 1, 6), Refusal::Backward { clock: 7 });
    assert_eq!(refused(Check, 1, END + 1), Refusal::EndOfClock);
    assert_eq!(refused(10u64, 1, 7), Refusal::NoAct);
    assert_eq!(refused(Try, 3, 7), Refusal::NoWindow);
    assert_eq!(refused(Wait, 1, 7), Refusal::NoWindow);
    assert_eq!(refused(Try, 2, 13), Refusal::Late { window: 1, latest: 12 });
    assert_eq!(refused(Crit, 1, 7), Refusal::OutOfPlace { window: 1 });
    assert_eq!(refused(Check, 1, 7), Refusal::Early { window: 1, earliest: 8 });
    assert_eq!(checking().step(Check, 1, 8), nobody(8));
    assert_eq!(checking().step(Check, 1, 12), nobody(12));
}

#[test]
fn refused_fresh_ones() {
    assert_eq!(DeadlineTable::fresh(&Limits::equal(0, 5, 8, 12)), Err(Refusal::WindowCount));
    assert_eq!(DeadlineTable::fresh(&Limits::equal(97, 5, 5, 12)), Err(Refusal::WindowCount));
    assert_eq!(DeadlineTable::fresh(&Limits::equal(96, 5, 5, 6)), Err(Refusal::Limits));
    assert_eq!(DeadlineTable::fresh(&Limits::equal(96, 5, 6, 10_000_001)), Err(Refusal::Limits));
    assert!(DeadlineTable::fresh(&Limits::equal(96, 5, 6, 6)).is_ok());
}

/// At that clock, of two windows with the limits 5, 8 and 12, of which window 1 is there.
fn at(clock: u64, place: u64, first: u64, last: u64) -> [u64; DEADLINES] {
    let mut numbers = *DeadlineTable::fresh(&Limits::equal(2, 5, 8, 12)).unwrap().numbers();
    numbers[AT_CLOCK] = clock;
    numbers[HEADER..HEADER + DEADLINES_STRIDE].copy_from_slice(&[place, first, last]);
    numbers
}

fn is_sound(numbers: [u64; DEADLINES]) -> bool {
    let mut deadlines = DeadlineTable::from_numbers(numbers);
    let outcome = deadlines.step(Wait, 0, numbers[AT_CLOCK]);
    // a wait at the clock changes nothing, nor does a refusal
    assert_eq!(*deadlines.numbers(), numbers);
    let table = deadlines.into_table();
    if let Ok(table) = &table {
        assert_match(table, &DeadlineTable::from_numbers(numbers));
    }
    assert_eq!(table.map(|_| ()), outcome.map(|_| ()));
    assert!(matches!(outcome, Ok(_) | Err(Refusal::NoTable)));
    outcome.is_ok()
}

/// [12.35] At 20 with each two moments about it: sound are those of one arrival, which is not after 20, with a last moment not before it.
#[test]
fn moments_of_one_arrival() {
    for place in TIMED {
        let (least, most) = if place == 3 { (8, 12) } else { (0, 5) };
        for first in 0..45 {
            for last in 0..45 {
                let of_one =
                    (20 - most..=20).any(|arrival| (arrival + least, arrival + most) == (first, last));
                assert_eq!(is_sound(at(20, place, first, last)), of_one, "{place} from {first} to {last}");
            }
        }
    }
}

/// A check that would have come before moment 0; moments near 2^64, and those whose sums or differences come around there.
#[test]
fn moments_that_come_around() {
    let most = u64::MAX;
    assert!(is_sound(at(3, 3, 8, 12)));
    for (first, last) in
        [(7, 11), (0, 4), (most, 3), (most - 4, most), (8, most), (most, most), (most - 7, 4)]
    {
        assert!(!is_sound(at(3, 3, first, last)), "checking from {first} to {last}");
    }
    for place in TIMED.into_iter().filter(|&place| place != 3) {
        assert!(is_sound(at(3, place, 3, 8)));
        for (first, last) in
            [(most, 4), (most - 5, most), (most - 4, 0), (3, most), (most, most), (most - 1, 3)]
        {
            assert!(!is_sound(at(3, place, first, last)), "{place} from {first} to {last}");
        }
    }
    // at the clock's end both may be past it
    assert!(is_sound(at(END, 3, END + 8, END + 12)) && is_sound(at(END, 1, END, END + 5)));
    assert!(!is_sound(at(END + 1, 1, END + 1, END + 6)));
}

#[test]
fn no_place_and_moments_beside_none() {
    assert!(is_sound(at(0, 0, 0, 0)) && is_sound(at(0, 5, 0, 0)));
    for (place, first, last) in
        [(0, 1, 0), (0, 0, 1), (5, 1, 0), (5, 0, 1), (8, 0, 0), (8, 0, 5), (256, 0, 0)]
    {
        assert!(!is_sound(at(0, place, first, last)), "{place} from {first} to {last}");
    }
}

/// One number past each rule of those before the entries, and a window above n.
#[test]
fn no_deadline_table() {
    let sound = at(20, 1, 18, 23);
    assert!(is_sound(sound));
    let above = HEADER + 2 * DEADLINES_STRIDE;
    for (place, number) in [
        (AT_N, 0),
        (AT_N, 97),
        (AT_B, 5),
        (AT_B, 13),
        (AT_C, 7),
        (AT_C, 10_000_001),
        (AT_CLOCK, END + 1),
        (AT_WORD, 3),
        (AT_LIMITS, 0),
        (AT_LIMITS, 4),
        (AT_LIMITS, 6),
        (AT_LIMITS + 1, 0),
        (AT_LIMITS + 1, 8),
        (AT_LIMITS + 2, 5),
        (HEADER - 1, 5),
        (above, 5),
    ] {
        let mut numbers = sound;
        numbers[place] = number;
        assert!(!is_sound(numbers), "{number} at {place}");
    }
}

/// A table that is not sound is refused on its way, too.
#[test]
fn no_table() {
    let mut numbers = *Table::fresh(&Limits::equal(2, 5, 8, 12)).unwrap().numbers();
    for (place, number) in
        [(AT_WORD, 3), (HEADER, 8), (HEADER + 1, 1), (AT_CLOCK, END + 1), (AT_LIMITS, 8), (AT_LIMITS + 2, 1)]
    {
        let sound = std::mem::replace(&mut numbers[place], number);
        assert_eq!(DeadlineTable::from_table(Table::from_numbers(numbers)), Err(Refusal::NoTable));
        numbers[place] = sound;
    }
    assert!(DeadlineTable::from_table(Table::from_numbers(numbers)).is_ok());
}

/// Lists that are too short, by one number or more, stay as they are: a lent table tells none, though all of it lies there, and an output
/// gives 16, but not before 1, 11 and 12.
#[test]
fn short_lists() {
    let deadlines = *checking().numbers();
    let table = *checking().into_table().unwrap().numbers();
    for length in [0, 1, HEADER, HEADER + 1, TABLE, DEADLINES - 1] {
        let (mut whole, mut arrivals) = (deadlines, [PAST; TABLE]);
        let short = &mut whole[..length];
        assert_eq!(raw::step_deadlines(short, 0, 0, 7), bare(1));
        assert_eq!(raw::to_arrivals(short, &mut arrivals), bare(1));
        assert_eq!(raw::fresh_deadlines(2, 8, 12, &[5, 7], short), bare(16));
        assert_eq!(raw::fresh_deadlines(97, 5, 12, &[5; 97], short), bare(11));
        assert_eq!(raw::fresh_deadlines(96, 5, 12, &[5; 96], short), bare(12));
        assert_eq!(raw::to_deadlines(&table, short), bare(16));
        assert_eq!(raw::to_deadlines(&table[..TABLE - 1], short), bare(1));
        assert_eq!((whole, arrivals), (deadlines, [PAST; TABLE]));
    }
    for length in [0, 1, HEADER, HEADER + 1, TABLE - 1] {
        let (mut whole, mut moments) = (table, [PAST; DEADLINES]);
        let short = &mut whole[..length];
        assert_eq!(raw::to_deadlines(short, &mut moments), bare(1));
        assert_eq!(raw::to_arrivals(&deadlines, short), bare(16));
        assert_eq!(raw::to_arrivals(&deadlines[..DEADLINES - 1], short), bare(1));
        assert_eq!((whole, moments), (table, [PAST; DEADLINES]));
    }
}

/// A list that is longer than needed keeps its end, whatever is done with it.
#[test]
fn longer_lists() {
    let mut long = [PAST; DEADLINES + 3];
    assert_eq!(raw::fresh_deadlines(2, 8, 12, &[5, 5], &mut long), bare(0));
    assert_eq!(raw::step_deadlines(&mut long, 1, 2, 4), Answer { number: 0, window: 0, moment: 4 });
    assert_eq!(raw::step_deadlines(&mut long, 1, 2, 4), Answer { number: 9, window: 2, moment: 0 });
    let mut left = DeadlineTable::fresh(&Limits::equal(2, 5, 8, 12)).unwrap().numbers().to_vec();
    left[AT_CLOCK] = 4;
    left[HEADER + DEADLINES_STRIDE..HEADER + 2 * DEADLINES_STRIDE].copy_from_slice(&[1, 4, 9]);
    left.extend([PAST; 3]);
    assert_eq!(long[..], left);
    let mut table = [PAST; TABLE + 3];
    assert_eq!(raw::to_arrivals(&long, &mut table), bare(0));
    assert_eq!(
        (table[HEADER + STRIDE..HEADER + 2 * STRIDE].to_vec(), table[TABLE..].to_vec()),
        (vec![1, 4], vec![PAST; 3])
    );
    let mut again = [PAST; DEADLINES + 3];
    assert_eq!(raw::to_deadlines(&table, &mut again), bare(0));
    assert_eq!(again, long);
    // refused, all of it stays
    table[AT_WORD] = 3;
    again.fill(PAST);
    assert_eq!(raw::to_deadlines(&table, &mut again), bare(1));
    assert_eq!(again, [PAST; DEADLINES + 3]);
}
