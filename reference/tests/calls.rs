//! What `replay` cannot reach: tables and summaries of any make, acts above 9, lent lists, the writer.
//! And, over generated recordings, what the specification says of the summary.

use reference::answer::*;
use reference::generator::{generate, generate_list};
use reference::list;
use reference::machine::*;
use reference::recording::{read, read_into, write};
use reference::summary::{recorded_step, Summary};

const VALUES: Values = Values::equal(2, 5, 8, 12);
const GOOD: &[u8] = b"windows,b,c\n2,8,12\nwindow,a\n1,5\n2,5\ntime,window,act\n0,1,try\n3,1,test\n";

fn table() -> Table {
    fresh(VALUES).1
}

#[test]
fn fresh_tables() {
    let all = |n, a, b, c| fresh(Values::equal(n, a, b, c)).0.number;
    assert_eq!(all(96, 5, 6, 6), ACCEPTED);
    assert_eq!(all(0, 0, 0, 0), WINDOW_COUNT);
    assert_eq!(all(97, 5, 6, 6), WINDOW_COUNT);
    assert_eq!(all(1, 5, 5, 6), LIMITS);
    assert_eq!(all(1, u64::MAX, u64::MAX, u64::MAX), LIMITS);
    let (_, refused) = fresh(Values { n: 97, ..VALUES });
    assert_eq!(refused, Table { values: Values::default(), ..table() });
    assert!(!refused.sound());
}

#[test]
fn unsound_tables() {
    let with = |place| {
        let mut table = Table { clock: 20, ..table() };
        table.places[1] = place;
        table
    };
    assert!(with(Place::Testing(15)).sound());
    assert!(!with(Place::Testing(14)).sound());
    assert!(with(Place::Checking(8)).sound());
    assert!(!with(Place::Checking(7)).sound());
    assert!(!with(Place::Leaving(21)).sound());
    assert!(!with(Place::Leaving(u64::MAX)).sound());
    assert!(!Table { word: 3, ..table() }.sound());
    assert!(!Table { clock: CLOCK_END + 1, ..table() }.sound());
    let mut above = table();
    above.places[2] = Place::Selling;
    assert_eq!(step(above, 10, 9, 0), (bare(NO_TABLE), above));
}

#[test]
fn two_sellers_are_sound_and_the_lowest_is_named() {
    let mut two = table();
    two.places[0] = Place::Selling;
    two.places[1] = Place::Selling;
    assert_eq!(step(two, WAIT, 0, 7).0, answer(ACCEPTED, 1, 7));
}

#[test]
fn unknown_acts() {
    let (_, later) = step(table(), WAIT, 0, 7);
    assert_eq!(step(later, 10, 1, 7).0, bare(NO_ACT));
    assert_eq!(step(later, 10, 1, 6).0, answer(BACKWARD, 0, 7));
    assert_eq!(step(later, u64::MAX, 0, u64::MAX).0, bare(END_OF_CLOCK));
}

#[test]
fn summaries_of_any_make() {
    let answered = |summary: Summary| {
        let mut lent = summary.clone();
        let (answer, _) = recorded_step(table(), &mut lent, 10, 0, 0);
        assert_eq!(lent == summary, answer.number != NO_ACT, "only 4 to 10 are counted");
        answer.number
    };
    let new = Summary::new();
    assert_eq!(answered(new.clone()), NO_ACT);
    assert_eq!(answered(Summary { accepted: u64::MAX, refused: 1, ..new.clone() }), NO_SUMMARY);
    assert_eq!(answered(Summary { accepted: 5, entries: 3, exits: 3, ..new.clone() }), NO_SUMMARY);
    assert_eq!(answered(Summary { longest_wait: 1_000_000_000_001, ..new.clone() }), NO_SUMMARY);
    assert_eq!(answered(Summary { waited: [1; WINDOWS], ..new.clone() }), NO_SUMMARY);
    assert_eq!(answered(Summary { accepted: 1_000_000_000_000, ..new.clone() }), SUMMARY_FULL);
    assert_eq!(answered(Summary { refused: 999_999_999_999, ..new }), NO_ACT);
}

#[test]
fn lent_lists() {
    let (mut a, mut times, mut windows, mut acts) = ([7; WINDOWS], [7; 3], [7; 3], [7; 3]);
    let short = read_into(GOOD, &mut a, &mut times, &mut windows, &mut acts[..1]);
    assert_eq!(short, (bare(SHORT_OUTPUT), Values::default()));
    assert_eq!((a, times, windows, acts), ([7; WINDOWS], [7; 3], [7; 3], [7; 3]));
    let unfinished = read_into(&GOOD[..GOOD.len() - 1], &mut a, &mut times, &mut windows, &mut acts[..1]);
    assert_eq!(unfinished, (answer(LINE, 0, 8), Values::default()));
    let whole = read_into(GOOD, &mut a, &mut times, &mut windows, &mut acts);
    assert_eq!(whole, (answer(ACCEPTED, 0, 2), VALUES));
    assert_eq!((a, times, windows, acts), (VALUES.a, [0, 3, 7], [1, 1, 7], [TRY, TEST, 7]));
}

#[test]
fn writer() {
    let mut output = [b'.'; 80];
    let mut written = |values, times: &[u64], windows: &[u64], acts: &[u64], room: usize| {
        (write(values, times, windows, acts, &mut output[..room]), output)
    };
    let refusals = [
        written(Values::equal(0, 0, 8, 12), &[], &[], &[], 80),
        written(Values::equal(2, 0, 8, 12), &[0], &[0], &[10], 80),
        written(VALUES, &[0, 0], &[1, 1], &[TRY, 10], 0),
        written(VALUES, &[10_000_000_000_000], &[0], &[WAIT], 80),
        written(VALUES, &[0], &[100_000_000], &[WAIT], 80),
        written(VALUES, &[0; 9_000], &[0; 9_000], &[WAIT; 9_000], 0),
        written(VALUES, &[0, 3], &[1, 1], &[TRY, TEST], GOOD.len() - 1),
    ];
    assert!(refusals.iter().all(|(_, output)| *output == [b'.'; 80]));
    let wanted = [
        bare(WINDOW_COUNT),
        bare(LIMITS),
        answer(LINE, 0, 8),
        answer(LINE, 0, 7),
        answer(LINE, 0, 7),
        bare(LENGTH),
        bare(SHORT_OUTPUT),
    ];
    assert_eq!(refusals.map(|(answer, _)| answer), wanted);
    let (whole, output) = written(VALUES, &[0, 3, 9], &[1, 1], &[TRY, TEST, 10], 80);
    assert_eq!(whole, answer(ACCEPTED, 0, GOOD.len() as u64));
    assert_eq!(output[..], [GOOD, &[b'.'; 80][GOOD.len()..]].concat());
}

/// [5.110] and [5.130] after each step.
#[test]
fn summaries_of_walks() {
    for recording in (0..400).filter_map(|index| read(&generate(2, index).text).ok()) {
        let (_, mut table) = fresh(recording.values);
        let mut summary = Summary::new();
        for taken in &recording.steps {
            let plain = step(table, taken.act, taken.window, taken.time);
            assert_eq!(recorded_step(table, &mut summary, taken.act, taken.window, taken.time), plain);
            table = plain.1;
            let selling = table.places.iter().filter(|place| **place == Place::Selling).count() as u64;
            assert!(selling <= 1, "one seller");
            assert_eq!(summary.entries, summary.exits + selling);
        }
    }
}

#[test]
fn a_list_is_read_as_it_was_written() {
    for index in 0..50 {
        let list = generate_list(30, 7, index);
        assert_eq!(list::read(&list::text(&list)), Some(list));
    }
    let own = list::read("2,8,12,5,7\n").expect("a list of no calls");
    assert_eq!(own.values, Values::new(2, 8, 12, &[5, 7]));
    assert_eq!(list::read("2,8,12,x\n"), None);
    assert_eq!(list::read(""), None);
}
