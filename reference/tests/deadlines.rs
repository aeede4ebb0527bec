//! The second engine, whose places hold first and last moments: at its edges, and beside the first one, from tables that match, sound or not,
//! over walks, lists and the corpus. And what goes from one kind of table to the other.

use reference::answer::*;
use reference::deadline::*;
use reference::generator::deadlines::{damaged_pair, sound_pair, Damage};
use reference::generator::random::Random;
use reference::generator::walk::Walk;
use reference::generator::{generate, generate_list};
use reference::list::number_of;
use reference::machine::*;
use reference::recording::{read, Recording, Step};
use std::collections::BTreeSet;
use std::fs;

const VALUES: Values = Values::equal(2, 5, 8, 12);
/// The numbers of the timed places.
const TIMED: [u64; 6] = [1, 2, 3, 4, 6, 7];

fn moments(first: u64, last: u64) -> Moments {
    Moments { first, last }
}

fn place(number: u64, first: u64, last: u64) -> DeadlinePlace {
    DeadlinePlace::numbered(number, moments(first, last)).expect("a place")
}

/// At clock 20, where window 1 is at that place and window 2 has the word.
fn table(place: DeadlinePlace) -> DeadlineTable {
    let mut table = DeadlineTable { clock: 20, word: 2, ..deadline_fresh(VALUES).1 };
    table.places[0] = place;
    table
}

// Acts

/// The place of window 1 after an act of it at moment 22, which is accepted.
fn at_22(table: DeadlineTable, act: u64) -> DeadlinePlace {
    let (answered, after) = deadline_step(table, act, 1, 22);
    assert_eq!((answered.number, after.clock), (ACCEPTED, 22));
    after.place(1)
}

/// [12.60]
#[test]
fn each_act_leads_to_its_place_and_moments() {
    use DeadlinePlace::*;
    let (before, check) = (moments(18, 23), moments(20, 24));
    let with_word = |word, place| DeadlineTable { word, ..table(place) };
    let due = moments(22, 27);
    assert_eq!(at_22(table(Remainder), TRY), Testing(due));
    assert_eq!(at_22(with_word(0, Testing(before)), TEST), Setting(due));
    assert_eq!(at_22(table(Setting(before)), SET), Checking(moments(30, 34)));
    assert_eq!(at_22(with_word(1, Checking(check)), CHECK), Entering(due));
    assert_eq!(at_22(table(Checking(check)), CHECK), Testing(due));
    assert_eq!(at_22(table(Entering(before)), CRIT), Selling);
    assert_eq!(at_22(table(Selling), EXIT), Resetting(due));
    assert_eq!(at_22(table(Resetting(before)), RESET), Leaving(due));
    assert_eq!(at_22(table(Leaving(before)), REM), Remainder);
    assert_eq!(at_22(table(Testing(before)), WITHDRAW), Remainder);
}

#[test]
fn a_failed_test_renews_both_moments() {
    let testing = |first, last| DeadlineTable { clock: first, ..table(place(1, first, last)) };
    let (answered, after) = deadline_step(testing(20, 25), TEST, 1, 25);
    assert_eq!((answered, after), (answer(ACCEPTED, 0, 25), testing(25, 30)));
    assert_eq!(deadline_step(after, TEST, 1, 30), (answer(ACCEPTED, 0, 30), testing(30, 35)));
}

/// Its last moment is from c, and so later than b: a window in checking is not late after a.
#[test]
fn a_check_is_in_time_from_its_first_moment_to_its_last() {
    let (answered, after) = deadline_step(table(place(2, 18, 23)), SET, 1, 21);
    assert_eq!((answered, after.word), (answer(ACCEPTED, 0, 21), 1));
    assert_eq!(after.place(1), place(3, 29, 33));
    assert_eq!(deadline_step(after, CHECK, 1, 28), (answer(EARLY, 1, 29), after));
    assert_eq!(deadline_step(after, CHECK, 1, 29).0, answer(ACCEPTED, 0, 29));
    assert_eq!(deadline_step(after, CHECK, 1, 33).0, answer(ACCEPTED, 0, 33));
    assert_eq!(deadline_step(after, CHECK, 1, 34), (answer(LATE, 1, 33), after));
}

#[test]
fn the_smallest_last_moment_and_its_lowest_window_are_told() {
    let mut busy = DeadlineTable { clock: 20, ..deadline_fresh(Values::equal(4, 5, 8, 12)).1 };
    busy.places[..3].copy_from_slice(&[place(7, 20, 25), place(3, 19, 23), place(1, 18, 23)]);
    assert_eq!(deadline_step(busy, WAIT, 0, 23).0, answer(ACCEPTED, 0, 23));
    for (act, window) in [(WAIT, 0), (REM, 1), (TEST, 3), (TRY, 4), (EXIT, 4)] {
        assert_eq!(deadline_step(busy, act, window, 24), (answer(LATE, 2, 23), busy));
    }
}

#[test]
fn two_sellers_are_sound_and_the_lowest_is_named() {
    let mut two = table(DeadlinePlace::Selling);
    two.places[1] = DeadlinePlace::Selling;
    assert_eq!(
        deadline_step(two, WAIT, 0, 99),
        (answer(ACCEPTED, 1, 99), DeadlineTable { clock: 99, ..two })
    );
}

/// [2.95]
#[test]
fn at_the_clocks_end_moments_go_past_it() {
    let setting = place(2, CLOCK_END - 5, CLOCK_END);
    let before = DeadlineTable { clock: CLOCK_END, ..table(setting) };
    assert_eq!(deadline_step(before, SET, 1, CLOCK_END + 1), (bare(END_OF_CLOCK), before));
    let (answered, after) = deadline_step(before, SET, 1, CLOCK_END);
    assert_eq!(answered, answer(ACCEPTED, 0, CLOCK_END));
    assert_eq!(after.place(1), place(3, CLOCK_END + 8, CLOCK_END + 12));
    assert_eq!(deadline_step(after, CHECK, 1, CLOCK_END), (answer(EARLY, 1, CLOCK_END + 8), after));
    assert_eq!(deadline_step(after, WAIT, 0, CLOCK_END), (answer(ACCEPTED, 0, CLOCK_END), after));
    let past = DeadlineTable { clock: CLOCK_END + 1, ..after };
    assert_eq!(deadline_step(past, WAIT, 0, CLOCK_END + 1), (bare(NO_TABLE), past));
}

/// A step of a walk at a sound table, or now and then any numbers.
fn any_step(random: &mut Random, table: Table) -> Step {
    let any = [0, 1, 3, 9, 10, 97, CLOCK_END, CLOCK_END + 1, u64::MAX];
    if random.chance(10) {
        return Step { time: random.pick(&any), window: random.pick(&any), act: random.pick(&any) };
    }
    Walk { random, table, focus: table.values.n, pause: 3 }.step(30)
}

/// [12.70] As the clause has it.
fn allowed(table: &DeadlineTable, step: Step) -> bool {
    let Step { time, window, act } = step;
    let place_left = |act: u64| [0, 1, 2, 3, 4, 5, 6, 7, 1][act as usize - 1];
    let reached = |place: DeadlinePlace| place.moments().is_none_or(|moments| moments.first <= time);
    let in_place = |place: DeadlinePlace| place.number() == place_left(act) && reached(place);
    (table.clock..=CLOCK_END).contains(&time)
        && table.places.iter().all(|place| place.moments().is_none_or(|moments| time <= moments.last))
        && match act {
            0 => window == 0,
            1..=9 => (1..=table.values.n).contains(&window) && in_place(table.place(window)),
            _ => false,
        }
}

#[test]
fn what_is_allowed_is_accepted() {
    let mut accepted = 0;
    for index in 0..20_000 {
        let mut random = Random::new(11, index);
        let (arrivals, table) = sound_pair(&mut random);
        let step = any_step(&mut random, arrivals);
        let (answer, _) = deadline_step(table, step.act, step.window, step.time);
        assert_eq!(answer.number == ACCEPTED, allowed(&table, step), "{step:?} at {table:?}");
        accepted += u64::from(answer.number == ACCEPTED);
    }
    assert!((5_000..15_000).contains(&accepted), "{accepted} are accepted");
}

// What is sound

/// The moments that an arrival of a window has by [2.90] and [2.100], be they too great for 64 bits.
fn moments_of(values: &Values, window: u64, number: u64, arrival: u64) -> [u128; 2] {
    let limits = if number == 3 { [values.b, values.c] } else { [0, values.a_of(window)] };
    limits.map(|limit| u128::from(arrival) + u128::from(limit))
}

/// [12.20] By sums, where `matching` has differences.
fn match_by_sums(table: &Table, deadlines: &DeadlineTable) -> bool {
    let alike = |window| {
        let (place, held) = (table.place(window), deadlines.place(window));
        let due = place.arrival().map(|arrival| moments_of(&table.values, window, number_of(place), arrival));
        let found = held.moments().map(|Moments { first, last }| [first, last].map(u128::from));
        number_of(place) == held.number() && due == found
    };
    table.values == deadlines.values
        && table.clock == deadlines.clock
        && table.word == deadlines.word
        && (1..=WINDOWS as u64).all(alike)
}

/// Whether window 1 of a sound table can be at the place of that number so that they match.
fn some_sound_table_matches(deadlines: &DeadlineTable, number: u64) -> bool {
    let &DeadlineTable { values, clock, word, .. } = deadlines;
    let mut table = Table { clock, word, ..fresh(values).1 };
    (0..=clock).any(|arrival| {
        table.places[0] = Place::numbered(number, arrival).expect("a place");
        table.sound() && match_by_sums(&table, deadlines)
    })
}

/// [12.35] With every two moments up to 20 in every timed place.
#[test]
fn sound_exactly_where_some_sound_table_matches() {
    let mut sound = 0;
    for (a, b, c, clock) in [(1, 2, 2, 0), (2, 3, 5, 4), (2, 4, 6, 7), (3, 5, 5, 9)] {
        // window 1 has its own a
        let empty = deadline_fresh(Values::new(2, b, c, &[a, 1])).1;
        for (number, first, last) in all_moments() {
            let mut table = DeadlineTable { clock, ..empty };
            table.places[0] = place(number, first, last);
            let matched = some_sound_table_matches(&table, number);
            assert_eq!(table.sound(), matched, "{table:?}");
            let due = if matched { answer(ACCEPTED, 0, clock) } else { bare(NO_TABLE) };
            assert_eq!(deadline_step(table, WAIT, 0, clock), (due, table));
            sound += u64::from(matched);
        }
    }
    // the arrivals of five places and of checking, from the limit before the clock on
    assert_eq!(sound, (5 + 1) + (5 * 3 + 5) + (5 * 3 + 7) + (5 * 4 + 6));
}

fn all_moments() -> impl Iterator<Item = (u64, u64, u64)> {
    let numbers = TIMED.into_iter().flat_map(|number| (0..=20).map(move |first| (number, first)));
    numbers.flat_map(|(number, first)| (0..=20).map(move |last| (number, first, last)))
}

/// Looks for 1, from a step and on the way to arrivals, and for the table unchanged.
fn gives_1(table: DeadlineTable) {
    assert!(!table.sound(), "{table:?}");
    for (act, window, moment) in [(WAIT, 0, table.clock), (TRY, 2, table.clock), (10, 97, u64::MAX)] {
        assert_eq!(deadline_step(table, act, window, moment), (bare(NO_TABLE), table));
    }
    assert_eq!(to_arrivals(&table), (bare(NO_TABLE), fresh(Values::default()).1));
}

#[test]
fn moments_of_different_arrivals_give_1() {
    assert!(table(place(1, 18, 23)).sound() && table(place(3, 24, 28)).sound());
    // from 19 to the last moment of 18, and the other way round
    gives_1(table(place(1, 19, 23)));
    gives_1(table(place(1, 18, 24)));
    gives_1(table(place(3, 25, 28)));
    gives_1(table(place(3, 24, 29)));
    // those of a check elsewhere, and those of another place in checking
    gives_1(table(place(4, 24, 28)));
    gives_1(table(place(3, 18, 23)));
}

#[test]
fn arrivals_after_the_clock_and_last_moments_before_it_give_1() {
    for number in TIMED {
        let at = |arrival: u64| {
            let [first, last] = moments_of(&VALUES, 1, number, arrival).map(|moment| moment as u64);
            table(place(number, first, last))
        };
        let limit = if number == 3 { 12 } else { 5 };
        assert!(at(20).sound() && at(20 - limit).sound());
        gives_1(at(21));
        gives_1(at(20 - limit - 1));
    }
}

/// By differences that come around, a check from 7 on would have arrived at 2^64 - 1.
#[test]
fn a_check_from_before_b_gives_1() {
    let start = |first, last| DeadlineTable { clock: 0, ..table(place(3, first, last)) };
    assert!(start(8, 12).sound());
    gives_1(start(7, 11));
    gives_1(start(0, 4));
}

#[test]
fn moments_near_the_end_of_64_bits_do_no_harm() {
    for number in TIMED {
        for first in [0, 4, 20, u64::MAX - 12, u64::MAX - 5, u64::MAX - 4, u64::MAX] {
            gives_1(table(place(number, first, u64::MAX)));
            gives_1(table(place(number, u64::MAX, first)));
            gives_1(DeadlineTable { clock: u64::MAX, ..table(place(number, first, first.wrapping_add(5))) });
        }
    }
    let values = Values::equal(2, u64::MAX, u64::MAX, u64::MAX);
    gives_1(DeadlineTable { values, ..table(place(3, u64::MAX, u64::MAX)) });
}

// Beside the first engine

/// Takes the step with both engines, from tables that match: the answers are the same, and what they leave matches.
fn step_alike(pair: (Table, DeadlineTable), step: Step) -> (Answer, (Table, DeadlineTable)) {
    let Step { time, window, act } = step;
    let (answer, table) = reference::machine::step(pair.0, act, window, time);
    let (same, deadlines) = deadline_step(pair.1, act, window, time);
    assert_eq!(same, answer, "{step:?} at {pair:?}");
    assert!(match_by_sums(&table, &deadlines) && matching(&table, &deadlines), "{step:?} at {pair:?}");
    (answer, (table, deadlines))
}

/// [12.82] Both fresh tables, which match and come with the same answer.
fn fresh_alike(values: Values) -> (Table, DeadlineTable) {
    let ((answer, table), (same, deadlines)) = (fresh(values), deadline_fresh(values));
    assert_eq!(same, answer);
    assert!(match_by_sums(&table, &deadlines) && matching(&table, &deadlines), "{values:?}");
    (table, deadlines)
}

#[test]
fn fresh_tables_match() {
    for n in [1, 2, 95, 96] {
        assert!(fresh_alike(Values::equal(n, 5, 8, 12)).1.sound());
    }
    let refused = [
        (Values::equal(0, 0, 8, 12), WINDOW_COUNT),
        (Values::equal(97, 5, 8, 12), WINDOW_COUNT),
        (Values::equal(2, 0, 8, 12), LIMITS),
        (Values { b: 5, ..VALUES }, LIMITS),
        (Values { c: 7, ..VALUES }, LIMITS),
        (Values { c: LIMIT_END + 1, ..VALUES }, LIMITS),
        (Values::equal(2, u64::MAX, u64::MAX, u64::MAX), LIMITS),
        (Values::new(2, 8, 12, &[5, 0]), LIMITS),
        (Values::new(2, 8, 12, &[5, 8]), LIMITS),
        (Values::new(2, 8, 12, &[5, 5, 5]), LIMITS),
    ];
    let blank = DeadlineTable { values: Values::default(), ..deadline_fresh(VALUES).1 };
    for (values, number) in refused {
        fresh_alike(values);
        assert_eq!(deadline_fresh(values), (bare(number), blank));
    }
    gives_1(blank);
}

/// Runs the steps with both engines, from fresh tables on; gives the numbers of the answers.
fn run_alike(values: Values, steps: impl IntoIterator<Item = Step>) -> BTreeSet<u64> {
    let mut pair = fresh_alike(values);
    let mut numbers = BTreeSet::new();
    for step in steps {
        let answer;
        (answer, pair) = step_alike(pair, step);
        numbers.insert(answer.number);
    }
    numbers
}

/// [12.85]
#[test]
fn walks_are_answered_alike() {
    let recordings = (0..1_000).filter_map(|index| read(&generate(12, index).text).ok());
    let numbers: BTreeSet<u64> =
        recordings.flat_map(|Recording { values, steps, .. }| run_alike(values, steps)).collect();
    assert_eq!(numbers, BTreeSet::from([0, 4, 5, 7, 8, 9, 10]));
}

/// [12.85] Such as no recording has, with acts above 9.
#[test]
fn lists_are_answered_alike() {
    let mut numbers = BTreeSet::new();
    for list in (0..400).map(|index| generate_list(60, 12, index)) {
        let steps =
            list.calls.iter().map(|call| Step { time: call.moment, window: call.window, act: call.act });
        numbers.extend(run_alike(list.values, steps));
    }
    assert_eq!(numbers, BTreeSet::from([0, 4, 5, 6, 7, 8, 9, 10]));
}

/// [12.80] Some steps on from any sound tables.
#[test]
fn sound_tables_of_any_make_are_answered_alike() {
    let mut numbers = BTreeSet::new();
    for index in 0..5_000 {
        let mut random = Random::new(13, index);
        let mut pair = sound_pair(&mut random);
        for _ in 0..4 {
            let step = any_step(&mut random, pair.0);
            let answer;
            (answer, pair) = step_alike(pair, step);
            numbers.insert(answer.number);
        }
    }
    assert_eq!(numbers, BTreeSet::from([0, 4, 5, 6, 7, 8, 9, 10]));
}

/// [12.35] [12.80] Those that match a table, and those that match none; of these there are many with some kinds of damage, and with others
/// there is nothing else.
#[test]
fn damaged_tables_give_1_alike() {
    for damage in Damage::ALL {
        let mut matched = 0;
        for index in 0..500 {
            let mut random = Random::new(14, index);
            let (table, deadlines) = damaged_pair(&mut random, damage);
            gives_1(deadlines);
            if let Some(table) = table {
                let step = Step { time: deadlines.clock, window: 0, act: WAIT };
                assert_eq!(step_alike((table, deadlines), step), (bare(NO_TABLE), (table, deadlines)));
                assert_eq!(to_deadlines(&table), (bare(NO_TABLE), deadline_fresh(Values::default()).1));
                matched += 1;
            }
        }
        let many = match damage {
            Damage::Apart | Damage::BelowB => 0..=0,
            Damage::Values | Damage::Clock | Damage::Huge => 100..=499,
            Damage::OwnLimit => 400..=499,
            Damage::Word | Damage::AboveN | Damage::Later | Damage::Past => 500..=500,
        };
        assert!(many.contains(&matched), "{damage:?} left {matched}");
    }
}

/// [12.20] Two tables that do not match, by one window or one number.
#[test]
fn what_differs_does_not_match() {
    let (found, deadlines) = step_alike(fresh_alike(VALUES), Step { time: 7, window: 2, act: TRY }).1;
    let at = |place| {
        let mut table = found;
        table.places[1] = place;
        table
    };
    let others = [
        Table { values: Values { c: 13, ..VALUES }, ..found },
        // the a of the other window
        Table { values: Values::new(2, 8, 12, &[4, 5]), ..found },
        Table { clock: 8, ..found },
        Table { word: 1, ..found },
        at(Place::Remainder),
        at(Place::Selling),
        at(Place::Testing(6)),
        at(Place::Setting(7)),
    ];
    for other in others {
        assert!(!matching(&other, &deadlines) && !match_by_sums(&other, &deadlines), "{other:?}");
    }
    let mut apart = deadlines;
    apart.places[1] = place(1, 7, 13);
    assert!(!matching(&found, &apart) && !match_by_sums(&found, &apart));
}

/// Limits that do not stand, by which both differences would come around to the same arrival.
#[test]
fn moments_that_come_around_do_not_match() {
    let values = Values { b: 9, c: 3, ..VALUES };
    let (mut table, mut deadlines) = fresh_alike(values);
    (table.values, deadlines.values) = (values, values);
    table.places[0] = Place::Checking(u64::MAX - 4);
    deadlines.places[0] = place(3, 4, u64::MAX - 1);
    assert!(!matching(&table, &deadlines) && !match_by_sums(&table, &deadlines));
}

// The corpus

/// What `replay` prints of a recording, from the answers of the second engine.
fn replayed(recording: &Recording) -> String {
    let (_, mut table) = deadline_fresh(recording.values);
    let mut printed = String::from("line,answer,window,moment\n");
    for (line, &Step { time, window, act }) in (recording.first_line..).zip(&recording.steps) {
        let answer;
        (answer, table) = deadline_step(table, act, window, time);
        printed += &format!("{line},{},{},{}\n", answer.number, answer.window, answer.moment);
    }
    printed
}

#[test]
fn the_corpus_comes_to_what_is_stored() {
    let mut run = 0;
    for file in fs::read_dir(concat!(env!("CARGO_MANIFEST_DIR"), "/corpus")).expect("the corpus") {
        let path = file.expect("a file").path();
        if path.extension().is_none_or(|ending| ending != "in") {
            continue;
        }
        let Ok(recording) = read(&fs::read(&path).expect("a recording")) else { continue };
        let stored = fs::read_to_string(path.with_extension("out")).expect("what replay prints");
        assert!(replayed(&recording).lines().eq(stored.lines()), "{path:?}");
        run += 1;
    }
    assert_eq!(run, 276);
}

// To and fro

/// [12.105]
#[test]
fn to_and_fro_are_inverse() {
    for index in 0..5_000 {
        let (table, deadlines) = sound_pair(&mut Random::new(15, index));
        assert!(match_by_sums(&table, &deadlines));
        assert_eq!(to_deadlines(&table), (bare(ACCEPTED), deadlines));
        assert_eq!(to_arrivals(&deadlines), (bare(ACCEPTED), table));
    }
}

#[test]
fn a_table_that_is_not_sound_goes_nowhere() {
    let (_, mut late) = to_arrivals(&table(place(1, 18, 23)));
    late.clock = 24;
    let refused = DeadlineTable { values: Values::default(), ..deadline_fresh(VALUES).1 };
    assert_eq!(to_deadlines(&late), (bare(NO_TABLE), refused));
    late.places[0] = Place::Leaving(u64::MAX);
    assert_eq!(to_deadlines(&late), (bare(NO_TABLE), refused));
}

// As numbers

#[test]
fn numbers_have_place_first_and_last() {
    let mut told = table(DeadlinePlace::Selling);
    told.values.a[..2].copy_from_slice(&[5, 7]);
    told.values.a[95] = 6;
    told.places[95] = place(3, 24, 28);
    let numbers = told.numbers();
    assert_eq!(numbers.len(), 389);
    assert_eq!(numbers[..8], [2, 8, 12, 20, 2, 5, 7, 0]);
    assert_eq!(numbers[99..107], [0, 6, 5, 0, 0, 0, 0, 0]);
    assert_eq!(numbers[383..], [0, 0, 0, 3, 24, 28]);
}

#[test]
fn numbers_there_and_back() {
    let huge = |index| damaged_pair(&mut Random::new(16, index), Damage::Huge).1;
    for table in (0..300).flat_map(|index| [sound_pair(&mut Random::new(16, index)).1, huge(index)]) {
        let numbers = table.numbers();
        assert_eq!(DeadlineTable::from_numbers(&numbers), Some(table));
        let longer = [&numbers[..], &[7777; 3]].concat();
        assert_eq!(DeadlineTable::from_numbers(&longer), Some(table));
        assert_eq!(DeadlineTable::from_numbers(&numbers[..388]), None);
    }
}

#[test]
fn numbers_that_tell_no_table() {
    let with_entry_2 = |entry: [u64; 3]| {
        let mut numbers = table(place(1, 18, 23)).numbers();
        numbers[104..107].copy_from_slice(&entry);
        DeadlineTable::from_numbers(&numbers).map(|table| table.place(2))
    };
    assert_eq!(with_entry_2([0, 0, 0]), Some(DeadlinePlace::Remainder));
    assert_eq!(with_entry_2([5, 0, 0]), Some(DeadlinePlace::Selling));
    assert_eq!(with_entry_2([7, 1, 0]), Some(place(7, 1, 0)));
    for entry in [[0, 1, 0], [0, 0, 1], [5, 20, 0], [5, 0, u64::MAX], [8, 0, 0], [u64::MAX, 18, 23]] {
        assert_eq!(with_entry_2(entry), None, "{entry:?}");
    }
    assert_eq!(DeadlineTable::from_numbers(&[]), None);
}
