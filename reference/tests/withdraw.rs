//! Withdraw, act 9: from every place and at every edge, in a summary and in a recording, and that generated walks come to all of these.

use reference::answer::*;
use reference::generator::generate;
use reference::list::number_of;
use reference::machine::*;
use reference::recording::{read, read_into, write};
use reference::summary::{recorded_step, Summary};
use std::collections::BTreeSet;

const VALUES: Values = Values::equal(2, 5, 8, 12);

/// At clock 20, where window 1 is at that place and window 2 has the word.
fn table(place: Place) -> Table {
    let mut table = Table { clock: 20, word: 2, ..fresh(VALUES).1 };
    table.places[0] = place;
    table
}

#[test]
fn it_leaves_testing_alone() {
    let others = [
        Place::Remainder,
        Place::Setting(18),
        Place::Checking(18),
        Place::Entering(18),
        Place::Selling,
        Place::Resetting(18),
        Place::Leaving(18),
    ];
    for place in others {
        let found = table(place);
        assert_eq!(step(found, WITHDRAW, 1, 20), (answer(OUT_OF_PLACE, 1, 0), found));
    }
    let after = table(Place::Remainder);
    assert_eq!(step(table(Place::Testing(18)), WITHDRAW, 1, 20), (answer(ACCEPTED, 0, 20), after));
}

#[test]
fn it_is_in_time_up_to_the_latest_moment() {
    let found = table(Place::Testing(18));
    assert_eq!(step(found, WITHDRAW, 1, 24), (answer(LATE, 1, 23), found));
    assert_eq!(step(found, WITHDRAW, 1, 23).0, answer(ACCEPTED, 0, 23));
}

/// [3.95]
#[test]
fn it_takes_a_try_back() {
    let before = table(Place::Remainder);
    let (tried, testing) = step(before, TRY, 1, 22);
    assert_eq!(tried.number, ACCEPTED);
    let after = Table { clock: 22, ..before };
    assert_eq!(step(testing, WITHDRAW, 1, 22), (answer(ACCEPTED, 0, 22), after));
}

#[test]
fn a_summary_counts_it_and_forgets_the_wait() {
    let mut summary = Summary { waited: [7; WINDOWS], ..Summary::new() };
    let mut wanted = Summary { accepted: 1, ..summary.clone() };
    wanted.waited[0] = 0;
    recorded_step(table(Place::Testing(18)), &mut summary, WITHDRAW, 1, 20);
    assert_eq!(summary, wanted);
    recorded_step(table(Place::Setting(18)), &mut summary, WITHDRAW, 1, 20);
    assert_eq!(summary, Summary { refused: 1, ..wanted });
}

#[test]
fn its_word_is_read_and_written() {
    let text = b"windows,b,c\n2,8,12\nwindow,a\n1,5\n2,5\ntime,window,act\n0,1,try\n3,1,withdraw\n";
    let (mut times, mut windows, mut acts) = ([0; 2], [0; 2], [0; 2]);
    let (reading, values) = read_into(text, &mut [0; WINDOWS], &mut times, &mut windows, &mut acts);
    assert_eq!((reading, values, acts), (answer(ACCEPTED, 0, 2), VALUES, [TRY, WITHDRAW]));
    let mut output = vec![0; text.len()];
    assert_eq!(write(values, &times, &windows, &acts, &mut output).number, ACCEPTED);
    assert_eq!(output, text);
}

/// What a withdraw meets in a walk.
#[derive(Clone, Copy, Debug, PartialEq, Eq, PartialOrd, Ord)]
enum Edge {
    AtItsTry,
    AtItsLatest,
    OneAfter,
    OutOfPlace(u64),
}

fn edges(table: &Table, last: [u64; 3], window: u64, moment: u64) -> Vec<Edge> {
    let place = table.place(window);
    let latest = table.first_latest().filter(|&(_, first)| first == window).map(|(latest, _)| latest);
    let testing = matches!(place, Place::Testing(_));
    let in_time = table.clock <= moment && table.first_latest().is_none_or(|(latest, _)| moment <= latest);
    let met = [
        (last == [TRY, window, moment], Edge::AtItsTry),
        (testing && latest == Some(moment), Edge::AtItsLatest),
        (testing && latest.is_some_and(|latest| moment == latest + 1), Edge::OneAfter),
        (!testing && in_time, Edge::OutOfPlace(number_of(place))),
    ];
    met.into_iter().filter_map(|(is_met, edge)| is_met.then_some(edge)).collect()
}

#[test]
fn walks_come_to_every_edge_of_it() {
    let mut met = BTreeSet::new();
    for recording in (0..400).filter_map(|index| read(&generate(1, index).text).ok()) {
        let (_, mut table) = fresh(recording.values);
        let mut last = [0; 3];
        for taken in &recording.steps {
            if taken.act == WITHDRAW && (1..=table.values.n).contains(&taken.window) {
                met.extend(edges(&table, last, taken.window, taken.time));
            }
            (_, table) = step(table, taken.act, taken.window, taken.time);
            last = [taken.act, taken.window, taken.time];
        }
    }
    let places = [0, 2, 3, 4, 5, 6, 7].map(Edge::OutOfPlace);
    let all = [Edge::AtItsTry, Edge::AtItsLatest, Edge::OneAfter].into_iter().chain(places);
    assert_eq!(met, all.collect());
}
