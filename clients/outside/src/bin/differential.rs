//! differential [COUNT [SEED]]: makes COUNT random calls of the library, then as many of its second engine, and then a tenth as many of notebooks
//! and of accepted acts, and compares all that comes of them with the reference.
//! Exit status 0 only if the archive has the layout that is written out here, none differs, each number of an answer came up, from boards,
//! from spans, from the second engine, from accepted acts and from notebooks too, and so did all that `sights` names.

use outside::boards;
use outside::calls::{self, Verdict};
use outside::days::Day;
use outside::deadline_walks::DeadlineWalk;
use outside::sights::Sight;
use outside::tally::{of_board, Tally};
use outside::walks::Walk;
use reference::answer::Answer;
use reference::board_list::{BoardCall, FullList};
use reference::generator::boards::{list, Family};
use reference::generator::random::Random;
use std::process::exit;

const COUNT: u64 = 300_000;
const SEED: u64 = 1;
/// The calls of a walk or a day at most.
const LONGEST: u64 = 120;
/// The calls of a list on one board.
const LISTED: u64 = 6_000;
/// Such a list stands in the place of the last of so many walks.
const LISTS: u64 = 380;

fn main() {
    let Some((count, seed)) = arguments() else {
        eprintln!("usage: differential [COUNT [SEED]]");
        exit(2);
    };
    if !calls::same_layout() {
        exit(1);
    }
    let mut tally = Tally::default();
    let mut index = 0;
    while tally.calls < count {
        let make = if index % LISTS == LISTS - 1 { board_list } else { walk };
        make(seed, index, count, &mut tally);
        index += 1;
    }
    while tally.calls < 2 * count {
        deadline_walk(seed, index, 2 * count, &mut tally);
        index += 1;
    }
    let all = 2 * count + count / 10;
    while tally.calls < all {
        day(seed, index, all, &mut tally);
        index += 1;
    }
    exit(if tally.report() { 0 } else { 1 });
}

fn arguments() -> Option<(u64, u64)> {
    let mut words = std::env::args().skip(1).map(|word| word.parse());
    let count = words.next().unwrap_or(Ok(COUNT)).ok()?;
    let seed = words.next().unwrap_or(Ok(SEED)).ok()?;
    words.next().is_none().then_some((count, seed))
}

fn walk(seed: u64, index: u64, count: u64, tally: &mut Tally) {
    let mut walk = Walk::new(Random::new(seed, index));
    let length = walk.random.between(1, LONGEST).min(count - tally.calls);
    for call in 0..length {
        tally.count(walk.call(), || format!("seed {seed}, walk {index}, call {call}"));
    }
    tally.sights.add(&walk.own.sights);
}

fn deadline_walk(seed: u64, index: u64, count: u64, tally: &mut Tally) {
    let mut walk = DeadlineWalk::new(Random::new(seed, index));
    let length = walk.random.between(1, LONGEST).min(count - tally.calls);
    for call in 0..length {
        tally.count(walk.call(), || format!("seed {seed}, walk {index} of deadlines, call {call}"));
    }
    tally.sights.add(&walk.sights);
}

fn day(seed: u64, index: u64, count: u64, tally: &mut Tally) {
    let mut day = Day::new(Random::new(seed, index));
    let length = day.length(LONGEST).min(count - tally.calls);
    for call in 0..length {
        tally.count(day.call(), || format!("seed {seed}, day {index}, call {call}"));
    }
    tally.sights.add(&day.sights);
}

/// Calls of one board from setting up on, each with the numbers that the one before left. The answers are also held to the request's own
/// words, by a list of all entries that were accepted.
fn board_list(seed: u64, index: u64, count: u64, tally: &mut Tally) {
    let mut random = Random::new(seed, index);
    let family = Family::ALL[(index / LISTS) as usize % Family::ALL.len()];
    let calls = list(&mut random, family, LISTED.min(count - tally.calls));
    let mut numbers = boards::any_list(&mut random);
    let mut full = FullList::default();
    tally.sights.count(Sight::ListedCall, calls.len() as u64);
    for (place, call) in calls.into_iter().enumerate() {
        let first = numbers[2];
        let (answer, verdict) = boards::make(call, &mut numbers);
        let verdict = verdict.and(same(answer, full.answer(call)));
        // a setting up makes it 0 too
        tally.sights.look(Sight::Round, numbers[2] < first && !matches!(call, BoardCall::SetUp(_)));
        tally.count(of_board((answer, verdict)), || {
            format!("seed {seed}, list {index}, call {place}, {call:?}")
        });
    }
}

fn same(answer: Answer, worked_out: Answer) -> Verdict {
    if answer != worked_out {
        return Err(format!("of all entries since setting up, the answer is {worked_out:?}, not {answer:?}"));
    }
    Ok(())
}
