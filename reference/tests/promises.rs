//! The promises of lists of calls: those of generated lists and recordings are kept, and a broken one is found.

use reference::answer::*;
use reference::generator::{generate, generate_list};
use reference::list;
use reference::machine::*;
use reference::promises::{Kept, Promises};
use reference::recording::{read, Recording};

/// 2c + 5a is 49.
const VALUES: Values = Values::equal(2, 5, 8, 12);

/// A list of steps from a fresh table on, whose promises are looked at.
struct Watched {
    table: Table,
    promises: Promises,
}

impl Watched {
    fn new(values: Values) -> Watched {
        Watched { table: fresh(values).1, promises: Promises::default() }
    }

    fn step(&mut self, act: u64, window: u64, moment: u64) -> (Answer, Kept) {
        let answer;
        (answer, self.table) = step(self.table, act, window, moment);
        (answer, self.look(act, window, moment, answer))
    }

    /// After a call that left the table.
    fn look(&mut self, act: u64, window: u64, moment: u64, answer: Answer) -> Kept {
        let table = self.table;
        let accepts = |[act, window, moment]: [u64; 3]| step(table, act, window, moment).0.number == ACCEPTED;
        self.promises.after([act, window, moment], answer, &table, accepts)
    }

    fn accepted(&mut self, act: u64, window: u64, moment: u64) {
        let (answer, kept) = self.step(act, window, moment);
        assert_eq!((answer.number, kept), (ACCEPTED, Ok(())));
    }

    /// What a machine that overlooks every latest moment would make of a wait.
    fn overlooked(&mut self, moment: u64) -> Kept {
        self.table.clock = moment;
        for place in &mut self.table.places {
            *place = if *place == Place::Remainder { *place } else { Place::Testing(moment) };
        }
        self.look(WAIT, 0, moment, answer(ACCEPTED, 0, moment))
    }
}

fn keeps_them(recording: Recording) {
    let mut watched = Watched::new(recording.values);
    for taken in &recording.steps {
        assert_eq!(watched.step(taken.act, taken.window, taken.time).1, Ok(()));
    }
}

#[test]
fn generated_recordings_keep_them() {
    (0..400).filter_map(|index| read(&generate(4, index).text).ok()).for_each(keeps_them);
}

/// In which a wait is longer than 2c + 5a would be by the smaller of two a.
#[test]
fn a_recording_with_windows_of_two_ages_keeps_them() {
    keeps_them(read(include_bytes!("../corpus/two-ages.in")).expect("a recording"));
}

#[test]
fn generated_lists_keep_them() {
    for list in (0..200).map(|index| generate_list(64, 5, index)) {
        let mut watched = Watched::new(list.values);
        for mut call in list.calls {
            let answer;
            (answer, watched.table) = list::make(watched.table, &mut call);
            assert_eq!(watched.look(call.act, call.window, call.moment, answer), Ok(()));
        }
    }
}

/// [8.144]
#[test]
fn where_all_withdraw_the_clock_runs_on() {
    let mut watched = Watched::new(VALUES);
    for (act, window, moment) in [(TRY, 1, 0), (TRY, 2, 0), (WITHDRAW, 1, 3), (WITHDRAW, 2, 5), (WAIT, 0, 50)]
    {
        watched.accepted(act, window, moment);
    }
}

/// After these calls, which are accepted, the clock may move on to `last` and no farther.
fn owed_until(last: u64, calls: [(u64, u64, u64); 3]) {
    let mut watched = Watched::new(VALUES);
    for (act, window, moment) in calls {
        watched.accepted(act, window, moment);
    }
    assert_eq!(watched.overlooked(last), Ok(()));
    assert!(watched.overlooked(last + 1).is_err());
}

#[test]
fn the_wait_is_owed_to_one_who_stays() {
    owed_until(49, [(TRY, 1, 0), (TRY, 2, 0), (WITHDRAW, 1, 3)]);
}

#[test]
fn one_who_comes_later_is_owed_a_wait_from_then_on() {
    owed_until(3 + 49, [(TRY, 1, 0), (TRY, 2, 3), (WITHDRAW, 1, 5)]);
}

#[test]
fn one_who_comes_back_has_withdrawn_all_the_same() {
    owed_until(9 + 49, [(TRY, 1, 0), (WITHDRAW, 1, 5), (TRY, 1, 9)]);
}

#[test]
fn a_crit_ends_the_span() {
    let mut watched = Watched::new(VALUES);
    for (act, moment) in [(TRY, 0), (TEST, 0), (SET, 0), (CHECK, 8), (CRIT, 8)] {
        watched.accepted(act, 1, moment);
    }
    watched.accepted(WAIT, 0, 1_000);
}

#[test]
fn two_sellers_are_found() {
    let mut watched = Watched::new(VALUES);
    watched.table.places[..2].fill(Place::Selling);
    assert!(watched.step(WAIT, 0, 0).1.is_err());
}

#[test]
fn a_seller_who_is_not_named_is_found() {
    let mut watched = Watched::new(VALUES);
    watched.table.places[1] = Place::Selling;
    assert_eq!(watched.look(WAIT, 0, 0, answer(ACCEPTED, 2, 0)), Ok(()));
    assert!(watched.look(WAIT, 0, 0, answer(ACCEPTED, 0, 0)).is_err());
}

#[test]
fn who_is_stuck_is_found() {
    let mut watched = Watched::new(VALUES);
    watched.accepted(TRY, 1, 0);
    watched.accepted(WAIT, 0, 5);
    let only = |acts: &'static [u64]| move |[act, _, _]: [u64; 3]| acts.contains(&act);
    let mut look =
        |acts| watched.promises.after([WAIT, 0, 5], answer(ACCEPTED, 0, 5), &watched.table, only(acts));
    assert_eq!(look(&[TEST]), Ok(()));
    assert!(look(&[WITHDRAW]).is_err());
    assert!(look(&[TEST, WAIT]).is_err(), "a wait past the latest moment");
}
