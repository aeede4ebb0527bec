//! The lists of calls that `store_outputs` gives to `run_lists`: that what they are stored for comes up in them.

use reference::answer::*;
use reference::generator::generate_list;
use reference::list::{make, Call, List};
use reference::machine::*;
use reference::reckoning::Reckoning;
use reference::summary::{recorded_step, Summary};

fn stored() -> impl Iterator<Item = List> {
    (0..10).map(|index| generate_list(64, 149, index))
}

/// A call, what it found, and its answer.
struct Made {
    call: Call,
    table: Table,
    answer: Answer,
}

fn made(list: List) -> Vec<Made> {
    let (_, mut table) = fresh(list.values);
    let mut calls = Vec::new();
    for call in list.calls {
        let (answer, after) = make(table, &mut call.clone());
        calls.push(Made { call, table, answer });
        table = after;
    }
    calls
}

impl Made {
    fn is_counted(&self, act: u64) -> bool {
        self.call.recorded && self.answer.number == ACCEPTED && self.call.act == act
    }

    /// Whether the clock advances in it while somebody tries.
    fn takes_time(&self) -> bool {
        let tried = self.table.places.iter().any(|place| place.is_trying());
        self.is_counted(self.call.act) && tried && self.call.moment > self.table.clock
    }

    /// What the acting window has waited before.
    fn waited(&self) -> u64 {
        self.call.summary.waited[self.call.window as usize - 1]
    }

    fn waited_without_trying(&self) -> bool {
        let sums = self.call.summary.waited.iter().zip(&self.table.places);
        self.takes_time() && sums.into_iter().any(|(&waited, place)| waited > 0 && !place.is_trying())
    }
}

#[test]
fn they_have_every_answer_of_a_recorded_step() {
    let mut numbers = [0; 17];
    for made in stored().flat_map(made) {
        numbers[made.answer.number as usize] += 1;
    }
    assert_eq!(numbers[1], 0);
    for number in [0, 2, 3, 4, 5, 6, 7, 8, 9, 10] {
        assert!(numbers[number] > 0, "no answer {number}");
    }
}

#[test]
fn they_have_time_in_which_nobody_sells_and_in_which_somebody_does() {
    let time = || stored().flat_map(made).filter(Made::takes_time);
    assert!(time().any(|made| made.table.seller() == 0));
    assert!(time().any(|made| made.table.seller() != 0));
    assert!(stored().flat_map(made).any(|made| made.waited_without_trying()));
}

#[test]
fn they_have_every_act_that_ends_what_was_waited() {
    for act in [TRY, CRIT, WITHDRAW] {
        assert!(stored().flat_map(made).any(|made| made.is_counted(act) && made.waited() > 0), "act {act}");
    }
}

/// Not by that of window 1.
#[test]
fn they_have_windows_that_are_late_by_an_a_of_their_own() {
    let by_own_a = |made: &Made| {
        let Answer { number, window, .. } = made.answer;
        let Table { values, .. } = made.table;
        let is_checking = || matches!(made.table.place(window), Place::Checking(_));
        number == LATE && !is_checking() && values.a_of(window) != values.a_of(1)
    };
    assert!(stored().flat_map(made).any(|made| by_own_a(&made)));
}

#[test]
fn each_comes_to_an_entry() {
    assert!(stored().all(|list| made(list).iter().any(|made| made.is_counted(CRIT))));
}

/// With the one summary that is lent to every step.
#[test]
fn they_have_waits_in_which_another_sold() {
    let mut sold_meanwhile = 0;
    for list in stored() {
        let (_, mut table) = fresh(list.values);
        let (mut one, mut reckoning) = (Summary::new(), Reckoning::default());
        for &Call { act, window, moment, .. } in &list.calls {
            let answer;
            (answer, table) = recorded_step(table, &mut one, act, window, moment);
            reckoning.after([act, window, moment], answer);
        }
        assert_eq!(reckoning.left(&table, &one), Ok(()));
        assert!(!reckoning.waits().is_empty(), "no entry");
        sold_meanwhile += reckoning.waits().iter().filter(|wait| wait.unused < wait.whole).count();
    }
    assert!(sold_meanwhile > 0);
}
