//! Waits, of which only unused time counts: what each act adds to whose sum and what it leaves, on tables of any make; and, over generated
//! lists, that every summary is the one that acts and answers alone come to.

use reference::answer::*;
use reference::board::{record_and_tell, set_up};
use reference::generator::{generate, generate_list};
use reference::list::make;
use reference::machine::*;
use reference::reckoning::{Reckoning, Wait};
use reference::recording::read;
use reference::summary::{recorded_step, Summary};

/// At clock 20 with windows 1 to 7 at these places, the first latest moment being 23.
fn table(places: [Place; 7]) -> Table {
    let (_, mut table) = fresh(Values::equal(8, 5, 8, 12));
    (table.clock, table.word) = (20, 4);
    table.places[..7].copy_from_slice(&places);
    table
}

/// Nobody sells, and each other place is taken.
const NOBODY_SELLS: [Place; 7] = [
    Place::Testing(18),
    Place::Setting(19),
    Place::Checking(13),
    Place::Entering(20),
    Place::Resetting(20),
    Place::Leaving(19),
    Place::Remainder,
];

/// A sound summary whose sums are all different: 1 of window 1, and 17 of each window from 17 on.
fn summary() -> Summary {
    Summary { waited: std::array::from_fn(|index| (index as u64 + 1).min(17)), ..Summary::new() }
}

/// The sums after an act that is accepted.
fn waited_after(table: Table, act: u64, window: u64, moment: u64) -> [u64; WINDOWS] {
    let mut summary = summary();
    let (answer, _) = recorded_step(table, &mut summary, act, window, moment);
    assert_eq!(answer.number, ACCEPTED, "act {act} of window {window} at {moment}");
    summary.waited
}

/// Those of the summary, with so much more for windows 1 to 4, and 0 for a window.
fn sums(more: u64, zero: Option<u64>) -> [u64; WINDOWS] {
    let mut waited = summary().waited;
    waited[..4].iter_mut().for_each(|waited| *waited += more);
    if let Some(window) = zero {
        waited[window as usize - 1] = 0;
    }
    waited
}

#[test]
fn each_who_tries_waits_while_nobody_sells() {
    let table = table(NOBODY_SELLS);
    for moment in [20, 21, 23] {
        let advance = moment - 20;
        for (act, window) in [(WAIT, 0), (TEST, 1), (SET, 2), (RESET, 5), (REM, 6)] {
            assert_eq!(waited_after(table, act, window, moment), sums(advance, None), "act {act}");
        }
        assert_eq!(waited_after(table, CHECK, 3, moment.max(21)), sums(moment.max(21) - 20, None));
        for (act, window) in [(TRY, 7), (TRY, 8), (CRIT, 4), (WITHDRAW, 1)] {
            assert_eq!(waited_after(table, act, window, moment), sums(advance, Some(window)), "act {act}");
        }
    }
}

#[test]
fn nobody_waits_while_one_sells_or_two_do() {
    let mut places = NOBODY_SELLS;
    places[4] = Place::Selling;
    let one = table(places);
    places[6] = Place::Selling;
    for table in [one, table(places)] {
        for (act, window) in [(WAIT, 0), (TEST, 1), (SET, 2), (CHECK, 3), (EXIT, 5), (REM, 6)] {
            assert_eq!(waited_after(table, act, window, 23), sums(0, None), "act {act}");
        }
        for (act, window) in [(TRY, 8), (CRIT, 4), (WITHDRAW, 1)] {
            assert_eq!(waited_after(table, act, window, 23), sums(0, Some(window)), "act {act}");
        }
    }
}

/// [5.100]
#[test]
fn a_refused_act_changes_no_sum() {
    let table = table(NOBODY_SELLS);
    let refused = [
        (WAIT, 0, 19, BACKWARD),
        (WAIT, 0, CLOCK_END + 1, END_OF_CLOCK),
        (10, 1, 22, NO_ACT),
        (CRIT, 9, 22, NO_WINDOW),
        (CRIT, 4, 24, LATE),
        (WITHDRAW, 2, 22, OUT_OF_PLACE),
        (CHECK, 3, 20, EARLY),
    ];
    for (act, window, moment, number) in refused {
        let mut lent = summary();
        assert_eq!(recorded_step(table, &mut lent, act, window, moment).0.number, number);
        assert_eq!(lent, Summary { refused: 1, ..summary() });
    }
}

/// [5.90]
#[test]
fn a_crit_ends_its_wait_with_its_own_advance() {
    let crit = |places, longest_wait, moment| {
        let mut lent = Summary { longest_wait, ..summary() };
        let (_, _, board) = record_and_tell(table(places), &mut lent, set_up(40).1, CRIT, 4, moment);
        (board.kept.last().map(|entry| entry.wait), lent.longest_wait, lent.entries)
    };
    assert_eq!(crit(NOBODY_SELLS, 0, 20), (Some(4), 4, 1));
    assert_eq!(crit(NOBODY_SELLS, 6, 23), (Some(7), 7, 1));
    assert_eq!(crit(NOBODY_SELLS, 7, 23), (Some(7), 7, 1));
    assert_eq!(crit(NOBODY_SELLS, 8, 23), (Some(7), 8, 1));
    let mut another_sells = NOBODY_SELLS;
    another_sells[6] = Place::Selling;
    assert_eq!(crit(another_sells, 0, 23), (Some(4), 4, 1));
    // late: nobody is let in
    assert_eq!(crit(NOBODY_SELLS, 0, 24), (None, 0, 0));
}

#[test]
fn no_other_act_ends_a_wait() {
    for (act, window) in [(WAIT, 0), (TRY, 7), (TEST, 1), (SET, 2), (RESET, 5), (REM, 6), (WITHDRAW, 1)] {
        let mut lent = summary();
        let (answer, _) = recorded_step(table(NOBODY_SELLS), &mut lent, act, window, 23);
        assert_eq!((answer.number, lent.longest_wait, lent.entries), (ACCEPTED, 0, 0), "act {act}");
    }
}

/// [5.40] Of every window, above n too; up to the clock's end.
#[test]
fn no_sum_may_be_past_the_clock() {
    let waits = |clock, window: usize, waited| {
        let table = Table { clock, ..fresh(Values::equal(2, 5, 8, 12)).1 };
        let mut lent = Summary::new();
        lent.waited[window] = waited;
        recorded_step(table, &mut lent, TRY, 1, clock).0.number
    };
    for (clock, window) in [0, 7, CLOCK_END].into_iter().flat_map(|clock| [0, 1, 2, 95].map(|w| (clock, w))) {
        assert_eq!(waits(clock, window, clock), ACCEPTED);
        assert_eq!(waits(clock, window, clock + 1), NO_SUMMARY);
        assert_eq!(waits(clock, window, u64::MAX), NO_SUMMARY);
    }
}

#[test]
fn a_wait_may_be_as_long_as_the_clock_goes() {
    let mut table = table(NOBODY_SELLS);
    (table.clock, table.places) = (CLOCK_END - 5, [Place::Remainder; WINDOWS]);
    table.places[3] = Place::Entering(CLOCK_END - 5);
    let mut lent = Summary::new();
    lent.waited[3] = CLOCK_END - 5;
    recorded_step(table, &mut lent, CRIT, 4, CLOCK_END);
    assert_eq!(lent, Summary { accepted: 1, entries: 1, longest_wait: CLOCK_END, ..Summary::new() });
}

/// A threaded list of steps with its table and its summary, which are what the acts come to, at every point.
struct Threaded {
    table: Table,
    summary: Summary,
    reckoning: Reckoning,
}

impl Threaded {
    fn new(values: Values) -> Threaded {
        Threaded { table: fresh(values).1, summary: Summary::new(), reckoning: Reckoning::default() }
    }

    fn step(&mut self, call @ [act, window, moment]: [u64; 3]) -> Answer {
        let answer;
        (answer, self.table) = recorded_step(self.table, &mut self.summary, act, window, moment);
        self.reckoning.after(call, answer);
        assert_eq!(self.reckoning.left(&self.table, &self.summary), Ok(()), "{call:?}");
        answer
    }

    /// A step that is accepted, and what the two windows have waited after it.
    fn waited(&mut self, act: u64, window: u64, moment: u64) -> [u64; 2] {
        assert_eq!(self.step([act, window, moment]).number, ACCEPTED, "act {act} at {moment}");
        [self.summary.waited[0], self.summary.waited[1]]
    }
}

/// The second window tries from 12 to 60, while the first one sells from 14 to 44: it has waited 2 and 16.
#[test]
fn a_sale_in_between_is_not_waited() {
    let mut list = Threaded::new(Values::equal(2, 5, 8, 12));
    assert_eq!(list.waited(TRY, 1, 0), [0, 0]);
    assert_eq!(list.waited(TEST, 1, 1), [1, 0]);
    assert_eq!(list.waited(SET, 1, 4), [4, 0]);
    assert_eq!(list.waited(TRY, 2, 12), [12, 0]);
    assert_eq!(list.waited(CHECK, 1, 13), [13, 1]);
    assert_eq!(list.waited(CRIT, 1, 14), [0, 2]);
    assert_eq!(list.summary.longest_wait, 14);
    for moment in [17, 22, 27, 32, 37, 42] {
        assert_eq!(list.waited(TEST, 2, moment), [0, 2]);
    }
    assert_eq!(list.waited(EXIT, 1, 44), [0, 2]);
    assert_eq!(list.waited(RESET, 1, 46), [0, 4]);
    assert_eq!(list.waited(TEST, 2, 47), [0, 5]);
    assert_eq!(list.waited(SET, 2, 49), [0, 7]);
    assert_eq!(list.waited(REM, 1, 50), [0, 8]);
    assert_eq!(list.waited(CHECK, 2, 57), [0, 15]);
    assert_eq!(list.waited(CRIT, 2, 60), [0, 0]);
    assert_eq!(list.summary.longest_wait, 18);
    assert_eq!(list.reckoning.waits(), [Wait { unused: 14, whole: 14 }, Wait { unused: 18, whole: 48 }]);
}

/// [5.120] to [5.128], at every point of them.
#[test]
fn recordings_come_to_what_is_reckoned() {
    let mut waits = Vec::new();
    for recording in (0..400).filter_map(|index| read(&generate(2, index).text).ok()) {
        let mut list = Threaded::new(recording.values);
        for step in &recording.steps {
            list.step([step.act, step.window, step.time]);
        }
        waits.extend_from_slice(list.reckoning.waits());
    }
    let sold_meanwhile = waits.iter().filter(|wait| wait.unused < wait.whole).count();
    assert!(waits.len() > 500 && sold_meanwhile > 100, "{sold_meanwhile} of {}", waits.len());
}

#[test]
fn lists_come_to_what_is_reckoned() {
    for list in (0..200).map(|index| generate_list(64, 5, index)) {
        let mut threaded = Threaded::new(list.values);
        for call in &list.calls {
            threaded.step([call.act, call.window, call.moment]);
        }
    }
}

/// [5.112] With summaries of every make.
#[test]
fn a_sound_summary_stays_sound() {
    let mut foreign = 0;
    for list in (0..200).map(|index| generate_list(64, 6, index)) {
        let (_, mut table) = fresh(list.values);
        for mut call in list.calls {
            let was_sound = call.summary.sound(table.clock);
            foreign += u64::from(was_sound && call.summary.waited.iter().any(|&waited| waited > 0));
            (_, table) = make(table, &mut call);
            assert!(!was_sound || call.summary.sound(table.clock));
        }
    }
    assert!(foreign > 1_000);
}

/// At a point at which window 1 has tried at 3 and waited 4 since.
#[test]
fn what_is_not_reckoned_is_found() {
    let mut list = Threaded::new(Values::equal(2, 5, 8, 12));
    list.waited(TRY, 1, 3);
    list.waited(WAIT, 0, 7);
    let Threaded { table, summary, reckoning } = list;
    let left = |change: fn(&mut Table, &mut Summary)| {
        let (mut table, mut summary) = (table, summary.clone());
        change(&mut table, &mut summary);
        reckoning.left(&table, &summary)
    };
    assert_eq!(left(|_, _| {}), Ok(()));
    assert!(left(|_, summary| summary.accepted = 1).is_err());
    assert!(left(|_, summary| summary.longest_wait = 4).is_err());
    assert!(left(|_, summary| summary.waited[0] = 3).is_err());
    assert!(left(|_, summary| summary.waited[1] = 4).is_err());
    assert!(left(|_, summary| summary.waited[95] = 1).is_err());
    assert!(left(|table, _| table.places[0] = Place::Remainder).is_err());
    assert!(left(|table, _| table.places[1] = Place::Selling).is_err());
    assert!(left(|table, _| table.clock = 6).is_err());
}
