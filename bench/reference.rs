//! The cases run through the recorded step of the reference, by value as it is; with `--cfg told` through that which tells a board.

mod cases;

#[cfg(told)]
use reference::board::{record_and_tell, set_up, Board, Told};
use reference::machine::{Place, Table, Values};
use reference::summary::Summary;
#[cfg(not(told))]
use reference::{answer::Answer, summary::recorded_step};

fn table_of(case: u64) -> Table {
    let [b, c] = cases::limits_of(case);
    let a = std::array::from_fn(|i| cases::a_of(case, i as u64 + 1));
    let places = std::array::from_fn(|i| {
        let (place, arrival) = cases::place_of(case, i as u64 + 1);
        Place::numbered(place, arrival).expect("a place")
    });
    Table {
        values: Values { n: cases::count_of(case), b, c, a },
        clock: cases::clock_of(case),
        word: cases::word_of(case),
        places,
    }
}

#[cfg(not(told))]
fn summary_of(case: u64) -> Summary {
    Summary { waited: std::array::from_fn(|i| cases::waited_of(case, i as u64 + 1)), ..Summary::new() }
}

/// A call, as one of the library is.
#[cfg(not(told))]
#[inline(never)]
fn called(table: Table, summary: &mut Summary, act: u64, window: u64, moment: u64) -> (Answer, Table) {
    recorded_step(table, summary, act, window, moment)
}

#[cfg(not(told))]
fn main() {
    let case = cases::chosen();
    let (mut table, mut summary) = (table_of(case), summary_of(case));
    let sum = cases::run(case, |[act, window, moment]| {
        let answer;
        (answer, table) = called(table, &mut summary, act, window, moment);
        [answer.number, answer.window, answer.moment]
    });
    say(sum, &table, &summary);
}

#[cfg(told)]
#[inline(never)]
fn called(
    table: Table,
    summary: &mut Summary,
    board: Board,
    act: u64,
    window: u64,
    moment: u64,
) -> (Told, Table, Board) {
    record_and_tell(table, summary, board, act, window, moment)
}

/// Accepted crits, a microsecond after one another, of which the board keeps 100.
#[cfg(told)]
fn main() {
    let case = cases::chosen();
    let (mut table, mut summary, (_, mut board)) = (table_of(case), Summary::new(), set_up(100));
    let sum = cases::run(case, |[act, window, moment]| {
        table.places[0] = Place::Entering(table.clock);
        // the board goes in, and for as long one without entries stands in for it
        let (_, other) = set_up(100);
        let handed = std::mem::replace(&mut board, other);
        let told;
        (told, table, board) = called(table, &mut summary, handed, act, window, moment);
        let Told { step, board } = told;
        [step.number + board.number, step.window + board.window, step.moment + board.moment]
    });
    say(sum, &table, &summary);
}

fn say(sum: u64, table: &Table, summary: &Summary) {
    let Summary { accepted, refused, entries, exits, longest_wait, .. } = summary;
    println!("{} {} {:?}", sum, table.clock, [accepted, refused, entries, exits, longest_wait]);
}
