//! Calls of the library through `funnelfawn::raw`: each is made on lists as they are lent and held to what is expected of it.

use crate::encoding::LAYOUT;
use crate::handed::Handed;
use crate::lent::Lent;
use crate::notebooks::Notebooks;
use funnelfawn::raw;
use reference::answer::{Answer, ACCEPTED};
use reference::board::Told;
use reference::notebook::Comparison;

/// Behind every list that is lent.
const GUARD: u64 = 0xF0F0_F0F0_F0F0_F0F0;
const GUARD_BYTE: u8 = b'~';

/// What a call gave back is what it should be, or what differs first.
pub type Verdict = Result<(), String>;

/// The answer of a call beside the wanted one, and lists that it left beside what they should hold.
fn held<const LISTS: usize>(
    got: raw::Answer,
    wanted: Answer,
    lists: [(&str, &Lent<u64>, &[u64]); LISTS],
) -> Verdict {
    same_answer(got, wanted)?;
    let first = lists.into_iter().find_map(|(name, lent, wanted)| lent.difference(name, wanted));
    first.map_or(Ok(()), Err)
}

/// The same of a call that writes a text into lent bytes.
fn held_text(got: raw::Answer, lent: &Lent<u8>, wanted: (Answer, &[u8])) -> Verdict {
    same_answer(got, wanted.0)?;
    lent.difference("output", wanted.1).map_or(Ok(()), Err)
}

fn same_answer(got: raw::Answer, wanted: Answer) -> Verdict {
    let got = [got.number, got.window, got.moment];
    let wanted = [wanted.number, wanted.window, wanted.moment];
    if got != wanted {
        return Err(format!("the answer is {got:?}, not {wanted:?}"));
    }
    Ok(())
}

/// Whether the lists that are made here are those that the archive takes; says so if not.
pub fn same_layout() -> bool {
    let layouts = [raw::layout(), raw::LAYOUT];
    let same = layouts == [LAYOUT; 2];
    if !same {
        println!("the layouts of the archive and of the package are {layouts:?}, not {LAYOUT}");
    }
    same
}

/// The values of a are only read.
pub fn fresh(handed: &Handed, table: &[u64], wanted: (Answer, &[u64])) -> Verdict {
    let (mut values, mut lent) = (Lent::new(&handed.a, GUARD), Lent::new(table, GUARD));
    let got = raw::fresh(handed.n, handed.b, handed.c, values.list(), lent.list());
    held(got, wanted.0, [("a", &values, &handed.a), ("table", &lent, wanted.1)])
}

pub fn step(table: &[u64], [act, window, moment]: [u64; 3], wanted: (Answer, &[u64])) -> Verdict {
    let mut lent = Lent::new(table, GUARD);
    let got = raw::step(lent.list(), act, window, moment);
    held(got, wanted.0, [("table", &lent, wanted.1)])
}

/// Whether a step would be accepted; the list is left as it is.
pub fn accepts(table: &[u64], [act, window, moment]: [u64; 3]) -> bool {
    raw::step(&mut table.to_vec(), act, window, moment).number == ACCEPTED
}

pub fn new_summary(summary: &[u64], wanted: (Answer, &[u64])) -> Verdict {
    let mut lent = Lent::new(summary, GUARD);
    let got = raw::new_summary(lent.list());
    held(got, wanted.0, [("summary", &lent, wanted.1)])
}

pub fn record(
    table: &[u64],
    summary: &[u64],
    [act, window, moment]: [u64; 3],
    wanted: (Answer, &[u64], &[u64]),
) -> Verdict {
    let (mut table, mut summary) = (Lent::new(table, GUARD), Lent::new(summary, GUARD));
    let got = raw::record(table.list(), summary.list(), act, window, moment);
    held(got, wanted.0, [("table", &table, wanted.1), ("summary", &summary, wanted.2)])
}

pub fn set_up_board(w: u64, board: &[u64], wanted: (Answer, &[u64])) -> Verdict {
    let mut lent = Lent::new(board, GUARD);
    let got = raw::set_up_board(w, lent.list());
    held(got, wanted.0, [("board", &lent, wanted.1)])
}

pub fn add_to_board(board: &[u64], [moment, window, wait]: [u64; 3], wanted: (Answer, &[u64])) -> Verdict {
    let mut lent = Lent::new(board, GUARD);
    let got = raw::add_to_board(lent.list(), moment, window, wait);
    held(got, wanted.0, [("board", &lent, wanted.1)])
}

pub fn show_board(board: &[u64], clock: u64, wanted: (Answer, &[u64])) -> Verdict {
    let mut lent = Lent::new(board, GUARD);
    let got = raw::show_board(lent.list(), clock);
    held(got, wanted.0, [("board", &lent, wanted.1)])
}

/// The three lists are table, summary, board.
pub fn record_and_tell(
    lists: [&[u64]; 3],
    [act, window, moment]: [u64; 3],
    wanted: (Told, [&[u64]; 3]),
) -> Verdict {
    let [mut table, mut summary, mut board] = lists.map(|list| Lent::new(list, GUARD));
    let got = raw::record_and_tell(table.list(), summary.list(), board.list(), act, window, moment);
    let (answers, after) = wanted;
    let lists = [("table", &table, after[0]), ("summary", &summary, after[1]), ("board", &board, after[2])];
    held(got.step, answers.step, lists)?;
    same_answer(got.board, answers.board).map_err(|what| format!("of the board, {what}"))
}

pub fn fresh_deadlines(handed: &Handed, deadlines: &[u64], wanted: (Answer, &[u64])) -> Verdict {
    let (mut values, mut lent) = (Lent::new(&handed.a, GUARD), Lent::new(deadlines, GUARD));
    let got = raw::fresh_deadlines(handed.n, handed.b, handed.c, values.list(), lent.list());
    held(got, wanted.0, [("a", &values, &handed.a), ("deadlines", &lent, wanted.1)])
}

pub fn step_deadlines(
    deadlines: &[u64],
    [act, window, moment]: [u64; 3],
    wanted: (Answer, &[u64]),
) -> Verdict {
    let mut lent = Lent::new(deadlines, GUARD);
    let got = raw::step_deadlines(lent.list(), act, window, moment);
    held(got, wanted.0, [("deadlines", &lent, wanted.1)])
}

/// Of the two lists the first is only read.
pub fn to_deadlines(table: &[u64], deadlines: &[u64], wanted: (Answer, &[u64])) -> Verdict {
    let (mut read, mut written) = (Lent::new(table, GUARD), Lent::new(deadlines, GUARD));
    let got = raw::to_deadlines(read.list(), written.list());
    held(got, wanted.0, [("table", &read, table), ("deadlines", &written, wanted.1)])
}

pub fn to_arrivals(deadlines: &[u64], table: &[u64], wanted: (Answer, &[u64])) -> Verdict {
    let (mut read, mut written) = (Lent::new(deadlines, GUARD), Lent::new(table, GUARD));
    let got = raw::to_arrivals(read.list(), written.list());
    held(got, wanted.0, [("deadlines", &read, deadlines), ("table", &written, wanted.1)])
}

/// The four lists are values of a, times, windows, acts; beside the answer n, b and c are wanted.
pub fn read(text: &[u8], lists: &[Vec<u64>; 4], wanted: (Answer, [u64; 3], &[Vec<u64>; 4])) -> Verdict {
    let [mut a, mut times, mut windows, mut acts] = lists.each_ref().map(|list| Lent::new(list, GUARD));
    let got = raw::read(text, a.list(), times.list(), windows.list(), acts.list());
    let (answer, values, after) = wanted;
    let named = [("a", &a), ("times", &times), ("windows", &windows), ("acts", &acts)];
    let mut left = after.iter();
    held(got.answer, answer, named.map(|(name, lent)| (name, lent, &left.next().expect("four")[..])))?;
    let got = [got.n, got.b, got.c];
    if got != values {
        return Err(format!("n, b and c are {got:?}, not {values:?}"));
    }
    Ok(())
}

/// The three lists are times, windows, acts.
pub fn write(handed: &Handed, lists: &[Vec<u64>; 3], out: &[u8], wanted: (Answer, &[u8])) -> Verdict {
    let (mut values, mut lent) = (Lent::new(&handed.a, GUARD), Lent::new(out, GUARD_BYTE));
    let Handed { n, b, c, ref a } = *handed;
    let got = raw::write([n, b, c], values.list(), &lists[0], &lists[1], &lists[2], lent.list());
    values.difference("a", a).map_or(Ok(()), Err)?;
    held_text(got, &lent, wanted)
}

pub fn replay(text: &[u8], out: &[u8], wanted: (Answer, &[u8])) -> Verdict {
    let mut lent = Lent::new(out, GUARD_BYTE);
    let got = raw::replay(text, lent.list());
    held_text(got, &lent, wanted)
}

pub fn spans(text: &[u8], out: &[u8], wanted: (Answer, &[u8])) -> Verdict {
    let mut lent = Lent::new(out, GUARD_BYTE);
    let got = raw::spans(text, lent.list());
    held_text(got, &lent, wanted)
}

/// The two lists are times and acts.
pub fn accepted_acts(
    text: &[u8],
    window: u64,
    lists: &[Vec<u64>; 2],
    wanted: (Answer, &[Vec<u64>; 2]),
) -> Verdict {
    let [mut times, mut acts] = lists.each_ref().map(|list| Lent::new(list, GUARD));
    let got = raw::accepted_acts(text, window, times.list(), acts.list());
    let (answer, after) = wanted;
    held(got, answer, [("times", &times, &after[0]), ("acts", &acts, &after[1])])
}

/// All four lists are only read.
pub fn compare_logs(lent: &Notebooks, wanted: Comparison) -> Verdict {
    let Notebooks { till, kept, d, e } = lent;
    let lists = [&till.times, &till.acts, &kept.times, &kept.acts];
    let [mut till_times, mut till_acts, mut times, mut acts] = lists.map(|list| Lent::new(list, GUARD));
    let got = raw::compare_logs(till_times.list(), till_acts.list(), times.list(), acts.list(), *d, *e);
    let names = ["till's times", "till's acts", "box's times", "box's acts"];
    let left = [&till_times, &till_acts, &times, &acts];
    let mut read = names.into_iter().zip(left).zip(lists);
    read.find_map(|((name, left), list)| left.difference(name, list)).map_or(Ok(()), Err)?;
    same_comparison(got, wanted)
}

fn same_comparison(got: raw::Comparison, wanted: Comparison) -> Verdict {
    let raw::Comparison { number, window, shift } = got;
    let got = Comparison { number, window, shift };
    if got != wanted {
        return Err(format!("the answer is {got:?}, not {wanted:?}"));
    }
    Ok(())
}
