//! Random boards as lent numbers: new ones, those that a long sale leaves, full ones, damaged and short ones; and what they are told.

use crate::acts::any_number;
use crate::calls::{self, Verdict};
use crate::encoding::entry_at;
use crate::expected;
use crate::lists::{change, cut, lengthen, Made};
use funnelfawn::raw::{BOARD, BOARD_HEADER, PLACES};
use reference::answer::Answer;
use reference::board::{Entry, W_END};
use reference::board_list::BoardCall;
use reference::generator::random::Random;
use reference::machine::CLOCK_END;

/// Makes a call on lent numbers, which become those that it has to leave: the answer that is due, and whether it and all numbers came.
pub fn make(call: BoardCall, numbers: &mut [u64]) -> (Answer, Verdict) {
    let lent = numbers.to_vec();
    match call {
        BoardCall::SetUp(w) => {
            let answer = expected::set_up_board(w, numbers);
            (answer, calls::set_up_board(w, &lent, (answer, numbers)))
        }
        BoardCall::Add(Entry { moment, window, wait }) => {
            let entry = [moment, window, wait];
            let answer = expected::add_to_board(numbers, entry);
            (answer, calls::add_to_board(&lent, entry, (answer, numbers)))
        }
        BoardCall::Show(clock) => {
            let answer = expected::show_board(numbers, clock);
            (answer, calls::show_board(&lent, clock, (answer, numbers)))
        }
    }
}

/// As many numbers as a board has, or a few more: any, or those of an older board.
pub fn any_list(random: &mut Random) -> Vec<u64> {
    let mut numbers = if random.chance(50) {
        start(random, CLOCK_END)
    } else {
        (0..BOARD).map(|_| any_number(random, 0)).collect()
    };
    numbers.extend((0..random.below(5)).map(|_| random.below(u64::MAX)));
    numbers
}

/// A width in its range, mostly one that entries of a walk outlive.
pub fn width(random: &mut Random) -> u64 {
    let any = random.between(1, W_END);
    random.pick(&[1, 2, 10, 10, 40, 40, 1_000, W_END - 1, W_END, any])
}

/// The numbers of a sound board beside a table at that clock: empty, or with any entries at the last moments before it.
pub fn start(random: &mut Random, clock: u64) -> Vec<u64> {
    // what stands at places that are not kept is of no account
    let mut board = vec![random.pick(&[0, 7777, u64::MAX]); BOARD];
    let w = width(random);
    board[..BOARD_HEADER].copy_from_slice(&[w, 0, 0, 0]);
    if random.chance(60) {
        fill(random, clock, &mut board);
    }
    board
}

/// Entries from any place on, the first so old that a few, or all, may have expired.
fn fill(random: &mut Random, clock: u64, board: &mut [u64]) {
    let most = random.below(PLACES as u64);
    let count = random.pick(&[0, 1, 2, 5, 100, most, PLACES as u64 - 1, PLACES as u64, PLACES as u64]);
    let first = random.pick(&[0, 1, PLACES - count as usize / 2 - 1, PLACES - 1]);
    let span = random.pick(&[0, 1, 3, 30, 1_000]).max(if random.chance(10) { board[0] } else { 0 });
    let oldest = clock.saturating_sub(span);
    let mut moment = oldest;
    for place in first..first + count as usize {
        if random.chance(10) {
            moment = random.between(moment, clock);
        }
        let wait = random.pick(&[0, 1, 12, moment, u64::MAX]);
        board[entry_at(place)].copy_from_slice(&[moment, random.between(1, 96), wait]);
    }
    let last = random.pick(&[moment, moment, clock]);
    board[1..BOARD_HEADER].copy_from_slice(&[last, first as u64, count]);
}

/// The walk's own board, of which some numbers are damaged or missing that many times in a hundred; some have more numbers behind them.
pub fn lent_board(random: &mut Random, own: &[u64], percent: u64) -> Made {
    let mut numbers = own.to_vec();
    let own = !random.chance(percent);
    if !own {
        damage(random, &mut numbers);
    }
    lengthen(random, &mut numbers);
    Made { numbers, own }
}

fn damage(random: &mut Random, numbers: &mut Vec<u64>) {
    match random.below(8) {
        0 => change(random, &mut numbers[..BOARD_HEADER]),
        1 => change(random, numbers),
        2 => edge(random, numbers),
        3 => numbers[1] = last_moment(numbers).wrapping_sub(1),
        4 => numbers[1] = random.pick(&[CLOCK_END, CLOCK_END + 1, u64::MAX]),
        5 | 6 => misplaced(random, numbers),
        _ => cut(random, numbers),
    }
}

/// One number of the first four at the end of its rule, or just outside.
fn edge(random: &mut Random, numbers: &mut [u64]) {
    let places = PLACES as u64;
    let edges = [
        (0, 0),
        (0, 1),
        (0, W_END),
        (0, W_END + 1),
        (2, places - 1),
        (2, places),
        (2, places + 1),
        (3, places),
        (3, places + 1),
        (3, u64::MAX),
    ];
    let (place, number) = random.pick(&edges);
    numbers[place] = number;
}

/// The moment of the last kept entry, or what stands at the place before the first.
fn last_moment(numbers: &[u64]) -> u64 {
    numbers[entry_at((numbers[2] + numbers[3]) as usize + PLACES - 1)][0]
}

/// The moment of a kept entry, expired or not, at or one past that of its neighbours, or anywhere; windows and waits may be anything.
fn misplaced(random: &mut Random, numbers: &mut [u64]) {
    let place = numbers[2] as usize + random.index(numbers[3].max(1) as usize);
    let moment_of = |place: usize| numbers[entry_at(place)][0];
    let (before, after) = (moment_of(place + PLACES - 1), moment_of(place + 1));
    let any = any_number(random, moment_of(place));
    let moments = [before, before.wrapping_sub(1), after, after.wrapping_add(1), any];
    let entry = &mut numbers[entry_at(place)];
    entry[0] = random.pick(&moments);
    entry[1] = any_number(random, entry[1]);
}

/// A moment or clock for a board: about the last one told, about where entries expire, or the clock of the table beside it; now and then
/// any number.
pub fn moment(random: &mut Random, board: &[u64], clock: u64) -> u64 {
    let (w, last) = (board[0], board[1]);
    let oldest = board[entry_at(board[2] as usize)][0];
    let kept = board[entry_at(board[2] as usize + random.index(board[3].max(1) as usize))][0];
    let expiry = random.pick(&[oldest, kept, last]).saturating_add(w);
    let moment = match random.below(20) {
        0 => last.saturating_sub(1),
        1 => last + random.below(5),
        2 => expiry.saturating_sub(1),
        3 | 4 => expiry,
        5 => random.pick(&[CLOCK_END - 1, CLOCK_END, CLOCK_END + 1, u64::MAX]),
        6 => any_number(random, last),
        7..=9 => last,
        _ => clock.max(last),
    };
    // a board that has come to the clock's end is told no more: most walks stay away from it
    if moment > clock.saturating_add(1_000) && random.chance(70) {
        last
    } else {
        moment
    }
}

pub fn entry(random: &mut Random, board: &[u64], clock: u64) -> Entry {
    let mut window = random.between(1, 96);
    if random.chance(8) {
        window = random.pick(&[0, 97, u64::MAX]);
    }
    let wait = random.pick(&[0, 1, 40, CLOCK_END, u64::MAX]);
    Entry { moment: moment(random, board, clock), window, wait }
}
