//! Lists of calls of a board from setting up on, whose moments follow the board so that it fills, entries expire, and the places of those
//! that were kept first are used again and again; refused calls are among them.

use super::random::Random;
use crate::board::*;
use crate::board_list::{make, BoardCall};
use crate::machine::CLOCK_END;

/// How the moments of a list go on.
#[derive(Clone, Copy, Debug, PartialEq, Eq)]
pub enum Family {
    /// By the same step, of which W has 1,024: the board fills, and from then on an entry expires where one comes.
    Stream,
    /// Hardly ever, so that many entries have the same moment, and when the board is full by leaps, at which many expire at once, or all.
    Crowds,
    /// So quickly that a few tens count.
    Few,
    /// A stream that comes to the clock's end, from which on nothing expires.
    ClockEnd,
    /// A stream with any numbers at every third call, in which the board is set up anew now and then.
    Wild,
}

impl Family {
    pub const ALL: [Family; 5] =
        [Family::Stream, Family::Crowds, Family::Few, Family::ClockEnd, Family::Wild];
}

/// A list of so many calls, the first of which sets the board up. Where that is refused, so are the next, until one sets it up again.
pub fn list(random: &mut Random, family: Family, count: u64) -> Vec<BoardCall> {
    let pace = Pace::new(random, family, count);
    let w = if random.chance(30) { out_of_range(random) } else { pace.w };
    let mut calls = vec![BoardCall::SetUp(w)];
    let (_, mut board) = set_up(w);
    for left in (1..count).rev() {
        let call = pace.call(random, &board, left);
        calls.push(call);
        (_, board) = make(board, call);
    }
    calls
}

fn out_of_range(random: &mut Random) -> u64 {
    random.pick(&[0, W_END + 1, 1 << 32, u64::MAX])
}

struct Pace {
    family: Family,
    w: u64,
    step: u64,
    /// The moment of the first call that is accepted.
    start: u64,
    /// Of waits that fall the longest is one of the oldest, so that it changes as these expire.
    falling: bool,
}

impl Pace {
    fn new(random: &mut Random, family: Family, count: u64) -> Pace {
        let places = ROOM as u64;
        let step = random.pick(&[1, 3, 1_000, W_END / places]);
        let any = random.between(1, W_END);
        let w = match family {
            Family::Crowds => random.pick(&[1, 2, 10, 1_000, W_END, any]),
            Family::Few => random.pick(&[1, 2, 40, 1_000, W_END, any]),
            Family::Stream | Family::ClockEnd | Family::Wild => places * step,
        };
        let start = match family {
            // the end comes before the last calls
            Family::ClockEnd => CLOCK_END.saturating_sub(count * step * 3 / 4),
            _ => random.pick(&[0, 1, CLOCK_END / 4]),
        };
        Pace { family, w, step, start, falling: random.chance(50) }
    }

    fn call(&self, random: &mut Random, board: &Board, left: u64) -> BoardCall {
        if let Some(w) = self.anew(random, board) {
            return BoardCall::SetUp(w);
        }
        let wait = if self.falling { left + random.below(40) } else { wait(random) };
        let mut entry = Entry { moment: self.moment(random, board), window: random.between(1, 96), wait };
        if random.chance(if self.family == Family::Wild { 33 } else { 3 }) {
            exceed(random, board, &mut entry);
        }
        if random.chance(10) {
            BoardCall::Show(entry.moment)
        } else {
            BoardCall::Add(entry)
        }
    }

    /// Sets a refused board up before long, and in a wild list any board now and then.
    fn anew(&self, random: &mut Random, board: &Board) -> Option<u64> {
        let refused = board.w == 0;
        if refused && random.chance(10) {
            return Some(self.w);
        }
        let again = !refused && self.family == Family::Wild && random.below(5_000) == 0;
        again.then(|| if random.chance(50) { out_of_range(random) } else { self.w })
    }

    fn moment(&self, random: &mut Random, board: &Board) -> u64 {
        let last = board.last.max(self.start);
        match self.family {
            Family::Crowds => last + leap(random, board),
            Family::Few => last + random.between(0, (self.w / 16).max(1)),
            Family::ClockEnd if random.chance(95) => (last + self.step).min(CLOCK_END),
            // sometimes an entry comes before the oldest has expired
            _ if random.chance(12) => last,
            _ => last + self.step,
        }
    }
}

/// Mostly nowhere; a little way while there is room, and from a full board on to where a kept entry expires, the oldest, the last or any, or
/// to the moment before that.
fn leap(random: &mut Random, board: &Board) -> u64 {
    let full = board.kept.len() == ROOM;
    if random.below(if full { 10 } else { 60 }) > 0 {
        return 0;
    }
    if !full {
        return board.w / 32;
    }
    let any = random.index(ROOM);
    let expiry = board.kept[random.pick(&[0, any, ROOM - 1])].moment + board.w;
    random.pick(&[expiry - 1, expiry, expiry]) - board.last
}

/// Small ones are as likely as great ones, so that few can be the longest.
fn wait(random: &mut Random) -> u64 {
    match random.below(2_000) {
        0 => u64::MAX,
        1..=100 => 0,
        _ => random.below(u64::MAX) >> random.below(64),
    }
}

/// A moment or a window that is refused by most boards.
fn exceed(random: &mut Random, board: &Board, entry: &mut Entry) {
    let last = board.last;
    if random.chance(60) {
        entry.moment = random.pick(&[0, last / 2, last.saturating_sub(1), CLOCK_END + 1, 1 << 63, u64::MAX]);
    } else {
        entry.window = random.pick(&[0, 97, 1 << 32, u64::MAX]);
    }
}
