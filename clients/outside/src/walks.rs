//! Random walks: calls on a table, a summary and a board of their own, which they bring up to date, and on damaged copies of these on the
//! way. Each call is held to what the reference makes of it.

use crate::calls::{self, Verdict};
use crate::course::Course;
use crate::handed::handed;
use crate::lists::{lent_summary, lent_table, Made};
use crate::sights::Sight;
use crate::tally::{of_board, of_other, Outcome};
use crate::{acts, boards, expected, taken_back, texts};
use reference::answer::{bare, Answer, ACCEPTED};
use reference::board::Told;
use reference::board_list::BoardCall;
use reference::generator::random::Random;

pub struct Walk {
    pub random: Random,
    pub own: Course,
}

impl Walk {
    pub fn new(mut random: Random) -> Walk {
        let own = Course::new(&mut random);
        Walk { random, own }
    }

    pub fn call(&mut self) -> Outcome {
        match self.random.below(100) {
            0 => texts::call(&mut self.random, &mut self.own.sights),
            1..=3 => of_other(self.fresh()),
            4 => of_other(self.new_summary()),
            5 | 6 => of_other(self.take_back()),
            // in a threaded walk every step is recorded
            7..=39 if !self.own.is_threaded() => of_other(self.step()),
            7..=74 => of_other(self.record()),
            75..=89 => self.record_and_tell(),
            90 => of_board(self.set_up_board()),
            91..=96 => of_board(self.add_to_board()),
            _ => of_board(self.show_board()),
        }
    }

    fn fresh(&mut self) -> (Answer, Verdict) {
        let handed = handed(&mut self.random, &self.own.table.values);
        let lent = lent_table(&mut self.random, &self.own.table, 50).numbers;
        let mut after = lent.clone();
        let answer = expected::fresh(handed.values(), &mut after);
        handed.look(answer, &mut self.own.sights);
        let verdict = calls::fresh(&handed, &lent, (answer, &after));
        (answer, verdict.map_err(|what| format!("fresh {handed:?}: {what}")))
    }

    fn new_summary(&mut self) -> (Answer, Verdict) {
        let lent = lent_summary(&mut self.random, self.own.table.clock, &self.own.summary).numbers;
        let mut after = lent.clone();
        let answer = expected::new_summary(&mut after);
        let verdict = calls::new_summary(&lent, (answer, &after));
        (answer, verdict.map_err(|what| format!("new summary: {what}")))
    }

    /// On a copy of the walk's table.
    fn take_back(&mut self) -> (Answer, Verdict) {
        let (answer, verdict) = taken_back::call(&mut self.random, &self.own.table);
        self.own.sights.look(Sight::TakenBack, answer.number == ACCEPTED);
        (answer, verdict)
    }

    fn step(&mut self) -> (Answer, Verdict) {
        let call @ [act, window, moment] = acts::act(&mut self.random, &self.own.table);
        let lent = lent_table(&mut self.random, &self.own.table, 15);
        let mut after = lent.numbers.clone();
        let answer = expected::step(&mut after, act, window, moment);
        let verdict = calls::step(&lent.numbers, call, (answer, &after));
        let verdict = verdict.and(self.own.step(&lent, call, answer, &after));
        (answer, verdict.map_err(|what| format!("step {call:?} on {:?}: {what}", lent.numbers)))
    }

    fn record(&mut self) -> (Answer, Verdict) {
        let call @ [act, window, moment] = acts::act(&mut self.random, &self.own.table);
        let table = lent_table(&mut self.random, &self.own.table, 10);
        let summary = lent_summary(&mut self.random, self.own.table.clock, &self.own.summary);
        let (mut after, mut counted) = (table.numbers.clone(), summary.numbers.clone());
        let answer = expected::record(&mut after, &mut counted, act, window, moment);
        let wanted = (answer, &after[..], &counted[..]);
        let verdict = calls::record(&table.numbers, &summary.numbers, call, wanted);
        let verdict = verdict.and(self.own.record([&table, &summary], call, answer, [&after, &counted]));
        let lists = (table.numbers, summary.numbers);
        (answer, verdict.map_err(|what| format!("record {call:?} on {lists:?}: {what}")))
    }

    fn record_and_tell(&mut self) -> Outcome {
        let call = acts::act_or_crit(&mut self.random, &self.own.table);
        let table = lent_table(&mut self.random, &self.own.table, 5);
        let summary = lent_summary(&mut self.random, self.own.table.clock, &self.own.summary);
        let board = boards::lent_board(&mut self.random, &self.own.board, 15);
        let lists = [&table.numbers, &summary.numbers, &board.numbers].map(|list| &list[..]);
        let [mut after, mut counted, mut told] = lists.map(<[u64]>::to_vec);
        let answers @ Told { step, board: answer } =
            expected::record_and_tell(&mut after, &mut counted, &mut told, call);
        let wanted = (answers, [&after[..], &counted, &told]);
        let verdict = calls::record_and_tell(lists, call, wanted);
        let mut verdict = verdict.and(self.own.record([&table, &summary], call, step, [&after, &counted]));
        let was_told = answer != bare(ACCEPTED);
        if was_told && answer.number == ACCEPTED {
            verdict = verdict.and(self.own.entry([&table, &summary], &told));
        }
        self.own.keep_board(board.own, &told);
        let verdict = verdict.map_err(|what| format!("record and tell {call:?} on {lists:?}: {what}"));
        Outcome { board: was_told.then_some(answer.number), ..of_other((step, verdict)) }
    }

    fn set_up_board(&mut self) -> (Answer, Verdict) {
        let mut w = boards::width(&mut self.random);
        if self.random.chance(50) {
            w = acts::any_number(&mut self.random, w);
        }
        let lent = boards::lent_board(&mut self.random, &self.own.board, 50);
        self.call_board(BoardCall::SetUp(w), lent)
    }

    fn add_to_board(&mut self) -> (Answer, Verdict) {
        let entry = boards::entry(&mut self.random, &self.own.board, self.own.table.clock);
        let lent = boards::lent_board(&mut self.random, &self.own.board, 20);
        self.call_board(BoardCall::Add(entry), lent)
    }

    fn show_board(&mut self) -> (Answer, Verdict) {
        let clock = boards::moment(&mut self.random, &self.own.board, self.own.table.clock);
        let lent = boards::lent_board(&mut self.random, &self.own.board, 20);
        self.call_board(BoardCall::Show(clock), lent)
    }

    fn call_board(&mut self, call: BoardCall, lent: Made) -> (Answer, Verdict) {
        let mut after = lent.numbers.clone();
        let (answer, verdict) = boards::make(call, &mut after);
        let own = match call {
            // whatever it was before; and one that is not set up would be refused for the rest of the walk
            BoardCall::SetUp(_) => answer.number == ACCEPTED,
            _ => lent.own,
        };
        self.own.keep_board(own, &after);
        (answer, verdict.map_err(|what| format!("{call:?} on the board {:?}: {what}", lent.numbers)))
    }
}
