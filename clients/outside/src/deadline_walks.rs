//! Random walks of the second engine: acts that both engines make on tables of their own, which match, and on the way calls on other pairs of
//! tables, sound and damaged, and on any numbers. Each call is held to what the reference makes of it.

use crate::acts;
use crate::calls::{self, Verdict};
use crate::deadline_lists::{any_numbers, lent_deadlines, output};
use crate::distances::{look_at_act, look_at_refused_deadlines, OF_BOTH};
use crate::encoding::{deadlines_in, table_in};
use crate::engines::{self, Pair};
use crate::expected;
use crate::handed::{handed, Handed};
use crate::lists::lent_table;
use crate::sights::{Sight, Sights};
use crate::tables::start;
use crate::tally::{of_deadlines, Outcome};
use funnelfawn::raw::{DEADLINES, TABLE};
use reference::answer::{Answer, ACCEPTED, NO_TABLE, SHORT_OUTPUT};
use reference::deadline::{to_deadlines, DeadlinePlace, DeadlineTable};
use reference::generator::deadlines::{damaged_pair, sound_pair, Damage};
use reference::generator::random::Random;
use reference::machine::{fresh, Table, CLOCK_END};

/// From here on a sum with a limit comes around.
const NEAR_2_64: u64 = u64::MAX - 20_000_000;

pub struct DeadlineWalk {
    pub random: Random,
    own: Pair,
    is_fresh: bool,
    pub sights: Sights,
}

impl DeadlineWalk {
    pub fn new(mut random: Random) -> DeadlineWalk {
        let table = start(&mut random);
        let own = Pair::new(&table, &to_deadlines(&table).1);
        let is_fresh = table == fresh(table.values).1;
        DeadlineWalk { random, own, is_fresh, sights: Sights::default() }
    }

    /// An act of both engines counts as one call, with the calls that hold the two tables to each other.
    pub fn call(&mut self) -> Outcome {
        of_deadlines(match self.random.below(50) {
            0 => engines::fresh(&self.handed()),
            1 | 2 => self.fresh(),
            3..=9 => self.step(),
            10..=14 => self.turn_to_deadlines(),
            15..=19 => self.turn_to_arrivals(),
            20..=24 => self.other_pair(),
            25..=31 => self.damaged_pair(),
            32 => self.any_numbers(),
            _ => self.act(),
        })
    }

    fn table(&self) -> Table {
        table_in(&self.own.table).expect("a table stays one")
    }

    fn deadlines(&self) -> DeadlineTable {
        deadlines_in(&self.own.deadlines).expect("a deadline table stays one")
    }

    fn handed(&mut self) -> Handed {
        let values = self.table().values;
        handed(&mut self.random, &values)
    }

    fn fresh(&mut self) -> (Answer, Verdict) {
        let (handed, deadlines) = (self.handed(), self.deadlines());
        let lent = lent_deadlines(&mut self.random, &deadlines, 50).numbers;
        let mut after = lent.clone();
        let answer = expected::fresh_deadlines(handed.values(), &mut after);
        handed.look(answer, &mut self.sights);
        let verdict = calls::fresh_deadlines(&handed, &lent, (answer, &after));
        (answer, verdict.map_err(|what| format!("fresh deadlines {handed:?}: {what}")))
    }

    /// Of the second engine alone, on a copy that is damaged mostly.
    fn step(&mut self) -> (Answer, Verdict) {
        let (table, deadlines) = (self.table(), self.deadlines());
        let call = acts::act(&mut self.random, &table);
        let lent = lent_deadlines(&mut self.random, &deadlines, 80).numbers;
        self.step_on(&lent, call)
    }

    fn any_numbers(&mut self) -> (Answer, Verdict) {
        let (table, deadlines) = (self.table(), self.deadlines());
        let call = acts::act(&mut self.random, &table);
        let lent = any_numbers(&mut self.random, &deadlines);
        self.step_on(&lent, call)
    }

    fn step_on(&mut self, lent: &[u64], call: [u64; 3]) -> (Answer, Verdict) {
        let mut after = lent.to_vec();
        let answer = expected::step_deadlines(&mut after, call);
        self.look_at_refused(deadlines_in(lent), answer);
        let verdict = calls::step_deadlines(lent, call, (answer, &after));
        (answer, verdict.map_err(|what| format!("{call:?} on the deadlines {lent:?}: {what}")))
    }

    fn turn_to_deadlines(&mut self) -> (Answer, Verdict) {
        let table = self.table();
        let lent = lent_table(&mut self.random, &table, 40).numbers;
        let out = output(&mut self.random, DEADLINES);
        let mut after = out.clone();
        let answer = expected::to_deadlines(&lent, &mut after);
        self.look_at_output(Sight::ToDeadlines, answer, out.len(), DEADLINES);
        let verdict = calls::to_deadlines(&lent, &out, (answer, &after));
        (answer, verdict.map_err(|what| format!("{lent:?} to {} deadlines: {what}", out.len())))
    }

    fn turn_to_arrivals(&mut self) -> (Answer, Verdict) {
        let deadlines = self.deadlines();
        let lent = lent_deadlines(&mut self.random, &deadlines, 60).numbers;
        let out = output(&mut self.random, TABLE);
        let mut after = out.clone();
        let answer = expected::to_arrivals(&lent, &mut after);
        self.look_at_output(Sight::ToArrivals, answer, out.len(), TABLE);
        let verdict = calls::to_arrivals(&lent, &out, (answer, &after));
        (answer, verdict.map_err(|what| format!("the deadlines {lent:?} to {} arrivals: {what}", out.len())))
    }

    fn act(&mut self) -> (Answer, Verdict) {
        let table = self.table();
        let call = acts::act(&mut self.random, &table);
        let (answer, verdict) = self.own.take(call);
        self.sights.look(Sight::BothFromFresh, self.is_fresh);
        look_at_act(&table, call[2], answer, OF_BOTH, &mut self.sights);
        self.look_at_both(&self.deadlines(), answer);
        (answer, verdict)
    }

    /// One act on a pair that no walk reaches.
    fn other_pair(&mut self) -> (Answer, Verdict) {
        let (table, deadlines) = sound_pair(&mut self.random);
        let call = acts::act(&mut self.random, &table);
        let mut pair = Pair::new(&table, &deadlines);
        let (answer, verdict) = pair.take(call);
        look_at_act(&table, call[2], answer, OF_BOTH, &mut self.sights);
        self.look_at_both(&deadlines_in(&pair.deadlines).expect("it stays one"), answer);
        (answer, verdict)
    }

    fn damaged_pair(&mut self) -> (Answer, Verdict) {
        let damage = self.random.pick(&Damage::ALL);
        let (table, deadlines) = damaged_pair(&mut self.random, damage);
        let own = self.table();
        let any = acts::act(&mut self.random, &own);
        // acts that the clock would let through, were the table sound
        let call = self.random.pick(&[any, [0, 0, deadlines.clock], [1, 1, deadlines.clock]]);
        let (answer, verdict) = engines::refuse(table.as_ref(), &deadlines, call);
        let kind = if table.is_some() { Sight::MatchesUnsound } else { Sight::MatchesNone };
        self.sights.look(kind, true);
        self.look_at_refused(Some(deadlines), answer);
        (answer, verdict.map_err(|what| format!("{damage:?}: {what}")))
    }

    /// After an act of both engines, which left this deadline table.
    fn look_at_both(&mut self, left: &DeadlineTable, answer: Answer) {
        let is_accepted = answer.number == ACCEPTED;
        let is_checking = |place: &DeadlinePlace| matches!(place, DeadlinePlace::Checking(_));
        let is_past = |place: &DeadlinePlace| place.moments().is_some_and(|moments| moments.last > CLOCK_END);
        self.sights.look(Sight::BothEngines, true);
        self.sights.look(Sight::BothInChecking, is_accepted && left.places.iter().any(is_checking));
        self.sights.look(Sight::BothPastTheEnd, is_accepted && left.places.iter().any(is_past));
    }

    fn look_at_refused(&mut self, lent: Option<DeadlineTable>, answer: Answer) {
        let Some(deadlines) = lent.filter(|_| answer.number == NO_TABLE) else { return };
        let is_near = |place: &DeadlinePlace| {
            place.moments().is_some_and(|moments| moments.first.max(moments.last) >= NEAR_2_64)
        };
        self.sights.look(Sight::Around, deadlines.places.iter().any(is_near));
        look_at_refused_deadlines(&deadlines, &mut self.sights);
    }

    fn look_at_output(&mut self, turned: Sight, answer: Answer, length: usize, needed: usize) {
        self.sights.look(turned, answer.number == ACCEPTED);
        self.sights.look(Sight::OtherOneShort, answer.number == SHORT_OUTPUT && length + 1 == needed);
        self.sights.look(Sight::OtherLonger, answer.number == ACCEPTED && length > needed);
    }
}
