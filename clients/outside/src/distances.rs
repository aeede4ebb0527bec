//! What a step comes upon that shows how wide a distance from the clock is kept: latest moments too far away for 16 bits, moments further past
//! the clock than 32 bits tell, and tables that are not sound, but would be if their numbers were cut to 32 bits.

use crate::sights::{Sight, Sights};
use reference::answer::{Answer, ACCEPTED, LATE};
use reference::deadline::{DeadlinePlace, DeadlineTable, Moments};
use reference::generator::walk::TURN;
use reference::list::number_of;
use reference::machine::{Place, Table, Values};

/// What there is to see of an act: an advance of a turn or more, a latest moment that is far, a moment that is late by turns, and latest
/// moments in two turns of the clock.
type OfActs = [Sight; 4];

pub const OF_WALKS: OfActs = [Sight::TurnsAhead, Sight::Distant, Sight::TurnsLate, Sight::AcrossATurn];
pub const OF_BOTH: OfActs =
    [Sight::BothTurnsAhead, Sight::BothDistant, Sight::BothTurnsLate, Sight::BothAcrossATurn];

/// An act at a sound table, with the answer that is due.
pub fn look_at_act(table: &Table, moment: u64, answer: Answer, seen: OfActs, sights: &mut Sights) {
    let [ahead, distant, late, across] = seen;
    let advance = moment.saturating_sub(table.clock);
    sights.look(ahead, answer.number == ACCEPTED && advance >= TURN);
    if answer.number != LATE {
        return;
    }
    let distance = answer.moment - table.clock;
    let mut latest = (1..=table.values.n).filter_map(|window| table.latest(window));
    sights.look(distant, distance > u64::from(u16::MAX));
    sights.look(late, advance >= TURN && advance % TURN <= distance);
    sights.look(across, latest.any(|latest| latest / TURN != answer.moment / TURN));
}

/// A table that is not sound.
pub fn look_at_refused(table: &Table, sights: &mut Sights) {
    sights.look(Sight::ArrivalTurned, with_near_arrivals(table).sound());
    sights.look(Sight::LimitTurned, Table { values: in_32_bits(&table.values), ..*table }.sound());
}

/// A table of deadlines that is not sound.
pub fn look_at_refused_deadlines(deadlines: &DeadlineTable, sights: &mut Sights) {
    sights.look(Sight::MomentTurned, with_near_moments(deadlines).sound());
}

fn in_32_bits(values: &Values) -> Values {
    let &Values { n, b, c, a } = values;
    Values { n, b: b % TURN, c: c % TURN, a: a.map(|a| a % TURN) }
}

/// The last moment up to the clock that is turns away from an arrival.
fn near(clock: u64, arrival: u64) -> u64 {
    clock.wrapping_sub(clock.wrapping_sub(arrival) % TURN)
}

fn with_near_arrivals(table: &Table) -> Table {
    let near = |place: Place| {
        let arrival = near(table.clock, place.arrival().unwrap_or(0));
        Place::numbered(number_of(place), arrival).expect("a place's number")
    };
    Table { places: table.places.map(near), ..*table }
}

/// With the moments of the near arrival where the two that are there are turns away from them, together or one alone.
fn with_near_moments(deadlines: &DeadlineTable) -> DeadlineTable {
    let mut turned = *deadlines;
    for (place, a) in turned.places.iter_mut().zip(deadlines.values.a) {
        let Some(Moments { first, last }) = place.moments() else { continue };
        let is_checking = matches!(place, DeadlinePlace::Checking(_));
        let (least, most) = if is_checking { (deadlines.values.b, deadlines.values.c) } else { (0, a) };
        let arrival = near(deadlines.clock, first.wrapping_sub(least));
        let moments = Moments { first: arrival.wrapping_add(least), last: arrival.wrapping_add(most) };
        if last.wrapping_sub(moments.last) % TURN == 0 {
            *place = DeadlinePlace::numbered(place.number(), moments).expect("a place's number");
        }
    }
    turned
}
