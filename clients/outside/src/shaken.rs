//! Random notebooks: the accepted acts of a window, and the same by a clock that is off and shaken, by about as much as d and e allow; now and then
//! with other acts, with entries more or fewer, with times past their limit, and with places that do not count.

use crate::acts::any_number;
use crate::notebooks::{Lists, Notebooks};
use reference::generator::random::Random;
use reference::generator::walk::TURN;
use reference::machine::{CLOCK_END, LAST_ACT};
use reference::notebook::SHIFT_END;

/// Either of the two may be the till's.
pub fn notebooks(random: &mut Random, accepted: &Lists) -> Notebooks {
    let (d, e) = (reach(random), reach(random));
    let kept = part(random, accepted);
    let till = by_other_clock(random, &kept, d, e);
    let mut made = Notebooks { till, kept, d, e };
    if random.chance(50) {
        std::mem::swap(&mut made.till, &mut made.kept);
    }
    if random.chance(25) {
        let lists = either(random, &mut made);
        damage(random, lists);
    }
    for _ in 0..random.below(3) {
        let lists = either(random, &mut made);
        lengthen(random, lists);
    }
    made
}

fn either<'a>(random: &mut Random, made: &'a mut Notebooks) -> &'a mut Lists {
    if random.chance(50) {
        &mut made.till
    } else {
        &mut made.kept
    }
}

/// A d or an e, past its limit now and then.
fn reach(random: &mut Random) -> u64 {
    let any = random.between(0, SHIFT_END);
    match random.below(40) {
        0 => SHIFT_END + 1,
        1 => any_number(random, SHIFT_END),
        _ => random.pick(&[0, 1, 2, 7, 40, 1_000, any, SHIFT_END - 1, SHIFT_END, SHIFT_END]),
    }
}

/// All entries, or a few; now and then with a number that is no act.
fn part(random: &mut Random, accepted: &Lists) -> Lists {
    let mut part = accepted.clone();
    if random.chance(60) {
        let first = random.index(part.count() + 1);
        part.times.drain(..first);
        part.acts.drain(..first);
        let count = random.index(6);
        part.times.truncate(count);
        part.acts.truncate(count);
    }
    if let Some(act) = part.acts.last_mut().filter(|_| random.chance(5)) {
        *act = random.pick(&[0, LAST_ACT + 1, 1 << 63, u64::MAX]);
    }
    part
}

/// As a clock tells them that is off, and shaken at each of them; at one place now and then by 1 more than e.
fn by_other_clock(random: &mut Random, kept: &Lists, d: u64, e: u64) -> Lists {
    let [d, e] = [d, e].map(|reach| reach.min(SHIFT_END + 1) as i64);
    let off = off(random, kept, d, e);
    let mut told = kept.clone();
    shake(random, &mut told.times, off, e);
    if let Some(place) = a_place(random, kept.count()).filter(|_| random.chance(15)) {
        let beyond = random.pick(&[-e - 1, e + 1]);
        told.times[place] = kept.times[place].saturating_add_signed(off + beyond);
    }
    told
}

/// By how much the clock is ahead; or behind, below 0, if it tells no time before 0.
fn off(random: &mut Random, kept: &Lists, d: i64, e: i64) -> i64 {
    let ahead = ahead(random, d, e);
    let can_be_behind = kept.times.first().is_some_and(|&first| first as i64 > ahead + e);
    if can_be_behind && random.chance(50) {
        -ahead
    } else {
        ahead
    }
}

/// All by the same, all by anything up to e, or all by e or nothing.
fn shake(random: &mut Random, times: &mut [u64], off: i64, e: i64) {
    let kind = random.below(3);
    for time in times {
        let shaken = match kind {
            0 => 0,
            1 => random.below(2 * e as u64 + 1) as i64 - e,
            _ => random.pick(&[-e, 0, e]),
        };
        *time = time.saturating_add_signed(off + shaken);
    }
}

/// Within d, or with e within it just so; one further; and now and then by turns of 2^32 more.
fn ahead(random: &mut Random, d: i64, e: i64) -> i64 {
    let within = random.below(d as u64 + 1) as i64;
    let ahead = random.pick(&[0, within, within, within, d, d + 1, d + e, d + e + 1]);
    let turns = if random.chance(3) { random.between(1, 230) } else { 0 };
    ahead + (turns * TURN) as i64
}

/// The first, the last or any of so many, if there is one.
fn a_place(random: &mut Random, count: usize) -> Option<usize> {
    let last = count.checked_sub(1)?;
    let any = random.index(count);
    Some(random.pick(&[0, any, last]))
}

/// Other acts, an entry more or fewer, or a time past its limit.
fn damage(random: &mut Random, lists: &mut Lists) {
    let Some(place) = a_place(random, lists.count()) else { return add_entry(random, lists) };
    let Lists { times, acts } = lists;
    match random.below(8) {
        0 | 1 => acts[place] = acts[place] % LAST_ACT + 1,
        2 => acts[place] = any_number(random, acts[place]),
        3 => acts.swap(place, place.saturating_sub(1)),
        4 => {
            times.remove(place);
            acts.remove(place);
        }
        5 => random_list(random, lists).truncate(place),
        6 => times[place] = past_its_limit(random),
        _ => add_entry(random, lists),
    }
}

fn random_list<'a>(random: &mut Random, lists: &'a mut Lists) -> &'a mut Vec<u64> {
    if random.chance(50) {
        &mut lists.times
    } else {
        &mut lists.acts
    }
}

/// With a time like the last one, or past its limit.
fn add_entry(random: &mut Random, lists: &mut Lists) {
    let like_the_last = lists.times.last().copied().unwrap_or(0);
    let past = past_its_limit(random);
    lists.times.push(random.pick(&[like_the_last, past]));
    lists.acts.push(random.between(1, LAST_ACT));
}

fn past_its_limit(random: &mut Random) -> u64 {
    let any = any_number(random, CLOCK_END);
    random.pick(&[CLOCK_END + 1, CLOCK_END + 1, 1 << 63, u64::MAX, any])
}

/// By places that do not count.
fn lengthen(random: &mut Random, lists: &mut Lists) {
    let longer = lists.longer(random.chance(50));
    longer.extend((0..random.between(1, 3)).map(|_| past_its_limit(random)));
}
