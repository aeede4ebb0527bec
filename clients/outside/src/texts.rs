//! Random calls of the reader, the writer, `replay` and spans, on generated recordings and with lists and outputs that just suffice or not.

use crate::acts::any_number;
use crate::calls::{self, Verdict};
use crate::expected;
use crate::handed::{handed, Handed};
use crate::sights::{Sight, Sights};
use crate::spans;
use crate::tally::{of_other, of_spans, Outcome};
use reference::answer::{Answer, ACCEPTED, LENGTH, SHORT_OUTPUT};
use reference::generator::generate;
use reference::generator::random::Random;
use reference::machine::{Values, WINDOWS};
use reference::recording::{self, Recording, Step, TEXT_END};

/// How a recording of the former shape begins.
const FORMER: &[u8] = b"windows,a,b,c\n";

pub fn call(random: &mut Random, sights: &mut Sights) -> Outcome {
    let text = generate(random.below(1 << 32), 0).text;
    match random.below(5) {
        0 => of_other(read(random, &text, sights)),
        1 => of_other(write(random, &text, sights)),
        2 => of_other(replay(random, &text)),
        _ => of_spans(spans::call(random, &text, sights)),
    }
}

/// A length that suffices just so, or is short by one, or long by a few.
fn about(random: &mut Random, needed: usize) -> usize {
    match random.below(8) {
        0 => needed.saturating_sub(1),
        1 | 2 => needed + random.index(4),
        _ => needed,
    }
}

fn read(random: &mut Random, text: &[u8], sights: &mut Sights) -> (Answer, Verdict) {
    let needed = recording::read(text).map_or(3, |recording| recording.steps.len());
    let lists = [WINDOWS, needed, needed, needed].map(|needed| vec![7777; about(random, needed)]);
    let mut after = lists.clone();
    let [a, times, windows, acts] = &mut after;
    let (answer, Values { n, b, c, .. }) = recording::read_into(text, a, times, windows, acts);
    let is_former = text.starts_with(FORMER);
    sights.look(Sight::ReadNew, answer.number == ACCEPTED && !is_former);
    sights.look(Sight::ReadFormer, answer.number == ACCEPTED && is_former);
    let has_room = lists[1..].iter().all(|list| list.len() >= needed);
    sights.look(Sight::NoRoomForValues, answer.number == SHORT_OUTPUT && has_room);
    (answer, calls::read(text, &lists, (answer, [n, b, c], &after)))
}

/// What a text has, written again, with what the writing is handed and its steps damaged now and then.
fn write(random: &mut Random, text: &[u8], sights: &mut Sights) -> (Answer, Verdict) {
    let is_long = random.chance(15);
    let text = if is_long { repeated(text) } else { text.to_vec() };
    let is_former = text.starts_with(FORMER);
    let empty = Recording { values: Values::equal(1, 1, 2, 2), first_line: 6, steps: Vec::new() };
    let Recording { values, mut steps, .. } = recording::read(&text).unwrap_or(empty);
    let is_repeated = random.chance(5);
    if is_repeated {
        steps = steps.repeat(10_000 / steps.len().max(1));
    }
    let column = |number: fn(&Step) -> u64| steps.iter().map(number).collect::<Vec<u64>>();
    let mut lists = [column(|step| step.time), column(|step| step.window), column(|step| step.act)];
    let handed = if random.chance(40) { handed(random, &values) } else { Handed::read(&values) };
    if random.chance(25) && !steps.is_empty() {
        let (list, place) = (random.index(3), random.index(steps.len()));
        lists[list][place] = any_number(random, lists[list][place]);
    }
    let longer = random.index(3);
    lists[longer].push(7777);
    let write = |out: &mut [u8]| recording::write(handed.values(), &lists[0], &lists[1], &lists[2], out);
    let whole = write(&mut vec![0; TEXT_END]);
    let needed = if whole.number == ACCEPTED { whole.moment as usize } else { text.len() };
    let out = vec![b'#'; about(random, needed)];
    let mut after = out.clone();
    let answer = write(&mut after);
    handed.look(answer, sights);
    sights.look(Sight::FormerWritten, answer.number == ACCEPTED && is_former);
    sights.look(Sight::FormerTooLong, answer.number == LENGTH && is_former && is_long && !is_repeated);
    (answer, calls::write(&handed, &lists, &out, (answer, &after)))
}

/// The steps again and again, up to as many bytes as a recording may have; a text that is none stays as it is.
fn repeated(text: &[u8]) -> Vec<u8> {
    let Ok(Recording { first_line, steps, .. }) = recording::read(text) else { return text.to_vec() };
    let lines: Vec<&[u8]> = text.split_inclusive(|&byte| byte == b'\n').collect();
    let (head, body) = lines.split_at(first_line as usize - 1);
    let mut long = head.concat();
    for line in body.iter().cycle().take_while(|_| !steps.is_empty()) {
        if long.len() + line.len() > TEXT_END {
            break;
        }
        long.extend_from_slice(line);
    }
    long
}

fn replay(random: &mut Random, text: &[u8]) -> (Answer, Verdict) {
    let needed = reference::replay::replay(text).len();
    let out = vec![b'#'; about(random, needed)];
    let mut after = out.clone();
    let answer = expected::replay(text, &mut after);
    (answer, calls::replay(text, &out, (answer, &after)))
}
