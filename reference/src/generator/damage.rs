//! Damaged texts: a walk with one kind of damage done to it, mostly a fault that the reader has to find.
//! A few kinds leave it faultless, such as a number of just as many digits as are allowed.

#![allow(clippy::ptr_arg, reason = "the functions of the table have one type, whichever change the length")]

use super::random::Random;
use super::shapes::Shape;
use super::{walk, Generated};
use Damage::*;
use Where::*;

type Line = Vec<u8>;

/// The indices of the first lines, up to the lines of a; the third is of the new shape alone.
const FIRST_NAMES: usize = 0;
const VALUES: usize = 1;
const LIMIT_NAMES: usize = 2;

/// The last line before the steps.
const STEP_NAMES: &[u8] = b"time,window,act";
const HAS_NAMES: &str = "a walk has names before its steps";

enum Where {
    At(usize),
    /// the line of the a of some window, in the new shape
    ALimit,
    /// the names of the steps
    StepNames,
    /// a line of some step
    AStep,
    /// mostly a step, sometimes the values
    StepOrValues,
    Anywhere,
}

enum Damage {
    /// one of the fields with these indices becomes one of these texts
    Fields(Where, &'static [usize], &'static [&'static str]),
    /// the line becomes one of these texts
    Whole(Where, &'static [&'static str]),
    /// the function edits the line
    OneLine(Where, fn(&mut Random, &mut Line)),
    /// the function edits the lines; its last argument is the index of the picked one
    Lines(Where, fn(&mut Random, &mut Vec<Line>, usize)),
    /// the function edits the whole text
    Bytes(fn(&mut Random, &mut Vec<u8>)),
}

/// What can be done to a recording of either shape.
const TO_EITHER: &[(&str, Damage)] = &[
    // numbers
    ("leading-zero", OneLine(AStep, |random, line| leading_zero(random, line, 2))),
    ("double-zero", Fields(AStep, &[0, 1], &["00"])),
    ("time-13-digits", Fields(AStep, &[0], &["1000000000000", "1000000000001", "9999999999999"])),
    ("time-14-digits", Fields(AStep, &[0], &["10000000000000", "99999999999999", "00000000000001"])),
    ("time-64-bits", Fields(AStep, &[0], &["18446744073709551615", "18446744073709551616"])),
    ("window-8-digits", Fields(AStep, &[1], &["10000000", "99999999"])),
    ("window-9-digits", Fields(AStep, &[1], &["100000000", "999999999", "4294967297"])),
    ("digit-neighbour", OneLine(AStep, digit_neighbour)),
    ("sign-or-space", OneLine(AStep, sign_or_space)),
    // the act's word
    ("unknown-word", Fields(AStep, &[2], UNKNOWN_WORDS)),
    ("word-with-tail", OneLine(AStep, |random, line| line.push(random.pick(b" \0\r\ts\xFF")))),
    // fields
    ("extra-comma", OneLine(StepOrValues, extra_comma)),
    ("extra-field", OneLine(AStep, |_, line| line.extend_from_slice(b",0"))),
    ("missing-field", OneLine(StepOrValues, missing_field)),
    ("empty-field", Fields(StepOrValues, &[0, 1, 2], &[""])),
    ("comma-to-semicolon", OneLine(Anywhere, comma_to_semicolon)),
    // the names
    ("first-names", Whole(At(FIRST_NAMES), OTHER_FIRST_NAMES)),
    ("step-names", Whole(StepNames, OTHER_STEP_NAMES)),
    ("no-first-names", Lines(At(FIRST_NAMES), remove)),
    ("no-values", Lines(At(VALUES), remove)),
    ("no-step-names", Lines(StepNames, remove)),
    ("head-twice", Lines(StepNames, head_twice)),
    // the values
    ("window-count", Fields(At(VALUES), &[0], &["0", "97", "100", "128", "256", "99999999"])),
    // two faults, of which the first counts
    ("step-names-and-step", Lines(AStep, |_, lines, step| spoil_from_names(lines, step))),
    ("two-bad-steps", Lines(AStep, two_bad_steps)),
    // lines
    ("no-steps", Lines(StepNames, |_, lines, line| lines.truncate(line + 1))),
    ("blank-line", Lines(Anywhere, |_, lines, line| lines.insert(line, Line::new()))),
    ("blank-last-line", Lines(Anywhere, |_, lines, _| lines.push(Line::new()))),
    ("lines-swapped", Lines(Anywhere, swap)),
    ("crlf-one-line", OneLine(Anywhere, |_, line| line.push(b'\r'))),
    ("crlf-all", Lines(Anywhere, |_, lines, _| lines.iter_mut().for_each(|line| line.push(b'\r')))),
    // bytes
    ("no-last-newline", Bytes(|_, text| text.truncate(text.len() - 1))),
    ("truncated", Bytes(|random, text| text.truncate(random.index(text.len())))),
    ("truncated-head", Bytes(truncate_head)),
    ("byte-changed", Bytes(change_byte)),
    ("byte-removed", Bytes(remove_byte)),
    ("byte-added", Bytes(add_byte)),
];

/// What can be done to the values of the new shape, and to its lines of a.
const TO_NEW: &[(&str, Damage)] = &[
    // the values
    ("values-form", Whole(At(VALUES), OTHER_VALUES)),
    ("values-9-digits", Fields(At(VALUES), &[0, 1, 2], &["100000000", "123456789"])),
    ("values-leading-zero", OneLine(At(VALUES), |random, line| leading_zero(random, line, 3))),
    ("limits", OneLine(At(VALUES), wrong_limits)),
    ("count-and-limits", Whole(At(VALUES), &["0,8,7", "97,0,0", "0,0,0"])),
    // the names of the lines of a
    ("limit-names", Whole(At(LIMIT_NAMES), OTHER_LIMIT_NAMES)),
    ("no-limit-names", Lines(At(LIMIT_NAMES), remove)),
    // a line of a: numbers
    ("limit-0", Fields(ALimit, &[1], &["0"])),
    ("limit-from-b-on", Lines(ALimit, limit_from_b_on)),
    ("limit-8-digits", Fields(ALimit, &[1], &["10000000", "99999999"])),
    ("limit-9-digits", Fields(ALimit, &[1], &["100000000", "000000001", "18446744073709551617"])),
    ("limit-of-another", Fields(ALimit, &[0], &["0", "2", "96", "97", "99999999"])),
    ("limit-window-9-digits", Fields(ALimit, &[0], &["100000000", "000000001", "18446744073709551617"])),
    ("limit-leading-zero", OneLine(ALimit, |random, line| leading_zero(random, line, 2))),
    ("limit-digit-neighbour", OneLine(ALimit, digit_neighbour)),
    ("limit-sign-or-space", OneLine(ALimit, sign_or_space)),
    // a line of a: fields
    ("limit-form", Whole(ALimit, OTHER_LIMITS)),
    ("limit-extra-field", OneLine(ALimit, |_, line| line.extend_from_slice(b",0"))),
    ("limit-missing-field", OneLine(ALimit, missing_field)),
    ("limit-empty-field", Fields(ALimit, &[0, 1], &[""])),
    // lines of a
    ("no-limit", Lines(ALimit, remove)),
    ("no-limits", Lines(ALimit, no_limits)),
    ("limit-twice", Lines(ALimit, |_, lines, line| lines.insert(line, lines[line].clone()))),
    ("limit-too-many", Lines(StepNames, limit_too_many)),
    ("limits-swapped", Lines(ALimit, swap_limits)),
    // two faults and more, of which the first counts
    ("count-and-limit-names", Lines(At(LIMIT_NAMES), count_and_limit_names)),
    ("limits-and-limit-names", Lines(At(LIMIT_NAMES), limits_and_line)),
    ("limits-and-limit-form", Lines(ALimit, limits_and_line)),
    ("limits-and-later-faults", Lines(AStep, limits_and_later_faults)),
    ("two-bad-limits", Lines(ALimit, two_bad_limits)),
];

/// What can be done to the values of the former shape.
const TO_FORMER: &[(&str, Damage)] = &[
    ("former-values-form", Whole(At(VALUES), OTHER_FORMER_VALUES)),
    ("former-values-9-digits", Fields(At(VALUES), &[0, 1, 2, 3], &["100000000", "123456789"])),
    ("former-values-leading-zero", OneLine(At(VALUES), |random, line| leading_zero(random, line, 4))),
    ("former-limits", Whole(At(VALUES), WRONG_FORMER_LIMITS)),
    ("former-count-and-limits", Whole(At(VALUES), &["0,0,8,12", "97,5,5,12", "0,0,0,0"])),
    ("former-limits-and-later-faults", Lines(AStep, former_limits_and_later_faults)),
];

const UNKNOWN_WORDS: &[&str] = &[
    "", "1", "Try", "TRY", " try", "try ", "tr", "trys", "wai", "waits", "wait\0", "tests", "se", "sets",
    "checks", "recheck", "cri", "crits", "exi", "re", "resett", "remm", "selling", "withdra", "Withdraw",
    "stop",
];

/// Among them the first names of each shape, which are wrong in the other.
const OTHER_FIRST_NAMES: &[&str] = &[
    "",
    "windows,b",
    "windows,b,c,",
    "windows,b,c ",
    " windows,b,c",
    "Windows,b,c",
    "window,b,c",
    "windows,c,b",
    "windows;b;c",
    "windows,b,d",
    "windowt,b,c",
    "2,8,12",
    "windows,b,c",
    "windows,a,b,c",
    "windows,a,b",
    "windows,a,b,c,",
    " windows,a,b,c",
    "Windows,a,b,c",
    "windows,a,c,b",
    "windows,a,b,c,d",
    "2,5,8,12",
];

const OTHER_STEP_NAMES: &[&str] = &[
    "",
    "time,window",
    "time,window,ac",
    "time,window,acts",
    "time,window,act,",
    " time,window,act",
    "Time,window,act",
    "time,windows,act",
    "time,act,window",
    "0,1,try",
    "window,a",
];

const OTHER_LIMIT_NAMES: &[&str] = &[
    "",
    "window",
    "window,",
    "window,a,",
    "window,a ",
    " window,a",
    "Window,a",
    "windows,a",
    "window,b",
    "a,window",
    "1,5",
    "time,window,act",
];

const OTHER_VALUES: &[&str] = &[
    "",
    "2",
    "2,8",
    "2,8,12,",
    "2,8,12,1",
    "2,5,8,12",
    ",,",
    "a,b,c",
    "2;8;12",
    "2,8,1x",
    "-1,8,12",
    "2,8,012",
    "00,8,12",
    "2, 8,12",
    "windows,b,c",
];

const OTHER_FORMER_VALUES: &[&str] = &[
    "",
    "2",
    "2,5",
    "2,5,8",
    "2,5,8,12,",
    "2,5,8,12,1",
    ",,,",
    "a,b,c,d",
    "2;5;8;12",
    "2,5,8,1x",
    "-1,5,8,12",
    "2,5,8,012",
    "00,5,8,12",
    "2, 5,8,12",
    "windows,a,b,c",
];

/// Of window 1, if they had a form.
const OTHER_LIMITS: &[&str] = &[
    "", "1", "1,", ",1", ",", "1,1,", "1,1,1", "1;1", "1 1", "1, 1", "x,1", "1,x", "-1,1", "1,-1", "window,a",
];

/// b and c; below a b of 0 there is no a at all.
const WRONG_LIMITS: [(u64, u64); 8] = [
    (0, 0),
    (0, 6),
    (1, 5),
    (2, 1),
    (8, 7),
    (10_000_000, 10_000_001),
    (10_000_001, 10_000_001),
    (99_999_999, 99_999_999),
];

const WRONG_FORMER_LIMITS: &[&str] = &[
    "2,0,0,0",
    "2,0,5,6",
    "2,1,0,5",
    "2,1,1,1",
    "2,1,2,0",
    "2,1,2,1",
    "2,5,5,6",
    "2,6,5,6",
    "2,5,7,6",
    "2,5,8,10000001",
    "2,5,6,99999999",
    "2,9999999,10000000,10000001",
    "2,10000000,10000000,10000000",
];

/// A walk with some damage done to it.
pub fn damaged(random: &mut Random) -> Generated {
    let (shape, (family, damage)) = any_damage(random);
    let mut text = walk::recording(random, shape, 1_500).text;
    match damage {
        Fields(place, indices, others) => {
            let (index, other) = (random.pick(indices), random.pick(others));
            edit(random, &mut text, place, |_, lines, line| replace_field(&mut lines[line], index, other));
        }
        Whole(place, others) => {
            let other = random.pick(others);
            edit(random, &mut text, place, |_, lines, line| lines[line] = other.into());
        }
        OneLine(place, one) => {
            edit(random, &mut text, place, |random, lines, line| one(random, &mut lines[line]));
        }
        Lines(place, all) => edit(random, &mut text, place, all),
        Bytes(bytes) => bytes(random, &mut text),
    }
    Generated { family, text }
}

/// Any of all kinds, and a shape that it can be done to.
fn any_damage(random: &mut Random) -> (Shape, &'static (&'static str, Damage)) {
    let either = Shape::any(random);
    let mut kind = random.index(TO_EITHER.len() + TO_NEW.len() + TO_FORMER.len());
    for (shape, damages) in [(either, TO_EITHER), (Shape::New, TO_NEW), (Shape::Former, TO_FORMER)] {
        match damages.get(kind) {
            Some(damage) => return (shape, damage),
            None => kind -= damages.len(),
        }
    }
    unreachable!("there are no more kinds");
}

/// Takes the text apart into its lines, without their byte 10, has them edited and puts them together again.
fn edit(
    random: &mut Random,
    text: &mut Vec<u8>,
    place: &Where,
    edit_lines: impl Fn(&mut Random, &mut Vec<Line>, usize),
) {
    text.pop();
    let mut lines: Vec<Line> = text.split(|&byte| byte == b'\n').map(Line::from).collect();
    let line = picked(random, &lines, place);
    edit_lines(random, &mut lines, line);
    *text = lines.iter().flat_map(|line| [line, &b"\n"[..]].concat()).collect();
}

/// The index of a line, of a walk that has a step.
fn picked(random: &mut Random, lines: &[Line], place: &Where) -> usize {
    let steps = step_names(lines) + 1;
    let a_step = steps + random.index(lines.len() - steps);
    match place {
        At(line) => *line,
        ALimit => a_limit(random, lines),
        StepNames => step_names(lines),
        AStep => a_step,
        StepOrValues if random.chance(70) => a_step,
        StepOrValues => VALUES,
        Anywhere => random.index(lines.len()),
    }
}

/// The index of the last line before the steps.
fn step_names(lines: &[Line]) -> usize {
    lines.iter().position(|line| line == STEP_NAMES).expect(HAS_NAMES)
}

/// The index of some line of a; the first and the last come more often.
fn a_limit(random: &mut Random, lines: &[Line]) -> usize {
    let (first, last) = (LIMIT_NAMES + 1, step_names(lines) - 1);
    let any = random.between(first as u64, last as u64) as usize;
    random.pick(&[first, last, any, any])
}

fn fields(line: &Line) -> Vec<Line> {
    line.split(|&byte| byte == b',').map(Line::from).collect()
}

fn replace_field(line: &mut Line, index: usize, other: &str) {
    let mut fields = fields(line);
    fields[index] = other.into();
    *line = fields.join(&b',');
}

/// One of the first `count` fields gets a 0 before it.
fn leading_zero(random: &mut Random, line: &mut Line, count: usize) {
    let mut fields = fields(line);
    fields[random.index(count)].insert(0, b'0');
    *line = fields.join(&b',');
}

/// A digit of the time or of the window becomes the byte before '0' or the one after '9'.
fn digit_neighbour(random: &mut Random, line: &mut Line) {
    let mut fields = fields(line);
    let field = &mut fields[random.index(2)];
    let digit = random.index(field.len());
    field[digit] = random.pick(b"/:");
    *line = fields.join(&b',');
}

fn sign_or_space(random: &mut Random, line: &mut Line) {
    let mut fields = fields(line);
    let field = &mut fields[random.index(2)];
    match random.below(5) {
        0 => field.insert(0, b'+'),
        1 => field.insert(0, b'-'),
        2 => field.insert(0, b' '),
        3 => field.push(b' '),
        _ => field.extend_from_slice(b".0"),
    }
    *line = fields.join(&b',');
}

/// At the start, at the end, or doubled within.
fn extra_comma(random: &mut Random, line: &mut Line) {
    let within = line.iter().position(|&byte| byte == b',').unwrap_or(0);
    line.insert(random.pick(&[0, within, line.len()]), b',');
}

fn missing_field(random: &mut Random, line: &mut Line) {
    let mut fields = fields(line);
    fields.remove(random.index(fields.len()));
    *line = fields.join(&b',');
}

fn comma_to_semicolon(_: &mut Random, line: &mut Line) {
    for byte in line.iter_mut().filter(|byte| **byte == b',') {
        *byte = b';';
    }
}

fn remove(_: &mut Random, lines: &mut Vec<Line>, line: usize) {
    lines.remove(line);
}

fn head_twice(_: &mut Random, lines: &mut Vec<Line>, step_names: usize) {
    let head = lines[..=step_names].to_vec();
    lines.splice(0..0, head);
}

fn spoil(line: &mut Line) {
    *line = b"x".into();
}

/// The names of the steps and a step.
fn spoil_from_names(lines: &mut [Line], step: usize) {
    spoil(&mut lines[step]);
    let names = step_names(lines);
    spoil(&mut lines[names]);
}

fn two_bad_steps(_: &mut Random, lines: &mut Vec<Line>, step: usize) {
    let last = lines.len() - 1;
    spoil(&mut lines[step]);
    spoil(&mut lines[last]);
}

fn former_limits_and_later_faults(_: &mut Random, lines: &mut Vec<Line>, step: usize) {
    replace_field(&mut lines[VALUES], 1, "0");
    spoil_from_names(lines, step);
}

/// b and c that do not stand, with the n that there was.
fn wrong_limits(random: &mut Random, line: &mut Line) {
    let (b, c) = random.pick(&WRONG_LIMITS);
    replace_field(line, 1, &b.to_string());
    replace_field(line, 2, &c.to_string());
}

fn count_and_limit_names(_: &mut Random, lines: &mut Vec<Line>, line: usize) {
    replace_field(&mut lines[VALUES], 0, "97");
    spoil(&mut lines[line]);
}

/// A c that does not stand, and a line before it is judged.
fn limits_and_line(_: &mut Random, lines: &mut Vec<Line>, line: usize) {
    replace_field(&mut lines[VALUES], 2, "10000001");
    spoil(&mut lines[line]);
}

/// A c that does not stand, and lines after it is judged.
fn limits_and_later_faults(_: &mut Random, lines: &mut Vec<Line>, step: usize) {
    replace_field(&mut lines[VALUES], 2, "10000001");
    spoil_from_names(lines, step);
}

fn two_bad_limits(_: &mut Random, lines: &mut Vec<Line>, line: usize) {
    let last = step_names(lines) - 1;
    spoil(&mut lines[line]);
    spoil(&mut lines[last]);
}

/// An a that is b, or a little more.
fn limit_from_b_on(random: &mut Random, lines: &mut Vec<Line>, line: usize) {
    let b: u64 = String::from_utf8_lossy(&fields(&lines[VALUES])[1]).parse().expect("a number");
    replace_field(&mut lines[line], 1, &(b + random.below(3)).to_string());
}

fn no_limits(_: &mut Random, lines: &mut Vec<Line>, _: usize) {
    lines.drain(LIMIT_NAMES + 1..step_names(lines));
}

fn limit_too_many(_: &mut Random, lines: &mut Vec<Line>, step_names: usize) {
    let windows = step_names - (LIMIT_NAMES + 1);
    lines.insert(step_names, format!("{},1", windows + 1).into());
}

fn swap_limits(random: &mut Random, lines: &mut Vec<Line>, line: usize) {
    let other = a_limit(random, lines);
    lines.swap(line, other);
}

fn swap(random: &mut Random, lines: &mut Vec<Line>, line: usize) {
    let other = random.index(lines.len());
    lines.swap(line, other);
}

/// Cut somewhere in the lines before the steps, or just after them.
fn truncate_head(random: &mut Random, text: &mut Vec<u8>) {
    let last = [b"\n", STEP_NAMES, b"\n"].concat();
    let start = text.windows(last.len()).position(|part| part == last).expect(HAS_NAMES);
    text.truncate(random.index(start + last.len() + 1));
}

fn change_byte(random: &mut Random, text: &mut Vec<u8>) {
    let index = random.index(text.len());
    text[index] = random.pick(b"\0\t\n\r +,-./09:Aaz\x7F\x80\xC3\xFF");
}

fn remove_byte(random: &mut Random, text: &mut Vec<u8>) {
    text.remove(random.index(text.len()));
}

fn add_byte(random: &mut Random, text: &mut Vec<u8>) {
    let index = random.index(text.len() + 1);
    text.insert(index, random.pick(b"\0\n\r ,019a\xFF"));
}
