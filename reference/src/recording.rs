//! The reader and the writer of recordings: section 6 of the specification. Two shapes are read, of which one is written.
//! The reader checks the whole text before it stores a step: 16 comes last, and a refusal leaves the lists alone.

use crate::answer::*;
use crate::machine::{count_stands, Values, WAIT, WINDOWS};

/// The longest text, in bytes.
pub const TEXT_END: usize = 65_536;
/// The words of the acts, each at the place of its number.
pub const WORDS: [&str; 10] =
    ["wait", "try", "test", "set", "check", "crit", "exit", "reset", "rem", "withdraw"];

// The lines of names. Line 1 is one of the first two, and tells the shape.
const VALUE_NAMES: &str = "windows,b,c";
const FORMER_NAMES: &str = "windows,a,b,c";
const LIMIT_NAMES: &str = "window,a";
const STEP_NAMES: &str = "time,window,act";

/// [6.65]
const TIME_DIGITS: usize = 13;
const OTHER_DIGITS: usize = 8;

#[derive(Clone, Copy, Debug, PartialEq, Eq)]
pub struct Step {
    pub time: u64,
    pub window: u64,
    pub act: u64,
}

impl Step {
    pub fn wait(time: u64) -> Step {
        Step { time, window: 0, act: WAIT }
    }
}

#[derive(Clone, Debug, PartialEq, Eq)]
pub struct Recording {
    pub values: Values,
    /// The line of the first step.
    pub first_line: u64,
    pub steps: Vec<Step>,
}

/// [6.50] The line of the first step of a recording as it is written.
pub fn first_line(n: u64) -> u64 {
    n + 5
}

/// Why a text is no recording: the answer's number, and the line that `replay` prints with it.
#[derive(Clone, Copy, Debug, PartialEq, Eq)]
pub struct Fault {
    pub number: u64,
    pub line: u64,
}

impl Fault {
    /// The reader's answer: of its faults only 13 and 14 carry their line.
    pub fn answer(self) -> Answer {
        match self.number {
            NAMES | LINE => answer(self.number, 0, self.line),
            _ => bare(self.number),
        }
    }
}

/// [6.90] All but 16, which `read_into` gives.
pub fn read(text: &[u8]) -> Result<Recording, Fault> {
    if text.len() > TEXT_END {
        return Err(Fault { number: LENGTH, line: 0 });
    }
    let mut lines = Lines { rest: text, line: 0 };
    let values = lines.standing_values()?;
    lines.names(STEP_NAMES)?;
    let first_line = lines.line + 1;
    let mut steps = Vec::new();
    while !lines.rest.is_empty() {
        steps.push(lines.step()?);
    }
    Ok(Recording { values, first_line, steps })
}

/// The text still to be read, and the number of the line last taken from it.
struct Lines<'a> {
    rest: &'a [u8],
    line: u64,
}

impl<'a> Lines<'a> {
    /// The next line without its byte 10; none at the end of the text, and none where that byte is missing.
    fn take(&mut self) -> Option<&'a [u8]> {
        self.line += 1;
        let end = self.rest.iter().position(|&byte| byte == b'\n')?;
        let line = &self.rest[..end];
        self.rest = &self.rest[end + 1..];
        Some(line)
    }

    fn fault(&self, number: u64) -> Fault {
        Fault { number, line: self.line }
    }

    fn names(&mut self, names: &str) -> Result<(), Fault> {
        if self.take() == Some(names.as_bytes()) {
            Ok(())
        } else {
            Err(self.fault(NAMES))
        }
    }

    /// [6.36] They are judged once all are read, at the line of the last of them.
    fn standing_values(&mut self) -> Result<Values, Fault> {
        let values = self.values()?;
        match values.refusal() {
            Some(number) => Err(self.fault(number)),
            None => Ok(values),
        }
    }

    fn values(&mut self) -> Result<Values, Fault> {
        let first = self.take();
        if first == Some(VALUE_NAMES.as_bytes()) {
            self.own_values()
        } else if first == Some(FORMER_NAMES.as_bytes()) {
            self.former_values()
        } else {
            Err(self.fault(NAMES))
        }
    }

    /// [6.30] to [6.34]: each window has a line for its a. Without an n that stands nobody knows how many there are.
    fn own_values(&mut self) -> Result<Values, Fault> {
        let [n, b, c] = self.numbers()?;
        if !count_stands(n) {
            return Err(self.fault(WINDOW_COUNT));
        }
        self.names(LIMIT_NAMES)?;
        let mut a = [0; WINDOWS];
        for (window, a) in (1..=n).zip(&mut a) {
            *a = self.limit(window)?;
        }
        Ok(Values { n, b, c, a })
    }

    /// [6.45]
    fn former_values(&mut self) -> Result<Values, Fault> {
        let [n, a, b, c] = self.numbers()?;
        Ok(Values::equal(n, a, b, c))
    }

    /// [6.34] The a of that window, whose line is next.
    fn limit(&mut self, window: u64) -> Result<u64, Fault> {
        match self.numbers()? {
            [named, a] if named == window => Ok(a),
            _ => Err(self.fault(LINE)),
        }
    }

    fn numbers<const COUNT: usize>(&mut self) -> Result<[u64; COUNT], Fault> {
        self.take().and_then(numbers_of).ok_or(self.fault(LINE))
    }

    fn step(&mut self) -> Result<Step, Fault> {
        self.take().and_then(step_of).ok_or(self.fault(LINE))
    }
}

fn numbers_of<const COUNT: usize>(line: &[u8]) -> Option<[u64; COUNT]> {
    let mut numbers = [0; COUNT];
    for (value, field) in numbers.iter_mut().zip(fields::<COUNT>(line)?) {
        *value = number(field, OTHER_DIGITS)?;
    }
    Some(numbers)
}

fn step_of(line: &[u8]) -> Option<Step> {
    let [time, window, word] = fields(line)?;
    let time = number(time, TIME_DIGITS)?;
    let window = number(window, OTHER_DIGITS)?;
    let act = WORDS.iter().position(|known| known.as_bytes() == word)? as u64;
    Some(Step { time, window, act })
}

/// The fields of a line, if there are just as many as asked for.
fn fields<const COUNT: usize>(line: &[u8]) -> Option<[&[u8]; COUNT]> {
    let fields: Vec<&[u8]> = line.split(|&byte| byte == b',').collect();
    fields.try_into().ok()
}

/// [6.60] [6.65]
fn number(field: &[u8], most_digits: usize) -> Option<u64> {
    let leading_zero = field.len() > 1 && field[0] == b'0';
    if field.is_empty() || field.len() > most_digits || leading_zero {
        return None;
    }
    let mut value = 0;
    for &byte in field {
        if !byte.is_ascii_digit() {
            return None;
        }
        value = value * 10 + u64::from(byte - b'0');
    }
    Some(value)
}

/// [6.130] to [6.140], [9.90]: the reader with its four lent lists; that of the values of a takes all 96.
pub fn read_into(
    text: &[u8],
    a: &mut [u64],
    times: &mut [u64],
    windows: &mut [u64],
    acts: &mut [u64],
) -> (Answer, Values) {
    let Recording { values, steps, .. } = match read(text) {
        Ok(recording) => recording,
        Err(fault) => return (fault.answer(), Values::default()),
    };
    let room = times.len().min(windows.len()).min(acts.len());
    if steps.len() > room || a.len() < WINDOWS {
        return (bare(SHORT_OUTPUT), Values::default());
    }
    a[..WINDOWS].copy_from_slice(&values.a);
    for (index, step) in steps.iter().enumerate() {
        times[index] = step.time;
        windows[index] = step.window;
        acts[index] = step.act;
    }
    (answer(ACCEPTED, 0, steps.len() as u64), values)
}

/// [6.150] to [6.156], [6.180]: the writer.
pub fn write(values: Values, times: &[u64], windows: &[u64], acts: &[u64], output: &mut [u8]) -> Answer {
    let lists = times.iter().zip(windows).zip(acts);
    let steps: Vec<Step> = lists.map(|((&time, &window), &act)| Step { time, window, act }).collect();
    match text_of(values, &steps) {
        Ok(text) => put(&text, output),
        Err(refusal) => refusal,
    }
}

/// A text into lent bytes, of which those after it stay; all of them, if they are too few.
pub fn put(text: &str, output: &mut [u8]) -> Answer {
    if text.len() > output.len() {
        return bare(SHORT_OUTPUT);
    }
    output[..text.len()].copy_from_slice(text.as_bytes());
    answer(ACCEPTED, 0, text.len() as u64)
}

/// [6.170] The whole text, or the refusal; but 16, which `put` gives.
fn text_of(values: Values, steps: &[Step]) -> Result<String, Answer> {
    if let Some(number) = values.refusal() {
        return Err(bare(number));
    }
    let mut text = head(values);
    for (line, step) in (first_line(values.n)..).zip(steps) {
        text += &line_of(step).ok_or(answer(LINE, 0, line))?;
    }
    if text.len() > TEXT_END {
        return Err(bare(LENGTH));
    }
    Ok(text)
}

/// [6.20] to [6.40]: the lines before the steps, of an n that stands.
pub fn head(values: Values) -> String {
    let Values { n, b, c, a } = values;
    let limits: String = (1..=n).zip(a).map(|(window, a)| format!("{window},{a}\n")).collect();
    format!("{VALUE_NAMES}\n{n},{b},{c}\n{LIMIT_NAMES}\n{limits}{STEP_NAMES}\n")
}

/// The line of a step; none if it has no form: a number with too many digits, an act without a word.
pub fn line_of(step: &Step) -> Option<String> {
    let fits = |number: u64, digits| number.to_string().len() <= digits;
    let word = WORDS.get(usize::try_from(step.act).ok()?)?;
    if !fits(step.time, TIME_DIGITS) || !fits(step.window, OTHER_DIGITS) {
        return None;
    }
    Some(format!("{},{},{word}\n", step.time, step.window))
}
