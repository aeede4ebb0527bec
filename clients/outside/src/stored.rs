//! The stored calls of reference/vectors, one a line, made and held to what stands beside them. What a line leaves out at the end of a table's
//! values of a, of its entries and of a summary is 0. What a board's numbers are after a call is worked out.

use crate::boards;
use crate::calls::{self, Verdict};
use crate::handed::Handed;
use crate::notebooks::{Lists, Notebooks};
use funnelfawn::raw::{AT_LIMITS, BOARD, DEADLINES, HEADER, SUMMARY, TABLE};
use reference::answer::{answer, bare, Answer, ACCEPTED, NO_TABLE, SHORT_OUTPUT};
use reference::board::Entry;
use reference::board_list::BoardCall;
use reference::notebook::{comparison, Comparison};

/// What fills the lists of a reading, and the elements that are lent past a table, a summary and the steps of a writing.
const FILLED: u64 = 7777;
const PAST: [u64; 3] = [FILLED; 3];

/// `n b c | a .. | answer | table after`, of both engines, whose fresh tables have the same numbers before their entries; nothing stands behind a
/// refusal. Into lists that are longer, just as long as the table, and short by one number.
pub fn fresh(line: &str) -> Verdict {
    let [values, a, answer, after] = fields(line)?;
    let (handed, answer) = (handed(values, a)?, answer_in(answer)?);
    each_room(answer, (after, TABLE), |room, wanted| calls::fresh(&handed, room, wanted))?;
    each_room(answer, (after, DEADLINES), |room, wanted| calls::fresh_deadlines(&handed, room, wanted))
}

/// `table | act window moment | answer | table after`
pub fn step(line: &str) -> Verdict {
    let [table, call, answer, after] = fields(line)?;
    calls::step(&tabled(table, TABLE)?, fixed(call)?, (answer_in(answer)?, &tabled(after, TABLE)?))
}

/// `table | summary | act window moment | answer | table after | summary after`
pub fn recorded(line: &str) -> Verdict {
    let [table, summary, call, answer, table_after, summary_after] = fields(line)?;
    let wanted = (answer_in(answer)?, &tabled(table_after, TABLE)?[..], &padded(summary_after, SUMMARY)?[..]);
    calls::record(&tabled(table, TABLE)?, &padded(summary, SUMMARY)?, fixed(call)?, wanted)
}

/// `text in hex | lengths of a, times, windows, acts | answer | n b c | the four lists after`
pub fn reader(line: &str) -> Verdict {
    let [text, lengths, answer, values, after] = fields(line)?;
    let lengths: [u64; 4] = fixed(lengths)?;
    let lists = lengths.map(|length| vec![FILLED; length as usize]);
    let mut left = numbers(&after.replace(['[', ']', ','], " "))?.into_iter();
    let after = lengths.map(|length| left.by_ref().take(length as usize).collect::<Vec<u64>>());
    if left.next().is_some() {
        return Err("more numbers than the lists have places".into());
    }
    calls::read(&bytes(text)?, &lists, (answer_in(answer)?, fixed(values)?, &after))
}

/// `n b c | a .. | time window act .. | length of the output | answer | output after`
pub fn writer(line: &str) -> Verdict {
    let [values, a, steps, length, answer, after] = fields(line)?;
    let steps = numbers(steps)?;
    let column = |number: usize| steps.iter().skip(number).step_by(3).copied().collect::<Vec<u64>>();
    // the shortest of the three lists sets the number of steps
    let lists = [column(0), [column(1), vec![FILLED]].concat(), [column(2), PAST.to_vec()].concat()];
    calls::write(&handed(values, a)?, &lists, &output(length)?, (answer_in(answer)?, &quoted(after)))
}

/// `text in hex | length of the output | answer | output after`
pub fn spans(line: &str) -> Verdict {
    let [text, length, answer, after] = fields(line)?;
    calls::spans(&bytes(text)?, &output(length)?, (answer_in(answer)?, &quoted(after)))
}

/// `text in hex | window | lengths of times and acts | answer | times after | acts after`
pub fn accepted(line: &str) -> Verdict {
    let [text, window, lengths, answer, times, acts] = fields(line)?;
    let ([window], lengths): ([u64; 1], [u64; 2]) = (fixed(window)?, fixed(lengths)?);
    let lists = lengths.map(|length| vec![FILLED; length as usize]);
    let after = [numbers(times)?, numbers(acts)?];
    if after.each_ref().map(Vec::len) != lists.each_ref().map(Vec::len) {
        return Err("not as many numbers as the lists have places".into());
    }
    calls::accepted_acts(&bytes(text)?, window, &lists, (answer_in(answer)?, &after))
}

/// `till's times | till's acts | box's times | box's acts | d e | answer`, whose last number has a sign; and with numbers past every limit in places
/// that do not count, behind times and behind acts
pub fn notebook(line: &str) -> Verdict {
    let [till_times, till_acts, times, acts, reaches, answer] = fields(line)?;
    let till = Lists { times: numbers(till_times)?, acts: numbers(till_acts)? };
    let kept = Lists { times: numbers(times)?, acts: numbers(acts)? };
    let ([d, e], wanted) = (fixed(reaches)?, comparison_in(answer)?);
    let lent = Notebooks { till, kept, d, e };
    calls::compare_logs(&lent, wanted)?;
    for behind_times in [true, false] {
        let mut longer = lent.clone();
        longer.till.longer(behind_times).extend([u64::MAX; 3]);
        longer.kept.longer(behind_times).extend([u64::MAX; 3]);
        calls::compare_logs(&longer, wanted).map_err(|what| format!("{longer:?}: {what}"))?;
    }
    Ok(())
}

/// `table of deadlines | act window moment | answer | table of deadlines after`; on a list that is longer, on one that is just as long, and on
/// one with a number too few, which tells none
pub fn deadline(line: &str) -> Verdict {
    let [deadlines, call, answer, after] = fields(line)?;
    let (deadlines, after) = (tabled(deadlines, DEADLINES)?, tabled(after, DEADLINES)?);
    let (call, answer) = (fixed(call)?, answer_in(answer)?);
    calls::step_deadlines(&deadlines, call, (answer, &after))?;
    calls::step_deadlines(&deadlines[..DEADLINES], call, (answer, &after[..DEADLINES]))?;
    let short = &deadlines[..DEADLINES - 1];
    calls::step_deadlines(short, call, (bare(NO_TABLE), short))
}

/// `to_deadlines | table | answer | table of deadlines` or `to_arrivals | table of deadlines | answer | table`; nothing stands behind a refusal
pub fn matching(line: &str) -> Verdict {
    let [call, given, answer, after] = fields(line)?;
    match call {
        "to_deadlines" => turned(calls::to_deadlines, (given, TABLE), answer_in(answer)?, (after, DEADLINES)),
        "to_arrivals" => turned(calls::to_arrivals, (given, DEADLINES), answer_in(answer)?, (after, TABLE)),
        _ => Err(format!("there is no call `{call}`")),
    }
}

/// A call from one kind of table to the other, each with how many numbers it has.
type Turn = fn(&[u64], &[u64], (Answer, &[u64])) -> Verdict;

/// Out of a list that is longer, one that is just as long, and one with a number too few, into lists of these three lengths.
fn turned(
    call: Turn,
    (given, length): (&str, usize),
    answer: Answer,
    (after, needed): (&str, usize),
) -> Verdict {
    let given = tabled(given, length)?;
    for given in [&given[..], &given[..length]] {
        each_room(answer, (after, needed), |room, wanted| call(given, room, wanted))?;
    }
    let filled = vec![FILLED; needed];
    call(&given[..length - 1], &filled, (bare(NO_TABLE), &filled))
}

/// A call that puts a table, which has so many numbers, into a list: into one that is longer, one that is just as long, and one with a number too
/// few. Refused, each stays as it was.
fn each_room(
    answer: Answer,
    (after, needed): (&str, usize),
    call: impl Fn(&[u64], (Answer, &[u64])) -> Verdict,
) -> Verdict {
    let filled = vec![FILLED; needed + PAST.len()];
    let is_told = answer.number == ACCEPTED;
    let left = if is_told { tabled(after, needed)? } else { filled.clone() };
    call(&filled, (answer, &left))?;
    call(&filled[..needed], (answer, &left[..needed]))?;
    let short = &filled[..needed - 1];
    call(short, (if is_told { bare(SHORT_OUTPUT) } else { answer }, short))
}

/// The calls of board.txt, all on one lent list: each gets what the one before left.
pub struct Board {
    lent: Vec<u64>,
    /// how many calls of a run of equal moments have been made
    equal: u64,
}

impl Board {
    pub fn new() -> Board {
        Board { lent: vec![FILLED; BOARD + PAST.len()], equal: 0 }
    }

    /// `call -> answer`, or `call -> answer (call K of the run of equal moments)`
    pub fn call(&mut self, line: &str) -> Verdict {
        let (call, due) = line.split_once("->").ok_or("no answer")?;
        let (due, place) = due.split_once("(call ").unwrap_or((due, ""));
        self.run_up(call, place)?;
        let (answer, verdict) = self.make(call)?;
        verdict?;
        let due = answer_in(due)?;
        if answer != due {
            return Err(format!("the reference answers {answer:?}, not {due:?}"));
        }
        Ok(())
    }

    /// Makes the calls that a run of equal moments leaves out before one of its calls, the waits of which count up from 0.
    fn run_up(&mut self, call: &str, place: &str) -> Verdict {
        let Some(number) = place.split_whitespace().next() else {
            self.equal = 0;
            return Ok(());
        };
        let number: u64 = number.parse().map_err(|_| format!("`{number}` is no number"))?;
        let (like, _) = call.trim().rsplit_once(' ').ok_or("no wait")?;
        for wait in self.equal..number - 1 {
            self.make(&format!("{like} {wait}"))?.1?;
        }
        self.equal = number;
        Ok(())
    }

    /// `setup W`, `add moment window wait` or `show clock`: the answer that is due, and whether it and all numbers came.
    fn make(&mut self, call: &str) -> Result<(Answer, Verdict), String> {
        let (name, rest) = call.trim().split_once(' ').ok_or("no call")?;
        let call = match name {
            "setup" => {
                let [w] = fixed(rest)?;
                BoardCall::SetUp(w)
            }
            "add" => {
                let [moment, window, wait] = fixed(rest)?;
                BoardCall::Add(Entry { moment, window, wait })
            }
            "show" => {
                let [clock] = fixed(rest)?;
                BoardCall::Show(clock)
            }
            _ => return Err(format!("there is no call `{name}`")),
        };
        Ok(boards::make(call, &mut self.lent))
    }
}

impl Default for Board {
    fn default() -> Board {
        Board::new()
    }
}

// The parts of a line

fn fields<const COUNT: usize>(line: &str) -> Result<[&str; COUNT], String> {
    let fields: Vec<&str> = line.split('|').map(str::trim).collect();
    fields.try_into().map_err(|_| format!("not {COUNT} fields"))
}

fn numbers(field: &str) -> Result<Vec<u64>, String> {
    let number = |word: &str| word.parse().map_err(|_| format!("`{word}` is no number"));
    field.split_whitespace().map(number).collect()
}

fn fixed<const COUNT: usize>(field: &str) -> Result<[u64; COUNT], String> {
    numbers(field)?.try_into().map_err(|_| format!("not {COUNT} numbers: {field}"))
}

/// The numbers of a whole list, of which those left out are 0, and a few past it.
fn padded(field: &str, length: usize) -> Result<Vec<u64>, String> {
    let mut all = numbers(field)?;
    all.resize(length, 0);
    all.extend(PAST);
    Ok(all)
}

/// Those of a table of either kind: `n b c clock word ; a .. ; entries ..`
fn tabled(field: &str, length: usize) -> Result<Vec<u64>, String> {
    let parts: Vec<&str> = field.split(';').collect();
    let &[first, a, entries] = &parts[..] else { return Err(format!("no table: {field}")) };
    let mut all = numbers(first)?;
    let mut values = numbers(a)?;
    if all.len() != AT_LIMITS || values.len() > HEADER - AT_LIMITS {
        return Err(format!("too many or too few numbers before the entries: {field}"));
    }
    values.resize(HEADER - AT_LIMITS, 0);
    all.extend(values);
    all.extend(padded(entries, length - HEADER)?);
    Ok(all)
}

fn answer_in(field: &str) -> Result<Answer, String> {
    let [number, window, moment] = fixed(field)?;
    Ok(answer(number, window, moment))
}

/// `number 0 shift`
fn comparison_in(field: &str) -> Result<Comparison, String> {
    let (answer, shift) = field.rsplit_once(' ').ok_or("no shift")?;
    let [number, 0] = fixed(answer)? else { return Err(format!("a window: {field}")) };
    Ok(comparison(number, shift.parse().map_err(|_| format!("`{shift}` is no shift"))?))
}

/// `n b c`, and the list of values of a as it is lent.
fn handed(values: &str, a: &str) -> Result<Handed, String> {
    let [n, b, c] = fixed(values)?;
    Ok(Handed { n, b, c, a: numbers(a)? })
}

/// An output of so many bytes, as it is before the call.
fn output(length: &str) -> Result<Vec<u8>, String> {
    let [length]: [u64; 1] = fixed(length)?;
    Ok(vec![b'#'; length as usize])
}

/// An output as it is after the call.
fn quoted(field: &str) -> Vec<u8> {
    field.trim_matches('"').replace("\\n", "\n").into_bytes()
}

fn bytes(hex: &str) -> Result<Vec<u8>, String> {
    let byte = |pair: &[u8]| {
        let pair = std::str::from_utf8(pair).unwrap_or_default();
        u8::from_str_radix(pair, 16).map_err(|_| format!("`{pair}` is no byte"))
    };
    hex.as_bytes().chunks(2).map(byte).collect()
}
