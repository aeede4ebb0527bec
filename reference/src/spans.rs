//! The spans in which windows sell, and what the program `spans` prints: section 11 of the specification.
//! They are put together in one pass over the run whose answers `replay` prints.

use crate::answer::{answer, Answer};
use crate::machine::{CRIT, EXIT};
use crate::recording::{put, read, Fault, Recording, Step};
use crate::replay::{accepted, faulty, under};

const NAMES: &str = "window,from,to\n";

/// A window sells from its crit to its exit.
#[derive(Clone, Copy, Debug, PartialEq, Eq)]
pub struct Span {
    pub window: u64,
    pub from: u64,
    /// none while the span is open
    pub to: Option<u64>,
}

/// [11.20] One for each accepted crit, in their order.
pub fn spans_of(recording: &Recording) -> Vec<Span> {
    let mut spans = Vec::new();
    accepted(recording).for_each(|step| note(&mut spans, step));
    spans
}

/// [11.30] What an accepted step makes of the spans so far: a crit opens one, an exit closes one.
fn note(spans: &mut Vec<Span>, step: Step) {
    let Step { time, window, act } = step;
    match act {
        CRIT => spans.push(Span { window, from: time, to: None }),
        EXIT => last_open(spans, window).to = Some(time),
        _ => {}
    }
}

/// The last open span of a window whose exit is accepted.
fn last_open(spans: &mut [Span], window: u64) -> &mut Span {
    let mut backwards = spans.iter_mut().rev();
    backwards.find(|span| span.window == window && span.to.is_none()).expect("a window that sells")
}

/// [11.40] The whole text, or why there is none.
pub fn spans_text(text: &[u8]) -> Result<String, Fault> {
    let spans = spans_of(&read(text)?);
    Ok(under(NAMES, spans.iter().map(line_of)))
}

/// [11.45]
fn line_of(span: &Span) -> String {
    let to = span.to.map_or("-".into(), |to| to.to_string());
    format!("{},{},{to}\n", span.window, span.from)
}

/// [11.50] to [11.60]: the call. A fault carries the line that `replay` prints, also where the reader's answer has none.
pub fn spans(text: &[u8], out: &mut [u8]) -> Answer {
    match spans_text(text) {
        Ok(spans) => put(&spans, out),
        Err(fault) => answer(fault.number, 0, fault.line),
    }
}

/// [11.95] What the program prints: of a faulty recording what `replay` does.
pub fn printed(text: &[u8]) -> String {
    spans_text(text).unwrap_or_else(faulty)
}
