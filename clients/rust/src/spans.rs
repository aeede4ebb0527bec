//! The spans of a recording, who sold from when to when: section 11 of docs/SPECIFICATION.md, which calls them intervals.
//! The library writes them as a text; the list is read off it, and a faulty recording gives its fault in place of either.

use crate::answer::Fault;
use crate::raw;

/// One sale: a window sells from its crit to its exit.
#[derive(Clone, Copy, Debug, PartialEq, Eq)]
pub struct Span {
    pub window: u64,
    pub from: u64,
    /// nothing where the recording ends before the exit: such a span is open, and is the last one
    pub to: Option<u64>,
}

/// The spans of a recording, one for each accepted crit, in their order. None begins before the one before it has ended.
///
/// They are read off [`spans_text`], line by line: what a span is, the library has decided.
///
/// ```
/// use funnelfawn::{spans, Fault, Refusal, Span};
///
/// let head = "windows,b,c\n2,8,12\nwindow,a\n1,5\n2,7\ntime,window,act\n";
/// let sale = "0,1,try\n1,1,test\n2,1,set\n10,1,check\n12,1,crit\n16,1,exit\n";
/// let recording = [head, sale].concat();
/// assert_eq!(spans(recording.as_bytes())?, [Span { window: 1, from: 12, to: Some(16) }]);
///
/// let many = spans(b"windows,b,c\n97,8,12\n");
/// assert_eq!(many, Err(Fault { refusal: Refusal::WindowCount, line: Some(2) }));
/// // limits are judged once the last of them is read
/// let equal = spans(b"windows,b,c\n2,8,12\nwindow,a\n1,8\n2,7\n");
/// assert_eq!(equal, Err(Fault { refusal: Refusal::Limits, line: Some(5) }));
/// # Ok::<(), Fault>(())
/// ```
pub fn spans(text: &[u8]) -> Result<Vec<Span>, Fault> {
    let written = String::from_utf8(spans_text(text)?).expect("the library writes ASCII");
    // the first line has the names
    Ok(written.lines().skip(1).map(span_in).collect())
}

/// The text of a recording's spans: the line `window,from,to` and a line for each, with `-` for the end of one that is open.
pub fn spans_text(text: &[u8]) -> Result<Vec<u8>, Fault> {
    // it is never longer than the recording [11.65]
    let mut out = vec![0; text.len().min(raw::MOST_TEXT)];
    let length = raw::spans(text, &mut out).written()?;
    out.truncate(length);
    Ok(out)
}

fn span_in(line: &str) -> Span {
    let fields: Vec<&str> = line.split(',').collect();
    let [window, from, to] = fields[..] else { panic!("the library writes no span as {line}") };
    Span { window: number_in(window), from: number_in(from), to: (to != "-").then(|| number_in(to)) }
}

fn number_in(field: &str) -> u64 {
    field.parse().unwrap_or_else(|_| panic!("the library writes no number as {field}"))
}
