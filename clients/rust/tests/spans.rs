//! The spans of recordings: who sold from when to when, and what a faulty recording gives.
//! They are looked at as a list, as a text, beside the report of the same run, and in outputs of many lengths.

use funnelfawn::raw::{self, Answer};
use funnelfawn::{read, replay, spans, spans_text, Fault, Refusal, Span};

/// The whole case [7.60], the sale of the guide's longest wait, and that of its accounts, in which acts are refused between [11.105].
const WHOLE_CASE: &[u8] = include_bytes!("../../../examples/two-windows.csv");
const WAITS: &[u8] = include_bytes!("../../c/waits.csv");
const REFUSED_BETWEEN: &[u8] = include_bytes!("../../../examples/spans.csv");
/// Two tills of different age.
const TILLS: &[u8] = include_bytes!("../../../examples/tills.csv");

const HEAD: &str = "windows,b,c\n2,8,12\nwindow,a\n1,5\n2,5\ntime,window,act\n";
const FORMER_HEAD: &str = "windows,a,b,c\n2,5,8,12\ntime,window,act\n";
const NAMES: &str = "window,from,to\n";

/// Three sales of one window, of which the second takes no time; nothing that another window does or that is refused ends one.
const THREE: &str = "0,1,try\n0,1,test\n0,1,set\n8,1,check\n8,1,crit\n7,1,exit\n8,2,try\n9,2,exit\n13,2,withdraw\n14,2,try\n15,1,exit\n\
     15,2,withdraw\n16,1,reset\n17,1,rem\n17,1,try\n17,1,test\n17,1,set\n25,1,check\n25,1,crit\n25,1,exit\n25,1,exit\n25,1,reset\n\
     25,1,rem\n25,1,try\n25,1,test\n25,1,set\n33,1,check\n34,1,crit\n34,1,crit\n40,1,exit\n";

fn recording(steps: &str) -> Vec<u8> {
    [HEAD, steps].concat().into_bytes()
}

fn closed(window: u64, from: u64, to: u64) -> Span {
    Span { window, from, to: Some(to) }
}

fn open(window: u64, from: u64) -> Span {
    Span { window, from, to: None }
}

/// As a list and as a text.
fn assert_spans(recording: &[u8], list: &[Span], lines: &str) {
    assert_eq!(spans(recording).as_deref(), Ok(list));
    assert_eq!(spans_text(recording), Ok([NAMES, lines].concat().into_bytes()));
}

#[test]
fn open_and_closed() {
    assert_spans(WHOLE_CASE, &[open(2, 20)], "2,20,-\n");
    assert_spans(REFUSED_BETWEEN, &[closed(1, 12, 16), open(2, 31)], "1,12,16\n2,31,-\n");
    assert_spans(WAITS, &[closed(1, 150, 900), open(2, 1000)], "1,150,900\n2,1000,-\n");
    let three = [closed(1, 8, 15), closed(1, 25, 25), closed(1, 34, 40)];
    assert_spans(&recording(THREE), &three, "1,8,15\n1,25,25\n1,34,40\n");
    assert_spans([FORMER_HEAD, THREE].concat().as_bytes(), &three, "1,8,15\n1,25,25\n1,34,40\n");
    assert_spans(TILLS, &[closed(1, 55, 80), open(2, 190)], "1,55,80\n2,190,-\n");
}

/// The lines of the report that the table in docs/guide/spans.md shows.
#[test]
fn the_report_in_the_readme() {
    let report = String::from_utf8(replay(REFUSED_BETWEEN)).unwrap();
    for line in ["8,9,2,0", "9,0,1,12", "10,4,0,12", "11,9,2,0", "12,0,0,16", "19,0,2,31"] {
        assert!(report.lines().any(|reported| reported == line), "{line}");
    }
}

#[test]
fn no_span() {
    assert_spans(HEAD.as_bytes(), &[], "");
    assert_spans(FORMER_HEAD.as_bytes(), &[], "");
    // nobody comes so far
    assert_spans(&recording("0,1,try\n0,1,crit\n0,1,exit\n"), &[], "");
}

/// They are those of the run that `replay` prints: each `from` is where a report names the seller first, each `to` where it stops.
#[test]
fn beside_the_report() {
    let text = recording(THREE);
    let (mut seller, mut changes) = (0, Vec::new());
    for line in String::from_utf8(replay(&text)).unwrap().lines().skip(1) {
        let numbers: Vec<u64> = line.split(',').map(|number| number.parse().unwrap()).collect();
        if numbers[1] == 0 && numbers[2] != seller {
            seller = numbers[2];
            changes.push(numbers[3]);
        }
    }
    let moments = spans(&text).unwrap().into_iter().flat_map(|span| [Some(span.from), span.to]);
    assert!(moments.eq(changes.into_iter().map(Some)));
}

#[test]
fn the_last_moment() {
    let end = 1_000_000_000_000;
    let sale = format!(
        "{0},2,try\n{0},2,test\n{0},2,set\n{end},2,check\n{end},2,crit\n1000000000001,2,exit\n",
        end - 8
    );
    assert_spans(&recording(&sale), &[open(2, end)], &format!("2,{end},-\n"));
    let sale = format!("{sale}{end},2,exit\n");
    assert_spans(&recording(&sale), &[closed(2, end, end)], &format!("2,{end},{end}\n"));
}

/// Each fault with the line that a report of the same text names; with 15, which is of no line, the report has 0.
#[test]
fn faults() {
    let due: [(&str, Refusal, Option<u64>); 20] = [
        ("", Refusal::Names { line: 1 }, Some(1)),
        (NAMES, Refusal::Names { line: 1 }, Some(1)),
        ("windows,a,b,c\n", Refusal::Line { line: 2 }, Some(2)),
        ("windows,a,b,c\n2,5,8\n", Refusal::Line { line: 2 }, Some(2)),
        ("windows,a,b,c\n0,5,8,12\n", Refusal::WindowCount, Some(2)),
        ("windows,a,b,c\n97,5,5,12\ntime", Refusal::WindowCount, Some(2)),
        ("windows,a,b,c\n2,5,5,12\n", Refusal::Limits, Some(2)),
        ("windows,a,b,c\n2,5,8,12\n", Refusal::Names { line: 3 }, Some(3)),
        (&[FORMER_HEAD, "0,1,try\n00,1,test\n"].concat(), Refusal::Line { line: 5 }, Some(5)),
        ("windows,b,c\n", Refusal::Line { line: 2 }, Some(2)),
        ("windows,b,c\n97,8,7\ntime", Refusal::WindowCount, Some(2)),
        ("windows,b,c\n2,8,7\n", Refusal::Names { line: 3 }, Some(3)),
        ("windows,b,c\n2,8,7\nwindow,a\n1,5\n", Refusal::Line { line: 5 }, Some(5)),
        ("windows,b,c\n2,8,7\nwindow,a\n1,5\n3,5\n", Refusal::Line { line: 5 }, Some(5)),
        ("windows,b,c\n2,8,7\nwindow,a\n1,5\n2,5\ntime", Refusal::Limits, Some(5)),
        ("windows,b,c\n1,8,12\nwindow,a\n1,8\n", Refusal::Limits, Some(4)),
        ("windows,b,c\n2,8,12\nwindow,a\n1,5\n2,0\n", Refusal::Limits, Some(5)),
        ("windows,b,c\n2,8,12\nwindow,a\n1,5\n2,7\n", Refusal::Names { line: 6 }, Some(6)),
        (&[HEAD, "0,1,try\n00,1,test\n"].concat(), Refusal::Line { line: 8 }, Some(8)),
        (&"#".repeat(raw::MOST_TEXT + 1), Refusal::Length, None),
    ];
    for (text, refusal, line) in due {
        let fault = Fault { refusal, line };
        assert_eq!(spans(text.as_bytes()), Err(fault));
        assert_eq!(spans_text(text.as_bytes()), Err(fault));
        assert_eq!(read(text.as_bytes()), Err(refusal));
        let report = format!("line,answer,window,moment\n{},{},0,0\n", line.unwrap_or(0), refusal.number());
        assert_eq!(replay(text.as_bytes()), report.as_bytes());
    }
}

#[test]
fn words_of_a_fault() {
    let words = |text: &[u8]| spans(text).unwrap_err().to_string();
    assert_eq!(words(b""), "line 1 is not the names line that it should be");
    assert_eq!(words(b"windows,a,b,c\n"), "line 2 differs from its form");
    assert_eq!(words(b"windows,a,b,c\n97,5,8,12\n"), "line 2: the number of windows is outside 1 to 96");
    let limits = "the limits break 1 ≤ each a < b ≤ c ≤ 10,000,000";
    assert_eq!(words(b"windows,a,b,c\n2,8,8,12\n"), format!("line 2: {limits}"));
    assert_eq!(words(b"windows,b,c\n2,8,12\nwindow,a\n1,5\n2,8\n"), format!("line 5: {limits}"));
    assert_eq!(words(&[b'#'; raw::MOST_TEXT + 1]), "the text is longer than 65,536 bytes");
}

/// A fault is an error among others, and a refusal where the line is of no use.
#[test]
fn what_becomes_of_a_fault() {
    fn refused(text: &[u8]) -> Result<Vec<Span>, Refusal> {
        Ok(spans(text)?)
    }
    fn failed(text: &[u8]) -> Result<Vec<Span>, Box<dyn std::error::Error>> {
        Ok(spans(text)?)
    }
    assert_eq!(refused(b"windows,a,b,c\n97,5,8,12\n"), Err(Refusal::WindowCount));
    assert_eq!(failed(b"windows,a,b,c\n").unwrap_err().to_string(), "line 2 differs from its form");
}

/// Of a text that has so many bytes: an output with less stays, and of one with more the rest.
#[test]
fn outputs() {
    let text = spans_text(REFUSED_BETWEEN).unwrap();
    let as_long = REFUSED_BETWEEN.len();
    for room in (0..text.len() + 2).chain(as_long - 1..as_long + 3) {
        let mut out = vec![b'~'; room];
        let answer = raw::spans(REFUSED_BETWEEN, &mut out);
        if room < text.len() {
            assert_eq!(answer, Answer { number: 16, window: 0, moment: 0 });
            assert_eq!(out, vec![b'~'; room]);
        } else {
            assert_eq!(answer, Answer { number: 0, window: 0, moment: text.len() as u64 });
            assert_eq!(out, [&text[..], &vec![b'~'; room - text.len()]].concat());
        }
    }
}

/// A fault comes before a short output, and leaves it.
#[test]
fn a_fault_and_no_room() {
    for room in [0, 1, 100] {
        let mut out = vec![b'~'; room];
        let answer = raw::spans(b"windows,a,b,c\n2,5,5,12\n", &mut out);
        assert_eq!(answer, Answer { number: 12, window: 0, moment: 2 });
        let answer = raw::spans(b"windows,b,c\n2,5,12\nwindow,a\n1,4\n2,5\n", &mut out);
        assert_eq!(answer, Answer { number: 12, window: 0, moment: 5 });
        assert_eq!(out, vec![b'~'; room]);
    }
}

/// As many sales as a recording has room for, each tried for at the moment at which the one before has ended.
#[test]
fn the_longest_recording() {
    let mut text = String::from("windows,a,b,c\n1,1,2,2\ntime,window,act\n");
    let mut list = Vec::new();
    for sale in 0.. {
        let (from, to) = (2 * sale, 2 * sale + 2);
        let round = format!(
            "{from},1,try\n{from},1,test\n{from},1,set\n{to},1,check\n{to},1,crit\n{to},1,exit\n{to},1,reset\n{to},1,rem\n"
        );
        if text.len() + round.len() > raw::MOST_TEXT {
            break;
        }
        text += &round;
        list.push(closed(1, to, to));
    }
    assert_eq!(list.len(), 736);
    assert_eq!(spans(text.as_bytes()), Ok(list));
}
