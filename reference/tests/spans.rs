//! The spans of a recording, over the corpus and generated recordings: those that `replay` tells of, by what it prints; those from each
//! accepted crit to the next exit of its window; one for each entry that a summary counts; and, as a call, in outputs of every length and
//! with every fault.

use reference::answer::*;
use reference::generator::generate;
use reference::machine::*;
use reference::recording::{read, Recording, Step};
use reference::replay::replay;
use reference::spans::*;
use reference::summary::{recorded_step, Summary};
use std::fs;
use std::path::PathBuf;

fn corpus() -> Vec<PathBuf> {
    let files = fs::read_dir(concat!(env!("CARGO_MANIFEST_DIR"), "/corpus")).expect("the corpus");
    let paths = files.map(|file| file.expect("a file").path());
    paths.filter(|path| path.extension().is_some_and(|ending| ending == "in")).collect()
}

/// The recordings of the corpus and generated ones, faulty or not.
fn texts() -> impl Iterator<Item = Vec<u8>> {
    let stored = corpus().into_iter().map(|path| fs::read(path).expect("a recording"));
    stored.chain((0..1_000).map(|index| generate(6, index).text))
}

fn recordings() -> impl Iterator<Item = Recording> {
    texts().filter_map(|text| read(&text).ok())
}

#[test]
fn the_corpus_has_what_is_printed() {
    for path in corpus() {
        let stored = |ending| fs::read_to_string(path.with_extension(ending)).ok();
        let text = fs::read(&path).expect("a recording");
        assert_eq!(stored("out"), Some(replay(&text)), "{path:?}");
        assert_eq!(stored("spans"), spans_text(&text).ok(), "{path:?}");
    }
}

/// [11.100]
#[test]
fn the_whole_case_ends_with_an_open_span() {
    let text = include_bytes!("../corpus/whole-case.in");
    assert_eq!(printed(text), "window,from,to\n2,20,-\n");
    let recording = read(text).expect("a recording");
    assert_eq!(spans_of(&recording), [Span { window: 2, from: 20, to: None }]);
}

/// [11.105]
#[test]
fn refused_acts_between_are_none() {
    let text = include_bytes!("../../examples/spans.csv");
    assert_eq!(printed(text), "window,from,to\n1,12,16\n2,31,-\n");
}

/// The text of spans from what `replay` prints, whatever the acts were: an accepted step's answer names who sells after it. So a span begins
/// where a window comes to be named, and ends where none is.
fn told(replayed: &str) -> String {
    let mut text = String::from("window,from,to\n");
    let mut seller = "0";
    for line in replayed.lines().skip(1) {
        let fields: Vec<&str> = line.split(',').collect();
        let &[_, "0", window, moment] = &fields[..] else { continue };
        match (seller, window) {
            (before, after) if before == after => {}
            ("0", _) => text += &format!("{window},{moment},"),
            (_, "0") => text += &format!("{moment}\n"),
            _ => panic!("{window} sells right after {seller}"),
        }
        seller = window;
    }
    if seller != "0" {
        text += "-\n";
    }
    text
}

#[test]
fn they_are_those_that_replay_tells_of() {
    for text in texts().filter(|text| read(text).is_ok()) {
        assert_eq!(printed(&text), told(&replay(&text)));
    }
}

/// What comes of recorded steps.
struct Recorded {
    /// the accepted crits and exits
    passages: Vec<Step>,
    table: Table,
    summary: Summary,
}

fn recorded(recording: &Recording) -> Recorded {
    let (_, table) = fresh(recording.values);
    let mut recorded = Recorded { passages: Vec::new(), table, summary: Summary::new() };
    for &taken in &recording.steps {
        let answer;
        (answer, recorded.table) =
            recorded_step(recorded.table, &mut recorded.summary, taken.act, taken.window, taken.time);
        if answer.number == ACCEPTED && [CRIT, EXIT].contains(&taken.act) {
            recorded.passages.push(taken);
        }
    }
    recorded
}

/// [11.20] [11.30] As the clauses say it: for each crit the next exit of its window.
fn looked_for(passages: &[Step]) -> Vec<Span> {
    let crits = (0..passages.len()).filter(|&place| passages[place].act == CRIT);
    crits.map(|place| span_from(&passages[place..])).collect()
}

/// The span that begins with the first of these.
fn span_from(passages: &[Step]) -> Span {
    let Step { window, time: from, .. } = passages[0];
    let exit = passages.iter().find(|step| step.act == EXIT && step.window == window);
    Span { window, from, to: exit.map(|exit| exit.time) }
}

#[test]
fn each_crit_has_the_next_exit_of_its_window() {
    for recording in recordings() {
        assert_eq!(spans_of(&recording), looked_for(&recorded(&recording).passages));
    }
}

fn ends(span: &Span) -> impl Iterator<Item = Step> {
    let &Span { window, from, to } = span;
    let exit = to.map(|time| Step { time, window, act: EXIT });
    [Step { time: from, window, act: CRIT }].into_iter().chain(exit)
}

/// [11.70] [11.80] Crits and exits are accepted in turn, and are the ends of the spans one by one.
#[test]
fn they_have_each_accepted_crit_and_exit() {
    for recording in recordings() {
        let ends: Vec<Step> = spans_of(&recording).iter().flat_map(ends).collect();
        assert_eq!(ends, recorded(&recording).passages);
    }
}

/// [11.75]
#[test]
fn they_are_as_many_as_a_summary_counts() {
    for recording in recordings() {
        let spans = spans_of(&recording);
        let closed = spans.iter().filter(|span| span.to.is_some());
        let Summary { entries, exits, .. } = recorded(&recording).summary;
        assert_eq!((spans.len() as u64, closed.count() as u64), (entries, exits));
    }
}

/// [11.90]
#[test]
fn the_last_is_open_while_its_window_sells() {
    for recording in recordings() {
        let spans = spans_of(&recording);
        let open = spans.last().filter(|span| span.to.is_none());
        assert_eq!(open.map_or(0, |span| span.window), recorded(&recording).table.seller());
    }
}

/// [11.80] [11.85]
#[test]
fn none_begins_before_the_one_before_it_has_ended() {
    for spans in recordings().map(|recording| spans_of(&recording)) {
        assert!(spans.windows(2).all(|pair| pair[0].to.is_some_and(|to| to <= pair[1].from)));
        assert!(spans.iter().all(|span| span.to.is_none_or(|to| span.from <= to)));
    }
}

#[test]
fn generated_recordings_have_many_and_open_ones() {
    let recordings = (0..4_000).filter_map(|index| read(&generate(1, index).text).ok());
    let spans: Vec<Span> = recordings.flat_map(|recording| spans_of(&recording)).collect();
    let open = spans.iter().filter(|span| span.to.is_none()).count();
    assert!(spans.len() > 10_000 && open > 100, "{} spans, {open} of them open", spans.len());
}

/// [11.65]
#[test]
fn no_text_of_spans_is_longer_than_its_recording() {
    for text in texts() {
        assert!(spans_text(&text).map_or(0, |spans| spans.len()) <= text.len());
    }
}

/// The call with an output of that length.
fn called(text: &[u8], room: usize) -> (Answer, Vec<u8>) {
    let mut out = vec![b'#'; room];
    (spans(text, &mut out), out)
}

/// [11.50] [11.60]
#[test]
fn outputs_of_every_length() {
    for text in texts().filter(|text| text.len() < 1_000) {
        let Ok(whole) = spans_text(&text) else { continue };
        let size = whole.len();
        for room in 0..size {
            assert_eq!(called(&text, room), (bare(SHORT_OUTPUT), vec![b'#'; room]));
        }
        for room in size..size + 3 {
            let after = whole.clone() + &"#".repeat(room - size);
            assert_eq!(called(&text, room), (answer(ACCEPTED, 0, size as u64), after.into_bytes()));
        }
    }
}

/// [11.55] The number, and the line as the moment, whether the output is short or not.
#[test]
fn a_fault_is_that_of_replay() {
    for text in texts().filter(|text| read(text).is_err()) {
        let replayed = replay(&text);
        assert_eq!(printed(&text), replayed);
        let numbers = replayed.lines().nth(1).expect("a fault").split(',').map(str::parse);
        let numbers: Vec<u64> = numbers.collect::<Result<_, _>>().expect("numbers");
        for room in [0, 15, 1_000] {
            assert_eq!(called(&text, room), (answer(numbers[1], 0, numbers[0]), vec![b'#'; room]));
        }
    }
}

#[test]
fn each_fault_has_its_line() {
    let fault = |text: &str| called(text.as_bytes(), 0).0;
    let steps =
        |line_2: &str, rest: &str| fault(&format!("windows,a,b,c\n{line_2}\ntime,window,act\n{rest}"));
    assert_eq!(steps("97,5,8,12", "x"), answer(WINDOW_COUNT, 0, 2));
    assert_eq!(steps("2,5,5,12", "x"), answer(LIMITS, 0, 2));
    assert_eq!(fault(""), answer(NAMES, 0, 1));
    assert_eq!(fault("windows,a,b,c\n2,5,8,12\n"), answer(NAMES, 0, 3));
    assert_eq!(steps("2,5,8", ""), answer(LINE, 0, 2));
    assert_eq!(steps("2,5,8,12", "0,1,try\n3,1,sell\n"), answer(LINE, 0, 5));
    assert_eq!(fault(&"0".repeat(65_537)), answer(LENGTH, 0, 0));
    assert_eq!(steps("2,5,8,12", ""), bare(SHORT_OUTPUT));
    let own = |line_2: &str, limits: &str| fault(&format!("windows,b,c\n{line_2}\nwindow,a\n{limits}"));
    assert_eq!(own("97,8,12", "x"), answer(WINDOW_COUNT, 0, 2));
    assert_eq!(own("2,8,12", "1,5\n2,8\nx"), answer(LIMITS, 0, 5));
    assert_eq!(own("2,8,7", "1,5\n1,5\n"), answer(LINE, 0, 5));
    assert_eq!(own("2,8,12", "1,5\n2,7\n"), answer(NAMES, 0, 6));
    assert_eq!(own("2,8,12", "1,5\n2,7\ntime,window,act\n"), bare(SHORT_OUTPUT));
}
