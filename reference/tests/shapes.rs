//! The two shapes of a recording: the order of faults in each, each fault at each line before the steps; what is read of them; and that what
//! was read is written again in the new one, with the same bytes where it was in that.

use reference::answer::*;
use reference::generator::generate;
use reference::generator::shapes::Shape;
use reference::machine::*;
use reference::recording::*;
use std::collections::BTreeSet;

/// A faultless text of the new shape; its first step is on line 8.
const NEW: &str = "windows,b,c\n3,8,12\nwindow,a\n1,5\n2,1\n3,7\ntime,window,act\n0,1,try\n3,1,test\n";
/// The same of the former shape, on line 4.
const FORMER: &str = "windows,a,b,c\n3,5,8,12\ntime,window,act\n0,1,try\n3,1,test\n";

fn fault(text: &str) -> (u64, u64) {
    match read(text.as_bytes()) {
        Ok(_) => (ACCEPTED, 0),
        Err(Fault { number, line }) => (number, line),
    }
}

/// With the lines of these numbers in the place of those that there were.
fn with(text: &str, others: &[(usize, &str)]) -> String {
    let mut lines: Vec<&str> = text.lines().collect();
    for &(line, other) in others {
        lines[line - 1] = other;
    }
    lines.join("\n") + "\n"
}

fn without(text: &str, line: usize) -> String {
    let mut lines: Vec<&str> = text.lines().collect();
    lines.remove(line - 1);
    lines.join("\n") + "\n"
}

#[test]
fn both_are_read() {
    let steps = [Step { time: 0, window: 1, act: TRY }, Step { time: 3, window: 1, act: TEST }].to_vec();
    let own = Recording { values: Values::new(3, 8, 12, &[5, 1, 7]), first_line: 8, steps: steps.clone() };
    assert_eq!(read(NEW.as_bytes()), Ok(own));
    let equal = Recording { values: Values::new(3, 8, 12, &[5, 5, 5]), first_line: 4, steps };
    assert_eq!(read(FORMER.as_bytes()), Ok(equal));
}

/// [6.90] to [6.120]
#[test]
fn each_line_of_the_new_shape_has_its_faults() {
    let faults: [(usize, &[&str], u64, u64); 11] = [
        (1, &["", "windows,a,b", "windows,b,c,", "Windows,b,c", "windows,b", "3,8,12"], NAMES, 1),
        (
            2,
            &["", "3,8", "3,5,8,12", "3,8,12,", "03,8,12", "3,8,x", "3,8,100000000", "000000003,8,12"],
            LINE,
            2,
        ),
        (2, &["0,8,12", "97,8,12", "99999999,8,12"], WINDOW_COUNT, 2),
        (3, &["", "window", "window,b", "windows,a", "window,a,", "1,5"], NAMES, 3),
        (4, &["", "1", "5", "1,", "1,5,5", "01,5", "1,05", "1,x", "1,100000000", "100000001,5"], LINE, 4),
        (4, &["0,5", "2,5", "3,5", "97,5"], LINE, 4),
        (5, &["2", "1,1", "3,1", "time,window,act"], LINE, 5),
        (6, &["3", "2,7", "4,7", "time,window,act"], LINE, 6),
        (6, &["3,0", "3,8", "3,9", "3,99999999"], LIMITS, 6),
        (7, &["", "time,window", "time,window,acts", "4,5", "0,1,try"], NAMES, 7),
        (8, &["", "0,1,sell", "0,1", "time,window,act"], LINE, 8),
    ];
    for (line, others, number, at) in faults {
        for other in others {
            assert_eq!(fault(&with(NEW, &[(line, other)])), (number, at), "line {line}: {other}");
        }
    }
}

/// [6.36] For any of b, c and the values of a, at the last line of a.
#[test]
fn limits_are_judged_once_all_are_read() {
    let values = ["3,7,12", "3,8,7", "3,8,10000001", "3,0,0", "3,99999999,99999999"];
    for wrong in values {
        assert_eq!(fault(&with(NEW, &[(2, wrong)])), (LIMITS, 6), "{wrong}");
    }
    for (line, wrong) in [(4, "1,0"), (4, "1,8"), (5, "2,0"), (5, "2,8"), (6, "3,8")] {
        assert_eq!(fault(&with(NEW, &[(line, wrong)])), (LIMITS, 6), "{wrong}");
    }
    for n in [1, 2, 50, 96] {
        let values = Values::equal(n, 5, 8, 10_000_001);
        assert_eq!(fault(&head(values)), (LIMITS, n + 3));
    }
}

#[test]
fn of_two_faults_the_first_counts() {
    let wrong_c = (2, "3,8,10000001");
    assert_eq!(fault(&with(NEW, &[wrong_c, (3, "x")])), (NAMES, 3));
    assert_eq!(fault(&with(NEW, &[wrong_c, (4, "x")])), (LINE, 4));
    assert_eq!(fault(&with(NEW, &[wrong_c, (6, "x")])), (LINE, 6));
    assert_eq!(fault(&with(NEW, &[wrong_c, (7, "x")])), (LIMITS, 6));
    assert_eq!(fault(&with(NEW, &[wrong_c, (8, "x")])), (LIMITS, 6));
    assert_eq!(fault(&with(NEW, &[(4, "1,0"), (5, "x")])), (LINE, 5));
    assert_eq!(fault(&with(NEW, &[(2, "97,8,7"), (3, "x")])), (WINDOW_COUNT, 2));
    assert_eq!(fault(&with(NEW, &[(2, "97,8,x"), (3, "x")])), (LINE, 2));
    assert_eq!(fault(&with(NEW, &[(7, "x"), (8, "x")])), (NAMES, 7));
}

#[test]
fn lines_that_are_missing_or_in_each_others_place() {
    let found = [1, 2, 3, 4, 5, 6, 7].map(|line| fault(&without(NEW, line)));
    assert_eq!(found, [(NAMES, 1), (LINE, 2), (NAMES, 3), (LINE, 4), (LINE, 5), (LINE, 6), (NAMES, 7)]);
    assert_eq!(fault(&with(NEW, &[(4, "2,1"), (5, "1,5")])), (LINE, 4));
    assert_eq!(fault(&with(NEW, &[(5, "3,7"), (6, "2,1")])), (LINE, 5));
    // the text ends after so many lines, or within the next
    let ends: Vec<usize> = NEW.match_indices('\n').map(|(end, _)| end).collect();
    let after = [1, 2, 3, 4, 5, 6].map(|lines| fault(&NEW[..=ends[lines - 1]]));
    assert_eq!(after, [(LINE, 2), (NAMES, 3), (LINE, 4), (LINE, 5), (LINE, 6), (NAMES, 7)]);
    let within = [0, 1, 2, 3, 4, 5, 6].map(|lines: usize| fault(&NEW[..ends[lines]]));
    assert_eq!(within, [(NAMES, 1), (LINE, 2), (NAMES, 3), (LINE, 4), (LINE, 5), (LINE, 6), (NAMES, 7)]);
}

/// [6.45] Its own order stays.
#[test]
fn the_former_shape_keeps_its_faults() {
    let changed = |line, other| fault(&with(FORMER, &[(line, other)]));
    assert_eq!(changed(2, "3,8,12"), (LINE, 2));
    assert_eq!(changed(2, "0,0,8,12"), (WINDOW_COUNT, 2));
    for wrong in ["3,0,8,12", "3,8,8,12", "3,5,8,7", "3,5,8,10000001"] {
        assert_eq!(changed(2, wrong), (LIMITS, 2));
        assert_eq!(fault(&with(FORMER, &[(2, wrong), (3, "x"), (4, "x")])), (LIMITS, 2));
    }
    assert_eq!(changed(3, "window,a"), (NAMES, 3));
    assert_eq!(changed(5, "0,1,sell"), (LINE, 5));
}

#[test]
fn line_1_tells_them_apart() {
    assert_eq!(fault(&with(NEW, &[(1, "windows,a,b,c")])), (LINE, 2));
    assert_eq!(fault(&with(FORMER, &[(1, "windows,b,c")])), (LINE, 2));
}

/// [6.110] The reader's own answer has a line for 13 and 14 alone; [6.140] it then leaves every list.
#[test]
fn a_refused_reading_names_no_line_for_12() {
    let refused = |text: String| {
        let mut lists = [[7; 100]; 4];
        let [a, times, windows, acts] = &mut lists;
        let (answer, values) = read_into(text.as_bytes(), a, times, windows, acts);
        assert_eq!((values, lists), (Values::default(), [[7; 100]; 4]));
        answer
    };
    assert_eq!(refused(with(NEW, &[(6, "3,8")])), bare(LIMITS));
    assert_eq!(refused(with(FORMER, &[(2, "3,8,8,12")])), bare(LIMITS));
    assert_eq!(refused(with(NEW, &[(2, "97,8,12")])), bare(WINDOW_COUNT));
    assert_eq!(refused(with(NEW, &[(3, "x")])), answer(NAMES, 0, 3));
    assert_eq!(refused(with(NEW, &[(6, "x")])), answer(LINE, 0, 6));
}

/// All 96 values of a are stored, in a list that has room for them; 16 comes last.
#[test]
fn the_list_of_limits() {
    let lent = |text: &str, places: usize| {
        let (mut a, mut times, mut windows, mut acts) = (vec![7; places], [7; 2], [7; 2], [7; 2]);
        let (answer, _) = read_into(text.as_bytes(), &mut a, &mut times, &mut windows, &mut acts);
        (answer, a, times)
    };
    for text in [NEW, FORMER] {
        let due = read(text.as_bytes()).expect("a recording").values.a;
        assert_eq!(lent(text, 96), (answer(ACCEPTED, 0, 2), due.to_vec(), [0, 3]));
        assert_eq!(lent(text, 98), (answer(ACCEPTED, 0, 2), [&due[..], &[7, 7]].concat(), [0, 3]));
        for places in [0, 3, 95] {
            assert_eq!(lent(text, places), (bare(SHORT_OUTPUT), vec![7; places], [7; 2]));
        }
    }
    assert_eq!(lent(&with(NEW, &[(9, "x")]), 95).0, answer(LINE, 0, 9));
    assert_eq!(lent(&with(NEW, &[(6, "3,8")]), 95).0, bare(LIMITS));
}

/// By line 1, the number, and a line up to 3 or any after it.
#[test]
fn generated_recordings_have_each_fault_in_both() {
    let mut found = BTreeSet::new();
    for text in (0..2_000).map(|index| generate(1, index).text) {
        let Err(Fault { number, line }) = read(&text) else { continue };
        for first in ["windows,b,c\n", "windows,a,b,c\n"] {
            if text.starts_with(first.as_bytes()) {
                found.insert((first, number, line.min(4)));
            }
        }
    }
    let of_new = [(WINDOW_COUNT, 2), (LIMITS, 4), (NAMES, 3), (NAMES, 4), (LINE, 2), (LINE, 4), (LENGTH, 0)];
    let of_former = [(WINDOW_COUNT, 2), (LIMITS, 2), (NAMES, 3), (LINE, 2), (LINE, 4), (LENGTH, 0)];
    let due = of_new.into_iter().map(|(number, line)| ("windows,b,c\n", number, line));
    let due = due.chain(of_former.into_iter().map(|(number, line)| ("windows,a,b,c\n", number, line)));
    assert_eq!(found, due.collect());
}

fn written(recording: &Recording) -> (Answer, Vec<u8>) {
    let column = |number: fn(&Step) -> u64| recording.steps.iter().map(number).collect::<Vec<u64>>();
    let (times, windows, acts) =
        (column(|step| step.time), column(|step| step.window), column(|step| step.act));
    let mut output = vec![0; TEXT_END];
    let answer = write(recording.values, &times, &windows, &acts, &mut output);
    output.truncate(answer.moment as usize);
    (answer, output)
}

/// [6.200] [6.202] Of generated recordings: the same bytes of the new shape; of the former the same steps and values, if there is room.
#[test]
fn what_was_read_is_written_in_the_new_shape() {
    let (mut same, mut turned, mut too_long) = (0, 0, 0);
    for text in (0..2_000).map(|index| generate(3, index).text) {
        let Ok(recording) = read(&text) else { continue };
        let (answered, again) = written(&recording);
        if recording.first_line == first_line(recording.values.n) {
            assert_eq!((answered, again), (answer(ACCEPTED, 0, text.len() as u64), text));
            same += 1;
        } else if answered == bare(LENGTH) {
            let grown = head(recording.values).len() - Shape::Former.head(recording.values).len();
            assert!(text.len() <= TEXT_END && text.len() + grown > TEXT_END);
            too_long += 1;
        } else {
            assert_eq!(answered.number, ACCEPTED);
            let due = Recording { first_line: first_line(recording.values.n), ..recording };
            assert_eq!(read(&again), Ok(due));
            turned += 1;
        }
    }
    assert!(same > 500 && turned > 200 && too_long > 0, "{same}, {turned}, {too_long}");
}

/// [6.170] A step without a form has the line that it would take; a value above n comes before it.
#[test]
fn a_writing_judges_the_limits_first() {
    let bad = [Step { time: 0, window: 0, act: 10 }];
    for n in [1, 2, 96] {
        let mut recording =
            Recording { values: Values::equal(n, 5, 8, 12), first_line: first_line(n), steps: bad.to_vec() };
        assert_eq!(written(&recording).0, answer(LINE, 0, n + 5));
        recording.values.a[0] = 8;
        assert_eq!(written(&recording).0, bare(LIMITS));
    }
    let mut above = Recording { values: Values::equal(2, 5, 8, 12), first_line: 7, steps: bad.to_vec() };
    above.values.a[95] = 1;
    assert_eq!(written(&above).0, bare(LIMITS));
}
