//! Notebooks: what a window's accepted acts are, and what comes of holding a till's own against them.
//! They are looked at as notebooks and, for places that do not count and lists that stay, through `raw`.

use funnelfawn::raw::{self, accepted_acts, compare_logs, Answer, Comparison};
use funnelfawn::Act::*;
use funnelfawn::{read, replay, spans, Fault, Note, Notebook, Refusal, Step};

/// A day of two windows, and what the till of window 1 has noted of it: its clock is 1,200 microseconds behind, give or take 40.
const DAY: &[u8] = include_bytes!("../../../examples/clocks.csv");
const TILL: &[u8] = include_bytes!("../../../examples/notebook.csv");
/// A sale in which acts are refused between others [11.105].
const REFUSED_BETWEEN: &[u8] = include_bytes!("../../../examples/spans.csv");

const END: u64 = 1_000_000_000_000;
const MOST: i64 = raw::MOST_SHIFT as i64;
const PAST: u64 = 7777;

fn bare(number: u64) -> Answer {
    Answer { number, window: 0, moment: 0 }
}

/// Of moments with the acts from 1 on.
fn notebook<const N: usize>(moments: [u64; N]) -> Notebook {
    moments.into_iter().zip(1u64..).collect()
}

/// Whoever wrote a recording by his own clock: what it has of a window.
fn noted(text: &[u8], window: u64) -> Notebook {
    let of_window = |step: &Step| (step.window == window).then_some((step.moment, step.act));
    read(text).unwrap().steps.iter().filter_map(of_window).collect()
}

/// Of the definition's words: the least of the shifts that serve, tried one by one.
fn least_by_trial(till: &Notebook, other: &Notebook, d: i64, e: i64) -> Option<i64> {
    let within = |shift: i64| {
        let off = |(till, other): (&Note, &Note)| (other.moment as i64 - (till.moment as i64 + shift)).abs();
        till.notes.iter().zip(&other.notes).map(off).all(|off| off <= e)
    };
    (-d..=d).find(|&shift| within(shift))
}

/// [13.150] Behind, and the other way round ahead.
#[test]
fn behind() {
    let (till, other) = (notebook([18_800, 19_800, 23_800]), notebook([20_000, 21_000, 25_000]));
    assert_eq!(till.held_against(&other, 5_000, 0), Ok(1_200));
    assert_eq!(till.held_against(&other, 5_000, 100), Ok(1_100));
    assert_eq!(till.held_against(&other, 1_000, 100), Err(Refusal::NoShift));
    assert_eq!(till.held_against(&other, 1_000, 200), Ok(1_000));
    assert_eq!(other.held_against(&till, 5_000, 100), Ok(-1_300));
    assert_eq!(other.held_against(&till, 1_000, 200), Ok(-1_000));
}

/// [13.155] The notes are off by 1,200, 1,260 and 1,170.
#[test]
fn shaken() {
    let (till, other) = (notebook([18_800, 19_800, 23_800]), notebook([20_000, 21_060, 24_970]));
    assert_eq!(till.held_against(&other, 5_000, 45), Ok(1_215));
    assert_eq!(till.held_against(&other, 5_000, 44), Err(Refusal::NoShift));
    assert_eq!(other.held_against(&till, 5_000, 45), Ok(-1_215));
}

/// [13.75] Both without a note.
#[test]
fn no_note() {
    let none = Notebook::default();
    for (d, shift) in [(0, 0), (5, -5), (1_000_000, -1_000_000)] {
        for e in [0, 7, raw::MOST_SHIFT] {
            assert_eq!(none.held_against(&none, d, e), Ok(shift));
        }
    }
    let one = notebook([7]);
    assert_eq!(none.held_against(&one, 5, 5), Err(Refusal::OtherActs));
    assert_eq!(one.held_against(&none, 5, 5), Err(Refusal::OtherActs));
}

/// [13.160] The bounds are looked at first, then the acts, then the shifts.
#[test]
fn refusals_in_their_order() {
    let till = Notebook::from_iter([(7, Try), (END + 1, Test)]);
    let other = Notebook::from_iter([(7, Try), (8, Set)]);
    assert_eq!(till.held_against(&other, 5, 0), Err(Refusal::Bounds));
    assert_eq!(other.held_against(&till, 5, 0), Err(Refusal::Bounds));
    // in a place that the other one has not
    assert_eq!(till.held_against(&notebook([7]), 5, 0), Err(Refusal::Bounds));
    assert_eq!(Notebook::default().held_against(&till, 5, 0), Err(Refusal::Bounds));
    // with one act the second moment does not count, and there are fewer acts
    let one_act = compare_logs(&[7, END + 1], &[1], &[7, 8], &[1, 3], 5, 0);
    assert_eq!(one_act, Comparison { number: 20, window: 0, shift: 0 });
    let at_the_end = Notebook::from_iter([(7, Try), (END, Test)]);
    assert_eq!(at_the_end.held_against(&other, 5, 0), Err(Refusal::OtherActs));
    assert_eq!(at_the_end.held_against(&at_the_end, 5, 0), Ok(0));
    let none = Notebook::default();
    for (d, e) in [(1_000_001, 0), (0, 1_000_001), (u64::MAX, 0), (0, u64::MAX), (u64::MAX, u64::MAX)] {
        assert_eq!(none.held_against(&none, d, e), Err(Refusal::Bounds));
        assert_eq!(till.held_against(&other, d, e), Err(Refusal::Bounds));
    }
}

/// One act more, one less, two that have changed places, one that is another.
#[test]
fn other_acts() {
    let other = Notebook::from_iter([(20, Try), (21, Test), (25, Set)]);
    let with = |acts: &[funnelfawn::Act]| acts.iter().map(|&act| (20, act)).collect::<Notebook>();
    for acts in [
        &[Try, Test][..],
        &[Try, Test, Set, Check],
        &[Test, Try, Set],
        &[Try, Test, Test],
        &[Wait, Test, Set],
    ] {
        assert_eq!(
            with(acts).held_against(&other, 1_000_000, 1_000_000),
            Err(Refusal::OtherActs),
            "{acts:?}"
        );
    }
    assert_eq!(with(&[Try, Test, Set]).held_against(&other, 1_000_000, 5), Ok(0));
    // numbers that are no act are held to each other like any
    let odd = Notebook::from_iter([(20, u64::MAX), (21, 10u64)]);
    assert_eq!(odd.held_against(&odd, 3, 1), Ok(-1));
}

/// From one end of the shifts to the other, at both ends of the clock.
#[test]
fn ends() {
    for (from, to) in [(0, 1_000_000), (END - 1_000_000, END)] {
        let (early, late) = (notebook([from]), notebook([to]));
        assert_eq!(early.held_against(&late, 1_000_000, 0), Ok(MOST));
        assert_eq!(late.held_against(&early, 1_000_000, 0), Ok(-MOST));
        assert_eq!(early.held_against(&late, 999_999, 0), Err(Refusal::NoShift));
        assert_eq!(late.held_against(&early, 999_999, 0), Err(Refusal::NoShift));
        assert_eq!(early.held_against(&late, 999_999, 1), Ok(999_999));
        assert_eq!(early.held_against(&late, 0, 1_000_000), Ok(0));
        assert_eq!(late.held_against(&early, 1_000_000, 1_000_000), Ok(-MOST));
    }
    assert_eq!(notebook([0]).held_against(&notebook([END]), 1_000_000, 1_000_000), Err(Refusal::NoShift));
    assert_eq!(notebook([0, END]).held_against(&notebook([END, 0]), 9, 9), Err(Refusal::NoShift));
}

/// Beside shifts that are tried one by one, for notes of all small differences, and all small d and e.
#[test]
fn beside_a_trial() {
    let (mut agreed, mut differed) = (0, 0);
    for shakes in 0..125 {
        let [one, two, three] = [shakes % 5, shakes / 5 % 5, shakes / 25];
        let (till, other) = (notebook([12, 20, 29]), notebook([10 + one, 18 + two, 27 + three]));
        for (d, e) in (0..5).flat_map(|d| (0..4).map(move |e| (d, e))) {
            let due = least_by_trial(&till, &other, d, e);
            assert_eq!(till.held_against(&other, d as u64, e as u64), due.ok_or(Refusal::NoShift));
            *if due.is_some() { &mut agreed } else { &mut differed } += 1;
        }
    }
    assert!(agreed > 500 && differed > 500);
}

/// The till of window 1, from the recording's text on: within 40 it is 1,200 behind, and with more room the shifts are those around it.
#[test]
fn a_till_that_is_behind() {
    let accepted = Notebook::accepted(DAY, 1).unwrap();
    let till = noted(TILL, 1);
    assert_eq!((accepted.notes.len(), till.notes.len()), (20, 20));
    assert_eq!(till.held_against(&accepted, 5_000, 40), Ok(1_200));
    assert_eq!(till.held_against(&accepted, 5_000, 39), Err(Refusal::NoShift));
    assert_eq!(till.held_against(&accepted, 5_000, 100), Ok(1_140));
    // the largest that serves
    assert_eq!(accepted.held_against(&till, 5_000, 100), Ok(-1_260));
    assert_eq!(till.held_against(&accepted, 1_000, 100), Err(Refusal::NoShift));
    assert_eq!(least_by_trial(&till, &accepted, 5_000, 100), Some(1_140));
    // the other window's acts are others, and so are the window's own with those that were refused
    let of_2 = Notebook::accepted(DAY, 2).unwrap();
    assert_eq!(till.held_against(&of_2, 5_000, 100), Err(Refusal::OtherActs));
    assert_eq!(till.held_against(&noted(DAY, 1), 5_000, 100), Err(Refusal::OtherActs));
    assert_eq!(noted(DAY, 1).notes.len(), 22);
}

/// By a clock that is off and exact, whatever it is off by.
#[test]
fn a_clock_that_is_exact() {
    let accepted = Notebook::accepted(DAY, 1).unwrap();
    for off in [-5_000, -1, 0, 1, 1_200, 5_000] {
        let moved = |note: &Note| ((note.moment as i64 - off) as u64, note.act);
        let till: Notebook = accepted.notes.iter().map(moved).collect();
        assert_eq!(till.held_against(&accepted, 5_000, 0), Ok(off));
        assert_eq!(till.held_against(&accepted, 5_000, 10), Ok((off - 10).max(-5_000)));
    }
}

/// [13.165] What was refused is in neither.
#[test]
fn accepted() {
    assert_eq!(Notebook::accepted(REFUSED_BETWEEN, 1), Ok(notebook([0, 1, 2, 10, 12, 16, 18, 22])));
    assert_eq!(Notebook::accepted(REFUSED_BETWEEN, 2), Ok(notebook([18, 20, 21, 29, 31])));
    for window in [0, 3, 97, u64::MAX] {
        let fault = Fault { refusal: Refusal::NoWindow, line: None };
        assert_eq!(Notebook::accepted(REFUSED_BETWEEN, window), Err(fault));
    }
    // window 96, which has done nothing, and a wait, which is of no window
    let idle = b"windows,a,b,c\n96,5,8,12\ntime,window,act\n0,0,wait\n";
    assert_eq!(Notebook::accepted(idle, 96), Ok(Notebook::default()));
}

/// They are those that the report of the same run has with 0, and all of them: each step is of one window or a wait.
#[test]
fn beside_the_report() {
    for text in [DAY, REFUSED_BETWEEN] {
        let report = String::from_utf8(replay(text)).unwrap();
        let numbers = report.lines().skip(1).map(|line| line.split(',').nth(1).unwrap());
        let steps = read(text).unwrap().steps.into_iter().zip(numbers);
        let accepted: Vec<Step> =
            steps.filter_map(|(step, number)| (number == "0").then_some(step)).collect();
        for window in [1, 2] {
            let due = accepted.iter().filter(|step| step.window == window);
            let due: Notebook = due.map(|step| (step.moment, step.act)).collect();
            assert_eq!(Notebook::accepted(text, window), Ok(due));
        }
    }
}

/// A faulty recording gives the fault that its spans give, whatever window is asked for.
#[test]
fn faults() {
    let texts: [&[u8]; 6] = [
        b"",
        b"windows,b,c\n97,8,12\n",
        b"windows,b,c\n2,8,12\nwindow,a\n1,8\n2,7\n",
        b"windows,a,b,c\n2,8,8,12\n",
        b"windows,a,b,c\n2,5,8,12\ntime,window,act\n0,1,try\n00,1,test\n",
        &[b'#'; raw::MOST_TEXT + 1],
    ];
    for text in texts {
        let fault = spans(text).unwrap_err();
        for window in [0, 1, 98] {
            assert_eq!(Notebook::accepted(text, window), Err(fault));
        }
        // before a list that is too short, and leaving it
        let (mut moments, mut acts) = ([PAST; 1], [PAST; 0]);
        let answer = accepted_acts(text, 1, &mut moments, &mut acts);
        assert_eq!((answer.number, answer.moment), (fault.refusal.number(), fault.line.unwrap_or(0)));
        assert_eq!(moments, [PAST]);
    }
}

/// The 8 acts of window 1 and lists of many lengths: refused they stay, and else what lies past the acts.
#[test]
fn room() {
    let (due_moments, due_acts) = ([0, 1, 2, 10, 12, 16, 18, 22], [1, 2, 3, 4, 5, 6, 7, 8]);
    for (moments_room, acts_room) in [(8, 8), (7, 8), (8, 7), (0, 0), (9, 8), (8, 20), (0, 20), (1, 1)] {
        let (mut moments, mut acts) = (vec![PAST; moments_room], vec![PAST; acts_room]);
        let mut left = (moments.clone(), acts.clone());
        let answer = accepted_acts(REFUSED_BETWEEN, 1, &mut moments, &mut acts);
        if moments_room.min(acts_room) < 8 {
            assert_eq!(answer, bare(16));
        } else {
            assert_eq!(answer, Answer { number: 0, window: 0, moment: 8 });
            left.0[..8].copy_from_slice(&due_moments);
            left.1[..8].copy_from_slice(&due_acts);
        }
        assert_eq!((moments, acts), left);
    }
    // the window comes before the room
    assert_eq!(accepted_acts(REFUSED_BETWEEN, 3, &mut [], &mut []), bare(7));
    assert_eq!(accepted_acts(REFUSED_BETWEEN, 0, &mut [PAST; 20], &mut [PAST; 20]), bare(7));
}

/// Nearly every step of a longest recording is an accepted act of window 1, which finds the word taken again and again.
#[test]
fn the_longest_recording() {
    let head = "windows,a,b,c\n2,5,8,12\ntime,window,act\n0,2,try\n0,2,test\n0,2,set\n0,1,try\n";
    let tests = (raw::MOST_TEXT - head.len()) / "0,1,test\n".len();
    let text = [head, &"0,1,test\n".repeat(tests)].concat();
    let accepted = Notebook::accepted(text.as_bytes(), 1).unwrap();
    assert_eq!(accepted.notes.len(), 1 + tests);
    assert_eq!(accepted.notes[tests], Note { moment: 0, act: Test.into() });
    assert_eq!(accepted.held_against(&accepted, 12, 5), Ok(-5));
}

/// [13.10] Of the two lists of a notebook the shorter sets its length, in either notebook, whatever stands past it in the other.
#[test]
fn places_that_do_not_count() {
    let (moments, acts) = ([18_800, 19_800, END + 1, u64::MAX], [1, 2, 99, 3]);
    let (box_moments, box_acts) = ([20_000, 21_000, END + 2], [1, 2, 7]);
    let agreed = Comparison { number: 0, window: 0, shift: 1_200 };
    for (counted, more) in
        [(&moments[..2], &acts[..]), (&moments[..], &acts[..2]), (&moments[..2], &acts[..2])]
    {
        for (other, other_more) in [(&box_moments[..2], &box_acts[..]), (&box_moments[..], &box_acts[..2])] {
            assert_eq!(compare_logs(counted, more, other, other_more, 5_000, 0), agreed);
        }
    }
    // as soon as both have it, it counts
    let refused = |number| Comparison { number, window: 0, shift: 0 };
    assert_eq!(compare_logs(&moments[..3], &acts, &box_moments[..2], &box_acts, 5_000, 0), refused(19));
    assert_eq!(compare_logs(&moments[..2], &acts, &box_moments, &box_acts, 5_000, 0), refused(19));
    assert_eq!(compare_logs(&moments[..1], &acts, &box_moments[..2], &box_acts, 5_000, 0), refused(20));
    assert_eq!(compare_logs(&moments[..2], &acts, &box_moments[..2], &box_acts, 1_199, 0), refused(21));
    // a notebook without acts has no note, however many moments it has
    assert_eq!(compare_logs(&moments, &[], &[], &box_acts, 3, 0).result(), Ok(-3));
}

#[test]
fn answers_and_words() {
    let comparison = |number| Comparison { number, window: 0, shift: -7 }.result();
    assert_eq!(comparison(0), Ok(-7));
    for (number, refusal) in [(19, Refusal::Bounds), (20, Refusal::OtherActs), (21, Refusal::NoShift)] {
        assert_eq!(comparison(number), Err(refusal));
        assert_eq!(refusal.number(), number);
    }
    assert_eq!(Refusal::OtherActs.to_string(), "the two notebooks have not the same acts");
    assert_eq!(Refusal::NoShift.to_string(), "no shift from -d to d brings all moments within e");
    assert_eq!(raw::MOST_SHIFT, 1_000_000);
}
