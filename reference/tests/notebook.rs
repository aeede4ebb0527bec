//! Notebooks: comparisons, by the stored calls and by the definition, for which all shifts from -d to d are tried, with what the specification
//! says of the shift that is told; and the accepted acts of recordings, by what `replay` prints of them.

mod stored;

use reference::answer::*;
use reference::generator::generate;
use reference::generator::random::Random;
use reference::machine::{CLOCK_END, LAST_ACT, TRY};
use reference::notebook::*;
use reference::recording::{read, WORDS};
use reference::replay::replay;
use std::collections::{BTreeMap, BTreeSet};
use stored::{answered, bytes, fields, fixed, numbers, FILLED};

// Comparisons

/// The lists of a notebook, as they are lent.
#[derive(Clone, Debug, Default)]
struct Lists {
    times: Vec<u64>,
    acts: Vec<u64>,
}

impl Lists {
    fn of(entries: &[(u64, u64)]) -> Lists {
        let (times, acts) = entries.iter().copied().unzip();
        Lists { times, acts }
    }

    fn lent(&self) -> Notebook<'_> {
        (&self.times, &self.acts)
    }

    /// [13.10] As many as the shorter list has.
    fn entries(&self) -> impl Iterator<Item = (u64, u64)> + '_ {
        self.times.iter().copied().zip(self.acts.iter().copied())
    }

    fn has_same_acts(&self, other: &Lists) -> bool {
        self.entries().map(|(_, act)| act).eq(other.entries().map(|(_, act)| act))
    }

    /// The same entries: behind the longer list, or one of two that are equally long, stand numbers more, which do not count.
    fn with_more(mut self, random: &mut Random) -> Lists {
        let is_even = self.times.len() == self.acts.len();
        let takes_times = self.times.len() > self.acts.len() || is_even && random.chance(50);
        let longer = if takes_times { &mut self.times } else { &mut self.acts };
        let huge = random.pick(&[CLOCK_END + 1, 1 << 63, u64::MAX]);
        longer.extend([huge, random.below(10), huge].into_iter().take(1 + random.index(3)));
        self
    }

    /// One entry, if there is any.
    fn damage(&mut self, random: &mut Random) {
        let Lists { times, acts } = self;
        if times.is_empty() {
            return;
        }
        let place = random.index(times.len());
        match random.below(5) {
            0 => times[place] = random.pick(&[CLOCK_END, CLOCK_END + 1, 1 << 63, u64::MAX]),
            1 => acts[place] = random.pick(&[1, 2, 10, u64::MAX]),
            2 => acts.swap(0, place),
            3 => times.truncate(place),
            _ => acts.truncate(place),
        }
    }
}

#[derive(Clone, Debug)]
struct Call {
    till: Lists,
    kept: Lists,
    d: u64,
    e: u64,
}

impl Call {
    fn answer(&self) -> Comparison {
        compare(self.till.lent(), self.kept.lent(), self.d, self.e)
    }

    fn either(&mut self, random: &mut Random) -> &mut Lists {
        if random.chance(50) {
            &mut self.till
        } else {
            &mut self.kept
        }
    }

    /// [13.60] As the clause says it.
    fn defined(&self) -> Comparison {
        if !self.is_within_bounds() {
            return comparison(BOUNDS, 0);
        }
        if !self.till.has_same_acts(&self.kept) {
            return comparison(OTHER_ACTS, 0);
        }
        let least = self.shifts().find(|&shift| self.serves(shift));
        least.map_or(comparison(NO_SHIFT, 0), |shift| comparison(ACCEPTED, shift))
    }

    /// [13.30]
    fn is_within_bounds(&self) -> bool {
        let mut entries = self.till.entries().chain(self.kept.entries());
        self.d <= 1_000_000 && self.e <= 1_000_000 && entries.all(|(time, _)| time <= 1_000_000_000_000)
    }

    fn shifts(&self) -> impl Iterator<Item = i64> {
        -(self.d as i64)..=self.d as i64
    }

    /// [13.50] Of a shift from -d to d.
    fn serves(&self, shift: i64) -> bool {
        self.differences().all(|difference| difference.abs_diff(shift) <= self.e)
    }

    /// The time of the box less that of the till, place by place.
    fn differences(&self) -> impl Iterator<Item = i64> + '_ {
        let pairs = self.till.entries().zip(self.kept.entries());
        pairs.map(|((till_time, _), (time, _))| time as i64 - till_time as i64)
    }
}

/// `till's times | till's acts | box's times | box's acts | d e | answer`, whose last number has a sign.
fn stored_comparison(line: &str) -> (Call, Comparison) {
    let [till_times, till_acts, times, acts, bounds, wanted] = fields(line);
    let [d, e] = fixed(bounds);
    let till = Lists { times: numbers(till_times), acts: numbers(till_acts) };
    let kept = Lists { times: numbers(times), acts: numbers(acts) };
    let wanted: Vec<i64> = wanted.split_whitespace().map(|word| word.parse().expect("a number")).collect();
    let &[number, 0, shift] = &wanted[..] else { panic!("no comparison: {line}") };
    (Call { till, kept, d, e }, comparison(number as u64, shift))
}

#[test]
fn stored_comparisons() {
    for line in include_str!("../vectors/notebook.txt").lines() {
        let (call, wanted) = stored_comparison(line);
        assert_eq!(call.answer(), wanted, "{line}");
        assert_eq!(call.defined(), wanted, "{line}");
    }
}

/// A few entries, which begin at any time or end near the clock's end, and the same as a clock tells them that is off by about d, and by about e
/// at each of them.
fn any_call(random: &mut Random) -> Call {
    let (d, e) = (random.pick(&[0, 1, 2, 6]), random.pick(&[0, 1, 2, 6]));
    let first = random.pick(&[0, 20, 5_000, CLOCK_END - 60]) + 20;
    let count = random.below(6);
    let entries: Vec<(u64, u64)> =
        (0..count).map(|_| (first + random.below(40), random.between(1, LAST_ACT))).collect();
    let off = about(random, d);
    let as_told = |&(time, act): &(u64, u64)| (time.wrapping_add_signed(off + about(random, e)), act);
    let kept = Lists::of(&entries.iter().map(as_told).collect::<Vec<_>>());
    Call { till: Lists::of(&entries), kept, d, e }
}

/// From -reach to reach, and now and then one more to either side.
fn about(random: &mut Random, reach: u64) -> i64 {
    let reach = reach + u64::from(random.chance(10));
    random.below(2 * reach + 1) as i64 - reach as i64
}

/// With other acts, fewer entries, numbers past their bounds, and places that do not count, each now and then.
fn any_damaged(random: &mut Random) -> Call {
    let mut call = any_call(random);
    match random.below(12) {
        0 => call.d = random.pick(&[SHIFT_END + 1, u64::MAX]),
        1 => call.e = random.pick(&[SHIFT_END + 1, u64::MAX]),
        2 => *call.either(random) = Lists::default(),
        3..=7 => call.either(random).damage(random),
        _ => {}
    }
    for _ in 0..random.below(3) {
        let side = call.either(random);
        *side = std::mem::take(side).with_more(random);
    }
    call
}

fn damaged(seed: u64) -> impl Iterator<Item = Call> {
    (0..30_000).map(move |index| any_damaged(&mut Random::new(seed, index)))
}

fn undamaged(seed: u64) -> impl Iterator<Item = Call> {
    (0..10_000).map(move |index| any_call(&mut Random::new(seed, index)))
}

/// Those that are answered with a shift, and it.
fn agreeing(seed: u64) -> impl Iterator<Item = (Call, i64)> {
    let told = |call: Call| (call.answer().number == ACCEPTED).then(|| (call.clone(), call.answer().shift));
    undamaged(seed).filter_map(told)
}

#[test]
fn a_search_finds_the_same() {
    let mut times = BTreeMap::new();
    for call in damaged(1) {
        let answer = call.answer();
        assert_eq!(answer, call.defined(), "{call:?}");
        *times.entry(answer.number).or_insert(0) += 1;
    }
    let numbers: Vec<u64> = times.keys().copied().collect();
    assert_eq!(numbers, [ACCEPTED, BOUNDS, OTHER_ACTS, NO_SHIFT]);
    assert!(times.values().all(|&times| times > 1_000), "{times:?}");
}

/// What the search has to come upon: shifts at either end and between, those that alone serve, and logs that miss by one.
#[test]
fn random_ones_come_to_every_edge() {
    let told = || agreeing(2).filter(|(call, _)| call.d > 0 && !call.till.times.is_empty());
    assert!(told().any(|(call, shift)| shift == call.d as i64));
    assert!(told().any(|(call, shift)| shift == -(call.d as i64)));
    assert!(told().any(|(call, shift)| shift.unsigned_abs() < call.d));
    assert!(
        told().any(|(call, _)| call.e > 0 && call.shifts().filter(|&shift| call.serves(shift)).count() == 1)
    );
    let agrees = |call: Call| call.answer().number == ACCEPTED;
    let missed = || undamaged(2).filter(|call| call.answer().number == NO_SHIFT);
    assert!(missed().any(|call| agrees(Call { d: call.d + 1, ..call })));
    assert!(missed().any(|call| agrees(Call { e: call.e + 1, ..call })));
}

/// [13.10]
#[test]
fn places_that_one_list_alone_has_do_not_count() {
    let random = &mut Random::new(3, 0);
    for call in damaged(3) {
        let more = Call {
            till: call.till.clone().with_more(random),
            kept: call.kept.clone().with_more(random),
            ..call
        };
        assert_eq!(more.answer(), call.answer(), "{more:?}");
    }
}

/// [13.75] Whether both lists are empty, or one of them.
#[test]
fn without_an_entry_the_shift_is_minus_d() {
    let [none, times, acts]: [&[u64]; 3] = [&[], &[u64::MAX; 3], &[1, 2]];
    for till in [(none, none), (times, none), (none, acts)] {
        for kept in [(none, none), (times, none), (none, acts)] {
            let answer = |d, e| compare(till, kept, d, e);
            for d in [0, 1, 999_999, 1_000_000] {
                assert!([0, 1, 1_000_000].iter().all(|&e| answer(d, e) == comparison(ACCEPTED, -(d as i64))));
            }
            for (d, e) in [(1_000_001, 0), (0, 1_000_001), (u64::MAX, u64::MAX)] {
                assert_eq!(answer(d, e), comparison(BOUNDS, 0));
            }
        }
    }
}

/// [13.30] Of either log and at whichever place, whatever else is wrong.
#[test]
fn each_time_that_counts_has_a_bound() {
    for past in [CLOCK_END + 1, i64::MAX as u64, 1 << 63, u64::MAX] {
        for place in 0..5 {
            let (mut times, acts) = ([CLOCK_END; 5], [1, 2, 3, 4, 5]);
            assert_eq!(compare((&times, &acts), (&times, &acts), 3, 0), comparison(ACCEPTED, 0));
            times[place] = past;
            for (other_times, other_acts) in
                [(&[CLOCK_END; 5][..], &acts[..]), (&[9], &[1]), (&[9], &[2]), (&[], &[])]
            {
                let (long, other) = ((&times[..], &acts[..]), (other_times, other_acts));
                assert_eq!(compare(long, other, 3, 0), comparison(BOUNDS, 0));
                assert_eq!(compare(other, long, 3, 0), comparison(BOUNDS, 0));
            }
            let counted = (&times[..], &acts[..place]);
            assert_eq!(compare(counted, (&[CLOCK_END; 5], &acts[..place]), 3, 3), comparison(ACCEPTED, -3));
        }
    }
}

/// [13.40] One of two notebooks may be how the other begins.
#[test]
fn as_many_acts_are_the_same() {
    let (times, acts) = ([5; 4], [1, 2, 3, 4]);
    for (till_times, till_acts, kept_times, kept_acts) in (0..625).map(four_lengths) {
        let till = (&times[..till_times], &acts[..till_acts]);
        let kept = (&times[..kept_times], &acts[..kept_acts]);
        let are_as_many = till_times.min(till_acts) == kept_times.min(kept_acts);
        let number = if are_as_many { ACCEPTED } else { OTHER_ACTS };
        assert_eq!(compare(till, kept, 0, 0), comparison(number, 0));
    }
}

/// From 0 to 4 each.
fn four_lengths(index: usize) -> (usize, usize, usize, usize) {
    (index % 5, index / 5 % 5, index / 25 % 5, index / 125)
}

/// [13.70]
#[test]
fn the_shift_that_is_told_is_the_one_at_an_end() {
    for (call, told) in agreeing(4) {
        let (d, e) = (call.d as i64, call.e as i64);
        let is_at_an_end =
            |shift| shift == -d || call.differences().any(|difference| difference == shift + e);
        for shift in call.shifts().filter(|&shift| call.serves(shift)) {
            assert_eq!(is_at_an_end(shift), shift == told, "{call:?}, {shift}");
            assert!(told <= shift, "{call:?}");
        }
        let largest = call.differences().max();
        assert_eq!(told, largest.map_or(-d, |largest| (largest - e).max(-d)), "{call:?}");
    }
}

/// [13.80]
#[test]
fn a_clock_that_is_off_by_s_is_told_to_within_2e() {
    let random = &mut Random::new(5, 0);
    for _ in 0..10_000 {
        let reaches = [0, 1, 7, 300, SHIFT_END];
        let (d, e) = (random.pick(&reaches), random.pick(&reaches));
        let off = random.below(2 * d + 1) as i64 - d as i64;
        let by = |random: &mut Random| off + random.below(2 * e + 1) as i64 - e as i64;
        let time = random.pick(&[2 * SHIFT_END, CLOCK_END / 2, CLOCK_END - 5 * SHIFT_END]);
        let till: Vec<(u64, u64)> =
            (0..random.below(9)).map(|place| (time + 1_000 * place, 1 + place)).collect();
        let kept: Vec<(u64, u64)> =
            till.iter().map(|&(time, act)| (time.wrapping_add_signed(by(random)), act)).collect();
        let call = Call { till: Lists::of(&till), kept: Lists::of(&kept), d, e };
        let Comparison { number, shift, .. } = call.answer();
        assert!(number == ACCEPTED && shift <= off, "{call:?}");
        assert!(till.is_empty() || off - shift <= 2 * e as i64, "{call:?}");
        assert!(till.is_empty() || e > 0 || shift == off, "{call:?}");
    }
}

/// [13.85]
#[test]
fn with_more_room_they_agree_at_a_shift_that_is_not_above() {
    for (call, told) in agreeing(6) {
        for (d, e) in [(1, 0), (0, 1), (1, 1), (50, 3), (SHIFT_END - call.d, SHIFT_END - call.e)] {
            let wider = Call { d: call.d + d, e: call.e + e, ..call.clone() }.answer();
            assert!(wider.number == ACCEPTED && wider.shift <= told, "{call:?}, {d} and {e} more");
        }
    }
}

/// [13.150] to [13.160]
#[test]
fn cases_of_the_specification() {
    let acts = [1, 2, 3];
    let (till, kept, shaken) = ([18_800, 19_800, 23_800], [20_000, 21_000, 25_000], [20_000, 21_060, 24_970]);
    let held = |till: [u64; 3], kept: [u64; 3], d, e| compare((&till, &acts), (&kept, &acts), d, e);
    assert_eq!(held(till, kept, 5_000, 0), comparison(ACCEPTED, 1_200));
    assert_eq!(held(till, kept, 5_000, 100), comparison(ACCEPTED, 1_100));
    assert_eq!(held(till, kept, 1_000, 100), comparison(NO_SHIFT, 0));
    assert_eq!(held(till, kept, 1_000, 200), comparison(ACCEPTED, 1_000));
    assert_eq!(held(kept, till, 5_000, 100), comparison(ACCEPTED, -1_300));
    assert_eq!(held(till, shaken, 5_000, 45), comparison(ACCEPTED, 1_215));
    assert_eq!(held(till, shaken, 5_000, 44), comparison(NO_SHIFT, 0));
    let other: Notebook = (&[7, 8], &[1, 3]);
    assert_eq!(compare((&[7, CLOCK_END + 1], &[1, 2]), other, 0, 0), comparison(BOUNDS, 0));
    assert_eq!(compare((&[7, CLOCK_END + 1], &[1]), other, 0, 0), comparison(OTHER_ACTS, 0));
    assert_eq!(compare((&[7, CLOCK_END], &[1, 2]), other, 0, 0), comparison(OTHER_ACTS, 0));
}

// Accepted acts

/// The call with lists of these lengths: the answer, and what it leaves in them.
fn called(text: &[u8], window: u64, lengths: [usize; 2]) -> (Answer, [Vec<u64>; 2]) {
    let [mut times, mut acts] = lengths.map(|length| vec![FILLED; length]);
    (accepted_acts(text, window, &mut times, &mut acts), [times, acts])
}

/// Lists of these lengths that a call has left alone.
fn filled(lengths: [usize; 2]) -> [Vec<u64>; 2] {
    lengths.map(|length| vec![FILLED; length])
}

/// `text in hexadecimal | window | lengths of times and acts | answer | times after | acts after`
#[test]
fn stored_accepted_acts() {
    for line in include_str!("../vectors/accepted.txt").lines() {
        let [text, window, lengths, wanted, times, acts] = fields(line);
        let ([window], lengths) = (fixed(window), fixed(lengths).map(|length| length as usize));
        let due = (answered(wanted), [times, acts].map(numbers));
        assert_eq!(called(&bytes(text), window, lengths), due, "{line}");
    }
}

/// Generated recordings, faulty or not.
fn texts() -> impl Iterator<Item = Vec<u8>> {
    (0..1_000).map(|index| generate(8, index).text)
}

/// Those that are read, with their n.
fn recordings() -> impl Iterator<Item = (Vec<u8>, u64)> {
    texts().filter_map(|text| read(&text).ok().map(|recording| (text, recording.values.n)))
}

/// The rows that `replay` prints, as numbers: line, answer, window, moment.
fn rows(text: &[u8]) -> Vec<[u64; 4]> {
    let row =
        |line: &str| line.split(',').map(|field| field.parse().expect("a number")).collect::<Vec<u64>>();
    replay(text).lines().skip(1).map(|line| row(line).try_into().expect("four numbers")).collect()
}

/// The accepted steps of a recording by its own lines and by the rows that `replay` prints of them, each window's apart; waits are those of 0.
fn printed(text: &[u8]) -> BTreeMap<u64, Vec<(u64, u64)>> {
    let text = std::str::from_utf8(text).expect("a recording");
    let lines: Vec<&str> = text.lines().collect();
    let mut accepted: BTreeMap<u64, Vec<(u64, u64)>> = BTreeMap::new();
    for [line, ..] in rows(text.as_bytes()).into_iter().filter(|&[_, number, ..]| number == ACCEPTED) {
        let fields: Vec<&str> = lines[line as usize - 1].split(',').collect();
        let &[time, window, word] = &fields[..] else { panic!("line {line} is no step") };
        let [time, window] = [time, window].map(|field| field.parse().expect("a number"));
        let act = WORDS.iter().position(|&known| known == word).expect("an act") as u64;
        accepted.entry(window).or_default().push((time, act));
    }
    accepted
}

/// The first and the last window, and some of those with an accepted act.
fn windows(n: u64, printed: &BTreeMap<u64, Vec<(u64, u64)>>) -> BTreeSet<u64> {
    let acting = printed.keys().copied().filter(|&window| window > 0);
    [1, n].into_iter().chain(acting.take(5)).collect()
}

/// [13.110] [13.120] In lists that just suffice.
#[test]
fn they_are_those_that_replay_prints() {
    let (mut taken, mut left_out) = (0, 0);
    for (text, n) in recordings() {
        let printed = printed(&text);
        for window in windows(n, &printed) {
            let due = Lists::of(printed.get(&window).map_or(&[], Vec::as_slice));
            let count = due.times.len();
            taken += count;
            let answer = answer(ACCEPTED, 0, count as u64);
            assert_eq!(called(&text, window, [count; 2]), (answer, [due.times, due.acts]));
        }
        left_out += rows(&text).iter().filter(|[_, number, ..]| *number != ACCEPTED).count();
    }
    assert!(taken > 5_000 && left_out > 5_000, "{taken} taken, {left_out} refused");
}

/// [13.135] Each accepted act but the waits is that of one window.
#[test]
fn together_they_are_all_that_was_accepted() {
    for (text, n) in recordings().filter(|&(_, n)| n < 9) {
        let room = text.len();
        let count = |window| called(&text, window, [room; 2]).0.moment;
        let waits = printed(&text).get(&0).map_or(0, Vec::len) as u64;
        let accepted = rows(&text).iter().filter(|[_, number, ..]| *number == ACCEPTED).count() as u64;
        assert_eq!((1..=n).map(count).sum::<u64>() + waits, accepted);
    }
}

/// [13.140] [13.145] What comes out of a recording is within bounds as it is.
#[test]
fn their_times_do_not_fall_and_are_within_bounds() {
    for (text, n) in recordings() {
        for window in windows(n, &printed(&text)) {
            let (Answer { moment: count, .. }, lists) = called(&text, window, [text.len(); 2]);
            let [times, acts] = lists.each_ref().map(|list| &list[..count as usize]);
            assert!(times.is_sorted() && times.iter().all(|&time| time <= CLOCK_END));
            assert!(acts.iter().all(|act| (TRY..=LAST_ACT).contains(act)));
            assert_eq!(compare((times, acts), (times, acts), 7, 0).number, ACCEPTED);
            assert_eq!(compare((&[CLOCK_END], &[10]), (times, acts), 7, 0).number, OTHER_ACTS);
            assert_eq!(compare((&[CLOCK_END + 1], &[10]), (times, acts), 7, 0).number, BOUNDS);
        }
    }
}

/// [13.120] [13.125] In lists of every length up to some more than suffice.
#[test]
fn the_shorter_list_decides() {
    for (text, n) in recordings().filter(|(text, _)| text.len() < 400) {
        let printed = printed(&text);
        for window in windows(n, &printed) {
            let due = Lists::of(printed.get(&window).map_or(&[], Vec::as_slice));
            let count = due.times.len();
            for lengths in (0..count + 3).flat_map(|times| (0..count + 3).map(move |acts| [times, acts])) {
                let came = called(&text, window, lengths);
                if lengths.iter().any(|&length| length < count) {
                    assert_eq!(came, (bare(SHORT_OUTPUT), filled(lengths)));
                    continue;
                }
                let mut after = filled(lengths);
                after[0][..count].copy_from_slice(&due.times);
                after[1][..count].copy_from_slice(&due.acts);
                assert_eq!(came, (answer(ACCEPTED, 0, count as u64), after));
            }
        }
    }
}

/// [13.125] Before 16: those of window 0 would be the waits.
#[test]
fn windows_that_are_none() {
    for (text, n) in recordings() {
        for window in [0, n + 1, 97, (1 << 32) + 1, u64::MAX] {
            for lengths in [[0, 0], [0, 9], [9, 9]] {
                assert_eq!(called(&text, window, lengths), (bare(NO_WINDOW), filled(lengths)));
            }
        }
    }
}

/// [13.125] The number, and the line as the moment, whatever the window and the lists.
#[test]
fn a_fault_is_that_of_replay() {
    let mut numbers = BTreeSet::new();
    for text in texts().filter(|text| read(text).is_err()) {
        let &[[line, number, ..]] = &rows(&text)[..] else { panic!("no fault") };
        numbers.insert(number);
        for (window, lengths) in [(1, [9, 9]), (1, [0, 0]), (0, [9, 9]), (u64::MAX, [0, 3])] {
            assert_eq!(called(&text, window, lengths), (answer(number, 0, line), filled(lengths)));
        }
    }
    assert_eq!(numbers, (WINDOW_COUNT..=LENGTH).collect());
}

/// [13.165]
#[test]
fn a_recording_with_refused_acts() {
    let text = include_bytes!("../../examples/spans.csv");
    let first = [vec![0, 1, 2, 10, 12, 16, 18, 22], vec![1, 2, 3, 4, 5, 6, 7, 8]];
    assert_eq!(called(text, 1, [8, 8]), (answer(ACCEPTED, 0, 8), first));
    let second = [vec![18, 20, 21, 29, 31], vec![1, 2, 3, 4, 5]];
    assert_eq!(called(text, 2, [5, 5]), (answer(ACCEPTED, 0, 5), second));
    for window in [0, 3] {
        assert!([0, 8].iter().all(|&room| called(text, window, [room; 2]).0 == bare(NO_WINDOW)));
    }
    assert!([[7, 8], [8, 7]].iter().all(|&lengths| called(text, 1, lengths).0 == bare(SHORT_OUTPUT)));
}
