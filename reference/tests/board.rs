//! The foyer board at its edges, the recorded step that tells it, and, over generated lists of calls, the list of all entries.

use reference::answer::*;
use reference::board::*;
use reference::board_list::{make, BoardCall, FullList};
use reference::generator::boards::{list, Family};
use reference::generator::generate;
use reference::generator::random::Random;
use reference::machine::*;
use reference::reckoning::Reckoning;
use reference::recording::read;
use reference::summary::{recorded_step, Summary};

fn board(w: u64) -> Board {
    set_up(w).1
}

/// A board that has been told entries of window 1 at these moments, the first with the wait 1, the next with 2.
fn told(w: u64, moments: &[u64]) -> Board {
    let mut board = board(w);
    for (&moment, wait) in moments.iter().zip(1..) {
        assert_eq!(add(&mut board, moment, 1, wait).number, ACCEPTED);
    }
    board
}

fn add(board: &mut Board, moment: u64, window: u64, wait: u64) -> Answer {
    let answer;
    (answer, *board) = board.clone().add(moment, window, wait);
    answer
}

fn show(board: &mut Board, clock: u64) -> Answer {
    let answer;
    (answer, *board) = board.clone().show(clock);
    answer
}

fn figures(count: u64, longest: u64) -> Answer {
    answer(ACCEPTED, count, longest)
}

/// A call that is refused, and leaves all as it was.
fn refused(board: &Board, call: impl Fn(&mut Board) -> Answer) -> Answer {
    let mut lent = board.clone();
    let answer = call(&mut lent);
    assert_ne!(answer.number, ACCEPTED);
    assert_eq!(lent, *board);
    answer
}

#[test]
fn widths() {
    for w in [1, 2, W_END] {
        assert_eq!(set_up(w), (bare(ACCEPTED), Board { w, last: 0, kept: vec![] }));
    }
    for w in [0, W_END + 1, u64::MAX] {
        assert_eq!(set_up(w), (bare(WIDTH), Board { w: 0, last: 0, kept: vec![] }));
        assert_eq!(refused(&board(w), |board| show(board, 0)), bare(NO_SUMMARY));
        assert_eq!(refused(&board(w), |board| add(board, u64::MAX, 0, 0)), bare(NO_SUMMARY));
    }
}

#[test]
fn an_entry_counts_up_to_its_moment_plus_w() {
    for (w, moment) in [(1, 0), (1, 7), (10, 0), (10, 5), (W_END, 0), (W_END, CLOCK_END - W_END)] {
        let mut board = told(w, &[moment]);
        assert_eq!(show(&mut board, moment), figures(1, 1));
        assert_eq!(show(&mut board, moment + w - 1), figures(1, 1));
        assert_eq!(show(&mut board, moment + w), figures(0, 0));
        assert_eq!(board, Board { w, last: moment + w, kept: vec![] });
    }
}

#[test]
fn all_count_while_the_clock_is_below_w() {
    let mut board = told(10, &[0, 0, 3]);
    assert_eq!(show(&mut board, 9), figures(3, 3));
    assert_eq!(show(&mut board, 10), figures(1, 3));
    let mut late = told(W_END, &[CLOCK_END]);
    assert_eq!(show(&mut late, CLOCK_END), figures(1, 1));
}

#[test]
fn the_longest_is_of_those_that_count() {
    let mut board = board(10);
    assert_eq!(add(&mut board, 1, 1, u64::MAX), figures(1, u64::MAX));
    assert_eq!(add(&mut board, 5, 2, 7), figures(2, u64::MAX));
    assert_eq!(add(&mut board, 11, 3, 0), figures(2, 7));
    assert_eq!(add(&mut board, 15, 4, 0), figures(2, 0));
    assert_eq!(show(&mut board, 25), figures(0, 0));
}

#[test]
fn windows_of_an_entry() {
    let mut lent = board(10);
    assert_eq!(add(&mut lent, 0, 1, 3), figures(1, 3));
    assert_eq!(add(&mut lent, 0, 96, 3), figures(2, 3));
    for window in [0, 97, u64::MAX] {
        assert_eq!(refused(&lent, |board| add(board, 20, window, 3)), bare(NO_WINDOW));
    }
}

#[test]
fn a_showing_moves_the_last_moment_told() {
    let mut board = told(10, &[3]);
    assert_eq!(show(&mut board, 8), figures(1, 1));
    assert_eq!(board.last, 8);
    assert_eq!(refused(&board, |board| show(board, 7)), answer(BACKWARD, 0, 8));
    assert_eq!(refused(&board, |board| add(board, 7, 1, 0)), answer(BACKWARD, 0, 8));
    assert_eq!(add(&mut board, 8, 1, 0), figures(2, 1));
}

#[test]
fn the_order_of_refusals() {
    let kept = told(10, &[3]);
    assert_eq!(refused(&kept, |board| add(board, 2, 0, 0)), answer(BACKWARD, 0, 3));
    assert_eq!(refused(&kept, |board| add(board, CLOCK_END + 1, 0, 0)), bare(END_OF_CLOCK));
    assert_eq!(refused(&kept, |board| show(board, u64::MAX)), bare(END_OF_CLOCK));
    // nothing is asked of the last moment told but that the entries are not past it
    let past = Board { last: CLOCK_END + 5, ..kept };
    assert_eq!(refused(&past, |board| show(board, CLOCK_END + 4)), answer(BACKWARD, 0, CLOCK_END + 5));
    assert_eq!(refused(&past, |board| show(board, CLOCK_END + 5)), bare(END_OF_CLOCK));
}

#[test]
fn a_full_board() {
    let mut board = told(10, &[5; ROOM]);
    assert_eq!(refused(&board, |board| add(board, 5, 1, 0)), bare(BOARD_FULL));
    assert_eq!(refused(&board, |board| add(board, 14, 97, 0)), bare(NO_WINDOW));
    assert_eq!(refused(&board, |board| add(board, 14, 1, 0)), bare(BOARD_FULL));
    assert_eq!(show(&mut board, 14), figures(1024, 1024));
    assert_eq!(add(&mut board, 15, 2, 3), figures(1, 3));
    assert_eq!(board.kept, [Entry { moment: 15, window: 2, wait: 3 }]);
}

#[test]
fn expired_entries_give_up_their_places_first() {
    let mut moments = [8; ROOM];
    moments[..3].copy_from_slice(&[1, 2, 2]);
    let board = told(10, &moments);
    assert_eq!(refused(&board, |board| add(board, 10, 1, 0)), bare(BOARD_FULL));
    let added = |moment| board.clone().add(moment, 1, 0).0;
    assert_eq!(added(11), figures(1024, 1024));
    assert_eq!(added(12), figures(1022, 1024));
    assert_eq!(added(17), figures(1022, 1024));
    assert_eq!(added(18), figures(1, 0));
}

#[test]
fn unsound_boards() {
    let entries =
        |moments: &[u64]| moments.iter().map(|&moment| Entry { moment, window: 1, wait: 0 }).collect();
    let with = |w, last, moments: &[u64]| Board { w, last, kept: entries(moments) };
    for sound in [with(1, 0, &[0]), with(W_END, 3, &[1, 1, 3]), with(5, u64::MAX, &[0, u64::MAX])] {
        assert!(sound.sound());
    }
    let unsound = [
        with(0, 3, &[]),
        with(W_END + 1, 3, &[]),
        with(u64::MAX, 3, &[]),
        with(5, 3, &[1, 3, 2]),
        with(5, 3, &[1, 4]),
        with(5, 0, &[u64::MAX]),
        with(5, 3, &[3; ROOM + 1]),
    ];
    for board in unsound {
        assert_eq!(refused(&board, |board| add(board, CLOCK_END, 1, 0)), bare(NO_SUMMARY));
        assert_eq!(refused(&board, |board| add(board, u64::MAX, 0, 0)), bare(NO_SUMMARY));
        assert_eq!(refused(&board, |board| show(board, 0)), bare(NO_SUMMARY));
    }
    let mut odd = Board { w: 5, last: 3, kept: vec![Entry { moment: 3, window: 4_000, wait: u64::MAX }] };
    assert_eq!(add(&mut odd, 4, 1, 0), figures(2, u64::MAX));
}

/// [10.150] [10.155] Of generated lists of calls. They fill a board and come to use its places again, or they would show little.
#[test]
fn each_answer_is_that_of_the_full_list() {
    for (family, index) in Family::ALL.into_iter().zip(0..) {
        let (mut board, mut full) = (board(0), FullList::default());
        let (mut came, mut most) = ([0; BOARD_FULL as usize + 1], 0);
        for call in list(&mut Random::new(11, index), family, 5_000) {
            let answer;
            (answer, board) = make(board, call);
            assert_eq!(answer, full.answer(call), "{family:?}: {call:?}");
            came[answer.number as usize] += 1;
            most = full.entries().len().max(most);
        }
        let due = [ACCEPTED, BACKWARD, END_OF_CLOCK, NO_WINDOW, BOARD_FULL];
        let due = &due[..if family == Family::Few { 4 } else { 5 }];
        assert!(due.iter().all(|&number| came[number as usize] > 0), "{family:?}: {came:?}");
        assert!(most > 2 * ROOM, "{family:?}: {most} entries");
    }
}

/// [10.205] [10.220] Of generated recordings: the step is the recorded one, and the figures are those of the accepted crits.
#[test]
fn the_board_is_told_of_each_accepted_crit() {
    let mut entered = 0;
    for recording in (0..400).filter_map(|index| read(&generate(2, index).text).ok()) {
        let w = 40;
        let (_, mut table) = fresh(recording.values);
        let (mut summary, mut plain, mut board) = (Summary::new(), Summary::new(), board(w));
        let (mut reckoning, mut full) = (Reckoning::default(), FullList::default());
        full.answer(BoardCall::SetUp(w));
        for step in &recording.steps {
            let wanted = recorded_step(table, &mut plain, step.act, step.window, step.time);
            let told;
            (told, table, board) =
                record_and_tell(table, &mut summary, board, step.act, step.window, step.time);
            assert_eq!((told.step, table, &summary), (wanted.0, wanted.1, &plain));
            reckoning.after([step.act, step.window, step.time], told.step);
            if step.act == CRIT && told.step.number == ACCEPTED {
                let wait = reckoning.waits().last().expect("a crit ends a wait").unused;
                let entry = Entry { moment: step.time, window: step.window, wait };
                assert_eq!(told.board, full.answer(BoardCall::Add(entry)));
                entered += 1;
            } else {
                assert_eq!(told.board, bare(ACCEPTED));
            }
        }
    }
    assert!(entered > 500);
}

#[test]
fn the_step_stands_whatever_the_board_answers() {
    let (_, mut entering) = fresh(Values::equal(2, 5, 8, 12));
    (entering.clock, entering.word, entering.places[1]) = (20, 2, Place::Entering(18));
    let summary = Summary { accepted: 9, waited: [17; WINDOWS], ..Summary::new() };
    let crit = |board: Board, window, moment| {
        let (mut counted, mut alone) = (summary.clone(), summary.clone());
        let (told, table, board) = record_and_tell(entering, &mut counted, board, CRIT, window, moment);
        assert_eq!((told.step, table), recorded_step(entering, &mut alone, CRIT, window, moment));
        assert_eq!(counted, alone);
        (told.board, board)
    };
    let (answer_of_new, left) = crit(board(10), 2, 21);
    assert_eq!((answer_of_new, left.kept), (figures(1, 18), vec![Entry { moment: 21, window: 2, wait: 18 }]));
    let shown = Board { last: 22, ..board(10) };
    assert_eq!(crit(shown.clone(), 2, 21), (answer(BACKWARD, 0, 22), shown));
    let full = told(10, &[20; ROOM]);
    assert_eq!(crit(full.clone(), 2, 21), (bare(BOARD_FULL), full));
    assert_eq!(crit(board(0), 2, 21), (bare(NO_SUMMARY), board(0)));
    // out of place, and too late: nobody is let in
    assert_eq!(crit(board(10), 1, 21), (bare(ACCEPTED), board(10)));
    assert_eq!(crit(board(10), 2, 24), (bare(ACCEPTED), board(10)));
}
