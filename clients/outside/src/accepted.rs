//! Random calls of accepted acts, on a generated recording, faulty or not, for windows that it has and others, and with lists of any lengths.
//! Each is held to what the reference makes of it; what it came upon is counted.

use crate::acts::any_number;
use crate::calls::{self, Verdict};
use crate::notebooks::Lists;
use crate::sights::{Sight, Sights};
use reference::answer::{Answer, ACCEPTED, NO_WINDOW, SHORT_OUTPUT};
use reference::generator::random::Random;
use reference::notebook::accepted_acts;
use reference::recording::{first_line, read, Recording};
use reference::replay::{run, Taken};

/// What fills the lists.
const FILLED: u64 = 7777;
/// From so many on they are many.
const MANY: usize = 70;

/// A text, and the recording that it is, run, if it is one.
pub struct Recorded {
    text: Vec<u8>,
    ran: Option<(Recording, Vec<Taken>)>,
}

impl Recorded {
    pub fn new(text: Vec<u8>) -> Recorded {
        let ran = read(&text).ok().map(|recording| {
            let taken = run(&recording).collect();
            (recording, taken)
        });
        Recorded { text, ran }
    }

    pub fn is_faulty(&self) -> bool {
        self.ran.is_none()
    }

    fn taken(&self) -> &[Taken] {
        self.ran.as_ref().map_or(&[], |(_, taken)| taken)
    }

    /// Of a faulty one, any.
    fn n(&self) -> u64 {
        self.ran.as_ref().map_or(2, |(recording, _)| recording.values.n)
    }

    /// How many steps of a window were accepted; of 0 they are waits.
    fn accepted_of(&self, window: u64) -> usize {
        let is_one = |taken: &&Taken| taken.answer.number == ACCEPTED && taken.step.window == window;
        self.taken().iter().filter(is_one).count()
    }

    /// The answer that is due, whether it and all else came, and what an accepted call takes out.
    pub fn call(&self, random: &mut Random, sights: &mut Sights) -> (Answer, Verdict, Option<Lists>) {
        let window = self.window(random);
        let lengths = lengths(random, self.accepted_of(window));
        let lists = lengths.map(|length| vec![FILLED; length]);
        let mut after = lists.clone();
        let [times, acts] = &mut after;
        let answer = accepted_acts(&self.text, window, times, acts);
        Asked { recorded: self, window, lengths, answer }.look(sights);
        let verdict = calls::accepted_acts(&self.text, window, &lists, (answer, &after));
        let verdict = verdict.map_err(|what| format!("accepted acts of {window} into {lengths:?}: {what}"));
        (answer, verdict, (answer.number == ACCEPTED).then(|| taken_out(after, answer.moment as usize)))
    }

    /// That of a step mostly, or any that is there; else 0, the next after n, or any number.
    fn window(&self, random: &mut Random) -> u64 {
        let n = self.n();
        let steps = self.taken().len();
        match random.below(16) {
            0 => 0,
            1 => n + 1,
            2 => any_number(random, 1),
            3 => random.between(1, n),
            _ if steps == 0 => 1,
            _ => self.taken()[random.index(steps)].step.window,
        }
    }
}

fn taken_out([mut times, mut acts]: [Vec<u64>; 2], count: usize) -> Lists {
    times.truncate(count);
    acts.truncate(count);
    Lists { times, acts }
}

/// Both just suffice mostly; else they are longer, or one of them is short, by one or by more.
fn lengths(random: &mut Random, needed: usize) -> [usize; 2] {
    let short = random.pick(&[0, needed.saturating_sub(1), needed / 2]);
    match random.below(8) {
        0 => [short, needed],
        1 => [needed, short],
        2 => [short, needed + 3],
        3 | 4 => [needed + random.index(4), needed + random.index(4)],
        _ => [needed, needed],
    }
}

/// A call with the answer that is due.
struct Asked<'a> {
    recorded: &'a Recorded,
    window: u64,
    lengths: [usize; 2],
    answer: Answer,
}

impl Asked<'_> {
    fn look(&self, sights: &mut Sights) {
        let needed = self.recorded.accepted_of(self.window);
        let [times, acts] = self.lengths;
        match self.answer.number {
            ACCEPTED => self.look_at_taken(needed, sights),
            NO_WINDOW => {
                sights.look(Sight::WaitsWithoutRoom, self.window == 0 && times.min(acts) < needed);
                sights.look(Sight::WindowAboveN, self.window == self.recorded.n() + 1);
            }
            SHORT_OUTPUT => {
                sights.look(Sight::OneTimeShort, times + 1 == needed && acts >= needed);
                sights.look(Sight::OneActShort, acts + 1 == needed && times >= needed);
            }
            _ => sights.look(Sight::FaultAndNoWindow, self.window == 0 || self.window > 96),
        }
    }

    fn look_at_taken(&self, needed: usize, sights: &mut Sights) {
        let Some((recording, taken)) = &self.recorded.ran else { return };
        let is_new = recording.first_line == first_line(recording.values.n);
        let is_own = |taken: &Taken| taken.step.window == self.window;
        let is_accepted = |taken: &Taken| taken.answer.number == ACCEPTED;
        sights.look(if is_new { Sight::TakenOfNew } else { Sight::TakenOfFormer }, needed > 0);
        sights.look(Sight::NoneTaken, needed == 0);
        sights.look(Sight::ManyTaken, needed >= MANY);
        sights.look(Sight::RefusedLeftOut, taken.iter().any(|taken| is_own(taken) && !is_accepted(taken)));
        sights.look(Sight::OthersLeftOut, taken.iter().any(|taken| !is_own(taken) && is_accepted(taken)));
        sights.look(Sight::JustPlaces, needed > 0 && self.lengths == [needed; 2]);
        sights.look(Sight::MorePlaces, self.lengths.iter().all(|&length| length > needed));
    }
}
