//! The step machine in plain Rust, by value and with the same checks, to measure the proved one beside.
//! It is written as a programmer would without a proof: a pass for soundness, one for lateness, one for the critical process.

mod cases;

#[derive(Clone, Copy, PartialEq)]
pub enum Location {
    Remainder,
    Testing(u64),
    Setting(u64),
    Checking(u64),
    Entering(u64),
    Critical,
    Resetting(u64),
    Leaving(u64),
}
use Location::*;

#[derive(Clone, Copy)]
pub struct Process {
    location: Location,
}

#[derive(Clone, Copy)]
pub struct State {
    n: u64,
    b: u64,
    c: u64,
    a: [u64; 96],
    clock: u64,
    word: u64,
    processes: [Process; 96],
}

pub struct Answer {
    code: u64,
    process: u64,
    time: u64,
}

pub struct Outcome {
    answer: Answer,
    state: State,
}

const LAST: u64 = 1_000_000_000_000;

/// Since when a process is in a timed location, and how long it may stay.
fn timing(a: u64, c: u64, location: Location) -> Option<(u64, u64)> {
    match location {
        Remainder | Critical => None,
        Checking(t) => Some((t, c)),
        Testing(t) | Setting(t) | Entering(t) | Resetting(t) | Leaving(t) => Some((t, a)),
    }
}

fn stage(location: Location) -> u64 {
    match location {
        Remainder => 0,
        Testing(_) => 1,
        Setting(_) => 2,
        Checking(_) => 3,
        Entering(_) => 4,
        Critical => 5,
        Resetting(_) => 6,
        Leaving(_) => 7,
    }
}

/// The stage that an action other than a wait leaves.
fn leaves(action: u64) -> u64 {
    match action {
        9 => 1,
        _ => action - 1,
    }
}

fn since(location: Location) -> u64 {
    timing(0, 0, location).map_or(0, |(since, _)| since)
}

fn is_sound(s: &State) -> bool {
    if !(1 <= s.n && s.n <= 96) {
        return false;
    }
    if !(s.b <= s.c && s.c <= 10_000_000) {
        return false;
    }
    if !(s.clock <= LAST && s.word <= s.n) {
        return false;
    }
    for i in 0..96 {
        let location = s.processes[i].location;
        if (i as u64) < s.n {
            if !(1 <= s.a[i] && s.a[i] < s.b) {
                return false;
            }
            if let Some((since, limit)) = timing(s.a[i], s.c, location) {
                if s.clock < since || limit < s.clock - since {
                    return false;
                }
            }
        } else if location != Remainder || s.a[i] != 0 {
            return false;
        }
    }
    true
}

/// The smallest deadline before `time` and the lowest process that has it; process 0 where there is none.
fn missed(s: &State, time: u64) -> (u64, u64) {
    let mut best = (0, 0);
    for i in (0..96).rev() {
        if let Some((since, limit)) = timing(s.a[i], s.c, s.processes[i].location) {
            if since < time && limit < time - since {
                let deadline = since + limit;
                if best.0 == 0 || deadline <= best.1 {
                    best = (i as u64 + 1, deadline);
                }
            }
        }
    }
    best
}

fn critical(s: &State) -> u64 {
    for i in 0..96 {
        if s.processes[i].location == Critical {
            return i as u64 + 1;
        }
    }
    0
}

fn answered(state: State, code: u64, process: u64, time: u64) -> Outcome {
    Outcome { answer: Answer { code, process, time }, state }
}

#[cfg_attr(apart, inline(never))]
pub fn step(state: State, action: u64, process: u64, time: u64) -> Outcome {
    if !is_sound(&state) {
        return answered(state, 1, 0, 0);
    }
    if time < state.clock {
        let clock = state.clock;
        return answered(state, 4, 0, clock);
    }
    if LAST < time {
        return answered(state, 5, 0, 0);
    }
    if 9 < action {
        return answered(state, 6, 0, 0);
    }
    if action == 0 {
        if process != 0 {
            return answered(state, 7, 0, 0);
        }
    } else if process == 0 || state.n < process {
        return answered(state, 7, 0, 0);
    }
    let (late, deadline) = missed(&state, time);
    if late != 0 {
        return answered(state, 8, late, deadline);
    }
    let mut state = state;
    if action != 0 {
        let i = (process - 1) as usize;
        let own = state.processes[i].location;
        if stage(own) != leaves(action) {
            return answered(state, 9, process, 0);
        }
        if action == 4 && time < since(own) + state.b {
            let release = since(own) + state.b;
            return answered(state, 10, process, release);
        }
        let to = match action {
            1 => Testing(time),
            2 if state.word == 0 => Setting(time),
            2 => Testing(time),
            3 => {
                state.word = process;
                Checking(time)
            }
            4 if state.word == process => Entering(time),
            4 => Testing(time),
            5 => Critical,
            6 => Resetting(time),
            7 => {
                state.word = 0;
                Leaving(time)
            }
            _ => Remainder,
        };
        state.processes[i] = Process { location: to };
    }
    state.clock = time;
    let process = critical(&state);
    answered(state, 0, process, time)
}

fn location_of(place: u64, arrival: u64) -> Location {
    match place {
        0 => Remainder,
        1 => Testing(arrival),
        2 => Setting(arrival),
        3 => Checking(arrival),
        4 => Entering(arrival),
        5 => Critical,
        6 => Resetting(arrival),
        _ => Leaving(arrival),
    }
}

/// Set into `main`, it may cost each turn of the loop a copy of the state.
#[inline(never)]
fn state_of(case: u64) -> State {
    let [b, c] = cases::limits_of(case);
    let processes = std::array::from_fn(|i| {
        let (place, arrival) = cases::place_of(case, i as u64 + 1);
        Process { location: location_of(place, arrival) }
    });
    let a = std::array::from_fn(|i| cases::a_of(case, i as u64 + 1));
    State { n: cases::count_of(case), b, c, a, clock: 0, word: cases::word_of(case), processes }
}

fn main() {
    let case = cases::chosen();
    let mut state = state_of(case);
    let sum = cases::run(case, |[action, process, time]| {
        let outcome = step(state, action, process, time);
        state = outcome.state;
        let answer = outcome.answer;
        [answer.code, answer.process, answer.time]
    });
    println!("{} {}", sum, state.clock);
}
