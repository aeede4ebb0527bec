//! timer RUNS INPUT PROGRAM [ARGUMENT].. [-- PROGRAM [ARGUMENT]..]..: of each program the time of its shortest run, in nanoseconds,
//! with the file INPUT as standard input. The programs take turns, so that a slow spell of the machine meets all of them; and the
//! shortest run counts, as whatever else the machine does can only make one longer.

use std::fs::File;
use std::process::{Command, Stdio};
use std::time::{Duration, Instant};

fn time_of(input: &str, command: &[String]) -> Duration {
    let input = File::open(input).expect("the input");
    let mut program = Command::new(&command[0]);
    program.args(&command[1..]).stdin(input).stdout(Stdio::null());
    let start = Instant::now();
    let status = program.status().expect("the program");
    let time = start.elapsed();
    assert!(status.success(), "{command:?}: {status}");
    time
}

fn main() {
    let words: Vec<String> = std::env::args().skip(1).collect();
    let runs: u64 = words[0].parse().expect("a number of runs");
    let commands: Vec<&[String]> = words[2..].split(|word| word == "--").collect();
    let mut shortest = vec![Duration::MAX; commands.len()];
    for _ in 0..runs {
        for (least, command) in shortest.iter_mut().zip(&commands) {
            *least = time_of(&words[1], command).min(*least);
        }
    }
    for least in shortest {
        println!("{}", least.as_nanos());
    }
}
