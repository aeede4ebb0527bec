//! roundtrip: reads a recording on standard input and, if it is faultless, writes it again: one of the former shape in the new one, another
//! with the same bytes. A refusal of either prints its answer and exits with status 1: a former one may come to be too long.

use reference::answer::{Answer, ACCEPTED};
use reference::machine::WINDOWS;
use reference::recording::{read_into, write, TEXT_END};
use std::io::{stdin, stdout, Read, Result, Write};
use std::process::exit;

fn main() -> Result<()> {
    let mut text = Vec::new();
    stdin().read_to_end(&mut text)?;
    // No text has more steps than bytes.
    let (mut times, mut windows, mut acts) = (vec![0; TEXT_END], vec![0; TEXT_END], vec![0; TEXT_END]);
    let (reading, values) = read_into(&text, &mut [0; WINDOWS], &mut times, &mut windows, &mut acts);
    let count = accepted(reading);
    let mut output = vec![0; TEXT_END];
    let size = accepted(write(values, &times[..count], &windows[..count], &acts[..count], &mut output));
    stdout().write_all(&output[..size])
}

/// The number of steps or bytes.
fn accepted(answer: Answer) -> usize {
    if answer.number != ACCEPTED {
        println!("{},{},{}", answer.number, answer.window, answer.moment);
        exit(1);
    }
    answer.moment as usize
}
