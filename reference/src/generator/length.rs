//! Texts about as long as a text may be, and longer.
//! What is too long is 15, whatever else is wrong with it: [6.90].

use super::random::Random;
use super::shapes::Shape;
use super::walk::{self, Mood};
use super::Generated;
use crate::recording::TEXT_END;

pub fn long_text(random: &mut Random) -> Generated {
    let (family, text) = match random.below(9) {
        0 => ("length-65535", of_length(random, TEXT_END - 1)),
        1 | 2 => ("length-65536", of_length(random, TEXT_END)),
        3 => ("length-65537", of_length(random, TEXT_END + 1)),
        4 => ("length-70000", of_length(random, 70_000)),
        5 => ("length-200000", of_length(random, 200_000)),
        6 => ("length-65536-no-last-newline", cut(of_length(random, TEXT_END + 1))),
        7 => ("length-65537-and-bad-names", spoil_names(of_length(random, TEXT_END + 1))),
        _ => ("length-noise", noise(random)),
    };
    Generated { family, text }
}

/// A faultless recording, but for its length, of exactly so many bytes.
fn of_length(random: &mut Random, length: usize) -> Vec<u8> {
    let n = random.pick(&[1, 3, 96]);
    let values = walk::small_values(random, n, n);
    let mood = Mood { steps: length as u64, wild: 10, start: 0, focus: n, pause: 3, far: 0 };
    let shape = Shape::any(random);
    let mut text = walk::text(random, shape, values, mood, length - 100);
    while text.len() < length {
        fill(&mut text, length);
    }
    text
}

/// A wait with a time of 1 to 13 digits, so that the text comes closer to the length or reaches it.
fn fill(text: &mut Vec<u8>, length: usize) {
    let rest: &[u8] = b",0,wait\n";
    let (shortest, longest) = (rest.len() + 1, rest.len() + 13);
    let missing = length - text.len();
    let line = match missing {
        _ if missing <= longest => missing,
        // leave enough for one more line
        _ => longest.min(missing - shortest),
    };
    text.resize(text.len() + line - rest.len(), b'1');
    text.extend_from_slice(rest);
}

fn cut(mut text: Vec<u8>) -> Vec<u8> {
    text.pop();
    text
}

fn spoil_names(mut text: Vec<u8>) -> Vec<u8> {
    text[0] = b'W';
    text
}

/// Bytes of a recording without its order.
fn noise(random: &mut Random) -> Vec<u8> {
    let length = random.between(TEXT_END as u64 - 10, 300_000);
    (0..length).map(|_| random.pick(b"0123456789,\nwait")).collect()
}
