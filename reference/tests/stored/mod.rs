//! The parts of a line of `vectors`.

use reference::answer::{answer, Answer};

/// What fills the lists that take a result.
pub const FILLED: u64 = 7777;

pub fn fields<const COUNT: usize>(line: &str) -> [&str; COUNT] {
    let fields: Vec<&str> = line.split('|').map(str::trim).collect();
    fields.try_into().expect("as many fields as a line has")
}

pub fn numbers(field: &str) -> Vec<u64> {
    field.split_whitespace().map(|word| word.parse().expect("a number")).collect()
}

pub fn fixed<const COUNT: usize>(field: &str) -> [u64; COUNT] {
    numbers(field).try_into().expect("as many numbers as a field has")
}

pub fn answered(field: &str) -> Answer {
    let [number, window, moment] = fixed(field);
    answer(number, window, moment)
}

/// The bytes that are written in hexadecimal, two digits for each.
pub fn bytes(digits: &str) -> Vec<u8> {
    let byte = |place| u8::from_str_radix(&digits[place..place + 2], 16).expect("two digits");
    (0..digits.len()).step_by(2).map(byte).collect()
}
