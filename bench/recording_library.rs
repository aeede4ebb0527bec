//! recording_library CALL: makes one call of the C library on the recording on standard input, `spans` with an output that is as long as the
//! recording, `replay` with one that always suffices, `accepted_acts` of window 1 with lists that always suffice, or `none`; and prints how many
//! bytes or acts were put. The calls are declared as the Rust package does.

#[allow(dead_code)]
#[path = "../clients/rust/src/ffi.rs"]
mod ffi;
#[allow(dead_code)]
#[path = "../clients/rust/src/raw.rs"]
mod raw;

use raw::Answer;
use std::io::Read;

/// How many bytes or acts a call puts.
fn put(answer: Answer) -> u64 {
    assert_eq!(answer.number, 0);
    answer.moment
}

fn main() {
    let call = std::env::args().nth(1).expect("a call");
    let mut recording = Vec::new();
    std::io::stdin().read_to_end(&mut recording).expect("a recording");
    let (mut as_long, mut most) = (vec![0; recording.len()], vec![0; raw::MOST_REPORT]);
    let (mut moments, mut acts) = (vec![0; raw::MOST_STEPS], vec![0; raw::MOST_STEPS]);
    let count = match call.as_str() {
        "spans" => put(raw::spans(&recording, &mut as_long)),
        "replay" => put(raw::replay(&recording, &mut most)),
        "accepted_acts" => put(raw::accepted_acts(&recording, 1, &mut moments, &mut acts)),
        "none" => 0,
        _ => panic!("there is no call {call}"),
    };
    println!("{count}");
}
