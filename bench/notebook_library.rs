//! The cases of notebooks.rs run through the C library. The calls are declared as the Rust package does.

#[allow(dead_code)]
mod cases;
#[allow(dead_code)]
#[path = "../clients/rust/src/ffi.rs"]
mod ffi;
mod notebooks;
#[allow(dead_code)]
#[path = "../clients/rust/src/raw.rs"]
mod raw;

use notebooks::Case;
use raw::Comparison;

fn numbers(comparison: Comparison) -> [u64; 3] {
    [comparison.number, comparison.window, comparison.shift as u64]
}

fn main() {
    let Case { till, kept, e } = notebooks::chosen_case();
    let sum = notebooks::run(|d| {
        numbers(raw::compare_logs(&till.moments, &till.acts, &kept.moments, &kept.acts, d, e))
    });
    println!("{sum}");
}
