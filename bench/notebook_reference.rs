//! The cases of notebooks.rs run through the reference, whose function is in another crate and called, as that of the library is.

#[allow(dead_code)]
mod cases;
mod notebooks;

use notebooks::Case;
use reference::notebook::{compare, Comparison};

fn numbers(comparison: Comparison) -> [u64; 3] {
    [comparison.number, comparison.window, comparison.shift as u64]
}

fn main() {
    let Case { till, kept, e } = notebooks::chosen_case();
    let sum =
        notebooks::run(|d| numbers(compare((&till.moments, &till.acts), (&kept.moments, &kept.acts), d, e)));
    println!("{sum}");
}
