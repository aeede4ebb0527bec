//! generate SEED INDEX: writes one generated recording on standard output, its family on standard error.
//! `compare` feeds the same recordings to a program, so that one of them can be looked at.

use reference::generator::generate;
use std::io::{stdout, Result, Write};
use std::process::exit;

fn main() -> Result<()> {
    let Some((seed, index)) = arguments() else {
        eprintln!("usage: generate SEED INDEX");
        exit(2);
    };
    let generated = generate(seed, index);
    eprintln!("{}", generated.family);
    stdout().write_all(&generated.text)
}

fn arguments() -> Option<(u64, u64)> {
    let mut words = std::env::args().skip(1);
    Some((words.next()?.parse().ok()?, words.next()?.parse().ok()?))
}
