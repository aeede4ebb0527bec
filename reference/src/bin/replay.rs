//! replay: reads a recording on standard input and writes what comes of its steps.
//! It prints a faulty one's first fault instead.

use reference::replay::replay;
use std::io::{stdin, stdout, Read, Result, Write};

fn main() -> Result<()> {
    let mut text = Vec::new();
    stdin().read_to_end(&mut text)?;
    stdout().write_all(replay(&text).as_bytes())
}
