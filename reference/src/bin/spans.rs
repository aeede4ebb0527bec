//! spans: reads a recording on standard input and writes who sold from when to when.
//! It prints a faulty one's first fault instead, as `replay` does.

use reference::spans::printed;
use std::io::{stdin, stdout, Read, Result, Write};

fn main() -> Result<()> {
    let mut text = Vec::new();
    stdin().read_to_end(&mut text)?;
    stdout().write_all(printed(&text).as_bytes())
}
