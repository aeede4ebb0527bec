//! lists generate COUNT SEED INDEX: writes one generated list of COUNT calls on standard output.
//! lists run < LIST: writes what comes of the calls of a list.

use reference::generator::generate_list;
use reference::list;
use std::io::{read_to_string, stdin};
use std::process::exit;

fn main() {
    let words: Vec<String> = std::env::args().skip(1).collect();
    let words: Vec<&str> = words.iter().map(String::as_str).collect();
    let said = match words[..] {
        ["generate", count, seed, index] => generated(count, seed, index),
        ["run"] => Some(run()),
        _ => None,
    };
    let Some(said) = said else {
        eprintln!("usage: lists generate COUNT SEED INDEX | lists run < LIST");
        exit(2);
    };
    print!("{said}");
}

fn generated(count: &str, seed: &str, index: &str) -> Option<String> {
    let list = generate_list(count.parse().ok()?, seed.parse().ok()?, index.parse().ok()?);
    Some(list::text(&list))
}

fn run() -> String {
    let text = read_to_string(stdin()).unwrap_or_default();
    let Some(list) = list::read(&text) else {
        eprintln!("lists: standard input is no list of calls");
        exit(1);
    };
    list::outcome(&list)
}
