//! vectors DIRECTORY CORPUS: makes the stored calls of the eleven files in DIRECTORY (reference/vectors) and compares all that comes of them;
//! and runs the recordings of CORPUS (reference/corpus) by the second engine, whose answers are the stored lines of `replay`.
//! Exit status 0 only if the archive has the layout that is written out here, each file has its calls, all of them, all recordings that can
//! be read are there, and none differs.

use outside::calls::{same_layout, Verdict};
use outside::{corpus, stored};
use std::path::Path;
use std::process::exit;

/// Makes the call of a line.
type Call = Box<dyn FnMut(&str) -> Verdict>;

/// The recordings of the corpus that are not faulty.
const RECORDINGS: usize = 276;

/// The lines of each.
fn files() -> [(&'static str, usize, Call); 11] {
    let mut board = stored::Board::new();
    [
        ("fresh.txt", 63, Box::new(stored::fresh)),
        ("step.txt", 560, Box::new(stored::step)),
        ("recorded.txt", 500, Box::new(stored::recorded)),
        ("reader.txt", 209, Box::new(stored::reader)),
        ("writer.txt", 208, Box::new(stored::writer)),
        ("spans.txt", 171, Box::new(stored::spans)),
        ("deadline.txt", 513, Box::new(stored::deadline)),
        ("matching.txt", 198, Box::new(stored::matching)),
        ("accepted.txt", 120, Box::new(stored::accepted)),
        ("notebook.txt", 412, Box::new(stored::notebook)),
        ("board.txt", 141, Box::new(move |line| board.call(line))),
    ]
}

fn main() {
    let arguments: Vec<String> = std::env::args().skip(1).collect();
    let [directory, corpus] = &arguments[..] else {
        eprintln!("usage: vectors DIRECTORY CORPUS");
        exit(2);
    };
    if !same_layout() {
        exit(1);
    }
    let counts = files().map(|(name, due, call)| (due, run(&Path::new(directory).join(name), call)));
    let (recordings, differing) = corpus::run(Path::new(corpus));
    differing.iter().for_each(|difference| println!("{difference}"));
    let calls = counts.map(|(_, (calls, _))| calls.to_string()).join(" + ");
    let differ = counts.iter().map(|(_, (_, differ))| differ).sum::<usize>() + differing.len();
    println!("vectors: {calls} calls and {recordings} recordings by deadlines, {differ} differ");
    let all_there = recordings == RECORDINGS && counts.iter().all(|(due, (calls, _))| calls == due);
    exit(if all_there && differ == 0 { 0 } else { 1 });
}

/// How many calls a file has, and how many of them differ.
fn run(file: &Path, mut call: Call) -> (usize, usize) {
    let text = std::fs::read_to_string(file).unwrap_or_else(|error| {
        println!("{} cannot be read: {error}", file.display());
        String::new()
    });
    let differ = (1..).zip(text.lines()).filter(|&(number, line)| differs(file, number, call(line))).count();
    (text.lines().count(), differ)
}

fn differs(file: &Path, number: u64, verdict: Verdict) -> bool {
    if let Err(difference) = &verdict {
        println!("{}, line {number}: {difference}", file.display());
    }
    verdict.is_err()
}
