//! The recordings of reference/corpus by the second engine of the library: its answers are the lines that are stored as what `replay` prints.

use funnelfawn::{raw, read, Recording, Step};
use std::path::{Path, PathBuf};

/// How many recordings there the library reads; and each of these that differs, with why.
pub fn run(directory: &Path) -> (usize, Vec<String>) {
    let mut recordings = 0;
    let mut differ = Vec::new();
    for path in recordings_in(directory) {
        let text = std::fs::read(&path).unwrap_or_default();
        let Ok(recording) = read(&text) else { continue };
        recordings += 1;
        let stored = std::fs::read_to_string(path.with_extension("out")).unwrap_or_default();
        match by_deadlines(&text, &recording) {
            Ok(report) if report == stored => {}
            Ok(report) => differ.push(format!("{}: {}", path.display(), first_difference(&report, &stored))),
            Err(what) => differ.push(format!("{}: {what}", path.display())),
        }
    }
    (recordings, differ)
}

fn recordings_in(directory: &Path) -> Vec<PathBuf> {
    let entries = std::fs::read_dir(directory).into_iter().flatten().flatten();
    let mut paths: Vec<PathBuf> = entries.map(|entry| entry.path()).collect();
    paths.retain(|path| path.extension().is_some_and(|ending| ending == "in"));
    paths.sort();
    paths
}

/// The lines, if the first engine comes to the table that the second one's table matches at the end.
fn by_deadlines(text: &[u8], recording: &Recording) -> Result<String, String> {
    let Recording { limits, steps } = recording;
    let (mut table, mut deadlines) = ([0; raw::TABLE], [0; raw::DEADLINES]);
    raw::fresh(limits.windows(), limits.b, limits.c, &limits.a, &mut table);
    raw::fresh_deadlines(limits.windows(), limits.b, limits.c, &limits.a, &mut deadlines);
    let mut report = String::from("line,answer,window,moment\n");
    // in either shape the lines of the steps are the last ones
    let lines = text.iter().filter(|&&byte| byte == b'\n').count();
    for (line, &Step { moment, window, act }) in (lines - steps.len() + 1..).zip(steps) {
        let answer = raw::step_deadlines(&mut deadlines, act, window, moment);
        report += &format!("{line},{},{},{}\n", answer.number, answer.window, answer.moment);
        raw::step(&mut table, act, window, moment);
    }
    let mut left = [0; raw::TABLE];
    let turned = raw::to_arrivals(&deadlines, &mut left);
    if turned.number != 0 || left != table {
        return Err(format!("the tables do not match at the end: {deadlines:?}, {table:?}"));
    }
    Ok(report)
}

fn first_difference(report: &str, stored: &str) -> String {
    let differ = report.lines().zip(stored.lines()).find(|(said, due)| said != due);
    differ.map_or("not as many lines".into(), |(said, due)| format!("{said} is said, and {due} is stored"))
}
