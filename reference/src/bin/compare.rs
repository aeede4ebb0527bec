//! compare NAME PROGRAM COUNT SEED: feeds COUNT generated recordings to PROGRAM and stops at the first difference.
//! PROGRAM is a path, with arguments after spaces; its output has to be that of the reference's program NAME, `replay` or `spans`.

use reference::generator::{generate, Generated};
use reference::recording::{first_line, read};
use reference::replay::replay;
use reference::spans::{self, spans_of, Span};
use std::collections::BTreeMap;
use std::io::{Result, Write};
use std::process::{exit, Command, Output, Stdio};

fn main() {
    let Some(Arguments { output, program, count, seed }) = arguments() else {
        eprintln!("usage: compare replay|spans PROGRAM COUNT SEED");
        exit(2);
    };
    let mut seen = Seen::default();
    for index in 0..count {
        let generated = generate(seed, index);
        if let Err(difference) = try_one(&program, &generated, &output(&generated.text)) {
            println!("recording {index} of seed {seed}, family {}: {difference}", generated.family);
            exit(1);
        }
        seen.add(&generated);
    }
    println!("{count} recordings equal (seed {seed})");
    println!("families: {}", shown(&seen.families));
    println!("shapes: {}", shown(&seen.shapes));
    println!("answers: {}", shown(&seen.answers));
    println!("spans: {}", shown(&seen.spans));
}

struct Arguments {
    output: fn(&[u8]) -> String,
    program: String,
    count: u64,
    seed: u64,
}

fn arguments() -> Option<Arguments> {
    let mut words = std::env::args().skip(1);
    let output = match words.next()?.as_str() {
        "replay" => replay,
        "spans" => spans::printed,
        _ => return None,
    };
    let program = words.next()?;
    Some(Arguments { output, program, count: words.next()?.parse().ok()?, seed: words.next()?.parse().ok()? })
}

/// How often each name came.
type Tally = BTreeMap<String, u64>;

fn count(tally: &mut Tally, name: impl Into<String>) {
    *tally.entry(name.into()).or_default() += 1;
}

fn shown(tally: &Tally) -> String {
    let counts: Vec<String> = tally.iter().map(|(name, count)| format!("{}: {count}", name.trim())).collect();
    counts.join(", ")
}

/// What came up in the recordings, whichever output was compared.
#[derive(Default)]
struct Seen {
    families: Tally,
    /// of those that are read
    shapes: Tally,
    answers: Tally,
    spans: Tally,
}

impl Seen {
    fn add(&mut self, generated: &Generated) {
        count(&mut self.families, generated.family);
        for line in replay(&generated.text).lines().skip(1) {
            let answer = line.split(',').nth(1).unwrap_or_default();
            count(&mut self.answers, format!("{answer:>2}"));
        }
        let Ok(recording) = read(&generated.text) else { return };
        let is_new = recording.first_line == first_line(recording.values.n);
        count(&mut self.shapes, if is_new { "new" } else { "former" });
        for Span { to, .. } in spans_of(&recording) {
            count(&mut self.spans, if to.is_some() { "closed" } else { "open" });
        }
    }
}

/// Runs PROGRAM on one recording; on a difference leaves the three texts in files and says what differs.
fn try_one(program: &str, generated: &Generated, wanted: &str) -> std::result::Result<(), String> {
    let given = match run(program, &generated.text) {
        Ok(given) => given,
        Err(error) => return Err(format!("{program} cannot be run: {error}")),
    };
    if given.stdout == wanted.as_bytes() && given.status.success() {
        return Ok(());
    }
    let files =
        [("diff.in", &generated.text[..]), ("diff.want", wanted.as_bytes()), ("diff.got", &given.stdout)];
    for (name, bytes) in files {
        std::fs::write(name, bytes).map_err(|error| format!("{name} cannot be written: {error}"))?;
    }
    let difference = match given.status.success() {
        true => first_difference(wanted, &String::from_utf8_lossy(&given.stdout)),
        false => given.status.to_string(),
    };
    Err(format!("{difference}\nsee diff.in, diff.want and diff.got"))
}

fn run(program: &str, text: &[u8]) -> Result<Output> {
    let mut words = program.split_whitespace();
    let mut command = Command::new(words.next().unwrap_or_default());
    let mut child = command.args(words).stdin(Stdio::piped()).stdout(Stdio::piped()).spawn()?;
    let input = child.stdin.take();
    std::thread::scope(|scope| {
        // A program may stop reading a text that is too long; what it then prints is what counts.
        scope.spawn(move || input.map(|mut input| input.write_all(text)));
        child.wait_with_output()
    })
}

fn first_difference(wanted: &str, given: &str) -> String {
    let (mut wanted, mut given) = (wanted.lines(), given.lines());
    for line in 1.. {
        match (wanted.next(), given.next()) {
            (None, None) => break,
            (want, got) if want == got => continue,
            (want, got) => {
                let shown = |line: Option<&str>| line.map_or("nothing".into(), |line| format!("`{line}`"));
                return format!("output line {line}: wanted {}, got {}", shown(want), shown(got));
            }
        }
    }
    "the same lines, but not the same bytes".into()
}
