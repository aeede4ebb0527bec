//! Random calls of spans, on recordings that are generated, faulty ones among them, and with outputs of any length and any bytes.
//! Each is held to what the reference makes of it; what it came upon, of spans and of room for them, is counted.

use crate::calls::{self, Verdict};
use crate::sights::{Sight, Sights};
use reference::answer::{Answer, ACCEPTED, LIMITS, SHORT_OUTPUT};
use reference::generator::random::Random;
use reference::spans::{spans, spans_text};

/// The first line, which is all of the shortest text.
const NAMES: &str = "window,from,to\n";

pub fn call(random: &mut Random, recording: &[u8], sights: &mut Sights) -> (Answer, Verdict) {
    let text = spans_text(recording).unwrap_or(NAMES.into());
    let room = room(random, text.len(), recording.len());
    let out = any_bytes(random, room);
    let mut after = out.clone();
    let answer = spans(recording, &mut after);
    Asked { recording, text: &text, room, answer }.look(sights);
    let verdict = calls::spans(recording, &out, (answer, &after));
    (answer, verdict.map_err(|what| format!("spans of {} bytes into {room}: {what}", text.len())))
}

/// None, less than is needed by one or by more, just that, some more, or about as much as the recording has, from where on its steps are run
/// but once.
fn room(random: &mut Random, needed: usize, recording: usize) -> usize {
    match random.below(10) {
        0 => 0,
        1 | 2 => needed - 1,
        3 => random.index(needed),
        4 | 5 => needed,
        6 => needed + 1 + random.index(40),
        7 => recording.saturating_sub(1),
        8 => recording,
        _ => recording + random.index(40),
    }
}

fn any_bytes(random: &mut Random, count: usize) -> Vec<u8> {
    let words = (0..count.div_ceil(8)).map(|_| random.below(u64::MAX).to_le_bytes());
    let mut bytes = words.collect::<Vec<[u8; 8]>>().concat();
    bytes.truncate(count);
    bytes
}

/// A call, with the text that it is about and the answer that is due.
struct Asked<'a> {
    recording: &'a [u8],
    text: &'a str,
    room: usize,
    answer: Answer,
}

impl Asked<'_> {
    fn look(&self, sights: &mut Sights) {
        match self.answer.number {
            ACCEPTED => self.look_at_spans(sights),
            SHORT_OUTPUT => sights.look(Sight::OneShort, self.room + 1 == self.text.len()),
            _ => self.look_at_fault(sights),
        }
    }

    fn look_at_fault(&self, sights: &mut Sights) {
        let Answer { number, moment: line, .. } = self.answer;
        sights.look(Sight::FaultWithoutRoom, self.room < self.text.len());
        sights.look(Sight::LimitsAtTheirLast, number == LIMITS && line > 2);
        sights.look(Sight::LimitsAtLine2, number == LIMITS && line == 2);
    }

    fn look_at_spans(&self, sights: &mut Sights) {
        let spans = self.text.lines().count() as u64 - 1;
        let is_open = self.text.ends_with("-\n");
        sights.count(Sight::ClosedSpan, spans - u64::from(is_open));
        sights.look(Sight::OpenSpan, is_open);
        sights.look(Sight::NoSpan, spans == 0);
        sights.look(Sight::JustRoom, self.room == self.text.len());
        sights.look(Sight::OutputAsLong, self.room >= self.recording.len());
        sights.look(Sight::OutputShorter, self.room < self.recording.len());
    }
}
