//! Recordings: section 6 of docs/SPECIFICATION.md, which calls them traces. The lists and outputs that are lent here always suffice.

use crate::answer::Refusal;
use crate::limits::Limits;
use crate::raw;

/// One act of a window at a moment, each any number.
#[derive(Clone, Copy, Debug, PartialEq, Eq)]
pub struct Step {
    pub moment: u64,
    pub window: u64,
    pub act: u64,
}

/// The limits of a recording, and its steps.
#[derive(Clone, Debug, PartialEq, Eq)]
pub struct Recording {
    pub limits: Limits,
    pub steps: Vec<Step>,
}

/// Reads a recording, of the shape that is written or of the former one, which has one a for all windows:
///
/// ```
/// use funnelfawn::{read, Limits, Refusal, Table};
///
/// let recording = read(b"windows,b,c\n2,40,60\nwindow,a\n1,5\n2,30\ntime,window,act\n0,1,try\n")?;
/// assert_eq!(recording.limits, Limits { a: vec![5, 30], b: 40, c: 60 });
/// let mut table = Table::fresh(&recording.limits)?;
/// for step in recording.steps {
///     table.step(step.act, step.window, step.moment)?;
/// }
/// assert_eq!(read(b"windows,a,b,c\n2,5,8,12\ntime,window,act\n")?.limits, Limits::equal(2, 5, 8, 12));
/// # Ok::<(), Refusal>(())
/// ```
pub fn read(text: &[u8]) -> Result<Recording, Refusal> {
    let list = vec![0; raw::MOST_STEPS];
    let (mut moments, mut windows, mut acts) = (list.clone(), list.clone(), list);
    let mut a = vec![0; raw::WINDOWS];
    let raw::Reading { answer, n, b, c } = raw::read(text, &mut a, &mut moments, &mut windows, &mut acts);
    let count = answer.result()?.moment as usize;
    a.truncate(n as usize);
    let step = |index| Step { moment: moments[index], window: windows[index], act: acts[index] };
    Ok(Recording { limits: Limits { a, b, c }, steps: (0..count).map(step).collect() })
}

impl Recording {
    /// Its text, which [`read`] reads back. Where the recording was read, that is the text that it was read from, [6.200]; but a text of the
    /// former shape becomes one of the other, which is longer, [6.202], and may be [too long](Refusal::Length).
    pub fn write(&self) -> Result<Vec<u8>, Refusal> {
        let list = |of: fn(&Step) -> u64| self.steps.iter().map(of).collect::<Vec<u64>>();
        let (moments, windows, acts) =
            (list(|step| step.moment), list(|step| step.window), list(|step| step.act));
        let Limits { a, b, c } = &self.limits;
        let mut out = vec![0; raw::MOST_TEXT];
        let answer = raw::write([self.limits.windows(), *b, *c], a, &moments, &windows, &acts, &mut out);
        out.truncate(answer.result()?.moment as usize);
        Ok(out)
    }
}

/// What the program `replay` prints for a recording, faulty or not.
pub fn replay(text: &[u8]) -> Vec<u8> {
    let mut out = vec![0; raw::MOST_REPORT];
    let answer = raw::replay(text, &mut out);
    out.truncate(answer.moment as usize);
    out
}
