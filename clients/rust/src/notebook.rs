//! Notebooks: a till's own list of its acts, by its own clock, and the like list of what the box accepted of its window. Section 13 of
//! docs/SPECIFICATION.md, which calls them logs, has what comes of holding one against the other.

use crate::answer::{Fault, Refusal};
use crate::raw;

/// One act as it was written down, each number any.
#[derive(Clone, Copy, Debug, PartialEq, Eq, Hash)]
pub struct Note {
    pub moment: u64,
    pub act: u64,
}

/// The acts of one window, in their order: a till's, or the box's.
///
/// Each note has its moment and its act, so there are as many of the one as of the other, and nothing stands past the shorter of two lists,
/// where the library for C leaves it out. A till's is collected from pairs of both; [`accepted`](Notebook::accepted) takes that of the box
/// out of a recording.
///
/// ```
/// use funnelfawn::{Act, Notebook, Refusal};
///
/// let head = "windows,b,c\n2,8000,12000\nwindow,a\n1,5000\n2,6000\ntime,window,act\n";
/// let day = [head, "20000,1,try\n20500,2,try\n21060,1,test\n24970,1,set\n"].concat();
/// let accepted = Notebook::accepted(day.as_bytes(), 1)?;
/// assert_eq!(accepted.notes.len(), 3);
///
/// // its clock is some 1,200 microseconds behind
/// let till = Notebook::from_iter([(18_800, Act::Try), (19_800, Act::Test), (23_800, Act::Set)]);
/// assert_eq!(till.held_against(&accepted, 5_000, 45), Ok(1_215));
/// assert_eq!(till.held_against(&accepted, 5_000, 44), Err(Refusal::NoShift));
/// # Ok::<(), Refusal>(())
/// ```
#[derive(Clone, Debug, Default, PartialEq, Eq, Hash)]
pub struct Notebook {
    pub notes: Vec<Note>,
}

impl Notebook {
    /// What the box accepted of a window: the recording is run as [`replay`](crate::replay) runs it, and each accepted act of the window is
    /// noted, at its moment by the box's clock.
    ///
    /// A window that is none of 1 to n is a [`NoWindow`](Refusal::NoWindow), which no line of the recording has to answer for.
    pub fn accepted(text: &[u8], window: u64) -> Result<Notebook, Fault> {
        let (mut moments, mut acts) = (vec![0; raw::MOST_STEPS], vec![0; raw::MOST_STEPS]);
        let count = raw::accepted_acts(text, window, &mut moments, &mut acts).written()?;
        Ok(moments.into_iter().zip(acts).take(count).collect())
    }

    /// This one, a till's, held against another, as a rule that of the [`accepted`](Notebook::accepted) acts of its window. They agree if
    /// they have the same acts, in their order, and some shift from -d to d makes each moment of the other differ by at most e from the
    /// till's moment and the shift together. The smallest such shift is told; it is above 0 where the till's clock is behind.
    ///
    /// Where the clock is behind by s, give or take e at each act, the shift is at most s and, if there is an act, at least s - 2e, [13.80].
    /// Two notebooks without a note give -d. With the two in each other's place the shifts that serve are the same but for their signs: so
    /// the largest one is `-accepted.held_against(&till, d, e)?`, and the middle of both is the best guess.
    ///
    /// [`Bounds`](Refusal::Bounds) comes first, where d or e is above [`raw::MOST_SHIFT`] or a moment in either is past the
    /// clock's end; then [`OtherActs`](Refusal::OtherActs), also where one of the two has more of them; then [`NoShift`](Refusal::NoShift).
    pub fn held_against(&self, other: &Notebook, d: u64, e: u64) -> Result<i64, Refusal> {
        let (till_moments, till_acts) = self.lists();
        let (moments, acts) = other.lists();
        raw::compare_logs(&till_moments, &till_acts, &moments, &acts, d, e).result()
    }

    fn lists(&self) -> (Vec<u64>, Vec<u64>) {
        self.notes.iter().map(|note| (note.moment, note.act)).unzip()
    }
}

impl<A: Into<u64>> FromIterator<(u64, A)> for Notebook {
    /// Out of moments, each with its act.
    fn from_iter<I: IntoIterator<Item = (u64, A)>>(notes: I) -> Notebook {
        let note = |(moment, act): (u64, A)| Note { moment, act: act.into() };
        Notebook { notes: notes.into_iter().map(note).collect() }
    }
}
