//! A list as it is lent to a call, with a few elements behind its end, which no call may touch.

use std::fmt::Debug;

const BEHIND: usize = 4;

pub struct Lent<T> {
    all: Vec<T>,
    length: usize,
    guard: T,
}

impl<T: Copy + PartialEq + Debug> Lent<T> {
    pub fn new(list: &[T], guard: T) -> Lent<T> {
        let all = [list, &[guard; BEHIND]].concat();
        Lent { all, length: list.len(), guard }
    }

    pub fn list(&mut self) -> &mut [T] {
        &mut self.all[..self.length]
    }

    /// Where the list is not what it should be, or the first element behind it that was touched.
    pub fn difference(&self, name: &str, wanted: &[T]) -> Option<String> {
        assert_eq!(wanted.len(), self.length, "{name}: a list keeps its length");
        // at once, as nearly always there is none
        if self.all[..self.length] == *wanted && self.all[self.length..] == [self.guard; BEHIND] {
            return None;
        }
        let wanted = [wanted, &[self.guard; BEHIND]].concat();
        let differ = |(index, (got, wanted)): (usize, (&T, &T))| {
            (got != wanted).then(|| format!("{name}[{index}] is {got:?}, not {wanted:?}"))
        };
        self.all.iter().zip(&wanted).enumerate().find_map(differ)
    }
}
