//! The layout of what is lent, [9.15]: the archive has to have that of this package before a list is lent to it.

use crate::raw;

/// Panics where it has another one.
pub(crate) fn assert_same() {
    compare(raw::layout());
}

fn compare(archive: u64) {
    assert!(
        archive == raw::LAYOUT,
        "libfunnelfawn.a has the layout {archive}, this package {}: they are of different versions",
        raw::LAYOUT
    );
}

#[cfg(test)]
mod tests {
    #[test]
    fn that_of_the_archive() {
        super::assert_same();
    }

    #[test]
    #[should_panic(expected = "they are of different versions")]
    fn another() {
        super::compare(crate::raw::LAYOUT + 1);
    }
}
