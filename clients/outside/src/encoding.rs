//! Tables of both kinds, summaries and boards of the reference as the numbers of include/funnelfawn.h, and back.

use funnelfawn::raw::{BOARD, BOARD_HEADER, BOARD_STRIDE, HEADER, PLACES, STRIDE, SUMMARY, TABLE, WAITED};
use funnelfawn::raw::{DEADLINES, DEADLINES_STRIDE};
use reference::board::{Board, Entry};
use reference::deadline::{DeadlinePlace, DeadlineTable, Moments};
use reference::list::number_of;
use reference::machine::{Place, Table, Values, WINDOWS};
use reference::summary::Summary;

/// The layout that is written out here, as one number [9.15].
pub const LAYOUT: u64 = 3;

/// The table that a list starts with, if it is long enough and its numbers tell one, sound or not.
pub fn table_in(numbers: &[u64]) -> Option<Table> {
    let (header, entries) = numbers.get(..TABLE)?.split_at(HEADER);
    let (values, clock, word) = header_in(header)?;
    let mut places = [Place::Remainder; WINDOWS];
    for (place, entry) in places.iter_mut().zip(entries.chunks(STRIDE)) {
        *place = place_in(entry[0], entry[1])?;
    }
    Some(Table { values, clock, word, places })
}

/// What both kinds of table begin with: the values, among which the 96 of a come last, the clock and the word.
fn header_in(header: &[u64]) -> Option<(Values, u64, u64)> {
    let &[n, b, c, clock, word, ref a @ ..] = header else { return None };
    Some((Values { n, b, c, a: a.try_into().ok()? }, clock, word))
}

fn store_header(values: &Values, clock: u64, word: u64, header: &mut [u64]) {
    let &Values { n, b, c, ref a } = values;
    header.copy_from_slice(&[&[n, b, c, clock, word], &a[..]].concat());
}

/// Beside remainder and selling, which have no arrival, 0 has to stand [9.20].
fn place_in(number: u64, arrival: u64) -> Option<Place> {
    let place = Place::numbered(number, arrival)?;
    (place.arrival().unwrap_or(0) == arrival).then_some(place)
}

/// Over the start of a list that is long enough.
pub fn store_table(table: &Table, numbers: &mut [u64]) {
    store_header(&table.values, table.clock, table.word, &mut numbers[..HEADER]);
    for (entry, &place) in numbers[HEADER..TABLE].chunks_mut(STRIDE).zip(&table.places) {
        entry.copy_from_slice(&[number_of(place), place.arrival().unwrap_or(0)]);
    }
}

pub fn table_numbers(table: &Table) -> Vec<u64> {
    let mut numbers = vec![0; TABLE];
    store_table(table, &mut numbers);
    numbers
}

/// The deadline table that a list starts with, if it is long enough and its numbers tell one, sound or not. The reference has its own account
/// of these numbers, which has to be the same.
pub fn deadlines_in(numbers: &[u64]) -> Option<DeadlineTable> {
    let told = deadlines_told(numbers);
    assert_eq!(told, DeadlineTable::from_numbers(numbers));
    told
}

fn deadlines_told(numbers: &[u64]) -> Option<DeadlineTable> {
    let (header, entries) = numbers.get(..DEADLINES)?.split_at(HEADER);
    let (values, clock, word) = header_in(header)?;
    let mut places = [DeadlinePlace::Remainder; WINDOWS];
    for (place, entry) in places.iter_mut().zip(entries.chunks(DEADLINES_STRIDE)) {
        *place = deadline_place_in(entry[0], Moments { first: entry[1], last: entry[2] })?;
    }
    Some(DeadlineTable { values, clock, word, places })
}

/// Beside remainder and selling, which have neither moment, 0 has to stand for both [12.115].
fn deadline_place_in(number: u64, moments: Moments) -> Option<DeadlinePlace> {
    let place = DeadlinePlace::numbered(number, moments)?;
    (place.moments().unwrap_or_default() == moments).then_some(place)
}

/// Over the start of a list that is long enough; they are also the reference's numbers.
pub fn store_deadlines(deadlines: &DeadlineTable, numbers: &mut [u64]) {
    store_header(&deadlines.values, deadlines.clock, deadlines.word, &mut numbers[..HEADER]);
    for (entry, place) in numbers[HEADER..DEADLINES].chunks_mut(DEADLINES_STRIDE).zip(&deadlines.places) {
        let Moments { first, last } = place.moments().unwrap_or_default();
        entry.copy_from_slice(&[place.number(), first, last]);
    }
    assert_eq!(numbers[..DEADLINES], deadlines.numbers());
}

pub fn deadline_numbers(deadlines: &DeadlineTable) -> Vec<u64> {
    let mut numbers = vec![0; DEADLINES];
    store_deadlines(deadlines, &mut numbers);
    numbers
}

/// The summary that a list starts with, if it is long enough.
pub fn summary_in(numbers: &[u64]) -> Option<Summary> {
    let &[accepted, refused, entries, exits, longest_wait, ref waited @ ..] = numbers.get(..SUMMARY)? else {
        return None;
    };
    let waited = waited.try_into().ok()?;
    Some(Summary { accepted, refused, entries, exits, longest_wait, waited })
}

/// Over the start of a list that is long enough.
pub fn store_summary(summary: &Summary, numbers: &mut [u64]) {
    let &Summary { accepted, refused, entries, exits, longest_wait, ref waited } = summary;
    numbers[..WAITED].copy_from_slice(&[accepted, refused, entries, exits, longest_wait]);
    numbers[WAITED..SUMMARY].copy_from_slice(waited);
}

pub fn summary_numbers(summary: &Summary) -> Vec<u64> {
    let mut numbers = vec![0; SUMMARY];
    store_summary(summary, &mut numbers);
    numbers
}

/// The board that a list starts with, if it is long enough and its numbers tell one, sound or not. Of more entries than there are places
/// one too many is enough: the board is not sound.
pub fn board_in(numbers: &[u64]) -> Option<Board> {
    let &[w, last, first, count, ..] = numbers.get(..BOARD)? else { return None };
    let first = usize::try_from(first).ok().filter(|&first| first < PLACES)?;
    let count = count.min(PLACES as u64 + 1) as usize;
    let kept = (first..first + count).map(|place| entry_in(&numbers[entry_at(place)])).collect();
    Some(Board { w, last, kept })
}

/// Where the numbers of a place stand. The places are a ring: after the last comes place 0 [10.115].
pub fn entry_at(place: usize) -> std::ops::Range<usize> {
    let start = BOARD_HEADER + BOARD_STRIDE * (place % PLACES);
    start..start + BOARD_STRIDE
}

fn entry_in(numbers: &[u64]) -> Entry {
    Entry { moment: numbers[0], window: numbers[1], wait: numbers[2] }
}

/// Over the numbers of the board that an accepted call found, what it writes [10.140]; the board is as it left it. Kept entries stay at
/// their places, and where it adds one, that stands behind all that were kept before.
pub fn store_told(board: &Board, adds: bool, numbers: &mut [u64]) {
    let (first, found, kept) = (numbers[2] as usize, numbers[3] as usize, board.kept.len());
    let expired = found + usize::from(adds) - kept;
    if let Some(&Entry { moment, window, wait }) = board.kept.last().filter(|_| adds) {
        numbers[entry_at(first + found)].copy_from_slice(&[moment, window, wait]);
    }
    let first = (first + expired) % PLACES;
    numbers[1..BOARD_HEADER].copy_from_slice(&[board.last, first as u64, kept as u64]);
}
