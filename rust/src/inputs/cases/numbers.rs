//! Cases of single numbers: rows 9 to 12 at every place, every row at its first and last place, and rows 2 and 3 by every form.

use super::parts::{largest, small, Parts};
use super::{accepted, refused, Case, Intent, GREATEST, OVER_LONG};
use crate::format::encoding::{Opening, Place};
use crate::format::record::MOST_BYTES;
use crate::inputs::numbers::row;

/// Rows 9 to 12, and 17 where there are owners: every number of the vectors at both ends of its range and beyond them.
pub fn range_ends(of: &str, record: &Parts) -> Vec<Case> {
    let sizes = record.opening.sizes().len();
    (sizes..record.count()).flat_map(|at| range_ends_at(of, record, at)).collect()
}

/// One number at both ends of its range and beyond them, next to them and as far as four groups reach.
fn range_ends_at(of: &str, record: &Parts, at: usize) -> Vec<Case> {
    let place = record.places[at];
    let (least, greatest) = record.ranges[at];
    let with = |number: i64, intent: Intent| {
        let about = format!("{of}: number {} ({place:?}) is {number}", at + 1);
        Case { about, bytes: record.with_number(at, number).bytes(), intent }
    };
    let (lowest, highest) = match place {
        Place::Diagonal | Place::Owner => (0, GREATEST),
        _ => (-(GREATEST + 1) / 2, GREATEST / 2),
    };
    vec![
        with(least, Intent::Accepted),
        with(greatest, Intent::Accepted),
        with(least - 1, Intent::Refused(row(place))),
        with(greatest + 1, Intent::Refused(row(place))),
        with(lowest, Intent::Refused(row(place))),
        with(highest, Intent::Refused(row(place))),
    ]
}

/// Rows 2 to 13, 16 where there is W, and 17 where there are owners, in a record of several streams and two vectors, each at the first
/// and the last place where it can occur.
pub fn rows_of_the_table(of: &str, record: &Parts) -> Vec<Case> {
    let last = record.count() - 1;
    let about = |what: &str| format!("{of}: {what}");
    let beyond = |place: Place| {
        let at = [record.first_place(place), record.last_place(place)];
        at.map(|at| refused(about(&format!("row {}: number {}", row(place), at + 1)), record.with_beyond(at).bytes(), row(place)))
    };
    let malformed = [
        refused(about("row 2: before M"), record.first(0), 2),
        refused(about("row 2: within M"), record.first_and(0, &[0x81]), 2),
        refused(about("row 2: before the last prior"), record.first(last), 2),
        refused(about("row 2: within the last prior"), record.first_and(last, &[0x81]), 2),
        refused(about("row 3: at M"), record.with(0, &OVER_LONG).bytes(), 3),
        refused(about("row 3: at the last prior"), record.with(last, &OVER_LONG).bytes(), 3),
        refused(about("row 13: one byte"), record.bytes_and(&[0x00]), 13),
        refused(about("row 13: a number cut off"), record.bytes_and(&[0x80]), 13),
        refused(about("row 13: the record again"), record.bytes_and(&record.bytes()), 13),
    ];
    let whole = accepted(about("whole"), record.bytes());
    [whole].into_iter().chain(malformed).chain(Place::all(record.opening).flat_map(beyond)).collect()
}

/// The largest record of document 01; and the longest of all, which has owners, whole, with a byte more, with a byte less, and turned
/// back at its last owner and at its last prior.
pub fn largest_records() -> Vec<Case> {
    let record = largest(Opening::Three);
    let last = record.count() - 1;
    let last_owner = record.last_place(Place::Owner);
    vec![
        accepted("largest of opening 1".to_string(), largest(Opening::One).bytes()),
        accepted("longest".to_string(), record.bytes()),
        refused("longest and a byte".to_string(), record.bytes_and(&[0x00]), 13),
        refused("longest less a byte".to_string(), record.bytes()[..MOST_BYTES - 1].to_vec(), 2),
        refused("longest, last owner out of range".to_string(), record.with_beyond(last_owner).bytes(), 17),
        refused("longest, last prior out of range".to_string(), record.with_beyond(last).bytes(), 12),
    ]
}

/// The rows of a vector's numbers in a record of 64 vectors, each at the last place where it can occur.
pub fn last_places(record: &Parts) -> Vec<Case> {
    let beyond = |place: Place| {
        let at = record.last_place(place);
        refused(format!("64 vectors: number {} ({place:?})", at + 1), record.with_beyond(at).bytes(), row(place))
    };
    record.opening.of_vectors().iter().copied().map(beyond).collect()
}

/// Rows 2 and 3: every form of a number, at M, C and D, at the first diagonal and at the last prior, and at the record's end.
pub fn number_forms() -> Vec<Case> {
    let record = small(Opening::One);
    let last = record.count() - 1;
    [0, 3, 4, 5, last].into_iter().flat_map(|at| malformed_forms(&record, at)).collect()
}

/// The same at a number of this record.
pub fn malformed_forms(record: &Parts, at: usize) -> Vec<Case> {
    let forms: [&[u8]; 10] = [
        &[0x80, 0x00],
        &[0xFF, 0x00],
        &[0x81, 0x80, 0x00],
        &[0x80, 0x80, 0x80, 0x00],
        &[0x81, 0x80, 0x80, 0x80],
        &[0x80, 0x80, 0x80, 0x80],
        &[0xFF, 0xFF, 0xFF, 0xFF],
        &[0x81, 0x80, 0x80, 0x80, 0x00],
        &[0x80, 0x80, 0x80, 0x80, 0x01],
        &[0x81, 0x80, 0x80, 0x80, 0x80, 0x00],
    ];
    let wrong = |form: &[u8]| {
        let about = format!("number {} is {form:02X?}", at + 1);
        let at_the_end = record.first_and(at, form);
        let ends = refused(format!("{about}, nothing after it"), at_the_end, 3);
        [refused(about, record.with(at, form).bytes(), 3), ends]
    };
    let cut: [&[u8]; 4] = [&[], &[0x80], &[0x81, 0x80], &[0xFF, 0xFF, 0xFF]];
    let ends = |form: &[u8]| {
        let bytes = record.first_and(at, form);
        refused(format!("number {} cut off at {form:02X?}", at + 1), bytes, 2)
    };
    forms.into_iter().flat_map(wrong).chain(cut.into_iter().map(ends)).collect()
}

/// A record cut at every length, so within every number of more than one group.
pub fn cuts(of: &str, record: &Parts) -> Vec<Case> {
    let bytes = record.bytes();
    let cut = |length: usize| refused(format!("{of} cut to {length} bytes"), bytes[..length].to_vec(), 2);
    (Opening::LENGTH..bytes.len()).map(cut).collect()
}

/// Row 3 at every number.
pub fn over_long_everywhere(record: &Parts) -> Vec<Case> {
    let wrong = |at: usize| refused(format!("number {} over-long", at + 1), record.with(at, &OVER_LONG).bytes(), 3);
    (0..record.count()).map(wrong).collect()
}
