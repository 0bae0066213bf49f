//! The ranges of a record's numbers, said once more and apart from reader and writer, which are tested by them; and a record's numbers
//! chosen place by place.

use super::chance::Chance;
use crate::format::encoding::{Contents, Numbers, Opening, Place};
use crate::format::record::Refusal;

/// The range of a number, by documents 01 and 02; M and C are among the numbers before it, where they count. Q has gaps in its range.
pub fn range(place: Place, before: &[i64]) -> (i64, i64) {
    match place {
        Place::Streams => (1, 4),
        Place::Bits => (1, 8),
        Place::Vectors => (1, 64),
        Place::Clip => (0, 16_777_215),
        Place::Weak => (0, before[3]),
        Place::Share => (before[0], 17_043_520),
        Place::Owner => (1, 4),
        Place::Diagonal => (1, 2_047),
        Place::Right => (-2_047, 2_047),
        Place::Received => (-131_071, 131_071),
        Place::Prior => (-1_048_575, 1_048_575),
    }
}

/// The table's row for a number out of its range.
pub fn row(place: Place) -> Refusal {
    match place {
        Place::Streams => 4,
        Place::Bits => 5,
        Place::Vectors => 6,
        Place::Clip => 7,
        Place::Weak => 16,
        Place::Share => 8,
        Place::Owner => 17,
        Place::Diagonal => 9,
        Place::Right => 10,
        Place::Received => 11,
        Place::Prior => 12,
    }
}

/// M, Q and N.
pub type Counts = (i64, i64, i64);

/// A record of this M, Q and N; each other number is chosen by its place and its range.
pub fn contents_by(opening: Opening, counts: Counts, mut choose: impl FnMut(Place, (i64, i64)) -> i64) -> Contents {
    let (streams, bits, vectors) = counts;
    let mut numbers = Numbers::new();
    for place in opening.places(streams, bits, vectors) {
        numbers.push(match place {
            Place::Streams => streams,
            Place::Bits => bits,
            Place::Vectors => vectors,
            other => choose(other, range(other, &numbers)),
        });
    }
    Contents { opening, numbers }
}

/// A record by chance, all its numbers in range.
pub fn contents_by_chance(chance: &mut Chance, opening: Opening, counts: Counts) -> Contents {
    contents_by(opening, counts, |_, range| chance.within(range))
}
