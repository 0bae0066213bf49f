//! The records that cases start from, as parts of which one or more can be exchanged.

use crate::format::encoding::{Contents, Opening, Place};
use crate::inputs::chance::Chance;
use crate::inputs::numbers::{contents_by, contents_by_chance, range};

/// A record as its numbers' bytes, one part for each number, so that one can be exchanged.
#[derive(Clone)]
pub struct Parts {
    pub opening: Opening,
    pub places: Vec<Place>,
    /// The ranges of the numbers, that of W by the C that stood there at first.
    pub ranges: Vec<(i64, i64)>,
    parts: Vec<Vec<u8>>,
}

impl Parts {
    pub fn of(contents: &Contents) -> Parts {
        let places = contents.places();
        let ranges = places.iter().map(|&place| range(place, &contents.numbers)).collect();
        Parts { opening: contents.opening, places, ranges, parts: contents.parts() }
    }

    pub fn count(&self) -> usize {
        self.parts.len()
    }

    /// The same with other bytes for one number.
    pub fn with(&self, at: usize, bytes: &[u8]) -> Parts {
        let mut other = self.clone();
        other.parts[at] = bytes.to_vec();
        other
    }

    /// The same with another number at a place.
    pub fn with_number(&self, at: usize, number: i64) -> Parts {
        self.with(at, &self.places[at].bytes(number))
    }

    /// The same with a number one above its range (for Q, which has gaps too, above the last).
    pub fn with_beyond(&self, at: usize) -> Parts {
        self.with_number(at, self.ranges[at].1 + 1)
    }

    /// The opening and the first numbers, as many as `count`.
    pub fn first(&self, count: usize) -> Vec<u8> {
        self.first_and(count, &[])
    }

    /// The same and other bytes behind.
    pub fn first_and(&self, count: usize, more: &[u8]) -> Vec<u8> {
        [&self.opening.bytes(), self.parts[..count].concat().as_slice(), more].concat()
    }

    pub fn bytes(&self) -> Vec<u8> {
        self.first(self.count())
    }

    pub fn bytes_and(&self, more: &[u8]) -> Vec<u8> {
        self.first_and(self.count(), more)
    }

    pub fn first_place(&self, place: Place) -> usize {
        self.places.iter().position(|&other| other == place).expect("the record has this place")
    }

    pub fn last_place(&self, place: Place) -> usize {
        self.places.iter().rposition(|&other| other == place).expect("the record has this place")
    }
}

/// Two streams of two bits, two vectors.
pub fn small(opening: Opening) -> Parts {
    by_chance(2, opening, 2, 2, 2)
}

/// Four streams of six bits, one vector.
pub fn wide(opening: Opening) -> Parts {
    by_chance(4, opening, 4, 6, 1)
}

/// A record of these sizes whose vectors are made by chance.
pub fn sized(opening: Opening, streams: i64, bits: i64, vectors: i64) -> Parts {
    by_chance((streams * 10_000 + bits * 100 + vectors) as u64, opening, streams, bits, vectors)
}

fn by_chance(seed: u64, opening: Opening, streams: i64, bits: i64, vectors: i64) -> Parts {
    Parts::of(&contents_by_chance(&mut Chance(seed), opening, (streams, bits, vectors)))
}

/// The record of the most bytes: four streams of six bits.
pub fn largest(opening: Opening) -> Parts {
    longest(opening, 4, 6)
}

/// The longest record of M and Q: 64 vectors, each number as long as it can be in its range.
pub fn longest(opening: Opening, streams: i64, bits: i64) -> Parts {
    let mut chance = Chance(64);
    let long = |place: Place, (_, greatest): (i64, i64)| {
        let mut signed = |least: i64| (1 - 2 * chance.between(0, 1)) * chance.between(least, greatest);
        match place {
            Place::Diagonal => chance.between(128, greatest),
            Place::Right => signed(65),
            Place::Received | Place::Prior => signed(8_193),
            _ => greatest,
        }
    };
    Parts::of(&contents_by(opening, (streams, bits, 64), long))
}
