//! How a record's numbers stand in it, by document 01, "The record", and by document 02's Points 4 and 7, which add W and owners:
//! openings, the numbers' forms and their places, and an encoder that makes records for tests, wrong ones too. Nothing is ranged here.

/// How a record opens, which says what numbers it has.
#[derive(Clone, Copy, Debug, PartialEq, Eq)]
pub enum Opening {
    /// Document 01's.
    One,
    /// W stands directly after C.
    Two,
    /// The same, and an owner before each vector.
    Three,
}

impl Opening {
    pub const ALL: [Opening; 3] = [Opening::One, Opening::Two, Opening::Three];

    /// How many bytes it has.
    pub const LENGTH: usize = 4;

    /// The number that a writer is told for it.
    pub fn number(self) -> u32 {
        match self {
            Opening::One => 1,
            Opening::Two => 2,
            Opening::Three => 3,
        }
    }

    /// The opening that a writer is told by a number, if there is one.
    pub fn told(number: u32) -> Option<Opening> {
        Opening::ALL.into_iter().find(|opening| opening.number() == number)
    }

    pub fn bytes(self) -> [u8; Opening::LENGTH] {
        match self {
            Opening::One => [0x43, 0x42, 0x52, 0x31],
            Opening::Two => [0x43, 0x42, 0x52, 0x32],
            Opening::Three => [0x43, 0x42, 0x52, 0x33],
        }
    }

    /// The opening that a record begins with, if it begins with one.
    pub fn of(record: &[u8]) -> Option<Opening> {
        Opening::ALL.into_iter().find(|opening| record.starts_with(&opening.bytes()))
    }

    /// Does a record that opens so have W?
    pub fn has_weak(self) -> bool {
        self.sizes().contains(&Place::Weak)
    }

    /// Does a record that opens so have an owner before each vector?
    pub fn has_owners(self) -> bool {
        self.of_vectors().contains(&Place::Owner)
    }

    /// The places of the numbers before the first vector.
    pub fn sizes(self) -> &'static [Place] {
        use Place::*;
        match self {
            Opening::One => &[Streams, Bits, Vectors, Clip, Share],
            Opening::Two | Opening::Three => &[Streams, Bits, Vectors, Clip, Weak, Share],
        }
    }

    /// The places that a vector's numbers can have.
    pub fn of_vectors(self) -> &'static [Place] {
        use Place::*;
        match self {
            Opening::One | Opening::Two => &[Diagonal, Right, Received, Prior],
            Opening::Three => &[Owner, Diagonal, Right, Received, Prior],
        }
    }

    /// The places of a record, in record order.
    pub fn places(self, streams: i64, bits: i64, vectors: i64) -> Vec<Place> {
        let mut all = self.sizes().to_vec();
        for _ in 0..vectors {
            all.extend(self.has_owners().then_some(Place::Owner));
            for row in 0..streams {
                all.push(Place::Diagonal);
                all.extend((row + 1..streams).flat_map(|_| [Place::Right, Place::Right]));
            }
            all.extend((0..streams).flat_map(|_| [Place::Received, Place::Received]));
            all.extend((0..streams * bits).map(|_| Place::Prior));
        }
        all
    }
}

/// A record's whole numbers, unfolded and in record order; what they are is said by the opening.
pub type Numbers = Vec<i64>;

/// What a record says: its opening, and its numbers.
#[derive(Clone, Debug, PartialEq, Eq)]
pub struct Contents {
    pub opening: Opening,
    pub numbers: Numbers,
}

impl Contents {
    /// The places that M, Q and N, the first of the numbers, call for.
    pub fn places(&self) -> Vec<Place> {
        self.opening.places(self.numbers[0], self.numbers[1], self.numbers[2])
    }

    /// Each number's bytes. M, Q and N say how many there are.
    pub fn parts(&self) -> Vec<Vec<u8>> {
        let places = self.places();
        assert_eq!(self.numbers.len(), places.len(), "M, Q and N say how many numbers there are");
        places.iter().zip(&self.numbers).map(|(place, &number)| place.bytes(number)).collect()
    }

    /// The record: the opening, then each number's shortest form. Numbers out of range make records that are refused.
    pub fn record(&self) -> Vec<u8> {
        [self.opening.bytes().as_slice(), &self.parts().concat()].concat()
    }

    /// The same with another number, counted from 0.
    pub fn with(&self, at: usize, number: i64) -> Contents {
        let mut other = self.clone();
        other.numbers[at] = number;
        other
    }
}

/// n at least 0 is folded to 2n, n below 0 to -2n - 1.
pub fn fold(number: i64) -> i64 {
    if number >= 0 {
        2 * number
    } else {
        -2 * number - 1
    }
}

/// The number that `fold` makes `folded` of.
pub fn unfold(folded: i64) -> i64 {
    if folded % 2 == 0 {
        folded / 2
    } else {
        -(folded + 1) / 2
    }
}

/// The shortest form of a number that is at least 0, in as many groups as it takes.
pub fn plain(number: i64) -> Vec<u8> {
    let mut left = u64::try_from(number).expect("a plain number has no sign");
    let mut groups = Vec::new();
    while left >= 128 {
        groups.push((left % 128) as u8 + 128);
        left /= 128;
    }
    groups.push(left as u8);
    groups
}

/// The shortest form of a number of either sign.
pub fn folded(number: i64) -> Vec<u8> {
    plain(fold(number))
}

/// What a number of a record stands for.
#[derive(Clone, Copy, Debug, PartialEq, Eq)]
pub enum Place {
    Streams,
    Bits,
    Vectors,
    Clip,
    Weak,
    Share,
    Owner,
    Diagonal,
    Right,
    Received,
    Prior,
}

impl Place {
    /// All that an opening has.
    pub fn all(opening: Opening) -> impl Iterator<Item = Place> {
        opening.sizes().iter().chain(opening.of_vectors()).copied()
    }

    /// Has a number that stands here a sign, so that it is folded?
    pub fn is_folded(self) -> bool {
        matches!(self, Place::Right | Place::Received | Place::Prior)
    }

    /// The bytes of a number that stands here.
    pub fn bytes(self, number: i64) -> Vec<u8> {
        if self.is_folded() {
            folded(number)
        } else {
            plain(number)
        }
    }
}

#[cfg(test)]
mod tests {
    use super::*;

    #[test]
    fn folding_goes_both_ways() {
        for (number, folded) in [(0, 0), (-1, 1), (1, 2), (-2, 3), (2, 4), (-1_048_575, 2_097_149)] {
            assert_eq!(fold(number), folded);
            assert_eq!(unfold(folded), number);
        }
    }

    /// An opening's number is its last byte less 30, and each other number and byte has none.
    #[test]
    fn an_opening_by_its_number_and_by_its_bytes() {
        for opening in Opening::ALL {
            assert_eq!(opening.bytes(), [0x43, 0x42, 0x52, 0x30 + opening.number() as u8]);
            assert_eq!(Opening::told(opening.number()), Some(opening));
            assert_eq!(Opening::of(&opening.bytes()), Some(opening));
            assert_eq!(Opening::of(&opening.bytes()[..3]), None);
        }
        assert_eq!([0, 4, 5, 0x31, 0x33, 257, 259, u32::MAX].map(Opening::told), [None; 8]);
        let by_last = |last: u8| Opening::of(&[0x43, 0x42, 0x52, last]);
        assert_eq!((0..=255).filter_map(by_last).collect::<Vec<_>>(), Opening::ALL);
    }

    /// M = 2, Q = 1, N = 2 with owners: M, Q, N, C, W, D; and twice an owner, two rows of R, y and two priors.
    #[test]
    fn an_owner_stands_before_each_vector() {
        use Place::*;
        let sizes = [Streams, Bits, Vectors, Clip, Weak, Share];
        let vector = [Owner, Diagonal, Right, Right, Diagonal, Received, Received, Received, Received, Prior, Prior];
        assert_eq!(Opening::Three.places(2, 1, 2), [sizes.as_slice(), &vector, &vector].concat());
        assert_eq!(Opening::Two.places(2, 1, 1), [sizes.as_slice(), &vector[1..]].concat());
        assert_eq!(
            Opening::ALL.map(|opening| (opening.has_weak(), opening.has_owners())),
            [(false, false), (true, false), (true, true)]
        );
        assert!(!Owner.is_folded());
    }
}
