//! A block record's numbers by their names in documents 01 and 02.

use super::encoding::{Contents, Numbers, Opening};
use super::record::{self, Refusal};
use super::reply;
use std::ops::{Add, Mul, Sub};

/// A complex number with whole parts.
#[derive(Clone, Copy, Debug, PartialEq, Eq)]
pub struct Complex {
    pub re: i64,
    pub im: i64,
}

impl Complex {
    pub const ZERO: Complex = Complex { re: 0, im: 0 };

    pub fn magnitude_squared(self) -> i64 {
        self.re * self.re + self.im * self.im
    }
}

impl Add for Complex {
    type Output = Complex;
    fn add(self, other: Complex) -> Complex {
        Complex { re: self.re + other.re, im: self.im + other.im }
    }
}

impl Sub for Complex {
    type Output = Complex;
    fn sub(self, other: Complex) -> Complex {
        Complex { re: self.re - other.re, im: self.im - other.im }
    }
}

impl Mul for Complex {
    type Output = Complex;
    fn mul(self, other: Complex) -> Complex {
        Complex { re: self.re * other.re - self.im * other.im, im: self.re * other.im + self.im * other.re }
    }
}

/// M and Q: all pairs that a record may have.
pub const SHAPES: [(usize, usize); 19] = [
    (1, 1),
    (2, 1),
    (3, 1),
    (4, 1),
    (1, 2),
    (2, 2),
    (3, 2),
    (4, 2),
    (1, 4),
    (2, 4),
    (3, 4),
    (4, 4),
    (1, 6),
    (2, 6),
    (3, 6),
    (4, 6),
    (1, 8),
    (2, 8),
    (3, 8),
];

/// A block: M streams of Q bits, the clip C, the weak value W, the share D, and N vectors with their owners. An older record has W = C,
/// and a record without owners has one for all vectors, owner 1.
#[derive(Clone, Debug, PartialEq, Eq)]
pub struct Block {
    pub opening: Opening,
    pub streams: usize,
    pub bits: usize,
    pub clip: i64,
    pub weak: i64,
    pub share: i64,
    pub owners: Vec<usize>,
    pub vectors: Vec<Vector>,
}

/// One reception: R (row by row, zeros left of the diagonal), y, and the priors in label order.
#[derive(Clone, Debug, PartialEq, Eq)]
pub struct Vector {
    pub matrix: Vec<Vec<Complex>>,
    pub received: Vec<Complex>,
    pub priors: Vec<i64>,
}

impl Block {
    /// The block of an older record.
    pub fn older(streams: usize, bits: usize, clip: i64, share: i64, vectors: Vec<Vector>) -> Block {
        Block { opening: Opening::One, streams, bits, clip, weak: clip, share, owners: vec![1; vectors.len()], vectors }
    }

    /// The same with this W, in a record that has one and no owners.
    pub fn with_weak(self, weak: i64) -> Block {
        Block { opening: Opening::Two, weak, owners: vec![1; self.vectors.len()], ..self }
    }

    /// The same with these owners, one for each vector.
    pub fn with_owners(self, owners: Vec<usize>) -> Block {
        assert_eq!(owners.len(), self.vectors.len(), "each vector has an owner");
        Block { opening: Opening::Three, owners, ..self }
    }

    /// The same as an older record has it, with W = C and no owners.
    pub fn without_weak(self) -> Block {
        Block::older(self.streams, self.bits, self.clip, self.share, self.vectors)
    }

    /// The block of an accepted record's numbers.
    pub fn of(contents: &Contents) -> Block {
        let opening = contents.opening;
        let mut rest = contents.numbers.iter().copied();
        let mut next = || rest.next().expect("an accepted record has all its numbers");
        let (streams, bits, count, clip) = (next() as usize, next() as usize, next(), next());
        let weak = if opening.has_weak() { next() } else { clip };
        let share = next();
        let mut owned = || {
            let owner = if opening.has_owners() { next() as usize } else { 1 };
            (owner, Vector::taken(&mut next, streams, streams * bits))
        };
        let (owners, vectors) = (0..count).map(|_| owned()).unzip();
        Block { opening, streams, bits, clip, weak, share, owners, vectors }
    }

    /// The block of a record's bytes.
    pub fn read(record: &[u8]) -> Result<Block, Refusal> {
        record::read(record).map(|contents| Block::of(&contents))
    }

    /// Its opening, and its numbers in record order.
    pub fn contents(&self) -> Contents {
        let mut numbers = vec![self.streams as i64, self.bits as i64, self.vectors.len() as i64, self.clip];
        numbers.extend(self.opening.has_weak().then_some(self.weak));
        numbers.push(self.share);
        for (&owner, vector) in self.owners.iter().zip(&self.vectors) {
            numbers.extend(self.opening.has_owners().then_some(owner as i64));
            numbers.extend(vector.numbers());
        }
        Contents { opening: self.opening, numbers }
    }

    /// The places of an owner's vectors, counted from 0.
    pub fn places_of(&self, owner: usize) -> Vec<usize> {
        (0..self.owners.len()).filter(|&at| self.owners[at] == owner).collect()
    }

    pub fn record(&self) -> Vec<u8> {
        self.contents().record()
    }

    /// The shortest reply buffer that is accepted.
    pub fn room(&self) -> usize {
        reply::room(self.streams, self.bits, self.vectors.len())
    }

    /// How many bits a label has.
    pub fn label_bits(&self) -> usize {
        self.streams * self.bits
    }

    /// A bit's place in a label; the label's first bit, which is its highest, is bit 0.
    pub fn mask(&self, bit: usize) -> usize {
        1 << (self.label_bits() - 1 - bit)
    }

    /// The label of these symbols, the lowest stream first; bits of streams that have none are 0.
    pub fn label(&self, symbols: &[usize]) -> usize {
        symbols.iter().fold(0, |label, symbol| (label << self.bits) + symbol)
    }

    /// A label's symbols, the lowest stream first.
    pub fn symbols(&self, label: usize) -> Vec<usize> {
        (0..self.streams).rev().map(|behind| (label >> (behind * self.bits)) % (1 << self.bits)).collect()
    }
}

/// The real and the imaginary part of each.
pub fn parts(entries: &[Complex]) -> Numbers {
    entries.iter().flat_map(|entry| [entry.re, entry.im]).collect()
}

/// Does a bit go against the sign of its prior? A prior of 0 has none.
pub fn is_against(prior: i64, is_one: bool) -> bool {
    if is_one {
        prior > 0
    } else {
        prior < 0
    }
}

impl Vector {
    fn taken(mut next: impl FnMut() -> i64, streams: usize, label_bits: usize) -> Vector {
        let mut matrix = vec![vec![Complex::ZERO; streams]; streams];
        for (row, entries) in matrix.iter_mut().enumerate() {
            entries[row] = Complex { re: next(), im: 0 };
            entries[row + 1..].fill_with(|| Complex { re: next(), im: next() });
        }
        let received = (0..streams).map(|_| Complex { re: next(), im: next() }).collect();
        let priors = (0..label_bits).map(|_| next()).collect();
        Vector { matrix, received, priors }
    }

    fn numbers(&self) -> Numbers {
        self.rows().flatten().chain(parts(&self.received)).chain(self.priors.iter().copied()).collect()
    }

    /// R's numbers, row by row.
    pub fn rows(&self) -> impl Iterator<Item = Numbers> + '_ {
        let numbers = |(row, entries): (usize, &Vec<Complex>)| [vec![entries[row].re], parts(&entries[row + 1..])].concat();
        self.matrix.iter().enumerate().map(numbers)
    }
}
