//! Block records by chance: as a receiver meets them (`Plan`), and with whatever numbers a record may hold (`any_block`).

use super::chance::Chance;
use crate::detectors::plain::point;
use crate::format::block::{Block, Complex, Vector};
use crate::format::encoding::Opening;

/// What a channel's entry is about, in units of the record's whole numbers.
const SCALE: f64 = 150.0;

/// Vectors sent over Gaussian (Rayleigh) channels, reduced by a QR decomposition and rounded.
#[derive(Clone, Copy, Debug)]
pub struct Plan {
    pub streams: usize,
    pub bits: usize,
    pub vectors: usize,
    /// C in units of the noise variance.
    pub clip: f64,
    pub share: i64,
    /// Standard deviation per axis, where a channel's entry has about `SCALE` in the record's numbers and 1 here.
    pub noise: f64,
    /// The priors' typical magnitude, in units of the noise variance; most favour the bits that were sent.
    pub prior: f64,
}

impl Plan {
    pub fn block(&self, chance: &mut Chance) -> Block {
        let clip = (self.clip * self.variance()).round().min(16_777_215.0) as i64;
        let vectors = (0..self.vectors).map(|_| self.vector(chance)).collect();
        Block::older(self.streams, self.bits, clip, self.share, vectors)
    }

    /// Of the noise, both axes together, in the record's numbers squared.
    fn variance(&self) -> f64 {
        2.0 * (self.noise * SCALE) * (self.noise * SCALE)
    }

    fn vector(&self, chance: &mut Chance) -> Vector {
        let sent: Vec<usize> = (0..self.streams).map(|_| chance.between(0, (1 << self.bits) - 1) as usize).collect();
        let matrix = triangle(chance, self.streams);
        let received = (0..self.streams).map(|row| self.received(chance, &matrix[row], &sent)).collect();
        let priors = sent.iter().flat_map(|&symbol| self.priors(chance, symbol)).collect();
        Vector { matrix, received, priors }
    }

    fn received(&self, chance: &mut Chance, row: &[Complex], sent: &[usize]) -> Complex {
        let terms = row.iter().zip(sent).map(|(&entry, &symbol)| entry * point(self.bits, symbol));
        let clean = terms.fold(Complex::ZERO, |sum, term| sum + term);
        let mut axis = |part: i64| rounded(part as f64 + chance.normal() * self.noise * SCALE, -131_071, 131_071);
        Complex { re: axis(clean.re), im: axis(clean.im) }
    }

    /// A decoder's idea of a stream's bits: normal around the right sign.
    fn priors(&self, chance: &mut Chance, symbol: usize) -> Vec<i64> {
        let size = self.prior * self.variance();
        let mut prior = |place: usize| {
            let right = if symbol >> (self.bits - 1 - place) & 1 == 1 { -size } else { size };
            rounded(right + chance.normal() * size, -1_048_575, 1_048_575)
        };
        (0..self.bits).map(&mut prior).collect()
    }
}

fn rounded(number: f64, least: i64, greatest: i64) -> i64 {
    (number.round() as i64).clamp(least, greatest)
}

/// R of a channel's QR decomposition (Gram and Schmidt's), rounded, its diagonal real and positive.
fn triangle(chance: &mut Chance, streams: usize) -> Vec<Vec<Complex>> {
    let mut axis = || chance.normal() * SCALE * 0.5_f64.sqrt();
    let mut columns: Vec<Vec<(f64, f64)>> = (0..streams).map(|_| (0..streams).map(|_| (axis(), axis())).collect()).collect();
    let mut matrix = vec![vec![Complex::ZERO; streams]; streams];
    for row in 0..streams {
        let length = product(&columns[row], &columns[row]).0.sqrt().max(0.5);
        matrix[row][row] = Complex { re: rounded(length, 1, 2_047), im: 0 };
        let unit: Vec<_> = columns[row].iter().map(|&(re, im)| (re / length, im / length)).collect();
        for column in row + 1..streams {
            let (re, im) = product(&unit, &columns[column]);
            matrix[row][column] = Complex { re: rounded(re, -2_047, 2_047), im: rounded(im, -2_047, 2_047) };
            for (entry, &(ure, uim)) in columns[column].iter_mut().zip(&unit) {
                *entry = (entry.0 - (ure * re - uim * im), entry.1 - (ure * im + uim * re));
            }
        }
    }
    matrix
}

/// The sum of the left entries' conjugates times the right entries.
fn product(left: &[(f64, f64)], right: &[(f64, f64)]) -> (f64, f64) {
    let term = |(a, b): (&(f64, f64), &(f64, f64))| (a.0 * b.0 + a.1 * b.1, a.0 * b.1 - a.1 * b.0);
    left.iter().zip(right).map(term).fold((0.0, 0.0), |sum, term| (sum.0 + term.0, sum.1 + term.1))
}

/// How large the numbers of a block by chance are.
#[derive(Clone, Copy, Debug)]
pub struct Sizes {
    pub diagonal: i64,
    pub right: i64,
    pub received: i64,
    pub prior: i64,
    pub clip: i64,
}

impl Sizes {
    /// So small that equal metrics are common.
    pub const TIES: Sizes = Sizes { diagonal: 2, right: 2, received: 6, prior: 3, clip: 30 };
    /// Priors that outweigh the clip and the distances.
    pub const PRIORS: Sizes = Sizes { diagonal: 4, right: 3, received: 20, prior: 60, clip: 20 };
    /// All that a record can hold.
    pub const FULL: Sizes = Sizes { diagonal: 2_047, right: 2_047, received: 131_071, prior: 1_048_575, clip: 16_777_215 };
}

/// A block of numbers by chance up to these sizes, ends more often than others.
pub fn any_block(chance: &mut Chance, streams: usize, bits: usize, vectors: usize, share: i64, sizes: Sizes) -> Block {
    let clip = match chance.draw() % 6 {
        0 => 0,
        1 => sizes.clip,
        2 => 16_777_215,
        _ => chance.between(0, sizes.clip),
    };
    let vectors = (0..vectors).map(|_| any_vector(chance, streams, streams * bits, sizes)).collect();
    Block::older(streams, bits, clip, share, vectors)
}

/// An older record's block in a record that opens so; W and owners, where it has them, are by chance.
pub fn opened(block: Block, opening: Opening, chance: &mut Chance) -> Block {
    if !opening.has_weak() {
        return block;
    }
    let weak = chance.within((0, block.clip));
    let block = block.with_weak(weak);
    if !opening.has_owners() {
        return block;
    }
    let owners = owners_by_chance(chance, block.vectors.len());
    block.with_owners(owners)
}

/// So many owners by chance.
pub fn owners_by_chance(chance: &mut Chance, count: usize) -> Vec<usize> {
    (0..count).map(|_| chance.between(1, 4) as usize).collect()
}

fn any_vector(chance: &mut Chance, streams: usize, label_bits: usize, sizes: Sizes) -> Vector {
    let mut matrix = vec![vec![Complex::ZERO; streams]; streams];
    for (row, entries) in matrix.iter_mut().enumerate() {
        entries[row] = Complex { re: chance.within((1, sizes.diagonal)), im: 0 };
        entries[row + 1..].fill_with(|| any_complex(chance, sizes.right));
    }
    let received = (0..streams).map(|_| any_complex(chance, sizes.received)).collect();
    let has_priors = chance.between(1, 3) > 1;
    let prior = if has_priors { sizes.prior } else { 0 };
    let priors = (0..label_bits).map(|_| chance.within((-prior, prior))).collect();
    Vector { matrix, received, priors }
}

fn any_complex(chance: &mut Chance, size: i64) -> Complex {
    Complex { re: chance.within((-size, size)), im: chance.within((-size, size)) }
}

#[cfg(test)]
mod tests {
    use super::*;
    use crate::format::block::SHAPES;

    const PLAN: Plan = Plan { streams: 4, bits: 6, vectors: 16, clip: 8.0, share: 3_000, noise: 0.5, prior: 2.0 };
    const WIDE_PLAN: Plan = Plan { streams: 3, bits: 8, ..PLAN };

    /// Benchmarks name their records by plan and seed, so these bytes may not change.
    #[test]
    fn a_plan_and_a_seed_make_the_same_record_in_every_run() {
        for (plan, expected) in [(PLAN, (1_758, 1_105_233_274)), (WIDE_PLAN, (1_530, 4_070_809_391))] {
            let record = plan.block(&mut Chance(1)).record();
            let sum = record.iter().fold(0_u64, |sum, &byte| (sum * 257 + u64::from(byte)) % 4_294_967_291);
            assert_eq!((record.len(), sum), expected, "{plan:?}");
        }
    }

    #[test]
    fn blocks_and_records_go_both_ways() {
        let mut chance = Chance(2);
        for sizes in [Sizes::TIES, Sizes::PRIORS, Sizes::FULL] {
            for (streams, bits) in SHAPES {
                for opening in Opening::ALL {
                    let block = opened(any_block(&mut chance, streams, bits, 3, 9, sizes), opening, &mut chance);
                    assert_eq!(Block::read(&block.record()), Ok(block));
                }
            }
        }
        for plan in [PLAN, WIDE_PLAN] {
            let block = plan.block(&mut chance);
            assert_eq!(Block::read(&block.record()), Ok(block));
        }
    }
}
