//! Demand 2 with no tree: every label's metric as a whole, from y less R times the points, and the least of them; on a tie, by document
//! 02's Point 6, the least prior cost, and only then the smallest number.
//!
//! Amplitudes are computed by the Gray rule here and prior costs are taken bit by bit over the label, so that only `Block` is
//! shared with the detectors.

use crate::format::block::{Block, Complex, Vector};

/// The label and soft values over all labels.
pub fn answer(block: &Block, vector: &Vector) -> (usize, Vec<i64>) {
    let label_bits = block.label_bits();
    let metrics: Vec<i64> = (0..1 << label_bits).map(|label| metric(block, vector, label)).collect();
    let least_of_all = *metrics.iter().min().expect("there are labels");
    let equal = (0..metrics.len()).filter(|&label| metrics[label] == least_of_all);
    let label = equal.min_by_key(|&label| (prior_cost(block, vector, label), label)).expect("the least is one of them");
    let value = |bit: usize| {
        let with = |wanted: usize| {
            let labels = (0..metrics.len()).filter(|label| label >> (label_bits - 1 - bit) & 1 == wanted);
            labels.map(|label| metrics[label]).min().expect("each side has labels")
        };
        (with(1) - with(0) - vector.priors[bit]).clamp(-block.clip, block.clip)
    };
    (label, (0..label_bits).map(value).collect())
}

/// |y - R s| squared, and what the priors add.
pub fn metric(block: &Block, vector: &Vector, label: usize) -> i64 {
    distance(block, vector, label) + prior_cost(block, vector, label)
}

/// |y - R s| squared.
pub fn distance(block: &Block, vector: &Vector, label: usize) -> i64 {
    let points: Vec<Complex> = (0..block.streams)
        .map(|stream| point(block.bits, label >> ((block.streams - 1 - stream) * block.bits) & ((1 << block.bits) - 1)))
        .collect();
    let residual = |row: usize| {
        let sent = (0..block.streams).map(|column| vector.matrix[row][column] * points[column]);
        sent.fold(vector.received[row], |left, term| left - term)
    };
    (0..block.streams).map(|row| residual(row).magnitude_squared()).sum()
}

/// What the priors add.
pub fn prior_cost(block: &Block, vector: &Vector, label: usize) -> i64 {
    let label_bits = block.label_bits();
    let cost = |bit: usize| {
        let sign = if label >> (label_bits - 1 - bit) & 1 == 1 { 1 } else { -1 };
        (sign * vector.priors[bit]).max(0)
    };
    (0..label_bits).map(cost).sum()
}

/// A symbol's point by the Gray rule: each axis' bits, as a reflected number, count the amplitudes from the least up by twos.
fn point(bits: usize, symbol: usize) -> Complex {
    let second_half = bits / 2;
    let axis = |axis_bits: usize, label: usize| {
        let count = (0..axis_bits).fold(0, |count, shift| count ^ (label >> shift)) as i64;
        2 * count - ((1 << axis_bits) - 1)
    };
    Complex { re: axis(bits - second_half, symbol >> second_half), im: axis(second_half, symbol & ((1 << second_half) - 1)) }
}
