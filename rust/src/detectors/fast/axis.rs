//! One axis of a stream: N labels, each with an amplitude.

use std::array::from_fn;

/// Above every metric (below 2^39) and every limit (below 2^41).
pub const FAR: i64 = 1 << 50;

/// A metric and a prior cost as one number, to be added and put in order: the metric from bit 25 on, the cost, below 2^23, from bit 2 on.
pub type Packed = u64;

#[inline(always)]
pub const fn packed(metric: i64, cost: i64) -> Packed {
    ((metric as u64) << 25).wrapping_add((cost as u64) << 2)
}

#[inline(always)]
pub const fn metric(packed: Packed) -> i64 {
    (packed >> 25) as i64
}

/// The amplitudes by label: the label, a reflected (Gray) number, counts them from the least up by twos. One label: 0.
pub const fn amplitudes<const N: usize>() -> [i64; N] {
    let mut all = [0; N];
    let mut label = 0;
    while label < N {
        let count = label ^ label >> 1 ^ label >> 2 ^ label >> 3;
        all[label] = 2 * count as i64 - (N as i64 - 1);
        label += 1;
    }
    all
}

/// The distance from e to the nearest of the amplitudes times R: folded at 0, and then at each middle of what is left.
#[inline(always)]
pub fn nearest<const N: usize>(e: i64, diagonal: i64) -> i64 {
    let mut distance = e.abs();
    let mut step = N as i64 / 2;
    while step > 0 {
        distance = (distance - diagonal * step).abs();
        step /= 2;
    }
    distance
}

/// An axis' table: (R a)^2 and the prior cost of each label, with the cost packed below their sum. `priors` are of its bits, the last
/// bit's first.
pub fn table<const N: usize>(diagonal: i64, priors: &[i64]) -> [Packed; N] {
    let mut costs = [0; N];
    costs[0] = priors.iter().map(|&prior| (-prior).max(0)).sum();
    for (bit, &prior) in priors.iter().enumerate() {
        for label in 0..1 << bit {
            costs[label + (1 << bit)] = costs[label] + prior;
        }
    }
    let square = diagonal * diagonal;
    let amplitudes = const { amplitudes::<N>() };
    from_fn(|label| packed(square * (amplitudes[label] * amplitudes[label]) + costs[label], costs[label]))
}

/// The labels' parts, table - twice_re a + fixed, where `twice_re` is 2 R e. No part is below 0, though a sum on the way to it may be.
#[inline(always)]
pub fn parts<const N: usize>(table: &[Packed; N], twice_re: i64, fixed: i64) -> [Packed; N] {
    let amplitudes = const { amplitudes::<N>() };
    let (twice_re, fixed) = (packed(twice_re, 0), packed(fixed, 0));
    from_fn(|label| table[label].wrapping_add(fixed).wrapping_sub(twice_re.wrapping_mul(amplitudes[label] as u64)))
}

/// The least of table - twice_re a.
#[inline(always)]
pub fn least_part<const N: usize>(table: &[i64; N], twice_re: i64) -> i64 {
    let amplitudes = const { amplitudes::<N>() };
    least(&from_fn::<_, N, _>(|label| table[label] - twice_re * amplitudes[label]))
}

#[inline(always)]
pub fn least<Number: Copy + Ord, const N: usize>(of: &[Number; N]) -> Number {
    let mut least = of[0];
    for &other in &of[1..] {
        least = least.min(other);
    }
    least
}

#[inline(always)]
pub fn largest<const N: usize>(of: &[i64; N]) -> i64 {
    let mut largest = of[0];
    for &other in &of[1..] {
        largest = largest.max(other);
    }
    largest
}
