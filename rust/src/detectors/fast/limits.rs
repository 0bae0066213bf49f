//! What the walked leaves say: the least metric B, its label m, and each bit's limit.

use super::axis::FAR;

/// Below every metric.
pub const NEVER: i64 = -FAR;

/// Limits, and the largest of them by stream and by axis label. A bit's place counts from the label's lowest bit.
pub struct Limits<const A: usize, const B: usize> {
    pub streams: usize,
    pub clip: i64,
    pub priors: [i64; 32],
    /// B; far before the first leaf.
    pub best: i64,
    /// m.
    pub label: u32,
    /// The bits that are 0 in one walked leaf and 1 in another.
    pub both: u32,
    /// Of each bit, the smaller of U and B + C with the prior added (m's bit 0) or taken off (1).
    pub limit: [i64; 32],
    /// The largest limit of each stream's bits.
    pub of_stream: [i64; 4],
    /// The largest limit of the bits of all streams below: those not yet chosen.
    pub below: [i64; 4],
    /// How many leaves have been walked.
    pub leaves: u32,
    /// Whether a stream's limits, or m's bits there, have changed since its `against_re` and `against_im` were made.
    changed: [bool; 4],
    /// For each axis label of a stream, the largest limit of the bits in which it differs from m's.
    pub against_re: [[i64; A]; 4],
    pub against_im: [[i64; B]; 4],
}

/// A child passes below `base`, or below the limits of its own stream's bits opposite to m's. None passes from `cap` on.
#[derive(Clone, Copy)]
pub struct Ends {
    pub base: i64,
    pub cap: i64,
}

impl<const A: usize, const B: usize> Limits<A, B> {
    /// Q.
    pub const BITS: usize = (A * B).trailing_zeros() as usize;
    const FIRST_HALF: usize = A.trailing_zeros() as usize;
    const SECOND_HALF: usize = B.trailing_zeros() as usize;

    pub fn new(streams: usize, clip: i64) -> Self {
        Limits {
            streams,
            clip,
            priors: [0; 32],
            best: FAR,
            label: 0,
            both: 0,
            limit: [FAR; 32],
            of_stream: [NEVER; 4],
            below: [NEVER; 4],
            leaves: 0,
            changed: [false; 4],
            against_re: [[NEVER; A]; 4],
            against_im: [[NEVER; B]; 4],
        }
    }

    /// As before the first leaf. Every child passes below B, which is far, so the tables may stay as they are.
    pub fn clear(&mut self) {
        self.best = FAR;
        self.label = 0;
        self.both = 0;
        self.limit = [FAR; 32];
        self.leaves = 0;
        self.changed = [false; 4];
    }

    /// Where a stream's bits begin in a label.
    #[inline(always)]
    pub const fn shift(stream: usize) -> usize {
        (3 - stream) * Self::BITS
    }

    /// The places of a stream's bits.
    #[inline(always)]
    fn places(stream: usize) -> std::ops::Range<usize> {
        Self::shift(stream)..Self::shift(stream) + Self::BITS
    }

    /// A leaf has been walked. Where it differs from m, the bit is 0 in the one and 1 in the other; a bit in which no leaf does is m's
    /// in all of them.
    #[inline(never)]
    pub fn add_leaf(&mut self, metric: i64, label: u32) {
        if metric < self.best || (metric == self.best && self.goes_before_best(label)) {
            self.add_best(metric, label);
        } else {
            self.add_other(metric, label ^ self.label);
        }
        self.leaves += 1;
        let mut below = NEVER;
        for stream in 0..4 {
            self.below[stream] = below;
            below = below.max(self.of_stream[stream]);
        }
    }

    /// Does a label of m's metric go before m? The bits in which they differ say by how much its prior cost is more than m's.
    #[inline(never)]
    fn goes_before_best(&self, label: u32) -> bool {
        let mut left = label ^ self.label;
        let mut more = 0;
        while left != 0 {
            let place = left.trailing_zeros() as usize;
            let prior = self.priors[place];
            more += if label >> place & 1 == 1 { prior } else { -prior };
            left &= left - 1;
        }
        more < 0 || (more == 0 && label < self.label)
    }

    /// A new m. A bit that it flips has the old B as U, the least of all before. Any other keeps its U; and as B only falls, the
    /// old limit will do in U's place.
    fn add_best(&mut self, metric: i64, label: u32) {
        let flipped = if self.leaves == 0 { 0 } else { label ^ self.label };
        self.both |= flipped;
        let clipped = metric + self.clip;
        for stream in 0..4 {
            if stream >= self.streams {
                break;
            }
            let mut largest = NEVER;
            for place in Self::places(stream) {
                let prior = self.priors[place];
                let clipped = if label >> place & 1 == 0 { clipped + prior } else { clipped - prior };
                let opposite = if flipped >> place & 1 == 1 { self.best } else { self.limit[place] };
                let limit = opposite.min(clipped);
                self.limit[place] = limit;
                largest = largest.max(limit);
            }
            self.of_stream[stream] = largest;
            self.changed[stream] = true;
        }
        self.best = metric;
        self.label = label;
    }

    /// A leaf that is not m: it can lower the limits of the bits in which it differs.
    fn add_other(&mut self, metric: i64, differing: u32) {
        self.both |= differing;
        for stream in 0..4 {
            let own = differing >> Self::shift(stream) & ((1 << Self::BITS) - 1);
            if own == 0 {
                continue;
            }
            let mut largest = NEVER;
            for place in Self::places(stream) {
                let differs = differing >> place & 1 == 1;
                let limit = self.limit[place].min(if differs { metric } else { FAR });
                self.limit[place] = limit;
                largest = largest.max(limit);
            }
            self.of_stream[stream] = largest;
            self.changed[stream] = true;
        }
    }

    /// Where the children of a stream end, when `chosen` is the largest limit of the path's bits opposite to m's.
    #[inline(always)]
    pub fn ends<const S: usize>(&self, chosen: i64) -> Ends {
        let base = (self.best + 1).max(self.below[S]).max(chosen);
        Ends { base, cap: base.max(self.of_stream[S]) }
    }

    /// The largest limit of the bits in which a stream's symbol differs from m's; the tables must be up to date.
    #[inline(always)]
    pub fn against<const S: usize>(&self, re_label: usize, im_label: usize) -> i64 {
        self.against_re[S][re_label].max(self.against_im[S][im_label])
    }

    /// The largest limit of a set of bits.
    pub fn largest(&self, bits: u32) -> i64 {
        let mut left = bits;
        let mut largest = NEVER;
        while left != 0 {
            largest = largest.max(self.limit[left.trailing_zeros() as usize]);
            left &= left - 1;
        }
        largest
    }

    /// Makes the tables of a stream again if they are out of date; says whether they were.
    #[inline(always)]
    pub fn refresh<const S: usize>(&mut self) -> bool {
        let were_old = self.changed[S];
        if were_old {
            self.make_tables::<S>();
        }
        were_old
    }

    #[inline(never)]
    fn make_tables<const S: usize>(&mut self) {
        self.changed[S] = false;
        let symbol = self.label as usize >> Self::shift(S);
        let places = &self.limit[Self::places(S)];
        let (second, first) = places.split_at(Self::SECOND_HALF);
        self.against_re[S] = against_axis(&first[..Self::FIRST_HALF], symbol >> Self::SECOND_HALF);
        self.against_im[S] = against_axis(&second[..Self::SECOND_HALF], symbol);
    }
}

/// For each label of an axis, the largest limit of the bits in which it differs from m's label.
#[inline(always)]
fn against_axis<const N: usize>(limits: &[i64], best: usize) -> [i64; N] {
    let mut all = [NEVER; N];
    for (bit, &limit) in limits.iter().enumerate() {
        for fewer in 0..1 << bit {
            let differing = fewer + (1 << bit);
            all[(differing ^ best) & (N - 1)] = all[(fewer ^ best) & (N - 1)].max(limit);
        }
    }
    all
}
