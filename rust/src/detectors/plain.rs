//! The plain detector: document 01 word for word, and 02's 256 points, weak value, distance, ties and owners, for checking others by.
//! What the walk asks of the leaves walked so far is worked out from their list at every test, what an owner has left from the counts of
//! its vectors, and nothing is kept.
//!
//! Streams, rows and bits count from 0 here: stream 0 is the paper's stream 1, and bit 0 the label's first and highest.

use crate::format::block::{is_against, Block, Complex, Vector};
use crate::format::reply::{encode, Answer};

/// The reply's length, or minus the refusal number.
pub fn detect(record: &[u8], reply: &mut [u8]) -> i64 {
    let block = match Block::read(record) {
        Ok(block) => block,
        Err(refusal) => return -i64::from(refusal),
    };
    if reply.len() < block.room() {
        return -14;
    }
    let bytes = encode(&block, &answers(&block));
    reply[..bytes.len()].copy_from_slice(&bytes);
    bytes.len() as i64
}

/// What was found of a vector: the answer, and the leaves walked, in the walk's order.
pub struct Found {
    pub answer: Answer,
    pub leaves: Vec<Leaf>,
}

/// The answers in record order.
pub fn answers(block: &Block) -> Vec<Answer> {
    search(block).into_iter().map(|found| found.answer).collect()
}

/// Searches the vectors in record order.
pub fn search(block: &Block) -> Vec<Found> {
    search_by(Ties::ByPriors, block)
}

/// An owner's k-th of n vectors may walk n x D, less the nodes that its earlier ones walked, less (n - k) x M.
pub fn search_by(ties: Ties, block: &Block) -> Vec<Found> {
    let mut all: Vec<Found> = Vec::new();
    for (at, vector) in block.vectors.iter().enumerate() {
        let own = block.places_of(block.owners[at]);
        let (earlier, later): (Vec<usize>, Vec<usize>) = own.iter().filter(|&&other| other != at).partition(|&&other| other < at);
        let walked: i64 = earlier.into_iter().map(|other| all[other].answer.nodes).sum();
        let allowance = own.len() as i64 * block.share - walked - (later.len() * block.streams) as i64;
        all.push(search_one(ties, block, vector, allowance));
    }
    all
}

fn search_one(ties: Ties, block: &Block, vector: &Vector, allowance: i64) -> Found {
    let mut walk = Walk { ties, block, vector, allowance, nodes: 0, stopped: false, leaves: Vec::new() };
    walk.below(&Node::ROOT);
    let best = walk.best().expect("an allowance of at least M reaches a leaf");
    let empty = if walk.stopped { block.weak } else { block.clip };
    let value = |bit: usize| soft_value(&walk.leaves, block.mask(bit), vector.priors[bit], block.clip, empty);
    let values = (0..block.label_bits()).map(value).collect();
    let answer = Answer { stopped: walk.stopped, nodes: walk.nodes, label: best.label, values };
    Found { answer, leaves: walk.leaves }
}

// Streams and labels.

/// The axis of four bits, document 02's Point 1: the reflected Gray order, from 0000 at -15 to 1000 at 15.
const FOUR_BITS: [(usize, i64); 16] = [
    (0b0000, -15),
    (0b0001, -13),
    (0b0011, -11),
    (0b0010, -9),
    (0b0110, -7),
    (0b0111, -5),
    (0b0101, -3),
    (0b0100, -1),
    (0b1100, 1),
    (0b1101, 3),
    (0b1111, 5),
    (0b1110, 7),
    (0b1010, 9),
    (0b1011, 11),
    (0b1001, 13),
    (0b1000, 15),
];

/// The amplitude of one axis' bits.
fn amplitude(axis_bits: usize, label: usize) -> i64 {
    let by_rising_amplitude: &[(usize, i64)] = match axis_bits {
        0 => &[(0, 0)],
        1 => &[(0b0, -1), (0b1, 1)],
        2 => &[(0b00, -3), (0b01, -1), (0b11, 1), (0b10, 3)],
        3 => &[(0b000, -7), (0b001, -5), (0b011, -3), (0b010, -1), (0b110, 1), (0b111, 3), (0b101, 5), (0b100, 7)],
        _ => &FOUR_BITS,
    };
    let (_, amplitude) = by_rising_amplitude.iter().find(|row| row.0 == label).expect("every label has an amplitude");
    *amplitude
}

/// A symbol's point: the first half of its bits gives the real amplitude, the second half the imaginary.
pub fn point(bits: usize, symbol: usize) -> Complex {
    let second_half = bits / 2;
    let first_half = bits - second_half;
    Complex { re: amplitude(first_half, symbol >> second_half), im: amplitude(second_half, symbol % (1 << second_half)) }
}

// The metric.

/// The two parts of row i's increment, squared distance and prior cost, where the streams from i on have these symbols, stream i's first.
fn increment(block: &Block, vector: &Vector, row: usize, symbols: &[usize]) -> (i64, i64) {
    let points = symbols.iter().map(|&symbol| point(block.bits, symbol));
    (row_distance(vector, row, points), prior_cost(block, vector, row, symbols[0]))
}

/// A label's squared distance, which leaves its prior cost out: document 02's Point 5.
pub fn distance(block: &Block, vector: &Vector, label: usize) -> i64 {
    let points: Vec<Complex> = block.symbols(label).iter().map(|&symbol| point(block.bits, symbol)).collect();
    (0..block.streams).map(|row| row_distance(vector, row, points[row..].iter().copied())).sum()
}

/// |y_i minus the sum over j from i to M of R_ij s_j| squared, where the streams from i on have these points, stream i's first.
pub fn row_distance(vector: &Vector, row: usize, points: impl Iterator<Item = Complex>) -> i64 {
    let terms = vector.matrix[row][row..].iter().zip(points).map(|(&entry, point)| entry * point);
    let sum = terms.fold(Complex::ZERO, |sum, term| sum + term);
    (vector.received[row] - sum).magnitude_squared()
}

/// The priors' magnitudes where a stream's bits go against their signs.
pub fn prior_cost(block: &Block, vector: &Vector, stream: usize, symbol: usize) -> i64 {
    let priors = &vector.priors[stream * block.bits..(stream + 1) * block.bits];
    let is_one = |place: usize| symbol >> (block.bits - 1 - place) & 1 == 1;
    let against = priors.iter().enumerate().filter(|&(place, &prior)| is_against(prior, is_one(place)));
    against.map(|(_, prior)| prior.abs()).sum()
}

// The order of equal metrics.

/// What goes first of equal metrics, those of labels and those of siblings.
#[derive(Clone, Copy, Debug, PartialEq, Eq)]
pub enum Ties {
    /// The least prior cost, and only then the smallest number: document 02's Point 6.
    ByPriors,
    /// The smallest number: document 01 by itself. Tests count by it what Point 6 makes different.
    ByNumber,
}

impl Ties {
    /// What a label rises by, or a sibling with its symbol as the number.
    fn rank(self, metric: i64, cost: i64, number: usize) -> (i64, i64, usize) {
        match self {
            Ties::ByPriors => (metric, cost, number),
            Ties::ByNumber => (metric, 0, number),
        }
    }
}

// Demand 2 over a set of labels.

/// A label, its metric, and the prior cost that the metric has in it.
#[derive(Clone, Copy, Debug, PartialEq, Eq)]
pub struct Leaf {
    pub label: usize,
    pub metric: i64,
    pub cost: i64,
}

/// The least metric over labels whose bit is this, if there is any.
fn least(leaves: &[Leaf], mask: usize, is_one: bool) -> Option<i64> {
    leaves.iter().filter(|leaf| (leaf.label & mask != 0) == is_one).map(|leaf| leaf.metric).min()
}

/// Least metric with the bit 1, less the least with it 0, less the prior, clipped; for an empty side +`empty` or -`empty`.
fn soft_value(leaves: &[Leaf], mask: usize, prior: i64, clip: i64, empty: i64) -> i64 {
    match (least(leaves, mask, true), least(leaves, mask, false)) {
        (Some(one), Some(zero)) => (one - zero - prior).clamp(-clip, clip),
        (None, _) => empty,
        (_, None) => -empty,
    }
}

// The walk.

struct Walk<'a> {
    ties: Ties,
    block: &'a Block,
    vector: &'a Vector,
    allowance: i64,
    nodes: i64,
    stopped: bool,
    leaves: Vec<Leaf>,
}

/// A node, or the root: the symbols of the streams chosen, the lowest stream first, their partial metric, and the prior cost in it.
struct Node {
    symbols: Vec<usize>,
    metric: i64,
    cost: i64,
}

impl Node {
    const ROOT: Node = Node { symbols: Vec::new(), metric: 0, cost: 0 };
}

impl Walk<'_> {
    fn below(&mut self, node: &Node) {
        if node.symbols.len() == self.block.streams {
            self.leaves.push(Leaf { label: self.block.label(&node.symbols), metric: node.metric, cost: node.cost });
            return;
        }
        for child in self.children(node) {
            if !self.stopped && self.passes(&child) {
                self.take(&child);
            }
        }
    }

    /// The children in the order in which they are tried.
    fn children(&self, node: &Node) -> Vec<Node> {
        let stream = self.block.streams - 1 - node.symbols.len();
        let child = |symbol: usize| {
            let symbols = [&[symbol], node.symbols.as_slice()].concat();
            let (distance, cost) = increment(self.block, self.vector, stream, &symbols);
            Node { symbols, metric: node.metric + distance + cost, cost: node.cost + cost }
        };
        let mut all: Vec<_> = (0..1 << self.block.bits).map(child).collect();
        all.sort_by_key(|child| self.ties.rank(child.metric, child.cost, child.symbols[0]));
        all
    }

    /// Counts a child that passes and finishes its subtree, or stops where the allowance is walked.
    fn take(&mut self, child: &Node) {
        if self.nodes == self.allowance {
            self.stopped = true;
            return;
        }
        self.nodes += 1;
        self.below(child);
    }

    /// The leaf of the label that demand 2 picks from those walked: its metric is B, its label m.
    fn best(&self) -> Option<Leaf> {
        self.leaves.iter().copied().min_by_key(|leaf| self.ties.rank(leaf.metric, leaf.cost, leaf.label))
    }

    /// Does a child pass? Every one does before the first leaf.
    fn passes(&self, child: &Node) -> bool {
        let Some(best) = self.best() else {
            return true;
        };
        let first_chosen = (self.block.streams - child.symbols.len()) * self.block.bits;
        let differing = self.block.label(&child.symbols) ^ best.label;
        let counts = |bit: usize| bit < first_chosen || differing & self.block.mask(bit) != 0;
        let mut bits = 0..self.block.label_bits();
        child.metric <= best.metric || bits.any(|bit| counts(bit) && self.is_below_limit(child.metric, best, bit))
    }

    /// Is a metric below a bit's limit: below U, and below B + C with the prior added or taken off?
    fn is_below_limit(&self, metric: i64, best: Leaf, bit: usize) -> bool {
        let mask = self.block.mask(bit);
        let is_one = best.label & mask != 0;
        let prior = self.vector.priors[bit];
        let clipped = best.metric + self.block.clip + if is_one { -prior } else { prior };
        metric < clipped && least(&self.leaves, mask, !is_one).is_none_or(|opposite| metric < opposite)
    }
}
