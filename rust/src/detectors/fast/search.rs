//! One vector's walk.

use super::axis::{amplitudes, largest, least_part, metric, nearest, parts, table, Packed};
use super::children::{Child, Children};
use super::limits::{Limits, NEVER};
use super::Reply;
use std::array::from_fn;

/// A complex number: real and imaginary part.
type Pair = (i64, i64);

/// A vector and its walk.
pub struct Search<const A: usize, const B: usize> {
    limits: Limits<A, B>,
    /// W.
    weak: i64,
    diagonal: [i64; 4],
    /// right[i][j]: R's entry right of the diagonal.
    right: [[Pair; 4]; 4],
    /// (R a)^2 and prior cost, for each axis label of each stream.
    re_table: [[Packed; A]; 4],
    im_table: [[Packed; B]; 4],
    /// Of stream 0's tables the sums alone.
    re_leaf: [i64; A],
    im_leaf: [i64; B],
    /// The same less stream 0's `against`: a leaf's metric less its limit follows from them.
    re_less: [i64; A],
    im_less: [i64; B],
    /// Whether any prior of stream 0's bits is not 0.
    has_leaf_priors: bool,
    /// The largest of stream 0's `against`, by axis.
    largest_against: Pair,
    /// rest[s][i]: y_i less R_ij s_j over the streams j above s.
    rest: [[Pair; 4]; 4],
    /// Nodes that may still be walked.
    left: u32,
    stopped: bool,
}

/// A walked node, or the root: its partial metric, its bits, and the largest limit of those opposite to m's.
#[derive(Clone, Copy)]
struct Node {
    metric: i64,
    path: u32,
    chosen: i64,
}

impl<const A: usize, const B: usize> Search<A, B> {
    pub fn new(streams: usize, clip: i64, weak: i64) -> Self {
        Search {
            limits: Limits::new(streams, clip),
            weak,
            diagonal: [1; 4],
            right: [[(0, 0); 4]; 4],
            re_table: [[0; A]; 4],
            im_table: [[0; B]; 4],
            re_leaf: [0; A],
            im_leaf: [0; B],
            re_less: [0; A],
            im_less: [0; B],
            has_leaf_priors: false,
            largest_against: (NEVER, NEVER),
            rest: [[(0, 0); 4]; 4],
            left: 0,
            stopped: false,
        }
    }

    /// Takes a vector's numbers, in record order.
    #[inline(never)]
    pub fn prepare(&mut self, numbers: &[i32]) {
        let streams = self.limits.streams;
        let (matrix, others) = numbers.split_at(streams * streams);
        let (received, priors) = others.split_at(2 * streams);
        self.take_matrix(matrix);
        for (row, pair) in received.chunks_exact(2).enumerate() {
            self.rest[streams - 1][row] = (i64::from(pair[0]), i64::from(pair[1]));
        }
        for (stream, priors) in priors.chunks_exact(Limits::<A, B>::BITS).enumerate().take(4) {
            self.take_priors(stream, priors);
        }
    }

    fn take_matrix(&mut self, matrix: &[i32]) {
        let mut rows = matrix;
        for row in 0..self.limits.streams {
            let (own, below) = rows.split_at(1 + 2 * (self.limits.streams - 1 - row));
            self.diagonal[row] = i64::from(own[0]);
            for (pair, column) in own[1..].chunks_exact(2).zip(row + 1..4) {
                self.right[row][column] = (i64::from(pair[0]), i64::from(pair[1]));
            }
            rows = below;
        }
    }

    /// A stream's priors, its first bit's first, and the tables that they go into.
    #[inline(always)]
    fn take_priors(&mut self, stream: usize, priors: &[i32]) {
        let start = Limits::<A, B>::shift(stream);
        let own = &mut self.limits.priors[start..start + Limits::<A, B>::BITS];
        for (place, &prior) in own.iter_mut().zip(priors.iter().rev()) {
            *place = i64::from(prior);
        }
        let (second_half, first_half) = own.split_at(B.trailing_zeros() as usize);
        self.im_table[stream] = table(self.diagonal[stream], second_half);
        self.re_table[stream] = table(self.diagonal[stream], first_half);
        if stream == 0 {
            self.has_leaf_priors = own.iter().any(|&prior| prior != 0);
            self.re_leaf = self.re_table[0].map(metric);
            self.im_leaf = self.im_table[0].map(metric);
        }
    }

    /// Walks the vector; the number of nodes that it leaves of the allowance.
    pub fn run(&mut self, allowance: u32) -> u32 {
        self.limits.clear();
        self.left = allowance;
        self.stopped = false;
        let root = Node { metric: 0, path: 0, chosen: NEVER };
        match self.limits.streams {
            1 => self.walk_below::<0>(root),
            2 => self.walk_below::<1>(root),
            3 => self.walk_below::<2>(root),
            _ => self.walk_below::<3>(root),
        }
        self.left
    }

    /// Writes the vector's part of the reply. A limit is already clipped on one side, and an empty side, infinite, too: that is what a
    /// complete vector asks for, while a stopped one has W there.
    #[inline(never)]
    pub fn write(&self, reply: &mut Reply, nodes: u32) {
        let limits = &self.limits;
        let unused = Limits::<A, B>::BITS * (4 - limits.streams);
        reply.put(u32::from(self.stopped));
        reply.put(nodes);
        reply.put(limits.label >> unused);
        let empty = if self.stopped { !limits.both } else { 0 };
        for place in (unused..4 * Limits::<A, B>::BITS).rev() {
            let sign = if limits.label >> place & 1 == 1 { -1 } else { 1 };
            let gap = limits.limit[place] - limits.best;
            let value = (sign * gap - limits.priors[place]).clamp(-limits.clip, limits.clip);
            let is_empty = empty >> place & 1 == 1;
            reply.put_folded(if is_empty { sign * self.weak } else { value } as i32);
        }
    }

    /// Tries the children of stream S below a node, in order, until none left can pass.
    #[inline(never)]
    fn walk_below<const S: usize>(&mut self, node: Node) {
        let mut node = node;
        self.refresh::<S>();
        let mut ends = self.limits.ends::<S>(node.chosen);
        let mut children = self.children::<S>(node.metric);
        loop {
            let child = children.next();
            if child.metric >= ends.cap {
                return;
            }
            let own = self.limits.against::<S>(child.row, child.column);
            if child.metric < ends.base || child.metric < own {
                let leaves = self.limits.leaves;
                if !self.take::<S>(node, child, own) {
                    return;
                }
                if self.limits.leaves != leaves {
                    node.chosen = self.chosen_limit::<S>(node.path);
                    ends = self.limits.ends::<S>(node.chosen);
                    if child.metric >= ends.cap {
                        return;
                    }
                    self.refresh::<S>();
                }
            }
            children.advance(child.row);
        }
    }

    /// The children of stream S below a node of this metric.
    #[inline(always)]
    fn children<const S: usize>(&self, metric: i64) -> Children<A, B> {
        let e = self.rest[S][S];
        let twice = 2 * self.diagonal[S];
        let re = parts(&self.re_table[S], twice * e.0, e.0 * e.0 + metric);
        let im = parts(&self.im_table[S], twice * e.1, e.1 * e.1);
        Children::new(re, im)
    }

    /// Walks a child that passes, `own` being the largest limit of its own bits opposite to m's: counts it and finishes its subtree.
    /// False where the walk is stopped.
    #[inline(always)]
    fn take<const S: usize>(&mut self, parent: Node, child: Child, own: i64) -> bool {
        if self.left == 0 {
            self.stopped = true;
            return false;
        }
        self.left -= 1;
        let path = parent.path | ((child.row * B + child.column) as u32) << Limits::<A, B>::shift(S);
        let node = Node { metric: child.metric, path, chosen: own.max(parent.chosen) };
        let symbol = (const { amplitudes::<A>() }[child.row], const { amplitudes::<B>() }[child.column]);
        match S {
            0 => self.limits.add_leaf(node.metric, node.path),
            1 => self.descend::<1, 0>(node, symbol),
            2 => self.descend::<2, 1>(node, symbol),
            _ => self.descend::<3, 2>(node, symbol),
        }
        !self.stopped
    }

    /// Goes from a walked node of stream S, which has this symbol, to its children of stream T, one below, if one can pass. None can
    /// where the distances to the nearest amplitudes reach the cap: a part is no smaller, as no prior cost is below 0.
    #[inline(always)]
    fn descend<const S: usize, const T: usize>(&mut self, node: Node, symbol: Pair) {
        let e = less(self.rest[S][T], self.right[T][S], symbol);
        let nearest_re = nearest::<A>(e.0, self.diagonal[T]);
        let nearest_im = nearest::<B>(e.1, self.diagonal[T]);
        let floor = (nearest_re * nearest_re, nearest_im * nearest_im);
        if node.metric + floor.0 + floor.1 >= self.limits.ends::<T>(node.chosen).cap {
            return;
        }
        if T == 0 && !self.some_leaf_passes(node, e, floor) {
            return;
        }
        self.rest[T][T] = e;
        for row in 0..T {
            self.rest[T][row] = less(self.rest[S][row], self.right[row][S], symbol);
        }
        self.walk_below::<T>(node);
    }

    /// Does any leaf below this parent of leaves pass as things stand? If none does, none is walked.
    ///
    /// The leaf of axis labels a and b passes if its metric, re(a) + im(b) and the parent's, is below the base, or below what a is
    /// against, or below what b is. So one passes exactly if the leaf of the least re and the least im is below the base, or the
    /// least im with the least of re(a) less what a is against is below 0, or the other way round. The floors, which are no more
    /// than the least parts, and equal to them where there are no priors, show mostly that none does.
    #[inline(always)]
    fn some_leaf_passes(&mut self, node: Node, e: Pair, floor: Pair) -> bool {
        self.refresh::<0>();
        let base = self.limits.ends::<0>(node.chosen).base;
        if !self.some_leaf_is_below(node.metric, e, floor, base) {
            return false;
        }
        if !self.has_leaf_priors {
            return true;
        }
        let twice = 2 * self.diagonal[0];
        let re = least_part(&self.re_leaf, twice * e.0) + e.0 * e.0;
        let im = least_part(&self.im_leaf, twice * e.1) + e.1 * e.1;
        self.some_leaf_is_below(node.metric, e, (re, im), base)
    }

    /// The question of `some_leaf_passes`, with these for the least parts.
    #[inline(always)]
    fn some_leaf_is_below(&self, metric: i64, e: Pair, least: Pair, base: i64) -> bool {
        let twice = 2 * self.diagonal[0];
        let sum = metric + least.0 + least.1;
        sum < base
            || sum < self.largest_against.0 && metric + least.1 + e.0 * e.0 + least_part(&self.re_less, twice * e.0) < 0
            || sum < self.largest_against.1 && metric + least.0 + e.1 * e.1 + least_part(&self.im_less, twice * e.1) < 0
    }

    /// After a leaf: the largest limit of the path's bits opposite to m's. Below a parent of leaves there is none to ask for: the
    /// leaf just walked has left none of them above its metric, and the siblings to come are no smaller.
    #[inline(always)]
    fn chosen_limit<const S: usize>(&self, path: u32) -> i64 {
        if S == 0 {
            return NEVER;
        }
        let above = (1_u32 << Limits::<A, B>::shift(S)) - 1;
        self.limits.largest((path ^ self.limits.label) & above)
    }

    /// Makes stream S's tables again if a leaf has been walked since.
    #[inline(always)]
    fn refresh<const S: usize>(&mut self) {
        if self.limits.refresh::<S>() && S == 0 {
            self.make_less();
        }
    }

    fn make_less(&mut self) {
        let (against_re, against_im) = (&self.limits.against_re[0], &self.limits.against_im[0]);
        self.re_less = from_fn(|label| self.re_leaf[label] - against_re[label]);
        self.im_less = from_fn(|label| self.im_leaf[label] - against_im[label]);
        self.largest_against = (largest(against_re), largest(against_im));
    }
}

/// What is left of a row after a stream's symbol.
#[inline(always)]
fn less(rest: Pair, entry: Pair, symbol: Pair) -> Pair {
    (rest.0 - (entry.0 * symbol.0 - entry.1 * symbol.1), rest.1 - (entry.0 * symbol.1 + entry.1 * symbol.0))
}
