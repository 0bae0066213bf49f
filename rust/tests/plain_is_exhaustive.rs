//! The plain detector against all labels: demand 2 for complete vectors, whatever W and the owners are, demand 3's counts owner by owner,
//! and the two parts of every walked label's metric, its distance and its prior cost.

use reference::detectors::exhaustive;
use reference::detectors::plain::{self, Found, Leaf};
use reference::format::block::{Block, Vector};
use reference::format::encoding::Opening;
use reference::inputs::chance::Chance;
use reference::inputs::channel::{any_block, opened, Plan, Sizes};
use reference::inputs::trials::{self, SMALL_TREES};
use reference::inputs::{owners, ties};

/// M and Q with twelve and with sixteen label bits.
const TWELVE_BITS: [(usize, usize); 2] = [(3, 4), (2, 6)];
const SIXTEEN_BITS: [(usize, usize); 2] = [(2, 8), (4, 4)];

/// Checks that a walked label's metric is the sum of its parts, and that both are the same in both ways.
fn check_parts(block: &Block, vector: &Vector, leaf: &Leaf) {
    let (distance, cost) = (exhaustive::distance(block, vector, leaf.label), exhaustive::prior_cost(block, vector, leaf.label));
    assert_eq!((leaf.metric, leaf.cost), (distance + cost, cost), "{block:?}, {leaf:?}");
    assert_eq!(plain::distance(block, vector, leaf.label), distance, "{block:?}, {leaf:?}");
}

/// Compares the complete vectors, and gives how many there are; checks every count and mark. What an owner has beyond M for each of its
/// vectors falls by what each of them takes beyond M.
fn complete(block: &Block) -> usize {
    let streams = block.streams as i64;
    let mut beyond = [0; 5];
    block.owners.iter().for_each(|&owner| beyond[owner] += block.share - streams);
    let mut complete = 0;
    for ((vector, &owner), Found { answer, leaves }) in block.vectors.iter().zip(&block.owners).zip(plain::search(block)) {
        leaves.iter().for_each(|leaf| check_parts(block, vector, leaf));
        let allowance = beyond[owner] + streams;
        assert!(streams <= answer.nodes && answer.nodes <= allowance);
        if answer.stopped {
            assert_eq!(answer.nodes, allowance);
        } else {
            assert_eq!((answer.label, answer.values), exhaustive::answer(block, vector), "{block:?}");
            complete += 1;
        }
        beyond[owner] -= answer.nodes - streams;
    }
    complete
}

/// The same of blocks with any numbers.
fn complete_of_any(seed: u64, turns: usize, shapes: &[(usize, usize)], share: i64) -> usize {
    let mut chance = Chance(seed);
    let block = |turn: usize| {
        let (streams, bits) = shapes[turn % shapes.len()];
        let sizes = chance.one_of(&[Sizes::TIES, Sizes::PRIORS, Sizes::FULL]);
        let vectors = chance.between(1, 3) as usize;
        let block = any_block(&mut chance, streams, bits, vectors, share, sizes);
        opened(block, Opening::ALL[turn % Opening::ALL.len()], &mut chance)
    };
    (0..turns).map(block).map(|block| complete(&block)).sum()
}

/// The same of receptions, of one vector each.
fn complete_of_channels(seed: u64, turns: usize, shape: impl Fn(usize) -> (usize, usize)) -> usize {
    let mut chance = Chance(seed);
    let block = |turn: usize| {
        let (streams, bits) = shape(turn);
        let clip = chance.one_of(&[0.0, 1.0, 8.0]);
        let noise = chance.one_of(&[0.3, 0.9, 2.0]);
        let prior = chance.one_of(&[0.0, 2.0]);
        Plan { streams, bits, vectors: 1, clip, share: 2_000, noise, prior }.block(&mut chance)
    };
    (0..turns).map(block).map(|block| complete(&block)).sum()
}

#[test]
fn small_blocks() {
    assert!(complete_of_any(11, 6_000, &SMALL_TREES, 17_043_520) > 6_000);
}

#[test]
fn small_blocks_of_which_some_vectors_stop() {
    assert!(complete_of_any(12, 4_000, &SMALL_TREES, 7) > 1_000);
}

#[test]
fn twelve_label_bits() {
    assert!(complete_of_any(13, 60, &TWELVE_BITS, 400) > 20);
}

#[test]
fn sixteen_label_bits() {
    assert!(complete_of_any(15, 40, &SIXTEEN_BITS, 400) > 10);
}

#[test]
fn ties_that_priors_decide() {
    let blocks = ties::records().map(|trial| Block::read(&trial.record).expect("accepted"));
    let small = blocks.filter(|block| block.label_bits() <= 12);
    assert!(small.map(|block| complete(&block)).sum::<usize>() > 2_000);
}

#[test]
fn several_owners() {
    let blocks = owners::records().chain(owners::channels()).map(|trial| Block::read(&trial.record).expect("accepted"));
    let small = blocks.filter(|block| block.label_bits() <= 8);
    assert!(small.map(|block| complete(&block)).sum::<usize>() > 5_000);
}

#[test]
fn channels() {
    let shape =
        |turn: usize| if turn.is_multiple_of(5) { TWELVE_BITS[turn / 5 % 2] } else { SMALL_TREES[turn % SMALL_TREES.len()] };
    assert!(complete_of_channels(14, 300, shape) > 250);
}

#[test]
fn channels_of_256_points() {
    assert!(complete_of_channels(16, 60, |turn| (1 + turn % 2, 8)) > 50);
}

/// With every number at an end of its range: no label's metric is above the sum of the axes' largest squares and all priors, which is
/// below 2 to the 39.
#[test]
fn metrics_have_a_bound() {
    let mut chance = Chance(17);
    let ends = trials::ends().map(|trial| Block::read(&trial.record).expect("accepted"));
    for block in ends.filter(|block| block.label_bits() == 24) {
        let bound = if block.bits == 6 { 292_155_269_592 } else { 313_981_861_776 };
        assert!(bound < 1 << 39);
        for label in (0..1_000).map(|_| chance.between(0, (1 << 24) - 1) as usize) {
            assert!(exhaustive::metric(&block, &block.vectors[0], label) <= bound, "{block:?}, label {label}");
        }
    }
}
