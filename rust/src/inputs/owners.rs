//! Records with owners, by document 02's Point 7: by chance, under shares that some owners use up; and what holds of an owner's answers,
//! whatever the others do.

use super::chance::Chance;
use super::channel::{any_block, owners_by_chance, Plan, Sizes};
use super::trials::{shape, share, Trial};
use crate::detectors::{answers, reply, Detector};
use crate::format::block::{Block, SHAPES};
use crate::format::reply::Answer;

/// How many records of each M and Q there are by chance, on channels, and in pairs.
const ANY: usize = 300;
const CHANNELS: usize = 100;
const PAIRS: usize = 120;

/// Blocks of any numbers, one to eight vectors.
pub fn records() -> impl Iterator<Item = Trial> {
    let mut chance = Chance(31);
    (0..ANY * SHAPES.len()).map(move |turn| Trial::of_block(&any(&mut chance, turn)))
}

fn any(chance: &mut Chance, turn: usize) -> Block {
    let (streams, bits) = shape(turn);
    let sizes = chance.one_of(&[Sizes::TIES, Sizes::PRIORS, Sizes::FULL]);
    let vectors = chance.between(1, 8) as usize;
    let share = share(chance, streams, if bits == 8 { 6 } else { 16 });
    let block = any_block(chance, streams, bits, vectors, share, sizes);
    owned(block, chance)
}

/// Receptions of up to twelve vectors.
pub fn channels() -> impl Iterator<Item = Trial> {
    let mut chance = Chance(32);
    (0..CHANNELS * SHAPES.len()).map(move |turn| {
        let (streams, bits) = shape(turn);
        let clip = chance.one_of(&[1.0, 8.0]);
        let share = share(&mut chance, streams, if bits == 8 { 20 } else { 40 });
        let prior = chance.one_of(&[0.0, 2.0]);
        let noise = chance.one_of(&[0.3, 0.9, 2.0]);
        let vectors = 1 + turn % 12;
        let block = Plan { streams, bits, vectors, clip, share, noise, prior }.block(&mut chance);
        Trial::of_block(&owned(block, &mut chance))
    })
}

/// The same vectors with W and owners by chance: any of four or of two, in turn, or one after another.
fn owned(block: Block, chance: &mut Chance) -> Block {
    let weak = chance.within((0, block.clip));
    let count = block.vectors.len();
    let first = chance.between(1, 4) as usize;
    let second = chance.between(1, 4) as usize;
    let mut owners = owners_by_chance(chance, count);
    match chance.draw() % 4 {
        0 => (),
        1 => owners.fill_with(|| chance.one_of(&[first, second])),
        2 => owners.iter_mut().enumerate().for_each(|(at, owner)| *owner = (first + at) % 4 + 1),
        _ => owners.sort(),
    }
    block.with_weak(weak).with_owners(owners)
}

// What holds of an owner's answers.

/// Two records with equal headers that have one owner's vectors at equal positions with equal contents. The other vectors have other
/// contents, and owners that are chosen anew.
pub struct Pair {
    pub owner: usize,
    pub one: Block,
    pub other: Block,
}

pub fn pairs() -> impl Iterator<Item = Pair> {
    let mut chance = Chance(33);
    (0..PAIRS * SHAPES.len()).map(move |turn| {
        let one = any(&mut chance, turn);
        let owner = chance.one_of(&one.owners);
        let mut other = one.clone();
        let sizes = chance.one_of(&[Sizes::TIES, Sizes::PRIORS, Sizes::FULL]);
        let anew = any_block(&mut chance, one.streams, one.bits, one.vectors.len(), one.share, sizes);
        for (at, vector) in anew.vectors.into_iter().enumerate().filter(|&(at, _)| one.owners[at] != owner) {
            other.vectors[at] = vector;
            other.owners[at] = (owner + chance.between(0, 2) as usize) % 4 + 1;
        }
        Pair { owner, one, other }
    })
}

/// How many pairs there are, how many vectors their owners have, how many of these are stopped, and how many answers differ elsewhere.
#[derive(Clone, Copy, Debug, Default, PartialEq, Eq)]
pub struct Agreed {
    pub pairs: usize,
    pub own: usize,
    pub stopped: usize,
    pub differing: usize,
}

/// What `agreed` counts, as the plain detector answers.
pub const AGREED: Agreed = Agreed { pairs: 2_280, own: 4_717, stopped: 3_123, differing: 5_413 };

/// Asks a detector for equal answers and counts to the owner's vectors of every pair, place by place.
pub fn agreed(detect: Detector) -> Agreed {
    let mut agreed = Agreed::default();
    for Pair { owner, one, other } in pairs() {
        let (ones, others) = (answers(detect, &one), answers(detect, &other));
        agreed.pairs += 1;
        for at in 0..ones.len() {
            if one.owners[at] == owner {
                assert_eq!(ones[at], others[at], "owner {owner}, vector {}\n{one:?}\n{other:?}", at + 1);
                agreed.own += 1;
                agreed.stopped += usize::from(ones[at].stopped);
            } else {
                agreed.differing += usize::from(ones[at] != others[at]);
            }
        }
    }
    agreed
}

/// The block that holds an owner's vectors alone, in record order, with n for N: without owners, or with that one.
fn alone(block: &Block, owner: usize) -> [Block; 2] {
    let vectors: Vec<_> = block.places_of(owner).into_iter().map(|at| block.vectors[at].clone()).collect();
    let owners = vec![owner; vectors.len()];
    let without = Block { vectors, ..block.clone() }.with_weak(block.weak);
    [without.clone(), without.with_owners(owners)]
}

/// Asks a detector, on every record of `records` and `channels`, to answer an owner's vectors as the record that holds them alone. How
/// many such records there are.
pub fn answered_as_alone(detect: Detector) -> usize {
    let mut count = 0;
    for trial in records().chain(channels()) {
        let block = Block::read(&trial.record).expect("an accepted record");
        let all = answers(detect, &block);
        for owner in (1..=4).filter(|owner| block.owners.contains(owner)) {
            let own: Vec<Answer> = block.places_of(owner).into_iter().map(|at| all[at].clone()).collect();
            for alone in alone(&block, owner) {
                assert_eq!(answers(detect, &alone), own, "owner {owner}: {block:?}");
            }
            count += 1;
        }
    }
    count
}

/// Asks a detector for the reply of a record without owners, byte by byte, where each owner in turn has all vectors. How many records
/// there are.
pub fn answered_as_without(detect: Detector, blocks: impl Iterator<Item = Block>) -> usize {
    let mut count = 0;
    for block in blocks {
        let without = reply(detect, &block);
        let owners = vec![count % 4 + 1; block.vectors.len()];
        let block = block.with_owners(owners);
        assert_eq!(reply(detect, &block), without, "{block:?}");
        count += 1;
    }
    count
}
