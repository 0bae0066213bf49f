//! Document 02's Point 4 by records alone: the same block with W and without.

use reference::detectors::{answers, fast, plain, reply, Detector};
use reference::format::block::Block;
use reference::format::encoding::Opening;
use reference::inputs::trials::{self, Trial};

/// The accepted records of this opening, as blocks.
fn blocks(trials: impl Iterator<Item = Trial>, opening: Opening) -> impl Iterator<Item = Block> {
    trials.filter_map(move |trial| Block::read(&trial.record).ok().filter(|block| block.opening == opening))
}

/// With W = C the reply is the older record's, byte by byte.
fn with_c_nothing_changes(detect: Detector, block: Block) {
    let older = reply(detect, &block);
    let clip = block.clip;
    let block = block.with_weak(clip);
    assert_eq!(reply(detect, &block), older, "{block:?}");
}

#[test]
fn an_older_record_has_w_equal_to_c() {
    let all = blocks(trials::all(), Opening::One).map(|block| with_c_nothing_changes(fast::detect, block));
    assert_eq!(all.count(), 41_858);
    let few = trials::readings().chain(trials::damaged()).chain(trials::ends());
    blocks(few, Opening::One).for_each(|block| with_c_nothing_changes(plain::detect, block));
}

/// W leaves marks, counts and labels as they are, and all values but those of a stopped vector that were +C or -C. How many values it
/// changes.
fn changed(detect: Detector, block: Block) -> usize {
    let (clip, weak) = (block.clip, block.weak);
    let with = answers(detect, &block);
    let without = answers(detect, &block.without_weak());
    let mut changed = 0;
    for (with, without) in with.iter().zip(&without) {
        assert_eq!((with.stopped, with.nodes, with.label), (without.stopped, without.nodes, without.label));
        for (&value, &older) in with.values.iter().zip(&without.values).filter(|(value, older)| value != older) {
            assert!(with.stopped && older.abs() == clip && value == older.signum() * weak, "{value} and {older}");
            changed += 1;
        }
    }
    changed
}

#[test]
fn the_walk_uses_c_alone() {
    let all = blocks(trials::all(), Opening::Two);
    assert_eq!(all.map(|block| changed(fast::detect, block)).sum::<usize>(), 405_727);
    let weak = blocks(trials::weak_values().chain(trials::weak_channels()), Opening::Two);
    assert_eq!(weak.map(|block| changed(plain::detect, block)).sum::<usize>(), 142_441);
}
