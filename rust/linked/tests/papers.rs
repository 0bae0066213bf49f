//! What IEEE 802.11's tables, document 01's readings and first trap, and readings of document 02's W, ties and owners ask for, asked of
//! the proved library itself: expected answers are worked out from the tables and by hand, not by a Rust detector.

use reference::comparison::expect;
use reference::format::block::Block;
use reference::format::reply;
use reference::inputs::eq_31;
use reference::inputs::ieee80211::receptions;
use reference::inputs::readings::{
    beside_another, shared, starred, tied, weakened, OWNED_RECORD, OWNED_REPLY, WEAK_RECORD, WEAK_REPLY,
};

/// Each symbol of each table in each stream, 10 x (2 + 4 + 16 + 64) + 6 x 256 receptions: with C = 4 every value is 4 or -4 by
/// the sent bit (tests/mapping.rs holds the expected ones to that), and a node a stream is walked.
#[test]
fn a_sent_point_is_found_in_every_stream() {
    let receptions = receptions(4);
    assert_eq!(receptions.len(), 2_396);
    for reception in receptions {
        assert_eq!(reception.check(linked::detect), reception.block.streams as i64, "{}", reception.sent);
    }
}

/// The same with W = 0: one side of every bit is cut, and none is empty.
#[test]
fn a_sent_point_has_nothing_of_w() {
    for reception in receptions(4).into_iter().map(|reception| reception.with_weak(0)) {
        assert_eq!(reception.check(linked::detect), reception.block.streams as i64, "{}", reception.sent);
    }
}

/// The soft values are those that the tables' points have; with one stream also under the largest C, which clips none.
#[test]
fn soft_values_are_those_of_the_tables() {
    let alone = receptions(16_777_215).into_iter().filter(|reception| reception.block.streams == 1);
    for reception in receptions(100).into_iter().chain(alone) {
        reception.check(linked::detect);
    }
}

/// The starred readings, those with W, those of ties, and those with owners.
#[test]
fn the_readings() {
    for reading in starred().into_iter().chain(weakened()).chain(tied()).chain(shared()).chain(beside_another()) {
        let block = Block::of(&reading.contents);
        expect(linked::detect, &block.record(), block.room(), Ok(&reply::encode(&block, &reading.answers)));
    }
    expect(linked::detect, &WEAK_RECORD, 24, Ok(&WEAK_REPLY));
    expect(linked::detect, &WEAK_RECORD, 23, Err(14));
    expect(linked::detect, &OWNED_RECORD, 20, Ok(&OWNED_REPLY));
    expect(linked::detect, &OWNED_RECORD, 19, Err(14));
}

/// Leaves 10, 12, 8, 6: the bit's value is -3; a clip from below at each new best leaf gives -1 (tests/wrong_detectors.rs). A stopped
/// vector has W where a bit has the same value in all of its leaves.
#[test]
fn a_clip_at_each_new_best_leaf_would_be_wrong() {
    for (block, answer) in eq_31::cases() {
        expect(linked::detect, &block.record(), block.room(), Ok(&reply::encode(&block, &[answer])));
    }
}
