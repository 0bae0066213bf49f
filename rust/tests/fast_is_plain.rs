//! The fast detector against the plain one: returned number and every byte of the buffer.

use reference::comparison::{compare, outcome, same};
use reference::detectors::{fast, plain};
use reference::inputs::trials;
use std::iter::once;

/// On records that take the plain detector too long, the fast one runs alone: it accepts what it should.
#[test]
fn every_record() {
    compare(trials::groups(), |trial| {
        let (returned, _) = if trial.suits_plain {
            same(fast::detect, plain::detect, &trial.record, trial.lengths())
        } else {
            outcome(fast::detect, &trial.record, trial.room)
        };
        returned > 0
    });
}

#[test]
fn short_buffers() {
    for trial in trials::every_count().take(64) {
        let lengths = once(trial.room).chain(0..4).chain(trial.room - 5..trial.room + 5);
        same(fast::detect, plain::detect, &trial.record, lengths);
    }
}
