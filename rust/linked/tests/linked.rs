//! The exported detector of the proved library against the fast and the plain Rust one: returned number and every byte of the buffer.

use reference::comparison::{compare, outcome, same};
use reference::detectors::{fast, plain, Detector};
use reference::format::block::Block;
use reference::format::encoding::Opening;
use reference::inputs::trials::{self, Trial};
use reference::inputs::{owners, ties};
use std::iter::once;

/// Bytes to spare make no difference to the plain detector, which is slow.
#[test]
fn every_record() {
    compare(trials::groups(), |trial| {
        if trial.suits_plain {
            same(linked::detect, plain::detect, &trial.record, [trial.room, trial.room - 1]);
        }
        same(linked::detect, fast::detect, &trial.record, trial.lengths()).0 > 0
    });
}

/// The accepted records of this opening, as blocks.
fn blocks(opening: Opening) -> impl Iterator<Item = Block> {
    trials::all().filter_map(|trial| Block::read(&trial.record).ok()).filter(move |block| block.opening == opening)
}

/// An older record has W = C: with that as its W it has the same reply.
#[test]
fn older_records_with_w_equal_to_c() {
    let mut accepted = 0;
    for block in blocks(Opening::One) {
        let (room, record, clip) = (block.room(), block.record(), block.clip);
        let weak = block.with_weak(clip).record();
        assert_eq!(outcome(linked::detect, &weak[..], room), outcome(linked::detect, &record[..], room), "{weak:02X?}");
        accepted += 1;
    }
    assert_eq!(accepted, 41_858);
}

/// One owner for all: the reply is that of the record without owners, byte by byte.
#[test]
fn one_owner_for_all() {
    assert_eq!(owners::answered_as_without(linked::detect, blocks(Opening::Two)), 20_582);
}

/// Two records that agree for one owner: its answers and counts agree, place by place, however the others differ.
#[test]
fn the_others_do_not_matter() {
    assert_eq!(owners::agreed(linked::detect), owners::AGREED);
}

/// An owner's answers, in record order, are those of the record that holds its vectors alone, as many as owners have vectors.
#[test]
fn an_owner_has_a_list_of_its_own() {
    let has = |trial: Trial| {
        Block::read(&trial.record).map_or(0, |block| (1..=4).filter(|&owner| !block.places_of(owner).is_empty()).count())
    };
    let count = owners::records().chain(owners::channels()).map(has).sum::<usize>();
    assert_eq!(owners::answered_as_alone(linked::detect), count);
}

/// Equal metrics go to the priors: of the records of ties, which `every_record` has too, as many are answered otherwise than by the
/// smallest number alone as by the plain detector, and as many with other counts of nodes.
#[test]
fn ties_that_priors_decide() {
    assert_eq!(ties::changed(linked::detect), ties::CHANGED);
}

/// How many records get an answer.
fn count(trials: impl Iterator<Item = Trial>, is_it: fn(i64) -> bool) -> usize {
    trials.filter(|trial| is_it(linked::detect(&trial.record, &mut [0; 64]))).count()
}

/// Four streams of eight bits are refused by 15, ten times under each opening.
#[test]
fn four_streams_of_eight_bits() {
    assert_eq!(count(trials::widths(), |returned| returned == -15), 30);
}

/// For the four C in their range, under each of two openings: W up to C is accepted, 1 + 2 + 3 + 5 times with each of three D, and W above
/// C is refused by 16, 6 + 5 + 4 + 2 times with each of six.
#[test]
fn weak_values_above_the_clip() {
    assert_eq!(count(trials::headers(), |returned| returned > 0), 2 * 33);
    assert_eq!(count(trials::headers(), |returned| returned == -16), 2 * 102);
}

/// Two owners in their range are accepted, 4 x 4 times. A first owner that is one of eight beyond it is refused by 17, whatever follows,
/// 16 second owners in four records each; a second one behind a right vector, 4 x 8 times in two; and where the first is left out, a
/// diagonal entry of 0 in its place, 16 times.
#[test]
fn owners_out_of_range() {
    assert_eq!(count(trials::owner_numbers(), |returned| returned > 0), 4 * 4);
    assert_eq!(count(trials::owner_numbers(), |returned| returned == -17), 8 * 16 * 4 + 4 * 8 * 2 + 16);
}

#[test]
fn buffers_of_any_length() {
    for trial in trials::every_count().take(64) {
        for other in [fast::detect, plain::detect] as [Detector; 2] {
            let lengths = once(trial.room).chain(0..4).chain(trial.room - 5..trial.room + 5);
            same(linked::detect, other, &trial.record, lengths);
        }
    }
}
