//! Cases of W, by document 02's Point 4: both ends of its range for several C, row 16 among the checks around it, and D behind it.

use super::numbers::malformed_forms;
use super::order::order_of_checks;
use super::parts::{sized, small};
use super::{accepted, refused, Case, Intent, GREATEST};
use crate::format::encoding::Opening;
use crate::format::record::Refusal;
use crate::inputs::readings::{weakened, WEAK_RECORD};

/// The places of C, W and D.
const CLIP: usize = 3;
const WEAK: usize = 4;
const SHARE: usize = 5;

/// The readings with W; one of them cut at every length, and with a byte too many.
pub fn weak_readings() -> Vec<Case> {
    let readings = weakened().into_iter().map(|reading| {
        let contents = reading.contents;
        accepted(format!("with W: {:?}", contents.numbers), contents.record())
    });
    let cut = |length: usize| {
        let refusal = if length < Opening::LENGTH { 1 } else { 2 };
        refused(format!("with W, cut to {length} bytes"), WEAK_RECORD[..length].to_vec(), refusal)
    };
    let longer =
        [0x00, 0x80].map(|byte| refused(format!("with W, and a byte {byte:02X}"), [&WEAK_RECORD[..], &[byte]].concat(), 13));
    readings.chain((0..WEAK_RECORD.len()).map(cut)).chain(longer).collect()
}

/// Row 16: W at both ends of its range and beyond the upper, and numbers that are C in their last 7, 8 or 16 bits.
pub fn weak_values() -> Vec<Case> {
    let record = sized(Opening::Two, 1, 1, 1);
    let with = |clip: i64, weak: i64| {
        let intent = if weak <= clip { Intent::Accepted } else { Intent::Refused(16) };
        let bytes = record.with_number(CLIP, clip).with_number(WEAK, weak).bytes();
        Case { about: format!("C = {clip}, W = {weak}"), bytes, intent }
    };
    let around = |clip: i64| [0, clip / 2, clip, clip + 1, clip + 128, clip + 256, clip + 65_536, 16_777_216, GREATEST];
    let clips = [0, 1, 5, 127, 128, 65_535, 16_777_214, 16_777_215];
    clips.into_iter().flat_map(|clip| around(clip).map(|weak| with(clip, weak))).collect()
}

/// Row 7 says nothing of W, row 16 nothing of D, and a number is read before it is ranged.
pub fn order_around_weak_values() -> Vec<Case> {
    let sizes: [(&[u8], Refusal); 22] = [
        (&[0x80, 0x80, 0x80, 0x08], 7),
        (&[0x80, 0x80, 0x80, 0x08, 0x00, 0x01], 7),
        (&[0x80, 0x80, 0x80, 0x08, 0x81, 0x80, 0x80, 0x08], 7),
        (&[0x80, 0x80, 0x80, 0x08, 0x80, 0x00], 7),
        (&[0x80, 0x80, 0x80, 0x08, 0x80], 7),
        (&[0xFF, 0xFF, 0xFF, 0x7F, 0xFF, 0xFF, 0xFF, 0x7F], 7),
        (&[0x05], 2),
        (&[0x05, 0x86], 2),
        (&[0x05, 0x85, 0x00], 3),
        (&[0x05, 0x86, 0x00], 3),
        (&[0x05, 0x86, 0x80, 0x80, 0x80], 3),
        (&[0x05, 0x06], 16),
        (&[0x05, 0x06, 0x00], 16),
        (&[0x05, 0x06, 0x80], 16),
        (&[0x05, 0x06, 0x81, 0x00], 16),
        (&[0x05, 0x06, 0x01, 0x00], 16),
        (&[0x00, 0x01, 0x01], 16),
        (&[0x00, 0x00, 0x00], 8),
        (&[0x05, 0x05, 0x00], 8),
        (&[0x05, 0x05], 2),
        (&[0x05, 0x05, 0x81], 2),
        (&[0x05, 0x05, 0x81, 0x00], 3),
    ];
    let opened = |(bytes, refusal): (&[u8], Refusal)| {
        let record = [&Opening::Two.bytes(), [0x01, 0x01, 0x01].as_slice(), bytes].concat();
        refused(format!("from C on {bytes:02X?}"), record, refusal)
    };
    let record = small(Opening::Two);
    let forms = [WEAK, SHARE].into_iter().flat_map(|at| malformed_forms(&record, at));
    sizes.into_iter().map(opened).chain(order_of_checks(&record, SHARE + 1)).chain(forms).collect()
}

/// Row 8 behind W: D at both ends and beyond them, for each M.
pub fn shares_behind_weak_values() -> Vec<Case> {
    let with = |streams: i64, share: i64| {
        let intent = if (streams..=17_043_520).contains(&share) { Intent::Accepted } else { Intent::Refused(8) };
        let bytes = sized(Opening::Two, streams, 1, 1).with_number(SHARE, share).bytes();
        Case { about: format!("with W, M = {streams}, D = {share}"), bytes, intent }
    };
    let around = |streams: i64| [streams - 1, streams, 17_043_520, 17_043_521];
    (1..=4).flat_map(|streams| around(streams).map(|share| with(streams, share))).collect()
}
