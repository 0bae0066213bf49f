//! Cases of M, Q, N, C and D: rows 4 to 8, and document 02's 15 wherever it can be mistaken.

use super::parts::{longest, sized};
use super::{accepted, refused, Case, Intent, GREATEST, OVER_LONG};
use crate::format::encoding::Opening::{self, One};
use crate::format::record::Refusal;
use crate::inputs::numbers::row;
use crate::inputs::readings::LISTING_RECORD;

/// Row 4: M at both ends and beyond them; and numbers that are 1 in their last 8 or 16 bits.
pub fn stream_counts() -> Vec<Case> {
    let right = (1..=4).map(|streams| accepted(format!("M = {streams}"), sized(One, streams, 2, 2).bytes()));
    let small = [0, 5].map(|streams| refused(format!("M = {streams}"), sized(One, streams, 2, 2).bytes(), 4));
    let large = [127, 257, 65_537, GREATEST]
        .map(|streams| refused(format!("M = {streams}"), sized(One, 1, 2, 2).with_number(0, streams).bytes(), 4));
    right.chain(small).chain(large).collect()
}

/// What M and Q, M being in its range, make of a record in which all else is right.
pub fn intent_of(streams: i64, bits: i64) -> Intent {
    match (streams, bits) {
        (4, 8) => Intent::Refused(15),
        (_, 1 | 2 | 4 | 6 | 8) => Intent::Accepted,
        _ => Intent::Refused(5),
    }
}

/// Row 5, and 15 where there are four streams: every Q from 0 to 10, and numbers that are 1 or 8 in their last 8 or 16 bits.
pub fn bit_counts(streams: i64) -> Vec<Case> {
    let about = |bits: i64| format!("M = {streams}, Q = {bits}");
    let small = (0..=10).map(|bits| {
        let bytes = sized(One, streams, bits, 2).bytes();
        Case { about: about(bits), bytes, intent: intent_of(streams, bits) }
    });
    let large = [127, 257, 264, 65_537, 65_544, GREATEST]
        .map(|bits| refused(about(bits), sized(One, streams, 1, 2).with_number(1, bits).bytes(), 5));
    small.chain(large).collect()
}

/// Q = 8 with each M that may have it, the longest such record, and N, C and D at their ends and beyond them. 16,843,008 is the
/// number of nodes of the largest tree.
pub fn eight_bits() -> Vec<Case> {
    let each = (1..=3).map(|streams| accepted(format!("M = {streams}, Q = 8"), sized(One, streams, 8, 1).bytes()));
    let longest = [accepted("M = 3, Q = 8, N = 64".to_string(), longest(One, 3, 8).bytes())];
    let record = sized(One, 3, 8, 1);
    let with = |at: usize, number: i64| {
        let about = format!("M = 3, Q = 8: number {} is {number}", at + 1);
        (about, record.with_number(at, number).bytes())
    };
    let ends = [(3, 0), (3, 16_777_215), (4, 3), (4, 16_843_008), (4, 17_043_520)].map(|(at, number)| {
        let (about, bytes) = with(at, number);
        accepted(about, bytes)
    });
    let beyond = [(2, 0), (2, 65), (3, 16_777_216), (4, 2), (4, 17_043_521)].map(|(at, number)| {
        let (about, bytes) = with(at, number);
        refused(about, bytes, row(record.places[at]))
    });
    each.chain(longest).chain(ends).chain(beyond).collect()
}

/// 15 stands at Q, before anything is asked of N: the record is right from there on, ends there, or goes on with what would be refused
/// by 2, 3, 6, 7, 8, 12 or 13.
pub fn eight_bits_of_four_streams(opening: Opening) -> Vec<Case> {
    let record = sized(opening, 4, 8, 1);
    let after: [(&str, &[u8]); 11] = [
        ("nothing after it", &[]),
        ("N cut off", &[0x80]),
        ("N cut off after three groups", &[0xFF, 0xFF, 0xFF]),
        ("N over-long", &OVER_LONG),
        ("N of five groups", &[0x81, 0x80, 0x80, 0x80, 0x00]),
        ("N = 0", &[0x00]),
        ("N = 65", &[0x41]),
        ("N = 64, nothing after it", &[0x40]),
        ("C above its range", &[0x01, 0x80, 0x80, 0x80, 0x08]),
        ("D = 0", &[0x01, 0x00, 0x00]),
        ("bytes that are no record", &[0xFF; 9]),
    ];
    let about = |what: &str| format!("M = 4, Q = 8, {what}");
    let goes_on = |(what, bytes): (&str, &[u8])| refused(about(what), record.first_and(2, bytes), 15);
    let whole = [
        refused(about("all else right"), record.bytes(), 15),
        refused(about("the last prior out of range"), record.with_beyond(record.count() - 1).bytes(), 15),
        refused(about("a byte too many"), record.bytes_and(&[0x00]), 15),
    ];
    after.into_iter().map(goes_on).chain(whole).collect()
}

/// What comes before 15, or is near it: the opening, M and Q as numbers, 4, 5, and Q = 8 with fewer streams.
pub fn not_eight_bits_of_four_streams() -> Vec<Case> {
    let sizes: [(&[u8], Refusal); 14] = [
        (&[0x05, 0x08], 4),
        (&[0x00, 0x08], 4),
        (&[0x84, 0x01, 0x08], 4),
        (&[0x84, 0x00, 0x08], 3),
        (&[0x04], 2),
        (&[0x04, 0x88], 2),
        (&[0x04, 0x88, 0x00], 3),
        (&[0x04, 0x88, 0x80, 0x80, 0x80, 0x00], 3),
        (&[0x04, 0x88, 0x01], 5),
        (&[0x04, 0x09], 5),
        (&[0x04, 0x07, 0x80, 0x00], 5),
        (&[0x03, 0x08], 2),
        (&[0x03, 0x08, 0x00], 6),
        (&[0x03, 0x08, 0x80, 0x00], 3),
    ];
    let opened =
        |(bytes, refusal): (&[u8], Refusal)| refused(format!("sizes {bytes:02X?}"), [&One.bytes(), bytes].concat(), refusal);
    let wrong_opening = refused("wrong opening, M = 4, Q = 8".to_string(), vec![0x43, 0x42, 0x52, 0x30, 0x04, 0x08], 1);
    sizes.into_iter().map(opened).chain([wrong_opening]).collect()
}

/// The listing record with M from 0 to 5 and Q from 0 to 10 in place of its own; what follows is right for few of them.
pub fn pairs_of_sizes() -> Vec<Case> {
    let with = |streams: u8, bits: u8| {
        let bytes = [&One.bytes(), [streams, bits].as_slice(), &LISTING_RECORD[6..]].concat();
        let intent = match intent_of(streams.into(), bits.into()) {
            _ if !(1..=4).contains(&streams) => Intent::Refused(4),
            Intent::Accepted => Intent::Either,
            refused => refused,
        };
        Case { about: format!("listing with M = {streams}, Q = {bits}"), bytes, intent }
    };
    (0..=5).flat_map(|streams| (0..=10).map(move |bits| with(streams, bits))).collect()
}

/// Row 6: N at both ends and beyond them.
pub fn vector_counts() -> Vec<Case> {
    let right = [1, 2, 63, 64].map(|vectors| accepted(format!("N = {vectors}"), sized(One, 1, 1, vectors).bytes()));
    let wrong = [0, 65].map(|vectors| refused(format!("N = {vectors}"), sized(One, 1, 1, vectors).bytes(), 6));
    let large = [128, 257, 65_537, GREATEST]
        .map(|vectors| refused(format!("N = {vectors}"), sized(One, 1, 1, 1).with_number(2, vectors).bytes(), 6));
    right.into_iter().chain(wrong).chain(large).collect()
}

/// Row 7: C at both ends and beyond the upper.
pub fn clips() -> Vec<Case> {
    let record = sized(One, 2, 4, 1);
    let right = [0, 1, 16_777_215].map(|clip| accepted(format!("C = {clip}"), record.with_number(3, clip).bytes()));
    let wrong = [16_777_216, GREATEST].map(|clip| refused(format!("C = {clip}"), record.with_number(3, clip).bytes(), 7));
    right.into_iter().chain(wrong).collect()
}

/// Row 8: D at both ends and beyond them, for each M.
pub fn shares() -> Vec<Case> {
    let with = |streams: i64, share: i64| {
        let intent = if (streams..=17_043_520).contains(&share) { Intent::Accepted } else { Intent::Refused(8) };
        let bytes = sized(One, streams, 1, 1).with_number(4, share).bytes();
        Case { about: format!("M = {streams}, D = {share}"), bytes, intent }
    };
    let around = |streams: i64| [0, streams - 1, streams, streams + 1, 17_043_520, 17_043_521, GREATEST];
    (1..=4).flat_map(|streams| around(streams).map(|share| with(streams, share))).collect()
}
