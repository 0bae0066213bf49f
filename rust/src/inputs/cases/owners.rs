//! Cases of owners, by document 02's Point 7: owners in and out of range before each vector, row 17 among the checks around it, and
//! records of every M and Q.

use super::numbers::malformed_forms;
use super::order::order_of_checks;
use super::parts::{sized, Parts};
use super::{accepted, refused, Case, Intent, GREATEST};
use crate::format::block::SHAPES;
use crate::format::encoding::{Opening, Place};
use crate::format::record::Refusal;
use crate::inputs::readings::{beside_another, shared, OWNED_RECORD};

/// The readings with owners; one of them cut at every length, and with a byte too many.
pub fn owner_readings() -> Vec<Case> {
    let readings = shared().into_iter().chain(beside_another()).map(|reading| {
        let contents = reading.contents;
        accepted(format!("with owners: {:?}", contents.numbers), contents.record())
    });
    let cut = |length: usize| {
        let refusal = if length < Opening::LENGTH { 1 } else { 2 };
        refused(format!("with an owner, cut to {length} bytes"), OWNED_RECORD[..length].to_vec(), refusal)
    };
    let longer = [0x00, 0x80]
        .map(|byte| refused(format!("with an owner, and a byte {byte:02X}"), [&OWNED_RECORD[..], &[byte]].concat(), 13));
    readings.chain((0..OWNED_RECORD.len()).map(cut)).chain(longer).collect()
}

/// The places of the owners.
fn owner_places(record: &Parts) -> Vec<usize> {
    (0..record.count()).filter(|&at| record.places[at] == Place::Owner).collect()
}

/// Row 17: each of three owners from 0 to 5, and numbers that are 1 to 4 in their last 7, 8 or 16 bits.
pub fn owner_numbers() -> Vec<Case> {
    let record = sized(Opening::Three, 1, 1, 3);
    let with = |at: usize, owner: i64| {
        let intent = if (1..=4).contains(&owner) { Intent::Accepted } else { Intent::Refused(17) };
        Case { about: format!("owner at {} is {owner}", at + 1), bytes: record.with_number(at, owner).bytes(), intent }
    };
    let owners = [0, 1, 2, 3, 4, 5, 6, 7, 8, 127, 128, 129, 132, 255, 256, 257, 260, 65_537, 65_540, 16_777_217, GREATEST];
    owner_places(&record).into_iter().flat_map(|at| owners.map(|owner| with(at, owner))).collect()
}

/// Row 17 says nothing of what follows, an owner is read before it is ranged, and an earlier fault comes first: behind C = 5, records of
/// two vectors of one stream of one bit.
pub fn order_around_owners() -> Vec<Case> {
    let behind: [(&[u8], Refusal); 28] = [
        (&[0x06, 0x01, 0x05], 16),
        (&[0x03, 0x00, 0x05], 8),
        (&[0x03, 0x81, 0x00, 0x05], 3),
        (&[0x03, 0x01], 2),
        (&[0x03, 0x01, 0x84], 2),
        (&[0x03, 0x01, 0x85, 0x80, 0x80], 2),
        (&[0x03, 0x01, 0x84, 0x00], 3),
        (&[0x03, 0x01, 0x85, 0x00], 3),
        (&[0x03, 0x01, 0x84, 0x80, 0x80, 0x80], 3),
        (&[0x03, 0x01, 0x80, 0x01], 17),
        (&[0x03, 0x01, 0x84, 0x01, 0x01], 17),
        (&[0x03, 0x01, 0x00], 17),
        (&[0x03, 0x01, 0x05], 17),
        (&[0x03, 0x01, 0x05, 0x00], 17),
        (&[0x03, 0x01, 0x05, 0x80], 17),
        (&[0x03, 0x01, 0x05, 0x81, 0x00], 17),
        (&[0x03, 0x01, 0x00, 0x80, 0x10, 0x04, 0x00, 0x14], 17),
        (&[0x03, 0x01, 0x01], 2),
        (&[0x03, 0x01, 0x04, 0x00], 9),
        (&[0x03, 0x01, 0x04, 0x00, 0x04, 0x00, 0x14, 0x05], 9),
        (&[0x03, 0x01, 0x04, 0x01, 0x80, 0x80, 0x10, 0x00, 0x14, 0x05], 11),
        (&[0x03, 0x01, 0x04, 0x01, 0x04, 0x00, 0x80, 0x80, 0x80, 0x01, 0x05], 12),
        (&[0x03, 0x01, 0x04, 0x01, 0x04, 0x00, 0x14], 2),
        (&[0x03, 0x01, 0x04, 0x01, 0x04, 0x00, 0x14, 0x05], 17),
        (&[0x03, 0x01, 0x04, 0x01, 0x04, 0x00, 0x14, 0x05, 0x00, 0x04, 0x00, 0x14], 17),
        (&[0x03, 0x01, 0x04, 0x01, 0x04, 0x00, 0x14, 0x00, 0x80, 0x00], 17),
        (&[0x03, 0x01, 0x04, 0x01, 0x04, 0x00, 0x14, 0x04, 0x00], 9),
        (&[0x03, 0x01, 0x04, 0x01, 0x04, 0x00, 0x14, 0x04, 0x01, 0x04, 0x00, 0x14, 0x05], 13),
    ];
    let opened = |(bytes, refusal): (&[u8], Refusal)| {
        let record = [&Opening::Three.bytes(), [0x01, 0x01, 0x02, 0x05].as_slice(), bytes].concat();
        refused(format!("with owners, from W on {bytes:02X?}"), record, refusal)
    };
    let record = sized(Opening::Three, 1, 2, 2);
    let forms = owner_places(&record).into_iter().flat_map(|at| malformed_forms(&record, at));
    behind.into_iter().map(opened).chain(order_of_checks(&record, record.count() - 1)).chain(forms).collect()
}

/// Each M and Q with two vectors: as it is, and with the second owner out of range.
pub fn owners_of_all_sizes() -> Vec<Case> {
    let cases = |(streams, bits): (usize, usize)| {
        let record = sized(Opening::Three, streams as i64, bits as i64, 2);
        let about = format!("with owners, M = {streams}, Q = {bits}");
        let second = record.last_place(Place::Owner);
        [
            refused(format!("{about}, the second is 5"), record.with_number(second, 5).first(second + 1), 17),
            accepted(about, record.bytes()),
        ]
    };
    SHAPES.into_iter().flat_map(cases).collect()
}
