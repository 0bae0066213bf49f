//! Cases of the documents' own records: the openings, the listing and the bench readings.

use super::{accepted, refused, Case, Intent};
use crate::format::encoding::{Contents, Opening};
use crate::format::reply;
use crate::inputs::readings::{starred, two_streams, LISTING_RECORD as RECORD, OWNED_RECORD, WEAK_RECORD};
use crate::inputs::with;

/// Row 1: records too short for an opening, and each of its bytes different.
pub fn openings() -> Vec<Case> {
    let short = (0..4).map(|length| refused(format!("{length} bytes"), RECORD[..length].to_vec(), 1));
    let other = |record: &'static [u8], at: usize| {
        [record[at] ^ 4, record[at] ^ 0x80, 0x00, 0xFF]
            .map(|byte| refused(format!("opening byte {} is {byte:02X}", at + 1), with(record, at, byte), 1))
    };
    let other = (0..4).flat_map(move |at| [other(&RECORD, at), other(&WEAK_RECORD, at), other(&OWNED_RECORD, at)]).flatten();
    let last = [0x30, 0x34, 0x35].into_iter().flat_map(|byte| {
        let case = |record: &[u8]| refused(format!("opening's last byte {byte:02X}"), with(record, 3, byte), 1);
        [case(&RECORD), case(&WEAK_RECORD), case(&OWNED_RECORD), case(&RECORD[..4])]
    });
    let exchanged = [
        refused("the listing, opening 2".to_string(), with(&RECORD, 3, 0x32), 8),
        refused("the listing, opening 3".to_string(), with(&RECORD, 3, 0x33), 8),
        refused("a record with W, opening 1".to_string(), with(&WEAK_RECORD, 3, 0x31), 9),
        refused("a record with W, opening 3".to_string(), with(&WEAK_RECORD, 3, 0x33), 2),
        refused("a record with an owner, opening 1".to_string(), with(&OWNED_RECORD, 3, 0x31), 13),
        refused("a record with an owner, opening 2".to_string(), with(&OWNED_RECORD, 3, 0x32), 13),
    ];
    let backwards: Vec<u8> = Opening::One.bytes().into_iter().rev().collect();
    let more = [
        refused("four zeros".to_string(), vec![0; 4], 1),
        refused("the reply's opening".to_string(), [reply::OPENING.as_slice(), &RECORD[4..7]].concat(), 1),
        refused("the opening backwards".to_string(), [&backwards, &RECORD[4..7]].concat(), 1),
        refused("the opening one byte late".to_string(), [[0].as_slice(), &RECORD].concat(), 1),
    ];
    let alone = Opening::ALL.map(|opening| refused("the opening alone".to_string(), opening.bytes().to_vec(), 2));
    short.chain(other).chain(last).chain(exchanged).chain(more).chain(alone).collect()
}

/// Document 01's listing record: whole, cut at every length, and with a byte too many.
pub fn listing_record() -> Vec<Case> {
    let cut = |length: usize| {
        let refusal = if length < Opening::LENGTH { 1 } else { 2 };
        refused(format!("listing cut to {length} bytes"), RECORD[..length].to_vec(), refusal)
    };
    let longer = |byte: u8| refused(format!("listing and a byte {byte:02X}"), [RECORD.as_slice(), &[byte]].concat(), 13);
    let whole = accepted("listing".to_string(), RECORD.to_vec());
    (0..RECORD.len()).map(cut).chain([whole]).chain([0x00, 0x01, 0x80, 0xFF].map(longer)).collect()
}

/// The records of document 01's bench readings, with their edges.
pub fn bench_readings() -> Vec<Case> {
    let case = |contents: Contents, intent: Intent| Case {
        about: format!("bench {:?}", contents.numbers),
        bytes: contents.record(),
        intent,
    };
    let edges = [
        case(two_streams(10, 1), Intent::Refused(8)),
        case(two_streams(10, 2), Intent::Accepted),
        case(two_streams(16_777_215, 5), Intent::Accepted),
        case(two_streams(16_777_216, 5), Intent::Refused(7)),
    ];
    starred().into_iter().map(|reading| case(reading.contents, Intent::Accepted)).chain(edges).collect()
}
