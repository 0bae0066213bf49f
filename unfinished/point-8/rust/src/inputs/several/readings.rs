//! Readings of document 02's Point 8, worked out by hand: records back to back, the buffer's length, the report and the replies.

use crate::comparison::{before, outcome};
use crate::detectors::several::{Report, Several};
use crate::inputs::readings::{LISTING_RECORD as L, LISTING_REPLY, OWNED_RECORD as O, OWNED_REPLY, WEAK_RECORD as W, WEAK_REPLY};
use crate::inputs::samples::refusals;
use crate::inputs::with;

/// What a call is given, and what is to come of it: the bytes behind the replies stay as they were.
#[derive(Debug)]
pub struct Reading {
    pub records: Vec<u8>,
    pub room: usize,
    pub report: Report,
    pub replies: Vec<u8>,
}

impl Reading {
    /// The buffer after the call.
    pub fn buffer(&self) -> Vec<u8> {
        [&self.replies, &before(self.room)[self.replies.len()..]].concat()
    }

    /// Holds a call to the report and to every byte of the buffer.
    pub fn expect(&self, call: Several) {
        assert_eq!(outcome(call, &self.records[..], self.room), (self.report, self.buffer()), "{self:02X?}");
    }
}

/// The vector of two streams with C = 10 and D = 100: complete after 5 nodes of 100. A reply of 12 bytes, and room asked of 24.
const AMPLE_RECORD: [u8; 19] = [
    0x43, 0x42, 0x52, 0x31, 0x02, 0x01, 0x01, 0x0A, 0x64, // The sizes.
    0x01, 0x02, 0x00, 0x01, 0x02, 0x00, 0x01, 0x00, 0x00, 0x00, // The vector.
];

/// Values -4 and 4.
const AMPLE_REPLY: [u8; 12] = [0x43, 0x42, 0x53, 0x31, 0x02, 0x01, 0x01, 0x00, 0x05, 0x02, 0x07, 0x08];

/// The listing without its last byte takes the next record's first, 43, as the last prior: -34, the cost of the second bit 0. The
/// second vector's two nodes are then the second bit 1 (4) and label 1 (4 + 1): values 10 and -10.
const SWALLOWED_REPLY: [u8; 17] =
    [0x43, 0x42, 0x53, 0x31, 0x02, 0x01, 0x02, 0x01, 0x04, 0x02, 0x0F, 0x14, 0x01, 0x02, 0x01, 0x14, 0x13];

fn reading(records: &[&[u8]], room: usize, (count, length, number): (u32, usize, u32), replies: &[&[u8]]) -> Reading {
    Reading { records: records.concat(), room, report: Report { count, length, number }, replies: replies.concat() }
}

/// All readings. L, W and O have replies of 17, 12 and 11 bytes, and ask for room of 41, 24 and 20.
pub fn readings() -> Vec<Reading> {
    [answered(), short_buffers(), ended(), refusals_of_four(), more_than_four(), apart()].into_iter().flatten().collect()
}

/// Every record is answered.
fn answered() -> Vec<Reading> {
    let (l, w, o) = (LISTING_REPLY.as_slice(), WEAK_REPLY.as_slice(), OWNED_REPLY.as_slice());
    vec![
        reading(&[&L], 41, (1, 17, 0), &[l]),
        reading(&[&W], 24, (1, 12, 0), &[w]),
        reading(&[&O], 20, (1, 11, 0), &[o]),
        reading(&[&L, &O], 100, (2, 28, 0), &[l, o]),
        reading(&[&O, &L], 52, (2, 28, 0), &[o, l]),
        reading(&[&L, &L], 58, (2, 34, 0), &[l, l]),
        reading(&[&L, &W, &O], 49, (3, 40, 0), &[l, w, o]),
        // The third asks for more than the fourth: 11 + 12 + 41, and 11 + 12 + 17 + 20.
        reading(&[&O, &W, &L, &O], 64, (4, 51, 0), &[o, w, l, o]),
        reading(&[&L, &L, &L, &L], 92, (4, 68, 0), &[l, l, l, l]),
    ]
}

/// A record finds less room than it asks for.
fn short_buffers() -> Vec<Reading> {
    let (l, w, o) = (LISTING_REPLY.as_slice(), WEAK_REPLY.as_slice(), OWNED_REPLY.as_slice());
    vec![
        reading(&[&L], 40, (0, 0, 14), &[]),
        reading(&[&O], 0, (0, 0, 14), &[]),
        reading(&[&L, &L], 40, (0, 0, 14), &[]),
        reading(&[&L, &L], 41, (1, 17, 14), &[l]),
        reading(&[&L, &L], 57, (1, 17, 14), &[l]),
        reading(&[&O, &L], 51, (1, 11, 14), &[o]),
        reading(&[&L, &W, &O], 41, (2, 29, 14), &[l, w]),
        reading(&[&L, &W, &O], 48, (2, 29, 14), &[l, w]),
        reading(&[&O, &W, &L, &O], 19, (0, 0, 14), &[]),
        reading(&[&O, &W, &L, &O], 34, (1, 11, 14), &[o]),
        reading(&[&O, &W, &L, &O], 35, (2, 23, 14), &[o, w]),
        reading(&[&O, &W, &L, &O], 63, (2, 23, 14), &[o, w]),
        reading(&[&L, &L, &L, &L], 91, (3, 51, 14), &[l, l, l]),
    ]
}

/// A record is refused, and ends the call; X is the listing with an M of 5, P the listing with a last prior of 1,048,576.
fn ended() -> Vec<Reading> {
    let (l, o) = (LISTING_REPLY.as_slice(), OWNED_REPLY.as_slice());
    let x = with(&L, 4, 5);
    let p = [&L[..28], &[0x80, 0x80, 0x80, 0x01]].concat();
    vec![
        reading(&[], 100, (0, 0, 1), &[]),
        reading(&[], 0, (0, 0, 1), &[]),
        reading(&[&L, &[0x00]], 100, (1, 17, 1), &[l]),
        reading(&[&L, &L[..3]], 100, (1, 17, 1), &[l]),
        reading(&[&L, &L[..4]], 100, (1, 17, 2), &[l]),
        reading(&[&L, &[0x43, 0x42, 0x52, 0x34], &L[4..]], 100, (1, 17, 1), &[l]),
        reading(&[&L, &[0x00], &L], 100, (1, 17, 1), &[l]),
        reading(&[&L, &O, &[0x00]], 100, (2, 28, 1), &[l, o]),
        reading(&[&L, &L, &L, &L[..28]], 200, (3, 51, 2), &[l, l, l]),
        // The next record is found by its place alone.
        reading(&[&L[..28], &L], 200, (1, 17, 1), &[&SWALLOWED_REPLY]),
        reading(&[&x, &L], 200, (0, 0, 4), &[]),
        reading(&[&x, &L, &L, &L, &[0x00]], 200, (0, 0, 4), &[]),
        reading(&[&L, &L, &L, &x], 500, (3, 51, 4), &[l, l, l]),
        reading(&[&L, &L, &L, &x, &L, &L], 500, (3, 51, 4), &[l, l, l]),
        reading(&[&L, &L, &L, &x, &[0x00]], 74, (2, 34, 14), &[l, l]),
        // No room is asked for where a record is refused by itself.
        reading(&[&L, &x], 41, (1, 17, 4), &[l]),
        reading(&[&L, &p], 41, (1, 17, 12), &[l]),
        reading(&[&p], 0, (0, 0, 12), &[]),
    ]
}

/// One of four is refused, and a byte follows: no 18, and the replies before it stand. A record that ends early is left out, since the
/// next one's bytes would be taken for its own, and so is one with a byte behind it.
fn refusals_of_four() -> Vec<Reading> {
    let refused = refusals().into_iter().filter(|&(refusal, _)| refusal != 2 && refusal != 13);
    let at_each_place = |(refusal, record): (u32, Vec<u8>)| {
        (0..4)
            .map(move |at| {
                let mut records = [L.as_slice(), &L, &L, &L, &[0x00]];
                records[at] = &record;
                reading(&records, 500, (at as u32, 17 * at, refusal), &[LISTING_REPLY.as_slice()].repeat(at))
            })
            .collect::<Vec<_>>()
    };
    refused.flat_map(at_each_place).collect()
}

/// Bytes follow the fourth record: nothing is written, whatever the buffer and whatever the bytes.
fn more_than_four() -> Vec<Reading> {
    let four = [L.as_slice(), &L, &L, &L].concat();
    let x = with(&L, 4, 5);
    let tails = [&[0x00], &[0x43], &L[..4], &L[..28], &L, &x, &[L, L].concat()] as [&[u8]; 7];
    let behind = |&tail: &&[u8]| [200, 91, 57, 0].map(|room| reading(&[&four, tail], room, (0, 0, 18), &[]));
    tails.iter().flat_map(behind).collect()
}

/// No allowance passes to the next record: the first leaves 95 nodes, and the listing's vectors are stopped as ever.
fn apart() -> Vec<Reading> {
    let l = LISTING_REPLY.as_slice();
    vec![
        reading(&[&AMPLE_RECORD, &L], 53, (2, 29, 0), &[&AMPLE_REPLY, l]),
        reading(&[&AMPLE_RECORD, &L], 52, (1, 12, 14), &[&AMPLE_REPLY]),
        reading(&[&L, &AMPLE_RECORD, &L], 70, (3, 46, 0), &[l, &AMPLE_REPLY, l]),
    ]
}
