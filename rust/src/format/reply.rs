//! Replies, by document 01, "The record": the bytes that say what was found, and the way back.

use super::block::Block;
use super::encoding::{folded, plain, unfold};
use super::record::read_plain;

/// The four bytes that open a reply.
pub const OPENING: [u8; 4] = [0x43, 0x42, 0x53, 0x31];

/// A buffer that is long enough for the reply to any record.
pub const MOST_ROOM: usize = room(4, 6, 64);

/// What the reply says of one vector.
#[derive(Clone, Debug, PartialEq, Eq)]
pub struct Answer {
    pub stopped: bool,
    pub nodes: i64,
    pub label: usize,
    pub values: Vec<i64>,
}

/// The shortest buffer that is accepted.
pub const fn room(streams: usize, bits: usize, vectors: usize) -> usize {
    7 + vectors * (9 + 4 * streams * bits)
}

/// The reply that has these answers.
pub fn encode(block: &Block, answers: &[Answer]) -> Vec<u8> {
    let mut bytes = OPENING.to_vec();
    for number in [block.streams, block.bits, block.vectors.len()] {
        bytes.extend(plain(number as i64));
    }
    for answer in answers {
        bytes.extend(plain(i64::from(answer.stopped)));
        bytes.extend(plain(answer.nodes));
        bytes.extend(plain(answer.label as i64));
        bytes.extend(answer.values.iter().copied().flat_map(folded));
    }
    bytes
}

/// The answers that a reply has, which must be one.
pub fn decode(reply: &[u8]) -> Vec<Answer> {
    let mut rest = reply.strip_prefix(&OPENING).expect("a reply has its opening");
    let mut next = || read_plain(&mut rest).expect("a reply has all its numbers");
    let [streams, bits, vectors] = [next(), next(), next()];
    let mut answer = || Answer {
        stopped: next() == 1,
        nodes: next(),
        label: next() as usize,
        values: (0..streams * bits).map(|_| unfold(next())).collect(),
    };
    (0..vectors).map(|_| answer()).collect()
}

#[cfg(test)]
mod tests {
    use super::*;
    use crate::inputs::readings::{listing, listing_answers, LISTING_REPLY};

    #[test]
    fn the_listings_reply_both_ways() {
        assert_eq!(encode(&Block::of(&listing()), &listing_answers()), LISTING_REPLY);
        assert_eq!(decode(&LISTING_REPLY), listing_answers());
    }
}
