//! The detectors, which share the format and no search: `plain` is document 01 word for word, `fast` is what the proved one is
//! measured beside, and `exhaustive` goes through all labels.

pub mod exhaustive;
pub mod fast;
pub mod plain;

use crate::format::block::Block;
use crate::format::reply::{decode, Answer};

/// A record and a lent reply buffer in; the reply's length, or minus the refusal number, out.
pub type Detector = fn(record: &[u8], reply: &mut [u8]) -> i64;

/// The reply to a block's record, which must be accepted.
pub fn reply(detect: Detector, block: &Block) -> Vec<u8> {
    let mut reply = vec![0; block.room()];
    let length = detect(&block.record(), &mut reply);
    reply.truncate(usize::try_from(length).expect("a reply"));
    reply
}

/// The answers in it.
pub fn answers(detect: Detector, block: &Block) -> Vec<Answer> {
    decode(&reply(detect, block))
}
