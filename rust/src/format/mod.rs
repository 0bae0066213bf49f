//! Block records and replies, as bytes and as numbers: documents 01 and 02 from the outside, with no detector in it.

pub mod block;
pub mod encoding;
pub mod record;
pub mod reply;
pub mod text;
pub mod writer;
