//! The fast detector: the same replies as `plain`'s by the same walk, as quickly as safe Rust by hand does it.
//!
//! - A child's increment is a real-axis part plus an imaginary-axis part, each (e - R a)^2 and the axis' prior cost. The part of
//!   an axis label is `table - 2 R e a + e^2`, with (R a)^2 and the prior cost in the table, made once a vector. The prior cost
//!   stands once more in the low bits of each part, where it decides between equal metrics.
//! - Children come in order from the heads of rows, one row for each real-axis label; the imaginary axis is put in order only as
//!   far as it is needed.
//! - Of the walked leaves, the least metric, its label, each bit's limit and the bits in which they differ are kept, and of the limits
//!   the largest by stream and by axis label, so that a test looks at no single bit. They change at leaves only.
//! - Siblings end where the least metric left reaches the largest limit. A node is left at once where the distances to the nearest
//!   amplitudes reach it, and a parent of leaves also where the axes' least parts show that no leaf passes.
//!
//! Streams count from 0 here; those of Q bits sit in a label as if there were four, stream 3's bits lowest (`Limits::shift`): also those
//! of eight bits, of which there are three at most.
//! `A` and `B` are the numbers of labels of the real and the imaginary axis.

mod axis;
mod children;
mod limits;
mod reading;
mod search;

use crate::format::reply::{room, OPENING};
use reading::Record;
use search::Search;

/// The reply's length, or minus the refusal number.
pub fn detect(record: &[u8], reply: &mut [u8]) -> i64 {
    let record = match reading::read(record) {
        Ok(record) => record,
        Err(refusal) => return -i64::from(refusal),
    };
    let sizes = &record.sizes;
    if reply.len() < room(sizes.streams, sizes.bits, sizes.vectors) {
        return -14;
    }
    let length = match sizes.bits {
        1 => answer_all::<2, 1>(&record, reply),
        2 => answer_all::<2, 2>(&record, reply),
        4 => answer_all::<4, 4>(&record, reply),
        6 => answer_all::<8, 8>(&record, reply),
        _ => answer_all::<16, 16>(&record, reply),
    };
    length as i64
}

/// Searches the vectors in record order and writes the reply; its length. Of an owner's n vectors the first may walk n x (D - M) + M
/// nodes, each next one what the one before it has left, and M.
fn answer_all<const A: usize, const B: usize>(record: &Record, reply: &mut [u8]) -> usize {
    let sizes = &record.sizes;
    reply[..OPENING.len()].copy_from_slice(&OPENING);
    let mut reply = Reply { bytes: reply, length: OPENING.len() };
    [sizes.streams, sizes.bits, sizes.vectors].into_iter().for_each(|size| reply.put(size as u32));
    let streams = sizes.streams as u32;
    let mut search = Search::<A, B>::new(sizes.streams, i64::from(sizes.clip), i64::from(sizes.weak));
    let mut left = left_beyond(record);
    for (vector, &owner) in record.numbers.chunks_exact(sizes.vector_numbers()).zip(record.owners()) {
        let left = &mut left[usize::from(owner) - 1];
        let allowance = *left + streams;
        search.prepare(vector);
        *left = search.run(allowance);
        search.write(&mut reply, allowance - *left);
    }
    reply.length
}

/// For each owner the nodes that it has beyond M for each of its vectors to come; before the first vector these are D - M for each.
fn left_beyond(record: &Record) -> [u32; 4] {
    let mut left = [0; 4];
    for &owner in record.owners() {
        left[usize::from(owner) - 1] += record.sizes.share - record.sizes.streams as u32;
    }
    left
}

/// The reply's bytes, as far as they are written.
pub(crate) struct Reply<'a> {
    bytes: &'a mut [u8],
    length: usize,
}

impl Reply<'_> {
    #[inline(always)]
    fn put(&mut self, number: u32) {
        let mut left = number;
        let mut length = self.length;
        while left >= 128 {
            self.bytes[length] = left as u8 | 128;
            length += 1;
            left >>= 7;
        }
        self.bytes[length] = left as u8;
        self.length = length + 1;
    }

    #[inline(always)]
    fn put_folded(&mut self, number: i32) {
        self.put((number << 1 ^ number >> 31) as u32);
    }
}
