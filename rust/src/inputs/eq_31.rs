//! Document 01's example against clipping from below at each new best leaf (000, eq. 31), as a record. The example: "Leaves 10,
//! 12, 8, 6, the bit opposite only in 12, its prior 10 for the best one's bit, C = 3: that gives -1; the right value is -3."
//!
//! The record: M = 3, Q = 1, R rows (1, 1, 2), (0, 1, -1), (0, 0, 1), y = (-1, 0, 0), priors 10, 2, 0, C = 3. The bit is the
//! first. With s = -1 for a bit 0 and +1 for a bit 1 the rows' squares are those of -1 - s1 - s2 - 2 s3, of s3 - s2 and of -s3,
//! and the priors cost 10 where the first bit is 1, and 2 where the second is:
//!
//! | label | row 1 | row 2 | row 3 | priors | metric |
//! |-------|-------|-------|-------|--------|--------|
//! | 000   |     9 |     0 |     1 |      0 |     10 |
//! | 001   |     1 |     4 |     1 |      0 |      6 |
//! | 010   |     1 |     4 |     1 |      2 |      8 |
//! | 011   |     9 |     0 |     1 |      2 |     12 |
//! | 100   |     1 |     0 |     1 |     10 |     12 |
//! | 101   |     9 |     4 |     1 |     10 |     24 |
//! | 110   |     1 |     4 |     1 |     12 |     18 |
//! | 111   |    25 |     0 |     1 |     12 |     38 |
//!
//! (The second prior is needed: all squared distances of a record are the same modulo 4, since each residual stays odd or even
//! whatever the points are, so that it takes a prior to make leaves of 10, 8 and 6 whose first bit is the same.)
//!
//! The walk, its nodes by the bits chosen so far, with partial metrics:
//!
//!  1. ..0 of 1. Its sibling ..1 has 1 too, and the larger symbol.
//!  2. .00 of 1.
//!  3. 000 of 10, the first leaf.
//!  4. 100 of 12: below the first bit's limit, 10 + 3 + 10.
//!  5. .10 of 7: at most 10.
//!  6. 010 of 8, the new best. After it 110 of 18 is cut: the first bit's limit is U, 12.
//!  7. ..1 of 1: at most 8.
//!  8. .11 of 3: at most 8. Below it 011 of 12 is cut, since the third bit's limit is 8 + 3, and 111 of 38 too.
//!  9. .01 of 5: at most 8.
//! 10. 001 of 6, the new best. After it 101 of 24 is cut, as 110 was.
//!
//! So the first bit's value is 12 - 6 - 10 = -4, clipped to -3. 000's list holds 12 - 10 = 2 for this bit; the clip from below
//! makes it 8 - 3 = 5 at the leaf of 8, leaves it at the leaf of 6, and the value would be 5 - 6 = -1.

use super::readings::answer;
use crate::format::block::Block;
use crate::format::encoding::{Contents, Opening};
use crate::format::reply::Answer;

/// The metrics of labels 0 to 7.
pub const METRICS: [i64; 8] = [10, 6, 8, 12, 12, 24, 18, 38];

/// The record with this D.
pub fn block(share: i64) -> Block {
    let matrix = [1, 1, 0, 2, 0, 1, -1, 0, 1];
    let received = [-1, 0, 0, 0, 0, 0];
    let priors = [10, 2, 0];
    let numbers = [[3, 1, 1, 3, share].as_slice(), &matrix, &received, &priors].concat();
    Block::of(&Contents { opening: Opening::One, numbers })
}

/// The record with each D that stops its walk, and with the least that does not, and the answer over the leaves above: that
/// they come in this order is seen at the stops. A stopped vector's bit with no leaf on one side has C, which is 3, or W, here 0 to 2.
pub fn cases() -> impl Iterator<Item = (Block, Answer)> {
    let older = answers(3).into_iter().map(|answer| (block(answer.nodes), answer));
    let weak = (0..3).flat_map(|weak| answers(weak).map(|answer| (block(answer.nodes).with_weak(weak), answer)));
    older.chain(weak)
}

/// The answers by rising D, where a stopped vector has this for an empty side.
fn answers(empty: i64) -> [Answer; 8] {
    let answers = [
        (3, 0b000, [empty, empty, empty]),
        // 12 - 10 - 10 is clipped.
        (4, 0b000, [-3, empty, empty]),
        (5, 0b000, [-3, empty, empty]),
        // 12 - 8 - 10 and 8 - 10 - 2 are clipped.
        (6, 0b010, [-3, -3, empty]),
        (7, 0b010, [-3, -3, empty]),
        (8, 0b010, [-3, -3, empty]),
        (9, 0b010, [-3, -3, empty]),
        // 12 - 6 - 10 is clipped; 8 - 6 - 2 and 6 - 8 are not.
        (10, 0b001, [-3, 0, -2]),
    ];
    answers.map(|(nodes, label, values)| answer(nodes < 10, nodes, label, values))
}
