//! Document 01's bench readings and its listing, and readings of document 02's W, distances, ties and owners: the records, what they are
//! answered with, and what is printed of them.

use crate::format::block::Block;
use crate::format::encoding::{Contents, Opening};
use crate::format::reply::Answer;

/// The vector of two streams: R rows (1, 1), (0, 1), y = (1, -1), priors 0.
const TWO_STREAMS: [i64; 10] = [1, 1, 0, 1, 1, 0, -1, 0, 0, 0];

/// A record, and the answers to its vectors.
pub struct Reading {
    pub contents: Contents,
    pub answers: Vec<Answer>,
}

/// M = 1, Q = 1, N = 1, R = 1.
pub fn one_stream(received: i64, prior: i64, clip: i64, share: i64) -> Contents {
    older(vec![1, 1, 1, clip, share, 1, received, 0, prior])
}

/// M = 2, Q = 1, N = 1.
pub fn two_streams(clip: i64, share: i64) -> Contents {
    older([[2, 1, 1, clip, share].as_slice(), &TWO_STREAMS].concat())
}

/// The same with this R_12, a y without imaginary parts, and priors.
fn two_real(clip: i64, share: i64, right: i64, received: [i64; 2], priors: [i64; 2]) -> Contents {
    let vector = [1, right, 0, 1, received[0], 0, received[1], 0, priors[0], priors[1]];
    older([[2, 1, 1, clip, share].as_slice(), &vector].concat())
}

fn older(numbers: Vec<i64>) -> Contents {
    Contents { opening: Opening::One, numbers }
}

/// The ten starred readings.
pub fn starred() -> [Reading; 10] {
    [
        reading(one_stream(2, 0, 5, 2), [answer(false, 1, 1, [-5])]),
        reading(one_stream(2, 0, 8, 2), [answer(false, 1, 1, [-8])]),
        reading(one_stream(2, 0, 9, 2), [answer(false, 2, 1, [-8])]),
        reading(one_stream(0, 0, 5, 2), [answer(false, 2, 0, [0])]),
        reading(one_stream(2, 10, 5, 2), [answer(false, 2, 0, [-5])]),
        reading(one_stream(2, 10, 5, 1), [answer(true, 1, 0, [5])]),
        reading(two_streams(10, 5), [answer(false, 5, 2, [-4, 4])]),
        reading(two_streams(10, 4), [answer(true, 4, 2, [-8, 10])]),
        reading(two_streams(3, 5), [answer(false, 2, 2, [-3, 3])]),
        reading(two_streams(0, 5), [answer(false, 2, 2, [0, 0])]),
    ]
}

/// The squared distances of their labels.
pub const STARRED_DISTANCES: [i64; 10] = [1, 1, 1, 1, 9, 9, 1, 1, 1, 1];

fn reading(contents: Contents, answers: impl Into<Vec<Answer>>) -> Reading {
    Reading { contents, answers: answers.into() }
}

/// The same numbers with W behind C.
pub fn weak(contents: Contents, weak: i64) -> Contents {
    Block::of(&contents).with_weak(weak).contents()
}

/// Readings with W, worked out by hand. It is given to a stopped vector's bit that has one empty side, as it is: no prior goes off it.
pub fn weakened() -> [Reading; 16] {
    [
        // Leaves 2 (1) and 0 (9): 1 - 9, which is beyond W, and no walked label with the second bit 1.
        reading(weak_reading(), [answer(true, 4, 2, [-8, 7])]),
        reading(weak(two_streams(10, 4), 3), [answer(true, 4, 2, [-8, 3])]),
        reading(weak(two_streams(10, 4), 0), [answer(true, 4, 2, [-8, 0])]),
        reading(weak(two_streams(10, 4), 10), [answer(true, 4, 2, [-8, 10])]),
        reading(weak(two_streams(10, 3), 7), [answer(true, 3, 2, [-8, 7])]),
        // Label 2 alone.
        reading(weak(two_streams(10, 2), 7), [answer(true, 2, 2, [-7, 7])]),
        // Complete: W plays no part.
        reading(weak(two_streams(10, 5), 7), [answer(false, 5, 2, [-4, 4])]),
        reading(weak(two_streams(10, 5), 0), [answer(false, 5, 2, [-4, 4])]),
        // Complete with the last node of the allowance: whatever is left, 4 or more, is not below 1 + 3.
        reading(weak(two_streams(3, 2), 1), [answer(false, 2, 2, [-3, 3])]),
        // Complete, one side cut whole: 9 is not below 1 + 5.
        reading(weak(one_stream(2, 0, 5, 2), 0), [answer(false, 1, 1, [-5])]),
        // 9 and 11, of which only the first is walked.
        reading(weak(one_stream(2, 10, 5, 1), 3), [answer(true, 1, 0, [3])]),
        reading(weak(one_stream(2, 10, 5, 1), 2), [answer(true, 1, 0, [2])]),
        reading(weak(one_stream(2, 10, 5, 2), 2), [answer(false, 2, 0, [-5])]),
        // The other way round.
        reading(weak(one_stream(-2, -10, 5, 1), 3), [answer(true, 1, 1, [-3])]),
        // The vector of two streams twice.
        reading(weak(listing(), 7), [answer(true, 4, 2, [-8, 7]), answer(true, 2, 2, [-7, 7])]),
        reading(weak(listing(), 0), [answer(true, 4, 2, [-8, 0]), answer(true, 2, 2, [0, 0])]),
    ]
}

/// The vector of two streams with C = 10, W = 7 and D = 4.
pub fn weak_reading() -> Contents {
    weak(two_streams(10, 4), 7)
}

/// Its record, byte by byte.
pub const WEAK_RECORD: [u8; 20] = [
    0x43, 0x42, 0x52, 0x32, 0x02, 0x01, 0x01, 0x0A, 0x07, 0x04, // The sizes.
    0x01, 0x02, 0x00, 0x01, 0x02, 0x00, 0x01, 0x00, 0x00, 0x00, // The vector.
];

/// Its reply, byte by byte.
pub const WEAK_REPLY: [u8; 12] = [0x43, 0x42, 0x53, 0x31, 0x02, 0x01, 0x01, 0x01, 0x04, 0x02, 0x0F, 0x0E];

/// The vector of two streams for each of these owners, with C = 10.
pub fn owned<const VECTORS: usize>(owners: [i64; VECTORS], weak: i64, share: i64) -> Contents {
    owned_vectors(weak, share, owners.map(|owner| (owner, TWO_STREAMS)))
}

/// These vectors and their owners, with C = 10.
fn owned_vectors<const VECTORS: usize>(weak: i64, share: i64, vectors: [(i64, [i64; 10]); VECTORS]) -> Contents {
    let mut numbers = vec![2, 1, VECTORS as i64, 10, weak, share];
    for (owner, vector) in vectors {
        numbers.push(owner);
        numbers.extend(vector);
    }
    Contents { opening: Opening::Three, numbers }
}

/// Readings with owners by document 02's Point 7, worked out by hand. The walk of the vector of two streams with C = 10 has 5 nodes, the
/// leaves 2 (1), 0 (9) and 1 (5) as second, third and fifth: of an allowance of 5 or more, of 3 or 4, and of 2 this is left to report.
pub fn shared() -> [Reading; 11] {
    let complete = || answer(false, 5, 2, [-4, 4]);
    let two_leaves = |nodes: i64| answer(true, nodes, 2, [-8, 10]);
    let one_leaf = || answer(true, 2, 2, [-10, 10]);
    [
        // Each owner has 6: 6 - 2 for its first vector, and the 2 that are left for its second.
        reading(owned([1, 2, 1, 2], 10, 3), [two_leaves(4), two_leaves(4), one_leaf(), one_leaf()]),
        // 6 for owner 1, and 3 for owner 2.
        reading(owned([1, 1, 2], 10, 3), [two_leaves(4), one_leaf(), two_leaves(3)]),
        // Each has 8, of which the first vector may walk 6, and leaves 3.
        reading(owned([1, 2, 2, 1], 10, 4), [complete(), complete(), two_leaves(3), two_leaves(3)]),
        // 8 for owner 1 as before; 12 for owner 2: 12 - 4 and 12 - 5 - 2 let two be complete, and 2 are left.
        reading(owned([1, 2, 2, 2, 1], 10, 4), [complete(), complete(), complete(), one_leaf(), two_leaves(3)]),
        // Each has its own 4, or its own 5.
        reading(owned([4, 3, 2, 1], 10, 4), [two_leaves(4), two_leaves(4), two_leaves(4), two_leaves(4)]),
        reading(owned([3, 1, 4, 2], 10, 5), [complete(), complete(), complete(), complete()]),
        // One owner for all has 12: 12 - 6, then 12 - 5 - 4, then 2 each.
        reading(owned([4, 4, 4, 4], 10, 3), [complete(), two_leaves(3), one_leaf(), one_leaf()]),
        reading(one_of_64(), [vec![complete(); 5], vec![two_leaves(3)], vec![one_leaf(); 10]].concat()),
        reading(four_of_64(), [vec![complete(); 20], vec![two_leaves(3); 4], vec![one_leaf(); 40]].concat()),
        reading(owned_reading(), [answer(true, 1, 0, [3])]),
        reading(owned([2, 2, 3], 0, 3), [answer(true, 4, 2, [-8, 0]), answer(true, 2, 2, [0, 0]), answer(true, 3, 2, [-8, 0])]),
    ]
}

/// One owner's 16 vectors under D = 3 have 48 nodes, 1 beyond M for each. Each of the first five takes 3 of these 16, the sixth the last.
fn one_of_64() -> Contents {
    owned([3; 16], 10, 3)
}

/// Owners 1 to 4 in turn over 64 vectors: the same for each.
fn four_of_64() -> Contents {
    owned(std::array::from_fn::<i64, 64, _>(|at| at as i64 % 4 + 1), 10, 3)
}

/// Owner 1's two vectors of two streams, C = 10, W = 7, D = 3, and another owner's between them: owner 1 is answered the same, whoever
/// that is and whatever its vector holds. The other one may walk 3 nodes.
pub fn beside_another() -> Vec<Reading> {
    // R rows (1, 3), (0, 1), y = (-4, 1): the second bit 1 (0), label 1 (36), the second bit 0 (4).
    let crossed = [1, 3, 0, 1, -4, 0, 1, 0, 0, 0];
    // R rows (10, 0), (0, 10), y = (10, 10): label 3 (0), and all else has 400 or more.
    let strong = [10, 0, 0, 10, 10, 0, 10, 0, 0, 0];
    let others = [
        (TWO_STREAMS, answer(true, 3, 2, [-8, 7])),
        (crossed, answer(true, 3, 1, [7, -7])),
        (strong, answer(false, 2, 3, [-10, -10])),
    ];
    let beside = |other: i64, (vector, found): (_, Answer)| {
        let contents = owned_vectors(7, 3, [(1, TWO_STREAMS), (other, vector), (1, TWO_STREAMS)]);
        reading(contents, [answer(true, 4, 2, [-8, 7]), found, answer(true, 2, 2, [-7, 7])])
    };
    [2, 3, 4].into_iter().flat_map(|other| others.clone().map(|vector| beside(other, vector))).collect()
}

/// M = 1, Q = 1, N = 1, C = 5, W = 3, D = 1, owner 4, y = 2, prior 10: 9 and 11, of which only the first is walked.
pub fn owned_reading() -> Contents {
    Contents { opening: Opening::Three, numbers: vec![1, 1, 1, 5, 3, 1, 4, 1, 2, 0, 10] }
}

/// Its record, byte by byte.
pub const OWNED_RECORD: [u8; 15] = [0x43, 0x42, 0x52, 0x33, 0x01, 0x01, 0x01, 0x05, 0x03, 0x01, 0x04, 0x01, 0x04, 0x00, 0x14];

/// Its reply, byte by byte.
pub const OWNED_REPLY: [u8; 11] = [0x43, 0x42, 0x53, 0x31, 0x01, 0x01, 0x01, 0x01, 0x01, 0x00, 0x06];

/// Readings of ties by document 02's Point 6, worked out by hand: equal metrics go to the least prior cost, and only then to the smallest
/// number. A metric stands here as distance and prior cost.
pub fn tied() -> [Reading; 23] {
    [
        // Labels 0 and 1 have 1 + 8 and 9 + 0.
        reading(one_stream(-2, -8, 5, 2), [answer(false, 2, 1, [5])]),
        // The walk begins with label 1.
        reading(one_stream(-2, -8, 5, 1), [answer(true, 1, 1, [-5])]),
        reading(weak(one_stream(-2, -8, 5, 1), 3), [answer(true, 1, 1, [-3])]),
        reading(tied_with_owner(), [answer(true, 1, 1, [-3])]),
        // The other way round, 9 + 0 and 1 + 8: cost and number agree.
        reading(one_stream(2, 8, 5, 2), [answer(false, 2, 0, [-5])]),
        reading(one_stream(2, 8, 5, 1), [answer(true, 1, 0, [5])]),
        reading(counted(), [answer(false, 4, 0, [1, 1])]),
        reading(fewer(), [answer(false, 3, 1, [2, -2])]),
        // The larger number is walked first, and label 2 leaves it in its place.
        reading(larger_first(6), [answer(false, 5, 3, [0, 4])]),
        reading(larger_first(4), [answer(true, 4, 3, [0, -10])]),
        reading(larger_first(2), [answer(true, 2, 3, [-10, -10])]),
        // The larger number is walked later, and takes label 2's place.
        reading(larger_later(6), [answer(false, 5, 3, [-4, 4])]),
        reading(larger_later(4), [answer(true, 4, 3, [-10, 4])]),
        reading(larger_later(3), [answer(true, 3, 2, [-10, 10])]),
        reading(weak(larger_later(4), 7), [answer(true, 4, 3, [-7, 4])]),
        // y = (0, 1), and the prior is positive: labels 0 to 3 have 8 + 0, 0 + 4, 4 + 0 and 4 + 4.
        reading(two_real(10, 6, 1, [0, 1], [0, 4]), [answer(false, 5, 2, [0, -4])]),
        reading(whole_cost(6), [answer(false, 5, 3, [-4, 8])]),
        // y = (-2, 5), R_12 = 3: 40 + 0, 32 + 8, 36 + 4 and 52 + 12. Label 0 takes label 1's place, and label 2 comes after both.
        reading(two_real(10, 6, 3, [-2, 5], [4, 8]), [answer(false, 5, 0, [-4, -8])]),
        // y = (0, 1), R_12 = 0: 5 + 0, 1 + 4, 5 + 0 and 1 + 4. Label 3, the last, passes by its metric alone.
        reading(two_real(10, 6, 0, [0, 1], [0, 4]), [answer(false, 6, 0, [0, -4])]),
        reading(equal_costs(6), [answer(false, 5, 1, [0, 4])]),
        reading(equal_costs(2), [answer(true, 2, 1, [10, -10])]),
        // y = 0: labels 1 and 2 have 1 + 1 each. Label 2 is walked first, and the smaller number takes its place.
        reading(two_real(10, 6, 1, [0, 0], [1, 1]), [answer(false, 5, 1, [-1, -1])]),
        reading(two_real(10, 3, 1, [0, 0], [1, 1]), [answer(true, 3, 2, [-4, 10])]),
    ]
}

/// The same with owner 2.
fn tied_with_owner() -> Contents {
    Contents { opening: Opening::Three, numbers: vec![1, 1, 1, 5, 3, 1, 2, 1, -2, 0, -8] }
}

/// Both symbols of stream 2 have 9, 1 + 8 and 9 + 0. The second goes first, so that label 1 (18) is walked before label 0 (10): 4 nodes.
/// By the smallest number alone the first goes first, and below the second none passes: 3 nodes.
pub fn counted() -> Contents {
    two_real(1, 6, 1, [-3, -2], [0, -8])
}

/// R rows (2, 1 - i), (0, 1), y = (-3i, -1 + 2i), priors -2 and -4: labels 0 to 3 have 35, 15, 25 and 21, and both symbols of stream 2
/// have 8, 4 + 4 and 8 + 0. The second goes first, and label 1 (15) leaves none to pass below the first: 3 nodes. By the smallest number
/// alone label 2 (25) is walked, too: 4 nodes.
pub fn fewer() -> Contents {
    older(vec![2, 1, 1, 2, 6, 2, 1, -1, 1, 0, -3, -1, 2, -2, -4])
}

/// Labels 0 to 3 have 9 + 8, 5 + 4, 1 + 4 and 5 + 0; the symbols of stream 2 have 0 + 4 and 4 + 0. The walk has label 3, label 1 and
/// label 2.
fn larger_first(share: i64) -> Contents {
    two_real(10, share, 1, [1, -1], [-4, -4])
}

/// Labels 0 to 3 have 17 + 4, 13 + 0, 5 + 4 and 9 + 0; the symbols of stream 2 have 1 + 4 and 9 + 0. The walk has label 2, label 3 and
/// label 1.
fn larger_later(share: i64) -> Contents {
    two_real(10, share, 1, [2, -2], [0, -4])
}

/// Labels 0 to 3 have 1 + 8, 13 + 0, 1 + 12 and 5 + 4: label 3 has the least prior cost, though more of it than label 0 in stream 1.
fn whole_cost(share: i64) -> Contents {
    two_real(10, share, -1, [1, -1], [4, -8])
}

/// Labels 0 to 3 have 9 + 4, 5 + 0, 1 + 4 and 5 + 0: of labels 1 and 3, which have no prior cost, the smaller goes first.
fn equal_costs(share: i64) -> Contents {
    two_real(10, share, 1, [1, -1], [0, -4])
}

/// Records of one vector, and the vector's line in the listing, worked out by hand. The distance is that of the line's label: without
/// the priors, and whatever the labels have that were not walked.
pub fn lines() -> [(Contents, &'static str); 14] {
    let crossed = older(vec![2, 1, 1, 9, 2, 1, 3, 0, 1, -4, 0, 1, 0, 0, 0]);
    let farthest = older(vec![1, 2, 1, 9, 1, 1, 131_071, 131_071, 0, 0]);
    [
        (two_streams(10, 5), "1 complete 5 2 0 -4 4 1"),
        (two_streams(10, 4), "1 stopped 4 2 0 -8 10 1"),
        (weak_reading(), "1 stopped 4 2 0 -8 7 1"),
        // 9 + 0 and 1 + 10: the nearer label is not the best.
        (one_stream(2, 10, 5, 2), "1 complete 2 0 0 -5 9"),
        (one_stream(2, 10, 5, 1), "1 stopped 1 0 0 5 9"),
        // 1 + 8 and 9 + 0: a tie, which Point 6 gives to label 1. By the smallest number alone it would be label 0, and the distance 1.
        (one_stream(-2, -8, 5, 2), "1 complete 2 1 0 5 9"),
        (one_stream(-2, -8, 5, 1), "1 stopped 1 1 0 -5 9"),
        (counted(), "1 complete 4 0 1 1 1 2"),
        (fewer(), "1 complete 3 1 1 2 -2 13"),
        (larger_first(6), "1 complete 5 3 0 0 4 5"),
        (larger_later(6), "1 complete 5 3 0 -4 4 9"),
        (whole_cost(6), "1 complete 5 3 1 -4 8 5"),
        // R rows (1, 3), (0, 1), y = (-4, 1): with the second bit 1, label 1 has (-4 + 1 - 3)^2. Label 0, which has 4, is not walked.
        (crossed, "1 stopped 2 1 0 9 -9 36"),
        // 2 x 131,070^2 is more than 32 bits hold.
        (farthest, "1 complete 1 3 0 -9 -9 34358689800"),
    ]
}

pub fn answer<const BITS: usize>(stopped: bool, nodes: i64, label: usize, values: [i64; BITS]) -> Answer {
    Answer { stopped, nodes, label, values: values.to_vec() }
}

/// The listing: the vector of two streams twice, C = 10, D = 3.
pub fn listing() -> Contents {
    older([[2, 1, 2, 10, 3].as_slice(), &TWO_STREAMS, &TWO_STREAMS].concat())
}

/// Its record, byte by byte.
pub const LISTING_RECORD: [u8; 29] = [
    0x43, 0x42, 0x52, 0x31, 0x02, 0x01, 0x02, 0x0A, 0x03, // The sizes.
    0x01, 0x02, 0x00, 0x01, 0x02, 0x00, 0x01, 0x00, 0x00, 0x00, // The vector, twice.
    0x01, 0x02, 0x00, 0x01, 0x02, 0x00, 0x01, 0x00, 0x00, 0x00,
];

/// What it is answered with.
pub fn listing_answers() -> [Answer; 2] {
    [answer(true, 4, 2, [-8, 10]), answer(true, 2, 2, [-10, 10])]
}

/// Its reply, byte by byte.
pub const LISTING_REPLY: [u8; 17] =
    [0x43, 0x42, 0x53, 0x31, 0x02, 0x01, 0x02, 0x01, 0x04, 0x02, 0x0F, 0x14, 0x01, 0x02, 0x02, 0x13, 0x14];

/// What is printed of it.
pub const LISTING: &str = "\
streams 2 bits 1 vectors 2 clip 10 share 3
1 stopped 4 2 0 -8 10 1
2 stopped 2 2 0 -10 10 1
total 6
";
