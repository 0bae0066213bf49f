//! Document 01's bench readings, edges and listing, and readings of document 02's points, run through both detectors.

use reference::comparison::expect;
use reference::detectors::{exhaustive, fast, plain, Detector};
use reference::format::block::Block;
use reference::format::encoding::{unfold, Contents, Opening};
use reference::format::record::{read, Refusal};
use reference::format::reply::{self, Answer};
use reference::inputs::readings::{
    answer, beside_another, owned, owned_reading, shared, starred, tied, two_streams, weak, weak_reading, weakened,
    LISTING_RECORD, LISTING_REPLY, OWNED_RECORD, OWNED_REPLY, WEAK_RECORD, WEAK_REPLY,
};
use reference::inputs::{cases, eq_31};
use std::fs;
use std::path::Path;

const DETECTORS: [Detector; 2] = [plain::detect, fast::detect];

/// Holds both detectors to a reply, with a buffer of the least length and one byte more.
fn replies(record: &[u8], room: usize, reply: &[u8]) {
    for detect in DETECTORS {
        for length in [room, room + 1] {
            expect(detect, record, length, Ok(reply));
        }
    }
}

fn answers(contents: &Contents, answers: &[Answer]) {
    let block = Block::of(contents);
    replies(&contents.record(), block.room(), &reply::encode(&block, answers));
}

fn refuses(record: &[u8], length: usize, refusal: Refusal) {
    DETECTORS.into_iter().for_each(|detect| expect(detect, record, length, Err(refusal)));
}

#[test]
fn the_ten_starred_readings() {
    for reading in starred() {
        answers(&reading.contents, &reading.answers);
    }
}

#[test]
fn the_metrics_of_the_two_stream_vector() {
    let block = Block::of(&two_streams(10, 5));
    let metrics = [0, 1, 2, 3].map(|label| exhaustive::metric(&block, &block.vectors[0], label));
    assert_eq!(metrics, [9, 5, 1, 5]);
}

#[test]
fn the_edges() {
    let record = |clip: i64, share: i64| two_streams(clip, share).record();
    refuses(&record(10, 1), 24, 8);
    answers(&two_streams(10, 2), &[answer(true, 2, 2, [-10, 10])]);
    refuses(&record(16_777_216, 5), 24, 7);
    answers(&two_streams(16_777_215, 5), &[answer(false, 5, 2, [-4, 4])]);
    assert_eq!(Block::of(&two_streams(10, 5)).room(), 24);
    refuses(&record(10, 5), 23, 14);
    refuses(&record(10, 5), 0, 14);
    refuses(&record(10, 1), 0, 8);
}

#[test]
fn the_listing_record() {
    replies(&LISTING_RECORD, 41, &LISTING_REPLY);
    refuses(&LISTING_RECORD, 40, 14);
    for length in 0..LISTING_RECORD.len() {
        refuses(&LISTING_RECORD[..length], 41, if length < 4 { 1 } else { 2 });
    }
    refuses(&[LISTING_RECORD.as_slice(), &[0]].concat(), 0, 13);
}

/// The first of "What the pruning papers invite", by a record that comes to its four leaves.
#[test]
fn a_clip_at_each_new_best_leaf_would_be_wrong() {
    let block = eq_31::block(10);
    for (label, metric) in eq_31::METRICS.into_iter().enumerate() {
        assert_eq!(exhaustive::metric(&block, &block.vectors[0], label), metric);
    }
    eq_31::cases().for_each(|(block, answer)| answers(&block.contents(), &[answer]));
}

/// Document 02, Point 1: 15 when Q is 8 and M is 4, after 5 and before anything of N; Q = 8 itself is accepted.
#[test]
fn eight_bits_with_four_streams() {
    for opening in Opening::ALL {
        let opened = |sizes: &[u8]| [&opening.bytes(), sizes].concat();
        for after in [&[] as &[u8], &[0x00], &[0x41], &[0x80], &[0x80, 0x00], &[0x01, 0x05, 0x04]] {
            refuses(&opened(&[&[0x04, 0x08], after].concat()), 64, 15);
        }
        for bits in [0, 3, 5, 7, 9, 10, 127] {
            refuses(&opened(&[0x04, bits]), 64, 5);
        }
        refuses(&opened(&[0x05, 0x08]), 64, 4);
        refuses(&opened(&[0x03, 0x08]), 64, 2);
    }
}

/// Document 02, Point 4: a stopped vector's bit with one empty side gets W, and nothing else does.
#[test]
fn the_readings_with_w() {
    for reading in weakened() {
        answers(&reading.contents, &reading.answers);
    }
    replies(&WEAK_RECORD, 24, &WEAK_REPLY);
    refuses(&WEAK_RECORD, 23, 14);
}

/// Document 02, Point 6: equal metrics go to the least prior cost, and only then to the smallest number.
#[test]
fn the_readings_of_ties() {
    for reading in tied() {
        answers(&reading.contents, &reading.answers);
    }
}

/// 16 when W is outside 0 to C, after 7 and before D; a number that is malformed is refused before it is ranged.
#[test]
fn the_edges_with_w() {
    let bytes = |bytes: &[u8]| [&Opening::Two.bytes(), bytes].concat();
    refuses(&weak(two_streams(10, 4), 11).record(), 24, 16);
    refuses(&weak(two_streams(0, 4), 1).record(), 24, 16);
    refuses(&weak(two_streams(10, 1), 11).record(), 24, 16);
    refuses(&weak(two_streams(10, 1), 10).record(), 24, 8);
    refuses(&weak(two_streams(16_777_216, 4), 16_777_217).record(), 24, 7);
    refuses(&bytes(&[0x01, 0x01, 0x01, 0x05, 0x85, 0x00]), 24, 3);
    refuses(&bytes(&[0x01, 0x01, 0x01, 0x05]), 24, 2);
    for length in 0..WEAK_RECORD.len() {
        refuses(&WEAK_RECORD[..length], 24, if length < 4 { 1 } else { 2 });
    }
    for last in [0x30, 0x34, 0x35] {
        refuses(&[&[0x43, 0x42, 0x52, last], &WEAK_RECORD[4..]].concat(), 24, 1);
    }
    assert_eq!(weak_reading().numbers, [2, 1, 1, 10, 7, 4, 1, 1, 0, 1, 1, 0, -1, 0, 0, 0]);
}

/// Document 02, Point 7: an owner's k-th of n vectors may walk n x D, less what its earlier ones walked, less (n - k) x M.
#[test]
fn the_readings_with_owners() {
    for reading in shared().iter().chain(&beside_another()) {
        answers(&reading.contents, &reading.answers);
    }
    replies(&OWNED_RECORD, 20, &OWNED_REPLY);
    refuses(&OWNED_RECORD, 19, 14);
}

/// The counts of the document's examples, each vector being the one of two streams with C = W = 10.
#[test]
fn the_counts_of_owners() {
    let nodes = |contents: Contents| plain::answers(&Block::of(&contents)).iter().map(|answer| answer.nodes).collect::<Vec<_>>();
    assert_eq!(nodes(owned([1, 2, 1, 2], 10, 3)), [4, 4, 2, 2]);
    assert_eq!(nodes(owned([1, 1, 2], 10, 3)), [4, 2, 3]);
    assert_eq!(nodes(owned([1, 2, 2, 1], 10, 4)), [5, 5, 3, 3]);
    let in_turn = std::array::from_fn::<i64, 64, _>(|at| at as i64 % 4 + 1);
    let each = [[5; 4]; 5].into_iter().chain([[3; 4]]).chain([[2; 4]; 10]).flatten().collect::<Vec<_>>();
    assert_eq!(nodes(owned(in_turn, 10, 3)), each);
}

/// 17 when an owner is outside 1 to 4, as it is read: after the header, and before its own vector's R.
#[test]
fn the_edges_with_owners() {
    let bytes = |bytes: &[u8]| [&[0x43, 0x42, 0x52, 0x33, 0x01, 0x01], bytes].concat();
    refuses(&bytes(&[0x01, 0x05, 0x03, 0x01, 0x05]), 24, 17);
    refuses(&bytes(&[0x01, 0x05, 0x03, 0x01]), 24, 2);
    refuses(&bytes(&[0x01, 0x05, 0x03, 0x00, 0x05]), 24, 8);
    for (owner, refusal) in [(vec![0x00], 17), (vec![0x7F], 17), (vec![0x80, 0x01], 17), (vec![0x84, 0x00], 3), (vec![0x84], 2)] {
        refuses(&bytes(&[&[0x01, 0x05, 0x03, 0x01], owner.as_slice()].concat()), 24, refusal);
    }
    refuses(&bytes(&[0x01, 0x05, 0x03, 0x01, 0x84, 0x80, 0x80, 0x80]), 24, 3);
    // The owner and the diagonal entry behind it; the first vector's prior and the second's owner.
    refuses(&bytes(&[0x01, 0x05, 0x03, 0x01, 0x05, 0x00, 0x04, 0x00, 0x14]), 24, 17);
    refuses(&bytes(&[0x02, 0x05, 0x03, 0x01, 0x04, 0x01, 0x04, 0x00, 0x80, 0x80, 0x80, 0x01, 0x05]), 24, 12);
    refuses(&bytes(&[0x02, 0x05, 0x03, 0x01, 0x04, 0x01, 0x04, 0x00, 0x14, 0x05]), 24, 17);
    for length in 0..OWNED_RECORD.len() {
        refuses(&OWNED_RECORD[..length], 24, if length < 4 { 1 } else { 2 });
    }
    refuses(&[OWNED_RECORD.as_slice(), &[0x00]].concat(), 24, 13);
    assert_eq!(owned_reading().numbers, [1, 1, 1, 5, 3, 1, 4, 1, 2, 0, 10]);
}

/// The longest record has 8,275 bytes and is accepted; a byte more is 13, a byte less 2.
#[test]
fn the_longest_record() {
    let longest = cases::longest_record();
    assert_eq!(longest.len(), 8_275);
    assert_eq!(fast::detect(&longest, &mut [0; reply::MOST_ROOM - 1]), -14);
    assert_eq!(read(&longest).map(|contents| contents.numbers.len()), Ok(3_142));
    refuses(&[longest.as_slice(), &[0x00]].concat(), 24, 13);
    refuses(&longest[..8_274], 24, 2);
}

/// M = 1, Q = 8, R = 1, y = 15 - 13i, C = 2: the point 1000 0001 is met, the label 129. Each axis' nearest other point is 4 away in
/// squared distance, so that C clips every value, and one node is walked.
#[test]
fn a_point_of_256() {
    let contents = Contents { opening: Opening::One, numbers: [[1, 8, 1, 2, 2, 1, 15, -13].as_slice(), &[0; 8]].concat() };
    assert_eq!(Block::of(&contents).room(), 48);
    answers(&contents, &[answer(false, 1, 129, [-2, 2, 2, 2, 2, 2, 2, -2])]);
    refuses(&contents.record(), 47, 14);
}

#[test]
fn every_refusal_leaves_the_buffer_alone() {
    for case in cases::all() {
        if let Err(refusal) = read(&case.bytes) {
            refuses(&case.bytes, 64, refusal);
        }
    }
}

/// A framed entry off the front of the detector's stored input: a two-byte length, low byte first, and that many bytes.
fn framed<'a>(rest: &mut &'a [u8]) -> &'a [u8] {
    let (length, after) = rest.split_at(2);
    let (entry, after) = after.split_at(usize::from(u16::from_le_bytes([length[0], length[1]])));
    *rest = after;
    entry
}

/// The proved detector's own test, which was typed from the documents, asked of both detectors: a record and the length of the buffer,
/// which is filled with AA; what is returned, and the buffer afterwards.
#[test]
fn the_stored_cases_of_the_proved_detector() {
    let folder = Path::new(env!("CARGO_MANIFEST_DIR")).join("../crates/detector_cases");
    let input = fs::read(folder.join("stdin")).expect("the stored input");
    let output = fs::read_to_string(folder.join("stdout")).expect("the stored output");
    let mut rest = input.as_slice();
    let mut lines = output.lines();
    while !rest.is_empty() {
        let (record, length) = (framed(&mut rest), framed(&mut rest));
        let line = lines.next();
        for detect in DETECTORS {
            let mut reply = vec![0xAA; usize::from(u16::from_le_bytes([length[0], length[1]]))];
            let returned = detect(record, &mut reply);
            let hex: String = reply.iter().map(|byte| format!("{byte:02X}")).collect();
            assert_eq!(line, Some(format!("{returned} {hex}").as_str()), "{record:02X?}");
        }
    }
    assert_eq!(lines.next(), None);
}

#[test]
fn unfolding_a_reply_gives_its_values_back() {
    assert_eq!([0x0F, 0x14, 0x13].map(unfold), [-8, 10, -10]);
}
