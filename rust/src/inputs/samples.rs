//! The sample records of samples/, by their whole numbers or by their bytes, and a record for each refusal.

use super::cases::longest_record;
use super::chance::Chance;
use super::channel::Plan;
use super::readings::{listing, owned, weak, LISTING_RECORD};
use super::with;
use crate::format::block::Block;
use crate::format::encoding::{Contents, Opening};
use crate::format::record::Refusal;
use crate::format::reply;

/// The names of the samples that are made here of numbers, and these.
pub fn all() -> [(&'static str, Contents); 13] {
    let sent = |seed: u64, plan: Plan| plan.block(&mut Chance(seed)).contents();
    [
        ("example", listing()),
        // Six vectors in strong noise, with an allowance that some of them use up.
        ("stopped", sent(21, Plan { streams: 4, bits: 4, vectors: 6, clip: 8.0, share: 40, noise: 0.9, prior: 0.0 })),
        // Two streams with priors of both signs, most of them right and some wrong.
        ("priors", sent(22, Plan { streams: 2, bits: 4, vectors: 4, clip: 8.0, share: 200, noise: 0.9, prior: 1.0 })),
        ("signed-priors", signed_priors()),
        // The largest block: four streams of 64 points, 64 vectors.
        ("full", sent(23, Plan { streams: 4, bits: 6, vectors: 64, clip: 8.0, share: 3_000, noise: 0.5, prior: 2.0 })),
        // The same sizes in strong noise, with an allowance that is used up before the last vectors.
        ("full-stopped", sent(6, Plan { streams: 4, bits: 6, vectors: 64, clip: 2.0, share: 60, noise: 0.9, prior: 1.0 })),
        // Three streams of 256 points with priors, and an allowance that the last vectors use up.
        ("wide", sent(24, Plan { streams: 3, bits: 8, vectors: 6, clip: 8.0, share: 60, noise: 0.9, prior: 0.5 })),
        ("weaker", weaker()),
        ("gauges", gauges()),
        // The example, but the last prior is above its range.
        ("refused", listing().with(24, 1_048_576)),
        // Four streams of 256 points, where three are the most.
        ("refused-wide", sent(25, Plan { streams: 4, bits: 8, vectors: 1, clip: 8.0, share: 60, noise: 0.9, prior: 0.0 })),
        // The example with W, which is one above C.
        ("refused-weak", weak(listing(), 11)),
        // The example with W = C and owners, of which the second is one above the range.
        ("refused-owner", owned([1, 5], 10, 3)),
    ]
}

/// Two streams of 16 points with priors, with an allowance that the last vectors use up, and a quarter of C as W.
fn weaker() -> Contents {
    let plan = Plan { streams: 2, bits: 4, vectors: 5, clip: 8.0, share: 12, noise: 0.9, prior: 0.5 };
    let block = plan.block(&mut Chance(39));
    let quarter = block.clip / 4;
    block.with_weak(quarter).contents()
}

/// Two streams of 16 points from four gauges, ten vectors, and a quarter of C as W. Gauge 3 has four vectors in strong noise, with
/// walks that are longer than its four shares; the others have two each in little noise.
fn gauges() -> Contents {
    let mut chance = Chance(616);
    let plan = Plan { streams: 2, bits: 4, vectors: 6, clip: 8.0, share: 9, noise: 0.3, prior: 0.0 };
    let easy = plan.block(&mut chance);
    let hard = Plan { vectors: 4, noise: 0.9, ..plan }.block(&mut chance);
    let (mut easy_vectors, mut hard_vectors) = (easy.vectors.iter(), hard.vectors.iter());
    let owners = vec![1, 3, 2, 3, 4, 1, 3, 2, 4, 3];
    let next = |&owner: &usize| if owner == 3 { hard_vectors.next() } else { easy_vectors.next() };
    let vectors = owners.iter().filter_map(next).cloned().collect();
    let weak = easy.clip / 4;
    Block { vectors, ..easy }.with_weak(weak).with_owners(owners).contents()
}

/// The names of the samples that were written by hand, as a text: samples/NAME.numbers is where their numbers come from.
pub const WRITTEN: [&str; 6] = ["bench", "tie", "points", "distance", "far", "ties"];

/// The names of the samples that no list of numbers makes, and their bytes; the last has as many as the listing program reads.
pub fn broken() -> [(&'static str, Vec<u8>); 5] {
    [
        ("empty", vec![]),
        ("other-opening", [&reply::OPENING, &LISTING_RECORD[4..]].concat()),
        ("cut", LISTING_RECORD[..28].to_vec()),
        ("trailing", [LISTING_RECORD.as_slice(), &[0x00]].concat()),
        ("too-long", [longest_record(), vec![0x00]].concat()),
    ]
}

/// One vector of two streams of four points, under priors of either sign, weak and strong, and none.
fn signed_priors() -> Contents {
    let vector = [3, 1, -2, 4, 5, -7, -3, 2];
    let priors =
        [[0, 0, 0, 0], [6, -4, 0, -1], [-6, 4, 0, 1], [1, 1, 1, 1], [-1, -1, -1, -1], [900, -900, 900, 0], [-900, 900, 0, 900]];
    let vectors = priors.iter().flat_map(|priors| [vector.as_slice(), priors].concat());
    Contents { opening: Opening::One, numbers: [2, 2, 7, 40, 9].into_iter().chain(vectors).collect() }
}

/// A record for each refusal that a record can meet, by number: the example with one thing wrong, for 15 with M and Q exchanged, for 16
/// with a W, for 17 with owners.
pub fn refusals() -> [(Refusal, Vec<u8>); 16] {
    let with_byte = |at: usize, byte: u8| with(&LISTING_RECORD, at, byte);
    let with_number = |at: usize, number: i64| listing().with(at, number).record();
    let with_bytes = |at: usize, bytes: &[u8], then: usize| [&LISTING_RECORD[..at], bytes, &LISTING_RECORD[then..]].concat();
    [
        (1, with_byte(3, 0x30)),
        (2, LISTING_RECORD[..20].to_vec()),
        (3, with_bytes(7, &[0x8A, 0x00], 8)),
        (4, with_byte(4, 5)),
        (5, with_byte(5, 3)),
        (6, with_byte(6, 65)),
        (7, with_number(3, 16_777_216)),
        (8, with_byte(8, 1)),
        (9, with_byte(9, 0)),
        (10, with_number(6, 2_048)),
        (11, with_number(9, -131_072)),
        (12, with_number(13, -1_048_576)),
        (13, with_bytes(29, &[0x00], 29)),
        (15, with_bytes(4, &[4, 8], 6)),
        (16, weak(listing(), 11).record()),
        (17, owned([1, 5], 10, 3).record()),
    ]
}

#[cfg(test)]
mod tests {
    use super::*;
    use crate::detectors::plain::answers;
    use crate::format::record::{read, MOST_BYTES};
    use crate::format::reply::Answer;

    /// Two complete vectors, a stopped one with values of both sides, beyond W and within it, and two with no value of both sides; empty
    /// sides of either sign.
    #[test]
    fn what_the_sample_with_w_shows() {
        let block = Block::of(&weaker());
        let answers = answers(&block);
        assert_eq!(answers.iter().map(|answer| answer.stopped).collect::<Vec<_>>(), [false, false, true, true, true]);
        let weak = block.weak;
        let beyond = |answer: &Answer| answer.values.iter().filter(|value| value.abs() > weak).count();
        let within = |answer: &Answer| answer.values.iter().filter(|value| value.abs() < weak).count();
        assert_eq!((beyond(&answers[2]), within(&answers[2])), (3, 1));
        for answer in &answers[2..] {
            assert!(answer.values.contains(&weak) && answer.values.contains(&-weak));
        }
        assert_eq!((beyond(&answers[3]), within(&answers[3]), beyond(&answers[4]), within(&answers[4])), (0, 0, 0, 0));
    }

    /// Gauge 3 has two complete vectors, one that uses up what is left of its four shares but for M, and one that gets M. The others'
    /// vectors are all complete, one of them with more nodes than D. If all were one gauge's, there would be enough for each.
    #[test]
    fn what_the_sample_of_gauges_shows() {
        let block = Block::of(&gauges());
        let all = answers(&block);
        let own: Vec<&Answer> = block.places_of(3).into_iter().map(|at| &all[at]).collect();
        assert_eq!(own.iter().map(|answer| answer.stopped).collect::<Vec<_>>(), [false, false, true, true]);
        assert_eq!((own.iter().map(|answer| answer.nodes).sum::<i64>(), own[3].nodes), (4 * block.share, 2));
        let others = (0..all.len()).filter(|&at| block.owners[at] != 3).map(|at| &all[at]);
        assert!(others.clone().all(|answer| !answer.stopped));
        assert_eq!(others.filter(|answer| answer.nodes > block.share).count(), 1);
        let weak = block.weak;
        assert!(answers(&block.with_weak(weak)).iter().all(|answer| !answer.stopped));
    }

    #[test]
    fn the_longest_sample_is_a_byte_longer_than_any_record() {
        let longest = broken().iter().map(|(_, record)| record.len()).max();
        assert_eq!((longest, MOST_BYTES + 1), (Some(8_276), 8_276));
    }

    #[test]
    fn each_refusal_has_its_record() {
        for (refusal, record) in refusals() {
            assert_eq!(read(&record), Err(refusal));
        }
    }

    #[test]
    fn the_samples_that_are_refused() {
        let records = all().map(|(name, contents)| (name, contents.record()));
        for (name, record) in records.into_iter().chain(broken()) {
            let refusal = match name {
                "empty" | "other-opening" => Some(1),
                "cut" => Some(2),
                "refused" => Some(12),
                "trailing" | "too-long" => Some(13),
                "refused-wide" => Some(15),
                "refused-weak" => Some(16),
                "refused-owner" => Some(17),
                _ => None,
            };
            assert_eq!(read(&record).err(), refusal, "{name}");
        }
    }
}
