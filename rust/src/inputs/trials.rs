//! Records that one detector, or reader, is compared with another on, in groups: all sizes M, Q and N, both ends of C, W and D and of
//! every other number, ties, also those that priors decide, priors beyond the clip, channels, long walks, stopped ones with W, shares of
//! several owners, and damage of every sort.

use super::cases;
use super::chance::Chance;
use super::channel::{any_block, opened, Plan, Sizes};
use super::numbers::contents_by;
use super::readings::{beside_another, shared, starred, tied, two_streams, weakened, LISTING_RECORD};
use super::{lengths, owners, ties as prior_ties, Group};
use crate::format::block::{Block, SHAPES};
use crate::format::encoding::{plain, Contents, Opening, Place};

/// How many blocks of each kind of numbers: 500 of each M and Q.
const TURNS: usize = 500 * SHAPES.len();

/// M and Q whose whole trees the plain detector can walk.
pub const SMALL_TREES: [(usize, usize); 12] =
    [(1, 1), (2, 1), (3, 1), (4, 1), (1, 2), (2, 2), (3, 2), (1, 4), (1, 6), (4, 2), (2, 4), (1, 8)];

/// A record, and the length of the shortest buffer that is accepted if the record is.
pub struct Trial {
    pub record: Vec<u8>,
    pub room: usize,
    /// Whether the plain detector is quick enough for it.
    pub suits_plain: bool,
}

impl Trial {
    /// Any bytes. A record that is refused has room for a reply of one small vector.
    pub fn of(record: Vec<u8>) -> Trial {
        match Block::read(&record) {
            Ok(block) => Trial { room: block.room(), suits_plain: block.label_bits() <= 8 || block.share <= 60, record },
            Err(_) => Trial { room: 24, suits_plain: true, record },
        }
    }

    pub(super) fn of_block(block: &Block) -> Trial {
        Trial { record: block.record(), room: block.room(), suits_plain: true }
    }

    /// Buffers to try: one that just does first. The longest walks are not walked twice.
    pub fn lengths(&self) -> impl Iterator<Item = usize> + '_ {
        lengths(self.room).into_iter().filter(|&length| self.suits_plain || length <= self.room)
    }
}

/// M and Q by turns.
pub(super) fn shape(turn: usize) -> (usize, usize) {
    SHAPES[turn % SHAPES.len()]
}

/// So many turns of each opening.
pub(super) fn of_each_opening(turns: usize) -> impl Iterator<Item = (Opening, usize)> {
    Opening::ALL.into_iter().flat_map(move |opening| (0..turns).map(move |turn| (opening, turn)))
}

/// A share that the plain detector can bear: M, a little more, or up to `most` more.
pub(super) fn share(chance: &mut Chance, streams: usize, most: i64) -> i64 {
    let streams = streams as i64;
    match chance.draw() % 4 {
        0 => streams,
        1 => streams + chance.between(0, 6),
        _ => streams + chance.between(0, most),
    }
}

fn any(seed: u64, sizes: Sizes) -> impl Iterator<Item = Trial> {
    let mut chance = Chance(seed);
    (0..TURNS).map(move |turn| {
        let (streams, bits) = shape(turn);
        let vectors = chance.between(1, if turn % SHAPES.len() == 0 { 8 } else { 3 }) as usize;
        let most = match (streams * bits, bits) {
            (0..=8, _) => 400,
            (9..=12, _) => 120,
            (_, 8) => 12,
            _ => 40,
        };
        let share = share(&mut chance, streams, most);
        Trial::of_block(&any_block(&mut chance, streams, bits, vectors, share, sizes))
    })
}

/// Numbers so small that equal metrics are common.
pub fn ties() -> impl Iterator<Item = Trial> {
    any(1, Sizes::TIES)
}

/// Priors that outweigh the clip and the distances.
pub fn priors_beyond_the_clip() -> impl Iterator<Item = Trial> {
    any(2, Sizes::PRIORS)
}

/// Numbers up to both ends of every range.
pub fn full_range() -> impl Iterator<Item = Trial> {
    any(3, Sizes::FULL)
}

/// Every number of the vectors, C and W, at one of its range's ends: the largest metrics.
pub fn ends() -> impl Iterator<Item = Trial> {
    let mut chance = Chance(14);
    of_each_opening(10 * SHAPES.len()).map(move |(opening, turn)| {
        let (streams, bits) = shape(turn);
        let number = |place: Place, (least, greatest): (i64, i64)| match place {
            Place::Share => least + 8,
            _ => chance.one_of(&[least, greatest]),
        };
        Trial::of(contents_by(opening, (streams as i64, bits as i64, 2), number).record())
    })
}

/// Receptions over Rayleigh channels.
pub fn channels() -> impl Iterator<Item = Trial> {
    let mut chance = Chance(4);
    (0..4_000).map(move |turn| {
        let (streams, bits) = shape(turn);
        let plan = Plan {
            streams,
            bits,
            vectors: 1 + turn % 3,
            clip: chance.one_of(&[0.0, 1.0, 8.0, 60.0]),
            share: share(&mut chance, streams, 60),
            noise: chance.one_of(&[0.1, 0.3, 0.5, 0.9, 2.0]),
            prior: chance.one_of(&[0.0, 0.0, 2.0, 10.0]),
        };
        Trial::of_block(&plan.block(&mut chance))
    })
}

/// Every N from 1 to 64, for each M and Q in turn.
pub fn every_count() -> impl Iterator<Item = Trial> {
    let mut chance = Chance(5);
    of_each_opening(64 * SHAPES.len()).map(move |(opening, turn)| {
        let (streams, bits) = shape(turn);
        let share = share(&mut chance, streams, if bits == 8 { 3 } else { 12 });
        let block = any_block(&mut chance, streams, bits, 1 + turn / SHAPES.len(), share, Sizes::TIES);
        Trial::of_block(&opened(block, opening, &mut chance))
    })
}

/// Blocks with W, under shares that stop most walks, some at once and some later.
pub fn weak_values() -> impl Iterator<Item = Trial> {
    let mut chance = Chance(15);
    (0..TURNS).map(move |turn| {
        let (streams, bits) = shape(turn);
        let sizes = chance.one_of(&[Sizes::TIES, Sizes::PRIORS, Sizes::FULL]);
        let vectors = chance.between(1, 4) as usize;
        let share = share(&mut chance, streams, if bits == 8 { 8 } else { 20 });
        let block = any_block(&mut chance, streams, bits, vectors, share, sizes);
        Trial::of_block(&opened(block, Opening::Two, &mut chance))
    })
}

/// Receptions with W, which is none, little or much of C, in noise that makes long walks.
pub fn weak_channels() -> impl Iterator<Item = Trial> {
    let mut chance = Chance(16);
    (0..1_900).map(move |turn| {
        let (streams, bits) = shape(turn);
        let plan = Plan {
            streams,
            bits,
            vectors: 1 + turn % 4,
            clip: chance.one_of(&[1.0, 8.0, 60.0]),
            share: share(&mut chance, streams, 60),
            noise: chance.one_of(&[0.5, 0.9, 2.0]),
            prior: chance.one_of(&[0.0, 2.0, 10.0]),
        };
        let block = plan.block(&mut chance);
        let weak = block.clip * chance.one_of(&[0, 1, 3, 7, 8]) / 8;
        Trial::of_block(&block.with_weak(weak))
    })
}

/// Small trees under the largest share, which stops no walk.
pub fn whole_walks() -> impl Iterator<Item = Trial> {
    let mut chance = Chance(6);
    of_each_opening(3_000).map(move |(opening, turn)| {
        let (streams, bits) = SMALL_TREES[turn % SMALL_TREES.len()];
        let sizes = chance.one_of(&[Sizes::TIES, Sizes::PRIORS, Sizes::FULL]);
        let block = any_block(&mut chance, streams, bits, 2, 17_043_520, sizes);
        Trial::of_block(&opened(block, opening, &mut chance))
    })
}

/// Walks of hundreds of nodes in the larger trees.
pub fn long_walks() -> impl Iterator<Item = Trial> {
    let mut chance = Chance(7);
    of_each_opening(64).map(move |(opening, turn)| {
        let (streams, bits) = [(2, 6), (4, 4), (3, 4), (3, 6), (4, 6), (2, 4), (2, 8), (3, 8)][turn % 8];
        let clip = chance.one_of(&[1.0, 8.0, 60.0]);
        let noise = chance.one_of(&[0.5, 0.9, 2.0]);
        let prior = chance.one_of(&[0.0, 2.0]);
        let plan = Plan { streams, bits, vectors: 1, clip, share: 500, noise, prior };
        let block = plan.block(&mut chance);
        Trial::of_block(&opened(block, opening, &mut chance))
    })
}

/// Walks of thousands of nodes, too long for the plain detector; under every other share some are stopped.
pub fn longest_walks() -> impl Iterator<Item = Trial> {
    let mut chance = Chance(10);
    of_each_opening(84).map(move |(opening, turn)| {
        let (streams, bits) = [(4, 6), (4, 4), (3, 6), (2, 6), (3, 4), (3, 8), (2, 8)][turn % 7];
        let clip = chance.one_of(&[8.0, 60.0, 1_000_000.0]);
        let prior = chance.one_of(&[0.0, 2.0]);
        let share = [20_000, 1_000][turn % 2];
        let plan = Plan { streams, bits, vectors: 2, clip, share, noise: 2.0, prior };
        let block = plan.block(&mut chance);
        Trial { suits_plain: false, ..Trial::of_block(&opened(block, opening, &mut chance)) }
    })
}

/// Records with a byte changed, cut anywhere, or with bytes added.
pub fn damaged() -> impl Iterator<Item = Trial> {
    let mut chance = Chance(8);
    of_each_opening(TURNS).map(move |(opening, turn)| {
        let (streams, bits) = shape(turn);
        let vectors = chance.between(1, 3) as usize;
        let block = any_block(&mut chance, streams, bits, vectors, streams as i64 + 2, Sizes::FULL);
        let mut record = opened(block, opening, &mut chance).record();
        let at = chance.between(0, record.len() as i64 - 1) as usize;
        match chance.draw() % 4 {
            0 => record.truncate(at),
            1 => record.extend((0..chance.between(1, 3)).map(|byte| byte as u8 * 64)),
            _ => record[at] ^= chance.between(1, 255) as u8,
        }
        Trial::of(record)
    })
}

/// A record of each M and Q cut at every length, whole at last.
pub fn cut_at_each_length() -> impl Iterator<Item = Trial> {
    let mut chance = Chance(11);
    of_each_opening(2 * SHAPES.len()).flat_map(move |(opening, turn)| {
        let (streams, bits) = shape(turn);
        let vectors = 1 + turn / SHAPES.len();
        let block = any_block(&mut chance, streams, bits, vectors, streams as i64 + 1, Sizes::FULL);
        let record = opened(block, opening, &mut chance).record();
        (0..=record.len()).map(move |length| Trial::of(record[..length].to_vec()))
    })
}

/// A record of each M and Q with each of its numbers in turn in a longer form: a last group of 0, or five groups.
pub fn over_long_numbers() -> impl Iterator<Item = Trial> {
    let mut chance = Chance(12);
    of_each_opening(SHAPES.len()).flat_map(move |(opening, turn)| {
        let (streams, bits) = shape(turn);
        let block = any_block(&mut chance, streams, bits, 2, streams as i64 + 1, Sizes::FULL);
        let contents = opened(block, opening, &mut chance).contents();
        let count = contents.numbers.len();
        (0..count * 2).map(move |at| Trial::of(with_over_long(&contents, at / 2, if at % 2 == 0 { 1 } else { 5 })))
    })
}

/// The record of these numbers, but for one: its last group has the high bit, and groups of 0 follow, to `least` groups at least.
fn with_over_long(contents: &Contents, at: usize, least: usize) -> Vec<u8> {
    let mut parts = contents.parts();
    let groups = &mut parts[at];
    let length = least.max(groups.len() + 1);
    groups.iter_mut().for_each(|group| *group |= 128);
    groups.resize(length - 1, 128);
    groups.push(0);
    [contents.opening.bytes().to_vec(), parts.concat()].concat()
}

/// M from 0 to 5 with Q from 0 to 10, and with larger ones that are 8 in their last 7, 8 or 16 bits.
pub fn widths() -> impl Iterator<Item = Trial> {
    let mut chance = Chance(13);
    let pairs = (0..=5).flat_map(|streams| (0..=10).chain([136, 264, 65_544]).map(move |bits| (streams, bits)));
    let sizes = Opening::ALL.into_iter().flat_map(move |opening| pairs.clone().map(move |pair| (opening, pair)));
    sizes.flat_map(move |(opening, (streams, bits))| of_sizes(&mut chance, opening, streams, bits)).map(Trial::of)
}

/// Ten records of this M and Q: five go on as an accepted one does, or would with a smaller Q; the others end right after Q, or with
/// an N that is cut off, over-long or out of range.
fn of_sizes(chance: &mut Chance, opening: Opening, streams: i64, bits: i64) -> Vec<Vec<u8>> {
    let sizes = [opening.bytes().to_vec(), plain(streams), plain(bits)].concat();
    let ends: [&[u8]; 5] = [&[], &[0x80], &[0x80, 0x00], &[0x00], &[0x41]];
    let mut all: Vec<Vec<u8>> = ends.iter().map(|end| [sizes.as_slice(), end].concat()).collect();
    for _ in 0..5 {
        let vectors = chance.between(1, 2) as usize;
        let block = any_block(chance, streams as usize, bits.min(10) as usize, vectors, streams + 2, Sizes::FULL);
        all.push([sizes.as_slice(), &opened(block, opening, chance).record()[6..]].concat());
    }
    all
}

/// Openings by their last byte, behind them M, Q, N and then C, W and D of every sort: at the ends of their ranges, beyond them, and
/// over-long; and a vector of one stream of one bit, with an owner before it where the opening has one.
pub fn headers() -> impl Iterator<Item = Trial> {
    let over_long = vec![0x85, 0x00];
    let of = |numbers: &[i64]| numbers.iter().map(|&number| plain(number)).chain([over_long.clone()]).collect::<Vec<_>>();
    let clips = of(&[0, 1, 5, 16_777_215, 16_777_216, 268_435_455]);
    let weaks = of(&[0, 1, 5, 6, 16_777_215, 16_777_216, 268_435_455]);
    let shares = of(&[0, 1, 2, 17_043_520, 17_043_521]);
    let mut all = vec![];
    for last in [0x30, 0x31, 0x32, 0x33, 0x34] {
        for (clip, weak) in clips.iter().flat_map(|clip| weaks.iter().map(move |weak| (clip, weak))) {
            let sizes = [&[0x43, 0x42, 0x52, last, 0x01, 0x01, 0x01], clip.as_slice(), weak].concat();
            let owner: &[u8] = if last == 0x33 { &[0x04] } else { &[] };
            all.extend(shares.iter().map(|share| [&sizes, share.as_slice(), owner, &[0x01, 0x04, 0x00, 0x14]].concat()));
        }
    }
    all.into_iter().map(Trial::of)
}

/// Two vectors of one stream of one bit, and before each an owner of every sort: in range, beyond it, over-long and cut off. The first
/// vector's diagonal entry and its prior are in range or beyond it.
pub fn owner_numbers() -> impl Iterator<Item = Trial> {
    let malformed = [vec![0x84, 0x00], vec![0x84, 0x80, 0x80, 0x80], vec![0x84, 0x80, 0x80, 0x80, 0x00], vec![]];
    let numbers = (0..=5).chain([127, 128, 132, 260, 65_540, 268_435_455]).map(plain);
    let owners: Vec<Vec<u8>> = numbers.chain(malformed).collect();
    let vectors: [&[u8]; 3] = [&[0x01, 0x04, 0x00, 0x14], &[0x00, 0x04, 0x00, 0x14], &[0x01, 0x04, 0x00, 0x80, 0x80, 0x80, 0x01]];
    let sizes = [&Opening::Three.bytes(), [0x01, 0x01, 0x02, 0x05, 0x03, 0x01].as_slice()].concat();
    let mut all = vec![];
    for (first, second) in owners.iter().flat_map(|first| owners.iter().map(move |second| (first, second))) {
        all.extend(vectors.map(|vector| [&sizes, first.as_slice(), vector, second, vectors[0]].concat()));
        all.push([&sizes, first.as_slice(), vectors[0], second].concat());
    }
    all.into_iter().map(Trial::of)
}

/// The record reader's test records.
pub fn reader_cases() -> impl Iterator<Item = Trial> {
    cases::all().into_iter().map(|case| Trial::of(case.bytes))
}

/// Document 01's starred readings, their edges, and the listing; and the readings with W, of ties, and with owners.
pub fn readings() -> impl Iterator<Item = Trial> {
    let edges = [two_streams(10, 1), two_streams(10, 2), two_streams(16_777_216, 5)];
    let readings = starred().into_iter().chain(weakened()).chain(tied()).chain(shared()).chain(beside_another());
    let contents = readings.map(|reading| reading.contents).chain(edges);
    contents.map(|contents| contents.record()).chain([LISTING_RECORD.to_vec()]).map(Trial::of)
}

/// The groups, in the order in which a slip is looked for.
pub fn groups() -> Vec<Group<Trial>> {
    vec![
        Group::of("readings", (73, 71), readings()),
        Group::of("the record reader's cases", (3_352, 896), reader_cases()),
        Group::of("openings, C, W and D", (1_680, 66), headers()),
        Group::of("numbers of owners", (1_024, 16), owner_numbers()),
        Group::of("weak values", (9_500, 9_500), weak_values()),
        Group::of("owners", (5_700, 5_700), owners::records()),
        Group::of("owners on channels", (1_900, 1_900), owners::channels()),
        Group::of("ties", (9_500, 9_500), ties()),
        Group::of("ties that priors decide", (7_410, 7_410), prior_ties::records()),
        Group::of("priors beyond the clip", (9_500, 9_500), priors_beyond_the_clip()),
        Group::of("full range", (9_500, 9_500), full_range()),
        Group::of("ends of ranges", (570, 570), ends()),
        Group::of("channels", (4_000, 4_000), channels()),
        Group::of("every count of vectors", (3_648, 3_648), every_count()),
        Group::of("weak values on channels", (1_900, 1_900), weak_channels()),
        Group::of("whole walks", (9_000, 9_000), whole_walks()),
        Group::of("long walks", (192, 192), long_walks()),
        Group::of("every pair of sizes", (2_520, 285), widths()),
        Group::of("damaged", (28_500, 5_207), damaged()),
        Group::of("cut at each length", (8_378, 114), cut_at_each_length()),
        Group::of("over-long numbers", (5_570, 0), over_long_numbers()),
        Group::of("longest walks", (252, 252), longest_walks()),
    ]
}

/// The records of all groups.
pub fn all() -> impl Iterator<Item = Trial> {
    groups().into_iter().flat_map(|group| group.inputs)
}

#[cfg(test)]
mod tests {
    use super::*;

    /// The longest walks do not, and a few of the reader's cases and of the damaged records.
    #[test]
    fn all_but_a_few_suit_the_plain_detector() {
        assert_eq!(all().count(), 123_669);
        assert_eq!(all().filter(|trial| trial.suits_plain).count(), 123_236);
    }
}
