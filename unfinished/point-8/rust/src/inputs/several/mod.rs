//! What a call for several records is tested on, in groups: every number of records, every refusal at every place, openings and sizes
//! mixed, bytes behind the fourth record, every beginning of some records, and buffers that just do and that just do not, for each record.

mod readings;

pub use readings::{readings, Reading};

use super::chance::Chance;
use super::channel::{any_block, opened, Sizes};
use super::numbers::contents_by;
use super::readings::{LISTING_RECORD, OWNED_RECORD, WEAK_RECORD};
use super::trials::{self, share, Trial};
use super::{owners, samples, Group};
use crate::detectors::{fast, reply};
use crate::format::block::{Block, SHAPES};
use crate::format::encoding::{Opening, Place};
use crate::format::record::split_first;
use crate::format::reply::OPENING as REPLY_OPENING;
use std::sync::LazyLock;

/// A piece of what a call is given: a record, or bytes that are none.
type Part = Vec<u8>;

/// What a call is given, and the lengths of buffers to try.
pub struct Batch {
    pub parts: Vec<Part>,
    /// None at all first, then those that are a byte short and that just do for a record; the last is long enough for all replies. A
    /// reading has its own alone.
    pub rooms: Vec<usize>,
    /// Whether the plain detector is quick enough for it, with all these buffers: its records have labels of at most 8
    /// bits, and no large shares.
    pub suits_plain: bool,
}

impl Batch {
    /// A part that is a record, or begins with one, finds what the replies before it leave of the buffer. Empty parts are
    /// left out.
    pub fn of(mut parts: Vec<Part>) -> Batch {
        parts.retain(|part| !part.is_empty());
        let (mut rooms, mut taken, mut suits_plain) = (vec![0], 0, true);
        for record in parts.iter().filter_map(|part| split_first(part).ok()).map(|(record, _)| record) {
            let block = Block::read(record).expect("an accepted record");
            let just = taken + block.room();
            rooms.extend([just - 1, just]);
            taken += reply(fast::detect, &block).len();
            suits_plain &= block.label_bits() <= 8 && block.share <= 200;
        }
        let longest = rooms.iter().max().map_or(0, |room| room + 300);
        rooms.push(longest);
        Batch { parts, rooms, suits_plain }
    }

    /// The bytes that a call is given.
    pub fn records(&self) -> Vec<u8> {
        self.parts.concat()
    }

    /// A buffer that is long enough for all replies.
    pub fn most_room(&self) -> usize {
        self.rooms[self.rooms.len() - 1]
    }
}

/// Records of the three openings, the smallest that the papers have.
fn small() -> [Part; 3] {
    [LISTING_RECORD.to_vec(), WEAK_RECORD.to_vec(), OWNED_RECORD.to_vec()]
}

/// Larger ones.
static LARGER: LazyLock<[Part; 3]> = LazyLock::new(|| ["priors", "weaker", "gauges"].map(sample));

/// So many records, the openings in turn from this one on; every fourth of them is a larger one.
fn whole(first: usize, count: usize) -> Vec<Part> {
    let part = |at: usize| if at % 4 == 3 { LARGER[at % 3].clone() } else { small()[at % 3].clone() };
    (first..first + count).map(part).collect()
}

fn sample(name: &str) -> Part {
    let (_, contents) = samples::all().into_iter().find(|sample| sample.0 == name).expect("there is such a sample");
    contents.record()
}

/// Bytes that begin no record, or that no record begins with.
fn stray() -> Vec<Part> {
    let opening = Opening::One.bytes();
    let bytes: [&[u8]; 8] = [&[0x00], &[0x01], &[0x80], &[0xFF], &[0x31], &[0x00; 4], &[0x00; 40], &REPLY_OPENING];
    let short = (1..4).map(|length| opening[..length].to_vec());
    let other = [0x30, 0x34, 0xB1].map(|last| [&opening[..3], &[last]].concat());
    bytes.map(|bytes| bytes.to_vec()).into_iter().chain(short).chain(other).collect()
}

/// Parts that are not answered: for each refusal but 14 a record that meets it, records whose sizes are wrong and which have all numbers
/// that these sizes call for, and bytes that are no record. 13 is met by a record with a byte behind it.
fn refused() -> Vec<Part> {
    let sizes = [(0, 1, 1), (5, 1, 1), (2, 3, 1), (2, 9, 1), (1, 1, 65), (4, 8, 1)];
    let of_sizes = |counts| contents_by(Opening::One, counts, |_, (least, greatest)| least.max(1).min(greatest)).record();
    let for_each = samples::refusals().into_iter().map(|(_, record)| record);
    for_each.chain(sizes.map(of_sizes)).chain(Opening::ALL.map(|opening| opening.bytes().to_vec())).chain(stray()).collect()
}

/// The readings' records, and their buffers.
fn of_readings() -> impl Iterator<Item = Batch> {
    readings().into_iter().map(|reading| Batch { rooms: vec![reading.room], ..Batch::of(vec![reading.records]) })
}

/// One to four small records, the openings in every order.
fn openings() -> impl Iterator<Item = Batch> {
    let mut all = vec![];
    let mut last = vec![vec![]];
    for _ in 0..4 {
        let longer = |parts: &Vec<Part>| small().map(|part| [parts.clone(), vec![part]].concat());
        last = last.iter().flat_map(longer).collect();
        all.extend(last.clone());
    }
    all.into_iter().map(Batch::of)
}

/// One to seven parts, and in each place every part that is not answered.
fn refusals() -> impl Iterator<Item = Batch> {
    let places = (1..=7).flat_map(|count| (0..count).map(move |at| (count, at)));
    places.flat_map(|(count, at)| {
        let with = move |(turn, part): (usize, Part)| {
            let mut parts = whole(turn, count);
            parts[at] = part;
            Batch::of(parts)
        };
        refused().into_iter().enumerate().map(with)
    })
}

/// Four records of which one is not answered, in each place, and bytes behind the fourth.
fn refusals_of_four() -> impl Iterator<Item = Batch> {
    let tails = [vec![0x00], LISTING_RECORD[..4].to_vec(), WEAK_RECORD[..19].to_vec()];
    (0..4).flat_map(move |at| {
        let tails = tails.clone();
        refused().into_iter().enumerate().flat_map(move |(turn, part)| {
            let with = move |tail: Part| {
                let mut parts = whole(turn, 4);
                parts[at] = part.clone();
                Batch::of([parts, vec![tail]].concat())
            };
            tails.clone().map(with)
        })
    })
}

/// Four records, and behind them bytes that are no record, a fifth cut at each length, a whole one, or up to four more.
fn more_than_four() -> impl Iterator<Item = Batch> {
    let cut = small().into_iter().flat_map(|part| (1..=part.len()).map(move |length| vec![part[..length].to_vec()]));
    let more = (2..=4).map(|count| whole(1, count));
    let tails: Vec<Vec<Part>> = stray().into_iter().map(|part| vec![part]).chain(cut).chain(more).collect();
    (0..3).flat_map(move |first| tails.clone().into_iter().map(move |tail| Batch::of([whole(first, 4), tail].concat())))
}

/// Five records cut at each length, none and all of them included; the openings in three orders.
fn cut_anywhere() -> impl Iterator<Item = Batch> {
    (0..3).flat_map(|first| {
        let parts: Vec<Part> = (first..first + 5).map(|at| small()[at % 3].clone()).collect();
        let Batch { rooms, .. } = Batch::of(parts.clone());
        (0..=parts.concat().len()).map(move |length| Batch { rooms: rooms.clone(), ..Batch::of(up_to(&parts, length)) })
    })
}

/// The first so many bytes of these parts.
fn up_to(parts: &[Part], length: usize) -> Vec<Part> {
    let mut left = length;
    let mut first = |part: &Part| {
        let taken = left.min(part.len());
        left -= taken;
        part[..taken].to_vec()
    };
    parts.iter().map(&mut first).filter(|part| !part.is_empty()).collect()
}

/// Buffers of every length, for one to five records and for three of which the third is refused.
fn every_room() -> impl Iterator<Item = Batch> {
    let refused = [whole(0, 2), vec![samples::refusals()[3].1.clone()]].concat();
    let runs = (1..=5).map(|count| (0..count).map(|at| small()[at % 3].clone()).collect()).chain([refused]);
    runs.map(|parts| {
        let batch = Batch::of(parts);
        Batch { rooms: (0..=batch.most_room()).collect(), ..batch }
    })
}

/// Two records of every M and Q beside every other M and Q, and two more; the openings in turn.
fn sizes() -> impl Iterator<Item = Batch> {
    let mut chance = Chance(81);
    let pairs = SHAPES.into_iter().flat_map(|one| SHAPES.map(|other| (one, other)));
    pairs.enumerate().map(move |(turn, (one, other))| {
        let shapes = [one, other, SHAPES[turn % 7], SHAPES[turn % 5]];
        let mut part = |((streams, bits), at): ((usize, usize), usize)| {
            let vectors = chance.between(1, 4) as usize;
            let sizes = chance.one_of(&[Sizes::TIES, Sizes::FULL]);
            let share = share(&mut chance, streams, if bits == 8 { 3 } else { 12 });
            let block = any_block(&mut chance, streams, bits, vectors, share, sizes);
            opened(block, Opening::ALL[(turn + at) % 3], &mut chance).record()
        };
        Batch::of(shapes.into_iter().zip(0..).map(&mut part).collect())
    })
}

/// Records of equal M, Q, N and C: some have a share that leaves many nodes, and others could do with these, in every order.
fn allowances() -> impl Iterator<Item = Batch> {
    let mut chance = Chance(82);
    (0..400).map(move |turn| {
        let (streams, bits) = [(2, 1), (1, 2), (2, 2), (3, 1)][turn % 4];
        let least = streams as i64;
        let first = any_block(&mut chance, streams, bits, 1 + turn % 3, least, Sizes::TIES);
        let mut part = |at: usize| {
            let vectors = any_block(&mut chance, streams, bits, 1 + turn % 3, least, Sizes::TIES).vectors;
            let share = least + if turn >> at & 1 == 1 { 100 } else { chance.between(0, 2) };
            let block = Block { share, vectors, ..first.clone() };
            opened(block, Opening::ALL[(turn / 16 + at) % 3], &mut chance).record()
        };
        Batch::of((0..4).map(&mut part).collect())
    })
}

/// Single records of many sorts, also refused ones.
fn alone() -> impl Iterator<Item = Batch> {
    let every_sort = trials::readings().chain(trials::reader_cases()).chain(trials::owner_numbers().step_by(4));
    let sized = trials::every_count().step_by(31).chain(trials::damaged().step_by(29));
    every_sort.chain(sized).filter(|trial| trial.suits_plain).map(|trial| Batch::of(vec![trial.record]))
}

/// One to six records by chance out of many sorts. One in nine is refused, so that most of the others are answered.
fn by_chance() -> impl Iterator<Item = Batch> {
    let sorts = trials::readings()
        .chain(trials::reader_cases().step_by(3))
        .chain(trials::headers().step_by(5))
        .chain(trials::weak_values().step_by(41))
        .chain(trials::ties().step_by(43))
        .chain(trials::priors_beyond_the_clip().step_by(47))
        .chain(trials::every_count().step_by(67))
        .chain(trials::damaged().step_by(61))
        .chain(owners::records().step_by(23));
    let is_short = |trial: &Trial| trial.suits_plain && trial.record.len() < 1_000;
    let all = sorts.filter(is_short).map(|trial| trial.record);
    let (answered, refused): (Vec<Part>, Vec<Part>) = all.partition(|record| Block::read(record).is_ok());
    let mut chance = Chance(83);
    (0..3_000).map(move |_| {
        let count = chance.between(1, 6);
        let part = |_| {
            let sort = if chance.between(1, 9) == 1 { &refused } else { &answered };
            sort[chance.between(0, sort.len() as i64 - 1) as usize].clone()
        };
        Batch::of((0..count).map(part).collect())
    })
}

/// The longest record that there is, but for walks of a few nodes: R is nearly diagonal, and its squares are large beside C.
fn longest() -> Part {
    let mut chance = Chance(84);
    let long = |place: Place, (least, greatest): (i64, i64)| match place {
        Place::Clip | Place::Weak | Place::Share => 2_097_152,
        Place::Owner => chance.between(least, greatest),
        Place::Right => chance.between(65, 70),
        Place::Received | Place::Prior => chance.between(8_193, 20_000),
        _ => greatest,
    };
    contents_by(Opening::Three, (4, 6, 64), long).record()
}

/// One to four of the longest records, as many in turn with others of that size, and bytes behind four of them.
fn largest() -> impl Iterator<Item = Batch> {
    let (full, long) = (sample("full-stopped"), longest());
    let behind = |tail: &Part| [vec![long.clone(); 4], vec![tail.clone()]].concat();
    let more = [behind(&vec![0x00]), behind(&full), vec![full.clone(), long.clone(), full.clone(), long.clone()]];
    (1..=4).map(move |count| vec![long.clone(); count]).chain(more).map(Batch::of)
}

/// The groups, in the order in which a slip is looked for; accepted is what has all its records answered in a buffer that is long enough.
pub fn groups() -> Vec<Group<Batch>> {
    vec![
        Group::of("readings", (127, 11), of_readings()),
        Group::of("openings in every order", (120, 120), openings()),
        Group::of("a refusal in every place", (1_092, 0), refusals()),
        Group::of("a refusal of four, and bytes behind", (468, 0), refusals_of_four()),
        Group::of("more than four", (243, 0), more_than_four()),
        Group::of("cut anywhere", (323, 12), cut_anywhere()),
        Group::of("buffers of every length", (6, 4), every_room()),
        Group::of("every pair of sizes", (361, 361), sizes()),
        Group::of("allowances", (400, 400), allowances()),
        Group::of("single records", (4_620, 1_114), alone()),
        Group::of("records by chance", (3_000, 1_531), by_chance()),
        Group::of("largest", (7, 5), largest()),
    ]
}

/// The batches of all groups.
pub fn all() -> impl Iterator<Item = Batch> {
    groups().into_iter().flat_map(|group| group.inputs)
}

#[cfg(test)]
mod tests {
    use super::*;
    use crate::detectors::several::MOST_RECORDS;
    use crate::format::record::MOST_BYTES;
    use crate::format::reply::MOST_ROOM;

    /// Four records have at most 33,100 bytes, and replies that 26,908 are enough for.
    #[test]
    fn the_largest_batch() {
        let most = largest().find(|batch| batch.parts.len() == MOST_RECORDS).expect("there are four records");
        assert_eq!((most.records().len(), MOST_RECORDS * MOST_BYTES, MOST_RECORDS * MOST_ROOM), (33_100, 33_100, 26_908));
    }

    #[test]
    fn how_many_calls_there_are() {
        assert_eq!(all().count(), 10_767);
        assert_eq!(all().map(|batch| batch.rooms.len()).sum::<usize>(), 68_997);
    }
}
