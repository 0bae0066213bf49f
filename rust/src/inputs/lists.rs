//! Lists of numbers that one writer of block records is compared with another on, in groups: every opening, M, Q and N, each number at
//! the ends of its range and beyond them, lists cut at every length and lists that go on, two faults at once, openings that there are
//! not, and noise.

use super::chance::Chance;
use super::numbers::{contents_by, contents_by_chance, range};
use super::{lengths, Group};
use crate::format::block::SHAPES;
use crate::format::encoding::{Contents, Opening, Place};
use crate::format::writer::{self, made_so_far, narrow};

/// Numbers to try wherever a number can stand, beside the ends of its range: as far off as can be, around 0, the last number of
/// each length, plain and folded, with the next, and numbers that are 4 in their last 8, 16 or 28 bits.
const ANYWHERE: [i64; 22] = [
    LEAST,
    GREATEST,
    -1,
    0,
    1,
    63,
    64,
    -64,
    -65,
    127,
    128,
    8_191,
    8_192,
    -8_192,
    -8_193,
    16_383,
    16_384,
    2_097_151,
    2_097_152,
    260,
    65_540,
    268_435_460,
];

/// The least and the greatest number that a list can have.
const LEAST: i64 = i32::MIN as i64;
const GREATEST: i64 = i32::MAX as i64;

/// A list, the opening that is told with it, and how many bytes of a record it comes to before it is accepted or refused.
#[derive(Debug)]
pub struct List {
    pub opening: u32,
    pub numbers: Vec<i32>,
    pub room: usize,
}

impl List {
    /// Any numbers, right or wrong.
    pub fn of(contents: Contents) -> List {
        List::told(contents.opening.number(), narrow(contents.numbers))
    }

    /// The same with any number for the opening.
    pub fn told(opening: u32, numbers: Vec<i32>) -> List {
        List { opening, room: made_so_far(opening, &numbers).len(), numbers }
    }

    /// Buffers to try.
    pub fn lengths(&self) -> [usize; 4] {
        lengths(self.room)
    }
}

/// What `writer` makes of a list.
pub fn write(list: &List, record: &mut [u8]) -> i64 {
    writer::write(list.opening, &list.numbers, record)
}

// Lists that others start from.

/// A list of each opening, M and Q with this N, all other numbers in range.
fn right(vectors: i64) -> impl Iterator<Item = Contents> {
    let mut chance = Chance(vectors as u64);
    let shapes = Opening::ALL.into_iter().flat_map(|opening| SHAPES.map(|shape| (opening, shape)));
    shapes.map(move |(opening, (streams, bits))| contents_by_chance(&mut chance, opening, (streams as i64, bits as i64, vectors)))
}

/// The first numbers of a list, as many as `length`.
fn cut(contents: &Contents, length: usize) -> Contents {
    Contents { opening: contents.opening, numbers: contents.numbers[..length].to_vec() }
}

/// A list that goes on.
fn longer(contents: &Contents, more: &[i64]) -> Contents {
    Contents { opening: contents.opening, numbers: [&contents.numbers, more].concat() }
}

/// The two numbers next to a place's range, below it and above it.
fn next_to_range(contents: &Contents, place: Place) -> [i64; 2] {
    let (least, greatest) = range(place, &contents.numbers);
    [least - 1, greatest + 1]
}

/// A number that is out of range at this place: next to an end, or as far off as can be.
fn beyond(chance: &mut Chance, contents: &Contents, place: Place) -> i64 {
    let [below, above] = next_to_range(contents, place);
    chance.one_of(&[below, above, LEAST, GREATEST])
}

// The groups.

/// M from -1 to 6 with Q from -1 to 10, and with larger ones that are 4 or 8 in their last 7, 8 or 16 bits.
pub fn pairs_of_sizes() -> impl Iterator<Item = List> {
    let mut chance = Chance(21);
    let streams = (-1..=6).chain([132, 260, 65_540, -252, LEAST + 4]);
    let bits = (-1..=10).chain([136, 264, 65_544, -248, LEAST + 8]);
    let pairs = streams.flat_map(move |streams| bits.clone().map(move |bits| (streams, bits)));
    let sizes = Opening::ALL.into_iter().flat_map(move |opening| pairs.clone().map(move |pair| (opening, pair)));
    sizes.flat_map(move |(opening, (streams, bits))| of_sizes(&mut chance, opening, streams, bits)).map(List::of)
}

/// Ten lists of this M and Q: five end right after Q or after an N; the others go on as a right one does, or would with a nearer M
/// and Q, whole, cut by a number, and with one too many.
fn of_sizes(chance: &mut Chance, opening: Opening, streams: i64, bits: i64) -> Vec<Contents> {
    let ends: [&[i64]; 5] = [&[], &[1], &[0], &[65], &[1, -1]];
    let ended = |end: &&[i64]| Contents { opening, numbers: [&[streams, bits], *end].concat() };
    let mut all: Vec<Contents> = ends.iter().map(ended).collect();
    let mut whole = |vectors: i64| {
        contents_by_chance(chance, opening, (streams.clamp(1, 6), bits.clamp(0, 10), vectors)).with(0, streams).with(1, bits)
    };
    let (one, two) = (whole(1), whole(2));
    all.extend([cut(&one, one.numbers.len() - 1), longer(&one, &[0]), one, two, whole(3)]);
    all
}

/// Each M and Q with an N that is out of its range, that is larger or smaller than the vectors that follow, or that is 1 in its
/// last 8 or 16 bits.
pub fn counts_of_vectors() -> impl Iterator<Item = List> {
    let others = [LEAST, LEAST + 1, -255, -64, -1, 0, 1, 2, 3, 63, 64, 65, 66, 127, 128, 129, 257, 65_537, GREATEST];
    let few = (0..=2).flat_map(right).flat_map(move |list| others.map(|vectors| list.with(2, vectors)));
    let many = (63..=65).flat_map(right).flat_map(|list| [63, 64, 65].map(|vectors| list.with(2, vectors)));
    few.chain(many).map(List::of)
}

/// Each M and Q with D around M, around its greatest, and far off.
pub fn shares() -> impl Iterator<Item = List> {
    let around = |streams: i64| [0, 1, 2, 3, 4, 5, streams - 1, streams, streams + 1];
    let far = [LEAST, -17_043_520, -4, -1, 17_043_519, 17_043_520, 17_043_521, 34_087_040, GREATEST];
    right(1).flat_map(move |list| {
        let at = list.opening.sizes().len() - 1;
        around(list.numbers[0]).into_iter().chain(far).map(move |share| List::of(list.with(at, share)))
    })
}

/// Each M and Q with W around 0, around C, around C's greatest, and far off, for C at the ends of its range and between.
pub fn weak_values() -> impl Iterator<Item = List> {
    let far = [LEAST, -16_777_215, -1, 0, 1, 16_777_214, 16_777_215, 16_777_216, GREATEST];
    let around = |clip: i64| [-clip, clip - 1, clip, clip + 1, clip + 128, clip + 256, clip + 65_536];
    let lists = right(1).filter(|list| list.opening.has_weak());
    let by_clip = lists.flat_map(|list| [0, 1, 200, 16_777_214, 16_777_215].map(|clip| (list.with(3, clip), clip)));
    by_clip.flat_map(move |(list, clip)| far.into_iter().chain(around(clip)).map(move |weak| List::of(list.with(4, weak))))
}

/// Each M and Q with each of three owners in turn: in range, next to it, far off, negative, and 1 to 4 in its last 7, 8, 16 or 31 bits.
pub fn owners() -> impl Iterator<Item = List> {
    let near = -4..=8;
    let far = [LEAST, LEAST + 1, LEAST + 4, -65_535, -255, 127, 128, 129, 132, 257, 260, 65_537, 65_540, 16_777_217, GREATEST];
    right(3).filter(|list| list.opening.has_owners()).flat_map(move |list| {
        let places = list.places().into_iter().enumerate().filter(|&(_, place)| place == Place::Owner);
        let tried = near.clone().chain(far);
        let turns = places.flat_map(move |(at, _)| tried.clone().map(move |owner| (at, owner)));
        turns.map(move |(at, owner)| List::of(list.with(at, owner)))
    })
}

/// Right lists, right but for one number or for their end, and the empty one, with a number that tells no opening: 0, the next ones, the
/// openings' last bytes, numbers that are 1, 2 or 3 in their last 8, 16 or 31 bits, and the greatest.
pub fn unknown_openings() -> impl Iterator<Item = List> {
    let mut chance = Chance(26);
    let alike = [257, 258, 259, 65_537, 65_538, 65_539, 0x8000_0001, 0x8000_0002, 0x8000_0003];
    let openings = [0, 4, 5, 0x31, 0x32, 0x33, u32::MAX - 1, u32::MAX].into_iter().chain(alike);
    let lists = right(1).chain(right(2)).flat_map(move |list| {
        let places = list.places();
        let at = chance.between(0, places.len() as i64 - 1) as usize;
        let faulty = list.with(at, beyond(&mut chance, &list, places[at]));
        [cut(&list, 0), cut(&list, at), longer(&list, &[0]), faulty, list].map(|list| narrow(list.numbers))
    });
    lists.flat_map(move |numbers| openings.clone().map(move |opening| List::told(opening, numbers.clone())))
}

/// Right lists of one opening told with another.
pub fn other_openings() -> impl Iterator<Item = List> {
    (1..=4).flat_map(right).flat_map(|list| {
        let others = Opening::ALL.into_iter().filter(move |&opening| opening != list.opening);
        others.map(move |opening| List::of(Contents { opening, numbers: list.numbers.clone() }))
    })
}

/// Each number of a list of each M and Q and two vectors, in turn: at both ends of its range, one beyond each, and numbers to try
/// anywhere.
pub fn each_number_in_turn() -> impl Iterator<Item = List> {
    right(2).flat_map(|list| {
        let turns = list.places().into_iter().enumerate();
        turns.flat_map(move |(at, place)| {
            let [below, above] = next_to_range(&list, place);
            let tried = [below, below + 1, above - 1, above].into_iter().chain(ANYWHERE);
            tried.map(|number| List::of(list.with(at, number))).collect::<Vec<_>>()
        })
    })
}

/// Each number that has no sign, in turn, made negative in some ways: with the same magnitude, and with the same last 31, 16 or 8
/// bits.
pub fn negative_numbers() -> impl Iterator<Item = List> {
    right(2).flat_map(|list| {
        let turns = list.places().into_iter().enumerate().filter(|(_, place)| !place.is_folded());
        turns.flat_map(move |(at, _)| {
            let number = list.numbers[at];
            [-number, number + LEAST, number | -65_536, number | -256].map(|other| List::of(list.with(at, other)))
        })
    })
}

/// Two numbers out of range, at each pair of places of a list of each M and Q.
pub fn two_faults() -> impl Iterator<Item = List> {
    let mut chance = Chance(22);
    right(1).flat_map(move |list| {
        let places = list.places();
        let pairs = (0..places.len()).flat_map(|later| (0..later).map(move |earlier| (earlier, later)));
        let faulty = |(earlier, later): (usize, usize)| {
            let one = list.with(earlier, beyond(&mut chance, &list, places[earlier]));
            List::of(one.with(later, beyond(&mut chance, &list, places[later])))
        };
        pairs.map(faulty).collect::<Vec<_>>()
    })
}

/// A number out of range, at each place of a list of each M and Q, in a list that ends right behind it, ends later or goes on, or
/// in which nothing behind it is right.
pub fn a_fault_and_an_end() -> impl Iterator<Item = List> {
    let mut chance = Chance(23);
    right(1).chain(right(2)).flat_map(move |list| {
        let places = list.places();
        let count = places.len();
        let faulty = |at: usize| {
            let one = list.with(at, beyond(&mut chance, &list, places[at]));
            let length = chance.between(at as i64 + 1, count as i64) as usize;
            let nothing_right = longer(&cut(&one, at + 1), &vec![LEAST; count - at]);
            [cut(&one, at + 1), cut(&one, length), longer(&one, &[0]), nothing_right].map(List::of)
        };
        (0..count).flat_map(faulty).collect::<Vec<_>>()
    })
}

/// Lists that go on behind the last number, by one or by several; whatever follows, it is not ranged.
pub fn too_long() -> impl Iterator<Item = List> {
    let more: [&[i64]; 8] = [&[0], &[1], &[-1], &[LEAST], &[GREATEST], &[0; 7], &[LEAST; 3], &[GREATEST, 1, 2, 3]];
    [1, 2, 64].into_iter().flat_map(right).flat_map(move |list| {
        let numbers = &list.numbers;
        let vectors = &numbers[list.opening.sizes().len()..];
        let again: [&[i64]; 3] = [numbers, vectors, &numbers[numbers.len() - 1..]];
        more.into_iter().chain(again).map(|more| List::of(longer(&list, more))).collect::<Vec<_>>()
    })
}

/// Lists by chance: numbers of any size, small ones, and right lists with up to three numbers exchanged, some of them cut or
/// lengthened.
pub fn noise() -> impl Iterator<Item = List> {
    let mut chance = Chance(24);
    let turns = Opening::ALL.into_iter().flat_map(|opening| (0..12_000).map(move |turn| (opening, turn)));
    turns.map(move |(opening, turn)| {
        let length = chance.between(0, 40);
        let numbers = match turn % 6 {
            0 => (0..length).map(|_| any_number(&mut chance)).collect(),
            1 => (0..length).map(|_| chance.between(-2, 9)).collect(),
            _ => damaged(&mut chance, opening),
        };
        List::of(Contents { opening, numbers })
    })
}

fn any_number(chance: &mut Chance) -> i64 {
    i64::from(chance.draw() as i32)
}

fn damaged(chance: &mut Chance, opening: Opening) -> Vec<i64> {
    let (streams, bits) = chance.one_of(&SHAPES);
    let vectors = chance.between(1, 3);
    let mut numbers = contents_by_chance(chance, opening, (streams as i64, bits as i64, vectors)).numbers;
    let last = numbers.len() as i64 - 1;
    for _ in 0..chance.between(0, 3) {
        let shift = chance.between(0, 31);
        numbers[chance.between(0, last) as usize] = any_number(chance) >> shift;
    }
    match chance.draw() % 4 {
        0 => numbers.truncate(chance.between(0, last) as usize),
        1 => numbers.extend((0..chance.between(1, 3)).map(|_| any_number(chance))),
        _ => (),
    }
    numbers
}

/// Lists of each M and Q with every N, all numbers in range.
pub fn whole() -> impl Iterator<Item = List> {
    (1..=64).flat_map(right).map(List::of)
}

/// Every number at an end of its range, of each M and Q with N = 1 and N = 64: all at the lower, all at the upper, and twice by
/// chance.
pub fn ends() -> impl Iterator<Item = List> {
    let mut chance = Chance(25);
    let counts = [1, 64].into_iter().flat_map(|vectors| SHAPES.map(|(streams, bits)| (streams as i64, bits as i64, vectors)));
    let sizes = Opening::ALL.into_iter().flat_map(move |opening| counts.clone().map(move |counts| (opening, counts)));
    let lists = sizes.flat_map(move |(opening, counts)| {
        let mut list =
            |choose: fn(&mut Chance, (i64, i64)) -> i64| contents_by(opening, counts, |_, range| choose(&mut chance, range));
        let either = |chance: &mut Chance, (least, greatest)| chance.one_of(&[least, greatest]);
        [list(|_, (least, _)| least), list(|_, (_, greatest)| greatest), list(either), list(either)]
    });
    lists.map(List::of)
}

/// Lists of each M and Q, and the longest of all, cut at every length, whole at last.
pub fn cut_at_each_length() -> impl Iterator<Item = List> {
    let longest = Opening::ALL.map(|opening| contents_by(opening, (4, 6, 64), |_, (_, greatest)| greatest));
    let lists = right(1).chain(right(2)).chain(longest);
    lists.flat_map(|list| (0..=list.numbers.len()).map(move |length| List::of(cut(&list, length))))
}

/// The groups, the shorter lists first.
pub fn groups() -> Vec<Group<List>> {
    vec![
        Group::of("pairs of sizes", (6_630, 171), pairs_of_sizes()),
        Group::of("shares", (1_026, 432), shares()),
        Group::of("weak values", (3_040, 836), weak_values()),
        Group::of("owners", (1_596, 228), owners()),
        Group::of("unknown openings", (9_690, 0), unknown_openings()),
        Group::of("other openings", (456, 0), other_openings()),
        Group::of("each number in turn", (72_410, 41_429), each_number_in_turn()),
        Group::of("negative numbers", (2_548, 22), negative_numbers()),
        Group::of("two faults", (24_916, 0), two_faults()),
        Group::of("a fault and an end", (17_356, 0), a_fault_and_an_end()),
        Group::of("noise", (36_000, 5_389), noise()),
        Group::of("too long", (1_881, 0), too_long()),
        Group::of("whole", (3_648, 3_648), whole()),
        Group::of("ends of ranges", (456, 456), ends()),
        Group::of("counts of vectors", (3_762, 228), counts_of_vectors()),
        Group::of("cut at each length", (13_753, 117), cut_at_each_length()),
    ]
}

/// The lists of all groups.
pub fn all() -> impl Iterator<Item = List> {
    groups().into_iter().flat_map(|group| group.inputs)
}

#[cfg(test)]
mod tests {
    use super::*;
    use crate::format::record::{Refusal, MOST_BYTES};
    use crate::inputs::numbers::row;
    use std::collections::BTreeMap;

    /// What a list is answered with, the buffer being long enough: a refusal's number, or 0 for acceptance.
    fn answer(list: &List) -> Refusal {
        let returned = write(list, &mut [0; MOST_BYTES]);
        u32::try_from(-returned).unwrap_or(0)
    }

    /// How many lists of a group get each answer.
    fn answers(lists: impl Iterator<Item = List>) -> BTreeMap<Refusal, usize> {
        let mut counts = BTreeMap::new();
        for list in lists {
            *counts.entry(answer(&list)).or_insert(0) += 1;
        }
        counts
    }

    /// The places of the lists that groups start from, list by list.
    fn places_by_list(vectors: i64) -> impl Iterator<Item = Vec<Place>> {
        right(vectors).map(|list| list.places())
    }

    #[test]
    fn every_answer_is_reached() {
        let counts = answers(all());
        let reached: Vec<Refusal> = counts.keys().copied().collect();
        assert_eq!(reached, [0, 1, 2, 4, 5, 6, 7, 8, 9, 10, 11, 12, 13, 15, 16, 17]);
        assert_eq!(counts.values().sum::<usize>(), 199_168);
        assert!(counts.values().all(|&count| count > 30), "{counts:?}");
    }

    /// Noise alone, which has right openings, reaches every other answer too.
    #[test]
    fn every_answer_is_reached_by_chance() {
        let reached: Vec<Refusal> = answers(noise()).into_keys().collect();
        assert_eq!(reached, [0, 2, 4, 5, 6, 7, 8, 9, 10, 11, 12, 13, 15, 16, 17]);
    }

    #[test]
    fn groups_with_few_answers() {
        assert_eq!(answers(whole()), BTreeMap::from([(0, 3_648)]));
        assert_eq!(answers(ends()), BTreeMap::from([(0, 456)]));
        assert_eq!(answers(too_long()), BTreeMap::from([(13, 1_881)]));
        assert_eq!(answers(cut_at_each_length()), BTreeMap::from([(0, 117), (2, 13_636)]));
        assert_eq!(answers(shares()), BTreeMap::from([(0, 432), (8, 594)]));
        assert_eq!(answers(unknown_openings()), BTreeMap::from([(1, 9_690)]));
        assert_eq!(answers(weak_values()), BTreeMap::from([(0, 836), (16, 2_204)]));
        assert_eq!(answers(owners()), BTreeMap::from([(0, 228), (17, 1_368)]));
        assert_eq!(answers(counts_of_vectors()), BTreeMap::from([(0, 228), (2, 741), (6, 2_565), (13, 228)]));
    }

    /// Three lists of each opening for each pair that a record may have; four streams of eight bits are always refused by 15.
    #[test]
    fn the_pairs_of_sizes_that_are_accepted() {
        let counts = answers(pairs_of_sizes());
        assert_eq!((counts[&0], counts[&15]), (9 * SHAPES.len(), 30));
        let of_four_wide = pairs_of_sizes().filter(|list| list.numbers[..2] == [4, 8]);
        assert_eq!(answers(of_four_wide), BTreeMap::from([(15, 30)]));
    }

    #[test]
    fn the_earlier_of_two_faults_decides() {
        let earlier = |places: Vec<Place>| (0..places.len()).flat_map(move |later| places[..later].to_vec());
        let expected: Vec<Refusal> = places_by_list(1).flat_map(earlier).map(row).collect();
        assert_eq!(two_faults().map(|list| answer(&list)).collect::<Vec<_>>(), expected);
    }

    #[test]
    fn a_fault_decides_before_the_end() {
        let four = |place: Place| [row(place); 4];
        let expected: Vec<Refusal> = places_by_list(1).chain(places_by_list(2)).flatten().flat_map(four).collect();
        assert_eq!(a_fault_and_an_end().map(|list| answer(&list)).collect::<Vec<_>>(), expected);
    }

    /// Within its range a number is accepted, beyond it refused by its row of the table; a smaller C can leave W beyond its own range.
    /// M, Q and N are tried elsewhere.
    #[test]
    fn a_number_in_turn_is_accepted_or_has_its_row() {
        let places = |places: Vec<Place>| (0..places.len()).map(move |at| (at, places.clone()));
        let turns = places_by_list(2).flat_map(places).flat_map(|turn| vec![turn; 4 + ANYWHERE.len()]);
        for (list, (_, places)) in each_number_in_turn().zip(turns).filter(|(_, (at, _))| *at >= 3) {
            let numbers: Vec<i64> = list.numbers.iter().copied().map(i64::from).collect();
            let is_wrong = |&at: &usize| {
                let (least, greatest) = range(places[at], &numbers);
                at > 2 && !(least..=greatest).contains(&numbers[at])
            };
            let expected = (0..places.len()).find(is_wrong).map_or(0, |at| row(places[at]));
            assert_eq!(answer(&list), expected, "{list:?}");
        }
    }

    /// W is accepted from 0 to C.
    #[test]
    fn weak_values_are_accepted_or_refused_by_16() {
        for list in weak_values() {
            let is_right = (0..=list.numbers[3]).contains(&list.numbers[4]);
            assert_eq!(answer(&list), if is_right { 0 } else { 16 }, "{list:?}");
        }
    }

    #[test]
    fn the_room_of_an_accepted_list_just_does() {
        let mut longest = 0;
        for list in whole().chain(ends()) {
            let mut record = vec![0; list.room];
            assert_eq!(write(&list, &mut record), list.room as i64);
            assert_eq!(write(&list, &mut record[1..]), -14);
            longest = longest.max(list.room);
        }
        assert_eq!(longest, MOST_BYTES);
    }
}
