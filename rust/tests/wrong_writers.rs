//! A test of the tests: a third writer of block records, and a reader that fills a lent list, which can be given one slip at a time.
//! With no slip they agree with `writer` on every list of `lists` and on every record that is tried; with any slip some of these tell.
//!
//! The writer gathers all faults of a list and lets the one that is met first decide.

#[macro_use]
mod slips;

use reference::comparison::agree;
use reference::format::encoding::{fold, plain, unfold, Opening, Place};
use reference::format::record::{self, check_width, read_so_far, Refusal};
use reference::format::writer;
use reference::inputs::lengths;
use reference::inputs::lists::{self, List};
use reference::inputs::numbers::{range, row};
use reference::inputs::trials::{self, Trial};
use slips::is_seen_often;

slips! {
    /// Slips of the writer alone, and the order of checks.
    slips_of_the_writer {
        // Ranges.
        /// The lower and the upper end of a range are moved by so much.
        Range(Place, i64, i64) in moved_ranges(),
        /// D may be 1 or more, whatever M is.
        ShareFromOne,
        /// W is held to this C, another list's or the greatest, and not to the list's own.
        WeakTo(i64) in [0, 200, 16_777_215].map(WeakTo),
        /// This M and Q are answered otherwise: accepted, or refused by 5 or 15.
        Pair(i64, i64, Option<Refusal>) in (1..=4).flat_map(|streams| (-1..=10).flat_map(move |bits| other_answers(streams, bits))),
        /// Only so many bits of a number are looked at, the highest of them as its sign.
        Narrow(Place, u32) in Place::all(ALL_PLACES).flat_map(|place| [8, 16, 28].map(|bits| Narrow(place, bits))),
        /// Numbers of the vectors behind the first are not ranged.
        FirstVectorAlone,
        /// The last prior is not ranged.
        LastLeftOut,
        // The order of checks.
        /// This refusal is asked for before all others.
        First(Refusal) in [2, 5, 6, 7, 8, 9, 10, 11, 12, 13, 14, 16, 17].map(First),
        /// This one after all others: 13 then comes after 14.
        Last(Refusal) in [1, 2, 7, 8, 9, 10, 11, 12, 13, 15, 16, 17].map(Last),
        /// This one never: an opening that there is not is taken for 1.
        Never(Refusal) in [1, 2, 7, 8, 9, 10, 11, 12, 13, 14, 15, 16, 17].map(Never),
        /// 16 is asked for right before 7, or right after 8.
        WeakAt(Place) in [Place::Clip, Place::Share].map(WeakAt),
        /// 17 is asked for right after the number that follows the owner, where 9 stands, or behind the vector's last prior.
        OwnerAfter(Place) in [Place::Diagonal, Place::Prior].map(OwnerAfter),
        // Openings.
        /// An opening that there is not is taken for this.
        UnknownIs(Opening) in [Opening::Two, Opening::Three].map(UnknownIs),
        /// Only so many bits of the told number are looked at.
        NarrowOpening(u32) in [8, 16, 31].map(NarrowOpening),
        /// The opening is told by its last byte.
        ToldByByte,
        /// Told the first, the writer takes and makes what the second has, with W and owners or without, under the right bytes.
        OtherLayout(Opening, Opening) in pairs_of_openings().map(|(told, other)| OtherLayout(told, other)),
        /// Told the first, it writes the second's bytes before the right numbers.
        OtherBytes(Opening, Opening) in pairs_of_openings().map(|(told, other)| OtherBytes(told, other)),
        // Forms.
        /// No group has the high bit.
        NoHighBit,
        GreatestGroupFirst,
        /// A group of 0 more than is needed.
        OverLong,
        /// The list's numbers are taken for those of another order.
        Taken(Order) in ORDERS.map(Taken),
        /// They are put into the record in another order.
        Put(Order) in ORDERS.map(Put),
        // Lent memory.
        /// It is asked to have four bytes for each number, and four.
        RoomForLongest,
        /// The opening is written before anything is asked.
        OpeningAtOnce,
    }
    /// Slips of the reader alone.
    slips_of_the_reader {
        /// W is read, and left out of the list.
        WeakLeftOut,
        /// An older record's list has W, too.
        WeakAlways,
        /// Owners are read, and left out of the list.
        OwnersLeftOut,
        /// A list has an owner before its first vector, whatever the opening.
        OwnersAlways,
    }
    /// Slips of writer and reader, whether bytes or numbers are filled in.
    slips_of_both {
        /// A number that is to be folded is plain, or the other way round.
        OtherForm(Place) in Place::all(ALL_PLACES).map(OtherForm),
        /// 14 is given at the first number that no longer fits.
        RoomAsItGoes,
        /// Lent memory is asked to have so many entries more than are to be written.
        Room(i64) in [-1, 1].map(Room),
        /// What is returned is so much more.
        Returned(i64) in [-1, 1].map(Returned),
        /// How many entries were read is returned, not how many were written.
        OtherCountReturned,
        /// A count over untouched memory.
        Untouched,
        RestCleared,
        /// Each number is written as soon as it is ranged.
        WrittenAsItGoes,
        /// One entry is written before the last check, that of lent memory.
        EntryBeforeLast,
    }
}

/// The opening that has all places.
const ALL_PLACES: Opening = Opening::Three;

/// Pairs of openings that are not the same.
fn pairs_of_openings() -> impl Iterator<Item = (Opening, Opening)> {
    let pairs = Opening::ALL.into_iter().flat_map(|one| Opening::ALL.map(|other| (one, other)));
    pairs.filter(|(one, other)| one != other)
}

/// Orders that are not the record's.
#[derive(Clone, Copy, Debug, PartialEq, Eq)]
enum Order {
    /// D, W.
    ShareBeforeWeak,
    /// R's diagonal entry, owner, the rest of the vector.
    OwnerBehindDiagonal,
    /// The owner behind its vector.
    OwnerBehindVector,
    /// R, priors, y.
    PriorsBeforeReceived,
    /// R's diagonal, what is right of it, y, priors.
    DiagonalsFirst,
    /// y, R, priors.
    ReceivedFirst,
}

use Order::*;

const ORDERS: [Order; 6] =
    [ShareBeforeWeak, OwnerBehindDiagonal, OwnerBehindVector, PriorsBeforeReceived, DiagonalsFirst, ReceivedFirst];

/// All slips of the writer.
fn writing_slips() -> Vec<Slip> {
    [slips_of_the_writer(), slips_of_both()].concat()
}

/// All slips of the reader that are not the detector's too; tests/wrong_detectors.rs has others.
fn reading_slips() -> Vec<Slip> {
    [vec![First(14), Last(13), Never(14)], slips_of_the_reader(), slips_of_both()].concat()
}

fn moved_ranges() -> impl Iterator<Item = Slip> {
    let moved = |place: Place| [(-1, 0), (1, 0), (0, -1), (0, 1)].map(|(least, greatest)| Range(place, least, greatest));
    Place::all(ALL_PLACES).filter(|&place| place != Place::Bits).flat_map(moved)
}

/// What M and Q could be answered with, but for the right answer.
fn other_answers(streams: i64, bits: i64) -> impl Iterator<Item = Slip> {
    let right = check_width(streams, bits).err();
    [None, Some(5), Some(15)].into_iter().filter(move |&answer| answer != right).map(move |answer| Pair(streams, bits, answer))
}

// Lent memory.

/// A refusal, and where it is met: at the opening, which is 0, at which number from 1 on, or behind the last one, where 13 stands and
/// then 14.
#[derive(Clone, Copy)]
struct Fault {
    at: usize,
    refusal: Refusal,
}

/// What is to be written.
struct Made<T> {
    entries: Vec<T>,
    /// How many of the entries there are before the opening, before each number, and after the last.
    starts: Vec<usize>,
    /// How many entries there would be if nothing was wrong.
    needed: usize,
    /// How many numbers are called for.
    called_for: usize,
    /// How many entries there were to read from.
    read: usize,
}

/// Fills lent memory, if no fault is in the way, and returns what the call does.
fn fill<T: Copy + Default>(slip: Slip, faults: Vec<Fault>, made: &Made<T>, lent: &mut [T]) -> i64 {
    let short = short(slip, made, lent.len());
    let all = faults.into_iter().chain(short).filter(|fault| slip != Never(fault.refusal));
    let decisive = all.min_by_key(|fault| rank(slip, fault));
    alter(slip, decisive, made, lent);
    let count = made.entries.len() as i64;
    match (decisive, slip) {
        (Some(fault), _) => -i64::from(fault.refusal),
        (None, Returned(more)) => count + more,
        (None, OtherCountReturned) => made.read as i64,
        (None, _) => count,
    }
}

/// 14, if the lent memory is too short.
fn short<T>(slip: Slip, made: &Made<T>, room: usize) -> Option<Fault> {
    let needed = match slip {
        Room(more) => made.needed as i64 + more,
        RoomForLongest => 4 + 4 * made.called_for as i64,
        _ => made.needed as i64,
    };
    let at = match slip {
        RoomAsItGoes => made.starts.iter().filter(|&&start| start <= room).count().saturating_sub(1),
        _ => made.called_for + 2,
    };
    (needed > room as i64).then_some(Fault { at, refusal: 14 })
}

/// The order in which faults are met.
fn rank(slip: Slip, fault: &Fault) -> usize {
    match slip {
        First(moved) if moved == fault.refusal => 0,
        Last(moved) if moved == fault.refusal => usize::MAX,
        _ => fault.at + 1,
    }
}

/// Writes what an acceptance writes, or what a slip writes in spite of a refusal; as much of it as there is room for.
fn alter<T: Copy + Default>(slip: Slip, decisive: Option<Fault>, made: &Made<T>, lent: &mut [T]) {
    let last = made.starts.len() - 1;
    let count = match (decisive, slip) {
        (None, Untouched) => 0,
        (None, _) => made.entries.len(),
        (Some(_), OpeningAtOnce) => made.starts[1],
        (Some(fault), WrittenAsItGoes) => made.starts[fault.at.min(last)],
        (Some(Fault { refusal: 14, .. }), EntryBeforeLast) => 1,
        (Some(_), _) => 0,
    };
    let (own, rest) = lent.split_at_mut(count.min(lent.len()));
    own.copy_from_slice(&made.entries[..own.len()]);
    if decisive.is_none() && slip == RestCleared {
        rest.fill(T::default());
    }
}

// The writer.

fn write(slip: Slip, list: &List, record: &mut [u8]) -> i64 {
    let told = told(slip, list.opening);
    let unknown = match slip {
        UnknownIs(opening) => Some(opening),
        _ => None,
    };
    let (bytes, layout) = layout(slip, told.or(unknown).unwrap_or(Opening::One));
    let numbers: Vec<i64> = list.numbers.iter().copied().map(i64::from).collect();
    let sizes = narrowed(slip, layout.sizes(), &numbers);
    let places = called_for(slip, layout, &sizes);
    let numbers = narrowed(slip, &places, &numbers);
    let refused = (told.is_none() && unknown.is_none()).then_some(Fault { at: 0, refusal: 1 });
    let faults = refused.into_iter().chain(faults(slip, layout, &places, &numbers)).collect();
    fill(slip, faults, &made(slip, bytes, layout, &places, &numbers), record)
}

/// The opening of a told number.
fn told(slip: Slip, number: u32) -> Option<Opening> {
    match slip {
        NarrowOpening(bits) => Opening::told(number << (32 - bits) >> (32 - bits)),
        ToldByByte => Opening::told(number.wrapping_sub(0x30)),
        _ => Opening::told(number),
    }
}

/// The opening whose bytes are written, and the one whose numbers are.
fn layout(slip: Slip, opening: Opening) -> (Opening, Opening) {
    match slip {
        OtherLayout(told, other) if told == opening => (opening, other),
        OtherBytes(told, other) if told == opening => (other, opening),
        _ => (opening, opening),
    }
}

/// The numbers as far as the slip looks at them.
fn narrowed(slip: Slip, places: &[Place], numbers: &[i64]) -> Vec<i64> {
    let mut all = numbers.to_vec();
    for (number, &place) in all.iter_mut().zip(places) {
        match slip {
            Narrow(this, bits) if this == place => *number = *number << (64 - bits) >> (64 - bits),
            _ => (),
        }
    }
    all
}

/// The places that the list's M, Q and N call for; if these are not right, those of the numbers before the first vector.
fn called_for(slip: Slip, opening: Opening, numbers: &[i64]) -> Vec<Place> {
    let sizes = opening.sizes();
    let is_left = |fault: &Fault| slip == Last(fault.refusal) || slip == Never(fault.refusal);
    let is_right = numbers.len() >= 3 && faults(slip, opening, &sizes[..3], &numbers[..3]).iter().all(is_left);
    let mut all = if is_right { opening.places(numbers[0], numbers[1], numbers[2]) } else { sizes.to_vec() };
    if let Taken(order) = slip {
        reorder(order, opening, numbers, &mut all, |&place| place);
    }
    all
}

/// Numbers that are out of range, and an end that is too early or too late.
fn faults(slip: Slip, opening: Opening, places: &[Place], numbers: &[i64]) -> Vec<Fault> {
    let sizes = opening.sizes().len();
    let count = match slip {
        _ if places.len() <= sizes => places.len(),
        FirstVectorAlone => sizes + vector_length(opening, numbers),
        LastLeftOut => places.len() - 1,
        _ => places.len(),
    };
    let ranged = (0..count.min(numbers.len())).filter_map(|at| {
        let refusal = refusal(slip, places[at], numbers[at], numbers)?;
        Some(Fault { at: 1 + met_at(slip, places, at), refusal })
    });
    let ends = (numbers.len() < places.len()).then_some(Fault { at: 1 + numbers.len(), refusal: 2 });
    let goes_on = (numbers.len() > places.len()).then_some(Fault { at: 1 + places.len(), refusal: 13 });
    ranged.chain(ends).chain(goes_on).collect()
}

/// Where a number's range is asked for. A fault of W that is moved is met before that of C, or behind that of D, one of an owner behind
/// that of the number that follows it, or behind the last of its vector. Of faults that are met at one place the earlier number's decides.
fn met_at(slip: Slip, places: &[Place], at: usize) -> usize {
    let next_owner = || (at + 1..places.len()).find(|&other| places[other] == Place::Owner);
    match (slip, places[at]) {
        (WeakAt(Place::Clip), Place::Weak) => at - 2,
        (WeakAt(_), Place::Weak) => at + 2,
        (OwnerAfter(Place::Diagonal), Place::Owner) => at + 2,
        (OwnerAfter(_), Place::Owner) => next_owner().unwrap_or(places.len()),
        _ => at,
    }
}

/// What a number is refused by, if it is.
fn refusal(slip: Slip, place: Place, number: i64, numbers: &[i64]) -> Option<Refusal> {
    let streams = numbers[0];
    let (least, greatest) = range(place, numbers);
    let (least, greatest) = match (slip, place) {
        (Pair(of, bits, answer), Place::Bits) if (of, bits) == (streams, number) => return answer,
        (_, Place::Bits) => return check_width(streams, number).err(),
        (ShareFromOne, Place::Share) => (1, greatest),
        (WeakTo(clip), Place::Weak) => (0, clip),
        (Range(moved, lower, upper), _) if moved == place => (least + lower, greatest + upper),
        _ => (least, greatest),
    };
    (number < least || number > greatest).then_some(row(place))
}

/// The record of numbers that may be out of range; those that are plain and below 0 go by their magnitude.
fn made(slip: Slip, bytes: Opening, layout: Opening, places: &[Place], numbers: &[i64]) -> Made<u8> {
    let mut parts: Vec<(Place, Vec<u8>)> =
        places.iter().zip(numbers).map(|(&place, &number)| (place, part(slip, place, number))).collect();
    if let Put(order) = slip {
        reorder(order, layout, numbers, &mut parts, |&(place, _)| place);
    }
    let (mut entries, mut starts) = (bytes.bytes().to_vec(), vec![0, Opening::LENGTH]);
    for (_, part) in parts {
        entries.extend(part);
        starts.push(entries.len());
    }
    Made { needed: entries.len(), entries, starts, called_for: places.len(), read: numbers.len() }
}

/// A number's bytes.
fn part(slip: Slip, place: Place, number: i64) -> Vec<u8> {
    let mut groups = plain(if is_folded(slip, place) { fold(number) } else { number.abs() });
    let last = groups.len() - 1;
    match slip {
        NoHighBit => groups.iter_mut().for_each(|group| *group %= 128),
        GreatestGroupFirst => {
            groups.reverse();
            groups.iter_mut().for_each(|group| *group |= 128);
            groups[last] %= 128;
        }
        OverLong => {
            groups[last] += 128;
            groups.push(0);
        }
        _ => (),
    }
    groups
}

fn is_folded(slip: Slip, place: Place) -> bool {
    place.is_folded() != (slip == OtherForm(place))
}

/// How many numbers a vector has.
fn vector_length(opening: Opening, numbers: &[i64]) -> usize {
    opening.places(numbers[0], numbers[1], 1).len() - opening.sizes().len()
}

/// Puts what stands for a record's numbers into another order, the numbers before the first vector and vector by vector.
fn reorder<T>(order: Order, opening: Opening, numbers: &[i64], all: &mut [T], place: fn(&T) -> Place) {
    let sizes = opening.sizes().len().min(all.len());
    let (sizes, vectors) = all.split_at_mut(sizes);
    sizes.sort_by_key(|one| rank_in(order, place(one)));
    if !vectors.is_empty() {
        let length = vector_length(opening, numbers);
        vectors.chunks_mut(length).for_each(|vector| vector.sort_by_key(|one| rank_in(order, place(one))));
        if order == OwnerBehindDiagonal && opening.has_owners() {
            vectors.chunks_mut(length).filter(|vector| vector.len() > 1).for_each(|vector| vector.swap(0, 1));
        }
    }
}

/// The place's rank in this order; equal ones stay as they are in the record.
fn rank_in(order: Order, place: Place) -> usize {
    match (order, place) {
        (ShareBeforeWeak, Place::Weak) => 2,
        (ShareBeforeWeak, Place::Share) => 1,
        (OwnerBehindVector, Place::Owner) => 1,
        (PriorsBeforeReceived, Place::Received) => 2,
        (PriorsBeforeReceived, Place::Prior) => 1,
        (DiagonalsFirst, Place::Right | Place::Received | Place::Prior) => 1,
        (ReceivedFirst, Place::Diagonal | Place::Right | Place::Prior) => 1,
        _ => 0,
    }
}

// The reader.

fn read(slip: Slip, bytes: &[u8], numbers: &mut [i32]) -> i64 {
    let opening = Opening::of(bytes);
    let so_far = read_so_far(bytes);
    let layout = opening.unwrap_or(Opening::One);
    let places = match so_far[..] {
        [streams, bits, vectors, ..] => layout.places(streams, bits, vectors),
        _ => layout.sizes().to_vec(),
    };
    let at = if opening.is_some() { 1 + so_far.len() } else { 0 };
    let refused = record::read(bytes).err().map(|refusal| Fault { at, refusal });
    let entries = |(&number, &place): (&i64, &Place)| match slip {
        WeakLeftOut if place == Place::Weak => vec![],
        WeakAlways if place == Place::Clip && !layout.has_weak() => vec![number as i32; 2],
        OwnersLeftOut if place == Place::Owner => vec![],
        OwnersAlways if place == Place::Share && !layout.has_owners() => vec![number as i32, 1],
        OtherForm(other) if other == place => vec![(if is_folded(slip, place) { unfold(number) } else { fold(number) }) as i32],
        _ => vec![number as i32],
    };
    let entries: Vec<i32> = so_far.iter().zip(&places).flat_map(entries).collect();
    let starts = [0].into_iter().chain(0..=entries.len()).collect();
    let made = Made { entries, starts, needed: places.len(), called_for: places.len(), read: bytes.len() };
    fill(slip, refused.into_iter().collect(), &made, numbers)
}

// The comparisons.

/// Do `writer` and this writer say the same, with every buffer to try?
fn agree_on_list(slip: Slip, list: &List) -> bool {
    agree(lists::write, |list, record| write(slip, list, record), list, list.lengths())
}

/// Do the two readers say the same, with every list to try?
fn agree_on_record(slip: Slip, trial: &Trial) -> bool {
    let lengths = lengths(read_so_far(&trial.record).len());
    agree(writer::read, |record, numbers| read(slip, record, numbers), &trial.record, lengths)
}

/// Records of every M and Q that are accepted, and records that are refused in every way.
fn records() -> impl Iterator<Item = Trial> {
    let refused = trials::headers().chain(trials::owner_numbers()).chain(trials::widths());
    trials::reader_cases().chain(refused).chain(trials::ends()).chain(trials::damaged())
}

#[test]
fn with_no_slip_every_list_agrees() {
    for list in lists::all() {
        assert!(agree_on_list(Clean, &list), "{list:?}");
    }
}

#[test]
fn with_no_slip_every_record_agrees() {
    for trial in records() {
        assert!(agree_on_record(Clean, &trial), "{:02X?}", trial.record);
    }
}

#[test]
fn every_slip_of_the_writer_is_seen_often() {
    assert_eq!(writing_slips().len(), 273);
    for slip in writing_slips() {
        assert!(is_seen_often(lists::all(), |list| !agree_on_list(slip, list)), "{slip:?}");
    }
}

#[test]
fn every_slip_of_the_reader_is_seen_often() {
    assert_eq!(reading_slips().len(), 28);
    for slip in reading_slips() {
        assert!(is_seen_often(records(), |trial| !agree_on_record(slip, trial)), "{slip:?}");
    }
}
