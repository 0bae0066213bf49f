//! A test of the tests: a third detector, which can be given one slip at a time. With no slip it agrees on every record of `trials`;
//! with any slip some record tells.
//!
//! It keeps 000's list (the best label, its metric, an extrinsic metric for each bit) in place of the leaves. The slips are what
//! document 01 says that the pruning papers invite, the frauds of its Agreement, what the 256 points, the weak value, the ties and the
//! owners of document 02 invite, and the likely ones beside them. Its reader goes by the places that `encoding` has.

#[macro_use]
mod slips;

use reference::comparison;
use reference::detectors::plain::{self, Leaf};
use reference::format::block::{Block, Complex, Vector};
use reference::format::encoding::{plain as plain_form, unfold, Contents, Numbers, Opening, Place};
use reference::format::record::{check_width, read, read_plain, Refusal};
use reference::format::reply::{self, Answer};
use reference::inputs::numbers::{range, row};
use reference::inputs::readings::{beside_another, shared, tied};
use reference::inputs::trials::{self, Trial};
use reference::inputs::{eq_31, owners, ties};
use slips::is_seen_often;

/// Above every metric and limit.
const INFINITE: i64 = 1 << 45;

slips! {
    searching_slips {
        // What the pruning papers invite.
        /// 000's eq. 31: extrinsic metrics clipped from below too, at each new best leaf.
        ClipFromBelow,
        /// B left out of the test, as 001 may.
        BestLeftOut,
        /// All later siblings dropped after one is cut.
        SiblingsDropped,
        PriorAfterClip,
        PriorTwice,
        /// A stopped vector's values are clipped as any other's, and its mark says complete.
        MarkHidden,
        /// 001's sign.
        SignTurned,
        // The Agreement's frauds.
        /// Vector 1 is searched, the others are stopped at M nodes.
        OthersAtM,
        /// Stopped with one node of the allowance left.
        StoppedEarly,
        /// Stopped where the walk ends exactly with the allowance.
        StoppedWhenFull,
        /// Counts made from N and D.
        CountIsShare,
        PlusClipForEveryBit,
        /// A length over an untouched buffer.
        BufferUntouched,
        RefusesAll,
        // Others.
        /// What a vector leaves is not passed on.
        LeftoversLost,
        /// M nodes are not kept back for each later vector.
        NothingReserved,
        LargerLabelOnTie,
        LargerSymbolOnTie,
        /// At the limit is as good as below it.
        AtLimitPasses,
        /// Limits of bits that are not yet chosen are not looked at.
        UnchosenForgotten,
        /// The prior is left out of the limit.
        LimitWithoutPrior,
        /// Two entries of the table of 256 points are exchanged: here -1 - i and -1 + i.
        PointsExchanged(usize, usize) in [PointsExchanged(0b0100_0100, 0b0100_1100)],
    }
    /// What equal metrics invite, since prior costs decide between them.
    tie_slips {
        /// The smallest number alone decides.
        NumberAlone,
        /// The same under one opening alone.
        NumberAloneUnder(Opening) in Opening::ALL.map(NumberAloneUnder),
        /// The same of siblings, or of labels, alone.
        NumberAloneOf(Kind) in [Siblings, Labels].map(NumberAloneOf),
        /// Cost and number exchanged.
        NumberBeforeCost,
        LargerCostFirst,
        /// The same of siblings, or of labels, alone.
        LargerCostFirstOf(Kind) in [Siblings, Labels].map(LargerCostFirstOf),
        /// Only priors of this sign have a cost where metrics are equal.
        CostOfSign(i64) in [-1, 1].map(CostOfSign),
        /// A label that takes m's place has the cost of the one before it.
        CostKept,
        /// The same where the metrics are equal.
        CostKeptOnTie,
        /// Of a label's cost only what its leaf's own stream adds is looked at.
        LeafCostAlone,
        /// Of a label's cost what its leaf's own stream adds is left out.
        LeafCostLeftOut,
        /// A child of B's metric passes only if its cost is no larger than m's.
        CostInTest,
        /// A stopped vector has the smallest of its best labels.
        SmallestWhenStopped,
        /// A complete vector has the smallest of its best labels.
        SmallestWhenComplete,
    }
    /// Too few bits for a prior cost, which large numbers alone tell.
    cost_width_slips {
        /// Its last bits, as many.
        NarrowCost(u32) in [8, 16, 20].map(NarrowCost),
    }
    /// What W invites in the search, and in the reply.
    weak_slips {
        /// An empty side has C.
        WeakForgotten,
        /// The walk's limits go by W.
        WeakInLimits,
        /// A complete vector's side that was cut whole has W too.
        WeakWhenComplete,
        /// Every vector behind a stopped one has W for an empty side, complete or not.
        WeakFromFirstStop,
        /// A stopped vector's value of both sides is clipped by W.
        WeakClips,
        /// A stopped vector's value of both sides that is clipped has W.
        WeakForClipped,
        /// +W for -W and the other way round.
        EmptySideTurned,
        /// +W, whichever side is empty.
        EmptySidePlus,
        /// The prior is taken off W.
        PriorOffWeak,
        /// The reply's opening has the record's last byte.
        OpeningInReply,
        /// The reply has W behind N.
        WeakInReply,
    }
    /// What owners invite in the allowance, and in the reply.
    owner_slips {
        /// M nodes are kept back for each later vector of the record, whoever owns it.
        ReserveOverAll,
        /// What all owners have walked is taken off.
        SpentOfAll,
        /// N x D nodes for each owner.
        TotalOfAll,
        /// D nodes for each owner, however many vectors it has.
        OneShareEach,
        /// All owners have one share of N x D: each vector is taken for owner 1's.
        AllForOne,
        /// n is counted up to this vector only.
        CountSoFar,
        /// n is one too many, or one too few.
        CountMore(i64) in [-1, 1].map(CountMore),
        /// These two owners are taken for one.
        TakenTogether(usize, usize) in (1..=4).flat_map(|one| (1..one).map(move |other| TakenTogether(one, other))),
        /// The vector before this one, or the one behind it, says who the owner is.
        OwnerOf(isize) in [-1, 1].map(OwnerOf),
        /// The owners take turns, whatever the numbers say.
        OwnersInTurn,
        /// An owner's first vector is searched, its others are stopped at M nodes.
        OwnOthersAtM,
        /// What an owner leaves behind its last vector goes to the next vector's owner.
        LeftoversToNext,
        /// Only the first so many owners have shares of their own, the others' vectors get M nodes.
        OwnersUpTo(usize) in (1..=3).map(OwnersUpTo),
        /// The answers stand owner by owner.
        AnswersByOwner,
        /// The owner stands before each answer in the reply.
        OwnerInReply,
    }
    /// Slips of the reader alone, as the 256 points invite them.
    width_slips {
        /// 15 is checked before 5: four streams with Q = 9 are refused by 15.
        FourStreamsFirst,
        /// 15 is checked when the record has been read.
        FourStreamsLast,
        /// Four streams of eight bits are no fault at all.
        FourStreamsAccepted,
        /// They are refused as before, by 5.
        FourStreamsByFive,
        /// Q = 8 is refused as before, whatever M is.
        EightRefused,
    }
    /// Slips of the reader alone, as W and its opening invite them.
    opening_slips {
        /// 16 is checked before 7: where C is out of range, W is looked at.
        WeakBeforeClip,
        /// 16 is checked after 8.
        WeakAfterShare,
        /// 16 is checked when the record has been read.
        WeakLast,
        /// W above C is no fault at all.
        WeakAccepted,
        /// It is refused by 7.
        WeakBySeven,
        /// W is held to this C, another record's or the greatest, and not to the record's own.
        WeakTo(i64) in [0, 10, 16_777_215].map(WeakTo),
        /// W must be below C.
        WeakBelowClip,
        /// W must be above 0.
        WeakAboveZero,
        WeakFolded,
        /// D is read in W's place, and W in D's.
        ShareBeforeWeak,
        /// A record that opens as the first has the numbers of the second.
        TakenFor(Opening, Opening) in other_openings(),
        /// It is refused by 1.
        OpeningRefused(Opening) in Opening::ALL.map(OpeningRefused),
        /// The last byte of the opening is not looked at, where it is none of 31, 32 and 33.
        UnknownTaken(Opening) in Opening::ALL.map(UnknownTaken),
    }
    /// Slips of the reader alone, as owners invite them.
    owner_reading_slips {
        /// The lower and the upper end of an owner's range are moved by so much: 0 and 5 are accepted, or 1 and 4 refused.
        OwnerRange(i64, i64) in [(-1, 0), (0, 1), (1, 0), (0, -1)].map(|(least, greatest)| OwnerRange(least, greatest)),
        /// No owner is a fault.
        OwnerAccepted,
        /// An owner out of range is refused by this.
        OwnerBy(Refusal) in [4, 6, 9, 13, 16].map(OwnerBy),
        /// Only so many bits of an owner are looked at.
        OwnerBits(u32) in [2, 3, 7, 8, 16].map(OwnerBits),
        OwnerFolded,
        /// 17 is checked when the first diagonal entry has been read and ranged.
        OwnerAfterDiagonal,
        /// 17 is checked behind the vector's priors.
        OwnerAfterVector,
        /// 17 is checked when the record has been read.
        OwnerLast,
        /// An owner is read at this place: behind the diagonal entry, behind the vector, or all of them before the first vector.
        OwnerAt(Spot) in [BehindDiagonal, BehindVector, BeforeAll, BeforeFirst].map(OwnerAt),
    }
}

/// Pairs of openings that are not the same.
fn other_openings() -> Vec<Slip> {
    let pairs = Opening::ALL.into_iter().flat_map(|one| Opening::ALL.map(|other| (one, other)));
    pairs.filter(|(one, other)| one != other).map(|(one, other)| TakenFor(one, other)).collect()
}

/// Where an owner could be looked for, besides before its vector.
#[derive(Clone, Copy, Debug, PartialEq, Eq)]
enum Spot {
    BehindDiagonal,
    BehindVector,
    /// One after another, before the first vector.
    BeforeAll,
    /// One for all vectors, before the first of them.
    BeforeFirst,
}

use Spot::*;

/// What metrics can be equal of.
#[derive(Clone, Copy, Debug, PartialEq, Eq)]
enum Kind {
    Siblings,
    Labels,
}

use Kind::*;

/// The reader, place by place.
fn read_with(slip: Slip, record: &[u8]) -> Result<Contents, Refusal> {
    let opening = opening_with(slip, record).ok_or(1_u32)?;
    let mut rest = &record[Opening::LENGTH..];
    let mut numbers = Numbers::new();
    for &place in &opening.sizes()[..3] {
        take_with(slip, opening, place, &mut rest, &mut numbers)?;
    }
    let places = places_with(slip, opening, &numbers);
    for (at, &place) in places.iter().enumerate().skip(3) {
        take_with(slip, opening, place, &mut rest, &mut numbers)?;
        check_owner_later(slip, &places[..=at], places.get(at + 1), &numbers)?;
    }
    if !rest.is_empty() {
        return Err(13);
    }
    match slip {
        FourStreamsLast => check_width(numbers[0], numbers[1])?,
        WeakLast if opening.has_weak() => check_weak(numbers[3], numbers[4])?,
        OwnerLast => places.iter().zip(&numbers).try_for_each(|(&place, &number)| check_if_owner(place, number))?,
        ShareBeforeWeak if opening.has_weak() => numbers.swap(4, 5),
        OwnerAt(_) if opening.has_owners() => numbers = put_right(opening, &places, numbers),
        _ => (),
    }
    Ok(Contents { opening, numbers })
}

/// Reads a number, and ranges it unless that is done later.
fn take_with(slip: Slip, opening: Opening, place: Place, rest: &mut &[u8], numbers: &mut Numbers) -> Result<(), Refusal> {
    let number = read_plain(rest)?;
    let is_other = match slip {
        WeakFolded => place == Place::Weak,
        OwnerFolded => place == Place::Owner,
        _ => false,
    };
    let number = if place.is_folded() != is_other { unfold(number) } else { number };
    let number = match slip {
        OwnerBits(bits) if place == Place::Owner => number % (1 << bits),
        _ => number,
    };
    check_with(slip, opening, place, numbers, number)?;
    numbers.push(number);
    Ok(())
}

/// The check of an owner that a slip puts off: to where the first diagonal entry has been read, or the whole vector.
fn check_owner_later(slip: Slip, places: &[Place], next: Option<&Place>, numbers: &[i64]) -> Result<(), Refusal> {
    let owner = places.iter().rposition(|&place| place == Place::Owner);
    let is_due = match slip {
        OwnerAfterDiagonal => owner.is_some_and(|owner| owner + 2 == places.len()),
        OwnerAfterVector => next.is_none_or(|&next| next == Place::Owner),
        _ => false,
    };
    match owner {
        Some(owner) if is_due => check_if_owner(places[owner], numbers[owner]),
        _ => Ok(()),
    }
}

fn check_if_owner(place: Place, number: i64) -> Result<(), Refusal> {
    if place == Place::Owner {
        within(place, &[], number)
    } else {
        Ok(())
    }
}

/// The numbers with an owner before each vector, from where they were read; one for all is every vector's.
fn put_right(opening: Opening, places: &[Place], numbers: Numbers) -> Numbers {
    let all = || places.iter().copied().zip(numbers.iter().copied());
    let owners: Vec<i64> = all().filter(|&(place, _)| place == Place::Owner).map(|(_, number)| number).collect();
    let mut owners = owners.iter().cycle().copied();
    let mut others = all().filter(|&(place, _)| place != Place::Owner).map(|(_, number)| number);
    let right = opening.places(numbers[0], numbers[1], numbers[2]);
    let number = |place: Place| if place == Place::Owner { owners.next() } else { others.next() };
    right.into_iter().filter_map(number).collect()
}

/// The opening as it is taken: it has the layout that the slip gives it.
fn opening_with(slip: Slip, record: &[u8]) -> Option<Opening> {
    match (slip, Opening::of(record)) {
        (TakenFor(this, other), Some(opening)) if opening == this => Some(other),
        (OpeningRefused(this), Some(opening)) if opening == this => None,
        (UnknownTaken(opening), None) if record.len() >= 4 && record.starts_with(&[0x43, 0x42, 0x52]) => Some(opening),
        (_, opening) => opening,
    }
}

/// The places that M, Q and N call for.
fn places_with(slip: Slip, opening: Opening, numbers: &[i64]) -> Vec<Place> {
    let mut places = opening.places(numbers[0], numbers[1], numbers[2]);
    match slip {
        ShareBeforeWeak if opening.has_weak() => places.swap(4, 5),
        OwnerAt(spot) if opening.has_owners() => return owners_at(spot, opening, &places),
        _ => (),
    }
    places
}

/// The same places, but for the owners'.
fn owners_at(spot: Spot, opening: Opening, places: &[Place]) -> Vec<Place> {
    let (sizes, vectors) = places.split_at(opening.sizes().len());
    let count = vectors.iter().filter(|&&place| place == Place::Owner).count();
    let mut vectors: Vec<Vec<Place>> = vectors.chunks(vectors.len() / count).map(|vector| vector[1..].to_vec()).collect();
    let mut before = vec![];
    match spot {
        BehindDiagonal => vectors.iter_mut().for_each(|vector| vector.insert(1, Place::Owner)),
        BehindVector => vectors.iter_mut().for_each(|vector| vector.push(Place::Owner)),
        BeforeAll => before.resize(count, Place::Owner),
        BeforeFirst => before.push(Place::Owner),
    }
    [sizes.to_vec(), before, vectors.concat()].concat()
}

/// A number as soon as it is read.
fn check_with(slip: Slip, opening: Opening, place: Place, before: &[i64], number: i64) -> Result<(), Refusal> {
    match (slip, place) {
        (_, Place::Bits) => check_width_with(slip, before[0], number),
        (WeakBeforeClip, Place::Clip) if opening.has_weak() => Ok(()),
        (WeakBeforeClip, Place::Weak) => check_weak(before[3], number).and_then(|()| within(Place::Clip, before, before[3])),
        (WeakAfterShare, Place::Share) if opening.has_weak() => {
            within(place, before, number).and_then(|()| check_weak(before[3], before[4]))
        }
        (WeakAfterShare | WeakLast | WeakAccepted, Place::Weak) => Ok(()),
        (WeakBySeven, Place::Weak) => check_weak(before[3], number).map_err(|_| 7),
        (WeakTo(clip), Place::Weak) => check_weak(clip, number),
        (WeakBelowClip, Place::Weak) => check_weak(before[3] - 1, number),
        (WeakAboveZero, Place::Weak) if number == 0 => Err(16),
        (_, Place::Owner) => check_owner_with(slip, number),
        _ => within(place, before, number),
    }
}

fn check_owner_with(slip: Slip, owner: i64) -> Result<(), Refusal> {
    let (least, greatest) = match slip {
        OwnerRange(lower, upper) => (1 + lower, 4 + upper),
        OwnerAccepted | OwnerAfterDiagonal | OwnerAfterVector | OwnerLast => (i64::MIN, i64::MAX),
        _ => (1, 4),
    };
    match slip {
        _ if (least..=greatest).contains(&owner) => Ok(()),
        OwnerBy(refusal) => Err(refusal),
        _ => Err(17),
    }
}

fn within(place: Place, before: &[i64], number: i64) -> Result<(), Refusal> {
    let (least, greatest) = range(place, before);
    if (least..=greatest).contains(&number) {
        Ok(())
    } else {
        Err(row(place))
    }
}

fn check_weak(clip: i64, weak: i64) -> Result<(), Refusal> {
    if weak <= clip {
        Ok(())
    } else {
        Err(16)
    }
}

fn check_width_with(slip: Slip, streams: i64, bits: i64) -> Result<(), Refusal> {
    match slip {
        FourStreamsFirst if streams == 4 => older(bits).map_err(|_| 15),
        FourStreamsLast | FourStreamsAccepted => check_width(1, bits),
        FourStreamsByFive => check_width(streams, bits).map_err(|_| 5),
        EightRefused => older(bits),
        _ => check_width(streams, bits),
    }
}

/// The check of Q before the 256 points.
fn older(bits: i64) -> Result<(), Refusal> {
    if bits == 8 {
        Err(5)
    } else {
        check_width(1, bits)
    }
}

fn detect(slip: Slip, record: &[u8], reply: &mut [u8]) -> i64 {
    let block = match read_with(slip, record) {
        Ok(_) if slip == RefusesAll => return -13,
        Ok(contents) => Block::of(&contents),
        Err(refusal) => return -i64::from(refusal),
    };
    if reply.len() < block.room() {
        return -14;
    }
    let answers = answers(slip, &block);
    let mut bytes = reply::encode(&block, &answers);
    match slip {
        OwnerInReply if block.opening.has_owners() => bytes = with_owners(&block, &answers),
        OpeningInReply => bytes[3] = record[3],
        WeakInReply if block.opening.has_weak() => drop(bytes.splice(7..7, plain_form(block.weak))),
        _ => (),
    }
    if slip != BufferUntouched && bytes.len() <= reply.len() {
        reply[..bytes.len()].copy_from_slice(&bytes);
    }
    bytes.len() as i64
}

/// The reply with each vector's owner before its answer.
fn with_owners(block: &Block, answers: &[Answer]) -> Vec<u8> {
    let one = |answer: &Answer| reply::encode(block, std::slice::from_ref(answer))[7..].to_vec();
    let each = block.owners.iter().zip(answers).flat_map(|(&owner, answer)| [vec![owner as u8], one(answer)].concat());
    reply::encode(block, &[]).into_iter().chain(each).collect()
}

fn answers(slip: Slip, block: &Block) -> Vec<Answer> {
    let owners = owners_with(slip, block);
    let mut spent = Vec::new();
    let mut all = Vec::new();
    for vector in &block.vectors {
        let allowance = allowance(slip, block, &owners, &spent);
        let has_stopped = all.iter().any(|answer: &Answer| answer.stopped);
        let answer = answer(slip, block, vector, allowance, has_stopped);
        spent.push(answer.nodes);
        let nodes = if slip == CountIsShare { block.share } else { answer.nodes };
        all.push(Answer { nodes, ..answer });
    }
    if slip == AnswersByOwner {
        let places = (1..=4).flat_map(|owner| block.places_of(owner));
        return places.map(|at| all[at].clone()).collect();
    }
    all
}

/// The vectors' owners as the slip takes them; 1 to 4, but for those that have no share.
fn owners_with(slip: Slip, block: &Block) -> Vec<usize> {
    let last = block.owners.len() as isize - 1;
    let owner = |at: usize| match (slip, block.owners[at]) {
        (AllForOne, _) => 1,
        (TakenTogether(one, other), owner) if owner == one => other,
        (OwnerOf(step), _) => block.owners[(at as isize + step).clamp(0, last) as usize],
        (OwnersInTurn, _) if block.opening.has_owners() => at % 4 + 1,
        (_, owner) => owner,
    };
    (0..block.owners.len()).map(owner).collect()
}

/// What the vector behind those that have spent nodes may walk. Where a slip leaves less than M, it is M, so that the walk has a leaf.
fn allowance(slip: Slip, block: &Block, owners: &[usize], spent: &[i64]) -> i64 {
    let (at, streams, share) = (spent.len(), block.streams as i64, block.share);
    let is_own = |other: &usize| owners[*other] == owners[at];
    let count = (0..owners.len()).filter(is_own).count() as i64;
    let before = (0..at).filter(is_own).count() as i64;
    let own_spent: i64 = (0..at).filter(is_own).map(|other| spent[other]).sum();
    let later = count - before - 1;
    let own = count * share - own_spent - later * streams;
    let all = owners.len() as i64;
    let allowance = match slip {
        OthersAtM if at > 0 => streams,
        OwnOthersAtM if before > 0 => streams,
        OwnersUpTo(most) if owners[at] > most => streams,
        LeftoversLost => share,
        NothingReserved => count * share - own_spent,
        StoppedEarly => own - 1,
        ReserveOverAll => count * share - own_spent - (all - at as i64 - 1) * streams,
        SpentOfAll => count * share - spent.iter().sum::<i64>() - later * streams,
        TotalOfAll => all * share - own_spent - later * streams,
        OneShareEach => share - own_spent - later * streams,
        CountSoFar => (before + 1) * share - own_spent,
        CountMore(more) => own + more * (share - streams),
        LeftoversToNext => own + left_behind(block, owners, spent),
        _ => own,
    };
    allowance.max(streams)
}

/// What the owners whose last vector is among those searched have left.
fn left_behind(block: &Block, owners: &[usize], spent: &[i64]) -> i64 {
    let left = |owner: usize| {
        let own: Vec<usize> = (0..owners.len()).filter(|&at| owners[at] == owner).collect();
        let is_done = own.last().is_some_and(|&last| last < spent.len());
        if is_done {
            own.len() as i64 * block.share - own.iter().map(|&at| spent[at]).sum::<i64>()
        } else {
            0
        }
    };
    (1..=4).map(left).sum()
}

fn answer(slip: Slip, block: &Block, vector: &Vector, allowance: i64, has_stopped: bool) -> Answer {
    let best = Leaf { label: 0, metric: INFINITE, cost: 0 };
    let extrinsic = vec![INFINITE; block.label_bits()];
    let mut walk =
        Walk { slip, block, vector, allowance, nodes: 0, stopped: false, best, smallest: 0, extrinsic, ones: 0, zeros: 0 };
    walk.below(&Node { symbols: vec![], metric: 0, cost: 0, own_cost: 0 });
    let stopped = match slip {
        MarkHidden => false,
        StoppedWhenFull => walk.stopped || walk.nodes == allowance,
        _ => walk.stopped,
    };
    let is_weak = match slip {
        WeakForgotten => false,
        WeakWhenComplete => true,
        WeakFromFirstStop => walk.stopped || has_stopped,
        _ => walk.stopped,
    };
    let values = (0..block.label_bits()).map(|bit| walk.soft_value(bit, is_weak)).collect();
    let label = match slip {
        SmallestWhenStopped if stopped => walk.smallest,
        SmallestWhenComplete if !stopped => walk.smallest,
        _ => walk.best.label,
    };
    Answer { stopped, nodes: walk.nodes, label, values }
}

struct Walk<'a> {
    slip: Slip,
    block: &'a Block,
    vector: &'a Vector,
    allowance: i64,
    nodes: i64,
    stopped: bool,
    /// B, m and its prior cost; B is infinite before the first leaf.
    best: Leaf,
    /// The smallest of the labels with the least metric.
    smallest: usize,
    /// For each bit the least metric with it opposite to m's, less the prior that favours m's bit, and clipped from above.
    extrinsic: Vec<i64>,
    /// The bits that are 1, and those that are 0, in some walked label.
    ones: usize,
    zeros: usize,
}

/// A node, or the root: the symbols chosen, the lowest stream first, their partial metric, and the prior cost that is looked at where
/// metrics are equal: of all of them, and of the lowest alone.
struct Node {
    symbols: Vec<usize>,
    metric: i64,
    cost: i64,
    own_cost: i64,
}

impl Walk<'_> {
    fn below(&mut self, node: &Node) {
        if node.symbols.len() == self.block.streams {
            let cost = match self.slip {
                LeafCostAlone => node.own_cost,
                LeafCostLeftOut => node.cost - node.own_cost,
                _ => node.cost,
            };
            self.take_leaf(Leaf { label: self.block.label(&node.symbols), metric: node.metric, cost });
            return;
        }
        for child in self.children(node) {
            if self.stopped {
                return;
            }
            if self.passes(&child) {
                self.take(&child);
            } else if self.slip == SiblingsDropped {
                return;
            }
        }
    }

    fn take(&mut self, child: &Node) {
        if self.nodes == self.allowance {
            self.stopped = true;
        } else {
            self.nodes += 1;
            self.below(child);
        }
    }

    fn children(&self, node: &Node) -> Vec<Node> {
        let stream = self.block.streams - 1 - node.symbols.len();
        let child = |symbol: usize| {
            let symbols = [&[symbol], node.symbols.as_slice()].concat();
            let distance = plain::row_distance(self.vector, stream, symbols.iter().map(|&symbol| self.point(symbol)));
            let metric = node.metric + distance + plain::prior_cost(self.block, self.vector, stream, symbol);
            let own_cost = self.own_cost(stream, symbol);
            Node { symbols, metric, cost: node.cost + own_cost, own_cost }
        };
        let mut all: Vec<_> = (0..1 << self.block.bits).map(child).collect();
        all.sort_by_key(|child| self.rank(Siblings, child.metric, child.cost, child.symbols[0]));
        all
    }

    /// The prior cost of a stream's symbol that is looked at where metrics are equal.
    fn own_cost(&self, stream: usize, symbol: usize) -> i64 {
        let start = stream * self.block.bits;
        let cost = |place: usize| {
            let prior = self.vector.priors[start + place];
            let sign = if symbol >> (self.block.bits - 1 - place) & 1 == 1 { 1 } else { -1 };
            let counts = !matches!(self.slip, CostOfSign(counted) if counted != prior.signum());
            (sign * prior * i64::from(counts)).max(0)
        };
        (0..self.block.bits).map(cost).sum()
    }

    /// What labels or siblings rise by.
    fn rank(&self, kind: Kind, metric: i64, cost: i64, number: usize) -> (i64, i64, i64) {
        let number = number as i64;
        match self.slip {
            NumberAlone => (metric, 0, number),
            NumberAloneUnder(opening) if opening == self.block.opening => (metric, 0, number),
            NumberAloneOf(of) if of == kind => (metric, 0, number),
            NumberBeforeCost => (metric, number, cost),
            LargerCostFirst => (metric, -cost, number),
            LargerCostFirstOf(of) if of == kind => (metric, -cost, number),
            NarrowCost(bits) => (metric, cost % (1 << bits), number),
            LargerLabelOnTie if kind == Labels => (metric, cost, -number),
            LargerSymbolOnTie if kind == Siblings => (metric, cost, -number),
            _ => (metric, cost, number),
        }
    }

    fn point(&self, symbol: usize) -> Complex {
        let entry = match self.slip {
            PointsExchanged(one, other) if self.block.bits == 8 && symbol == one => other,
            PointsExchanged(one, other) if self.block.bits == 8 && symbol == other => one,
            _ => symbol,
        };
        plain::point(self.block.bits, entry)
    }

    fn passes(&self, child: &Node) -> bool {
        if self.best.metric == INFINITE {
            return true;
        }
        let metric = child.metric;
        let first_chosen = (self.block.streams - child.symbols.len()) * self.block.bits;
        let path = self.block.label(&child.symbols);
        let counts = |bit: usize| match bit < first_chosen {
            true => self.slip != UnchosenForgotten,
            false => (path ^ self.best.label) & self.block.mask(bit) != 0,
        };
        let is_below = |bit: usize| match self.slip {
            AtLimitPasses => metric <= self.limit(bit),
            _ => metric < self.limit(bit),
        };
        self.is_at_most_best(child) || (0..self.extrinsic.len()).any(|bit| counts(bit) && is_below(bit))
    }

    fn is_at_most_best(&self, child: &Node) -> bool {
        match self.slip {
            BestLeftOut => false,
            CostInTest => (child.metric, child.cost) <= (self.best.metric, self.best.cost),
            _ => child.metric <= self.best.metric,
        }
    }

    /// The extrinsic metric, with the prior put back.
    fn limit(&self, bit: usize) -> i64 {
        let extrinsic = match self.slip {
            WeakInLimits => self.extrinsic[bit].min(self.best.metric + self.block.weak),
            _ => self.extrinsic[bit],
        };
        extrinsic + if self.slip == LimitWithoutPrior { 0 } else { self.prior_for(self.best.label, bit) }
    }

    /// 000's list administration, with document 02's order of equal metrics.
    fn take_leaf(&mut self, leaf: Leaf) {
        self.ones |= leaf.label;
        self.zeros |= !leaf.label;
        let before = self.best;
        let rank = |leaf: Leaf| self.rank(Labels, leaf.metric, leaf.cost, leaf.label);
        let is_best = rank(leaf) < rank(before);
        if leaf.metric < before.metric || (leaf.metric == before.metric && leaf.label < self.smallest) {
            self.smallest = leaf.label;
        }
        for bit in 0..self.extrinsic.len() {
            let differs = (leaf.label ^ before.label) & self.block.mask(bit) != 0;
            if is_best && differs && before.metric < INFINITE {
                self.extrinsic[bit] = before.metric - self.prior_for(leaf.label, bit);
            } else if !is_best && differs {
                let metric = leaf.metric - self.prior_for(before.label, bit);
                self.extrinsic[bit] = self.extrinsic[bit].min(metric);
            }
            if is_best {
                let clipped = self.extrinsic[bit].min(leaf.metric + self.block.clip);
                let least = if self.slip == ClipFromBelow { leaf.metric - self.block.clip } else { -INFINITE };
                self.extrinsic[bit] = clipped.max(least);
            }
        }
        if is_best {
            let keeps_cost = match self.slip {
                CostKept => before.metric < INFINITE,
                CostKeptOnTie => leaf.metric == before.metric,
                _ => false,
            };
            self.best = Leaf { cost: if keeps_cost { before.cost } else { leaf.cost }, ..leaf };
        }
    }

    /// A bit's value, where an empty side has W or, as in a complete vector, C.
    fn soft_value(&self, bit: usize, is_weak: bool) -> i64 {
        let (clip, prior, mask) = (self.block.clip, self.vector.priors[bit], self.block.mask(bit));
        let sign = if self.best.label & mask != 0 { -1 } else { 1 };
        let value = sign * (self.extrinsic[bit] - self.best.metric);
        if is_weak && self.slip != PlusClipForEveryBit {
            let is_empty = self.ones & self.zeros & mask == 0;
            let weak = sign * self.block.weak;
            match self.slip {
                WeakForClipped if value.abs() >= clip => return weak,
                WeakClips if !is_empty => return value.clamp(-self.block.weak, self.block.weak),
                SignTurned | EmptySideTurned if is_empty => return -weak,
                EmptySidePlus if is_empty => return self.block.weak,
                PriorOffWeak if is_empty => return (weak - prior).clamp(-clip, clip),
                _ if is_empty => return weak,
                _ => (),
            }
        }
        match self.slip {
            PlusClipForEveryBit => clip,
            PriorAfterClip => (value + prior).clamp(-clip, clip) - prior,
            PriorTwice => (value - prior).clamp(-clip, clip),
            SignTurned => -value.clamp(-clip, clip),
            _ => value.clamp(-clip, clip),
        }
    }

    /// A bit's prior, its sign turned where the label's bit is 1.
    fn prior_for(&self, label: usize, bit: usize) -> i64 {
        let prior = self.vector.priors[bit];
        if label & self.block.mask(bit) != 0 {
            -prior
        } else {
            prior
        }
    }
}

/// Do the plain detector and this one say the same?
fn agree(slip: Slip, trial: &Trial) -> bool {
    comparison::agree(plain::detect, |record, reply| detect(slip, record, reply), &trial.record, [trial.room])
}

#[test]
fn with_no_slip_every_record_agrees() {
    comparison::compare(trials::groups(), |trial| {
        assert!(!trial.suits_plain || agree(Clean, &trial), "{:02X?}", trial.record);
        read_with(Clean, &trial.record).is_ok()
    });
}

#[test]
fn every_slip_is_seen() {
    assert_eq!((searching_slips().len(), tie_slips().len(), cost_width_slips().len()), (22, 19, 3));
    assert_eq!((weak_slips().len(), owner_slips().len()), (11, 24));
    assert_eq!((width_slips().len(), opening_slips().len(), owner_reading_slips().len()), (5, 24, 23));
    let searching = [searching_slips(), tie_slips(), cost_width_slips(), weak_slips(), owner_slips()];
    for slip in [searching.concat(), width_slips(), opening_slips(), owner_reading_slips()].concat() {
        let seen = trials::all().filter(|trial| trial.suits_plain).any(|trial| !agree(slip, &trial));
        assert!(seen, "no record tells {slip:?}");
    }
}

/// The records of chance alone see each of them too, and not by one lucky record.
#[test]
fn every_slip_is_seen_often() {
    for slip in searching_slips() {
        let by_chance = trials::priors_beyond_the_clip().chain(trials::ties());
        assert!(is_seen_often(by_chance, |trial| !agree(slip, trial)), "{slip:?}");
    }
    for slip in [tie_slips(), cost_width_slips()].concat() {
        assert!(is_seen_often(ties::records(), |trial| !agree(slip, trial)), "{slip:?}");
    }
    for slip in weak_slips() {
        assert!(is_seen_often(trials::weak_values(), |trial| !agree(slip, trial)), "{slip:?}");
        assert!(is_seen_often(trials::weak_channels(), |trial| !agree(slip, trial)), "{slip:?}");
    }
    for slip in owner_slips() {
        assert!(is_seen_often(owners::records(), |trial| !agree(slip, trial)), "{slip:?}");
        assert!(is_seen_often(owners::channels(), |trial| !agree(slip, trial)), "{slip:?}");
    }
}

/// The readings of ties alone see what prior costs invite.
#[test]
fn every_slip_of_ties_is_seen_by_a_reading() {
    for slip in tie_slips() {
        let seen = tied().into_iter().any(|reading| answers(slip, &Block::of(&reading.contents)) != reading.answers);
        assert!(seen, "no reading tells {slip:?}");
    }
}

/// The readings with owners alone see what owners invite in the allowance.
#[test]
fn every_slip_of_owners_is_seen_by_a_reading() {
    for slip in owner_slips().into_iter().filter(|&slip| slip != OwnerInReply) {
        let mut readings = shared().into_iter().chain(beside_another());
        let seen = readings.any(|reading| answers(slip, &Block::of(&reading.contents)) != reading.answers);
        assert!(seen, "no reading tells {slip:?}");
    }
}

/// The record reader's own test, which is stored and run by the proved reader, sees the reader's slips, and so do other records.
#[test]
fn every_slip_of_the_reader_is_seen_often() {
    let tells = |slip: Slip, trial: &Trial| read_with(slip, &trial.record) != read(&trial.record);
    for slip in width_slips() {
        assert!(is_seen_often(trials::reader_cases(), |trial| tells(slip, trial)), "{slip:?}");
        assert!(is_seen_often(trials::widths(), |trial| tells(slip, trial)), "{slip:?}");
    }
    for slip in opening_slips() {
        assert!(is_seen_often(trials::reader_cases(), |trial| tells(slip, trial)), "{slip:?}");
        assert!(is_seen_often(trials::headers(), |trial| tells(slip, trial)), "{slip:?}");
    }
    for slip in owner_reading_slips() {
        assert!(is_seen_often(trials::reader_cases(), |trial| tells(slip, trial)), "{slip:?}");
        assert!(is_seen_often(trials::owner_numbers(), |trial| tells(slip, trial)), "{slip:?}");
    }
}

/// Any two of the 256 points whose labels differ in one bit, so all neighbours too, exchanged: the point itself, sent without noise,
/// tells. tests/mapping.rs sends every point.
#[test]
fn every_exchange_of_neighbouring_points_is_seen() {
    for (symbol, bit) in (0..256).flat_map(|symbol| (0..8).map(move |bit| (symbol, bit))) {
        let matrix = vec![vec![Complex { re: 1, im: 0 }]];
        let vector = Vector { matrix, received: vec![plain::point(8, symbol)], priors: vec![0; 8] };
        let block = Block::older(1, 8, 0, 100, vec![vector]);
        assert_eq!(plain::answers(&block)[0].label, symbol);
        let other = symbol ^ 1 << bit;
        assert_eq!(answers(PointsExchanged(symbol, other), &block)[0].label, other);
    }
}

/// Document 01's example for eq. 31: the walk is the right one, and only the value of the bit is wrong, -1 in place of -3.
#[test]
fn clipping_from_below_says_what_document_01_says_it_does() {
    for (block, answer) in eq_31::cases() {
        let mut wrong = answer.clone();
        if !wrong.stopped {
            wrong.values[0] = -1;
        }
        assert_eq!(answers(Clean, &block), [answer]);
        assert_eq!(answers(ClipFromBelow, &block), [wrong]);
    }
}
