//! A test of the tests: a second listing, which can be given one slip at a time, such as document 02's Points 5 and 7 invite. With no slip
//! it is what is stored of every sample; with any slip some stored sample tells. The gate holds the listing program to the same samples.

#[macro_use]
mod slips;

use reference::detectors::fast;
use reference::detectors::plain::{self, Found, Leaf};
use reference::format::block::{is_against, Block, Complex, Vector};
use reference::format::record::Refusal;
use reference::format::reply::decode;
use reference::inputs::owners;
use reference::inputs::trials::{self, Trial};
use reference::listing::listing;
use slips::is_seen_often;
use std::fs;
use std::path::{Path, PathBuf};

slips! {
    /// Another number in the distance's place.
    number_slips {
        /// The metric, with the prior cost in it.
        WholeMetric,
        PriorCostAlone,
        /// Of the prior cost only what priors of this sign make is taken off the metric.
        OneSignOff(i64) in [-1, 1].map(OneSignOff),
        /// The magnitudes of all priors are taken off, whether a bit goes against them or not.
        AllPriorsOff,
        /// That of the leaf that was walked first.
        FirstLeaf,
        /// That of the leaf that was walked last.
        LastLeaf,
        /// The least of the walked labels, whatever their priors.
        NearestWalked,
        /// The least of all labels, whatever their priors.
        NearestOfAll,
        /// A stopped vector has that of the best label of all.
        BestOfAll,
        /// That of another vector.
        Of(Other) in [First, Last, Next, Before].map(Of),
        /// The vectors' distances are added up.
        SumSoFar,
        /// The leaf's own row alone, as if nothing was carried down to it.
        LeafRowAlone,
        /// What the leaf's parent has.
        LeafRowLeftOut,
        TopRowAlone,
        TopRowLeftOut,
        RealAlone,
        ImaginaryAlone,
    }
    /// Another label's number where metrics are equal.
    tie_slips {
        /// A label that takes the best one's place leaves the distance as it is.
        KeptOnTie,
        /// That of the smallest of the best labels.
        SmallestOnTie,
        /// That of the largest of the best labels.
        LargestOnTie,
        /// The least of the best labels.
        NearestOnTie,
    }
    /// The right number, and too few bits for it.
    width_slips {
        /// Its last bits.
        Unsigned(u32) in [24, 31, 32, 36].map(Unsigned),
        /// Its last 32 bits, the highest of them as its sign.
        Signed32,
        /// The greatest number that there is where it is greater.
        HeldTo(i64) in [i64::from(i32::MAX), i64::from(u32::MAX)].map(HeldTo),
    }
    /// The right number in another place or form.
    form_slips {
        /// So many words are before it; five are before the soft values.
        At(usize) in (0..=5).map(At),
        ForLastValue,
        LeftOut,
        LeftOutWhenStopped,
        LeftOutWhenComplete,
        TwoBlanks,
        BlankBehind,
        PlusSign,
        /// With a word before it.
        Named,
        /// The last line has the sum of the distances, too.
        SumBehindTotal,
        /// The last line has it in place of the nodes.
        SumForTotal,
    }
    /// What several owners invite: names, other orders, other sums, and other shares.
    owner_slips {
        /// A line has the owner at this place.
        OwnerAt(usize) in [0, 1, 2, 5].map(OwnerAt),
        /// A line ends with the owner.
        OwnerBehind,
        /// The first line ends with the number of owners.
        OwnersInFirstLine,
        /// The lines stand owner by owner.
        LinesByOwner,
        /// A line's number counts its owner's vectors.
        NumberedByOwner,
        /// The total is this owner's.
        TotalOf(usize) in (1..=4).map(TotalOf),
        /// The last line has a total for each owner.
        TotalOfEach,
        /// There is a total's line for each owner.
        LineOfEach,
        /// The owners are not told apart.
        OneOwner,
    }
}

/// A vector that is not the line's own.
#[derive(Clone, Copy, Debug, PartialEq, Eq)]
enum Other {
    First,
    Last,
    Next,
    Before,
}

use Other::*;

// What is known of a record.

/// A block, what was found of each vector, and what only slips ask for: the best labels of all, with their priors and without.
struct Searched {
    block: Block,
    found: Vec<Found>,
    best: Vec<usize>,
    nearest: Vec<usize>,
}

impl Searched {
    fn of(record: &[u8]) -> Result<Searched, Refusal> {
        let block = Block::read(record)?;
        let (found, best, nearest) = (plain::search(&block), best_of_all(&block), best_of_all(&without_priors(&block)));
        Ok(Searched { block, found, best, nearest })
    }
}

/// The best labels of all: what is found under the largest D. C, which they do not depend on, is 0, so that the walk is short.
fn best_of_all(block: &Block) -> Vec<usize> {
    let whole = Block { clip: 0, weak: 0, share: 17_043_520, ..block.clone() };
    let mut reply = vec![0; whole.room()];
    let length = fast::detect(&whole.record(), &mut reply);
    reply.truncate(usize::try_from(length).expect("a reply"));
    decode(&reply).into_iter().map(|answer| answer.label).collect()
}

fn without_priors(block: &Block) -> Block {
    let vectors = block.vectors.iter().map(|vector| Vector { priors: vec![0; block.label_bits()], ..vector.clone() });
    Block { vectors: vectors.collect(), ..block.clone() }
}

/// y less R times a label's points, row by row.
fn residuals(block: &Block, vector: &Vector, label: usize) -> Vec<Complex> {
    let points: Vec<Complex> = block.symbols(label).into_iter().map(|symbol| plain::point(block.bits, symbol)).collect();
    let residual = |row: usize| {
        let sent = vector.matrix[row].iter().zip(&points).map(|(&entry, &point)| entry * point);
        sent.fold(vector.received[row], |left, term| left - term)
    };
    (0..block.streams).map(residual).collect()
}

/// What priors add to a label's metric, those alone that are counted.
fn prior_cost(block: &Block, vector: &Vector, label: usize, counts: impl Fn(i64) -> bool) -> i64 {
    let is_one = |bit: usize| label & block.mask(bit) != 0;
    let against = vector.priors.iter().enumerate().filter(|&(bit, &prior)| is_against(prior, is_one(bit)));
    against.map(|(_, prior)| *prior).filter(|&prior| counts(prior)).map(i64::abs).sum()
}

// The number.

/// The number that a slip has for a vector's distance.
fn number(slip: Slip, searched: &Searched, index: usize) -> i64 {
    let last = searched.found.len() - 1;
    let own = |index: usize| own_number(slip, searched, index);
    match slip {
        Of(First) => own(0),
        Of(Last) => own(last),
        Of(Next) => own((index + 1).min(last)),
        Of(Before) => own(index.saturating_sub(1)),
        SumSoFar => (0..=index).map(own).sum(),
        _ => narrow(slip, own(index)),
    }
}

/// The number that a slip makes of the vector itself.
fn own_number(slip: Slip, searched: &Searched, index: usize) -> i64 {
    let (block, vector, found) = (&searched.block, &searched.block.vectors[index], &searched.found[index]);
    let label = label_of(slip, searched, index);
    let distance = |label: usize| sum(&residuals(block, vector, label));
    let cost = |counts: fn(i64) -> bool| prior_cost(block, vector, label, counts);
    match slip {
        WholeMetric => distance(label) + cost(|_| true),
        PriorCostAlone => cost(|_| true),
        OneSignOff(1) => distance(label) + cost(|prior| prior < 0),
        OneSignOff(_) => distance(label) + cost(|prior| prior > 0),
        AllPriorsOff => distance(label) + cost(|_| true) - vector.priors.iter().map(|prior| prior.abs()).sum::<i64>(),
        NearestOnTie => best(&found.leaves).into_iter().map(distance).min().expect("a walked leaf"),
        NearestWalked => found.leaves.iter().map(|leaf| distance(leaf.label)).min().expect("a walked leaf"),
        _ => part(slip, &residuals(block, vector, label)),
    }
}

/// The labels of the least metric, in the walk's order.
fn best(leaves: &[Leaf]) -> Vec<usize> {
    let least = leaves.iter().map(|leaf| leaf.metric).min();
    leaves.iter().filter(|leaf| Some(leaf.metric) == least).map(|leaf| leaf.label).collect()
}

/// The label whose distance is taken.
fn label_of(slip: Slip, searched: &Searched, index: usize) -> usize {
    let Found { answer, leaves } = &searched.found[index];
    match slip {
        FirstLeaf => leaves[0].label,
        LastLeaf => leaves[leaves.len() - 1].label,
        KeptOnTie => best(leaves)[0],
        SmallestOnTie => *best(leaves).iter().min().expect("a walked leaf"),
        LargestOnTie => *best(leaves).iter().max().expect("a walked leaf"),
        BestOfAll if answer.stopped => searched.best[index],
        NearestOfAll => searched.nearest[index],
        _ => answer.label,
    }
}

/// What a slip takes of the residuals' squares; row 1, which is the leaf's, stands first.
fn part(slip: Slip, residuals: &[Complex]) -> i64 {
    let top = residuals.len() - 1;
    match slip {
        LeafRowAlone => sum(&residuals[..1]),
        LeafRowLeftOut => sum(&residuals[1..]),
        TopRowAlone => sum(&residuals[top..]),
        TopRowLeftOut => sum(&residuals[..top]),
        RealAlone => residuals.iter().map(|residual| residual.re * residual.re).sum(),
        ImaginaryAlone => residuals.iter().map(|residual| residual.im * residual.im).sum(),
        _ => sum(residuals),
    }
}

fn sum(residuals: &[Complex]) -> i64 {
    residuals.iter().map(|residual| residual.magnitude_squared()).sum()
}

fn narrow(slip: Slip, number: i64) -> i64 {
    match slip {
        Unsigned(bits) => number % (1 << bits),
        Signed32 => i64::from(number as i32),
        HeldTo(greatest) => number.min(greatest),
        _ => number,
    }
}

// The text.

/// The listing.
fn listing_with(slip: Slip, searched: &Searched) -> String {
    let Searched { block, found, .. } = searched;
    if slip == OneOwner {
        let together = block.clone().with_weak(block.weak).record();
        return listing(&together);
    }
    let Block { streams, bits, clip, share, owners, .. } = block;
    let count = found.len();
    let mut text = format!("streams {streams} bits {bits} vectors {count} clip {clip} share {share}");
    if slip == OwnersInFirstLine {
        text += &format!(" owners {}", (1..=4).filter(|owner| owners.contains(owner)).count());
    }
    text += "\n";
    let mut order: Vec<usize> = (0..count).collect();
    if slip == LinesByOwner {
        order.sort_by_key(|&index| owners[index]);
    }
    for index in order {
        text += &(line(slip, searched, index) + "\n");
    }
    text + &total_with(slip, searched)
}

/// The last line.
fn total_with(slip: Slip, searched: &Searched) -> String {
    let count = searched.found.len();
    let nodes: i64 = searched.found.iter().map(|found| found.answer.nodes).sum();
    let distances: i64 = (0..count).map(|index| number(slip, searched, index)).sum();
    let own = |owner: usize| -> i64 {
        searched.block.places_of(owner).into_iter().map(|index| searched.found[index].answer.nodes).sum()
    };
    match slip {
        SumBehindTotal => format!("total {nodes} {distances}\n"),
        SumForTotal => format!("total {distances}\n"),
        TotalOf(owner) => format!("total {}\n", own(owner)),
        TotalOfEach => format!("total {} {} {} {}\n", own(1), own(2), own(3), own(4)),
        LineOfEach => (1..=4).map(|owner| format!("total {}\n", own(owner))).collect(),
        _ => format!("total {nodes}\n"),
    }
}

/// A vector's line.
fn line(slip: Slip, searched: &Searched, index: usize) -> String {
    let (block, vector, answer) = (&searched.block, &searched.block.vectors[index], &searched.found[index].answer);
    let mark = if answer.stopped { "stopped" } else { "complete" };
    let is_one = |bit: usize| answer.label & block.mask(bit) != 0;
    let against = (0..block.label_bits()).filter(|&bit| is_against(vector.priors[bit], is_one(bit))).count();
    let owner = block.owners[index];
    let place = match slip {
        NumberedByOwner => block.places_of(owner).into_iter().filter(|&other| other <= index).count(),
        _ => index + 1,
    };
    let mut words = vec![place.to_string(), mark.to_string(), answer.nodes.to_string()];
    words.extend([answer.label.to_string(), against.to_string()]);
    words.extend(answer.values.iter().map(i64::to_string));
    put(slip, answer.stopped, &mut words, number(slip, searched, index).to_string());
    match slip {
        OwnerAt(place) => words.insert(place, owner.to_string()),
        OwnerBehind => words.push(owner.to_string()),
        _ => (),
    }
    words.join(" ")
}

/// Puts the distance among a line's words.
fn put(slip: Slip, stopped: bool, words: &mut Vec<String>, distance: String) {
    match slip {
        At(place) => words.insert(place, distance),
        ForLastValue => *words.last_mut().expect("a line has words") = distance,
        LeftOut => (),
        LeftOutWhenStopped if stopped => (),
        LeftOutWhenComplete if !stopped => (),
        TwoBlanks => words.push(format!(" {distance}")),
        BlankBehind => words.push(format!("{distance} ")),
        PlusSign => words.push(format!("+{distance}")),
        Named => words.push(format!("distance {distance}")),
        _ => words.push(distance),
    }
}

// The stored samples.

fn folder() -> PathBuf {
    Path::new(env!("CARGO_MANIFEST_DIR")).join("../samples")
}

/// The names of all samples.
fn names() -> Vec<String> {
    let files = fs::read_dir(folder()).expect("the folder of samples").map(|file| file.expect("a file").path());
    let records = files.filter(|file| file.extension().is_some_and(|kind| kind == "rec"));
    records.map(|file| file.file_stem().expect("a name").to_string_lossy().into_owned()).collect()
}

/// A sample's record, and what the listing program is to print of it.
fn stored(name: &str) -> (Vec<u8>, String) {
    let file = |kind: &str| folder().join(format!("{name}.{kind}"));
    (fs::read(file("rec")).expect("a record"), fs::read_to_string(file("txt")).expect("its listing"))
}

/// Asks that a sample tells each of these slips.
fn tells(name: &str, slips: Vec<Slip>) {
    let (record, printed) = stored(name);
    let searched = Searched::of(&record).expect("an accepted record");
    for slip in slips {
        assert_ne!(listing_with(slip, &searched), printed, "{name} does not tell {slip:?}");
    }
}

/// The last words of the vectors' lines.
fn last_words(printed: &str) -> Vec<&str> {
    let lines: Vec<&str> = printed.lines().collect();
    lines[1..lines.len() - 1].iter().filter_map(|line| line.rsplit(' ').next()).collect()
}

#[test]
fn with_no_slip_every_stored_listing_is_met() {
    assert_eq!(names().len(), 24);
    for name in names() {
        let (record, printed) = stored(&name);
        let text = match Searched::of(&record) {
            Ok(searched) => listing_with(Clean, &searched),
            Err(refusal) => format!("refused {refusal}\n"),
        };
        assert_eq!(text, printed, "{name}");
    }
}

/// One sample tells all slips but those of ties and of the width, which two others tell.
#[test]
fn three_samples_tell_every_slip() {
    assert_eq!((number_slips().len(), tie_slips().len()), (21, 4));
    assert_eq!((width_slips().len(), form_slips().len()), (7, 16));
    tells("distance", [number_slips(), form_slips()].concat());
    tells("ties", tie_slips());
    tells("far", width_slips());
}

/// Gauges tells what several owners invite.
#[test]
fn one_sample_tells_every_slip_of_owners() {
    assert_eq!(owner_slips().len(), 15);
    tells("gauges", owner_slips());
}

/// The distances of the three, which are worked out by hand where their numbers stand.
#[test]
fn the_distances_of_three_samples() {
    let (_, distance) = stored("distance");
    assert_eq!(last_words(&distance), ["1", "1", "5", "5", "5", "0", "30", "36", "64", "1", "17"]);
    let (_, ties) = stored("ties");
    assert_eq!(last_words(&ties), ["5", "9", "5", "5", "2", "4", "5", "5", "18"]);
    let (_, far) = stored("far");
    let digits = ["34351350272", "34352923024", "4294967296", "3200000000", "122051235114", "170198885076"];
    assert_eq!(last_words(&far), digits);
}

/// Records by chance tell too; their trees are so small that the best labels of all are found at once.
#[test]
fn every_slip_is_seen_often() {
    let is_seen = |slip: Slip, trials: &mut dyn Iterator<Item = Trial>| {
        let records = trials.map(|trial| trial.record);
        let small = records.filter(|record| Block::read(record).is_ok_and(|block| block.label_bits() <= 8));
        is_seen_often(small, |record| listing_with(slip, &Searched::of(record).expect("accepted")) != listing(record))
    };
    for slip in [number_slips(), tie_slips(), width_slips(), form_slips()].concat() {
        let mut by_chance = trials::ties().chain(trials::full_range()).chain(trials::ends());
        assert!(is_seen(slip, &mut by_chance), "{slip:?}");
    }
    for slip in owner_slips() {
        assert!(is_seen(slip, &mut owners::records()), "{slip:?}");
    }
}
