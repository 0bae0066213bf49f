//! Records in which equal metrics are common, and prior costs differ where they are: document 02's Point 6 decides. All M, Q and openings,
//! one to three vectors, and C and D of every size.

use super::chance::Chance;
use super::channel::opened;
use super::numbers::contents_by;
use super::trials::{of_each_opening, shape, Trial};
use crate::detectors::plain::{point, row_distance, search_by, Ties};
use crate::detectors::Detector;
use crate::format::block::{Block, Complex, Vector, SHAPES};
use crate::format::encoding::Place;
use crate::format::reply::{decode, MOST_ROOM};

/// How many records of small numbers, and of large ones, there are of each M and Q under each opening.
const SMALL: usize = 100;
const LARGE: usize = 30;

/// Of 7,410 records 3,108 are answered otherwise than by the smallest number alone, 646 of these with other counts of nodes: as the plain
/// detector finds in both orders.
pub const CHANGED: Changed = Changed { records: 7_410, answers: 3_108, counts: 646 };

/// The records, those of small numbers first.
pub fn records() -> impl Iterator<Item = Trial> {
    small().chain(large())
}

/// Small numbers. The squared distances of siblings are the same modulo 4, so that most priors are multiples of 4.
fn small() -> impl Iterator<Item = Trial> {
    let mut chance = Chance(18);
    of_each_opening(SMALL * SHAPES.len()).map(move |(opening, turn)| {
        let (streams, bits) = shape(turn);
        let vectors = chance.between(1, 3);
        let has_any_priors = chance.between(1, 5) == 1;
        let number = |place: Place, (least, greatest): (i64, i64)| match place {
            Place::Clip => chance.one_of(&[0, 1, 2, 4, 8, 12, 30, greatest]),
            Place::Share => least + more(&mut chance, streams, bits),
            Place::Diagonal => chance.between(1, 2),
            Place::Right => chance.between(-1, 1),
            Place::Received => chance.between(-5, 5),
            Place::Prior if has_any_priors => chance.between(-9, 9),
            Place::Prior => chance.one_of(&[-16, -8, -4, -4, -4, 0, 0, 4, 4, 4, 8, 12]),
            _ => chance.within((least, greatest)),
        };
        Trial::of(contents_by(opening, (streams as i64, bits as i64, vectors), number).record())
    })
}

/// Large numbers, with prior costs of up to 21 bits where metrics are equal.
fn large() -> impl Iterator<Item = Trial> {
    let mut chance = Chance(19);
    of_each_opening(LARGE * SHAPES.len()).map(move |(opening, turn)| {
        let (streams, bits) = shape(turn);
        let vectors = (0..chance.between(1, 3)).map(|_| large_vector(&mut chance, streams, bits)).collect();
        let clip = chance.one_of(&[0, 10_000, 1_000_000, 16_777_215]);
        let share = streams as i64 + more(&mut chance, streams, bits);
        let block = Block::older(streams, bits, clip, share, vectors);
        Trial::of(opened(block, opening, &mut chance).record())
    })
}

/// A reception of a label, and priors that make the partial metrics of siblings equal, where the streams above have the label's symbols.
fn large_vector(chance: &mut Chance, streams: usize, bits: usize) -> Vector {
    let symbols: Vec<usize> = (0..streams).map(|_| chance.between(0, (1 << bits) - 1) as usize).collect();
    let mut any = |size: i64| Complex { re: chance.between(-size, size), im: chance.between(-size, size) };
    let mut matrix = vec![vec![Complex::ZERO; streams]; streams];
    for (row, entries) in matrix.iter_mut().enumerate() {
        entries[row..].fill_with(|| any(500));
        entries[row] = Complex { re: 1 + entries[row].re.abs(), im: 0 };
    }
    let sent = |row: usize| symbols.iter().zip(&matrix[row]).map(|(&symbol, &entry)| entry * point(bits, symbol));
    let received = (0..streams).map(|row| sent(row).fold(any(300), |sum, term| sum + term)).collect();
    let mut vector = Vector { matrix, received, priors: vec![0; streams * bits] };
    (0..streams).for_each(|stream| make_equal(chance, &mut vector, stream, &symbols[stream..], bits));
    vector
}

/// Gives a bit of each of the stream's axes the prior that makes up for what turning the bit adds to the row's squared distance. Where
/// that is beyond a prior's range, the metrics stay apart.
fn make_equal(chance: &mut Chance, vector: &mut Vector, stream: usize, symbols: &[usize], bits: usize) {
    let distance = |vector: &Vector, symbol: usize| {
        let all = [&[symbol], &symbols[1..]].concat();
        row_distance(vector, stream, all.into_iter().map(|symbol| point(bits, symbol)))
    };
    let half = bits - bits / 2;
    for (first, end) in [(0, half), (half, bits)].into_iter().filter(|(first, end)| first < end) {
        let place = chance.between(first as i64, end as i64 - 1) as usize;
        let mask = 1 << (bits - 1 - place);
        let more = distance(vector, symbols[0] ^ mask) - distance(vector, symbols[0]);
        let prior = if symbols[0] & mask == 0 { -more } else { more };
        vector.priors[stream * bits + place] = prior.clamp(-1_048_575, 1_048_575);
    }
}

/// By how much D is more than M: nothing, a little, or as much as the plain detector can bear, which stops no walk of a small tree.
fn more(chance: &mut Chance, streams: usize, bits: usize) -> i64 {
    let most = match (streams * bits, bits) {
        (0..=8, _) => 400,
        (_, 8) => 30,
        _ => 56,
    };
    match chance.draw() % 4 {
        0 => 0,
        1 => chance.between(0, 6),
        2 => chance.between(0, most),
        _ => most,
    }
}

/// How many records there are, how many have another reply, and how many of these other counts of nodes.
#[derive(Clone, Copy, Debug, Default, PartialEq, Eq)]
pub struct Changed {
    pub records: usize,
    pub answers: usize,
    pub counts: usize,
}

/// What a detector answers otherwise than the plain one by the smallest number alone.
pub fn changed(detect: Detector) -> Changed {
    let mut changed = Changed::default();
    for trial in records() {
        let block = Block::read(&trial.record).expect("an accepted record");
        let mut reply = [0; MOST_ROOM];
        let length = usize::try_from(detect(&trial.record, &mut reply)).expect("a reply");
        let answers = decode(&reply[..length]);
        let by_number: Vec<_> = search_by(Ties::ByNumber, &block).into_iter().map(|found| found.answer).collect();
        changed.records += 1;
        changed.answers += usize::from(answers != by_number);
        changed.counts += usize::from(answers.iter().zip(&by_number).any(|(one, other)| one.nodes != other.nodes));
    }
    changed
}
