//! Document 02's Point 7 by records alone: what an owner is answered, whatever the others do.

use reference::detectors::{fast, plain, Detector};
use reference::format::block::{Block, SHAPES};
use reference::format::encoding::Opening;
use reference::inputs::owners::{agreed, answered_as_alone, answered_as_without, channels, pairs, records, Pair, AGREED};
use reference::inputs::trials::{self, Trial};

const DETECTORS: [Detector; 2] = [plain::detect, fast::detect];

fn blocks() -> impl Iterator<Item = Block> {
    records().chain(channels()).map(|trial| Block::read(&trial.record).expect("an accepted record"))
}

/// The accepted records with W and without owners, as blocks.
fn without_owners(trials: impl Iterator<Item = Trial>) -> impl Iterator<Item = Block> {
    trials.filter_map(|trial| Block::read(&trial.record).ok()).filter(|block| block.opening == Opening::Two)
}

/// Two records that agree for one owner: its answers and counts agree, place by place.
#[test]
fn the_others_do_not_matter() {
    for detect in DETECTORS {
        assert_eq!(agreed(detect), AGREED);
    }
}

/// The pairs are what they are to be: equal headers, the owner's vectors at equal positions with equal contents, and all else different.
#[test]
fn pairs_agree_for_one_owner_alone() {
    let (mut other_owners, mut other_contents) = (0, 0);
    for Pair { owner, one, other } in pairs() {
        let header = |block: &Block| block.contents().numbers[..6].to_vec();
        assert_eq!(header(&one), header(&other));
        assert_eq!(one.places_of(owner), other.places_of(owner));
        assert!(!one.places_of(owner).is_empty());
        for at in one.places_of(owner) {
            assert_eq!(one.vectors[at], other.vectors[at]);
        }
        other_owners += usize::from(one.owners != other.owners);
        other_contents += usize::from(one.vectors != other.vectors);
    }
    assert!(other_owners > 1_500 && other_contents > 1_500, "{other_owners} and {other_contents}");
}

/// An owner's answers, in record order, are those of the record that holds its vectors alone.
#[test]
fn an_owner_has_a_list_of_its_own() {
    let owners = blocks().map(|block| (1..=4).filter(|owner| block.owners.contains(owner)).count()).sum::<usize>();
    for detect in DETECTORS {
        assert_eq!(answered_as_alone(detect), owners);
    }
}

/// One owner for all: the reply is that of the record without owners, byte by byte.
#[test]
fn one_owner_for_all() {
    assert_eq!(answered_as_without(fast::detect, without_owners(trials::all())), 20_582);
    let weak = trials::weak_values().chain(trials::weak_channels()).chain(trials::ends());
    assert_eq!(answered_as_without(plain::detect, without_owners(weak)), 9_500 + 1_900 + 190);
}

/// Every owner is held to its own total, and each vector gets M nodes or more.
#[test]
fn every_owner_is_held_to_its_total() {
    for block in blocks() {
        let nodes: Vec<i64> = plain::answers(&block).iter().map(|answer| answer.nodes).collect();
        assert!(nodes.iter().all(|&nodes| nodes >= block.streams as i64), "{block:?}");
        for owner in 1..=4 {
            let own = block.places_of(owner);
            let walked: i64 = own.iter().map(|&at| nodes[at]).sum();
            assert!(walked <= own.len() as i64 * block.share, "owner {owner}: {block:?}");
        }
    }
}

/// Every M and Q has records with one to four owners, with an owner that uses up its total beside one that does not, and with vectors of
/// both marks.
#[test]
fn every_size_is_there() {
    let mut sizes = vec![];
    for block in blocks() {
        let answers = plain::answers(&block);
        let size = (block.streams, block.bits);
        let owners: Vec<usize> = (1..=4).filter(|owner| block.owners.contains(owner)).collect();
        let is_stopped = |owner: &usize| block.places_of(*owner).into_iter().any(|at| answers[at].stopped);
        let stopped = owners.iter().filter(|owner| is_stopped(owner)).count();
        sizes.push((size, ["", "one", "two", "three", "four"][owners.len()]));
        sizes.extend((0 < stopped && stopped < owners.len()).then_some((size, "some stopped")));
    }
    sizes.sort();
    sizes.dedup();
    assert_eq!(sizes.len(), SHAPES.len() * 5);
}
