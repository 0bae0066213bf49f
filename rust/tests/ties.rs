//! Document 02's Point 6 by records whose ties the priors decide, beside the order by the smallest number alone.

use reference::detectors::plain::{search_by, Ties};
use reference::detectors::{exhaustive, fast, plain};
use reference::format::block::{Block, Vector, SHAPES};
use reference::format::encoding::{Contents, Opening};
use reference::format::reply::Answer;
use reference::inputs::readings::{answer, counted, fewer, one_stream, starred, tied};
use reference::inputs::ties::{changed, records, CHANGED};

fn blocks() -> impl Iterator<Item = Block> {
    records().map(|trial| Block::read(&trial.record).expect("an accepted record"))
}

fn by_number(block: &Block) -> Vec<Answer> {
    search_by(Ties::ByNumber, block).into_iter().map(|found| found.answer).collect()
}

#[test]
fn how_many_records_the_priors_decide() {
    assert_eq!(changed(plain::detect), CHANGED);
    assert_eq!(changed(fast::detect), CHANGED);
}

/// Every M and Q has records with each opening that the priors decide, complete vectors, and stopped ones.
#[test]
fn every_size_is_there() {
    let mut sizes = vec![];
    for block in blocks() {
        let answers = plain::answers(&block);
        let size = (block.streams, block.bits, block.opening.number());
        sizes.extend((answers != by_number(&block)).then_some((size, "decided")));
        sizes.extend(answers.iter().map(|answer| (size, if answer.stopped { "stopped" } else { "complete" })));
    }
    sizes.sort();
    sizes.dedup();
    assert_eq!(sizes.len(), SHAPES.len() * Opening::ALL.len() * 3);
}

/// Checks that a vector which is complete in both orders has the same soft values, and labels of the same metric. Is the label another?
fn is_other_label(block: &Block, vector: &Vector, one: &Answer, other: &Answer) -> bool {
    if one.stopped || other.stopped {
        return false;
    }
    let metric = |answer: &Answer| exhaustive::metric(block, vector, answer.label);
    assert_eq!((&one.values, metric(one)), (&other.values, metric(other)), "{block:?}");
    one.label != other.label
}

#[test]
fn values_of_complete_vectors_stay() {
    let mut others = 0;
    for block in blocks() {
        let (ones, numbers) = (plain::answers(&block), by_number(&block));
        let is_other = |&index: &usize| is_other_label(&block, &block.vectors[index], &ones[index], &numbers[index]);
        others += (0..ones.len()).filter(is_other).count();
    }
    assert_eq!(others, 977);
}

/// What the smallest number alone makes of some readings, worked out by hand; the starred ones are the same in both orders.
#[test]
fn readings_by_the_smallest_number_alone() {
    let by_number = |contents: &Contents| by_number(&Block::of(contents));
    assert_eq!(by_number(&one_stream(-2, -8, 5, 2)), [answer(false, 2, 0, [5])]);
    assert_eq!(by_number(&one_stream(-2, -8, 5, 1)), [answer(true, 1, 0, [5])]);
    assert_eq!(by_number(&counted()), [answer(false, 3, 0, [1, 1])]);
    assert_eq!(by_number(&fewer()), [answer(false, 4, 1, [2, -2])]);
    for reading in starred() {
        assert_eq!(by_number(&reading.contents), reading.answers);
    }
}

/// The label of a complete reading is that of all labels.
#[test]
fn readings_by_all_labels() {
    for reading in tied().into_iter().filter(|reading| !reading.answers[0].stopped) {
        let block = Block::of(&reading.contents);
        let Answer { label, values, .. } = &reading.answers[0];
        assert_eq!(exhaustive::answer(&block, &block.vectors[0]), (*label, values.clone()));
    }
}
