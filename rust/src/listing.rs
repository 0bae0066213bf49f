//! What is printed of a record: document 01's listing, with 02's distance, and the C host's lines. Answers are the plain detector's.

use crate::detectors::plain::{answers, distance};
use crate::format::block::{is_against, Block, Vector};
use crate::format::record::{Refusal, MOST_BYTES};
use crate::format::reply::Answer;

/// Document 01's listing of a record.
pub fn listing(record: &[u8]) -> String {
    let block = match Block::read(record) {
        Ok(block) => block,
        Err(refusal) => return format!("refused {refusal}\n"),
    };
    let Block { streams, bits, clip, share, vectors, .. } = &block;
    let answers = answers(&block);
    let mut lines = vec![format!("streams {streams} bits {bits} vectors {} clip {clip} share {share}", vectors.len())];
    for ((vector, answer), number) in vectors.iter().zip(&answers).zip(1..) {
        lines.push(vector_line(&block, vector, answer, number));
    }
    lines.push(format!("total {}", answers.iter().map(|answer| answer.nodes).sum::<i64>()));
    lines.join("\n") + "\n"
}

/// A vector's line: the squared distance of the label that it shows comes last.
fn vector_line(block: &Block, vector: &Vector, answer: &Answer, number: usize) -> String {
    let (mark, nodes, label, values) = (mark(answer), answer.nodes, answer.label, values(answer));
    let (against, distance) = (against_priors(vector, label), distance(block, vector, label));
    format!("{number} {mark} {nodes} {label} {against} {values} {distance}")
}

/// What hosts/detect.c prints of a record file. Where that has more bytes than any record it complains, and prints nothing.
pub fn host_lines(path: &str, record: &[u8]) -> String {
    if record.len() > MOST_BYTES {
        return String::new();
    }
    let block = match Block::read(record) {
        Ok(block) => block,
        Err(refusal) => return format!("{path}: refused by {refusal}: {}\n", reason(refusal)),
    };
    let (vectors, streams, bits) = (block.vectors.len(), block.streams, block.bits);
    let mut lines = vec![format!(
        "{path}: {vectors} vector{} of {streams} stream{}, {bits} bit{} each",
        plural(vectors),
        plural(streams),
        plural(bits)
    )];
    for (index, answer) in answers(&block).iter().enumerate() {
        let (mark, nodes) = (mark(answer), answer.nodes);
        let plural = plural(nodes as usize);
        let found = format!("{mark} after {nodes} node{plural}, label {}", answer.label);
        lines.push(format!("  vector {}: {found}, soft values {}", index + 1, values(answer)));
    }
    lines.join("\n") + "\n"
}

fn mark(answer: &Answer) -> &'static str {
    if answer.stopped {
        "stopped"
    } else {
        "complete"
    }
}

/// How many label bits go against the sign of their prior.
fn against_priors(vector: &Vector, label: usize) -> usize {
    let last_first = vector.priors.iter().rev().enumerate();
    last_first.filter(|&(shift, &prior)| is_against(prior, label >> shift & 1 == 1)).count()
}

fn values(answer: &Answer) -> String {
    answer.values.iter().map(i64::to_string).collect::<Vec<_>>().join(" ")
}

fn plural(count: usize) -> &'static str {
    if count == 1 {
        ""
    } else {
        "s"
    }
}

/// Document 01's table in words, and document 02's refusals.
pub fn reason(refusal: Refusal) -> &'static str {
    match refusal {
        1 => "the first four bytes are missing or are none of 43 42 52 31, 43 42 52 32 and 43 42 52 33",
        2 => "the record ends before the last group of a number",
        3 => "a number has four groups and no last one, or ends in a group of 0 that it does not need",
        4 => "the number of streams M is not 1 to 4",
        5 => "the bits of a symbol Q are not 1, 2, 4, 6 or 8",
        6 => "the number of vectors N is not 1 to 64",
        7 => "the clip C is above 16777215",
        8 => "the share D is not M to 17043520",
        9 => "an entry on R's diagonal is not 1 to 2047",
        10 => "a part of an entry right of R's diagonal is not -2047 to 2047",
        11 => "a part of y is not -131071 to 131071",
        12 => "a prior is not -1048575 to 1048575",
        13 => "bytes follow the last prior",
        14 => "the reply buffer is shorter than 7 + N x (9 + 4 x M x Q) bytes",
        15 => "the bits of a symbol Q are 8, which at most three streams may have, and M is 4",
        16 => "the weak value W is not 0 to C",
        17 => "a vector's owner is not 1 to 4",
        _ => panic!("the documents have no refusal {refusal}"),
    }
}

#[cfg(test)]
mod tests {
    use super::*;
    use crate::inputs::readings::{lines, owned, starred, LISTING, LISTING_RECORD, STARRED_DISTANCES, WEAK_RECORD};

    #[test]
    fn the_listing_of_document_01() {
        assert_eq!(listing(&LISTING_RECORD), LISTING);
        assert_eq!(listing(&LISTING_RECORD[..8]), "refused 2\n");
    }

    /// W is not printed, only what it makes of the values.
    #[test]
    fn the_listing_of_a_record_with_w() {
        assert_eq!(listing(&WEAK_RECORD), "streams 2 bits 1 vectors 1 clip 10 share 4\n1 stopped 4 2 0 -8 7 1\ntotal 4\n");
        assert_eq!(
            host_lines("a.rec", &WEAK_RECORD).lines().nth(1),
            Some("  vector 1: stopped after 4 nodes, label 2, soft values -8 7")
        );
    }

    /// The vector of two streams with owners 1, 2, 2 and 1, C = W = 10, D = 4: no owner is printed, the vectors stand in record order, and
    /// the total is over all owners.
    #[test]
    fn the_listing_of_a_record_with_owners() {
        let printed = "\
streams 2 bits 1 vectors 4 clip 10 share 4
1 complete 5 2 0 -4 4 1
2 complete 5 2 0 -4 4 1
3 stopped 3 2 0 -8 10 1
4 stopped 3 2 0 -8 10 1
total 16
";
        assert_eq!(listing(&owned([1, 2, 2, 1], 10, 4).record()), printed);
    }

    #[test]
    fn the_lines_of_vectors() {
        for (contents, line) in lines() {
            assert_eq!(listing(&contents.record()).lines().nth(1), Some(line));
        }
    }

    #[test]
    fn the_distances_of_the_starred_readings() {
        for (reading, distance) in starred().iter().zip(STARRED_DISTANCES) {
            let listing = listing(&reading.contents.record());
            let line = listing.lines().nth(1).expect("a vector's line");
            assert_eq!(line.rsplit(' ').next(), Some(distance.to_string().as_str()), "{line}");
        }
    }

    /// Priors -1, 0, 2, 3 for the label 0110: the first and the third bit go against them.
    #[test]
    fn bits_against_their_priors() {
        let vector = Vector { matrix: vec![], received: vec![], priors: vec![-1, 0, 2, 3] };
        assert_eq!(against_priors(&vector, 0b0110), 2);
    }
}
