//! Test records for a record reader, each with what it was made to show; `reader_cases` stores them for the proved reader.
//!
//! Every refusal of document 01's table at its first and last place, document 02's 15 to 17 wherever they can be mistaken, both ends of
//! every range, every pair of M and Q, cut and over-long numbers, the order of checks, and records made and damaged by chance.

mod damage;
mod documents;
mod numbers;
mod order;
mod owners;
mod parts;
mod sizes;
mod weak;

use crate::format::encoding::Opening::{One, Three, Two};
use crate::format::record::Refusal;
use parts::{largest, sized, small, wide};

/// The greatest number that four groups can hold.
const GREATEST: i64 = 268_435_455;

/// A number in a longer form than it needs.
const OVER_LONG: [u8; 2] = [0x80, 0x00];

/// What a case was made to show. A damaged record can end either way.
#[derive(Clone, Copy, Debug, PartialEq, Eq)]
pub enum Intent {
    Accepted,
    Refused(Refusal),
    Either,
}

/// A test record, and what it is about.
#[derive(Clone)]
pub struct Case {
    pub about: String,
    pub bytes: Vec<u8>,
    pub intent: Intent,
}

fn accepted(about: String, bytes: Vec<u8>) -> Case {
    Case { about, bytes, intent: Intent::Accepted }
}

fn refused(about: String, bytes: Vec<u8>, refusal: Refusal) -> Case {
    Case { about, bytes, intent: Intent::Refused(refusal) }
}

/// All cases, in the order in which they are run.
pub fn all() -> Vec<Case> {
    [of_openings_and_sizes(), of_numbers(), of_damage()].concat()
}

/// Openings, the numbers before the first vector, and owners.
fn of_openings_and_sizes() -> Vec<Case> {
    [
        documents::openings(),
        documents::listing_record(),
        documents::bench_readings(),
        sizes::stream_counts(),
        sizes::bit_counts(2),
        sizes::bit_counts(4),
        sizes::eight_bits(),
        sizes::eight_bits_of_four_streams(One),
        sizes::eight_bits_of_four_streams(Two),
        sizes::eight_bits_of_four_streams(Three),
        sizes::not_eight_bits_of_four_streams(),
        sizes::pairs_of_sizes(),
        sizes::vector_counts(),
        sizes::clips(),
        sizes::shares(),
        weak::weak_readings(),
        weak::weak_values(),
        weak::order_around_weak_values(),
        weak::shares_behind_weak_values(),
        owners::owner_readings(),
        owners::owner_numbers(),
        owners::order_around_owners(),
        owners::owners_of_all_sizes(),
    ]
    .concat()
}

/// Each number in turn, and two faults at once.
fn of_numbers() -> Vec<Case> {
    [
        numbers::range_ends("2 streams", &small(One)),
        numbers::range_ends("4 streams", &wide(One)),
        numbers::range_ends("2 streams of 8 bits", &sized(Three, 2, 8, 1)),
        numbers::rows_of_the_table("4 bits", &sized(One, 3, 4, 2)),
        numbers::rows_of_the_table("8 bits", &sized(Three, 3, 8, 2)),
        numbers::largest_records(),
        numbers::last_places(&sized(Three, 2, 1, 64)),
        order::order_of_checks(&small(One), small(One).count() - 1),
        order::ends_of_checks(&small(One)),
        order::ends_of_checks(&small(Two)),
        order::ends_of_checks(&small(Three)),
        numbers::number_forms(),
        numbers::cuts("2 streams", &small(One)),
        numbers::cuts("2 streams with W", &small(Two)),
        numbers::cuts("2 streams with owners", &small(Three)),
        numbers::cuts("4 streams", &wide(One)),
        numbers::cuts("3 streams of 8 bits", &sized(Two, 3, 8, 1)),
        numbers::over_long_everywhere(&wide(Three)),
    ]
    .concat()
}

/// Bytes exchanged, and records by chance.
fn of_damage() -> Vec<Case> {
    [damage::replaced_bytes(), damage::undamaged_by_chance(), damage::damaged_by_chance()].concat()
}

/// The bytes of the longest record of all.
pub fn longest_record() -> Vec<u8> {
    largest(Three).bytes()
}

#[cfg(test)]
mod tests {
    use super::*;
    use crate::format::block::SHAPES;
    use crate::format::encoding::Opening;
    use crate::format::record::{read, MOST_BYTES, MOST_NUMBERS};

    #[test]
    fn each_case_shows_what_it_was_made_for() {
        for case in all() {
            let verdict = read(&case.bytes);
            match case.intent {
                Intent::Accepted => assert!(verdict.is_ok(), "{}: {verdict:?}", case.about),
                Intent::Refused(row) => assert_eq!(verdict, Err(row), "{}", case.about),
                Intent::Either => (),
            }
        }
    }

    #[test]
    fn each_row_is_reached_by_damage_too() {
        let damaged = damage::damaged_by_chance().into_iter().chain(damage::replaced_bytes()).chain(sizes::pairs_of_sizes());
        let verdicts: Vec<_> = damaged.map(|case| read(&case.bytes).err()).collect();
        for row in (2..=13).chain(15..=17) {
            assert!(verdicts.contains(&Some(row)), "{row}");
        }
        assert!(verdicts.contains(&None));
    }

    /// Under each opening there are accepted records, and all refusals but 1 that it can have.
    #[test]
    fn each_row_is_reached_under_each_opening() {
        for opening in Opening::ALL {
            let own: Vec<_> = all().into_iter().filter(|case| case.bytes.starts_with(&opening.bytes())).collect();
            let verdicts: Vec<_> = own.iter().map(|case| read(&case.bytes).err()).collect();
            let more = opening.has_weak().then_some(16).into_iter().chain(opening.has_owners().then_some(17));
            for row in (2..=13).chain([15]).chain(more) {
                assert!(verdicts.contains(&Some(row)), "{opening:?}: {row}");
            }
            assert!(verdicts.contains(&None), "{opening:?}");
        }
    }

    #[test]
    fn the_largest_record_has_8275_bytes() {
        for (opening, bytes, numbers) in [(One, 8_207, 3_077), (Two, 8_211, 3_078), (Three, 8_275, 3_142)] {
            let longest = SHAPES.map(|(streams, bits)| parts::longest(opening, streams as i64, bits as i64));
            assert_eq!(longest.iter().map(|record| record.bytes().len()).max(), Some(bytes));
            assert_eq!(longest.iter().map(|record| record.count()).max(), Some(numbers));
        }
        assert_eq!((longest_record().len(), MOST_BYTES, MOST_NUMBERS), (8_275, 8_275, 3_142));
    }

    /// M, in its range, and Q are refused alone where no pair has them.
    #[test]
    fn the_pairs_are_all_that_are_accepted() {
        for (streams, bits) in (1..=4).flat_map(|streams| (0..=10).map(move |bits| (streams, bits))) {
            let is_accepted = sizes::intent_of(streams, bits) == Intent::Accepted;
            assert_eq!(SHAPES.contains(&(streams as usize, bits as usize)), is_accepted, "M = {streams}, Q = {bits}");
        }
    }
}
