//! Block records made of their numbers, and the numbers taken back, by document 02's Points 2, 4 and 7: both fill lent memory.
//!
//! A list's numbers are ranged here on their own, in record order and without the record reader, so that writer and reader can be held
//! to each other.

use super::encoding::{folded, plain, Numbers, Opening};
use super::record::{self, Refusal};
use std::ops::RangeInclusive;

/// Writes the record of a list of whole numbers, unfolded and in record order, under the opening of this number. How many bytes it
/// wrote, or minus the refusal number.
pub fn write(opening: u32, numbers: &[i32], record: &mut [u8]) -> i64 {
    let mut writer = Writer::of(numbers);
    let verdict = writer.take_all(opening);
    fill(record, verdict.map(|()| writer.bytes))
}

/// Reads a record into a list of its whole numbers, unfolded. How many numbers it wrote, or minus the refusal number.
pub fn read(record: &[u8], numbers: &mut [i32]) -> i64 {
    fill(numbers, record::read(record).map(|contents| narrow(contents.numbers)))
}

/// Numbers as they stand in a list.
pub fn narrow(numbers: Numbers) -> Vec<i32> {
    numbers.into_iter().map(|number| i32::try_from(number).expect("a list's numbers have 32 bits")).collect()
}

/// The rule for lent memory: entries that fit are put at its front and counted, a refusal alters nothing, and 14 comes last.
fn fill<T: Copy>(lent: &mut [T], verdict: Result<Vec<T>, Refusal>) -> i64 {
    match verdict {
        Err(refusal) => -i64::from(refusal),
        Ok(entries) if entries.len() > lent.len() => -14,
        Ok(entries) => {
            lent[..entries.len()].copy_from_slice(&entries);
            entries.len() as i64
        }
    }
}

/// The bytes that are made before a list is accepted or refused.
pub fn made_so_far(opening: u32, numbers: &[i32]) -> Vec<u8> {
    let mut writer = Writer::of(numbers);
    let _ = writer.take_all(opening);
    writer.bytes
}

/// A list that is gone through: what is left of it, and the bytes made of what was taken.
struct Writer<'a> {
    rest: &'a [i32],
    bytes: Vec<u8>,
}

impl Writer<'_> {
    fn of(numbers: &[i32]) -> Writer<'_> {
        Writer { rest: numbers, bytes: vec![] }
    }

    /// The opening, and all numbers that it calls for, each ranged as it is taken, and then nothing more.
    fn take_all(&mut self, opening: u32) -> Result<(), Refusal> {
        let opening = Opening::told(opening).ok_or(1_u32)?;
        self.bytes.extend(opening.bytes());
        let streams = self.take_plain(1..=4, 4)?;
        let bits = self.take_width(streams)?;
        let vectors = self.take_plain(1..=64, 6)?;
        let clip = self.take_plain(0..=16_777_215, 7)?;
        if opening.has_weak() {
            self.take_plain(0..=clip, 16)?;
        }
        self.take_plain(streams..=17_043_520, 8)?;
        for _ in 0..vectors {
            if opening.has_owners() {
                self.take_plain(1..=4, 17)?;
            }
            self.take_vector(streams, bits)?;
        }
        if self.rest.is_empty() {
            Ok(())
        } else {
            Err(13)
        }
    }

    /// R by rows, the diagonal entry and two parts for each one right of it; y, two parts for each row; a prior for each bit.
    fn take_vector(&mut self, streams: i64, bits: i64) -> Result<(), Refusal> {
        for row in 1..=streams {
            self.take_plain(1..=2_047, 9)?;
            self.take_folded(2 * (streams - row), 2_047, 10)?;
        }
        self.take_folded(2 * streams, 131_071, 11)?;
        self.take_folded(streams * bits, 1_048_575, 12)
    }

    /// Q, by document 02's Point 1.
    fn take_width(&mut self, streams: i64) -> Result<i64, Refusal> {
        let bits = self.take()?;
        match (bits, streams) {
            (8, 4) => Err(15),
            (1 | 2 | 4 | 6 | 8, _) => {
                self.bytes.extend(plain(bits));
                Ok(bits)
            }
            _ => Err(5),
        }
    }

    fn take_plain(&mut self, range: RangeInclusive<i64>, refusal: Refusal) -> Result<i64, Refusal> {
        let number = self.take()?;
        if !range.contains(&number) {
            return Err(refusal);
        }
        self.bytes.extend(plain(number));
        Ok(number)
    }

    /// So many numbers of either sign, up to a magnitude.
    fn take_folded(&mut self, count: i64, magnitude: i64, refusal: Refusal) -> Result<(), Refusal> {
        for _ in 0..count {
            let number = self.take()?;
            if number.abs() > magnitude {
                return Err(refusal);
            }
            self.bytes.extend(folded(number));
        }
        Ok(())
    }

    /// The list's next number, of any size.
    fn take(&mut self) -> Result<i64, Refusal> {
        let (&number, after) = self.rest.split_first().ok_or(2_u32)?;
        self.rest = after;
        Ok(i64::from(number))
    }
}

#[cfg(test)]
mod tests {
    use super::*;
    use crate::comparison::expect;
    use crate::format::encoding::Contents;
    use crate::inputs::readings::{
        listing, owned, owned_reading, two_streams, weak_reading, LISTING_RECORD, OWNED_RECORD, WEAK_RECORD,
    };

    const ONE: u32 = 1;
    const TWO: u32 = 2;
    const THREE: u32 = 3;

    /// Numbers as they stand in a list.
    fn list(contents: Contents) -> Vec<i32> {
        narrow(contents.numbers)
    }

    /// M = 2, Q = 1, N = 1: R, y and two priors.
    fn bench() -> Vec<i32> {
        list(two_streams(10, 5))
    }

    /// The same with W = 7 behind C = 10.
    fn weak_bench() -> Vec<i32> {
        list(weak_reading())
    }

    /// M = 1, Q = 1, N = 1, C = 5, W = 3, D = 1, and owner 4 before R, y and a prior.
    fn owned_bench() -> Vec<i32> {
        list(owned_reading())
    }

    fn write_one(numbers: &[i32], record: &mut [u8]) -> i64 {
        write(ONE, numbers, record)
    }

    fn write_two(numbers: &[i32], record: &mut [u8]) -> i64 {
        write(TWO, numbers, record)
    }

    fn write_three(numbers: &[i32], record: &mut [u8]) -> i64 {
        write(THREE, numbers, record)
    }

    /// What is returned for a list with another number at some places; a refusal alters nothing.
    fn with(opening: u32, numbers: &[i32], changes: &[(usize, i32)]) -> i64 {
        let mut numbers = numbers.to_vec();
        for &(at, number) in changes {
            numbers[at] = number;
        }
        verdict(opening, &numbers)
    }

    /// What is returned for a list, with a buffer that every record of these tests fits.
    fn verdict(opening: u32, numbers: &[i32]) -> i64 {
        let mut record = [0xA5; 64];
        let returned = write(opening, numbers, &mut record);
        let written = usize::try_from(returned).unwrap_or(0);
        assert!(record[written..].iter().all(|&byte| byte == 0xA5), "{numbers:?}");
        returned
    }

    #[test]
    fn the_listing_record_both_ways() {
        for to_spare in [0, 2] {
            expect(write_one, &list(listing()), 29 + to_spare, Ok(&LISTING_RECORD));
            expect(read, &LISTING_RECORD, 25 + to_spare, Ok(&list(listing())));
        }
    }

    #[test]
    fn a_record_with_w_both_ways() {
        for to_spare in [0, 2] {
            expect(write_two, &weak_bench(), 20 + to_spare, Ok(&WEAK_RECORD));
            expect(read, &WEAK_RECORD, 16 + to_spare, Ok(&weak_bench()));
        }
    }

    #[test]
    fn a_record_with_an_owner_both_ways() {
        for to_spare in [0, 2] {
            expect(write_three, &owned_bench(), 15 + to_spare, Ok(&OWNED_RECORD));
            expect(read, &OWNED_RECORD, 11 + to_spare, Ok(&owned_bench()));
        }
    }

    #[test]
    fn one_entry_short_is_14_and_alters_nothing() {
        expect(write_one, &list(listing()), 28, Err(14));
        expect(read, &LISTING_RECORD, 24, Err(14));
        expect(write_two, &weak_bench(), 19, Err(14));
        expect(read, &WEAK_RECORD, 15, Err(14));
        expect(write_three, &owned_bench(), 14, Err(14));
        expect(read, &OWNED_RECORD, 10, Err(14));
    }

    /// An opening that is told by no number is refused before the list or the buffer is looked at.
    #[test]
    fn an_unknown_opening() {
        for opening in [0, 4, 5, 257, 65_539, u32::MAX - 1, u32::MAX] {
            for numbers in [&[] as &[i32], &[5], &[i32::MIN], &bench(), &weak_bench(), &owned_bench()] {
                assert_eq!(verdict(opening, numbers), -1, "{opening}: {numbers:?}");
                assert_eq!(write(opening, numbers, &mut []), -1, "{opening}: {numbers:?}");
            }
        }
    }

    /// A list has a number too few or too many for another opening, where D is taken for W and what follows for D, or W for D; the
    /// diagonal entry for the owner, or the owner for the diagonal entry.
    #[test]
    fn a_list_under_another_opening() {
        assert_eq!(verdict(TWO, &bench()), -8);
        assert_eq!(with(TWO, &bench(), &[(5, 2)]), -2);
        assert_eq!(verdict(ONE, &weak_bench()), -9);
        assert_eq!(with(ONE, &weak_bench(), &[(8, 1)]), -13);
        assert_eq!(verdict(TWO, &owned_bench()), -13);
        assert_eq!(verdict(ONE, &owned_bench()), -13);
        assert_eq!(verdict(THREE, &weak_bench()), -2);
        assert_eq!(with(THREE, &weak_bench(), &[(6, 5)]), -17);
    }

    /// Each of three owners; what follows a wrong one is not looked at, and an earlier fault comes first. A vector has 11 numbers here.
    #[test]
    fn an_owner_is_1_to_4() {
        let numbers = list(owned([1, 4, 2], 10, 3));
        for at in [6, 17, 28] {
            for owner in 1..=4 {
                assert!(with(THREE, &numbers, &[(at, owner)]) > 0, "{at}: {owner}");
            }
            for owner in [i32::MIN, i32::MIN + 1, -255, -4, -1, 0, 5, 6, 128, 132, 257, 260, 65_537, i32::MAX] {
                assert_eq!(with(THREE, &numbers, &[(at, owner)]), -17, "{at}: {owner}");
                assert_eq!(with(THREE, &numbers, &[(at, owner), (at + 1, 0), (38, i32::MAX)]), -17, "{at}: {owner}");
                assert_eq!(with(THREE, &numbers, &[(at - 1, i32::MAX), (at, owner)]), if at == 6 { -8 } else { -12 }, "{at}");
                assert_eq!(verdict(THREE, &[&numbers[..at], &[owner]].concat()), -17, "{at}: {owner}");
            }
            assert_eq!(verdict(THREE, &numbers[..at]), -2, "{at}");
            assert_eq!(with(THREE, &numbers, &[(at + 1, 0)]), -9, "{at}");
            assert_eq!(verdict(THREE, &[&numbers[..at], &numbers[at + 1..]].concat()), -2, "{at}");
        }
    }

    /// A place of the bench list, both ends of its range, and the refusal beyond them. M and Q have tests of their own.
    #[test]
    fn both_ends_of_each_range() {
        let places = [
            (3, 0, 16_777_215, 7),
            (4, 2, 17_043_520, 8),
            (5, 1, 2_047, 9),
            (6, -2_047, 2_047, 10),
            (7, -2_047, 2_047, 10),
            (8, 1, 2_047, 9),
            (9, -131_071, 131_071, 11),
            (12, -131_071, 131_071, 11),
            (13, -1_048_575, 1_048_575, 12),
            (14, -1_048_575, 1_048_575, 12),
        ];
        for (at, least, greatest, refusal) in places {
            assert!(with(ONE, &bench(), &[(at, least)]) > 0 && with(ONE, &bench(), &[(at, greatest)]) > 0, "{at}");
            for beyond in [least - 1, greatest + 1, i32::MIN, i32::MAX] {
                assert_eq!(with(ONE, &bench(), &[(at, beyond)]), -refusal, "{at}: {beyond}");
            }
        }
    }

    /// W goes from 0 to the list's own C.
    #[test]
    fn the_weak_value_is_0_to_the_clip() {
        for clip in [0, 1, 10, 127, 128, 16_777_214, 16_777_215] {
            for weak in [0, clip / 2, clip] {
                assert!(with(TWO, &weak_bench(), &[(3, clip), (4, weak)]) > 0, "C = {clip}, W = {weak}");
            }
            for weak in [i32::MIN, -16_777_215, -1, clip + 1, clip + 128, clip + 256, 16_777_216, i32::MAX] {
                assert_eq!(with(TWO, &weak_bench(), &[(3, clip), (4, weak)]), -16, "C = {clip}, W = {weak}");
            }
        }
    }

    /// 16 comes after 7, which says nothing of W, and before anything is asked of D.
    #[test]
    fn sixteen_stands_between_the_clip_and_the_share() {
        for weak in [-1, 0, 5, 16_777_215, 16_777_216, 16_777_217, i32::MAX] {
            assert_eq!(verdict(TWO, &[1, 1, 1, 16_777_216, weak]), -7, "{weak}");
            assert_eq!(verdict(TWO, &[1, 1, 1, -1, weak, 0]), -7, "{weak}");
        }
        assert_eq!(verdict(TWO, &[1, 1, 1, 5]), -2);
        assert_eq!(verdict(TWO, &[1, 1, 1, 16_777_216]), -7);
        assert_eq!(verdict(TWO, &[1, 1, 1, 5, 6]), -16);
        assert_eq!(verdict(TWO, &[1, 1, 1, 5, 6, 0]), -16);
        assert_eq!(verdict(TWO, &[1, 1, 1, 5, 5, 0]), -8);
        assert_eq!(verdict(TWO, &[1, 1, 1, 5, 5]), -2);
    }

    #[test]
    fn streams_bits_and_vectors() {
        for opening in [ONE, TWO, THREE] {
            let sizes = |numbers: &[i32]| -verdict(opening, numbers);
            for streams in [i32::MIN, -1, 0, 5, i32::MAX] {
                assert_eq!(sizes(&[streams, 1]), 4);
            }
            for streams in 1..=4 {
                assert_eq!([-8, 0, 3, 5, 7, 9, 10].map(|bits| sizes(&[streams, bits])), [5; 7]);
                assert_eq!([1, 2, 4, 6].map(|bits| sizes(&[streams, bits])), [2; 4]);
                assert_eq!(sizes(&[streams, 8]), if streams == 4 { 15 } else { 2 });
            }
            assert_eq!([i32::MIN, -1, 0, 65, i32::MAX].map(|vectors| sizes(&[1, 1, vectors])), [6; 5]);
            assert_eq!([1, 64].map(|vectors| sizes(&[1, 1, vectors])), [2; 2]);
        }
    }

    #[test]
    fn fifteen_stands_at_the_width() {
        for opening in [ONE, TWO, THREE] {
            assert_eq!(verdict(opening, &[4, 8, 0]), -15);
            assert_eq!(verdict(opening, &[4, 9, 0]), -5);
            assert_eq!(verdict(opening, &[5, 8, 0]), -4);
            assert_eq!(verdict(opening, &[3, 8, 0]), -6);
        }
    }

    #[test]
    fn the_share_begins_at_the_number_of_streams() {
        for streams in 1..=4 {
            for share in 0..=5 {
                let refusal = if share < streams { 8 } else { 2 };
                assert_eq!(verdict(ONE, &[streams, 2, 1, 0, share]), -refusal, "M = {streams}, D = {share}");
                assert_eq!(verdict(TWO, &[streams, 2, 1, 7, 7, share]), -refusal, "M = {streams}, D = {share}");
                assert_eq!(verdict(THREE, &[streams, 2, 1, 7, 7, share]), -refusal, "M = {streams}, D = {share}");
            }
        }
    }

    #[test]
    fn the_earlier_number_decides() {
        assert_eq!(with(ONE, &bench(), &[(3, -1), (14, i32::MAX)]), -7);
        assert_eq!(with(ONE, &bench(), &[(4, 1), (5, 0)]), -8);
        assert_eq!(with(ONE, &bench(), &[(12, 131_072), (13, 1_048_576)]), -11);
        assert_eq!(with(TWO, &weak_bench(), &[(4, 11), (15, i32::MAX)]), -16);
    }

    #[test]
    fn a_list_that_ends_early() {
        for length in 0..bench().len() {
            assert_eq!(verdict(ONE, &bench()[..length]), -2, "{length}");
        }
        for length in 0..weak_bench().len() {
            assert_eq!(verdict(TWO, &weak_bench()[..length]), -2, "{length}");
        }
        for length in 0..owned_bench().len() {
            assert_eq!(verdict(THREE, &owned_bench()[..length]), -2, "{length}");
        }
        assert_eq!(verdict(ONE, &[2, 1, 1, 10, 1]), -8);
        assert_eq!(verdict(ONE, &[2, 1, 1, -1]), -7);
    }

    /// What follows the last number is not ranged.
    #[test]
    fn a_list_that_goes_on() {
        for more in [&[0][..], &[i32::MIN], &[i32::MAX, 0, 0]] {
            assert_eq!(verdict(ONE, &[&bench(), more].concat()), -13);
            assert_eq!(verdict(TWO, &[&weak_bench(), more].concat()), -13);
            assert_eq!(verdict(THREE, &[&owned_bench(), more].concat()), -13);
        }
        assert_eq!(verdict(ONE, &[&bench()[..14], &[1_048_576, 0]].concat()), -12);
    }

    #[test]
    fn the_buffer_is_asked_last() {
        let with_no_buffer = |numbers: &[i32]| write(ONE, numbers, &mut []);
        assert_eq!(with_no_buffer(&bench()), -14);
        assert_eq!(with_no_buffer(&bench()[..14]), -2);
        assert_eq!(with_no_buffer(&[&bench()[..14], &[i32::MAX]].concat()), -12);
        assert_eq!(with_no_buffer(&[bench().as_slice(), &[0]].concat()), -13);
        assert_eq!(write(TWO, &weak_bench(), &mut []), -14);
        assert_eq!(write(TWO, &[1, 1, 1, 5, 6], &mut []), -16);
        assert_eq!(write(THREE, &owned_bench(), &mut []), -14);
        assert_eq!(write(THREE, &[1, 1, 1, 5, 3, 1, 5], &mut []), -17);
    }

    #[test]
    fn the_list_is_asked_last() {
        let with_no_list = |record: &[u8]| read(record, &mut []);
        assert_eq!(with_no_list(&LISTING_RECORD), -14);
        assert_eq!(with_no_list(&LISTING_RECORD[..28]), -2);
        assert_eq!(with_no_list(&[LISTING_RECORD.as_slice(), &[0]].concat()), -13);
        assert_eq!(with_no_list(&LISTING_RECORD[..3]), -1);
    }

    #[test]
    fn bytes_are_made_up_to_the_fault() {
        let opened = |opening: Opening, bytes: &[u8]| [&opening.bytes(), bytes].concat();
        assert_eq!(made_so_far(ONE, &[]), opened(Opening::One, &[]));
        assert_eq!(made_so_far(TWO, &[]), opened(Opening::Two, &[]));
        assert_eq!(made_so_far(4, &[2, 1]), []);
        assert_eq!(made_so_far(ONE, &list(listing())), LISTING_RECORD);
        assert_eq!(made_so_far(ONE, &[&list(listing())[..20], &[131_072, 0]].concat()), LISTING_RECORD[..24]);
        assert_eq!(made_so_far(ONE, &[4, 8, 1]), opened(Opening::One, &[4]));
        assert_eq!(made_so_far(TWO, &[1, 1, 1, 5, 6, 2]), opened(Opening::Two, &[1, 1, 1, 5]));
        assert_eq!(made_so_far(THREE, &[1, 1, 1, 5, 3, 1, 5, 1]), opened(Opening::Three, &[1, 1, 1, 5, 3, 1]));
    }
}
