//! The Rust writer and the Rust record reader held to each other, as document 02's Point 2 has it: there and back, and back and there,
//! and both refuse by the same number.

use reference::comparison::{compare, outcome, Call, Lent};
use reference::format::encoding::{Opening, Place};
use reference::format::record::{MOST_BYTES, MOST_NUMBERS};
use reference::format::writer;
use reference::inputs::lists::{self, List};
use reference::inputs::trials;

/// What a call writes, or minus the refusal number, with as much lent to it as it can ask for.
fn written<Given: ?Sized, Entry: Lent>(call: Call<Given, Entry>, given: &Given, most: usize) -> Result<Vec<Entry>, i64> {
    match outcome(call, given, most) {
        (refused @ ..0, _) => Err(refused),
        (count, lent) => Ok(lent[..count as usize].to_vec()),
    }
}

/// The bytes of a list's record.
fn write(list: &List) -> Result<Vec<u8>, i64> {
    written(lists::write, list, MOST_BYTES)
}

/// A record's numbers.
fn read(record: &[u8]) -> Result<Vec<i32>, i64> {
    written(writer::read, record, MOST_NUMBERS)
}

/// The opening of a record, as a writer is told it: its last byte less 30. What is no opening is told as none.
fn told(record: &[u8]) -> u32 {
    record.get(3).map_or(0, |&last| u32::from(last).wrapping_sub(0x30))
}

/// The record of a list of which nothing is checked, if each number has a form of at most four groups. Where M, Q or N is out of
/// its range it does not matter what the numbers behind are taken for, and neither does it behind the last number. An opening that there
/// is not has no layout, so that any will do.
fn unchecked(list: &List) -> Option<Vec<u8>> {
    let numbers = &list.numbers;
    let size = |at: usize, most: i32| i64::from(numbers.get(at).copied().unwrap_or(0).clamp(0, most));
    let opening = Opening::told(list.opening);
    let places = opening.unwrap_or(Opening::One).places(size(0, 4), size(1, 8), size(2, 64));
    let mut record = opening.map_or(vec![0x43, 0x42, 0x52, 0x30], |opening| opening.bytes().to_vec());
    for (at, &number) in numbers.iter().enumerate() {
        let place = places.get(at).copied().unwrap_or(Place::Prior);
        let forms = if place.is_folded() { -134_217_728..134_217_728 } else { 0..268_435_456 };
        if !forms.contains(&number) {
            return None;
        }
        record.extend(place.bytes(number.into()));
    }
    Some(record)
}

#[test]
fn a_written_record_is_read_back() {
    compare(lists::groups(), |list| {
        let record = write(&list);
        if let Ok(record) = &record {
            assert_eq!((told(record), read(record).as_ref()), (list.opening, Ok(&list.numbers)), "{list:?}");
        }
        record.is_ok()
    });
}

#[test]
fn an_accepted_record_is_written_again() {
    compare(trials::groups(), |trial| {
        let numbers = read(&trial.record);
        if let Ok(numbers) = &numbers {
            let list = List::told(told(&trial.record), numbers.clone());
            assert_eq!(write(&list).as_ref(), Ok(&trial.record));
        }
        numbers.is_ok()
    });
}

/// A list is refused as the record is that has its numbers, checked or not, in their shortest forms.
#[test]
fn lists_and_records_are_refused_alike() {
    let mut refused = 0;
    for list in lists::all() {
        let Some(record) = unchecked(&list) else {
            continue;
        };
        let written = write(&list);
        assert_eq!(read(&record).err(), written.clone().err(), "{list:?}");
        match written {
            Ok(written) => assert_eq!(written, record),
            Err(_) => refused += 1,
        }
    }
    assert_eq!(refused, 69_045);
}
