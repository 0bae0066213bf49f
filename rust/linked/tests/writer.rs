//! The exported writer and reader of the proved library against the Rust ones: returned number and every entry of what is lent. Then
//! there and back: the reader on what was written, and the writer on what was read.

use reference::comparison::{compare, same, Outcome};
use reference::format::record::{read_so_far, MOST_BYTES};
use reference::format::reply::MOST_ROOM;
use reference::format::writer;
use reference::inputs::lists::{self, List};
use reference::inputs::{lengths, trials};
use std::iter::once;

fn write(list: &List, record: &mut [u8]) -> i64 {
    linked::write(list.opening, &list.numbers, record)
}

fn same_write(list: &List, lengths: impl IntoIterator<Item = usize>) -> Outcome<u8> {
    same(write, lists::write, list, lengths)
}

fn same_read(record: &[u8], lengths: impl IntoIterator<Item = usize>) -> Outcome<i32> {
    same(linked::read, writer::read, record, lengths)
}

/// The opening of an accepted record, as the writer is told it.
fn told(record: &[u8]) -> u32 {
    u32::from(record[3] - 0x30)
}

#[test]
fn every_list() {
    compare(lists::groups(), |list| {
        let (returned, record) = same_write(&list, list.lengths());
        let is_accepted = returned > 0;
        if is_accepted {
            let count = list.numbers.len();
            assert_eq!(same_read(&record, [count]), (count as i64, list.numbers));
            assert_eq!(told(&record), list.opening);
        }
        is_accepted
    });
}

/// The detector is called where it has nothing to search: on refused records.
#[test]
fn every_record() {
    compare(trials::groups(), |trial| {
        let record = trial.record;
        let (returned, numbers) = same_read(&record, lengths(read_so_far(&record).len()));
        let is_accepted = returned > 0;
        if is_accepted {
            let count = record.len();
            let list = List::told(told(&record), numbers);
            assert_eq!(same_write(&list, [count]), (count as i64, record));
        } else {
            assert_eq!(linked::detect(&record, &mut [0; MOST_ROOM]), returned, "{record:02X?}");
        }
        is_accepted
    });
}

/// A list that is refused, but for ending early: each beginning that has the refused number gets the same refusal, and a shorter one
/// passes all checks up to its end, so that it gets 2, or no refusal at all. hosts/record.c finds the refused number by this. Where the
/// opening is refused, the empty list is, too.
#[test]
fn beginnings_of_refused_lists() {
    let mut refused = 0;
    let short = lists::too_long().take(1_254);
    let weak = lists::weak_values().filter(|list| !(0..=list.numbers[3]).contains(&list.numbers[4]));
    let owners = lists::owners().filter(|list| lists::write(list, &mut [0; MOST_BYTES]) == -17);
    let unknown = lists::unknown_openings().step_by(10);
    for list in lists::a_fault_and_an_end().chain(lists::two_faults()).chain(short).chain(weak).chain(owners).chain(unknown) {
        let answer = |length: usize| linked::write(list.opening, &list.numbers[..length], &mut [0; MOST_BYTES]);
        let count = list.numbers.len();
        let whole = answer(count);
        assert!(whole < 0 && whole != -2, "{list:?}");
        let shortest = (0..=count).find(|&length| answer(length) == whole).expect("the whole list is refused");
        assert!((0..shortest).all(|length| answer(length) == -2 || answer(length) > 0), "{list:?}");
        assert!((shortest..count).all(|length| answer(length) == whole), "{list:?}");
        assert_eq!(shortest == 0, whole == -1, "{list:?}");
        refused += 1;
    }
    assert_eq!(refused, 48_067);
}

/// An opening that there is not is refused before the list or the buffer is looked at: an empty list, and no room.
#[test]
fn unknown_openings() {
    for opening in [0, 4, 5, u32::MAX] {
        assert_eq!(linked::write(opening, &[], &mut []), -1, "{opening}");
    }
    for opening in 1..=3 {
        assert_eq!(linked::write(opening, &[], &mut []), -2, "{opening}");
    }
}

/// Lent memory of every length up to some entries to spare.
#[test]
fn lent_memory_of_any_length() {
    for list in lists::whole().take(114) {
        let room = list.room;
        let (returned, record) = same_write(&list, once(room).chain(0..room + 5));
        assert_eq!(returned, room as i64);
        let count = list.numbers.len();
        assert_eq!(same_read(&record, once(count).chain(0..count + 5)), (count as i64, list.numbers));
    }
}
