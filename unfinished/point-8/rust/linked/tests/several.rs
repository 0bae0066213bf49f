//! The exported call for several records of the proved library: against the Rust reference on every batch, number, count, length and every
//! byte of the buffer; against its own single calls; and against the readings, which were worked out by hand.

use reference::comparison::{before, compare, outcome};
use reference::detectors::several::{self, Report};
use reference::format::record::split_first;
use reference::inputs::several::{all, groups, readings};
use reference::inputs::trials;
use std::hint::black_box;

#[test]
fn the_readings() {
    for reading in readings() {
        reading.expect(linked::several);
    }
}

#[test]
fn every_batch() {
    compare(groups(), |batch| {
        let records = batch.records();
        for &room in &batch.rooms {
            let (report, replies) = outcome(linked::several, &records[..], room);
            let (expected, expected_replies) = outcome(several::fast, &records[..], room);
            assert_eq!(report, expected, "{room}: {records:02X?}");
            assert!(replies == expected_replies, "{room}: {records:02X?}\n{replies:02X?}\n{expected_replies:02X?}");
        }
        linked::several(&records, &mut vec![0; batch.most_room()]).number == 0
    });
}

/// The library's own single calls, one after another, each given the buffer's rest: they make the same replies, and what ended the call
/// ends them. Only 18 is the call's own.
#[test]
fn replies_are_those_of_single_calls() {
    let mut answered = 0;
    for batch in all() {
        let records = batch.records();
        for &room in &batch.rooms {
            let (report, replies) = outcome(linked::several, &records[..], room);
            if report.number != 18 {
                assert!((report, replies) == by_single_calls(&records, room, report), "{room}: {records:02X?}");
                answered += report.count;
            }
        }
    }
    assert_eq!(answered, 51_535);
}

/// Single calls on as many records as were answered, and on the one that was refused: with all bytes behind it, which count only where a
/// record has no fault of its own, and without them where it found too little room.
fn by_single_calls(records: &[u8], room: usize, report: Report) -> (Report, Vec<u8>) {
    let mut replies = before(room);
    let mut length = 0;
    let mut rest = records;
    for _ in 0..report.count {
        let (record, after) = split_first(rest).expect("an answered record");
        length += usize::try_from(linked::detect(record, &mut replies[length..])).expect("a reply");
        rest = after;
    }
    let number = match report.number {
        0 => {
            assert!(rest.is_empty(), "{rest:02X?} are left");
            0
        }
        14 => -linked::detect(split_first(rest).expect("a record").0, &mut replies[length..]) as u32,
        _ => -linked::detect(rest, &mut replies[length..]) as u32,
    };
    (Report { count: report.count, length, number }, replies)
}

/// A call on one record is the single call, unless that gives 13.
#[test]
fn a_record_alone() {
    compare(trials::groups(), |trial| {
        let (returned, reply) = outcome(linked::detect, &trial.record[..], trial.room);
        let (report, replies) = outcome(linked::several, &trial.record[..], trial.room);
        let expected = match returned {
            refused @ ..0 => Report { number: -refused as u32, ..Report::default() },
            length => Report { count: 1, length: length as usize, number: 0 },
        };
        match returned {
            -13 => assert!(report.number != 13, "{:02X?}", trial.record),
            _ => assert!((report, replies) == (expected, reply), "{report:?}: {:02X?}", trial.record),
        }
        returned > 0
    });
}

/// How many bytes stand before and behind what a call is given, and numbers that no answer has.
const AROUND: usize = 64;
const COUNT: u32 = 0xC0C0_C0C0;
const LENGTH: usize = 0xD0D0_D0D0;

/// Nothing is altered but the replies' own bytes, count and length: not the records, and not what stands before and behind all of these.
#[test]
fn nothing_else_is_altered() {
    for batch in all() {
        let around: Vec<u8> = before(AROUND);
        let memory = [around.clone(), batch.records(), around].concat();
        let given = AROUND..memory.len() - AROUND;
        for &room in &batch.rooms {
            let (mut records, mut replies) = (memory.clone(), before(room + 2 * AROUND));
            let (mut counts, mut lengths) = ([COUNT; 5], [LENGTH; 5]);
            let lent = &mut replies[AROUND..AROUND + room];
            let number = linked::detect_several(&records[given.clone()], lent, &mut counts[2], &mut lengths[2]);
            let (report, expected) = outcome(several::fast, &memory[given.clone()], room);
            black_box((&mut records, &mut replies, &mut counts, &mut lengths));
            assert_eq!(number, report.number, "{memory:02X?}");
            assert_eq!(counts, [COUNT, COUNT, report.count, COUNT, COUNT], "{memory:02X?}");
            assert_eq!(lengths, [LENGTH, LENGTH, report.length, LENGTH, LENGTH], "{memory:02X?}");
            let mut altered: Vec<u8> = before(room + 2 * AROUND);
            altered[AROUND..AROUND + report.length].copy_from_slice(&expected[..report.length]);
            assert!(replies == altered && records == memory, "{memory:02X?}");
        }
    }
}
