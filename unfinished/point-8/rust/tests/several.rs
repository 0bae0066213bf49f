//! Up to four records in a call, by document 02's Point 8: the readings, and what holds of every call. tests/wrong_several.rs shows that
//! the same batches tell calls that are wrong.

use reference::comparison::{before, compare, outcome, Outcome};
use reference::detectors::fast;
use reference::detectors::several::{self, Report, MOST_RECORDS};
use reference::format::record::read;
use reference::inputs::several::{all, groups, readings, Batch};
use reference::inputs::trials;

#[test]
fn the_readings() {
    for reading in readings() {
        reading.expect(several::plain);
        reading.expect(several::fast);
    }
}

/// Whichever detector makes the single calls, the report and every byte of the buffer are the same, and behind the replies nothing is
/// altered. 13 is not given, and with 18 nothing is answered.
#[test]
fn every_batch() {
    compare(groups(), |batch| {
        let records = batch.records();
        for &room in &batch.rooms {
            let (report, buffer) = outcome(several::fast, &records[..], room);
            assert!(
                !batch.suits_plain || outcome(several::plain, &records[..], room) == (report, buffer.clone()),
                "{records:02X?}"
            );
            assert!(buffer[report.length..] == before(room)[report.length..], "{records:02X?}");
            assert!(report.number != 13 && report.count <= 4, "{report:?}: {records:02X?}");
            assert!(report.number != 18 || (report.count, report.length) == (0, 0), "{report:?}: {records:02X?}");
        }
        outcome(several::fast, &records[..], batch.most_room()).0.number == 0
    });
}

/// What single calls on a batch's parts come to, one after another, each given the buffer's rest. Nothing is said where the first part
/// that is refused depends on the bytes behind it.
fn by_single_calls(parts: &[Vec<u8>], room: usize) -> Option<Outcome<u8, Report>> {
    let refused = parts.iter().take(MOST_RECORDS).position(|part| read(part).is_err());
    if refused.is_some_and(|at| depends_on_more(&parts[at], at + 1 == parts.len())) {
        return None;
    }
    let mut replies = before(room);
    let mut report = Report::default();
    if refused.is_none() && !(1..=MOST_RECORDS).contains(&parts.len()) {
        let number = if parts.is_empty() { 1 } else { 18 };
        return Some((Report { number, ..report }, replies));
    }
    for part in parts {
        match fast::detect(part, &mut replies[report.length..]) {
            refused @ ..0 => return Some((Report { number: -refused as u32, ..report }, replies)),
            length => report = Report { count: report.count + 1, length: report.length + length as usize, number: 0 },
        }
    }
    Some((report, replies))
}

/// Is a part refused at its end? It is more than a record, or less than one, and more bytes follow.
fn depends_on_more(part: &[u8], is_last: bool) -> bool {
    match read(part) {
        Err(13) => true,
        Err(2) => !is_last,
        Err(1) => !is_last && part.len() < 4,
        _ => false,
    }
}

#[test]
fn replies_are_those_of_single_calls() {
    let mut said = 0;
    for batch in all() {
        let records = batch.records();
        for &room in &batch.rooms {
            if let Some(expected) = by_single_calls(&batch.parts, room) {
                assert_eq!(outcome(several::fast, &records[..], room), expected, "{room}: {records:02X?}");
                said += 1;
            }
        }
    }
    assert_eq!(said, 61_564);
}

/// A call on one record is the single call. Where that gives 13, bytes follow the record, which is answered if there is room for it.
#[test]
fn a_record_alone() {
    compare(trials::groups(), |trial| {
        for length in trial.lengths() {
            let (returned, reply) = outcome(fast::detect, &trial.record[..], length);
            let (report, replies) = outcome(several::fast, &trial.record[..], length);
            match returned {
                -13 => assert!(report.number != 13 && (report.count > 0 || report.number == 14), "{:02X?}", trial.record),
                refused @ ..0 => assert_eq!(report, Report { number: -refused as u32, ..Report::default() }),
                length => assert_eq!(report, Report { count: 1, length: length as usize, number: 0 }),
            }
            assert!(returned == -13 || replies == reply, "{:02X?}", trial.record);
        }
        fast::detect(&trial.record, &mut vec![0; trial.room]) > 0
    });
}

/// None to three records are answered before each refusal, one to four where none is refused, and none where 18 is given: all of these
/// come about, and nothing else does.
#[test]
fn every_report_is_there() {
    let reports = |batch: Batch| {
        let records = batch.records();
        batch.rooms.into_iter().map(move |room| outcome(several::fast, &records[..], room).0)
    };
    let mut seen: Vec<(u32, u32)> = all().flat_map(reports).map(|report| (report.number, report.count)).collect();
    seen.sort();
    seen.dedup();
    let refusals = (1..=12).chain(14..=17).flat_map(|number| (0..4).map(move |count| (number, count)));
    let expected: Vec<(u32, u32)> = (1..=4).map(|count| (0, count)).chain(refusals).chain([(18, 0)]).collect();
    assert_eq!(seen, expected);
}
