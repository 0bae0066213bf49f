//! Up to four records in a call, by document 02's Point 8: records back to back in, replies back to back out, each byte for byte that of
//! a single call given the buffer's rest. Which detector makes the single calls is the caller's choice.

use super::Detector;
use crate::format::record::{split_first, Refusal};

/// The most records that a call takes.
pub const MOST_RECORDS: usize = 4;

/// What a call reports: how many records are answered, how long their replies are together, and the number of the refusal that ended
/// the call, 0 if none did.
#[derive(Clone, Copy, Debug, Default, PartialEq, Eq)]
pub struct Report {
    pub count: u32,
    pub length: usize,
    pub number: Refusal,
}

/// A call: records and a lent buffer for their replies in, the report out.
pub type Several = fn(records: &[u8], replies: &mut [u8]) -> Report;

/// Answers one record after another. The first that is refused ends the call, and what was written before it stands. Of no bytes at all
/// the first record is refused.
pub fn detect(single: Detector, records: &[u8], replies: &mut [u8]) -> Report {
    let mut report = Report::default();
    if go_on_after_four(records) {
        return Report { number: 18, ..report };
    }
    let mut rest = records;
    loop {
        match answer_first(single, rest, &mut replies[report.length..]) {
            Err(refusal) => return Report { number: refusal, ..report },
            Ok((length, after)) => {
                report.count += 1;
                report.length += length;
                rest = after;
            }
        }
        if rest.is_empty() {
            return report;
        }
    }
}

/// The call with the plain detector.
pub fn plain(records: &[u8], replies: &mut [u8]) -> Report {
    detect(super::plain::detect, records, replies)
}

/// The call with the fast detector.
pub fn fast(records: &[u8], replies: &mut [u8]) -> Report {
    detect(super::fast::detect, records, replies)
}

/// Do four records pass 1 to 12 and 15 to 17, and do bytes follow the fourth? Nothing is asked of these bytes, or of the buffer.
fn go_on_after_four(records: &[u8]) -> bool {
    let mut rest = records;
    for _ in 0..MOST_RECORDS {
        match split_first(rest) {
            Ok((_, after)) => rest = after,
            Err(_) => return false,
        }
    }
    !rest.is_empty()
}

/// The first record's single call: the length of the reply, and the bytes behind the record. The record is handed over without these,
/// so that 13 is never given.
fn answer_first<'a>(single: Detector, records: &'a [u8], replies: &mut [u8]) -> Result<(usize, &'a [u8]), Refusal> {
    let (record, after) = split_first(records)?;
    match single(record, replies) {
        refused @ ..0 => Err(refused.unsigned_abs() as Refusal),
        length => Ok((length as usize, after)),
    }
}
