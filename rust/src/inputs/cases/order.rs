//! Cases of two faults in one record, in neighbouring numbers, far apart, and at the ends: the earlier decides.

use super::parts::Parts;
use super::{refused, Case, OVER_LONG};
use crate::inputs::numbers::row;

/// Two faults in one record, in neighbouring numbers and far apart: the earlier decides. The earlier is one of the first, as many as
/// `count`.
pub fn order_of_checks(record: &Parts, count: usize) -> Vec<Case> {
    (0..count).flat_map(|at| two_faults(record, at)).collect()
}

fn two_faults(record: &Parts, at: usize) -> Vec<Case> {
    let next = at + 1;
    let last = record.count() - 1;
    let out_of_range = record.with_beyond(at);
    let malformed = record.with(at, &OVER_LONG);
    let number = |what: &str| format!("number {} {what}", at + 1);
    let ranged = |what: &str, bytes: Vec<u8>| refused(number(what), bytes, row(record.places[at]));
    vec![
        ranged("out of range, the next over-long", out_of_range.with(next, &OVER_LONG).bytes()),
        ranged("out of range, the next too", out_of_range.with_beyond(next).bytes()),
        ranged("out of range, the last too", out_of_range.with_beyond(last).bytes()),
        ranged("out of range, nothing after it", out_of_range.first(next)),
        ranged("out of range, the next cut off", out_of_range.first_and(next, &[0xFF])),
        refused(number("over-long, the next out of range"), malformed.with_beyond(next).bytes(), 3),
        refused(number("over-long, nothing after it"), malformed.first(next), 3),
        refused(number("cut off, out of range by then"), record.first_and(at, &[0xFF, 0xFF, 0xFF]), 2),
    ]
}

/// Two faults of which one is the opening or the end.
pub fn ends_of_checks(record: &Parts) -> Vec<Case> {
    let last = record.count() - 1;
    let wrong_opening = |parts: Parts| [vec![0x43, 0x42, 0x52, 0x30], parts.bytes()[4..].to_vec()].concat();
    vec![
        refused("wrong opening, M out of range".to_string(), wrong_opening(record.with_beyond(0)), 1),
        refused("wrong opening, M over-long".to_string(), wrong_opening(record.with(0, &OVER_LONG)), 1),
        refused("wrong opening, nothing after it".to_string(), vec![0x43, 0x42, 0x52, 0x30], 1),
        refused("last prior out of range, a byte more".to_string(), record.with_beyond(last).bytes_and(&[0]), 12),
        refused("last prior over-long, a byte more".to_string(), record.with(last, &OVER_LONG).bytes_and(&[0]), 3),
        refused("last prior of five groups".to_string(), record.with(last, &[0x80, 0x80, 0x80, 0x80, 0x01]).bytes(), 3),
    ]
}
