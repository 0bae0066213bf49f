//! Cases by chance from a fixed seed, whole and damaged, and the listing's record with bytes exchanged.

use super::{accepted, Case, Intent};
use crate::format::block::SHAPES;
use crate::format::encoding::Opening;
use crate::inputs::chance::Chance;
use crate::inputs::numbers::contents_by_chance;
use crate::inputs::readings::{LISTING_RECORD, OWNED_RECORD, WEAK_RECORD};
use crate::inputs::with;

/// The listing record, one with W, and one with an owner, with each byte after the opening exchanged for some others.
pub fn replaced_bytes() -> Vec<Case> {
    let replaced = |record: &[u8], at: usize, byte: u8| {
        let about = format!("record of {} bytes with byte {} as {byte:02X}", record.len(), at + 1);
        Case { about, bytes: with(record, at, byte), intent: Intent::Either }
    };
    let bytes = [0x00, 0x01, 0x04, 0x05, 0x06, 0x40, 0x41, 0x7F, 0x80, 0xFF];
    let all =
        |record: &'static [u8]| (Opening::LENGTH..record.len()).flat_map(move |at| bytes.map(|byte| replaced(record, at, byte)));
    all(&LISTING_RECORD).chain(all(&WEAK_RECORD)).chain(all(&OWNED_RECORD)).collect()
}

/// Records by chance, for every M and Q, of each opening by turns.
pub fn undamaged_by_chance() -> Vec<Case> {
    let mut chance = Chance(2024);
    let mut cases = Vec::new();
    for turn in 0..6 * SHAPES.len() {
        let (streams, bits) = SHAPES[turn % SHAPES.len()];
        let vectors = 1 + (turn / SHAPES.len()) as i64 % 3;
        let opening = Opening::ALL[turn % Opening::ALL.len()];
        let contents = contents_by_chance(&mut chance, opening, (streams as i64, bits as i64, vectors));
        cases.push(accepted(format!("by chance {}", turn + 1), contents.record()));
    }
    cases
}

/// Records by chance with one byte damaged.
pub fn damaged_by_chance() -> Vec<Case> {
    let mut chance = Chance(2025);
    let mut cases = Vec::new();
    for turn in 0..300 {
        let (streams, bits) = chance.one_of(&SHAPES);
        let vectors = chance.between(1, 3);
        let opening = Opening::ALL[turn % Opening::ALL.len()];
        let mut bytes = contents_by_chance(&mut chance, opening, (streams as i64, bits as i64, vectors)).record();
        let at = chance.between(0, bytes.len() as i64 - 1) as usize;
        bytes[at] ^= chance.between(1, 255) as u8;
        let about = format!("damaged by chance {}: byte {}", turn + 1, at + 1);
        cases.push(Case { about, bytes, intent: Intent::Either });
    }
    cases
}
