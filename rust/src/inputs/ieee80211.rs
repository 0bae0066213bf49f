//! IEEE 802.11's encoding tables, and receptions of their points without noise, with what document 01 makes of the tables. No
//! detector's constellation is used here.
//!
//! BPSK, QPSK, 16-QAM and 64-QAM are of the OFDM PHY; 256-QAM, which the newer PHYs add, has b0 b1 b2 b3 for I and b4 b5 b6 b7 for Q.
//! The tables were typed from the standard's pattern with no copy of it at hand.

use crate::detectors::Detector;
use crate::format::block::{Block, Complex, Vector};
use crate::format::reply::{self, Answer};

/// A row of an axis: the input bits and I out or Q out. Rows are by rising amplitude.
pub type Row = (&'static str, i64);

const NO_BITS: [Row; 1] = [("", 0)];
const PSK: [Row; 2] = [("0", -1), ("1", 1)];
const QAM_16: [Row; 4] = [("00", -3), ("01", -1), ("11", 1), ("10", 3)];
const QAM_64: [Row; 8] = [("000", -7), ("001", -5), ("011", -3), ("010", -1), ("110", 1), ("111", 3), ("101", 5), ("100", 7)];
const QAM_256: [Row; 16] = [
    ("0000", -15),
    ("0001", -13),
    ("0011", -11),
    ("0010", -9),
    ("0110", -7),
    ("0111", -5),
    ("0101", -3),
    ("0100", -1),
    ("1100", 1),
    ("1101", 3),
    ("1111", 5),
    ("1110", 7),
    ("1010", 9),
    ("1011", 11),
    ("1001", 13),
    ("1000", 15),
];

/// The I and the Q table of each Q: the standard prints the same one for both, but for BPSK, which has no Q.
pub const AXES: [(usize, &[Row], &[Row]); 5] =
    [(1, &PSK, &NO_BITS), (2, &PSK, &PSK), (4, &QAM_16, &QAM_16), (6, &QAM_64, &QAM_64), (8, &QAM_256, &QAM_256)];

/// A symbol's bits as the standard writes them, b0 first, and its point.
pub type Symbol = (String, Complex);

/// The symbols of each Q: every row pair, b0 and on for I, the rest for Q.
pub fn mappings() -> [(usize, Vec<Symbol>); 5] {
    let pair = |i: &Row, q: &Row| ([i.0, q.0].concat(), Complex { re: i.1, im: q.1 });
    AXES.map(|(bits, in_phase, quadrature)| {
        (bits, in_phase.iter().flat_map(|i| quadrature.iter().map(move |q| pair(i, q))).collect())
    })
}

/// Bits as one number, the first one highest.
pub fn number(bits: &str) -> usize {
    usize::from_str_radix(bits, 2).expect("bits")
}

/// A vector without noise, and what demand 2 says of it.
pub struct Reception {
    pub block: Block,
    /// The bits sent, stream 1 first.
    pub sent: String,
    pub values: Vec<i64>,
}

/// Each symbol of each Q in each stream of each M, the table's first row in the other streams, with this C.
pub fn receptions(clip: i64) -> Vec<Reception> {
    let mut all = Vec::new();
    for (bits, mapping) in mappings() {
        let most = if bits == 8 { 3 } else { 4 };
        for (streams, stream) in (1..=most).flat_map(|streams| (0..streams).map(move |stream| (streams, stream))) {
            for symbol in &mapping {
                let mut sent = vec![&mapping[0]; streams];
                sent[stream] = symbol;
                all.push(Reception::of(&mapping, &sent, clip));
            }
        }
    }
    all
}

impl Reception {
    /// One symbol a stream through R with 1, 2, 3, 4 on its diagonal and zeros right of it, so that no stream is like another;
    /// priors 0 and the largest D.
    fn of(mapping: &[Symbol], sent: &[&Symbol], clip: i64) -> Reception {
        let (streams, bits) = (sent.len(), mapping[0].0.len());
        let gain = |stream: usize| Complex { re: stream as i64 + 1, im: 0 };
        let entry = |row, column| if row == column { gain(row) } else { Complex::ZERO };
        let matrix = (0..streams).map(|row| (0..streams).map(|column| entry(row, column)).collect()).collect();
        let received = (0..streams).map(|stream| gain(stream) * sent[stream].1).collect();
        let vector = Vector { matrix, received, priors: vec![0; streams * bits] };
        let value = |stream: usize, bit| soft_value(mapping, gain(stream), sent[stream].1, bit).clamp(-clip, clip);
        let all_bits = (0..streams).flat_map(|stream| (0..bits).map(move |bit| (stream, bit)));
        Reception {
            block: Block::older(streams, bits, clip, 17_043_520, vec![vector]),
            sent: sent.iter().map(|symbol| symbol.0.as_str()).collect(),
            values: all_bits.map(|(stream, bit)| value(stream, bit)).collect(),
        }
    }

    /// The same in a record with this W, of which a complete search takes nothing.
    pub fn with_weak(self, weak: i64) -> Reception {
        Reception { block: self.block.with_weak(weak), ..self }
    }

    /// Holds a detector to the label and the values, and to a complete search; how many nodes it says it walked.
    pub fn check(&self, detect: Detector) -> i64 {
        let mut reply = vec![0; self.block.room()];
        let length = detect(&self.block.record(), &mut reply);
        reply.truncate(usize::try_from(length).expect("a reply"));
        let nodes = reply::decode(&reply)[0].nodes;
        let answer = Answer { stopped: false, nodes, label: number(&self.sent), values: self.values.clone() };
        let Block { streams, bits, clip, .. } = self.block;
        assert_eq!(reply, reply::encode(&self.block, &[answer]), "{} by M = {streams}, Q = {bits}, C = {clip}", self.sent);
        nodes
    }
}

/// A bit's value before the clip: the least metric over the table's symbols with the bit 1, less the least with it 0. R is
/// diagonal and the priors are 0: the other streams add the same to both, so that only the bit's own stream is gone through.
fn soft_value(mapping: &[Symbol], gain: Complex, sent: Complex, bit: usize) -> i64 {
    let least = |wanted: u8| {
        let with = mapping.iter().filter(|symbol| symbol.0.as_bytes()[bit] == wanted);
        with.map(|symbol| (gain * (sent - symbol.1)).magnitude_squared()).min().expect("each side has rows")
    };
    least(b'1') - least(b'0')
}
