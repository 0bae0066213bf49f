//! The two detectors, and how long they take.

use crate::sets::Record;
use reference::detectors::{fast, Detector};
use reference::format::reply::MOST_ROOM;
use std::hint::black_box;
use std::time::Instant;

pub const PROVED: Detector = linked::detect;
pub const RUST: Detector = fast::detect;

/// Passes over all records, and how often each detector is timed on a record in a pass: fewer times where these take longer than `LONG`
/// seconds. The least time of all counts; passes spread it over spells in which the machine has other work.
pub const PASSES: usize = 6;
pub const TURNS: usize = 5;
const LONG: f64 = 0.5;

/// How long a turn takes at least, in seconds.
const TURN: f64 = 0.002;

/// Seconds of both detectors for one run of these vectors.
#[derive(Clone, Copy, Default)]
pub struct Times {
    pub proved: f64,
    pub rust: f64,
    pub vectors: usize,
    pub nodes: u64,
    /// How many records, and the sum of the logarithms of their ratios.
    pub records: usize,
    pub logarithms: f64,
}

impl Times {
    fn of(record: &Record, proved: f64, rust: f64) -> Times {
        let logarithms = (proved / rust).ln();
        Times { proved, rust, vectors: record.vectors, nodes: record.nodes, records: 1, logarithms }
    }

    pub fn add(&mut self, other: &Times) {
        self.proved += other.proved;
        self.rust += other.rust;
        self.vectors += other.vectors;
        self.nodes += other.nodes;
        self.records += other.records;
        self.logarithms += other.logarithms;
    }

    /// The cells of a table's line, without the first.
    pub fn cells(&self) -> String {
        let (vectors, nodes) = (self.vectors as f64, self.nodes as f64);
        let micros = |seconds: f64| format!("{:.1}", seconds / vectors * 1e6);
        let rate = |seconds: f64| format!("{:.2}", nodes / seconds / 1e6);
        let ratio = format!("{:.2}", self.proved / self.rust);
        let each = [micros(self.proved), micros(self.rust), rate(self.proved), rate(self.rust), ratio];
        format!("{vectors} | {:.1} | {}", nodes / vectors, each.join(" | "))
    }

    /// The geometric mean of the records' ratios.
    pub fn mean_ratio(&self) -> f64 {
        (self.logarithms / self.records as f64).exp()
    }
}

/// Runs a detector some times; before each run its buffer is cleared. The buffer and the returned number of the last run.
pub fn run(detect: Detector, record: &[u8], count: usize) -> (Vec<u8>, i64) {
    let mut reply = vec![0; MOST_ROOM];
    let mut length = 0;
    for _ in 0..count {
        black_box(&mut reply).fill(0);
        length = detect(black_box(record), black_box(&mut reply));
    }
    (reply, length)
}

/// Times both detectors on each record, once it is seen that they answer the same.
pub fn times(records: &[Record]) -> Result<Vec<Times>, String> {
    for record in records {
        if run(PROVED, &record.bytes, 1) != run(RUST, &record.bytes, 1) {
            return Err(format!("{}: the two detectors differ", record.name));
        }
    }
    let mut least = vec![[f64::INFINITY; 2]; records.len()];
    for _pass in 0..PASSES {
        records.iter().zip(&mut least).for_each(|(record, least)| take_turns(record, least));
    }
    Ok(records.iter().zip(&least).map(|(record, &[proved, rust])| Times::of(record, proved, rust)).collect())
}

/// Both detectors by turns, each first every other time; lowers their least times.
fn take_turns(record: &Record, least: &mut [f64; 2]) {
    let detectors = [PROVED, RUST];
    let counts = detectors.map(|detect| (TURN / seconds(detect, record, 1)).ceil().max(1.0) as usize);
    let start = Instant::now();
    for turn in (0..TURNS).take_while(|&turn| turn == 0 || start.elapsed().as_secs_f64() < LONG) {
        for at in [turn % 2, (turn + 1) % 2] {
            least[at] = least[at].min(seconds(detectors[at], record, counts[at]));
        }
    }
}

/// Seconds for one run, the mean of some.
fn seconds(detect: Detector, record: &Record, count: usize) -> f64 {
    let start = Instant::now();
    black_box(run(detect, &record.bytes, count));
    start.elapsed().as_secs_f64() / count as f64
}
