//! Nodes and time of a vector over the clip, for three noise levels.

use crate::chart::{chart, Curve, Panel};
use crate::sets::Record;
use crate::timing::{times, Times};
use reference::inputs::channel::Plan;

/// The noise per axis, as `Plan` has it, the signal-to-noise ratio at an antenna (M x 42 to both axes' noise), and a colour.
const NOISES: [(f64, &str, &str); 3] = [(0.9, "20 dB", "#d55e00"), (0.5, "25 dB", "#0072b2"), (0.3, "30 dB", "#009e73")];
const CLIPS: [f64; 9] = [0.25, 0.5, 1.0, 2.0, 4.0, 8.0, 16.0, 32.0, 64.0];

/// Records of 64 vectors at each point.
const RECORDS: u64 = 2;

/// So large that no vector is stopped.
const SHARE: i64 = 100_000;

pub fn drawing() -> String {
    let points = NOISES.iter().flat_map(|&(noise, ..)| CLIPS.map(|clip| (noise, clip)));
    let records: Vec<Record> = points.flat_map(|(noise, clip)| records(noise, clip)).collect();
    let times = times(&records).expect("both detectors answer the same");
    let sums: Vec<Times> = times.chunks(RECORDS as usize).map(sum).collect();
    let (mut nodes, mut micros) = (vec![], vec![]);
    for ((_, ratio, colour), sums) in NOISES.into_iter().zip(sums.chunks(CLIPS.len())) {
        let curve = |words: &str, is_dashed: bool, value: &dyn Fn(&Times) -> f64| Curve {
            name: format!("{ratio}{words}"),
            colour,
            is_dashed,
            points: CLIPS.into_iter().zip(sums.iter().map(value)).collect(),
        };
        nodes.push(curve("", false, &|sum| sum.nodes as f64 / sum.vectors as f64));
        micros.push(curve(", proved", false, &|sum| sum.proved / sum.vectors as f64 * 1e6));
        micros.push(curve(", fast Rust", true, &|sum| sum.rust / sum.vectors as f64 * 1e6));
    }
    chart(
        "Four streams of 64 points (M = 4, Q = 6) at three signal-to-noise ratios; no priors, no vector stopped",
        "clip C, in units of the noise variance",
        &[Panel { title: "Nodes a vector", curves: nodes }, Panel { title: "Time a vector, µs", curves: micros }],
    )
}

/// The records of a point. The channels and the noise's directions are the same at each point.
fn records(noise: f64, clip: f64) -> impl Iterator<Item = Record> {
    let plan = Plan { streams: 4, bits: 6, vectors: 64, clip, share: SHARE, noise, prior: 0.0 };
    (0..RECORDS).map(move |seed| {
        let record = Record::of_plan(format!("noise {noise}, clip {clip}"), &plan, 41 + seed);
        assert!((record.nodes as i64) < 64 * (SHARE - 4), "a vector may have been stopped");
        record
    })
}

fn sum(times: &[Times]) -> Times {
    let mut sum = Times::default();
    times.iter().for_each(|other| sum.add(other));
    sum
}
