//! The records that are measured.

use crate::timing;
use reference::command;
use reference::format::block::Block;
use reference::format::reply;
use reference::inputs::chance::Chance;
use reference::inputs::channel::Plan;
use std::fs;
use std::path::{Path, PathBuf};

/// A record that both detectors accept, with its sizes and the nodes that its reply counts.
pub struct Record {
    pub name: String,
    pub bytes: Vec<u8>,
    pub streams: usize,
    pub bits: usize,
    pub vectors: usize,
    pub nodes: u64,
}

impl Record {
    pub fn of(name: String, bytes: Vec<u8>) -> Result<Record, String> {
        let block = Block::read(&bytes).map_err(|refusal| format!("{name}: refused by {refusal}"))?;
        let (reply, _) = timing::run(timing::RUST, &bytes, 1);
        let nodes = reply::decode(&reply).iter().map(|answer| answer.nodes as u64).sum();
        Ok(Record { name, bytes, streams: block.streams, bits: block.bits, vectors: block.vectors.len(), nodes })
    }

    pub fn of_plan(name: String, plan: &Plan, seed: u64) -> Record {
        Record::of(name, plan.block(&mut Chance(seed)).record()).expect("a plan makes records that are accepted")
    }
}

/// Receptions over Rayleigh channels, 16 vectors a record under a share of 3,000: M, Q, noise, clip and priors as in `Plan`. The widest clip
/// is for four streams of 64 points alone.
pub fn own() -> Vec<Record> {
    let clips_and_priors = [(1.0, 0.0), (8.0, 0.0), (8.0, 2.0), (60.0, 0.0)];
    let mut all = vec![];
    for (streams, bits, kinds) in [(4, 6, 4), (4, 4, 3), (2, 6, 3), (3, 8, 3), (2, 8, 3)] {
        for noise in [0.3, 0.5, 0.9, 2.0] {
            for (clip, prior) in clips_and_priors.into_iter().take(kinds) {
                let plan = Plan { streams, bits, vectors: 16, clip, share: 3_000, noise, prior };
                let name = format!("{:02}-m{streams}-q{bits}-noise{noise}-clip{clip}-priors{prior}", all.len() + 1);
                all.push(Record::of_plan(name, &plan, 31));
            }
        }
    }
    all
}

/// The files of a folder that end in .rec, by name.
pub fn of_folder(folder: &Path) -> Result<Vec<Record>, String> {
    let entries = fs::read_dir(folder).map_err(|error| format!("{}: {error}", folder.display()))?;
    let is_record = |path: &PathBuf| path.extension().is_some_and(|end| end == "rec");
    let mut files: Vec<PathBuf> = entries.filter_map(Result::ok).map(|entry| entry.path()).filter(is_record).collect();
    files.sort();
    if files.is_empty() {
        return Err(format!("{}: no file there ends in .rec", folder.display()));
    }
    files.iter().map(|file| of_file(file)).collect()
}

fn of_file(file: &Path) -> Result<Record, String> {
    let name = file.file_stem().unwrap_or_default().to_string_lossy().into_owned();
    Record::of(name, command::read(file)?)
}
