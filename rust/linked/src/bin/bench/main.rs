//! The proved detector beside the fast Rust one: same process, same records, same buffers.
//!
//! - `bench times [FOLDER]`: a table of times, on records of its own or on the record files of a folder.
//! - `bench plot FILE`: nodes and time of a vector over the clip, drawn to an SVG file.
//! - `bench records FOLDER`: writes its own records as files.
//! - `bench repeat DETECTOR COUNT FILE`: runs `proved` or `rust` COUNT times on a record, and prints M, Q and the nodes of one run, for
//!   counting instructions from outside.

mod chart;
mod plot;
mod sets;
mod timing;

use reference::command::{self, run};
use reference::detectors::Detector;
use reference::format::reply::MOST_ROOM;
use std::path::Path;
use std::process::ExitCode;
use timing::{PROVED, RUST};

fn main() -> ExitCode {
    run("bench", |words| match *words {
        ["times"] => print_times(&sets::own()),
        ["times", folder] => sets::of_folder(Path::new(folder)).and_then(|records| print_times(&records)),
        ["plot", file] => command::write(Path::new(file), plot::drawing().as_bytes()),
        ["records", folder] => write_records(Path::new(folder)),
        ["repeat", "proved", count, file] => repeat(PROVED, count, file),
        ["repeat", "rust", count, file] => repeat(RUST, count, file),
        _ => Err("usage: bench times [FOLDER], plot FILE, records FOLDER, repeat proved|rust COUNT FILE".to_string()),
    })
}

fn write_records(folder: &Path) -> Result<(), String> {
    sets::own().iter().try_for_each(|record| command::write(&folder.join(format!("{}.rec", record.name)), &record.bytes))
}

fn repeat(detect: Detector, count: &str, file: &str) -> Result<(), String> {
    let bytes = command::read(Path::new(file))?;
    let count = count.parse().map_err(|_| format!("{count} is no count"))?;
    let record = sets::Record::of(file.to_string(), bytes)?;
    timing::run(detect, &record.bytes, count);
    println!("{} {} {}", record.streams, record.bits, record.nodes);
    Ok(())
}

/// The head of the table of times.
const HEAD: &str = "| record | vectors | nodes a vector | proved: µs a vector | Rust: µs a vector \
    | proved: M nodes/s | Rust: M nodes/s | times' ratio |";

/// A line for each record, and one for all records of each M and Q together.
fn print_times(records: &[sets::Record]) -> Result<(), String> {
    println!(
        "Both detectors built for release, in one process, by turns on the same record; the least of {} turns.",
        timing::TURNS
    );
    println!("Each call of either gets a reply buffer of {} bytes that is cleared first; the clearing is timed.\n", MOST_ROOM);
    println!("{HEAD}\n|---|---|---|---|---|---|---|---|");
    let mut sums: Vec<((usize, usize), timing::Times)> = vec![];
    for (record, times) in records.iter().zip(timing::times(records)?) {
        println!("| {} | {} |", record.name, times.cells());
        let shape = (record.streams, record.bits);
        match sums.iter_mut().find(|sum| sum.0 == shape) {
            Some(sum) => sum.1.add(&times),
            None => sums.push((shape, times)),
        }
    }
    for ((streams, bits), times) in &sums {
        println!("| **all of M = {streams}, Q = {bits}** | {} |", times.cells());
    }
    println!("\nGeometric means of the ratios:\n");
    for ((streams, bits), times) in &sums {
        println!("- M = {streams}, Q = {bits}: {:.2}", times.mean_ratio());
    }
    Ok(())
}
