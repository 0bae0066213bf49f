//! The call for several records beside single calls, all of the proved library: on each record alone, and on four records together.

use crate::sets::Record;
use crate::timing::{least, pair_of, Pair, PROVED, SEVERAL};
use reference::detectors::several::MOST_RECORDS;
use reference::format::reply::MOST_ROOM;

/// A table of each, with the worst of its ratios and their geometric mean. Fewer than four records have the first table alone.
pub fn print_times(records: &[Record]) -> Result<(), String> {
    println!("One record: the call for several beside the single call.\n");
    print_table(&records.iter().map(|record| pair_of(record, [&SEVERAL, &PROVED])).collect::<Vec<_>>())?;
    if records.len() < MOST_RECORDS {
        return Ok(());
    }
    println!("\nFour records: one call beside four single calls, each given the buffer's rest.\n");
    let all: Vec<Joined> = records.chunks_exact(MOST_RECORDS).map(Joined::of).collect();
    let singles: Vec<_> =
        all.iter().map(|joined| |bytes: &[u8], replies: &mut [u8]| joined.single_calls(bytes, replies)).collect();
    let mut pairs = vec![];
    for (joined, single) in all.iter().zip(&singles) {
        pairs.push(Pair { name: &joined.name, calls: [&SEVERAL, single], bytes: &joined.bytes, room: MOST_RECORDS * MOST_ROOM });
    }
    print_table(&pairs)
}

fn print_table(pairs: &[Pair]) -> Result<(), String> {
    println!("| records | several: µs | single: µs | ratio |\n|---|---|---|---|");
    let (mut worst, mut logarithms) = (0.0_f64, 0.0);
    for (pair, [several, single]) in pairs.iter().zip(least(pairs)?) {
        let ratio = several / single;
        println!("| {} | {:.2} | {:.2} | {ratio:.3} |", pair.name, several * 1e6, single * 1e6);
        worst = worst.max(ratio);
        logarithms += ratio.ln();
    }
    println!("\nWorst ratio {worst:.3}, geometric mean {:.3}.", (logarithms / pairs.len() as f64).exp());
    Ok(())
}

/// Records back to back.
struct Joined {
    name: String,
    bytes: Vec<u8>,
    /// How long each of them is.
    lengths: Vec<usize>,
}

impl Joined {
    fn of(records: &[Record]) -> Joined {
        let name = format!("{} to {}", records[0].name, records[records.len() - 1].name);
        let bytes = records.iter().flat_map(|record| &record.bytes).copied().collect();
        Joined { name, bytes, lengths: records.iter().map(|record| record.bytes.len()).collect() }
    }

    /// A single call on each record, given the buffer's rest: the replies' length.
    fn single_calls(&self, bytes: &[u8], replies: &mut [u8]) -> i64 {
        let (mut start, mut written) = (0, 0);
        for length in &self.lengths {
            written += PROVED(&bytes[start..start + length], &mut replies[written..]) as usize;
            start += length;
        }
        written as i64
    }
}
