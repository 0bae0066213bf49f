//! What readers, writers and detectors are tested on: the same in every run.
//!
//! - `trials` (records) and `lists` (of numbers): what one is compared with another on, in groups. `ties` and `owners`: the records of
//!   some of them.
//! - `cases`: the record reader's stored test; `samples`: the records of samples/.
//! - `readings`, `eq_31` and `ieee80211`: what the papers say themselves, with what they expect.
//! - `numbers`, `chance` and `channel`: what the others are made with.

pub mod cases;
pub mod chance;
pub mod channel;
pub mod eq_31;
pub mod ieee80211;
pub mod lists;
pub mod numbers;
pub mod owners;
pub mod readings;
pub mod samples;
pub mod ties;
pub mod trials;

/// Inputs of one kind.
pub struct Group<Input> {
    pub name: &'static str,
    /// How many there are, and how many of them are accepted.
    pub counts: (usize, usize),
    pub inputs: Box<dyn Iterator<Item = Input> + Send>,
}

impl<Input> Group<Input> {
    fn of(name: &'static str, counts: (usize, usize), inputs: impl Iterator<Item = Input> + Send + 'static) -> Self {
        Group { name, counts, inputs: Box::new(inputs) }
    }
}

/// Lent memory to try: as many entries as there are to write, one fewer, some to spare, and none.
pub fn lengths(entries: usize) -> [usize; 4] {
    [entries, entries.saturating_sub(1), entries + 40, 0]
}

/// The same entries with another at a place.
pub fn with<T: Copy>(entries: &[T], at: usize, other: T) -> Vec<T> {
    let mut all = entries.to_vec();
    all[at] = other;
    all
}
