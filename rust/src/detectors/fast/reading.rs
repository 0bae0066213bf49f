//! Reading a record quickly, with checks of its own: its sizes, and its vectors' owners and numbers in record order.

use crate::format::encoding::Opening;
use crate::format::record::Refusal;

/// M, Q, N, C, W and D; W is C where the record has none.
pub struct Sizes {
    pub streams: usize,
    pub bits: usize,
    pub vectors: usize,
    pub clip: u32,
    pub weak: u32,
    pub share: u32,
}

impl Sizes {
    /// How many numbers a vector has: R, y and the priors.
    pub fn vector_numbers(&self) -> usize {
        self.streams * (self.streams + 2 + self.bits)
    }
}

/// A record that is accepted: its sizes, and its vectors' numbers but for their owners.
pub struct Record {
    pub sizes: Sizes,
    /// The vectors' owners, 1 to 4; behind the last vector they say nothing. Where the record names none, it is 1.
    owners: [u8; 64],
    pub numbers: Vec<i32>,
}

impl Record {
    /// An owner for each vector.
    pub fn owners(&self) -> &[u8] {
        &self.owners[..self.sizes.vectors]
    }
}

/// What is left of the record.
struct Rest<'a>(&'a [u8]);

/// The record of these bytes.
pub fn read(record: &[u8]) -> Result<Record, Refusal> {
    let opening = Opening::of(record).ok_or(1_u32)?;
    let mut rest = Rest(&record[Opening::LENGTH..]);
    let sizes = rest.sizes(opening.has_weak())?;
    let has_owners = opening.has_owners();
    let mut owners = [1; 64];
    let mut numbers = Vec::with_capacity(sizes.vectors * sizes.vector_numbers());
    for owner in &mut owners[..sizes.vectors] {
        if has_owners {
            *owner = rest.plain(1, 4, 17)? as u8;
        }
        rest.vector(&mut numbers, &sizes)?;
    }
    if rest.0.is_empty() {
        Ok(Record { sizes, owners, numbers })
    } else {
        Err(13)
    }
}

impl Rest<'_> {
    /// Once a record, and apart: the loops over the vectors then have the registers to themselves.
    #[inline(never)]
    fn sizes(&mut self, has_weak: bool) -> Result<Sizes, Refusal> {
        let streams = self.plain(1, 4, 4)?;
        let bits = self.number()?;
        if !matches!(bits, 1 | 2 | 4 | 6 | 8) {
            return Err(5);
        }
        if bits == 8 && streams == 4 {
            return Err(15);
        }
        let vectors = self.plain(1, 64, 6)?;
        let clip = self.plain(0, 16_777_215, 7)?;
        let weak = if has_weak { self.plain(0, clip, 16)? } else { clip };
        let share = self.plain(streams, 17_043_520, 8)?;
        Ok(Sizes { streams: streams as usize, bits: bits as usize, vectors: vectors as usize, clip, weak, share })
    }

    fn vector(&mut self, numbers: &mut Vec<i32>, sizes: &Sizes) -> Result<(), Refusal> {
        for right in (0..sizes.streams).rev() {
            numbers.push(self.plain(1, 2_047, 9)? as i32);
            self.folded(numbers, 2 * right, 2_047, 10)?;
        }
        self.folded(numbers, 2 * sizes.streams, 131_071, 11)?;
        self.folded(numbers, sizes.streams * sizes.bits, 1_048_575, 12)
    }

    #[inline(always)]
    fn folded(&mut self, numbers: &mut Vec<i32>, count: usize, most: i32, refusal: Refusal) -> Result<(), Refusal> {
        for _ in 0..count {
            let folded = self.number()? as i32;
            let number = folded >> 1 ^ -(folded & 1);
            if number < -most || most < number {
                return Err(refusal);
            }
            numbers.push(number);
        }
        Ok(())
    }

    #[inline(always)]
    fn plain(&mut self, least: u32, greatest: u32, refusal: Refusal) -> Result<u32, Refusal> {
        let number = self.number()?;
        if least <= number && number <= greatest {
            Ok(number)
        } else {
            Err(refusal)
        }
    }

    /// One number; a single group and its end are by far the most common.
    #[inline(always)]
    fn number(&mut self) -> Result<u32, Refusal> {
        let (&byte, after) = self.0.split_first().ok_or(2_u32)?;
        self.0 = after;
        if byte < 128 {
            return Ok(u32::from(byte));
        }
        let mut number = u32::from(byte) - 128;
        for shift in [7, 14, 21] {
            let (&byte, after) = self.0.split_first().ok_or(2_u32)?;
            self.0 = after;
            number |= u32::from(byte & 127) << shift;
            if byte < 128 {
                return if byte == 0 { Err(3) } else { Ok(number) };
            }
        }
        Err(3)
    }
}
