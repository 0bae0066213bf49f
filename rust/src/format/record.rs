//! The record reader, by document 01, "The record" and "Where a record is turned back", and by document 02's Point 1, which adds
//! Q = 8, its Point 4, which adds W, and its Point 7, which adds owners.

use super::encoding::{unfold, Contents, Numbers, Opening};

/// What Q may be.
pub const WIDTHS: [i64; 5] = [1, 2, 4, 6, 8];

/// The most bytes that a record has, and the most numbers: 64 vectors of four streams of six bits, W, and an owner for each vector.
pub const MOST_BYTES: usize = 8_275;
pub const MOST_NUMBERS: usize = 3_142;

/// A refusal that a record can meet: 1 to 13 by document 01's table, 15 to 17 by document 02.
pub type Refusal = u32;

/// What becomes of a record: its opening and its numbers, or the refusal that decides.
pub fn read(bytes: &[u8]) -> Result<Contents, Refusal> {
    let mut numbers = Numbers::new();
    read_onto(&mut numbers, bytes).map(|opening| Contents { opening, numbers })
}

/// The numbers that are read before a record is accepted or refused.
pub fn read_so_far(bytes: &[u8]) -> Numbers {
    let mut numbers = Numbers::new();
    let _ = read_onto(&mut numbers, bytes);
    numbers
}

fn read_onto(numbers: &mut Numbers, bytes: &[u8]) -> Result<Opening, Refusal> {
    let opening = Opening::of(bytes).ok_or(1_u32)?;
    let mut rest = &bytes[Opening::LENGTH..];
    read_sizes(opening, &mut rest, numbers)?;
    let (streams, bits, vectors) = (numbers[0], numbers[1], numbers[2]);
    for _ in 0..vectors {
        if opening.has_owners() {
            numbers.push(within(read_plain(&mut rest)?, 1, 4, 17)?);
        }
        read_matrix(&mut rest, numbers, streams)?;
        read_received(&mut rest, numbers, streams)?;
        read_priors(&mut rest, numbers, streams * bits)?;
    }
    if rest.is_empty() {
        Ok(opening)
    } else {
        Err(13)
    }
}

/// Q is one of five widths, and four streams do not have the widest: first the one, then the other.
pub fn check_width(streams: i64, bits: i64) -> Result<(), Refusal> {
    if !WIDTHS.contains(&bits) {
        return Err(5);
    }
    if bits == 8 && streams == 4 {
        return Err(15);
    }
    Ok(())
}

/// M, Q, N, C, then W where the opening has it, and D.
fn read_sizes(opening: Opening, rest: &mut &[u8], numbers: &mut Numbers) -> Result<(), Refusal> {
    let streams = within(read_plain(rest)?, 1, 4, 4)?;
    numbers.push(streams);
    let bits = read_plain(rest)?;
    check_width(streams, bits)?;
    numbers.push(bits);
    numbers.push(within(read_plain(rest)?, 1, 64, 6)?);
    let clip = within(read_plain(rest)?, 0, 16_777_215, 7)?;
    numbers.push(clip);
    if opening.has_weak() {
        numbers.push(within(read_plain(rest)?, 0, clip, 16)?);
    }
    numbers.push(within(read_plain(rest)?, streams, 17_043_520, 8)?);
    Ok(())
}

/// R by rows: the diagonal entry, then real and imaginary part of each entry right of it.
fn read_matrix(rest: &mut &[u8], numbers: &mut Numbers, streams: i64) -> Result<(), Refusal> {
    for row in 1..=streams {
        numbers.push(within(read_plain(rest)?, 1, 2_047, 9)?);
        for _column in row + 1..=streams {
            numbers.push(within(read_folded(rest)?, -2_047, 2_047, 10)?);
            numbers.push(within(read_folded(rest)?, -2_047, 2_047, 10)?);
        }
    }
    Ok(())
}

/// y, row 1 first: real and imaginary part of each row.
fn read_received(rest: &mut &[u8], numbers: &mut Numbers, streams: i64) -> Result<(), Refusal> {
    for _row in 1..=streams {
        numbers.push(within(read_folded(rest)?, -131_071, 131_071, 11)?);
        numbers.push(within(read_folded(rest)?, -131_071, 131_071, 11)?);
    }
    Ok(())
}

/// A prior for each bit of the label.
fn read_priors(rest: &mut &[u8], numbers: &mut Numbers, label_bits: i64) -> Result<(), Refusal> {
    for _bit in 1..=label_bits {
        numbers.push(within(read_folded(rest)?, -1_048_575, 1_048_575, 12)?);
    }
    Ok(())
}

/// The number itself if it lies between the two ends, which belong to the range.
fn within(number: i64, least: i64, greatest: i64, refusal: Refusal) -> Result<i64, Refusal> {
    if least <= number && number <= greatest {
        Ok(number)
    } else {
        Err(refusal)
    }
}

/// One number taken off the front of `rest`: groups of seven bits, least significant first, the high bit on all but the last.
/// The fourth group's high bit decides before anything is asked of a fifth byte.
pub fn read_plain(rest: &mut &[u8]) -> Result<i64, Refusal> {
    let mut number = 0;
    for group in 0..4 {
        let Some((&byte, after)) = rest.split_first() else {
            return Err(2);
        };
        *rest = after;
        number += i64::from(byte % 128) * 128_i64.pow(group);
        if byte < 128 {
            let is_longer_than_needed = byte == 0 && group > 0;
            return if is_longer_than_needed { Err(3) } else { Ok(number) };
        }
    }
    Err(3)
}

fn read_folded(rest: &mut &[u8]) -> Result<i64, Refusal> {
    Ok(unfold(read_plain(rest)?))
}

#[cfg(test)]
mod tests {
    use super::*;
    use crate::format::encoding::plain;
    use crate::inputs::readings::{listing, owned_reading, two_streams, weak_reading, LISTING_RECORD, OWNED_RECORD, WEAK_RECORD};

    #[test]
    fn the_listing_record_has_the_bench_vector_twice() {
        assert_eq!(read(&LISTING_RECORD), Ok(listing()));
        assert_eq!(listing().record(), LISTING_RECORD);
    }

    #[test]
    fn the_bench_edges() {
        let refusal = |clip: i64, share: i64| read(&two_streams(clip, share).record()).err();
        assert_eq!(refusal(10, 1), Some(8));
        assert_eq!(refusal(10, 2), None);
        assert_eq!(refusal(16_777_216, 5), Some(7));
        assert_eq!(refusal(16_777_215, 5), None);
    }

    /// Refusal 15 stands at Q: before anything is asked of N, and after 4 and 5.
    #[test]
    fn eight_bits_with_four_streams() {
        for opening in Opening::ALL {
            let sizes = |bytes: &[u8]| read(&[&opening.bytes(), bytes].concat());
            assert_eq!(sizes(&[4, 8]), Err(15));
            assert_eq!(sizes(&[4, 8, 0]), Err(15));
            assert_eq!(sizes(&[4, 8, 0x80, 0x00]), Err(15));
            assert_eq!(sizes(&[4, 9]), Err(5));
            assert_eq!(sizes(&[4, 7]), Err(5));
            assert_eq!(sizes(&[5, 8]), Err(4));
            assert_eq!(sizes(&[4, 0x88]), Err(2));
            assert_eq!(sizes(&[4, 0x88, 0x00]), Err(3));
            assert_eq!(sizes(&[3, 8]), Err(2));
            assert_eq!(sizes(&[3, 8, 0]), Err(6));
        }
    }

    #[test]
    fn a_record_with_w() {
        assert_eq!(read(&WEAK_RECORD), Ok(weak_reading()));
        assert_eq!(weak_reading().record(), WEAK_RECORD);
    }

    /// Refusal 16 stands between C and D: after 7, which says nothing of W, and before anything is asked of D.
    #[test]
    fn the_weak_value_is_0_to_the_clip() {
        let sizes = |bytes: &[u8]| read(&[&Opening::Two.bytes(), [1, 1, 1].as_slice(), bytes].concat()).err();
        assert_eq!([0, 1, 4, 5, 6, 7, 127].map(|weak| sizes(&[5, weak])), [2, 2, 2, 2, 16, 16, 16].map(Some));
        assert_eq!([0, 1].map(|weak| sizes(&[0, weak])), [2, 16].map(Some));
        assert_eq!(sizes(&[0xFF, 0xFF, 0xFF, 0x07, 0xFF, 0xFF, 0xFF, 0x07]), Some(2));
        assert_eq!(sizes(&[0xFF, 0xFF, 0xFF, 0x07, 0x80, 0x80, 0x80, 0x08]), Some(16));
        for after in [&[] as &[u8], &[0x80], &[0x80, 0x00], &[0x00], &[0x81, 0x80, 0x80, 0x08]] {
            assert_eq!(sizes(&[&[0x80, 0x80, 0x80, 0x08], after].concat()), Some(7), "{after:02X?}");
            assert_eq!(sizes(&[&[5, 6], after].concat()), Some(16), "{after:02X?}");
        }
        assert_eq!(sizes(&[5]), Some(2));
        assert_eq!(sizes(&[5, 0x85]), Some(2));
        assert_eq!(sizes(&[5, 0x85, 0x00]), Some(3));
        assert_eq!(sizes(&[5, 5, 0]), Some(8));
    }

    #[test]
    fn a_record_with_an_owner() {
        assert_eq!(read(&OWNED_RECORD), Ok(owned_reading()));
        assert_eq!(owned_reading().record(), OWNED_RECORD);
    }

    /// Refusal 17 stands before a vector's R: after 8, and before anything is asked of the diagonal; and for each vector in its place.
    #[test]
    fn an_owner_is_1_to_4() {
        let vectors =
            |count: u8, bytes: &[u8]| read(&[&Opening::Three.bytes(), [1, 1, count, 5, 3, 1].as_slice(), bytes].concat()).err();
        let owners = [0, 1, 2, 3, 4, 5, 127];
        assert_eq!(owners.map(|owner| vectors(1, &[owner])), [17, 2, 2, 2, 2, 17, 17].map(Some));
        assert_eq!(owners.map(|owner| vectors(1, &[owner, 1, 4, 0, 20])), [Some(17), None, None, None, None, Some(17), Some(17)]);
        for after in [&[] as &[u8], &[0x80], &[0x80, 0x00], &[0x00], &[0x80, 0x10]] {
            assert_eq!(vectors(1, &[&[5], after].concat()), Some(17), "{after:02X?}");
            assert_eq!(vectors(2, &[&[1, 1, 4, 0, 20, 0], after].concat()), Some(17), "{after:02X?}");
        }
        for (bytes, refusal) in [
            (&[] as &[u8], 2),
            (&[0x84], 2),
            (&[0x84, 0x00], 3),
            (&[0x84, 0x80, 0x80, 0x80], 3),
            (&[0x80, 0x01], 17),
            (&[0x81, 0x02], 17),
            (&[1, 0], 9),
            (&[1, 1, 4, 0, 0x80, 0x80, 0x80, 0x01, 5], 12),
            (&[1, 1, 4, 0, 20, 1, 0], 9),
            (&[1, 1, 4, 0, 20], 2),
        ] {
            assert_eq!(vectors(2, bytes), Some(refusal), "{bytes:02X?}");
        }
        let shares = |bytes: &[u8]| read(&[&Opening::Three.bytes(), [1, 1, 1, 5].as_slice(), bytes].concat());
        assert_eq!(shares(&[3, 0, 5]), Err(8));
        assert_eq!(shares(&[6, 1, 5]), Err(16));
    }

    #[test]
    fn a_number_is_read_group_by_group() {
        for (bytes, answer) in [
            (vec![], Err(2)),
            (vec![0x80], Err(2)),
            (vec![0x80, 0x80, 0x80], Err(2)),
            (vec![0x80, 0x80, 0x80, 0x80], Err(3)),
            (vec![0x80, 0x80, 0x80, 0x80, 0x01], Err(3)),
            (vec![0x80, 0x00], Err(3)),
            (vec![0x81, 0x80, 0x00], Err(3)),
            (vec![0x80, 0x80, 0x80, 0x00], Err(3)),
            (vec![0x00], Ok(0)),
            (vec![0x7F], Ok(127)),
            (vec![0x80, 0x01], Ok(128)),
            (vec![0xFF, 0xFF, 0xFF, 0x7F], Ok(268_435_455)),
        ] {
            assert_eq!(read_plain(&mut bytes.as_slice()), answer, "{bytes:02X?}");
        }
    }

    #[test]
    fn a_plain_number_is_read_back() {
        for number in (0..300_000).chain(268_000_000..268_435_456) {
            let bytes = plain(number);
            let mut rest = bytes.as_slice();
            assert_eq!(read_plain(&mut rest), Ok(number));
            assert!(rest.is_empty());
        }
    }
}
