//! How a call that fills lent memory is held to another one, or to what is expected of it: what it returns, and every entry of what
//! was lent.

use crate::format::record::Refusal;
use crate::inputs::Group;
use std::fmt::Debug;
use std::thread;

/// A call that fills lent memory: how many entries it wrote, or minus the refusal number. It is given a record's bytes, or a list and
/// its opening.
pub type Call<Given, Entry> = fn(given: &Given, lent: &mut [Entry]) -> i64;

/// What a call returned, and what was lent to it afterwards.
pub type Outcome<Entry> = (i64, Vec<Entry>);

/// What lent memory is made of.
pub trait Lent: Copy + Debug + PartialEq {
    /// What stands at a place before a call.
    fn before(at: usize) -> Self;
}

/// Bytes that are not all the same.
impl Lent for u8 {
    fn before(at: usize) -> u8 {
        (at * 37 + 11) as u8
    }
}

/// Numbers that no record has.
impl Lent for i32 {
    fn before(at: usize) -> i32 {
        i32::MIN + at as i32
    }
}

fn before<Entry: Lent>(length: usize) -> Vec<Entry> {
    (0..length).map(Entry::before).collect()
}

/// What comes of a call with so much lent to it.
pub fn outcome<Given: ?Sized, Entry: Lent>(
    call: impl Fn(&Given, &mut [Entry]) -> i64,
    given: &Given,
    length: usize,
) -> Outcome<Entry> {
    let mut lent = before(length);
    (call(given, &mut lent), lent)
}

/// Do two calls come to the same with each length?
pub fn agree<Given: ?Sized, Entry: Lent>(
    one: impl Fn(&Given, &mut [Entry]) -> i64,
    other: impl Fn(&Given, &mut [Entry]) -> i64,
    given: &Given,
    lengths: impl IntoIterator<Item = usize>,
) -> bool {
    lengths.into_iter().all(|length| outcome(&one, given, length) == outcome(&other, given, length))
}

/// Holds a call to the entries that it is to write, or to the refusal; nothing else is altered.
pub fn expect<Given: Debug + ?Sized, Entry: Lent>(
    call: Call<Given, Entry>,
    given: &Given,
    length: usize,
    expected: Result<&[Entry], Refusal>,
) {
    let returned = expected.map_or_else(|refusal| -i64::from(refusal), |entries| entries.len() as i64);
    let entries = expected.unwrap_or_default();
    let lent = [entries, &before(length)[entries.len()..]].concat();
    assert_eq!(outcome(call, given, length), (returned, lent), "{given:02X?}");
}

/// Holds a call to another with each length, of which the first just does: behind what they wrote nothing is altered; with less,
/// what was accepted is refused by 14, and with more the same is returned. What comes of the first length.
pub fn same<Given: Debug + ?Sized, Entry: Lent>(
    call: Call<Given, Entry>,
    other: Call<Given, Entry>,
    given: &Given,
    lengths: impl IntoIterator<Item = usize>,
) -> Outcome<Entry> {
    let mut lengths = lengths.into_iter();
    let just = lengths.next().expect("there is a length that just does");
    let first = same_at(call, other, given, just);
    for length in lengths {
        let returned = if first.0 > 0 && length < just { -14 } else { first.0 };
        assert_eq!(same_at(call, other, given, length).0, returned, "{length} of {just}: {given:02X?}");
    }
    first
}

fn same_at<Given: Debug + ?Sized, Entry: Lent>(
    call: Call<Given, Entry>,
    other: Call<Given, Entry>,
    given: &Given,
    length: usize,
) -> Outcome<Entry> {
    let (returned, lent) = outcome(call, given, length);
    let (expected, expected_lent) = outcome(other, given, length);
    assert_eq!(returned, expected, "{given:02X?}");
    assert!(lent == expected_lent, "{given:02X?}\n{lent:02X?}\n{expected_lent:02X?}");
    let own = usize::try_from(returned).unwrap_or(0);
    assert!(lent[own..] == before(length)[own..], "{given:02X?}\n{lent:02X?}");
    (returned, lent)
}

/// Puts every input of every group to a comparison, which says whether it was accepted, and holds the groups to their counts. The
/// groups run side by side.
pub fn compare<Input>(groups: Vec<Group<Input>>, is_accepted: impl Fn(Input) -> bool + Sync) {
    let is_accepted = &is_accepted;
    thread::scope(|scope| {
        for group in groups {
            scope.spawn(move || {
                let verdicts: Vec<bool> = group.inputs.map(is_accepted).collect();
                let accepted = verdicts.iter().filter(|&&verdict| verdict).count();
                assert_eq!((verdicts.len(), accepted), group.counts, "{}", group.name);
            });
        }
    });
}

#[cfg(test)]
mod tests {
    use super::*;

    fn copy(given: &[u8], lent: &mut [u8]) -> i64 {
        if given.len() > lent.len() {
            return -14;
        }
        lent[..given.len()].copy_from_slice(given);
        given.len() as i64
    }

    fn copy_and_clear(given: &[u8], lent: &mut [u8]) -> i64 {
        lent.fill(0);
        copy(given, lent)
    }

    #[test]
    fn a_copy_is_the_same_and_as_expected() {
        assert_eq!(same(copy, copy, &[1, 2], [2, 1, 5, 0]), (2, vec![1, 2]));
        expect(copy, &[1, 2], 3, Ok(&[1, 2]));
        expect(copy, &[1, 2], 1, Err(14));
        assert!(agree(copy, copy_and_clear, &[1, 2], [2]));
        assert!(!agree(copy, copy_and_clear, &[1, 2], [2, 3]));
    }

    #[test]
    #[should_panic]
    fn an_altered_rest_is_seen() {
        same(copy_and_clear, copy_and_clear, &[1, 2], [2, 3]);
    }

    #[test]
    #[should_panic]
    fn an_acceptance_with_less_than_the_first_is_seen() {
        same(copy, copy, &[1, 2], [3, 2, 1]);
    }

    #[test]
    #[should_panic]
    fn an_input_too_few_is_seen() {
        compare(vec![Group { name: "two", counts: (2, 1), inputs: Box::new([true].into_iter()) }], |input| input);
    }
}
