//! A node's children in order, found as far as they are asked for.
//!
//! The order is by metric, then prior cost, then symbol; siblings share their parent's cost, so that their own symbols' costs count. A
//! key has metric, cost and axis label in 64 bits, and keys rise in this order.
//!
//! - On the imaginary axis, where a part is below 2^37, the label stands below all of the cost.
//! - A row's key has a metric of up to 39 bits, and the row in place of its last four bits, where the last two of the cost were. Siblings
//!   of equal metric have these in common: a residual stays odd or even whatever the point is, so that siblings' squared distances are
//!   the same modulo 4, and with equal metrics their costs, too.

use super::axis::{least, metric, Packed};
use std::array::from_fn;

/// A part, or a child, and its axis label.
type Key = u64;

/// Above every key; also as a metric, above every limit.
const EXHAUSTED: Key = Key::MAX;

/// The children in order. A row's children, those of one real-axis label, come in the order of the imaginary axis.
pub struct Children<const A: usize, const B: usize> {
    /// The rows' parts, and the parent's metric in each.
    re: [Packed; A],
    /// Keys of the imaginary axis' parts and labels that are not yet in order.
    im: [Key; B],
    im_fours: Fours,
    /// Those that are in order, and how many.
    order: [Key; B],
    known: usize,
    /// How many children of each row have been tried.
    tried: [u8; A],
    /// Each row's next child.
    heads: [Key; A],
    head_fours: Fours,
}

/// Of an axis of sixteen labels, the least key of each four, so that after a change the least of all is found among eight. Shorter axes
/// have no use for it.
type Fours = [Key; 4];

/// A child: its partial metric and its two axis labels.
#[derive(Clone, Copy)]
pub struct Child {
    pub metric: i64,
    pub row: usize,
    pub column: usize,
}

impl<const A: usize, const B: usize> Children<A, B> {
    #[inline(always)]
    pub fn new(re: [Packed; A], im: [Packed; B]) -> Self {
        let mut im = from_fn(|label| im[label] << 2 | label as Key);
        let mut im_fours = fours(&im);
        let mut order = [0; B];
        order[0] = take_least(&mut im, &mut im_fours);
        let heads = from_fn(|row| head(re[row], order[0], row));
        Children { re, im, im_fours, order, known: 1, tried: [0; A], head_fours: fours(&heads), heads }
    }

    /// The next child; its metric is above all others where none is left.
    #[inline(always)]
    pub fn next(&self) -> Child {
        let head = least_key(&self.heads, &self.head_fours);
        let row = label::<A>(head);
        let column = label::<B>(self.order[usize::from(self.tried[row]) & (B - 1)]);
        Child { metric: metric(head), row, column }
    }

    /// Goes on to the next child of a row.
    #[inline(always)]
    pub fn advance(&mut self, row: usize) {
        let place = usize::from(self.tried[row]) + 1;
        self.tried[row] = place as u8;
        if place == B {
            put(&mut self.heads, &mut self.head_fours, row, EXHAUSTED);
            return;
        }
        if place == self.known {
            self.order[place & (B - 1)] = take_least(&mut self.im, &mut self.im_fours);
            self.known += 1;
        }
        let head = head(self.re[row], self.order[place & (B - 1)], row);
        put(&mut self.heads, &mut self.head_fours, row, head);
    }
}

/// The key of a row's child, by the row's part and the key of the imaginary axis.
#[inline(always)]
fn head(re: Packed, im: Key, row: usize) -> Key {
    (re + (im >> 2)) & !15 | row as Key
}

/// A key's axis label.
#[inline(always)]
fn label<const N: usize>(key: Key) -> usize {
    key as usize & (N - 1)
}

/// Takes the least key out of those left.
#[inline(always)]
fn take_least<const N: usize>(left: &mut [Key; N], fours_left: &mut Fours) -> Key {
    let key = least_key(left, fours_left);
    put(left, fours_left, label::<N>(key), EXHAUSTED);
    key
}

#[inline(always)]
fn fours<const N: usize>(keys: &[Key; N]) -> Fours {
    if N == 16 {
        from_fn(|four| least_of_four(keys, 4 * four))
    } else {
        [0; 4]
    }
}

#[inline(always)]
fn least_key<const N: usize>(keys: &[Key; N], fours: &Fours) -> Key {
    if N == 16 {
        least(fours)
    } else {
        least(keys)
    }
}

#[inline(always)]
fn put<const N: usize>(keys: &mut [Key; N], fours: &mut Fours, label: usize, key: Key) {
    keys[label] = key;
    if N == 16 {
        fours[(label / 4) & 3] = least_of_four(keys, label & 12);
    }
}

/// The least of the four keys from this label on.
#[inline(always)]
fn least_of_four(keys: &[Key], first: usize) -> Key {
    keys[first + 1].min(keys[first]).min(keys[first + 2].min(keys[first + 3]))
}
