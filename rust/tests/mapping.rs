//! IEEE 802.11's encoding tables against the constellation of both detectors, and points sent by these tables through both.

use reference::detectors::{fast, plain};
use reference::format::block::Complex;
use reference::inputs::ieee80211::{mappings, number, receptions, AXES};

/// Adjacent amplitudes of an axis are two apart and differ in just one bit; the least is minus the greatest.
#[test]
fn neighbours_differ_in_one_bit() {
    for axis in AXES.iter().flat_map(|&(_, in_phase, quadrature)| [in_phase, quadrature]) {
        for pair in axis.windows(2) {
            let differing = pair[0].0.chars().zip(pair[1].0.chars()).filter(|bits| bits.0 != bits.1).count();
            assert_eq!((differing, pair[1].1 - pair[0].1), (1, 2), "{pair:?}");
        }
        assert_eq!(axis[0].1, -axis[axis.len() - 1].1);
    }
}

/// The same of the detectors' own points, real and imaginary axis apart.
#[test]
fn neighbouring_points_differ_in_one_bit() {
    for (bits, _) in mappings() {
        let symbol_of = |point: Complex| (0..1 << bits).find(|&symbol| plain::point(bits, symbol) == point);
        for symbol in 0..1_usize << bits {
            let point = plain::point(bits, symbol);
            for step in [Complex { re: 2, im: 0 }, Complex { re: 0, im: 2 }] {
                if let Some(next) = symbol_of(point + step) {
                    assert_eq!((symbol ^ next).count_ones(), 1, "Q = {bits}: {symbol} and {next}");
                }
            }
        }
    }
}

#[test]
fn the_points_are_the_standards() {
    for (bits, mapping) in mappings() {
        assert_eq!(mapping.len(), 1 << bits);
        for (symbol, point) in mapping {
            assert_eq!(plain::point(bits, number(&symbol)), point, "Q = {bits}, symbol {symbol}");
        }
    }
}

/// With C = 4 every value is clipped, 4 for a bit 0 and -4 for a 1, and no more than a node a stream is walked: any other point
/// is 4 away in squared distance, or more.
#[test]
fn a_sent_point_is_found_in_every_stream() {
    for reception in receptions(4) {
        let by_sign: Vec<i64> = reception.sent.chars().map(|bit| if bit == '0' { 4 } else { -4 }).collect();
        assert_eq!(reception.values, by_sign, "{}", reception.sent);
        for detect in [plain::detect, fast::detect] {
            assert_eq!(reception.check(detect), reception.block.streams as i64, "{}", reception.sent);
        }
    }
}

/// W makes nothing of that: one side of every bit is cut, and none is empty.
#[test]
fn a_sent_point_has_nothing_of_w() {
    for reception in receptions(4).into_iter().map(|reception| reception.with_weak(0)) {
        for detect in [plain::detect, fast::detect] {
            assert_eq!(reception.check(detect), reception.block.streams as i64, "{}", reception.sent);
        }
    }
}

/// The soft values are those that the tables' points have. With more streams the plain detector would take too long.
#[test]
fn soft_values_are_those_of_the_tables() {
    for reception in receptions(16_777_215).iter().filter(|reception| reception.block.streams == 1) {
        assert_eq!(reception.check(plain::detect), reception.check(fast::detect));
    }
    for reception in receptions(100) {
        reception.check(fast::detect);
    }
}
