//! A correctly rounded `hypot`, and the choice between it and the library's.

use core::sync::atomic::{AtomicBool, Ordering};

static LIBRARY: AtomicBool = AtomicBool::new(false);

/// From now on the library's `hypot`, or the correctly rounded one.
pub fn use_library(on: bool) {
    LIBRARY.store(on, Ordering::Relaxed);
}

/// The `hypot` chosen; the correctly rounded one where nothing was said.
#[inline]
pub fn chosen(x: f64, y: f64) -> f64 {
    if LIBRARY.load(Ordering::Relaxed) {
        crate::math::library_hypot(x, y)
    } else {
        exact(x, y)
    }
}

/// Bits of a fraction, the hidden one not counted.
const FRACTION: u32 = 52;
/// Spare bits below a unit of the larger operand, in the root.
const SPARE: u32 = 9;
const TWO_20: f64 = 1_048_576.0;
const TWO_64: f64 = 18_446_744_073_709_551_616.0;
const INFINITY: u64 = 0x7ff0_0000_0000_0000;

/// A finite magnitude as `(m, e)`: it is m × 2^(e − 1074).
pub(crate) fn parts(bits: u64) -> (u64, u32) {
    let fraction = bits & ((1 << FRACTION) - 1);
    match (bits >> FRACTION) as u32 {
        0 => (fraction, 0),
        field => (fraction | 1 << FRACTION, field - 1),
    }
}

/// The whole part of the square root of a number below 2^125: a guess, tried
/// exactly.
fn whole_root(square: u128) -> u64 {
    let wide = |root: u64| u128::from(root) * u128::from(root);
    let guess = ((square >> 64) as u64 as f64 * TWO_64 + square as u64 as f64).sqrt();
    let whole = guess as u64;
    // The guess is off by some 2^11 at most, so this is below 2^76.
    let rest = (square.wrapping_sub(wide(whole)) as i128 >> 20) as i64;
    let step = rest as f64 * TWO_20 / (2.0 * guess);
    let mut root = whole.saturating_add_signed(step.floor() as i64);
    while wide(root) > square {
        root -= 1;
    }
    while wide(root + 1) <= square {
        root += 1;
    }
    root
}

/// The square root of x² + y², rounded once, to nearest, ties to even.
///
/// An infinite operand gives infinity, even beside a NaN; else a NaN gives
/// NaN.
pub fn exact(x: f64, y: f64) -> f64 {
    if x.is_infinite() || y.is_infinite() {
        return f64::INFINITY;
    }
    if x.is_nan() || y.is_nan() {
        return f64::NAN;
    }
    let (a, b) = (x.abs().to_bits(), y.abs().to_bits());
    let (large, small) = (a.max(b), a.min(b));
    let ((m, e), (n, f)) = (parts(large), parts(small));
    let gap = e - f;
    // Then y² / 2x is below a quarter of a unit.
    if gap > 28 {
        return f64::from_bits(large);
    }
    // In units of 2^(e − SPARE): the square below 2^125, what is cut off below
    // one. A number whose square it is has the same whole part with and
    // without what is cut off.
    let tail = (u128::from(n) * u128::from(n)) << (2 * SPARE);
    let cut = tail & ((1 << (2 * gap)) - 1);
    let square = ((u128::from(m) * u128::from(m)) << (2 * SPARE)) + (tail >> (2 * gap));
    let root = whole_root(square);
    let inexact = cut != 0 || u128::from(root) * u128::from(root) != square;
    // Drop SPARE bits, or one more where the root needs 54 bits.
    let drop = if root >> (SPARE + FRACTION + 1) == 0 {
        SPARE
    } else {
        SPARE + 1
    };
    let half = 1_u64 << (drop - 1);
    let whole = root >> drop;
    let below = root & ((1 << drop) - 1);
    let up = below > half || (below == half && (inexact || whole & 1 == 1));
    let rounded = whole + u64::from(up);
    // The hidden bit, if there is one, adds one to the exponent's field.
    let bits = (u64::from(e + drop - SPARE) << FRACTION) + rounded;
    f64::from_bits(bits.min(INFINITY))
}
