//! The exact turn of three points, and the choice between it and the rounded
//! one of kinavis.

use core::cmp::Ordering;
use core::sync::atomic::{self, AtomicBool};

use crate::hypot::parts;

static ROUNDED: AtomicBool = AtomicBool::new(false);

/// From now on the turn as kinavis rounds it, or the exact one.
pub fn use_rounded(on: bool) {
    ROUNDED.store(on, atomic::Ordering::Relaxed);
}

/// The exact turn from a by b to c, where that is chosen; it is where nothing
/// was said. With the feature `unpatched` nothing is chosen.
#[inline]
pub fn chosen(a: [f64; 2], b: [f64; 2], c: [f64; 2]) -> Option<f64> {
    if cfg!(feature = "unpatched") || ROUNDED.load(atomic::Ordering::Relaxed) {
        None
    } else {
        Some(exact(a, b, c))
    }
}

/// The cross product (b − a) × (c − a) as kinavis rounds it.
pub fn rounded(a: [f64; 2], b: [f64; 2], c: [f64; 2]) -> f64 {
    (b[0] - a[0]) * (c[1] - a[1]) - (b[1] - a[1]) * (c[0] - a[0])
}

/// The rounded difference of the two products is off by less than this part of
/// their magnitudes and this much more: four roundings, and what underflows.
const PART: f64 = 1e-15;
const MORE: f64 = 1e-300;

/// The sign of (b − a) × (c − a), of the numbers as they are: 1 where c lies to
/// the left, −1 to the right, 0 on the line of a and b, or where these are one
/// point. NaN where one of the six is not finite.
pub fn exact(a: [f64; 2], b: [f64; 2], c: [f64; 2]) -> f64 {
    let left = (b[0] - a[0]) * (c[1] - a[1]);
    let right = (b[1] - a[1]) * (c[0] - a[0]);
    let rounded = left - right;
    // Neither holds where something is not finite, or was too large.
    let bound = (left.abs() + right.abs()) * PART + MORE;
    if rounded > bound && rounded < f64::INFINITY {
        return 1.0;
    }
    if -rounded > bound && -rounded < f64::INFINITY {
        return -1.0;
    }
    if [a, b, c].iter().flatten().any(|x| !x.is_finite()) {
        return f64::NAN;
    }
    match compared(a, b, c) {
        Ordering::Greater => 1.0,
        Ordering::Equal => 0.0,
        Ordering::Less => -1.0,
    }
}

/// A product of two numbers that is not 0: ± whole × 2^shift, in units of
/// 2^−2148.
struct Product {
    below: bool,
    whole: u128,
    shift: u32,
}

/// ± x × y.
fn product(minus: bool, x: f64, y: f64) -> Option<Product> {
    let ((m, e), (n, f)) = (parts(x.abs().to_bits()), parts(y.abs().to_bits()));
    let whole = u128::from(m) * u128::from(n);
    (whole != 0).then_some(Product {
        below: minus ^ x.is_sign_negative() ^ y.is_sign_negative(),
        whole,
        shift: e + f,
    })
}

/// Adds whole × 2^shift, the lowest digit first.
fn add(digits: &mut [u64], whole: u128, shift: u32) {
    let (place, bits) = ((shift / 64) as usize, shift % 64);
    let low = whole << bits;
    let high = if bits == 0 { 0 } else { whole >> (128 - bits) };
    let mut carry = false;
    for (k, digit) in digits[place..].iter_mut().enumerate() {
        let more = match k {
            0 => low as u64,
            1 => (low >> 64) as u64,
            2 => high as u64,
            _ if carry => 0,
            _ => break,
        };
        let (sum, over) = digit.overflowing_add(more);
        let (sum, again) = sum.overflowing_add(u64::from(carry));
        *digit = sum;
        carry = over || again;
    }
}

/// How a × b + b × c + c × a compares with 0: the six products, those above 0
/// and those below summed apart, in whole numbers of the least unit.
fn compared(a: [f64; 2], b: [f64; 2], c: [f64; 2]) -> Ordering {
    let products = [
        product(false, a[0], b[1]),
        product(true, a[1], b[0]),
        product(false, b[0], c[1]),
        product(true, b[1], c[0]),
        product(false, c[0], a[1]),
        product(true, c[1], a[0]),
    ];
    let shifts = || products.iter().flatten().map(|product| product.shift);
    let (Some(least), Some(most)) = (shifts().min(), shifts().max()) else {
        return Ordering::Equal;
    };
    // A product has 106 bits, the sum of six 109, above a shift within a digit.
    let length = ((most - least) / 64 + 3) as usize;
    let mut sums = vec![0_u64; 2 * length];
    let (above, below) = sums.split_at_mut(length);
    for product in products.iter().flatten() {
        let sum = if product.below {
            &mut *below
        } else {
            &mut *above
        };
        add(sum, product.whole, product.shift - least);
    }
    above.iter().rev().cmp(below.iter().rev())
}
