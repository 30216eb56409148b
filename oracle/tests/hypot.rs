//! The correctly rounded `hypot` against its definition, in big whole numbers.

mod big;

use std::cmp::Ordering;

use big::against_halfway;
use oracle::draw::Draw;
use oracle::hypot::exact;

const LARGEST: u64 = 0x7fef_ffff_ffff_ffff;

/// Whether h is the finite or infinite double nearest to the root of x² + y²,
/// of two equally near the even one.
fn is_nearest(x: f64, y: f64, h: f64) -> bool {
    let bits = h.to_bits();
    if bits > LARGEST + 1 {
        return false;
    }
    let even = bits % 2 == 0;
    let not_below = bits == 0
        || match against_halfway(x, y, bits - 1) {
            Ordering::Greater => true,
            Ordering::Equal => even,
            Ordering::Less => false,
        };
    let not_above = bits > LARGEST
        || match against_halfway(x, y, bits) {
            Ordering::Less => true,
            Ordering::Equal => even,
            Ordering::Greater => false,
        };
    not_below && not_above
}

/// The nearest double found by halving the range of all of them.
fn slow(x: f64, y: f64) -> f64 {
    let (mut low, mut high) = (0_u64, LARGEST + 1);
    while low < high {
        let middle = low + (high - low) / 2;
        let here = match against_halfway(x, y, middle) {
            Ordering::Less => true,
            Ordering::Equal => middle % 2 == 0,
            Ordering::Greater => false,
        };
        if here {
            high = middle;
        } else {
            low = middle + 1;
        }
    }
    f64::from_bits(low)
}

fn check(x: f64, y: f64) {
    let h = exact(x, y);
    assert!(
        is_nearest(x, y, h),
        "hypot({:016x}, {:016x}) = {:016x}",
        x.to_bits(),
        y.to_bits(),
        h.to_bits()
    );
    assert_eq!(h.to_bits(), exact(y, x).to_bits());
    assert_eq!(h.to_bits(), exact(-x, y).to_bits());
}

fn float(draw: &mut Draw, low: u64, high: u64) -> f64 {
    let field = low + draw.bits() % (high - low + 1);
    f64::from_bits(field << 52 | draw.bits() >> 12)
}

/// A double some units away.
fn beside(x: f64, by: i64) -> f64 {
    f64::from_bits(x.to_bits().saturating_add_signed(by).min(LARGEST))
}

fn rounds(release: usize) -> usize {
    if cfg!(debug_assertions) {
        release / 10
    } else {
        release
    }
}

#[test]
fn special_values() {
    let (inf, nan) = (f64::INFINITY, f64::NAN);
    for x in [0.0, -0.0, 1.0, f64::MAX, 5e-324, inf, -inf, nan] {
        for infinite in [inf, -inf] {
            assert_eq!(exact(x, infinite), inf);
            assert_eq!(exact(infinite, x), inf);
        }
        if !x.is_infinite() {
            assert!(exact(x, nan).is_nan());
            assert!(exact(nan, x).is_nan());
        }
    }
    assert_eq!(exact(0.0, -0.0).to_bits(), 0);
    assert_eq!(exact(-0.0, -0.0).to_bits(), 0);
    assert_eq!(exact(3.0, 4.0), 5.0);
    assert_eq!(exact(-3.0, 4.0), 5.0);
    assert_eq!(exact(5e-324, 0.0), 5e-324);
    assert_eq!(exact(5e-324, 5e-324), 5e-324);
    assert_eq!(exact(f64::MAX, 0.0), f64::MAX);
    assert_eq!(exact(f64::MAX, f64::MAX), inf);
}

#[test]
fn the_slow_root_agrees() {
    let mut draw = Draw::new(11);
    for k in 0..rounds(3000) {
        let x = float(&mut draw, 0, 2046);
        let field = (x.to_bits() >> 52) as i64;
        let other = (field + draw.whole(-40, 40)).clamp(0, 2046) as u64;
        let y = if k % 8 == 0 {
            float(&mut draw, 0, 2046)
        } else {
            float(&mut draw, other, other)
        };
        assert_eq!(exact(x, y).to_bits(), slow(x, y).to_bits());
        check(x, y);
    }
}

#[test]
fn any_bits() {
    let mut draw = Draw::new(12);
    for _ in 0..rounds(20_000) {
        check(float(&mut draw, 0, 2046), float(&mut draw, 0, 2046));
    }
}

#[test]
fn every_gap() {
    let mut draw = Draw::new(13);
    for _ in 0..rounds(1_000_000) {
        let gap = draw.bits() % 33;
        let field = gap + draw.bits() % (2047 - gap);
        check(
            float(&mut draw, field, field),
            float(&mut draw, field - gap, field - gap),
        );
    }
}

/// x² + y² as near to (x + k + ½ units)² as a double y can make it.
#[test]
fn near_ties() {
    let mut draw = Draw::new(14);
    for _ in 0..rounds(700_000) {
        let m = 1 << 52 | draw.bits() >> 12;
        let k = draw.bits() >> (12 + draw.below(52));
        let (m, k) = (m as f64, k as f64 + 0.5);
        let y = (2.0 * k * m + k * k).sqrt();
        if y > m {
            continue;
        }
        let shift = f64::from_bits((1 + draw.bits() % 1900) << 52);
        let y = beside(y, draw.whole(-2, 2));
        check(m, y);
        if (m * shift).is_finite() && y * shift >= f64::MIN_POSITIVE {
            check(m * shift, y * shift);
        }
    }
}

/// Right triangles in whole numbers whose longest side needs 54 bits: ties,
/// half of them to be rounded up.
#[test]
fn exact_ties() {
    let mut draw = Draw::new(15);
    let mut met = [0, 0];
    for _ in 0..rounds(800_000) {
        let p = draw.bits() % (1 << 27);
        let q = draw.bits() % (1 << 27);
        let times = [1, 3, 5, 7][draw.below(4)];
        let (p, q) = (p.max(q), p.min(q));
        let long = times * (p * p + q * q);
        let legs = (times * (p * p - q * q), times * 2 * p * q);
        if long >> 53 != 1 || long % 2 == 0 || q == 0 {
            continue;
        }
        let (x, y) = (legs.0 as f64, legs.1 as f64);
        if x as u64 != legs.0 || y as u64 != legs.1 {
            continue;
        }
        let up = long % 4 == 3;
        met[usize::from(up)] += 1;
        assert_eq!(exact(x, y) as u64, if up { long + 1 } else { long - 1 });
        for by in -1..=1 {
            check(beside(x, by), y);
            check(x, beside(y, by));
        }
        let down = f64::from_bits((1 + draw.bits() % 900) << 52);
        check(x * down, y * down);
    }
    assert!(met.iter().all(|met| *met > rounds(5_000)), "{met:?}");
}

/// Above a tie by less than a 2^18th of the smaller side's square.
#[test]
fn just_above_a_tie() {
    let mut draw = Draw::new(19);
    let mut met = 0;
    for _ in 0..rounds(20_000_000) {
        // n² = (m + ¼) 2^52 + rest, so that hypot(m 2^26, n) is about m + ½.
        let n = 1 << 52 | draw.bits() >> 13;
        let over = u128::from(n) * u128::from(n) - (1 << 50);
        let (m, rest) = ((over >> 52) as u64, over as u64 % (1 << 52));
        if m >> 52 != 1 || rest == 0 || rest >= 1 << 34 {
            continue;
        }
        met += 1;
        let (x, y) = (m as f64 * 67_108_864.0, n as f64);
        assert_eq!(exact(x, y), (m + 1) as f64 * 67_108_864.0);
        check(x, y);
    }
    assert!(met > 0);
}

#[test]
fn whole_triangles() {
    let mut draw = Draw::new(16);
    for _ in 0..rounds(200_000) {
        let (x, y) = (draw.whole(0, 5000) as f64, draw.whole(0, 5000) as f64);
        check(x, y);
    }
}

#[test]
fn subnormal() {
    let mut draw = Draw::new(17);
    for _ in 0..rounds(300_000) {
        let (s, t) = (draw.below(53), draw.below(53));
        let x = f64::from_bits(draw.bits() >> (12 + s.min(51)));
        let y = f64::from_bits(draw.bits() >> (12 + t.min(51)));
        check(x, y);
        check(float(&mut draw, 0, 3), y);
        check(float(&mut draw, 0, 30), float(&mut draw, 0, 30));
    }
}

#[test]
fn about_the_largest() {
    let mut draw = Draw::new(18);
    let mut over = 0;
    for _ in 0..rounds(200_000) {
        let x = float(&mut draw, 2044, 2046);
        // y such that x² + y² is about the square of the largest.
        let part = x / f64::MAX;
        let y = (1.0 - part * part).max(0.0).sqrt() * f64::MAX;
        let y = beside(y.min(f64::MAX), draw.whole(-3, 3));
        check(x, y);
        check(x, float(&mut draw, 2015, 2046));
        over += usize::from(exact(x, y).is_infinite());
    }
    assert!(over > 0);
    // The largest double and half a unit more.
    let root = f64::from_bits((2046 - 26) << 52 | 0x6_a09e_667f_3bcd);
    for by in -20_000..20_000 {
        check(f64::MAX, beside(root, by));
    }
}
