//! The correctly rounded `hypot` in whole numbers, written from document 01 alone: slow, and with no trick.

/// A whole number below 2^4288, the lowest 64 binary digits first.
struct Whole([u64; 67]);

impl Whole {
    fn zero() -> Whole {
        Whole([0; 67])
    }

    /// Adds n * 2^shift.
    fn add(&mut self, n: u128, shift: usize) {
        let (at, by) = (shift / 64, shift % 64);
        let low = n << by;
        let high = if by == 0 { 0 } else { n >> (128 - by) };
        let mut carry = 0u128;
        for (k, part) in [low as u64, (low >> 64) as u64, high as u64].into_iter().enumerate() {
            let sum = self.0[at + k] as u128 + part as u128 + carry;
            self.0[at + k] = sum as u64;
            carry = sum >> 64;
        }
        let mut k = at + 3;
        while carry > 0 {
            let sum = self.0[k] as u128 + carry;
            self.0[k] = sum as u64;
            carry = sum >> 64;
            k += 1;
        }
    }

    /// How many binary digits it has.
    fn size(&self) -> usize {
        for k in (0..67).rev() {
            if self.0[k] != 0 {
                return 64 * k + 64 - self.0[k].leading_zeros() as usize;
            }
        }
        0
    }

    /// The whole part of it over 2^shift, which is below 2^128.
    fn over(&self, shift: usize) -> u128 {
        let (at, by) = (shift / 64, shift % 64);
        let digit = |k: usize| if k < 67 { self.0[k] as u128 } else { 0 };
        let low = digit(at) | digit(at + 1) << 64;
        if by == 0 {
            low
        } else {
            low >> by | digit(at + 2) << (128 - by)
        }
    }

    fn compare(&self, other: &Whole) -> std::cmp::Ordering {
        self.0.iter().rev().cmp(other.0.iter().rev())
    }
}

/// A finite magnitude as m * 2^e units, a unit being the smallest double.
fn parts(x: f64) -> (u128, usize) {
    let bits = x.to_bits() & (u64::MAX >> 1);
    let (field, digits) = ((bits >> 52) as usize, bits & ((1 << 52) - 1));
    if field == 0 {
        (digits as u128, 0)
    } else {
        ((digits | 1 << 52) as u128, field - 1)
    }
}

/// The whole part of the root of n, for an n below 2^106, digit by digit.
fn root(n: u128) -> u128 {
    let mut q = 0u128;
    for k in (0..53).rev() {
        let next = q | 1 << k;
        if next * next <= n {
            q = next;
        }
    }
    q
}

pub fn hypot(x: f64, y: f64) -> f64 {
    if x.is_infinite() || y.is_infinite() {
        return f64::INFINITY;
    }
    if x.is_nan() || y.is_nan() {
        return f64::NAN;
    }
    let ((m, d), (n, e)) = (parts(x), parts(y));
    let mut s = Whole::zero();
    s.add(m * m, 2 * d);
    s.add(n * n, 2 * e);
    let k = ((s.size() + 1) / 2).saturating_sub(53);
    let mut q = root(s.over(2 * k));
    // four times the sum, and four times the square of the middle between q and q + 1
    let mut four = Whole::zero();
    four.add(m * m, 2 * d + 2);
    four.add(n * n, 2 * e + 2);
    let mut middle = Whole::zero();
    middle.add((2 * q + 1) * (2 * q + 1), 2 * k);
    q += match four.compare(&middle) {
        std::cmp::Ordering::Less => 0,
        std::cmp::Ordering::Equal => q % 2,
        std::cmp::Ordering::Greater => 1,
    };
    // q * 2^k units: a leading digit at 2^52 counts one for the exponent's field, and one at 2^53 two
    let bits = ((k as u64) << 52) + q as u64;
    if bits < f64::INFINITY.to_bits() {
        f64::from_bits(bits)
    } else {
        f64::INFINITY
    }
}
