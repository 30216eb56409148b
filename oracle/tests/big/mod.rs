//! Big whole numbers, by hand as in school.

#![allow(dead_code)]

use std::cmp::Ordering;

/// A whole number, 32 bits a limb, lowest first, no zero limb on top.
#[derive(Clone, Debug, PartialEq, Eq)]
pub struct Big(Vec<u32>);

impl Big {
    /// m × 2^shift.
    pub fn new(m: u64, shift: u32) -> Self {
        let mut limbs = vec![0; (shift / 32) as usize];
        let wide = u128::from(m) << (shift % 32);
        for k in 0..4 {
            limbs.push((wide >> (32 * k)) as u32);
        }
        Self(limbs).trimmed()
    }

    fn trimmed(mut self) -> Self {
        while self.0.last() == Some(&0) {
            self.0.pop();
        }
        self
    }

    pub fn plus(&self, other: &Self) -> Self {
        let mut sum = Vec::new();
        let mut carry = 0_u64;
        for k in 0..self.0.len().max(other.0.len()) {
            carry += u64::from(*self.0.get(k).unwrap_or(&0));
            carry += u64::from(*other.0.get(k).unwrap_or(&0));
            sum.push(carry as u32);
            carry >>= 32;
        }
        sum.push(carry as u32);
        Self(sum).trimmed()
    }

    /// Less another that is not greater.
    fn minus(&self, other: &Self) -> Self {
        let mut rest = Vec::new();
        let mut borrow = false;
        for (k, limb) in self.0.iter().enumerate() {
            let (less, under) = limb.overflowing_sub(*other.0.get(k).unwrap_or(&0));
            let (less, again) = less.overflowing_sub(u32::from(borrow));
            rest.push(less);
            borrow = under || again;
        }
        assert!(!borrow);
        Self(rest).trimmed()
    }

    pub fn times(&self, other: &Self) -> Self {
        let mut product = vec![0_u32; self.0.len() + other.0.len() + 1];
        for (i, a) in self.0.iter().enumerate() {
            let mut carry = 0_u64;
            for (j, b) in other.0.iter().enumerate() {
                carry += u64::from(product[i + j]) + u64::from(*a) * u64::from(*b);
                product[i + j] = carry as u32;
                carry >>= 32;
            }
            product[i + other.0.len()] = carry as u32;
        }
        Self(product).trimmed()
    }

    pub fn squared(&self) -> Self {
        self.times(self)
    }

    pub fn order(&self, other: &Self) -> Ordering {
        let by_length = self.0.len().cmp(&other.0.len());
        by_length.then_with(|| self.0.iter().rev().cmp(other.0.iter().rev()))
    }
}

/// A finite magnitude as m × 2^(e − 1074).
pub fn parts(x: f64) -> (u64, u32) {
    let bits = x.abs().to_bits();
    let fraction = bits & 0xf_ffff_ffff_ffff;
    match (bits >> 52) as u32 {
        0 => (fraction, 0),
        field => (fraction + 0x10_0000_0000_0000, field - 1),
    }
}

/// A whole number with a sign.
#[derive(Clone, Debug)]
pub struct Signed {
    below: bool,
    size: Big,
}

impl Signed {
    pub fn zero() -> Self {
        Self::of(0.0, 0)
    }

    /// A finite number in units of 2^(least − 1074), where that is whole.
    pub fn of(x: f64, least: u32) -> Self {
        let (m, e) = parts(x);
        let (m, shift) = if m == 0 { (0, 0) } else { (m, e - least) };
        Self {
            below: x < 0.0,
            size: Big::new(m, shift),
        }
    }

    pub fn opposite(&self) -> Self {
        Self {
            below: !self.below,
            size: self.size.clone(),
        }
    }

    pub fn plus(&self, other: &Self) -> Self {
        if self.below == other.below {
            return Self {
                below: self.below,
                size: self.size.plus(&other.size),
            };
        }
        let (large, small) = match self.size.order(&other.size) {
            Ordering::Less => (other, self),
            _ => (self, other),
        };
        Self {
            below: large.below,
            size: large.size.minus(&small.size),
        }
    }

    pub fn minus(&self, other: &Self) -> Self {
        self.plus(&other.opposite())
    }

    pub fn times(&self, other: &Self) -> Self {
        Self {
            below: self.below != other.below,
            size: self.size.times(&other.size),
        }
    }

    /// How it compares with 0.
    pub fn sign(&self) -> Ordering {
        let positive = Big::new(0, 0).order(&self.size).reverse();
        if self.below {
            positive.reverse()
        } else {
            positive
        }
    }

    pub fn order(&self, other: &Self) -> Ordering {
        self.minus(other).sign()
    }
}

/// The least exponent of these that are not 0.
pub fn least<'a>(numbers: impl Iterator<Item = &'a f64>) -> u32 {
    let exponents = numbers.filter(|x| **x != 0.0).map(|x| parts(*x).1);
    exponents.min().unwrap_or(0)
}

/// How x² + y² compares with the square of the number halfway from the finite
/// magnitude of these bits to the next one up (past the largest: to where the
/// next one would be).
pub fn against_halfway(x: f64, y: f64, bits: u64) -> Ordering {
    let ((m, e), (n, f)) = (parts(x), parts(y));
    let (k, g) = parts(f64::from_bits(bits));
    let lowest = e.min(f).min(g);
    let sum = Big::new(m, e - lowest + 1)
        .squared()
        .plus(&Big::new(n, f - lowest + 1).squared());
    sum.order(&Big::new(2 * k + 1, g - lowest).squared())
}
