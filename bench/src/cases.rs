//! Operands: what is timed, and what is compared.

/// Numbers that look random and are the same in every run (splitmix64).
pub struct Random(pub u64);

impl Random {
    pub fn next(&mut self) -> u64 {
        self.0 = self.0.wrapping_add(0x9e37_79b9_7f4a_7c15);
        let a = (self.0 ^ self.0 >> 30).wrapping_mul(0xbf58_476d_1ce4_e5b9);
        let b = (a ^ a >> 27).wrapping_mul(0x94d0_49bb_1331_11eb);
        b ^ b >> 31
    }

    /// From `low` to `high`, both counted.
    fn from_to(&mut self, low: u64, high: u64) -> u64 {
        low + self.next() % (high - low + 1)
    }

    /// From -1 to 1.
    pub fn unit(&mut self) -> f64 {
        (self.next() >> 11) as f64 / (1u64 << 52) as f64 - 1.0
    }

    /// A finite double of any sign whose exponent's field is from `low` to `high`, both counted.
    fn with_field(&mut self, low: u64, high: u64) -> f64 {
        let field = self.from_to(low, high);
        f64::from_bits(self.next() & !(0x7ff << 52) | field << 52)
    }
}

pub type Pair = (f64, f64);
type Draw = fn(&mut Random) -> Pair;

fn within_1e9(r: &mut Random) -> Pair {
    (1e9 * r.unit() - 1e9 * r.unit(), 1e9 * r.unit() - 1e9 * r.unit())
}

fn within_100(r: &mut Random) -> Pair {
    (100.0 * r.unit(), 100.0 * r.unit())
}

fn whole_numbers(r: &mut Random) -> Pair {
    ((1000.0 * r.unit()).trunc(), (1000.0 * r.unit()).trunc())
}

fn mixed(r: &mut Random) -> Pair {
    (r.with_field(1003, 1052), r.with_field(1003, 1052))
}

fn subnormal(r: &mut Random) -> Pair {
    (r.with_field(0, 0), r.with_field(0, 0))
}

/// So far apart that the larger one is the answer.
fn far_apart(r: &mut Random) -> Pair {
    (r.with_field(1023, 1023), r.with_field(900, 990))
}

/// Named lists of pairs to time.
pub fn timed(count: usize) -> Vec<(&'static str, Vec<Pair>)> {
    let draws: [(&str, Draw); 6] = [
        ("differences within 1e9", within_1e9),
        ("differences within 100", within_100),
        ("whole numbers within 1000", whole_numbers),
        ("magnitudes from 1e-6 to 1e9", mixed),
        ("subnormal", subnormal),
        ("far apart", far_apart),
    ];
    let mut r = Random(1);
    draws.into_iter().map(|(name, draw)| (name, (0..count).map(|_| draw(&mut r)).collect())).collect()
}

/// n * 2^e, for an n of 53 binary digits once the zeros at its end are dropped. e may be below the smallest exponent: what is lost there is lost.
fn scaled(n: u64, e: i32) -> f64 {
    let half = e / 2;
    n as f64 * 2f64.powi(half) * 2f64.powi(e - half)
}

/// The whole part of the root of n.
fn root(n: u128) -> u64 {
    let mut q = (n as f64).sqrt() as u128;
    while q * q > n {
        q -= 1;
    }
    while (q + 1) * (q + 1) <= n {
        q += 1;
    }
    q as u64
}

/// The last digit is dropped where there are more than 53.
fn fitting(n: u64) -> u64 {
    if n >> 53 == 0 {
        n
    } else {
        n & !1
    }
}

/// Two whole numbers with a root near to `c`, which lies in the middle between two doubles.
fn near(r: &mut Random, c: u64) -> (u64, u64) {
    let fewer = r.from_to(1, 30);
    let a = fitting(r.next() % c >> (r.next() % fewer));
    let b = root(c as u128 * c as u128 - a as u128 * a as u128);
    let step = r.from_to(0, 2) as i64 - 1;
    (a, fitting((b as i64 + step).max(0) as u64))
}

fn near_tie(r: &mut Random) -> Pair {
    let c = r.from_to(1 << 53, (1 << 54) - 1) | 1;
    let (a, b) = near(r, c);
    let e = r.from_to(0, 1900) as i32 - 1000;
    (scaled(a, e), -scaled(b, e))
}

/// The root lies exactly in the middle between two doubles: a Pythagorean triple whose largest number is odd and has 54 digits.
fn tie(r: &mut Random) -> Pair {
    loop {
        let (u, v) = (r.from_to(1 << 26, 1 << 27), r.from_to(1 << 25, 1 << 27));
        let (u, v) = (u.max(v), u.min(v));
        let c = u * u + v * v;
        if c % 2 == 1 && c >> 53 == 1 && (u * u - v * v) >> 53 == 0 {
            let e = r.from_to(0, 1900) as i32 - 1000;
            return (scaled(2 * u * v, e), scaled(u * u - v * v, e));
        }
    }
}

/// The root is a double.
fn whole_root(r: &mut Random) -> Pair {
    let (u, v) = (r.from_to(1, 1 << 25), r.from_to(1, 1 << 25));
    let (u, v) = (u.max(v), u.min(v));
    let e = r.from_to(0, 1900) as i32 - 1000;
    (scaled(2 * u * v, e), scaled(u * u - v * v, e))
}

/// The root is near to the middle between the largest double and the next number up, from where on the answer is infinity.
fn overflow(r: &mut Random) -> Pair {
    let (a, b) = near(r, (1 << 54) - 1);
    (scaled(a, 970), scaled(b, 970))
}

fn few_units(r: &mut Random) -> Pair {
    let (a, b) = (r.from_to(0, 52), r.from_to(0, 52));
    (f64::from_bits(r.next() >> 12 >> a), f64::from_bits(r.next() >> 12 >> b))
}

fn smallest_normal(r: &mut Random) -> Pair {
    (r.with_field(0, 3), r.with_field(0, 3))
}

/// The exponents are as far apart as decides whether the smaller one counts.
fn apart(r: &mut Random) -> Pair {
    let extreme = |r: &mut Random, x: f64| match r.next() % 4 {
        0 => f64::from_bits(x.to_bits() | (1 << 52) - 1),
        1 => f64::from_bits(x.to_bits() >> 52 << 52),
        _ => x,
    };
    let field = r.from_to(60, 2046);
    let less = r.from_to(20, 60);
    let (x, y) = (r.with_field(field, field), r.with_field(field - less, field - less));
    (extreme(r, x), extreme(r, y))
}

fn any_bits(r: &mut Random) -> Pair {
    (f64::from_bits(r.next()), f64::from_bits(r.next()))
}

/// Zeros, infinities, NaNs, and the ends of each range, with either sign.
fn special(r: &mut Random) -> Pair {
    const PATTERNS: [u64; 14] = [
        0,
        1,
        2,
        3,
        0xf_ffff_ffff_ffff,
        0x10_0000_0000_0000,
        0x10_0000_0000_0001,
        0x3ff0_0000_0000_0000,
        0x7fe0_0000_0000_0000,
        0x7fef_ffff_ffff_ffff,
        0x7ff0_0000_0000_0000,
        0x7ff0_0000_0000_0001,
        0x7ff8_0000_0000_0000,
        0x7fff_ffff_ffff_ffff,
    ];
    let one = |r: &mut Random| f64::from_bits(PATTERNS[r.next() as usize % 14] | r.next() << 63);
    (one(r), one(r))
}

/// Named draws of hard pairs, and how many of each are compared.
pub fn hard() -> Vec<(&'static str, usize, Draw)> {
    vec![
        ("any patterns", 200_000, any_bits),
        ("zeros, infinities, NaNs, ends of ranges", 20_000, special),
        ("near ties", 1_000_000, near_tie),
        ("exact ties", 300_000, tie),
        ("exact roots", 200_000, whole_root),
        ("the edge of overflow", 300_000, overflow),
        ("a few units", 200_000, few_units),
        ("subnormal", 200_000, subnormal),
        ("the smallest normal numbers", 200_000, smallest_normal),
        ("exponents apart", 500_000, apart),
        ("differences within 1e9", 300_000, within_1e9),
        ("whole numbers within 1000", 100_000, whole_numbers),
        ("magnitudes from 1e-6 to 1e9", 300_000, mixed),
    ]
}
