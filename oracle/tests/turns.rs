//! The exact turn against its definition, and meetings against a solver that
//! asks no turn, in big whole numbers.

mod big;

use std::cmp::Ordering;

use big::{least, Signed};
use oracle::draw::Draw;
use oracle::generate::turning;
use oracle::outlines::{Outline, Question};
use oracle::turns::exact;

type Point = [f64; 2];

/// The points' numbers, whole, in one unit.
fn whole<const N: usize>(points: [Point; N]) -> [[Signed; 2]; N] {
    let unit = least(points.iter().flatten());
    points.map(|point| point.map(|x| Signed::of(x, unit)))
}

fn less(a: &[Signed; 2], b: &[Signed; 2]) -> [Signed; 2] {
    [a[0].minus(&b[0]), a[1].minus(&b[1])]
}

/// The sign of (b − a) × (c − a); nothing where a number is not finite.
fn defined(points: [Point; 3]) -> Option<Ordering> {
    if points.iter().flatten().any(|x| !x.is_finite()) {
        return None;
    }
    let [a, b, c] = whole(points);
    let (b, c) = (less(&b, &a), less(&c, &a));
    Some(b[0].times(&c[1]).order(&b[1].times(&c[0])))
}

fn sign(turn: f64) -> Option<Ordering> {
    turn.partial_cmp(&0.0)
}

/// Compared with the definition, in every order of the points.
fn check([a, b, c]: [Point; 3]) -> Option<Ordering> {
    let told = defined([a, b, c]);
    let turn = exact(a, b, c);
    assert_eq!(sign(turn), told, "{a:?} {b:?} {c:?}");
    assert!(turn.is_nan() || [1.0, -1.0, 0.0].contains(&turn));
    for same in [exact(b, c, a), exact(c, a, b)] {
        assert_eq!(sign(same), told, "{a:?} {b:?} {c:?}");
    }
    for other in [exact(b, a, c), exact(a, c, b), exact(c, b, a)] {
        let opposite = told.map(Ordering::reverse);
        assert_eq!(sign(other), opposite, "{a:?} {b:?} {c:?}");
    }
    told
}

fn rounds(release: u64) -> u64 {
    if cfg!(debug_assertions) {
        release / 10
    } else {
        release
    }
}

/// Whether x is from 0 to the other, which is not below 0.
fn up_to(x: &Signed, most: &Signed) -> bool {
    x.sign() != Ordering::Less && x.order(most) != Ordering::Greater
}

/// The sum a s + b t is c.
struct Equation {
    a: Signed,
    b: Signed,
    c: Signed,
}

/// Whether an equation with a > 0 has a solution with s and t from 0 to 1: b t
/// goes from 0 to b, and some of c − b t has to be from 0 to a.
fn on_line(of: &Equation) -> bool {
    let ends = [of.c.clone(), of.c.minus(&of.b)];
    ends.iter().any(|end| end.sign() != Ordering::Less)
        && ends.iter().any(|end| end.order(&of.a) != Ordering::Greater)
}

/// Whether p1 + s (p2 − p1) = q1 + t (q2 − q1) with s and t from 0 to 1, all of
/// them finite: two equations, solved by elimination.
fn shared([p1, p2, q1, q2]: [Point; 4]) -> bool {
    let [p1, p2, q1, q2] = whole([p1, p2, q1, q2]);
    let (along, back, gap) = (less(&p2, &p1), less(&q1, &q2), less(&q1, &p1));
    let mut two = [0, 1].map(|axis| Equation {
        a: along[axis].clone(),
        b: back[axis].clone(),
        c: gap[axis].clone(),
    });
    let none = |x: &Signed| x.sign() == Ordering::Equal;
    // The first equation is to have s, and more than 0 of it.
    if two.iter().all(|of| none(&of.a)) {
        for of in &mut two {
            std::mem::swap(&mut of.a, &mut of.b);
        }
    }
    if none(&two[0].a) {
        two.swap(0, 1);
    }
    if none(&two[0].a) {
        return two.iter().all(|of| none(&of.c));
    }
    for of in &mut two {
        if of.a.sign() == Ordering::Less {
            (of.a, of.b, of.c) = (of.a.opposite(), of.b.opposite(), of.c.opposite());
        }
    }
    // Without s: (b' a − a' b) t = c' a − a' c.
    let [first, other] = two;
    let cleared = |x: &Signed, y: &Signed| x.times(&first.a).minus(&other.a.times(y));
    let mut under = cleared(&other.b, &first.b);
    let mut over = cleared(&other.c, &first.c);
    match under.sign() {
        Ordering::Equal => return none(&over) && on_line(&first),
        Ordering::Less => (under, over) = (under.opposite(), over.opposite()),
        Ordering::Greater => {}
    }
    // t = over / under, so s = (c under − b over) / (a under).
    let s = first.c.times(&under).minus(&first.b.times(&over));
    up_to(&over, &under) && up_to(&s, &first.a.times(&under))
}

#[test]
fn the_solver() {
    let meet = |p: [i32; 4], q: [i32; 4]| {
        let at = |x: i32, y: i32| [f64::from(x), f64::from(y)];
        let points = [
            at(p[0], p[1]),
            at(p[2], p[3]),
            at(q[0], q[1]),
            at(q[2], q[3]),
        ];
        shared(points)
    };
    // Crossed, touching, short of touching.
    assert!(meet([0, 0, 4, 4], [0, 4, 4, 0]));
    assert!(meet([0, 0, 4, 0], [2, 0, 2, 5]));
    assert!(!meet([0, 0, 4, 0], [2, 1, 2, 5]));
    assert!(!meet([0, 0, 4, 4], [5, 5, 9, 0]));
    // On one line, beside it, a point.
    assert!(meet([0, 0, 4, 4], [3, 3, 9, 9]));
    assert!(meet([0, 0, 4, 4], [4, 4, 9, 9]));
    assert!(meet([0, 0, 4, 4], [3, 3, 1, 1]));
    assert!(!meet([0, 0, 4, 4], [5, 5, 9, 9]));
    assert!(!meet([0, 0, 4, 4], [-5, -5, -9, -9]));
    assert!(!meet([0, 0, 4, 4], [0, 1, 4, 5]));
    assert!(meet([2, 2, 2, 2], [0, 0, 4, 4]));
    assert!(!meet([2, 3, 2, 3], [0, 0, 4, 4]));
    assert!(!meet([5, 5, 5, 5], [0, 0, 4, 4]));
    assert!(meet([1, 3, 1, 3], [1, 3, 1, 3]));
    assert!(!meet([1, 3, 1, 3], [1, 4, 1, 4]));
    assert!(!meet([1, 3, 1, 3], [2, 3, 2, 3]));
}

/// The drawn questions, against the definitions.
#[test]
fn drawn() {
    let (mut turns, mut met, mut folds) = ([0; 4], [0; 2], [0; 2]);
    for index in 0..rounds(1_500_000) {
        let question = turning(7, index);
        let answer = question.answer()[0] as usize;
        match question {
            Question::Turn(points) => {
                let number = match check(points) {
                    Some(Ordering::Equal) => 0,
                    Some(Ordering::Greater) => 1,
                    Some(Ordering::Less) => 2,
                    None => 3,
                };
                assert_eq!(answer, number, "{points:?}");
                turns[number] += 1;
            }
            Question::Meet([[p1, p2], [q1, q2]]) => {
                if [p1, p2, q1, q2].iter().flatten().any(|x| !x.is_finite()) {
                    continue;
                }
                let told = usize::from(shared([p1, p2, q1, q2]));
                assert_eq!(answer, told, "{p1:?} {p2:?} {q1:?} {q2:?}");
                for (p, q) in [
                    ([p2, p1], [q1, q2]),
                    ([q1, q2], [p1, p2]),
                    ([q2, q1], [p1, p2]),
                ] {
                    assert_eq!(Outline::oracle_segments_meet(p, q), told == 1);
                }
                met[told] += 1;
            }
            Question::Fold([shared, a, b]) => {
                let dot = (a[0] - shared[0]) * (b[0] - shared[0])
                    + (a[1] - shared[1]) * (b[1] - shared[1]);
                let straight = defined([shared, a, b]) == Some(Ordering::Equal);
                let told = usize::from(straight && dot > 0.0);
                assert_eq!(answer, told, "{shared:?} {a:?} {b:?}");
                folds[told] += 1;
            }
            _ => unreachable!(),
        }
    }
    let enough = rounds(20_000);
    assert!([&turns[..], &met, &folds]
        .concat()
        .iter()
        .all(|count| *count > enough));
}

fn float(draw: &mut Draw, low: u64, high: u64) -> f64 {
    let field = low + draw.bits() % (high - low + 1);
    f64::from_bits(field << 52 | draw.bits() >> 12 | draw.bits() << 63)
}

#[test]
fn any_exponents() {
    let mut draw = Draw::new(21);
    for _ in 0..rounds(30_000) {
        check([(); 3].map(|()| [(); 2].map(|()| float(&mut draw, 0, 2046))));
    }
}

/// Exponents that are near one another, in every range.
#[test]
fn near_exponents() {
    let mut draw = Draw::new(22);
    for _ in 0..rounds(400_000) {
        let low = draw.bits() % 2040;
        let high = low + draw.bits() % 7;
        check([(); 3].map(|()| [(); 2].map(|()| float(&mut draw, low, high))));
    }
}

/// The point in the middle of two, or the third that makes it the middle, and
/// its neighbours by a place.
#[test]
fn in_the_middle() {
    let mut draw = Draw::new(23);
    let mut met = [0; 3];
    for _ in 0..rounds(150_000) {
        let low = draw.bits() % 2000;
        let high = low + draw.bits() % 40;
        let mut point = || [(); 2].map(|()| float(&mut draw, low, high));
        let (a, b) = (point(), point());
        let middle = [0, 1].map(|k| a[k] / 2.0 + b[k] / 2.0);
        let axis = draw.below(2);
        for places in -1..=1 {
            let mut c = middle;
            c[axis] = f64::from_bits(c[axis].to_bits().wrapping_add_signed(places));
            let sign = check([a, b, c]).expect("finite numbers");
            met[(sign as i8 + 1) as usize] += 1;
        }
    }
    assert!(met.iter().all(|met| *met > rounds(1_000)), "{met:?}");
}

/// Whole numbers up to 2^53: points on a line or near it, and those one off.
#[test]
fn one_off() {
    let mut draw = Draw::new(24);
    for _ in 0..rounds(100_000) {
        let wide = 1 + draw.below(52);
        let mut whole = || (draw.bits() >> (63 - wide)) as i64;
        let (x, y, far) = (whole(), whole(), 2 + whole() % 1000);
        let at = |x: i64, y: i64| [x as f64, y as f64];
        for (dx, dy) in [(0, 0), (1, 0), (0, 1), (-1, 0)] {
            check([at(0, 0), at(x, y), at(x / far * 2 + dx, y / far * 2 + dy)]);
            check([at(-x, -y), at(dx, dy), at(x, y)]);
        }
    }
}

#[test]
fn special_values() {
    let list = [
        0.0,
        -0.0,
        5e-324,
        -1e-323,
        1.0,
        -1.0,
        f64::MAX,
        -f64::MAX,
        f64::INFINITY,
        f64::NEG_INFINITY,
        f64::NAN,
    ];
    let count = list.len();
    for index in 0..count.pow(6) {
        let number = |k: u32| list[index / count.pow(k) % count];
        let points = [
            [number(0), number(1)],
            [number(2), number(3)],
            [number(4), number(5)],
        ];
        assert_eq!(
            sign(exact(points[0], points[1], points[2])),
            defined(points)
        );
    }
}

#[test]
fn rows() {
    let left = exact([0.5, 0.5000000000000001], [12.0, 12.0], [24.0, 24.0]);
    assert_eq!(left, 1.0);
    // Straight, and left, where the differences are rounded.
    assert_eq!(exact([1.0, 1.0], [1e-17, 0.0], [2.0, 2.0]), 1.0);
    let tiny = 5e-324;
    assert_eq!(
        exact([0.0, 0.0], [tiny, tiny], [2.0 * tiny, 2.0 * tiny]),
        0.0
    );
    assert_eq!(exact([-f64::MAX, 0.0], [f64::MAX, tiny], [0.0, 0.0]), -1.0);
    assert!(exact([0.0, 0.0], [1.0, 1.0], [f64::NEG_INFINITY, 5.0]).is_nan());
}
