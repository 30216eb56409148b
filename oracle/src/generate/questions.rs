//! Questions about outlines from a seed.

use super::shape::{
    self, compass, dress, mirror, moved, rectangle, reorder, scale, shift, square, turn, Point,
    Ring,
};
use super::{door, hairlines, outlines, SMALL};
use crate::answer::ROOM;
use crate::draw::Draw;
use crate::job::Job;
use crate::outlines::{handed_outline, numbers_of, Question, Shape};

/// Numbers that are not finite.
pub(super) fn not_finite(draw: &mut Draw) -> f64 {
    draw.pick(&[
        f64::NAN,
        -f64::NAN,
        f64::from_bits(0x7ff0_0000_0000_0001),
        f64::from_bits(0xfff8_0000_0000_0001),
        f64::INFINITY,
        f64::NEG_INFINITY,
    ])
}

pub(super) fn flat_numbers(ring: &[Point]) -> Vec<f64> {
    ring.iter().flatten().copied().collect()
}

/// The numbers of a job's last ring, or all of them where there is one ring.
fn last_ring(line: &[u8]) -> Vec<f64> {
    let job = Job::read(line).expect("well formed");
    let from = match job.counts[..] {
        [_] => 0,
        _ => job.numbers.len() - 2 * job.counts.last().copied().unwrap_or(0),
    };
    job.numbers[from..].to_vec()
}

/// Sound rings of the offset load, and what its first questions refuse.
fn of_load(draw: &mut Draw) -> Vec<f64> {
    type Family = fn(&mut Draw, usize) -> Vec<u8>;
    let sound: &[Family] = &[
        outlines::star,
        outlines::regular,
        outlines::columns,
        outlines::comb,
        outlines::rotated_comb,
        outlines::saw,
        outlines::waist,
        outlines::squares,
        outlines::grid,
        outlines::far,
        outlines::distant,
        outlines::mirrored,
        outlines::thin,
    ];
    let faulty: &[Family] = &[
        door::numbers,
        door::few,
        door::range,
        door::repeated,
        door::flat,
        door::crossed,
        door::crossed,
        hairlines::hairline,
        hairlines::hairline,
    ];
    let families = if draw.once_in(2) { sound } else { faulty };
    let family = draw.pick(families);
    let most = if draw.once_in(8) { 24 } else { SMALL };
    last_ring(&family(draw, most))
}

/// No, one, two or three vertices, closed or not.
fn few(draw: &mut Draw) -> Vec<f64> {
    let count = draw.below(4);
    let mut ring = square(draw.whole(1, 9) as f64)[..count].to_vec();
    for _ in 0..draw.below(3) {
        if let Some(first) = ring.first() {
            ring.push(*first);
        }
    }
    flat_numbers(&ring)
}

/// About the room: 127 to 130 vertices, a bad one at the end, closed once or
/// twice, in either order, a pair exchanged, a hair apart.
fn full(draw: &mut Draw) -> Vec<f64> {
    let count = draw.pick(&[127, 128, 128, 129, 130, 130]);
    let mut ring = shape::star(draw, count, 50.0, 60.0);
    if draw.once_in(2) {
        ring.reverse();
    }
    match draw.below(6) {
        0 | 1 if count > 128 => {
            let place = 128 + draw.below(count - 128);
            ring[place][draw.below(2)] = draw.pick(&[2e9, -moved(1e9, 1), 1e300]);
        }
        2 if count <= 128 => {
            let place = 1 + draw.below(count - 4);
            ring.swap(place, place + 2);
        }
        3 => ring[count - 1] = ring[count - 2],
        // The closing edge about the least length.
        4 => {
            let by = draw.pick(&[5e-7, 9e-7, 1.1e-6]);
            ring[count - 1] = [ring[0][0] + by, ring[0][1]];
        }
        _ => {}
    }
    for _ in 0..draw.pick(&[0, 0, 1, 2]) {
        ring.push(ring[0]);
    }
    flat_numbers(&ring)
}

/// Zeros of both signs: neighbours that are one point, a ring that is closed.
fn zeros(draw: &mut Draw) -> Vec<f64> {
    let zero = |draw: &mut Draw| draw.pick(&[0.0, -0.0]);
    let side = draw.whole(1, 9) as f64;
    let mut ring = vec![
        [zero(draw), zero(draw)],
        [side, zero(draw)],
        [side, side],
        [zero(draw), side],
    ];
    if draw.once_in(3) {
        let place = draw.below(4);
        let again = ring[place].map(|x| if x == 0.0 { -x } else { x });
        ring.insert(place + 1, again);
    }
    if draw.once_in(2) {
        ring[1..].reverse();
    }
    for _ in 0..draw.below(3) {
        ring.push([zero(draw), zero(draw)]);
    }
    flat_numbers(&ring)
}

/// Coordinates of exactly ±10⁹, and the next doubles.
fn limits(draw: &mut Draw) -> Vec<f64> {
    let far = 1e9;
    let mut ring = match draw.below(3) {
        0 => vec![[0.0, 0.0], [far, 0.0], [0.0, far]],
        1 => rectangle([-far, -far], [far, far]),
        _ => vec![[far, -far], [far, far], [-1.0, 0.0]],
    };
    if draw.once_in(2) {
        ring[1..].reverse();
    }
    for _ in 0..draw.below(3) {
        let place = draw.below(ring.len());
        ring[place][draw.below(2)] = draw.pick(&[
            moved(far, 1),
            -moved(far, 1),
            f64::from_bits(far.to_bits() - 1),
            f64::MAX,
            -1e300,
            far,
            -far,
        ]);
    }
    flat_numbers(&ring)
}

/// Nearly flat: the area at the relative bound, to the last bit and beside it.
fn nearly_flat(draw: &mut Draw) -> Vec<f64> {
    let long = draw.pick(&[1.0, 3.0, 0.1, 1000.0, 7e5]) * draw.real(1.0, 2.0);
    let part = draw.pick(&[0.0, 0.0, 1.0, 0.999, 1.001, 0.5, 2.0]);
    let high = moved(2e-12 * long, draw.whole(-3, 3)) * if part == 0.0 { 1.0 } else { part };
    let mut ring = vec![
        [0.0, 0.0],
        [long, 0.0],
        [draw.pick(&[0.0, long / 2.0]), high],
    ];
    if draw.once_in(4) {
        ring.insert(2, [long, high / 2.0]);
    }
    if draw.once_in(2) {
        ring[1..].reverse();
    }
    let mut rings = [ring];
    match draw.below(4) {
        0 => {
            mirror(draw, &mut rings);
        }
        1 => {
            let by = draw.unit();
            turn(&mut rings, by);
        }
        2 => {
            let by = draw.pick(&[0.25, 1024.0, 3.0]);
            scale(&mut rings, by);
        }
        _ => {}
    }
    flat_numbers(&rings[0])
}

/// Few points of a small grid: crossings, touches, repeats, lines.
fn small_grid(draw: &mut Draw) -> Vec<f64> {
    let count = 3 + draw.below(5);
    let side = draw.pick(&[2, 3, 4, 6]);
    let ring: Ring = (0..count)
        .map(|_| [draw.whole(0, side) as f64, draw.whole(0, side) as f64])
        .collect();
    let mut rings = [ring];
    if draw.once_in(3) {
        mirror(draw, &mut rings);
    }
    if draw.once_in(4) {
        dress(draw, &mut rings);
    }
    flat_numbers(&rings[0])
}

/// Edges that cross, touch or double back, at known places, in either order.
fn faults(draw: &mut Draw) -> Vec<f64> {
    let ring: Ring = match draw.below(7) {
        0 => vec![[0.0, 0.0], [4.0, 4.0], [4.0, 0.0], [0.0, 2.0]],
        1 => vec![[0.0, 0.0], [4.0, 0.0], [4.0, 4.0], [4.0, 2.0], [0.0, 2.0]],
        // The last edge doubles back along the first.
        2 => vec![[0.0, 0.0], [4.0, 0.0], [4.0, 4.0], [1.0, 3.0], [2.0, 0.0]],
        // A vertex on an edge, on a vertex.
        3 => vec![[0.0, 0.0], [8.0, 0.0], [8.0, 8.0], [4.0, 0.0], [0.0, 8.0]],
        4 => vec![
            [0.0, 0.0],
            [4.0, 0.0],
            [2.0, 2.0],
            [4.0, 4.0],
            [0.0, 4.0],
            [2.0, 2.0],
        ],
        // A vertex nearly on an edge.
        5 => {
            let near = draw.pick(&[0.0, 1e-6, 1e-15, 5e-324, -5e-324, -1e-15]);
            vec![[0.0, 0.0], [8.0, 0.0], [8.0, 8.0], [4.0, near], [0.0, 8.0]]
        }
        _ => {
            let count = 5 + draw.below(7);
            let mut ring = shape::star(draw, count, 2.0, 9.0);
            let place = draw.below(count - 2);
            ring.swap(place, place + 2);
            ring
        }
    };
    let mut rings = [ring];
    if draw.once_in(3) {
        mirror(draw, &mut rings);
    }
    if draw.once_in(3) {
        let by = draw.pick(&[[450_000.0, 5_500_000.0], [-9e8, 9e8], [0.1, 0.3]]);
        shift(&mut rings, by);
    }
    reorder(draw, &mut rings);
    flat_numbers(&rings[0])
}

/// Tiny rings, down to subnormal numbers: the area may come to nothing.
fn tiny(draw: &mut Draw) -> Vec<f64> {
    let count = 3 + draw.below(5);
    let mut rings = [shape::star(draw, count, 2.0, 9.0)];
    let by = draw.pick(&[
        1e-3, 1e-9, 1e-100, 1e-150, 1e-160, 1e-163, 1e-308, 1e-315, 5e-324,
    ]);
    scale(&mut rings, by);
    reorder(draw, &mut rings);
    flat_numbers(&rings[0])
}

/// A count that is not even, a number that is not finite, other faults beside.
fn spoilt(draw: &mut Draw) -> Vec<f64> {
    let mut numbers = match draw.below(3) {
        0 => few(draw),
        1 => limits(draw),
        _ => small_grid(draw),
    };
    if draw.once_in(2) {
        numbers.push(1.0);
    }
    for _ in 0..draw.below(3).min(numbers.len()) {
        let place = draw.below(numbers.len());
        numbers[place] = not_finite(draw);
    }
    numbers
}

fn outline(draw: &mut Draw) -> Vec<f64> {
    match draw.below(40) {
        0..=11 => of_load(draw),
        12 => few(draw),
        13..=15 => full(draw),
        16..=17 => zeros(draw),
        18..=19 => limits(draw),
        20..=23 => nearly_flat(draw),
        24..=28 => small_grid(draw),
        29..=33 => faults(draw),
        34..=35 => tiny(draw),
        _ => spoilt(draw),
    }
}

/// The numbers of an outline as the reference stores it, twice over the same.
fn sound(draw: &mut Draw) -> Vec<f64> {
    loop {
        let numbers = match draw.below(24) {
            0 => zeros(draw),
            1 => limits(draw),
            2 => nearly_flat(draw),
            3 | 4 => small_grid(draw),
            5 => tiny(draw),
            6 => full_or_small(draw),
            _ => of_load(draw),
        };
        if let Some(stored) = stored(&numbers) {
            return stored;
        }
    }
}

/// The numbers of the outline that the reference makes of these, where it
/// makes the same of them again.
pub(super) fn stored(numbers: &[f64]) -> Option<Vec<f64>> {
    let stored = numbers_of(&handed_outline(numbers).ok()?);
    let again = numbers_of(&handed_outline(&stored).ok()?);
    (again == stored).then_some(stored)
}

/// A full ring now and then.
fn full_or_small(draw: &mut Draw) -> Vec<f64> {
    if draw.once_in(4) {
        full(draw)
    } else {
        let count = draw.pick(&[3, 4, 31, 32, 33]);
        flat_numbers(&shape::star(draw, count, 5.0, 60.0))
    }
}

pub(super) fn shape_of(numbers: Vec<f64>) -> Shape {
    Shape {
        count: numbers.len() as u64 / 2,
        numbers,
    }
}

/// A shape that question 21 refuses.
pub(super) fn improper(draw: &mut Draw) -> Shape {
    let mut shape = shape_of(sound(draw));
    while shape.count > 24 {
        shape = shape_of(sound(draw));
    }
    match draw.below(8) {
        0 => shape.count = draw.below(3) as u64,
        1 => shape.count = draw.pick(&[129, 130, 4096, 1 << 32, 1 << 63, u64::MAX]),
        2 if draw.once_in(4) => {
            shape = shape_of(flat_numbers(&shape::star(draw, 129, 50.0, 60.0)));
        }
        2 | 3 => {
            let place = draw.below(shape.numbers.len());
            shape.numbers[place] =
                draw.pick(&[moved(1e9, 1), -moved(1e9, 1), 1e300, -f64::MAX, 2e9]);
        }
        4 | 5 => {
            let place = draw.below(shape.numbers.len());
            shape.numbers[place] = not_finite(draw);
        }
        6 => {
            let left = draw.below(shape.numbers.len());
            shape.numbers.truncate(left);
        }
        _ => {
            let more = draw.pick(&[1, 2, 100]);
            shape.count = (shape.count + more).min(ROOM as u64);
        }
    }
    shape
}

/// A shape handed in; past its vertices there may be numbers that none reads.
fn handed(draw: &mut Draw) -> Shape {
    if draw.once_in(9) {
        return improper(draw);
    }
    let mut shape = shape_of(sound(draw));
    if draw.once_in(6) {
        let past = draw.pick(&[0.0, 1.0, f64::NAN, 1e300]);
        let more = 1 + draw.below(6);
        shape.numbers.extend(vec![past; more]);
    }
    shape
}

/// Vertex k of a shape; the origin where there is none.
fn vertex(shape: &Shape, place: usize) -> Point {
    match shape.numbers.get(2 * place..2 * place + 2) {
        Some(pair) => [pair[0], pair[1]],
        None => [0.0, 0.0],
    }
}

/// A point that suits a shape: on it, beside it, level with it, far from it.
pub(super) fn suited_point(draw: &mut Draw, shape: &Shape) -> Point {
    let count = (shape.numbers.len() / 2).max(1);
    let place = draw.below(count);
    let [a, b] = [vertex(shape, place), vertex(shape, (place + 1) % count)];
    let other = vertex(shape, draw.below(count));
    let between = |t: f64| [a[0] + t * (b[0] - a[0]), a[1] + t * (b[1] - a[1])];
    let signed = |draw: &mut Draw, x: f64| if draw.once_in(2) { x } else { -x };
    match draw.below(16) {
        0 => a,
        1 => between(draw.pick(&[0.5, 0.25, 0.75])),
        2 => between(draw.unit()),
        3 => {
            let mut p = between(draw.pick(&[0.5, 0.25]));
            let axis = draw.below(2);
            if p[axis] != 0.0 {
                p[axis] = f64::from_bits(p[axis].to_bits().wrapping_add_signed(draw.whole(-1, 1)));
            } else {
                p[axis] = signed(draw, 5e-324);
            }
            p
        }
        // Level with a vertex.
        4 | 5 => [
            draw.pick(&[other[0], (a[0] + b[0]) / 2.0, b[0] - 100.0]),
            a[1],
        ],
        6 => [a[0], (other[1] + b[1]) / 2.0],
        // Within, or nearly.
        7 | 8 => [
            (a[0] + b[0] + other[0]) / 3.0,
            (a[1] + b[1] + other[1]) / 3.0,
        ],
        9 => [
            a[0] + draw.unit() * (other[0] - a[0]),
            b[1] + draw.unit() * (other[1] - b[1]),
        ],
        10 => {
            let [east, north] = compass(draw.unit());
            let far = draw.pick(&[0.001, 1.0, 100.0, 1e9, 2e9]);
            [a[0] + far * east, a[1] + far * north]
        }
        11 => {
            let far = draw.pick(&[1e20, 1e150, 1e160, 1e300, f64::MAX]);
            let near = draw.pick(&[0.0, 1.0, far]);
            let mut p = [signed(draw, far), signed(draw, near)];
            if draw.once_in(2) {
                p.swap(0, 1);
            }
            p
        }
        12 => {
            let small = draw.pick(&[5e-324, 1e-310, 1e-300, 1e-160, 0.0]);
            [signed(draw, small), signed(draw, small)]
        }
        13 => {
            let mut p = a;
            p[draw.below(2)] = not_finite(draw);
            if draw.once_in(3) {
                p = [not_finite(draw), not_finite(draw)];
            }
            p
        }
        14 => [draw.whole(0, 9) as f64, draw.whole(0, 9) as f64],
        _ => between(draw.pick(&[-0.5, 1.5, 2.0, -1e-9])),
    }
}

/// A second shape about the first: moved, within, about it, touching, apart.
fn second(draw: &mut Draw, first: &Shape) -> Shape {
    let near: Ring = first
        .numbers
        .chunks_exact(2)
        .map(|pair| [pair[0], pair[1]])
        .collect();
    let mut rings = [near];
    for _ in 0..8 {
        match draw.below(6) {
            0 => {
                let [east, north] = compass(draw.unit());
                let far = draw.pick(&[0.5, 5.0, 30.0, 1e4]);
                shift(&mut rings, [far * east, far * north]);
            }
            1 => {
                let by = draw.pick(&[0.5, 0.25, 2.0, 0.75, 1.0]);
                scale(&mut rings, by);
            }
            2 => {
                let by = draw.unit();
                turn(&mut rings, by);
            }
            // A triangle on a vertex, or beside it.
            3 => {
                let at = rings[0].first().copied().unwrap_or([0.0; 2]);
                let off = draw.pick(&[0.0, 0.0, 1.0, -0.5]);
                let at = [at[0] + off, at[1] + off];
                let long = draw.pick(&[1.0, -3.0, 100.0]);
                rings = [vec![at, [at[0] + long, at[1]], [at[0], at[1] + 2.0 * long]]];
            }
            4 => {
                let by = draw.whole(-9, 9) as f64;
                let to = draw.whole(-9, 9) as f64;
                shift(&mut rings, [by, to]);
            }
            _ => {}
        }
        let numbers = flat_numbers(&rings[0]);
        if let Some(stored) = stored(&numbers) {
            return shape_of(stored);
        }
    }
    shape_of(sound(draw))
}

/// Two shapes, now and then one that question 21 refuses.
pub(super) fn two_shapes(draw: &mut Draw) -> (Shape, Shape) {
    let first = if draw.once_in(12) {
        improper(draw)
    } else {
        shape_of(sound(draw))
    };
    let cut = usize::try_from(first.count).map_or(usize::MAX, |n| n.saturating_mul(2));
    // The numbers of the second begin where those of the first end.
    if first.numbers.len() != cut {
        return (first, shape_of(Vec::new()));
    }
    let second = if draw.once_in(12) {
        improper(draw)
    } else if draw.once_in(3) {
        handed(draw)
    } else {
        second(draw, &first)
    };
    (first, second)
}

/// A number of any size and sign.
fn any_number(draw: &mut Draw) -> f64 {
    match draw.below(8) {
        0 => draw.whole(-9, 9) as f64,
        1 => draw.pick(&[0.0, -0.0, 5e-324, -5e-324, 1e-310, -1e-320]),
        2 => draw.pick(&[f64::MAX, -f64::MAX, 1e308, 1e300, -1e300, 1e154]),
        3 => f64::from_bits(draw.bits() & 0xbfff_ffff_ffff_ffff),
        4 if draw.once_in(2) => not_finite(draw),
        _ => draw.real(-1e4, 1e4),
    }
}

fn edge(draw: &mut Draw) -> Question {
    let shape = handed(draw);
    let last = shape.count.saturating_sub(1);
    let place = match draw.below(6) {
        0 => last,
        1 => shape.count,
        2 => draw.pick(&[
            0,
            shape.count.saturating_add(1),
            128,
            1 << 62,
            1 << 63,
            u64::MAX,
        ]),
        _ => draw.bits() % shape.count.max(1),
    };
    Question::Edge(shape, place)
}

fn area(draw: &mut Draw) -> f64 {
    match draw.below(6) {
        0 => draw.pick(&[0.0, -0.0, -5e-324, 5e-324, -1.0, 1e-320]),
        1 => draw.pick(&[1.7e304, 1.8e304, 1e304, f64::MAX, -1.8e304, -f64::MAX]),
        2 => not_finite(draw),
        3 => -draw.real(0.0, 1e6),
        _ => draw.real(0.0, 1e9),
    }
}

/// Question `index` of a seed.
pub fn question(seed: u64, index: u64) -> Question {
    let draw = &mut Draw::at(!seed, index);
    match draw.below(40) {
        0..=16 => Question::Outline(outline(draw)),
        17..=22 => {
            let shape = handed(draw);
            let point = suited_point(draw, &shape);
            Question::Contains(shape, point)
        }
        23..=28 => {
            let shape = handed(draw);
            let point = suited_point(draw, &shape);
            Question::Nearest(shape, point)
        }
        29..=31 => Question::Measures(handed(draw)),
        32..=34 => {
            let (first, second) = two_shapes(draw);
            Question::Clearance(first, second)
        }
        35 => edge(draw),
        36..=37 => {
            let mut number = || any_number(draw);
            Question::Point([number(), number()], [number(), number()])
        }
        38 => Question::Area(area(draw)),
        _ => edge(draw),
    }
}
