//! Questions about the edges at which two rings meet, from a seed. The rings
//! need not be outlines: they may cross themselves, run clockwise, be closed.

use super::questions::{flat_numbers, improper, shape_of, two_shapes};
use super::shape::{mirror, moved, rectangle, reorder, scale, shift, square, star, Point, Ring};
use crate::answer::ROOM;
use crate::draw::Draw;
use crate::outlines::{Question, Shape};

/// How many vertices: mostly few, now and then as many as there is room for.
fn count(draw: &mut Draw) -> usize {
    match draw.below(12) {
        0 => 3 + draw.below(22),
        1 if draw.once_in(2) => draw.pick(&[ROOM, ROOM, ROOM - 1, 64]),
        _ => 3 + draw.below(6),
    }
}

/// Few points of a small grid: crossings, touches, overlaps, repeats.
fn on_grid(draw: &mut Draw) -> [Ring; 2] {
    let side = draw.pick(&[2, 3, 4, 6, 9]);
    let apart = draw.pick(&[0, 0, 0, side / 2, side, side + 1]);
    [0, apart].map(|east| {
        let count = 3 + draw.below(6);
        let mut one = |from: i64| draw.whole(from, from + side) as f64;
        (0..count).map(|_| [one(east), one(0)]).collect()
    })
}

/// Two stars about one point, or about two: many edges meet, or one star is
/// within the other, or they lie apart.
pub(super) fn stars(draw: &mut Draw) -> [Ring; 2] {
    let (n, m) = match draw.below(20) {
        0 => (ROOM, ROOM),
        1..=5 => [count(draw); 2].into(),
        _ => (count(draw), count(draw)),
    };
    let mut rings = [star(draw, n, 4.0, 9.0), star(draw, m, 4.0, 9.0)];
    match draw.below(6) {
        0 => scale(&mut rings[1..], 0.1),
        1 => scale(&mut rings[1..], 4.0),
        2 => shift(&mut rings[1..], draw.pick(&[[20.0, 0.0], [14.0, 13.0]])),
        3 => shift(&mut rings[1..], [draw.real(0.0, 14.0), draw.real(0.0, 9.0)]),
        _ => {}
    }
    rings
}

/// Two rectangles: at a corner, along a side, corner to side, one within the
/// other, side on side, crossed; more vertices on a side of one of them.
pub(super) fn rectangles(draw: &mut Draw) -> [Ring; 2] {
    let low = [-4, -4].map(|from| draw.whole(from, 4) as f64);
    let high = low.map(|x| x + draw.whole(1, 6) as f64);
    let mut rings = [square(4.0), rectangle(low, high)];
    let more = draw.below(3);
    let ring = &mut rings[draw.below(2)];
    for _ in 0..more {
        let place = draw.below(ring.len());
        let [a, b] = [ring[place], ring[(place + 1) % ring.len()]];
        ring.insert(place + 1, between(a, b, 0.5));
    }
    rings
}

fn between(a: Point, b: Point, part: f64) -> Point {
    [0, 1].map(|axis| a[axis] + part * (b[axis] - a[axis]))
}

/// A star, and a ring of which a vertex lies on a vertex or an edge of it, or
/// beside that by a last bit.
pub(super) fn touching(draw: &mut Draw) -> [Ring; 2] {
    let n = count(draw);
    let first = star(draw, n, 4.0, 9.0);
    let place = draw.below(n);
    let part = draw.pick(&[0.0, 0.5, 0.25, 1.0 / 3.0]);
    let at = between(first[place], first[(place + 1) % n], part);
    let tip = at.map(|x| moved(x, draw.pick(&[0, 0, -1, 1])));
    let far = between([0.0, 0.0], at, draw.pick(&[3.0, 1.5, 0.2]));
    let m = draw.pick(&[2, 2, 3, 5, 9]);
    let mut second: Ring = star(draw, m, 0.1, 1.0);
    for p in &mut second {
        *p = [p[0] + far[0], p[1] + far[1]];
    }
    second.insert(draw.below(m), tip);
    [first, second]
}

/// One coordinate of one ring moved by at most three places.
fn nudge(draw: &mut Draw, rings: &mut [Ring; 2]) {
    let ring = &mut rings[draw.below(2)];
    let (place, axis) = (draw.below(ring.len()), draw.below(2));
    ring[place][axis] = moved(ring[place][axis], draw.whole(-3, 3));
}

/// Both rings changed alike, then each begun elsewhere, walked backwards or
/// closed, and exchanged: now and then each.
pub(super) fn dressed(draw: &mut Draw, mut rings: [Ring; 2]) -> [Ring; 2] {
    if draw.once_in(2) {
        mirror(draw, &mut rings);
    }
    if draw.once_in(4) {
        scale(&mut rings, draw.pick(&[0.1, 1e-9, 1e-150, 2e4]));
    }
    if draw.once_in(5) {
        shift(
            &mut rings,
            draw.pick(&[[0.1, 0.3], [450_000.0, 5_500_000.0], [-9e8, 9e8]]),
        );
    }
    reorder(draw, &mut rings);
    if draw.once_in(5) {
        nudge(draw, &mut rings);
    }
    if draw.once_in(2) {
        rings.swap(0, 1);
    }
    for ring in &mut rings {
        ring.truncate(ROOM);
    }
    rings
}

/// Question 21 refuses the shape; its numbers are as many as before, or those of
/// two vertices.
pub(super) fn spoil(draw: &mut Draw, shape: &mut Shape) {
    if draw.once_in(4) {
        *shape = shape_of(shape.numbers[..4].to_vec());
    } else {
        let place = draw.below(shape.numbers.len());
        shape.numbers[place] = draw.pick(&[moved(1e9, 1), -moved(1e9, 1), f64::NAN]);
    }
}

/// Question `index` of a seed about the edges at which two rings meet.
pub fn pair(seed: u64, index: u64) -> Question {
    let draw = &mut Draw::at(seed.rotate_left(16), index);
    let rings = match draw.below(12) {
        0..=3 => on_grid(draw),
        4..=6 => stars(draw),
        7..=8 => rectangles(draw),
        9..=10 => touching(draw),
        _ => {
            let (first, second) = two_shapes(draw);
            return Question::Pair(first, second);
        }
    };
    let [mut first, mut second] = dressed(draw, rings).map(|ring| shape_of(flat_numbers(&ring)));
    match draw.below(40) {
        // Past the vertices of the second there may be numbers that none reads.
        0..=3 => {
            let past = draw.pick(&[0.0, f64::NAN, 1e300]);
            second.numbers.extend(vec![past; 1 + draw.below(4)]);
        }
        4 => spoil(draw, &mut first),
        5 => second = improper(draw),
        _ => {}
    }
    Question::Pair(first, second)
}
