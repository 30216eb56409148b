//! Rings with an edge about the least length, from both sides of it, and what
//! is asked before 27 and after it.

use super::shape::{
    accepted, compass, moved, rectangle, reorder, shift, square, star, write, Point, Ring,
};
use crate::answer::{answer, LEAST_EDGE};
use crate::draw::Draw;
use crate::job::Job;

/// The way along a short edge: of the least length but for last bits, in any
/// direction, or of another length.
fn way(draw: &mut Draw) -> Point {
    let mut way = match draw.below(8) {
        0 | 1 => [LEAST_EDGE, 0.0],
        2 => draw.pick(&[[7e-7, 7e-7], [7.08e-7, 7.08e-7], [8e-7, 6e-7]]),
        3 => [draw.pick(&[1e-9, 9e-7, 2e-6, 1e-5, 5e-324]), 0.0],
        _ => compass(draw.unit() / 8.0).map(|x| x * LEAST_EDGE),
    };
    // The longer side is east.
    way[0] = moved(way[0], draw.whole(-2, 2));
    if draw.once_in(2) {
        way.swap(0, 1);
    }
    way.map(|x| x * draw.pick(&[1.0, -1.0]))
}

/// A vertex beside this one, some last places more or less.
fn beside(draw: &mut Draw, at: Point) -> Point {
    let way = way(draw);
    let mut to = [at[0] + way[0], at[1] + way[1]];
    if draw.once_in(2) {
        let axis = draw.below(2);
        to[axis] = moved(to[axis], draw.whole(-2, 2));
    }
    to
}

/// A ring that has a vertex at the origin, or at the limit of the coordinates.
fn ring(draw: &mut Draw) -> Ring {
    let side = draw.whole(2, 9) as f64;
    let corner = [[0.0, 0.0], [side, 0.0], [side, side], [0.0, side]];
    match draw.below(8) {
        0 | 1 => vec![corner[0], corner[2], corner[3]],
        2 => corner.to_vec(),
        3 => {
            let count = 3 + draw.below(4);
            star(draw, count, 2.0, 9.0)
        }
        // Last places of 1.2e-7.
        4 => {
            let mut rings = [corner.to_vec()];
            shift(
                &mut rings,
                draw.pick(&[[1e9 - 9.0, -1e9], [1e9 - 9.0, 0.0]]),
            );
            let [ring] = rings;
            ring
        }
        // A vertex at the origin, far from the first one.
        5 => vec![[-1e9, 1e9], [0.0, 0.0], [1e9, 1e9]],
        // No area, and crossed.
        6 => vec![[0.0, 0.0], [1.0, side], [2.0, 2.0 * side]],
        _ => vec![corner[0], corner[2], corner[1], corner[3]],
    }
}

/// The ring with a short edge, simple mostly; the closing one now and then.
fn with_hairline(draw: &mut Draw, mut ring: Ring) -> Ring {
    let place = match ring.iter().position(|p| *p == [0.0; 2]) {
        Some(origin) if !draw.once_in(4) => origin,
        _ => draw.below(ring.len()),
    };
    ring.insert(place + 1, ring[place]);
    for _ in 0..4 {
        ring[place + 1] = beside(draw, ring[place]);
        if accepted(&ring) {
            break;
        }
    }
    if draw.once_in(3) {
        ring.rotate_left(place + 1);
    }
    ring
}

/// Another fault in the ring: 4, 5, 7, or closed once or twice.
fn spoil(draw: &mut Draw, ring: &mut Ring) {
    let place = draw.below(ring.len());
    match draw.below(8) {
        0 => ring.insert(place, ring[place]),
        1 | 2 => ring.push(ring[0]),
        3 => ring.extend([ring[0]; 2]),
        4 => ring[place][draw.below(2)] = draw.pick(&[2e9, -moved(1e9, 1)]),
        5 => ring.truncate(2),
        _ => {}
    }
}

/// Question 27, from both sides.
pub fn hairline(draw: &mut Draw, most: usize) -> Vec<u8> {
    let base = match draw.below(24) {
        // About the room.
        0 if most >= 128 => {
            let count = draw.pick(&[31, 32, 126, 127, 128, 129]);
            star(draw, count, 50.0, 60.0)
        }
        _ => ring(draw),
    };
    let mut ring = with_hairline(draw, base);
    if draw.once_in(12) {
        ring = with_hairline(draw, ring);
    }
    if draw.once_in(3) {
        spoil(draw, &mut ring);
    } else if draw.once_in(3) {
        let mut rings = [ring];
        reorder(draw, &mut rings);
        [ring] = rings;
    }
    let distance = draw.pick(&[0.0, 0.0, 0.25, 0.5, 1.0, 1e-7, -1.0, f64::NAN]);
    let about = rectangle([-80.0, -80.0], [80.0, 80.0]);
    match draw.below(12) {
        0..=5 => write(draw.once_in(3), distance, &[ring]),
        6..=8 => write(false, distance, &[about, ring]),
        _ => {
            let mut rings = [other(draw), ring];
            if draw.once_in(2) {
                rings.swap(0, 1);
            }
            write(false, distance, &rings)
        }
    }
}

/// A ring beside one with a short edge: of the two the first fault counts.
fn other(draw: &mut Draw) -> Ring {
    let ring = match draw.below(6) {
        0 => square(3.0)[..2].to_vec(),
        1 => vec![[0.0, 0.0], [2e9, 0.0], [0.0, 1.0]],
        2 => vec![[1.0, 1.0], [1.0, 1.0], [4.0, 1.0], [1.0, 4.0]],
        3 => vec![[1.0, 1.0], [2.0, 2.0], [3.0, 3.0]],
        4 => vec![[0.0, 0.0], [4.0, 4.0], [4.0, 0.0], [0.0, 2.0]],
        _ => square(9.0),
    };
    if draw.once_in(3) {
        with_hairline(draw, ring)
    } else {
        ring
    }
}

/// A square with a corner cut off, as an outline, or about a hole with a notch
/// cut off: by the distance the cut's edge has shrunk to about the least length.
/// As it is, or what that inset leaves, inset again.
pub fn chamfer(draw: &mut Draw, _: usize) -> Vec<u8> {
    let cut = draw.pick(&[1.0, 1.0, 0.5, 2.0, 0.3]);
    let side = 4.0 * cut;
    let outline = vec![
        [0.0, 0.0],
        [side, 0.0],
        [side, side],
        [cut, side],
        [0.0, side - cut],
    ];
    let notched = vec![
        [0.0, 0.0],
        [3.0 * cut, 0.0],
        [3.0 * cut, cut],
        [2.0 * cut, cut],
        [cut, 2.0 * cut],
        [cut, 3.0 * cut],
        [0.0, 3.0 * cut],
    ];
    let about = rectangle([-6.0 * cut, -6.0 * cut], [9.0 * cut, 9.0 * cut]);
    let mut rings = match draw.below(3) {
        0 => vec![about, notched],
        _ => vec![outline],
    };
    // The edge is shorter by so much a unit: twice the tangent of an eighth of a
    // half turn.
    let rate = 2.0 * (core::f64::consts::SQRT_2 - 1.0);
    let left = match draw.below(3) {
        0 => draw.real(0.0, 2.0) * LEAST_EDGE,
        1 => draw.pick(&[1.0, 2.3e-1, 1e-2, 1e-3, 10.0]) * LEAST_EDGE,
        _ => draw.real(0.9, 1.1) * LEAST_EDGE,
    };
    let distance = (cut * core::f64::consts::SQRT_2 - left) / rate;
    if draw.once_in(2) {
        reorder(draw, &mut rings);
    }
    let line = write(false, distance, &rings);
    let first = Job::read(&line).map(|job| answer(&job).result);
    match first {
        Some(Ok(left)) if draw.once_in(2) => {
            let left: Vec<Ring> = left
                .iter()
                .map(|ring| ring.iter().map(|p| p.xy()).collect())
                .collect();
            let outset = left.len() == 1 && draw.once_in(4);
            write(outset, draw.pick(&[0.0, 0.1, 0.01, 1e-9]) * cut, &left)
        }
        _ => line,
    }
}
