//! Jobs of an outer ring with holes.

use super::shape::{
    self, accepted, accepted_region, dress, mirror, rectangle, reorder, round, shift, square, star,
    suited, whole_points, write, Point, Ring,
};
use super::SMALL;
use crate::draw::Draw;

/// Whole points in a square, a hole of whole points in it.
pub fn grid(draw: &mut Draw, most: usize) -> Vec<u8> {
    let side = draw.pick(&[6, 9, 14]);
    let mut rings = Vec::new();
    for _ in 0..20 {
        let outer = if draw.once_in(2) {
            square(side as f64)
        } else {
            let count = 3 + draw.below(4);
            whole_points(draw, count, side)
        };
        let left = (most - outer.len()).min(6);
        let count = 3 + draw.below(left - 2);
        let mut holes = vec![whole_points(draw, count, side - 2)];
        if draw.once_in(3) && outer.len() + count + 3 <= most {
            holes.push(whole_points(draw, 3, side - 2));
        }
        shift(&mut holes, [1.0, 1.0]);
        rings = vec![outer];
        rings.append(&mut holes);
        if accepted_region(&rings) {
            break;
        }
    }
    let factor = if draw.once_in(4) {
        mirror(draw, &mut rings)
    } else {
        1.0
    };
    let parts = draw.pick(&[1.0, 2.0, 2.0, 4.0]);
    let distance = draw.whole(1, side) as f64 / parts * factor;
    write(false, distance, &rings)
}

/// A hole within a square of the given side about a point.
fn hole(draw: &mut Draw, at: Point, side: f64, most: usize, whole: bool) -> Ring {
    let half = side / 2.0;
    let ring = match draw.below(4) {
        0 => rectangle([-half, -half], [half, half]),
        1 => vec![[-half, -half], [half, -half], [0.0, half]],
        _ => {
            let count = 3 + draw.below(most.clamp(3, 32) - 2);
            let low = draw.real(0.2, 0.95);
            star(draw, count, half * low, half)
        }
    };
    let mut rings = [ring];
    if whole {
        round(&mut rings, 1.0);
    }
    shift(&mut rings, at);
    let [mut ring] = rings;
    ring.dedup();
    if ring.len() > most {
        ring.truncate(3);
    }
    ring
}

/// An outer ring about a square.
fn outer(draw: &mut Draw, side: f64, out: f64, most: usize) -> Ring {
    let (low, high) = (-out, side + out);
    let mut ring = rectangle([low, low], [high, high]);
    match draw.below(6) {
        0 if most > SMALL => {
            let count = 8 + draw.below(16);
            let mut rings = [shape::regular(draw, count, side * 0.8, side * 0.8)];
            shift(&mut rings, [side / 2.0, side / 2.0]);
            let [round] = rings;
            ring = round;
        }
        // A point outward, or a notch inward.
        1 => ring.insert(2, [high + side / 4.0, side / 2.0]),
        2 if most > SMALL => {
            let deep = draw.real(0.0, out + side * 0.05);
            ring.splice(
                2..2,
                [
                    [high, side * 0.45],
                    [high - deep, side * 0.5],
                    [high, side * 0.55],
                ],
            );
        }
        _ => {}
    }
    ring
}

/// Holes in the cells of a grid of so many rows.
fn in_cells(draw: &mut Draw, rows: usize, most: usize) -> Vec<u8> {
    let whole = draw.once_in(2);
    let cell = if whole {
        draw.whole(4, 20) as f64 * 2.0
    } else {
        draw.real(4.0, 40.0)
    };
    let out = draw.pick(&[0.0, 1.0, 1.0, cell / 4.0]);
    let mut rings = vec![outer(draw, rows as f64 * cell, out, most)];
    let mut cells: Vec<usize> = (0..rows * rows).collect();
    let alike = draw.once_in(3);
    let part = draw.real(0.3, 0.98);
    for _ in 0..1 + draw.below(cells.len().min(8)) {
        let left = most - rings.iter().map(Vec::len).sum::<usize>();
        if left < 3 {
            break;
        }
        let part = if alike { part } else { draw.real(0.3, 0.98) };
        let place = draw.below(cells.len());
        let place = cells.swap_remove(place);
        let at = [
            ((place % rows) as f64 + 0.5) * cell,
            ((place / rows) as f64 + 0.5) * cell,
        ];
        let room = if draw.once_in(4) { 32 } else { 8 };
        let mut ring = hole(draw, at, cell * part, left.min(room), whole);
        if !accepted(&ring) {
            ring = vec![at, [at[0] + 1.0, at[1]], [at[0], at[1] + 1.0]];
        }
        rings.push(ring);
    }
    let factor = match draw.below(4) {
        0 => dress(draw, &mut rings),
        1 => {
            reorder(draw, &mut rings);
            1.0
        }
        _ => 1.0,
    };
    let distance = match draw.below(12) {
        0 => 0.0,
        1 | 2 if whole => factor * draw.whole(1, 6) as f64 / 2.0,
        _ => suited(draw, cell * 0.25 * factor),
    };
    write(false, distance, &rings)
}

/// One to four holes.
pub fn cells(draw: &mut Draw, most: usize) -> Vec<u8> {
    let rows = 1 + draw.below(2);
    in_cells(draw, rows, most)
}

/// Up to eight holes.
pub fn many_cells(draw: &mut Draw, most: usize) -> Vec<u8> {
    in_cells(draw, 3, most)
}

/// Tiny holes in large squares: vertices that become one in the front.
pub fn tiny_hole(draw: &mut Draw, _: usize) -> Vec<u8> {
    let far = draw.pick(&[1e9, 5e8, 1e6, 100.0]);
    let tiny = draw.pick(&[1e-9, 1e-6, 2e-6, 1e-5, 1e-3]);
    let outer = if draw.once_in(2) {
        rectangle([-far, -far], [far, far])
    } else {
        vec![[0.0, -far], [far, 0.0], [0.0, far], [-far, 0.0]]
    };
    let at = draw.pick(&[[0.0, 0.0], [0.0, 0.0], [0.5, 0.25]]);
    let hole = vec![
        at,
        [at[0] + tiny, at[1]],
        [at[0] + draw.pick(&[0.0, tiny, 2.0 * tiny]), at[1] + tiny],
    ];
    let mut rings = [outer, hole];
    if draw.once_in(3) {
        reorder(draw, &mut rings);
    }
    let distance = draw.pick(&[1.0, 0.5, 1e-9, far / 4.0, 0.0]);
    write(false, distance, &rings)
}
