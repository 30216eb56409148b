//! Jobs of one outline.

use super::shape::{
    self, accepted, dress, mirror, rectangle, reorder, round, shift, suited, turn, whole_points,
    write, Ring,
};
use super::SMALL;
use crate::draw::Draw;

/// How many vertices this time.
fn some(draw: &mut Draw, most: usize) -> usize {
    if most <= SMALL || draw.once_in(2) {
        most.min(SMALL)
    } else {
        draw.pick(&[24, 48, 127, 128]).min(most)
    }
}

/// A dressed job about an outline of this size.
fn job(draw: &mut Draw, ring: Ring, size: f64) -> Vec<u8> {
    let mut rings = [ring];
    let factor = dress(draw, &mut rings);
    let distance = match draw.below(14) {
        0 => 0.0,
        1 | 2 => factor * draw.whole(1, 6) as f64 / 2.0,
        _ => suited(draw, size * factor),
    };
    write(draw.once_in(3), distance, &rings)
}

pub fn star(draw: &mut Draw, most: usize) -> Vec<u8> {
    let most = some(draw, most);
    let count = 3 + draw.below(most - 2);
    let low = draw.real(0.2, 0.9);
    let ring = shape::star(draw, count, 10.0 * low, 10.0);
    job(draw, ring, 6.0)
}

pub fn regular(draw: &mut Draw, most: usize) -> Vec<u8> {
    let most = some(draw, most);
    let count = 3 + draw.below(most - 2);
    let inner = draw.pick(&[10.0, 5.0, 8.0]);
    let ring = shape::regular(draw, count, 10.0, inner);
    job(draw, ring, 8.0)
}

/// Columns on a common base, upper ends at whole heights.
pub fn columns(draw: &mut Draw, most: usize) -> Vec<u8> {
    let most = some(draw, most);
    let count = 2 + draw.below((most - 2) / 2 - 1);
    let wide = draw.pick(&[1.0, 1.0, 3.0]);
    let mut ring = vec![[0.0, 0.0], [count as f64 * wide, 0.0]];
    let mut right = 0;
    for k in (0..count).rev() {
        let mut height = draw.whole(1, 15);
        height += i64::from(height == right);
        right = height;
        ring.push([(k as f64 + 1.0) * wide, height as f64]);
        ring.push([k as f64 * wide, height as f64]);
    }
    job(draw, ring, wide)
}

/// A bar with equal teeth on one side or on both.
fn toothed(draw: &mut Draw, most: usize) -> Ring {
    let both = most >= SMALL && draw.once_in(2);
    let room = (most - 4) / if both { 8 } else { 4 };
    let teeth = 1 + draw.below(room.max(1));
    let width = draw.whole(1, 4) as f64;
    let space = draw.whole(1, 4) as f64;
    let depth = draw.whole(1, 8) as f64;
    let bar = draw.whole(1, 6) as f64;
    let end = teeth as f64 * (width + space) + space;
    let mut ring = vec![[0.0, 0.0]];
    for k in 0..teeth * usize::from(both) {
        let from = space + k as f64 * (width + space);
        ring.push([from, 0.0]);
        ring.push([from, -depth]);
        ring.push([from + width, -depth]);
        ring.push([from + width, 0.0]);
    }
    ring.push([end, 0.0]);
    ring.push([end, bar]);
    for k in (0..teeth).rev() {
        let from = space + k as f64 * (width + space);
        ring.push([from + width, bar]);
        ring.push([from + width, bar + depth]);
        ring.push([from, bar + depth]);
        ring.push([from, bar]);
    }
    ring.push([0.0, bar]);
    ring
}

pub fn comb(draw: &mut Draw, most: usize) -> Vec<u8> {
    let count = some(draw, most);
    let ring = toothed(draw, count);
    job(draw, ring, 2.0)
}

/// Combs turned and far from the origin: sides on one line but for rounding.
pub fn rotated_comb(draw: &mut Draw, most: usize) -> Vec<u8> {
    let count = some(draw, most);
    let mut rings = [toothed(draw, count)];
    let part = draw.unit();
    turn(&mut rings, part);
    let far = draw.pick(&[0.0, 0.0, 0.0, 1e3, 1e6, 1e8]);
    let by = [draw.real(-far, far), draw.real(-far, far)];
    shift(&mut rings, by);
    reorder(draw, &mut rings);
    let size = draw.pick(&[2.0, 0.1]);
    let distance = suited(draw, size);
    write(draw.once_in(3), distance, &rings)
}

/// Pointed or blunt teeth, equal or not, on one side or on both.
fn pointed(draw: &mut Draw, most: usize) -> Ring {
    let tenths = |draw: &mut Draw, low, high| draw.whole(low, high) as f64 / 10.0;
    let wide = draw.pick(&[1.0, 2.0, 1.5, 3.0]);
    let (high, low) = (tenths(draw, 10, 90), tenths(draw, 2, 50));
    let blunt = draw.once_in(4);
    let teeth = 1 + draw.below(((most - 2) / if blunt { 3 } else { 2 }).max(1));
    let end = wide * teeth as f64;
    let mut ring = vec![[0.0, 0.0]];
    let left = (most + teeth).saturating_sub(3 * teeth + 2) / 2;
    if left > 0 && draw.once_in(2) {
        let below = 1 + draw.below(left);
        let depth = tenths(draw, 10, 90);
        let step = end / below as f64;
        for k in 0..below {
            ring.push([step * (k as f64 + 0.5), -depth]);
            ring.push([step * (k as f64 + 1.0), 0.0]);
        }
    } else {
        ring.push([end, 0.0]);
    }
    let alike = !draw.once_in(4);
    for k in (0..teeth).rev() {
        let from = wide * k as f64;
        let tip = if alike { high } else { tenths(draw, 10, 90) };
        if blunt {
            ring.push([from + wide * 0.75, tip]);
            ring.push([from + wide * 0.25, tip]);
        } else {
            ring.push([from + wide * 0.5, tip]);
        }
        if k > 0 {
            ring.push([from, low.min(tip)]);
        }
    }
    ring
}

pub fn saw(draw: &mut Draw, most: usize) -> Vec<u8> {
    let count = some(draw, most);
    let mut rings = [pointed(draw, count)];
    let distance = draw.whole(1, 30) as f64 / 10.0;
    let factor = if draw.once_in(3) {
        dress(draw, &mut rings)
    } else {
        let factor = mirror(draw, &mut rings);
        reorder(draw, &mut rings);
        factor
    };
    write(draw.once_in(4), distance * factor, &rings)
}

/// The same on both sides of an axis, in tenths: notches that face each other,
/// their sides equal but for rounding.
pub fn mirrored(draw: &mut Draw, most: usize) -> Vec<u8> {
    let tenths = |draw: &mut Draw, low, high| draw.whole(low, high) as f64 / 10.0;
    let half = 2 + draw.below(most.min(SMALL) / 2 - 1).min(3);
    let off = draw.pick(&[0.1, 0.2, 0.3]);
    let mut ring = Vec::new();
    for _ in 0..40 {
        ring = (0..half)
            .map(|_| [tenths(draw, 0, 60), tenths(draw, 0, 90)])
            .collect();
        ring.sort_by(|p, q| p[1].total_cmp(&q[1]));
        let back: Ring = ring.iter().rev().map(|p| [-p[0] - off, p[1]]).collect();
        ring.extend(back);
        if accepted(&ring) {
            break;
        }
    }
    let mut rings = [ring];
    if draw.once_in(2) {
        rings[0].iter_mut().for_each(|p| p.swap(0, 1));
    }
    let distance = tenths(draw, 1, 40);
    write(draw.once_in(4), distance, &rings)
}

/// Small outlines at the limits of the coordinates: the tolerance is about a
/// metre, a coordinate's last bit about a tenth of a micrometre.
pub fn distant(draw: &mut Draw, most: usize) -> Vec<u8> {
    let count = most.min(24);
    let ring = match draw.below(4) {
        0 => pointed(draw, count),
        1 => toothed(draw, count),
        2 => whole_points(draw, 7.min(count), 14),
        _ => shape::star(draw, 9.min(count), 2.0, 9.0),
    };
    let mut rings = vec![ring];
    let holed = draw.once_in(4);
    if holed {
        rings[0] = shape::star(draw, 8, 3.0, 9.0);
        rings.push(vec![[0.0, 0.0], [0.5, 0.0], [0.25, 0.5]]);
    }
    let by = [draw.pick(&[9.9e8, -9.9e8, 1e7]), draw.pick(&[9.9e8, 0.0])];
    shift(&mut rings, by);
    reorder(draw, &mut rings);
    let size = draw.pick(&[4.0, 0.5, 1e-6]);
    let distance = suited(draw, size);
    write(!holed && draw.once_in(3), distance, &rings)
}

/// Two rooms and a passage between them.
pub fn waist(draw: &mut Draw, _: usize) -> Vec<u8> {
    let (left, right) = (draw.real(2.0, 10.0), draw.real(2.0, 10.0));
    let narrow = draw.real(0.05, 2.0);
    let long = draw.real(0.5, 6.0);
    let off = draw.real(-0.5, 0.5);
    let (near, far) = (left + long, left + long + right);
    let (low, high) = (off - narrow / 2.0, off + narrow / 2.0);
    let mut ring = rectangle([0.0, -left / 2.0], [left, left / 2.0]);
    ring.splice(
        2..2,
        [
            [left, low],
            [near, low],
            [near, -right / 2.0],
            [far, -right / 2.0],
            [far, right / 2.0],
            [near, right / 2.0],
            [near, high],
            [left, high],
        ],
    );
    let mut rings = [ring];
    if draw.once_in(2) {
        round(&mut rings, 4.0);
    }
    let [ring] = rings;
    job(draw, ring, 2.0)
}

/// Outline of squares of a grid grown from one square, none left out within.
pub fn squares(draw: &mut Draw, most: usize) -> Vec<u8> {
    const SIDE: usize = 12;
    let most = some(draw, most);
    let mut filled = [[false; SIDE]; SIDE];
    filled[SIDE / 2][SIDE / 2] = true;
    let mut ring = rectangle([6.0, 6.0], [7.0, 7.0]);
    for _ in 0..6 * (2 + draw.below(most)) {
        let (x, y) = (1 + draw.below(SIDE - 2), 1 + draw.below(SIDE - 2));
        let near = filled[x - 1][y] || filled[x + 1][y] || filled[x][y - 1] || filled[x][y + 1];
        if filled[x][y] || !near {
            continue;
        }
        filled[x][y] = true;
        match trace(&filled) {
            Some(traced) if traced.len() <= most => ring = traced,
            _ => filled[x][y] = false,
        }
    }
    let mut rings = [ring];
    if draw.once_in(4) {
        let [ring] = rings;
        return job(draw, ring, 1.0);
    }
    let factor = mirror(draw, &mut rings);
    reorder(draw, &mut rings);
    let distance = factor * draw.pick(&[0.25, 0.5, 0.6, 0.75, 1.0, 1.5, 0.1]);
    write(draw.once_in(3), distance, &rings)
}

/// Corners of the outline of filled squares; `None` where it is not one ring
/// without touching corners.
fn trace<const S: usize>(filled: &[[bool; S]; S]) -> Option<Ring> {
    let at = |x: i64, y: i64| {
        let inside = 0 <= x && x < S as i64 && 0 <= y && y < S as i64;
        inside && filled[x as usize][y as usize]
    };
    let mut sides = 0;
    let mut first = None;
    for x in 0..=S as i64 {
        for y in 0..=S as i64 {
            let around = [at(x - 1, y - 1), at(x, y - 1), at(x - 1, y), at(x, y)];
            if around == [true, false, false, true] || around == [false, true, true, false] {
                return None;
            }
            sides += usize::from(at(x, y) != at(x, y - 1));
            sides += usize::from(at(x, y) != at(x - 1, y));
            if first.is_none() && at(x, y) {
                first = Some((x, y));
            }
        }
    }
    let begin = first?;
    let (mut x, mut y) = begin;
    let (mut east, mut north) = (1, 0);
    let mut ring = Vec::new();
    loop {
        sides -= 1;
        x += east;
        y += north;
        // Filled squares stay on the left.
        let ahead = |east: i64, north: i64| {
            let (left, right) = match (east, north) {
                (1, 0) => (at(x, y), at(x, y - 1)),
                (0, 1) => (at(x - 1, y), at(x, y)),
                (-1, 0) => (at(x - 1, y - 1), at(x - 1, y)),
                _ => (at(x, y - 1), at(x - 1, y - 1)),
            };
            left && !right
        };
        let (left, straight) = (ahead(-north, east), ahead(east, north));
        if left {
            (east, north) = (-north, east);
        } else if !straight {
            (east, north) = (north, -east);
        }
        if left || !straight {
            ring.push([x as f64, y as f64]);
        }
        if (x, y) == begin {
            // One ring only: every side was walked.
            return (sides == 0).then_some(ring);
        }
    }
}

/// Whole points.
pub fn grid(draw: &mut Draw, most: usize) -> Vec<u8> {
    let count = 3 + draw.below(most.min(9) - 2);
    let side = draw.pick(&[4, 6, 9, 14]);
    let mut rings = [whole_points(draw, count, side)];
    let factor = if draw.once_in(4) {
        mirror(draw, &mut rings)
    } else {
        1.0
    };
    let parts = draw.pick(&[1.0, 2.0, 4.0, 8.0]);
    let distance = draw.whole(1, side * 2) as f64 / parts * factor;
    write(draw.once_in(3), distance, &rings)
}

/// Outlines at the limits of the coordinates.
pub fn far(draw: &mut Draw, most: usize) -> Vec<u8> {
    let (ring, size): (Ring, f64) = match draw.below(5) {
        0 => (vec![[0.0, 0.0], [1e9, 0.0], [0.0, 1e9]], 1e9),
        1 => (rectangle([-1e9, -1e9], [1e9, 1e9]), 1e9),
        2 => {
            let count = 3 + draw.below(most.min(SMALL) - 2);
            (shape::star(draw, count, 2e8, 1e9), 1e9)
        }
        3 => {
            let at = draw.pick(&[1e9 - 8.0, -1e9, 450_000.0, 123_456_789.0]);
            let mut rings = [shape::star(draw, 5, 1.0, 4.0)];
            shift(&mut rings, [4.0 + at, 4.0 + at]);
            let [ring] = rings;
            (ring, 4.0)
        }
        _ => (rectangle([-1e9, -1.0], [1e9, 1.0]), 1.0),
    };
    let distance = draw.pick(&[0.0, 1e-9, 1e-3, 1.0, 0.1, 0.3, 1.0, 1e12]);
    let distance = if draw.once_in(2) {
        distance * size
    } else {
        distance
    };
    write(draw.once_in(2), distance.min(1e12), &[ring])
}

/// Nearly flat outlines: near a line, needles, short edges.
pub fn thin(draw: &mut Draw, _: usize) -> Vec<u8> {
    let ring: Ring = match draw.below(5) {
        0 => {
            let tilt = draw.pick(&[1e-3, 1e-6, 1e-9, 1e-11]);
            let count = 2 + draw.below(5);
            let mut ring = vec![[0.0, 0.0]];
            for k in 0..count {
                ring.push([k as f64 + 1.0, tilt * draw.real(-1.0, 0.0)]);
            }
            ring.push([count as f64 / 2.0, draw.pick(&[1.0, 0.1, tilt])]);
            ring
        }
        1 => {
            let thin = draw.pick(&[1e-3, 1e-6, 1e-9]);
            vec![[0.0, 0.0], [1.0, -thin], [1.0, thin]]
        }
        2 => vec![
            [0.0, 0.0],
            [1e6, 0.0],
            [2e6, draw.pick(&[1.0, 2.0, 3.0, 10.0])],
        ],
        3 => {
            let short = draw.pick(&[1e-9, 1e-6, 1e-12]);
            vec![
                [0.0, 0.0],
                [4.0, 0.0],
                [4.0 + short, short],
                [4.0, 4.0],
                [0.0, 4.0],
            ]
        }
        _ => {
            // A vertex nearly on an edge.
            let near = draw.pick(&[1e-6, 1e-9, 1e-13, 1e-15]);
            vec![[0.0, 0.0], [8.0, 0.0], [8.0, 8.0], [4.0, near], [0.0, 8.0]]
        }
    };
    let distance = draw.pick(&[0.0, 1e-9, 1e-3, 0.1, 0.5, 1.0, 1e6]);
    let mut rings = [ring];
    if draw.once_in(2) {
        reorder(draw, &mut rings);
    }
    write(draw.once_in(2), distance, &rings)
}

/// Outlines about the room.
pub fn wide(draw: &mut Draw, _: usize) -> Vec<u8> {
    let count = draw.pick(&[126, 127, 128]);
    let low = draw.pick(&[3.0, 8.0, 9.9]);
    let ring = shape::star(draw, count, low, 10.0);
    if !accepted(&ring) {
        return star(draw, 64);
    }
    job(draw, ring, 6.0)
}
