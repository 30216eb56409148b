//! Families made for numbers and places that ordinary outlines do not meet.

use super::shape::{compass, mirror, rectangle, reorder, shift, star, turn, write, Ring};
use crate::draw::Draw;

/// Two notches that point at each other: 18 where their tips meet, a division
/// and a join undoing each other.
pub fn hourglass(draw: &mut Draw, _: usize) -> Vec<u8> {
    let half = draw.whole(1, 4) as f64;
    let low = draw.whole(1, 6) as f64;
    let gap = draw.pick(&[1.0, 1.0, 2.0, 0.5]);
    let high = low + gap + draw.whole(1, 8) as f64;
    let mut rings = [vec![
        [0.0, 0.0],
        [half, low],
        [2.0 * half, 0.0],
        [2.0 * half, high],
        [half, low + gap],
        [0.0, high],
    ]];
    let factor = mirror(draw, &mut rings);
    if draw.once_in(4) {
        reorder(draw, &mut rings);
    }
    let distance = factor * gap * draw.pick(&[0.25, 0.5, 0.5, 0.75, 1.0, 2.0]);
    write(false, distance, &rings)
}

/// Triangles in whole numbers with a whole radius of the circle within, shrunk
/// by about that radius: a piece of 3 vertices whose ends are one point is 4.
pub fn triangle(draw: &mut Draw, _: usize) -> Vec<u8> {
    let (ring, radius) = draw.pick(&[
        ([[3.0, 0.0], [0.0, 4.0], [0.0, 0.0]], 1.0),
        ([[0.0, 1.0], [4.0, 4.0], [0.0, 4.0]], 1.0),
        ([[5.0, 0.0], [0.0, 12.0], [0.0, 0.0]], 2.0),
        ([[8.0, 0.0], [0.0, 15.0], [0.0, 0.0]], 3.0),
        ([[0.0, 0.0], [14.0, 0.0], [5.0, 12.0]], 4.0),
        ([[0.0, 0.0], [6.0, 0.0], [3.0, 4.0]], 1.5),
    ]);
    let mut rings = [ring.to_vec()];
    let factor = mirror(draw, &mut rings);
    if draw.once_in(3) {
        reorder(draw, &mut rings);
    }
    let off = draw.pick(&[0.0, 0.0, 1e-15, -1e-15, 1e-12, -1e-9]);
    write(false, factor * (radius + off), &rings)
}

/// An inlet that closes over a pocket which shrinks to nothing just at the
/// distance; the outline may then pass 10⁹.
pub fn pocket(draw: &mut Draw, _: usize) -> Vec<u8> {
    let mut rings = if draw.once_in(2) {
        [vec![
            [4.0, 3.0],
            [2.0, 3.0],
            [0.0, 6.0],
            [0.0, 0.0],
            [5.0, 0.0],
            [4.0, 6.0],
            [3.5, 5.0],
            [4.0, 5.0],
        ]]
    } else {
        [vec![
            [0.0, 0.0],
            [6.0, 0.0],
            [6.0, 6.0],
            [3.5, 6.0],
            [3.5, 5.0],
            [4.0, 5.0],
            [4.0, 3.0],
            [2.0, 3.0],
            [2.0, 5.0],
            [2.5, 5.0],
            [2.5, 6.0],
            [0.0, 6.0],
        ]]
    };
    let by = draw.below(rings[0].len());
    rings[0].rotate_left(by * draw.below(2));
    let far = draw.pick(&[1e9 - 6.0, 1e9 - 6.0, 0.0, 1e9 - 64.0]);
    shift(&mut rings, [far, 0.0]);
    let distance = draw.pick(&[1.0, 1.0, 0.5, 0.75, 1.25]);
    write(true, distance, &rings)
}

/// A tooth between levels that differ: its sides end on one line facing
/// opposite ways, and the edges about it are parallel.
pub fn spike(draw: &mut Draw, _: usize) -> Vec<u8> {
    let (left, right) = (draw.whole(3, 30) as f64, draw.whole(3, 30) as f64);
    let high = left.max(right) + draw.whole(1, 20) as f64;
    let (from, wide) = (draw.whole(3, 20) as f64, draw.pick(&[0.5, 1.0, 2.0]));
    let end = from + wide + draw.whole(3, 20) as f64;
    let mut rings = vec![vec![
        [0.0, 0.0],
        [end, 0.0],
        [end, right],
        [from + wide, right],
        [from + wide, high],
        [from, high],
        [from, left],
        [0.0, left],
    ]];
    let holed = draw.once_in(3);
    if holed {
        rings.push(vec![[1.5, 1.25], [1.75, 1.25], [1.5, 1.5]]);
    }
    let factor = mirror(draw, &mut rings);
    if draw.once_in(3) {
        let part = draw.unit();
        turn(&mut rings, part);
    }
    reorder(draw, &mut rings);
    let distance = draw.pick(&[0.25, 0.5, 0.75, 1.0, 1.5]) * factor;
    write(!holed && draw.once_in(4), distance, &rings)
}

/// Three edges that turn by less than the parallel limit each and by more
/// between them, with equal teeth between: the middle edge goes and the vertex
/// that a removed tooth left, halfway between its ends, stays.
pub fn straight(draw: &mut Draw, _: usize) -> Vec<u8> {
    let long = draw.pick(&[1e3, 2.5e3, 1e5, 1e6]);
    let turns = draw.pick(&[0.7e-12, 0.6e-12, 0.9e-12, 0.4e-12]);
    let step = draw.pick(&[0.0, 1e-6, 1e-3, 0.01, 0.02]);
    let wide = draw.pick(&[1.0, 2.0, 2.5]);
    let high = draw.pick(&[5.0, 6.0, 0.0]);
    let first = -turns * (long - wide);
    let second = first - step;
    let third = second - 2.0 * turns * long;
    let mut ring: Ring = vec![
        [long + wide, first],
        [long + wide, high],
        [long, high],
        [long, second],
        [0.0, third],
        [0.0, -long],
        [3.0 * long, -long],
        [3.0 * long, 0.0],
        [2.0 * long + wide, 0.0],
        [2.0 * long + wide, 6.0],
        [2.0 * long, 6.0],
        [2.0 * long, 0.0],
    ];
    if draw.once_in(2) {
        // The right side can go.
        ring.remove(6);
    }
    if draw.once_in(6) {
        let by = draw.below(ring.len());
        ring.rotate_left(by);
    }
    let distance = wide * draw.pick(&[1.0, 1.0, 0.75, 2.0, 0.5]);
    write(false, distance, &[ring])
}

/// Sides of stairs two wide, out and back.
fn stairs(bends: usize, leg: f64) -> Ring {
    let mut path = vec![[0.0, 0.0]];
    for k in 0..=bends {
        let [x, y] = path[k];
        path.push(if k % 2 == 0 {
            [x + leg, y]
        } else {
            [x, y + leg]
        });
    }
    // To the right of a leg: east legs have even numbers.
    let normal = |leg: usize| {
        if leg % 2 == 0 {
            [0.0, -1.0]
        } else {
            [1.0, 0.0]
        }
    };
    let last = bends;
    let mut right = Vec::new();
    let mut left = Vec::new();
    for (k, p) in path.iter().enumerate() {
        let mut out = normal(k.min(last));
        if k > 0 && k <= last {
            let before = normal(k - 1);
            out = [out[0] + before[0], out[1] + before[1]];
        }
        right.push([p[0] + out[0], p[1] + out[1]]);
        left.push([p[0] - out[0], p[1] - out[1]]);
    }
    left.reverse();
    right.extend(left);
    right
}

/// A room with a hole, and stairs of one width behind a narrow passage: they
/// are flat at half their width, and above 32 vertices that is 6.
pub fn corridor(draw: &mut Draw, _: usize) -> Vec<u8> {
    let bends = if draw.once_in(2) {
        draw.whole(13, 18) as usize
    } else {
        draw.whole(1, 18) as usize
    };
    let leg = draw.pick(&[4.0, 3.0, 5.0]);
    let mut ring = stairs(bends, leg);
    ring.extend([
        [0.0, 0.5],
        [-1.0, 0.5],
        [-1.0, 5.0],
        [-11.0, 5.0],
        [-11.0, -5.0],
        [-1.0, -5.0],
        [-1.0, -0.5],
        [0.0, -0.5],
    ]);
    let by = draw.below(ring.len());
    ring.rotate_left(by * draw.below(2));
    let hole = vec![[-6.0, -0.5], [-5.0, -0.5], [-6.0, 0.5]];
    let mut rings = vec![ring, hole];
    if draw.once_in(4) {
        // A pocket of the room that vanishes with the stairs, or before.
        let at = draw.pick(&[2.0, 1.5]);
        let place = rings[0].iter().position(|p| *p == [-11.0, -5.0]);
        let place = place.expect("a corner of the room");
        let pocket = [
            [-7.5, -5.0],
            [-7.5, -6.0],
            [-7.5 + at / 2.0 - 0.25, -6.0],
            [-7.5 + at / 2.0 - 0.25, -6.0 - at],
            [-7.5 - at / 2.0 - 0.25, -6.0 - at],
            [-7.5 - at / 2.0 - 0.25, -6.0],
            [-8.0, -6.0],
            [-8.0, -5.0],
        ];
        let after = rings[0].len() - 1 == place;
        let back = pocket.iter().rev().copied();
        if after {
            rings[0].extend(back);
        } else {
            rings[0].splice(place + 1..place + 1, back);
        }
    }
    let factor = mirror(draw, &mut rings);
    let distance = draw.pick(&[1.0, 1.0, 1.0, 0.75, 1.25]) * factor;
    write(false, distance, &rings)
}

/// A room with holes, and pointed teeth behind a narrow passage. Where two
/// notches reach the bar at once, rounding may pass one by; its ring is then
/// turned round and counts as a hole.
pub fn saw_room(draw: &mut Draw, _: usize) -> Vec<u8> {
    let holes = draw.pick(&[8, 8, 8, 8, 1, 2, 7]);
    let teeth = if holes < 8 && draw.once_in(2) {
        draw.whole(15, 20)
    } else {
        draw.whole(2, 4)
    };
    let exact = draw.once_in(2);
    let (high, low) = if exact {
        (1.6, 0.3)
    } else {
        (
            draw.whole(20, 80) as f64 / 10.0,
            draw.whole(5, 30) as f64 / 10.0,
        )
    };
    let wide = if exact { 1.0 } else { 2.0 };
    let end = wide * teeth as f64;
    let middle = draw.pick(&[0.3, 0.5, 0.7]) * end;
    let mut ring: Ring = vec![
        [0.0, 0.0],
        [middle - 0.1, 0.0],
        [middle - 0.1, -3.0],
        [-40.0, -3.0],
        [-40.0, -20.0],
        [40.0, -20.0],
        [40.0, -3.0],
        [middle + 0.1, -3.0],
        [middle + 0.1, 0.0],
        [end, 0.0],
    ];
    for k in (0..teeth).rev() {
        let from = wide * k as f64;
        ring.push([from + wide / 2.0, high]);
        if k > 0 {
            ring.push([from, low]);
        }
    }
    let mut rings = vec![ring];
    for k in 0..holes {
        let east = -35.0 + 9.0 * f64::from(k);
        rings.push(vec![[east, -12.0], [east + 1.0, -12.0], [east, -11.0]]);
    }
    let distance = if exact {
        0.9
    } else {
        draw.whole(3, 20) as f64 / 10.0
    };
    let factor = if draw.once_in(4) {
        mirror(draw, &mut rings)
    } else {
        1.0
    };
    write(false, distance * factor, &rings)
}

/// Outlines of up to 128 vertices whose first event is a split: no free slot.
pub fn full(draw: &mut Draw, _: usize) -> Vec<u8> {
    // Two round rooms with a passage between them.
    let count = draw.pick(&[123, 124, 124, 124, 120]);
    let (first, second) = (count / 2, count - count / 2);
    let arc = |count: usize, at: f64, from: f64| -> Ring {
        (0..count)
            .map(|k| {
                let part = (k as f64 + 0.5) / count as f64;
                let [east, north] = compass(from + 0.05 + part * 0.9);
                [at + 50.0 * east, 50.0 * north]
            })
            .collect()
    };
    let narrow = draw.real(0.5, 4.0);
    let mut ring = arc(first, 0.0, 0.0);
    ring.extend([[55.0, -narrow], [65.0, -narrow]]);
    ring.extend(arc(second, 120.0, 0.5));
    ring.extend([[65.0, narrow], [55.0, narrow]]);
    let mut rings = [ring];
    reorder(draw, &mut rings);
    rings[0].truncate(128);
    let distance = narrow * draw.real(0.5, 3.0);
    write(false, distance, &rings)
}

/// Rings of more than 128 edges between them, and just as many.
pub fn loaded(draw: &mut Draw, _: usize) -> Vec<u8> {
    let distance = draw.pick(&[0.25, 1.0, 3.0]);
    let mut left = draw.pick(&[127, 128, 129, 130, 150, 200]);
    let far = draw.once_in(2);
    // Of a tiny hole in a large square the front sees one point: an edge of no
    // length about the last slot.
    let (outer, apart) = if far {
        (rectangle([-5e8, -5e8], [5e8, 5e8]), 1e6)
    } else {
        (star(draw, 90, 190.0, 200.0), 90.0)
    };
    left -= outer.len();
    let mut rings = vec![outer];
    for k in 0..8 {
        if left < 3 || (far && left < 8) {
            break;
        }
        let count = left.min(draw.pick(&[32, 31, 31, 20]));
        let mut hole = [star(draw, count, apart * 0.17, apart * 0.2)];
        let [east, north] = compass(f64::from(k) / 8.0);
        shift(&mut hole, [apart * east, apart * north]);
        left -= count;
        rings.extend(hole);
    }
    if far {
        let tiny = draw.pick(&[1e-9, 1e-5, 1.0]);
        rings.push(vec![[0.0, 0.0], [tiny, 0.0], [0.0, tiny]]);
    }
    write(false, distance, &rings)
}

/// Holes that grow into one of more than 32 vertices.
pub fn joined_holes(draw: &mut Draw, _: usize) -> Vec<u8> {
    let count = draw.pick(&[16, 18, 20, 25, 32]);
    let mut rings = vec![rectangle([-100.0, -60.0], [100.0, 60.0])];
    let gap = draw.real(0.5, 3.0);
    let holes = if count <= 20 { 2 + draw.below(3) } else { 2 };
    for k in 0..holes {
        let mut hole = [star(draw, count, 9.0, 10.0)];
        let east = (k as f64 - 1.0) * (20.0 + gap);
        shift(&mut hole, [east, 0.0]);
        let [hole] = hole;
        rings.push(hole);
    }
    let distance = gap * draw.real(0.3, 2.0);
    write(false, distance, &rings)
}
