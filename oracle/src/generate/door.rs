//! Jobs that meet a question before the front is loaded.

use super::shape::{moved, rectangle, reorder, square, star, whole_points, write, Ring};
use super::SMALL;
use crate::draw::Draw;
use crate::job::Job;

fn side(draw: &mut Draw) -> f64 {
    draw.whole(4, 40) as f64
}

/// A triangle within the square of that side.
fn inner(side: f64) -> Ring {
    let quarter = side / 4.0;
    vec![
        [quarter, quarter],
        [2.0 * quarter, quarter],
        [2.0 * quarter, 2.0 * quarter],
    ]
}

/// A distance that is taken.
fn taken(draw: &mut Draw) -> f64 {
    draw.pick(&[0.0, 0.5, 1.0, 0.25])
}

/// The ring alone, or as a hole of the square.
fn alone_or_hole(draw: &mut Draw, ring: Ring, side: f64) -> Vec<u8> {
    let distance = taken(draw);
    if draw.once_in(3) {
        write(false, distance, &[square(side), ring])
    } else {
        write(draw.once_in(3), distance, &[ring])
    }
}

/// Questions 1 and 2.
pub fn numbers(draw: &mut Draw, _: usize) -> Vec<u8> {
    let side = side(draw);
    let line = write(draw.once_in(2), 1.0, &[square(side)]);
    let mut job = Job::read(&line).expect("well formed");
    let odd = draw.once_in(2);
    if odd && draw.once_in(2) {
        job.numbers.pop();
    } else if odd {
        job.numbers.push(1.0);
    }
    if !odd || draw.once_in(3) {
        let values = [
            f64::NAN,
            -f64::NAN,
            f64::from_bits(0x7ff0_0000_0000_0001),
            f64::INFINITY,
            f64::NEG_INFINITY,
        ];
        for _ in 0..1 + draw.below(2) {
            let place = draw.below(job.numbers.len());
            job.numbers[place] = draw.pick(&values);
        }
    }
    job.line().into_bytes()
}

/// Question 3.
pub fn lengths(draw: &mut Draw, _: usize) -> Vec<u8> {
    let side = side(draw);
    let line = write(false, 1.0, &[square(side), inner(side)]);
    let mut job = Job::read(&line).expect("well formed");
    match draw.below(6) {
        0 => job.counts[1] = draw.below(1000),
        1 => job.counts.clear(),
        2 => job.counts.push(draw.below(4)),
        3 => {
            job.counts.clear();
            job.numbers.clear();
        }
        4 => {
            job.counts.pop();
            job.outset = draw.once_in(2);
        }
        _ => job.counts = vec![999; 1 + draw.below(30)],
    }
    if job.counts.len() != 1 {
        job.outset = false;
    }
    job.line().into_bytes()
}

/// Question 4.
pub fn few(draw: &mut Draw, _: usize) -> Vec<u8> {
    let side = side(draw);
    let ring: Ring = match draw.below(4) {
        0 => square(side)[..draw.below(3)].to_vec(),
        1 => vec![[1.0, 1.0]; draw.below(4)],
        2 => vec![[0.0, 0.0], [side, 1.0], [0.0, 0.0]],
        // A zero of either sign is one point.
        _ => vec![[0.0, 0.0], [side, 1.0], [-0.0, 0.0]],
    };
    alone_or_hole(draw, ring, side)
}

/// Question 5.
pub fn range(draw: &mut Draw, _: usize) -> Vec<u8> {
    let side = side(draw);
    let mut ring = square(side);
    for _ in 0..1 + draw.below(2) {
        let (place, axis) = (draw.below(4), draw.below(2));
        ring[place][axis] = draw.pick(&[
            moved(1e9, 1),
            moved(-1e9, -1),
            1e10,
            -1e300,
            f64::MAX,
            1e9,
            -1e9,
        ]);
    }
    alone_or_hole(draw, ring, side)
}

/// Question 6, and 5 about the last place.
pub fn room(draw: &mut Draw, _: usize) -> Vec<u8> {
    let distance = taken(draw);
    let hole = draw.once_in(2);
    let mut ring = if hole {
        let count = draw.pick(&[31, 32, 33, 34, 40]);
        star(draw, count, 10.0, 12.0)
    } else {
        let count = draw.pick(&[3, 127, 128, 129, 130, 131, 140]);
        star(draw, count, 50.0, 60.0)
    };
    if draw.once_in(3) {
        let last = draw.below(3).min(ring.len() - 1);
        let place = ring.len() - 1 - last;
        ring[place][draw.below(2)] = 2e9;
    }
    if draw.once_in(3) {
        // Closed once, or twice.
        for _ in 0..1 + draw.below(2) {
            ring.push(ring[0]);
        }
    }
    if hole {
        write(
            false,
            distance,
            &[rectangle([-99.0, -99.0], [99.0, 99.0]), ring],
        )
    } else {
        write(draw.once_in(3), distance, &[ring])
    }
}

/// Question 7.
pub fn repeated(draw: &mut Draw, _: usize) -> Vec<u8> {
    let side = side(draw);
    let mut ring = square(side);
    match draw.below(3) {
        0 => {
            let place = draw.below(4);
            ring.insert(place, ring[place]);
        }
        1 => {
            // Closed twice.
            ring.push(ring[0]);
            ring.push(ring[0]);
        }
        _ => {
            // Zeros of both signs.
            ring.insert(1, [-0.0, 0.0]);
        }
    }
    alone_or_hole(draw, ring, 2.0 * side)
}

/// Question 8, from both sides.
pub fn flat(draw: &mut Draw, _: usize) -> Vec<u8> {
    let ring = if draw.once_in(2) {
        let slope = draw.pick(&[0.0, 1.0, 0.5]);
        let tiny = draw.pick(&[0.0, 1e-13, 1e-12, 3e-12, 1e-11, -1e-12, -1e-11]);
        let mut ring = vec![[0.0, 0.0], [1.0, slope], [2.0, 2.0 * slope + tiny]];
        if draw.once_in(2) {
            ring.push([-1.0, -slope]);
        }
        ring
    } else {
        // The area at the limit, to the last bit and beside it.
        let long = draw.whole(1, 40) as f64;
        let high = 2.0 * 1e-12 * long;
        let high = f64::from_bits(high.to_bits().wrapping_add_signed(draw.whole(-2, 2)));
        let east = draw.pick(&[0.0, 1.0, long / 2.0, long / 2.0]);
        vec![[0.0, 0.0], [long, 0.0], [east, high]]
    };
    alone_or_hole(draw, ring, 40.0)
}

/// Question 9.
pub fn crossed(draw: &mut Draw, most: usize) -> Vec<u8> {
    let ring = match draw.below(6) {
        0 => vec![[0.0, 0.0], [4.0, 4.0], [4.0, 0.0], [0.0, 2.0]],
        1 => vec![[0.0, 0.0], [4.0, 0.0], [4.0, 4.0], [4.0, 2.0], [0.0, 2.0]],
        2 => {
            let mut ring = star(draw, 7, 2.0, 9.0);
            ring.swap(1, 4);
            ring
        }
        3 => {
            // A vertex on an edge or a vertex.
            let mut ring = square(8.0);
            ring.insert(
                3,
                draw.pick(&[[4.0, 0.0], [0.0, 0.0], [8.0, 2.0], [8.0, 8.0]]),
            );
            ring
        }
        4 => {
            let count = 4 + draw.below(most.min(40) - 4);
            star(draw, count, -9.0, 9.0)
        }
        _ => {
            let count = 4 + draw.below(SMALL - 4);
            (0..count)
                .map(|_| [draw.whole(0, 9) as f64, draw.whole(0, 9) as f64])
                .collect()
        }
    };
    let mut rings = [ring];
    if draw.once_in(2) {
        reorder(draw, &mut rings);
    }
    let [ring] = rings;
    alone_or_hole(draw, ring, 40.0)
}

/// Question 10, and what is asked before it and after.
pub fn holes(draw: &mut Draw, _: usize) -> Vec<u8> {
    let count = draw.pick(&[7, 8, 9, 10, 12, 40, 120]);
    let mut rings = vec![rectangle([-1.0, -1.0], [999.0, 9.0])];
    for k in 0..count {
        let east = 3.0 * k as f64;
        rings.push(vec![[east, 0.0], [east + 1.0, 0.0], [east, 1.0]]);
    }
    match draw.below(6) {
        // A bad ring past the eighth hole.
        0 => rings[count] = vec![[0.0, 0.0], [1.0, 1.0], [2.0, 2.0]],
        1 => rings[count].truncate(2),
        // A hole that touches the outer ring, two that touch.
        2 => rings[1] = vec![[-1.0, 0.0], [1.0, 0.0], [0.0, 1.0]],
        3 => rings[2] = rings[1].clone(),
        _ => {}
    }
    let distance = draw.pick(&[0.0, 0.25, 1.0, -1.0]);
    write(false, distance, &rings)
}

/// Question 11.
pub fn outside(draw: &mut Draw, _: usize) -> Vec<u8> {
    let side = side(draw);
    let half = side / 2.0;
    let by = draw.pick(&[
        side,
        half,
        0.75 * side,
        5.0 * side,
        -half / 2.0,
        0.25 * side,
    ]);
    let mut hole = inner(side);
    for p in &mut hole {
        p[0] += by;
    }
    let mut rings = vec![square(side), hole];
    if draw.once_in(3) {
        // Vertices inside, edges that cross a notch.
        rings[0].insert(1, [half, 0.7 * side]);
        rings[1] = rectangle([0.2 * side, 0.5 * side], [0.8 * side, 0.6 * side]);
    } else if draw.once_in(3) {
        rings.insert(1, inner(side));
    }
    let distance = taken(draw);
    write(false, distance, &rings)
}

/// Question 12.
pub fn overlap(draw: &mut Draw, _: usize) -> Vec<u8> {
    let side = side(draw);
    // About a point within the triangle, or one on its side.
    let [east, north] = draw.pick(&[[0.41 * side, 0.33 * side], [side / 3.0, side / 3.0]]);
    let factor = draw.pick(&[1.0, 0.5, 0.25]);
    let by = draw.pick(&[0.0, 0.0, side / 8.0, side / 4.0, side / 5.0]);
    let mut hole = inner(side);
    for p in &mut hole {
        *p = [
            (p[0] - east) * factor + east + by,
            (p[1] - north) * factor + north,
        ];
    }
    let mut rings = vec![square(side), inner(side), hole];
    if draw.once_in(2) {
        rings.swap(1, 2);
    }
    let distance = taken(draw);
    write(false, distance, &rings)
}

/// Questions 13 and 14, and the distances that pass them.
pub fn distance(draw: &mut Draw, _: usize) -> Vec<u8> {
    let distance = draw.pick(&[
        f64::NAN,
        -f64::NAN,
        f64::INFINITY,
        f64::NEG_INFINITY,
        f64::from_bits(1e12_f64.to_bits() + 1),
        1e300,
        -1.0,
        -1e13,
        -5e-324,
        -f64::MAX,
        -1e-9,
        1e12,
        f64::from_bits(1e12_f64.to_bits() - 1),
        -0.0,
        0.0,
        5e-324,
        1e-300,
        1e-20,
    ]);
    let side = side(draw);
    let mut rings = vec![square(side)];
    if draw.once_in(2) {
        rings.push(inner(side));
    }
    if draw.once_in(4) {
        rings = vec![whole_points(draw, 5, 9)];
    }
    if draw.once_in(3) {
        reorder(draw, &mut rings);
    }
    let outset = rings.len() == 1 && draw.once_in(2);
    write(outset, distance, &rings)
}

/// Two faults: the earlier question is met.
pub fn two_faults(draw: &mut Draw, _: usize) -> Vec<u8> {
    let side = side(draw);
    let mut rings = [square(side), inner(side)];
    let distance = draw.pick(&[f64::NAN, -1.0, f64::INFINITY]);
    for _ in 0..2 {
        let ring = draw.below(2);
        let place = draw.below(rings[ring].len());
        rings[ring][place][draw.below(2)] =
            draw.pick(&[side, 2e9, 0.0, f64::NAN, -3.0, side / 4.0]);
    }
    write(false, distance, &rings)
}
