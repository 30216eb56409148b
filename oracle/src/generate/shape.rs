//! Rings, and exact and rounded changes to them.

use crate::answer::{answer, ROOM};
use crate::draw::Draw;
use crate::job::Job;
use crate::region::{PlanarPoint, Polygon};

/// A vertex, east and north.
pub type Point = [f64; 2];
/// Vertices in their order, not closed.
pub type Ring = Vec<Point>;

/// A finite number some places away, through zero as well.
pub fn moved(x: f64, places: i64) -> f64 {
    let bits = x.abs().to_bits() as i64;
    let place = if x < 0.0 { -bits } else { bits } + places;
    let to = f64::from_bits(place.unsigned_abs());
    let to = if to.is_finite() { to } else { f64::MAX };
    if place < 0 {
        -to
    } else {
        to
    }
}

/// The line of a side, a distance and rings.
pub fn write(outset: bool, distance: f64, rings: &[Ring]) -> Vec<u8> {
    Job {
        outset,
        distance,
        counts: rings.iter().map(Vec::len).collect(),
        numbers: rings.iter().flatten().flatten().copied().collect(),
    }
    .line()
    .into_bytes()
}

/// Whether the ring is an outline.
pub fn accepted(ring: &Ring) -> bool {
    let points: Option<Vec<PlanarPoint>> = ring
        .iter()
        .map(|p| PlanarPoint::from_metres(p[0], p[1]).ok())
        .collect();
    points.is_some_and(|points| Polygon::<ROOM>::new(&points).is_ok())
}

/// Whether the rings are a region.
pub fn accepted_region(rings: &[Ring]) -> bool {
    let line = write(false, 0.0, rings);
    Job::read(&line).is_some_and(|job| answer(&job).result.is_ok())
}

/// The rectangle between two corners.
pub fn rectangle(low: Point, high: Point) -> Ring {
    vec![low, [high[0], low[1]], high, [low[0], high[1]]]
}

/// The square with a corner at the origin.
pub fn square(side: f64) -> Ring {
    rectangle([0.0, 0.0], [side, side])
}

/// The point of the unit circle after a part of a full turn, in plain
/// arithmetic: the same bits everywhere.
pub fn compass(part: f64) -> Point {
    let quarters = (part - part.floor()) * 4.0;
    let angle = (quarters - quarters.floor()) * core::f64::consts::FRAC_PI_2;
    let (mut sine, mut cosine) = (1.0, 1.0);
    for k in (1..=12).rev() {
        let k = 2.0 * f64::from(k);
        sine = 1.0 - angle * angle / (k * (k + 1.0)) * sine;
        cosine = 1.0 - angle * angle / (k * (k - 1.0)) * cosine;
    }
    sine *= angle;
    match quarters as i32 {
        0 => [cosine, sine],
        1 => [-sine, cosine],
        2 => [-cosine, -sine],
        _ => [sine, -cosine],
    }
}

/// Turned about the origin by a part of a full turn.
pub fn turn(rings: &mut [Ring], part: f64) {
    let [cosine, sine] = compass(part);
    for p in rings.iter_mut().flatten() {
        *p = [p[0] * cosine - p[1] * sine, p[0] * sine + p[1] * cosine];
    }
}

/// Scaled about the origin.
pub fn scale(rings: &mut [Ring], by: f64) {
    for p in rings.iter_mut().flatten() {
        *p = [p[0] * by, p[1] * by];
    }
}

/// Moved.
pub fn shift(rings: &mut [Ring], by: Point) {
    for p in rings.iter_mut().flatten() {
        *p = [p[0] + by[0], p[1] + by[1]];
    }
}

/// Rounded to whole numbers over `parts`.
pub fn round(rings: &mut [Ring], parts: f64) {
    for p in rings.iter_mut().flatten() {
        *p = [
            (p[0] * parts).round() / parts,
            (p[1] * parts).round() / parts,
        ];
    }
}

/// Begun elsewhere, walked backwards, closed: now and then each.
pub fn reorder(draw: &mut Draw, rings: &mut [Ring]) {
    for ring in rings.iter_mut().filter(|ring| !ring.is_empty()) {
        if draw.once_in(3) {
            ring.reverse();
        }
        if draw.once_in(2) {
            let by = draw.below(ring.len());
            ring.rotate_left(by);
        }
        if draw.once_in(12) {
            ring.push(ring[0]);
        }
    }
}

/// One of the eight symmetries of a square, a power of two as scale: exact.
/// The factor is handed back.
pub fn mirror(draw: &mut Draw, rings: &mut [Ring]) -> f64 {
    let (swap, east, north) = (draw.once_in(2), draw.once_in(2), draw.once_in(2));
    let factor = draw.pick(&[1.0, 1.0, 1.0, 0.5, 2.0, 1024.0]);
    for p in rings.iter_mut().flatten() {
        if swap {
            p.swap(0, 1);
        }
        p[0] *= if east { -factor } else { factor };
        p[1] *= if north { -factor } else { factor };
    }
    factor
}

/// Turned, scaled, moved, reordered: now and then each. The factor of the
/// scale is handed back.
pub fn dress(draw: &mut Draw, rings: &mut [Ring]) -> f64 {
    let mut factor = 1.0;
    if draw.once_in(3) {
        let part = draw.unit();
        turn(rings, part);
    }
    if draw.once_in(4) {
        factor = draw.pick(&[0.001, 0.25, 3.0, 10.0, 1000.0, 1e6]);
        scale(rings, factor);
    }
    if draw.once_in(4) {
        let far = draw.pick(&[1.0, 100.0, 450_000.0]) * factor;
        let mut by = [draw.real(-far, far), draw.real(-far, far)];
        if draw.once_in(2) {
            by = [by[0].round(), by[1].round()];
        }
        shift(rings, by);
    }
    reorder(draw, rings);
    factor
}

/// A distance that suits a shape of this size.
pub fn suited(draw: &mut Draw, size: f64) -> f64 {
    match draw.below(10) {
        0 => size * 0.001,
        1..=4 => size * draw.real(0.0, 0.5),
        5..=7 => size * draw.real(0.0, 1.0),
        8 => size * draw.pick(&[0.125, 0.25, 0.5, 0.75, 1.0]),
        _ => size * draw.real(0.0, 3.0),
    }
}

/// Vertices at growing angles about the origin.
pub fn star(draw: &mut Draw, count: usize, low: f64, high: f64) -> Ring {
    let start = draw.unit();
    (0..count)
        .map(|k| {
            let [east, north] = compass(start + (k as f64 + draw.real(0.0, 0.9)) / count as f64);
            let radius = draw.real(low, high);
            [radius * east, radius * north]
        })
        .collect()
}

/// Equal angles, two radii in turn.
pub fn regular(draw: &mut Draw, count: usize, outer: f64, inner: f64) -> Ring {
    let start = draw.pick(&[0.0, 0.01, 0.125]);
    (0..count)
        .map(|k| {
            let [east, north] = compass(start + k as f64 / count as f64);
            let radius = if k % 2 == 0 { outer } else { inner };
            [radius * east, radius * north]
        })
        .collect()
}

/// Whole points in a square, as drawn or sorted by angle; an outline if one is
/// met in some tries.
pub fn whole_points(draw: &mut Draw, count: usize, side: i64) -> Ring {
    let centre = side as f64 / 2.0;
    for _ in 0..40 {
        let mut ring: Ring = (0..count)
            .map(|_| [draw.whole(0, side) as f64, draw.whole(0, side) as f64])
            .collect();
        if draw.once_in(2) {
            // By angle about a point that no whole point hides behind another.
            let from = |p: &Point| [p[0] - centre - 0.1, p[1] - centre + 0.13];
            ring.sort_by(|p, q| {
                let (p, q) = (from(p), from(q));
                let cross = p[0] * q[1] - p[1] * q[0];
                let half = (p[1] < 0.0).cmp(&(q[1] < 0.0));
                half.then(0.0_f64.total_cmp(&cross))
            });
        }
        if accepted(&ring) {
            return ring;
        }
    }
    square(side as f64)
}
