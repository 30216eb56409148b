//! Rings with vertices that lie on a line but for a last bit, and regions whose
//! rings touch or nearly do: rounding picks a side there.

use super::shape::{moved, reorder, scale, suited, write, Point, Ring};
use super::SMALL;
use crate::draw::Draw;

/// A slanted grid: `at(0, 0)`, `at(1, 0)`, .. are on a line but for rounding.
struct Frame {
    from: Point,
    along: Point,
    parts: f64,
}

impl Frame {
    fn draw(draw: &mut Draw) -> Self {
        let mut frame = if draw.once_in(3) {
            Self {
                from: [draw.real(-9.0, 9.0), draw.real(-9.0, 9.0)],
                along: [draw.real(0.1, 3.0), draw.real(-3.0, 3.0)],
                parts: 1.0,
            }
        } else {
            // Decimals: on a line as they are written.
            let parts = draw.pick(&[10.0, 10.0, 100.0, 3.0]);
            let mut whole = |high: i64| draw.whole(-high, high) as f64;
            let (from, mut along) = ([whole(40), whole(40)], [whole(9), whole(9)]);
            along[0] += if along == [0.0; 2] { 1.0 } else { 0.0 };
            Self { from, along, parts }
        };
        if draw.once_in(4) {
            frame.from = [0.0; 2];
        }
        frame
    }

    /// So many steps along the line and to its left.
    fn at(&self, along: i64, aside: i64) -> Point {
        let (t, u) = (along as f64, aside as f64);
        [
            (self.from[0] + t * self.along[0] - u * self.along[1]) / self.parts,
            (self.from[1] + t * self.along[1] + u * self.along[0]) / self.parts,
        ]
    }

    /// The same, now and then some places beside it.
    fn about(&self, draw: &mut Draw, along: i64, aside: i64) -> Point {
        let mut point = self.at(along, aside);
        if draw.once_in(3) {
            let axis = draw.below(2);
            point[axis] = moved(point[axis], draw.whole(-3, 3));
        }
        point
    }

    /// About the length of a step.
    fn step(&self) -> f64 {
        (self.along[0].abs() + self.along[1].abs()) / self.parts
    }
}

/// Edges on one line with teeth or gaps between them.
fn edges_on_line(draw: &mut Draw, frame: &Frame, most: usize) -> Ring {
    let mut ring = vec![frame.about(draw, 0, 0)];
    if frame.from == [0.0; 2] && draw.once_in(2) {
        let tiny = draw.pick(&[1e-300, 1e-160, 1e-20]);
        ring.push(frame.along.map(|x| x * tiny));
    }
    let mut t = draw.whole(1, 3);
    let pieces = 1 + draw.below((most.min(26) - 5) / 3);
    for _ in 0..pieces {
        ring.push(frame.about(draw, t, 0));
        let aside = draw.pick(&[0, 1, 2, -1, -2]);
        let up = t + draw.whole(1, 3);
        ring.push(frame.about(draw, up, aside));
        t = up + draw.whole(1, 3);
        ring.push(frame.about(draw, t, 0));
        t += draw.whole(1, 3);
    }
    let depth = draw.pick(&[4, 9, -9]);
    ring.push(frame.about(draw, t, 0));
    ring.push(frame.at(t / 2, depth));
    ring
}

/// A finger of the thickness of some last bits, or of none.
fn finger(draw: &mut Draw, frame: &Frame, _: usize) -> Ring {
    let (long, first, second) = (draw.whole(3, 40), draw.whole(-2, 2), draw.whole(-2, 2));
    let tip = frame.about(draw, -long, 0);
    let (upper, lower) = (frame.about(draw, first, 0), frame.about(draw, second, 0));
    let mut ring = vec![tip, lower, frame.at(4, -3)];
    if draw.once_in(2) {
        ring.push(frame.at(6, 0));
    }
    ring.extend([frame.at(4, 3), upper]);
    ring
}

/// Slits of some last bits into a body, one beside the other.
fn fan(draw: &mut Draw, frame: &Frame, most: usize) -> Ring {
    let (near, far) = (draw.whole(0, 3), draw.whole(4, 30));
    let slits = 1 + draw.below((most.min(64) - 5) / 2);
    let (axis, places) = (draw.below(2), draw.whole(1, 3));
    let mut ring = Vec::new();
    for k in 0..=2 * slits as i64 {
        let mut point = frame.at(if k % 2 == 0 { far } else { near }, 0);
        point[axis] = moved(point[axis], k * places);
        ring.push(point);
    }
    let deep = draw.whole(1, 9);
    ring.extend([frame.at(-2, deep), frame.at(-2, -deep)]);
    ring
}

/// A notch whose tip is on the line of the edge across, or beside it.
fn notch(draw: &mut Draw, frame: &Frame, most: usize) -> Ring {
    let wide = draw.whole(4, 12);
    let depth = draw.whole(2, 8);
    let mut ring = vec![frame.about(draw, 0, 0)];
    if draw.once_in(3) {
        ring.push(frame.about(draw, 1, 0));
    }
    ring.extend([frame.about(draw, wide, 0), frame.at(wide, depth)]);
    let notches = 1 + i64::from(most >= SMALL && wide >= 9 && draw.once_in(3));
    for k in 0..notches {
        let at = wide - 2 - 4 * k;
        let tip = frame.about(draw, at, 0);
        ring.extend([frame.at(at + 1, depth), tip, frame.at(at - 1, depth)]);
    }
    ring.push(frame.at(0, depth));
    ring
}

/// Holes that touch the outer ring or one another, or nearly do.
fn holes(draw: &mut Draw, frame: &Frame) -> Vec<Ring> {
    let wide = draw.whole(6, 12);
    let outer = vec![
        frame.about(draw, 0, 0),
        frame.about(draw, wide, 0),
        frame.at(wide, 9),
        frame.at(0, 9),
    ];
    let (at, level) = (draw.whole(2, wide - 2), draw.pick(&[0, 0, 1]));
    let tip = frame.about(draw, at, level);
    let first = vec![
        tip,
        frame.about(draw, at + 1, 3),
        frame.about(draw, at - 1, 3),
    ];
    let mut rings = vec![outer, first];
    if draw.once_in(2) {
        let upper = frame.at(at, 3 + draw.pick(&[0, 0, 1]));
        let mut second = vec![upper, frame.at(at + 1, 6), frame.at(at - 1, 6)];
        let axis = draw.below(2);
        second[0][axis] = moved(second[0][axis], draw.whole(-3, 3));
        rings.push(second);
    }
    if draw.once_in(4) {
        let last = rings.len() - 1;
        rings.swap(1, last);
    }
    rings
}

/// How much larger or smaller, up to the limit of the coordinates.
fn size(draw: &mut Draw, rings: &[Ring]) -> f64 {
    let most = rings.iter().flatten().flatten();
    let most = most.fold(1.0_f64, |most, x| most.max(x.abs()));
    match draw.below(12) {
        0 => 1e9 / most * 0.999,
        1 => draw.pick(&[1e-3, 1e-9, 1e-150]),
        2 => draw.pick(&[1e-155, 1e-160, 1e-300]),
        3 => 1024.0,
        _ => 1.0,
    }
}

/// A line of the family.
pub fn slivers(draw: &mut Draw, most: usize) -> Vec<u8> {
    let frame = Frame::draw(draw);
    let shapes = [edges_on_line, edges_on_line, finger, fan, notch];
    let mut rings = if draw.once_in(4) {
        holes(draw, &frame)
    } else {
        let shape = draw.pick(&shapes);
        let most = if draw.once_in(3) { most } else { SMALL };
        vec![shape(draw, &frame, most)]
    };
    let factor = size(draw, &rings);
    scale(&mut rings, factor);
    reorder(draw, &mut rings);
    let step = frame.step() * factor;
    let distance = match draw.below(4) {
        0 | 1 => 0.0,
        2 => suited(draw, 0.1 * step),
        _ => suited(draw, 2.0 * step),
    };
    let outset = rings.len() == 1 && draw.once_in(3);
    write(outset, distance, &rings)
}
