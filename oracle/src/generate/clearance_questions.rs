//! Questions about the clearance of two outlines, from a seed: each pair twice,
//! in either order. Where they are clear, mostly the vertices of one ring alone
//! have the least gap.

use super::offsets::extended;
use super::pair_questions::{dressed, rectangles, spoil, stars, touching};
use super::questions::{flat_numbers, shape_of, stored, two_shapes};
use super::shape::{compass, rectangle, scale, shift, star, turn, Ring};
use crate::answer::ROOM;
use crate::draw::Draw;
use crate::outlines::{Question, Shape, MAX_COORDINATE};

/// How far a spike keeps from an edge; below 0 it goes through.
fn gap(draw: &mut Draw) -> f64 {
    match draw.below(4) {
        0 => draw.real(0.0, 2.0),
        1 => draw.pick(&[0.0, 0.0, -0.5, 1e-20, 1e-310, 5e-324]),
        _ => draw.pick(&[0.2, 0.5, 1.0, 1e-3, 1e-9]),
    }
}

/// A collar, and a sleeve above it with up to four spikes toward its upper edge.
fn spikes(draw: &mut Draw) -> [Ring; 2] {
    let (half, deep, narrow) = (
        draw.real(2.0, 9.0),
        draw.real(0.5, 4.0),
        draw.real(-1.0, 1.0),
    );
    let collar = vec![
        [-half, 0.0],
        [half, 0.0],
        [half - narrow, -deep],
        [narrow - half, -deep],
    ];
    let (lowest, count) = (gap(draw), 1 + draw.below(4));
    let wide = half * draw.pick(&[0.3, 0.8, 1.5, 3.0]);
    let high = draw.real(2.0, 9.0);
    let mut sleeve = vec![[-wide, high]];
    for k in 0..count {
        let more = draw.pick(&[0.0, 0.0, 0.1, 1.0]);
        let step = 2.0 * wide / count as f64;
        let from = k as f64 * step - wide;
        sleeve.push([from + step * draw.real(0.3, 0.7), lowest + more]);
        sleeve.push([from + step, high]);
    }
    sleeve.push([0.0, high + draw.real(1.0, 4.0)]);
    [collar, sleeve]
}

/// A square within a star that has a spike toward it, or about such a star.
fn nested(draw: &mut Draw) -> [Ring; 2] {
    let count = draw.pick(&[3, 4, 5, 6, 9, ROOM]);
    let (within, low, high) = draw.pick(&[(true, 4.0, 9.0), (false, 0.5, 2.0)]);
    let mut ring = star(draw, count, low, high);
    let side = 3.0;
    let far = if within {
        side + gap(draw)
    } else {
        side - gap(draw)
    };
    let tip = &mut ring[draw.below(count)];
    let by = far / tip[0].abs().max(tip[1].abs());
    *tip = tip.map(|x| x * by);
    [rectangle([-side; 2], [side; 2]), ring]
}

/// Two stars far from one another.
fn apart(draw: &mut Draw) -> [Ring; 2] {
    let mut rings = [0, 1].map(|_| {
        let count = 3 + draw.below(6);
        star(draw, count, 2.0, 9.0)
    });
    let far = draw.pick(&[30.0, 1e4, 5e8]);
    let way = compass(draw.unit());
    shift(&mut rings[1..], way.map(|x| far * x));
    rings
}

/// Zeros that are the smallest numbers instead.
fn dust(draw: &mut Draw, rings: &mut [Ring; 2]) {
    for x in rings.iter_mut().flatten().flatten() {
        if *x == 0.0 {
            *x = draw.pick(&[0.0, -0.0, 5e-324, -5e-324, 1e-310, -1e-308]);
        }
    }
}

/// Scaled to the largest coordinate.
fn widest(rings: &mut [Ring; 2]) {
    let sizes = rings.iter().flatten().flatten().map(|x| x.abs());
    let largest = sizes.fold(0.0, f64::max);
    scale(rings, MAX_COORDINATE / largest);
    for x in rings.iter_mut().flatten().flatten() {
        *x = x.clamp(-MAX_COORDINATE, MAX_COORDINATE);
    }
}

/// Two rings, which need not be outlines.
fn rings(draw: &mut Draw) -> [Ring; 2] {
    let mut rings = match draw.below(12) {
        0..=4 => spikes(draw),
        5..=6 => nested(draw),
        7 => apart(draw),
        8 => stars(draw),
        9 => rectangles(draw),
        _ => touching(draw),
    };
    match draw.below(8) {
        0 => dust(draw, &mut rings),
        1 => widest(&mut rings),
        2 | 3 => {
            turn(&mut rings, draw.unit());
            rings = dressed(draw, rings);
        }
        4 | 5 => rings = dressed(draw, rings),
        _ => {}
    }
    rings
}

/// Two outlines, the numbers of each as many as it says.
fn outlines(draw: &mut Draw) -> [Shape; 2] {
    let whole = |shape: &Shape| shape.count.checked_mul(2) == Some(shape.numbers.len() as u64);
    loop {
        if draw.once_in(8) {
            let (first, second) = two_shapes(draw);
            if whole(&first) && whole(&second) {
                return [first, second];
            }
        } else {
            let [first, second] = rings(draw).map(|ring| stored(&flat_numbers(&ring)));
            if let (Some(first), Some(second)) = (first, second) {
                return [first, second].map(shape_of);
            }
        }
    }
}

/// Question `index` of a seed about the clearance of two outlines: an odd one is
/// that before it with the outlines exchanged.
pub fn clearance(seed: u64, index: u64) -> Question {
    let draw = &mut Draw::at(seed.rotate_left(24), index / 2);
    let [mut first, mut second] = outlines(draw);
    match draw.below(40) {
        0 | 1 => spoil(draw, &mut first),
        2 => {
            spoil(draw, &mut first);
            spoil(draw, &mut second);
        }
        _ => {}
    }
    if index % 2 == 1 {
        (first, second) = (second, first);
    }
    // Past the vertices of the second there may be numbers that none reads.
    Question::Clearance(first, extended(draw, second))
}
