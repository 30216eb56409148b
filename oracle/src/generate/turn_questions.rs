//! Questions about turns, meetings and folds from a seed: points that lie on a
//! line but for a last bit, or that rounding treats badly.

use super::questions::not_finite;
use super::shape::{moved, Point};
use crate::draw::Draw;
use crate::outlines::Question;
use crate::turns;

/// One coordinate moved by at most three places.
fn nudge(draw: &mut Draw, points: &mut [Point]) {
    let (point, axis) = (draw.below(points.len()), draw.below(2));
    points[point][axis] = moved(points[point][axis], draw.whole(-3, 3));
}

/// A factor, from the smallest numbers to the largest.
fn size(draw: &mut Draw) -> f64 {
    draw.pick(&[
        1.0, 1.0, 1.0, 1.0, 1e-3, 1e9, 1e-9, 1e-160, 1e-300, 1e-320, 5e-324, 1e150, 1e300, 1e307,
    ])
}

/// A number with few or with all its digits.
fn coordinate(draw: &mut Draw) -> f64 {
    match draw.below(4) {
        0 => draw.whole(-9, 9) as f64,
        1 => draw.whole(-90, 90) as f64 / 10.0,
        2 => draw.whole(-900, 900) as f64 / 100.0,
        _ => draw.real(-9.0, 9.0),
    }
}

fn finite(x: f64) -> f64 {
    x.clamp(-f64::MAX, f64::MAX)
}

/// Points on a line but for rounding.
fn on_line(draw: &mut Draw, count: usize) -> Vec<Point> {
    let from = [coordinate(draw), coordinate(draw)];
    let along = [coordinate(draw), coordinate(draw)];
    let by = size(draw);
    let far = draw.pick(&[0.0, 0.0, 0.0, 1.0, 1e6, 1e9]);
    (0..count)
        .map(|_| {
            let part = match draw.below(3) {
                0 => draw.whole(-2, 4) as f64,
                1 => draw.whole(-20, 40) as f64 / 10.0,
                _ => draw.real(-2.0, 4.0),
            };
            let on = |axis: usize| finite((from[axis] + part * along[axis] + far) * by);
            [on(0), on(1)]
        })
        .collect()
}

/// Points on a line through the origin to the last bit: doubled or halved.
fn multiples(draw: &mut Draw, count: usize) -> Vec<Point> {
    let by = draw.pick(&[1.0, 1.0, 1e-160, 1e-290, 5e-324, 1e150, 1e306]);
    let one = [0, 1].map(|_| coordinate(draw) * by);
    (0..count)
        .map(|_| {
            let factor = draw.pick(&[1.0, 2.0, 4.0, 8.0, 64.0, -1.0, -2.0, 0.0]);
            one.map(|x| x * factor)
        })
        .collect()
}

/// Points beside the diagonal, the first so near that its products are short
/// of bits.
fn diagonal(draw: &mut Draw, count: usize) -> Vec<Point> {
    let by = draw.pick(&[1.0, 1.0, 3.0, 1e-6, 1e200]);
    let mut points: Vec<Point> = (0..count)
        .map(|k| [draw.pick(&[12.0, 24.0, 30.0]) * by * (k + 1) as f64; 2])
        .collect();
    points[0] = [0, 1].map(|_| moved(0.5 * by, draw.whole(0, 60)));
    let place = draw.below(count);
    points.swap(0, place);
    points
}

/// Points of a small grid, in whole numbers, halves or tenths.
fn on_grid(draw: &mut Draw, count: usize) -> Vec<Point> {
    let side = draw.pick(&[1, 2, 3, 9, 30]);
    let parts = draw.pick(&[1.0, 2.0, 10.0, 10.0]);
    let mut one = || draw.whole(0, side) as f64 / parts;
    (0..count).map(|_| [one(), one()]).collect()
}

/// Any bits of finite numbers.
fn any_bits(draw: &mut Draw, count: usize) -> Vec<Point> {
    let mut one = || {
        let x = f64::from_bits(draw.bits());
        if x.is_finite() {
            x
        } else {
            0.0
        }
    };
    (0..count).map(|_| [one(), one()]).collect()
}

/// The largest, the smallest, zeros of both signs.
fn extreme(draw: &mut Draw, count: usize) -> Vec<Point> {
    let list = [f64::MAX, 1.7e308, 1.0, 5e-324, 1e-323, 2.3e-308, 0.0];
    let mut one = || draw.pick(&list) * draw.pick(&[1.0, -1.0]);
    (0..count).map(|_| [one(), one()]).collect()
}

/// Along an axis: one coordinate is the same for all, or for all but a place.
fn along_axis(draw: &mut Draw, count: usize) -> Vec<Point> {
    let (axis, level, by) = (draw.below(2), coordinate(draw), size(draw));
    let mut one = || {
        let mut point = [finite(coordinate(draw) * by); 2];
        point[axis] = finite(level * by);
        point
    };
    (0..count).map(|_| one()).collect()
}

/// So many points, all finite.
fn points(draw: &mut Draw, count: usize) -> Vec<Point> {
    let mut points = match draw.below(14) {
        0..=4 => on_line(draw, count),
        5..=7 => on_grid(draw, count),
        8 => any_bits(draw, count),
        9 => extreme(draw, count),
        10 => along_axis(draw, count),
        11 => multiples(draw, count),
        _ => diagonal(draw, count),
    };
    if draw.once_in(2) {
        nudge(draw, &mut points);
    }
    // One of them twice.
    if draw.once_in(10) {
        let (from, to) = (draw.below(count), draw.below(count));
        points[to] = points[from];
    }
    points
}

/// Whether rounding tells a side that is not the right one.
fn misjudged(a: Point, b: Point, c: Point) -> bool {
    let (rounded, exact) = (turns::rounded(a, b, c), turns::exact(a, b, c));
    rounded > 0.0 && exact <= 0.0 || rounded < 0.0 && exact >= 0.0
}

/// The same, some of them misjudged if such are met in some tries.
fn hard_points(draw: &mut Draw, count: usize) -> Vec<Point> {
    let mut drawn = points(draw, count);
    for _ in 0..200 {
        let last = drawn[count - 1];
        if misjudged(drawn[0], drawn[1], drawn[2]) || misjudged(drawn[0], drawn[1], last) {
            break;
        }
        drawn = points(draw, count);
    }
    drawn
}

/// The last point is elsewhere: one segment ends on or beside the other.
fn apart(draw: &mut Draw, points: &mut [Point]) {
    let by = points[0][0].abs().max(points[0][1].abs()).max(5e-324);
    let aside = [finite(coordinate(draw) * by), finite(coordinate(draw) * by)];
    if let Some(last) = points.last_mut() {
        *last = aside;
    }
}

/// So many points, hard ones now and then.
fn some_points(draw: &mut Draw, count: usize) -> Vec<Point> {
    if draw.once_in(5) {
        hard_points(draw, count)
    } else {
        points(draw, count)
    }
}

/// Now and then a number that is not finite.
fn spoil(draw: &mut Draw, points: &mut [Point]) {
    if draw.once_in(14) {
        let (point, axis) = (draw.below(points.len()), draw.below(2));
        points[point][axis] = not_finite(draw);
    }
}

/// Question `index` of a seed about a turn, a meeting or a fold.
pub fn turning(seed: u64, index: u64) -> Question {
    let draw = &mut Draw::at(seed.rotate_left(48), index);
    let kind = draw.below(3);
    if kind == 1 {
        let mut four = some_points(draw, 4);
        if draw.once_in(3) {
            apart(draw, &mut four);
        }
        spoil(draw, &mut four);
        return Question::Meet([[four[0], four[1]], [four[2], four[3]]]);
    }
    let mut three = some_points(draw, 3);
    spoil(draw, &mut three);
    let three = [three[0], three[1], three[2]];
    if kind == 0 {
        Question::Turn(three)
    } else {
        Question::Fold(three)
    }
}
