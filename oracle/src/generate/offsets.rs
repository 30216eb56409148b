//! Questions about offsets of outlines from a seed: the jobs of the load, each
//! with its outer ring alone.

use super::drawn_line;
use super::questions::{improper, shape_of, stored};
use crate::draw::Draw;
use crate::job::Job;
use crate::outlines::{Question, Shape};

/// The side, the distance and the outline of a job. A region's outer ring
/// counts where it is more than a square.
fn of_job(job: &Job) -> Option<(bool, f64, Shape)> {
    let count = *job.counts.first()?;
    if job.counts.len() > 1 && count <= 4 {
        return None;
    }
    let numbers = stored(job.numbers.get(..2 * count)?)?;
    Some((job.outset, job.distance, shape_of(numbers)))
}

/// An offset of the load, or of the small one.
fn of_load(draw: &mut Draw, small: bool, only: Option<&str>) -> (bool, f64, Shape) {
    loop {
        let line = drawn_line(draw, small, only).expect("a family");
        if let Some(asked) = Job::read(&line).as_ref().and_then(of_job) {
            return asked;
        }
    }
}

/// An offset of the load with just so many vertices.
fn of_count(draw: &mut Draw, count: u64) -> (bool, f64, Shape) {
    loop {
        let asked = of_load(draw, false, None);
        if asked.2.count == count {
            return asked;
        }
    }
}

/// The drawn examples E8, E9, E10 and E14, and S outset.
fn drawn(draw: &mut Draw) -> (bool, f64, Shape) {
    let (outward, distance) = draw.pick(&[
        (false, 1.0),
        (false, 2.0),
        (false, 3.0),
        (true, 1.0),
        (false, -1.0),
        (false, f64::NAN),
        (false, 1e12),
        (false, -0.0),
        (true, 1e12),
        (true, 0.0),
    ]);
    let square = vec![0.0, 0.0, 4.0, 0.0, 4.0, 4.0, 0.0, 4.0];
    (outward, distance, shape_of(square))
}

/// Past the vertices of an outline now and then numbers that none reads.
pub(super) fn extended(draw: &mut Draw, mut shape: Shape) -> Shape {
    if draw.once_in(12) {
        let past = draw.pick(&[0.0, 1.0, f64::NAN, 1e300]);
        let more = 1 + draw.below(6);
        shape.numbers.extend(vec![past; more]);
    }
    shape
}

/// Question `index` of a seed about an offset.
pub fn offset(seed: u64, index: u64) -> Question {
    let draw = &mut Draw::at(seed.rotate_left(32), index);
    let (outward, distance, shape) = match draw.below(48) {
        0..=2 => drawn(draw),
        3..=5 => {
            let (outward, distance, _) = of_load(draw, true, None);
            return Question::Offset(outward, distance, improper(draw));
        }
        6 | 7 => {
            let count = draw.pick(&[8, 32, 127, 128]);
            of_count(draw, count)
        }
        8..=10 => of_load(draw, true, Some("distance")),
        11..=14 => {
            let rare = draw.pick(&["known", "known", "pocket", "triangle", "spike"]);
            of_load(draw, true, Some(rare))
        }
        15 => of_load(draw, false, Some("full")),
        16..=32 => of_load(draw, false, None),
        _ => of_load(draw, true, None),
    };
    Question::Offset(outward, distance, extended(draw, shape))
}
