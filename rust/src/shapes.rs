//! Outlines and regions that have passed their check.

mod outline;
mod region;

pub use outline::Outline;
pub use region::Region;

use crate::refusal::Refusal;
use crate::slices::Point;

fn numbers_of(points: &[Point]) -> Vec<f64> {
    points.iter().flat_map(|p| [p.0, p.1]).collect()
}

pub(crate) fn points_of(numbers: &[f64]) -> Vec<Point> {
    numbers.chunks_exact(2).map(|p| (p[0], p[1])).collect()
}

/// Rings as a flat list of numbers, and the vertices of each.
pub(crate) fn flat<R: AsRef<[Point]>>(rings: &[R]) -> (Vec<f64>, Vec<usize>) {
    let numbers = rings.iter().flat_map(|ring| numbers_of(ring.as_ref()));
    let lengths = rings.iter().map(|ring| ring.as_ref().len());
    (numbers.collect(), lengths.collect())
}

/// What is asked of a shape that has passed 21.
fn granted<T>(told: Result<T, Refusal>) -> T {
    told.expect("the shape has passed 21")
}
