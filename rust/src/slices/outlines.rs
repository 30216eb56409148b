//! Outlines as they are drawn, and outlines handed in.

use super::answers::{self, Events, Meeting, Nearest, NearestPoints, Place, Point};
use crate::ffi;
use crate::refusal::Refusal;

/// How many vertices the outline of these numbers has: 1, 2, 4 to 7, 27, 8, 9.
pub fn check(numbers: &[f64]) -> Result<usize, Refusal> {
    // SAFETY: the pointer leads to as many numbers as are said.
    answers::vertices(unsafe { ffi::lw_check(numbers.as_ptr(), numbers.len()) })
}

/// Writes the outline of these numbers to `out`, counter-clockwise, and says how many vertices it has: 1, 2, 4 to 7, 27, 8, 9, then
/// 20.
pub fn outline(numbers: &[f64], out: &mut [f64]) -> Result<usize, Refusal> {
    // SAFETY: both pointers lead to as many numbers as are said, and a `&mut` is apart from a `&`.
    answers::vertices(unsafe {
        ffi::lw_outline(numbers.as_ptr(), numbers.len(), out.as_mut_ptr(), out.len())
    })
}

/// Where a point lies in an outline handed in: 21, then 2 of the point.
pub fn contains(outline: &[f64], point: Point) -> Result<Place, Refusal> {
    // SAFETY: the pointer leads to as many numbers as are said.
    answers::place(unsafe { ffi::lw_contains(outline.as_ptr(), outline.len(), point.0, point.1) })
}

/// The nearest point of the boundary of an outline handed in: 21, then 2 of the point.
pub fn nearest(outline: &[f64], point: Point) -> Result<Nearest, Refusal> {
    // SAFETY: the pointer leads to as many numbers as are said.
    answers::nearest(unsafe { ffi::lw_nearest(outline.as_ptr(), outline.len(), point.0, point.1) })
}

/// The area of an outline handed in: 21.
pub fn area(outline: &[f64]) -> Result<f64, Refusal> {
    // SAFETY: the pointer leads to as many numbers as are said.
    answers::area(unsafe { ffi::lw_area(outline.as_ptr(), outline.len()) })
}

/// The length of the boundary of an outline handed in: 21.
pub fn perimeter(outline: &[f64]) -> Result<f64, Refusal> {
    // SAFETY: the pointer leads to as many numbers as are said.
    answers::length(unsafe { ffi::lw_perimeter(outline.as_ptr(), outline.len()) })
}

/// The largest absolute coordinate of an outline handed in: 21.
pub fn extent(outline: &[f64]) -> Result<f64, Refusal> {
    // SAFETY: the pointer leads to as many numbers as are said.
    answers::length(unsafe { ffi::lw_extent(outline.as_ptr(), outline.len()) })
}

/// The clearance of two outlines handed in: the least distance from a vertex of either to an edge of the other, and 0 if an edge of
/// one meets an edge of the other: 21 of the first, then of the second. It is the same, bit for bit, whichever is named first.
pub fn clearance(first: &[f64], second: &[f64]) -> Result<f64, Refusal> {
    // SAFETY: both pointers lead to as many numbers as are said.
    answers::length(unsafe {
        ffi::lw_clearance(first.as_ptr(), first.len(), second.as_ptr(), second.len())
    })
}

/// Where two outlines handed in come nearest, none where they meet: 21 of the first, then of the second. The distance is their
/// [`clearance`]. Each vertex of the first is asked for the nearest point of the second, from vertex 0 on, then each of the second
/// for that of the first. Of several as near the first counts.
pub fn nearest_points(first: &[f64], second: &[f64]) -> Result<Option<NearestPoints>, Refusal> {
    if meeting(first, second)?.is_some() {
        return Ok(None);
    }
    let mut found: Option<NearestPoints> = None;
    for (asking, asked, back) in [(first, second, false), (second, first, true)] {
        for numbers in asking.chunks_exact(2) {
            let vertex = (numbers[0], numbers[1]);
            let Nearest { distance, point } = nearest(asked, vertex)?;
            if found.map_or(true, |least| distance < least.distance) {
                let [of_first, of_second] = if back {
                    [point, vertex]
                } else {
                    [vertex, point]
                };
                found = Some(NearestPoints {
                    distance,
                    of_first,
                    of_second,
                });
            }
        }
    }
    Ok(found)
}

/// Two edges of two outlines handed in that meet, which is told exactly; none where no two do. The outline of fewer vertices is in
/// the outer walk, of two with as many the first: [`Meeting`] has the lowest edge there that meets any of the other outline, and the
/// lowest of the other that it meets: 21 of the first, then of the second.
pub fn meeting(first: &[f64], second: &[f64]) -> Result<Option<Meeting>, Refusal> {
    // SAFETY: both pointers lead to as many numbers as are said.
    answers::meeting(unsafe {
        ffi::lw_meeting(first.as_ptr(), first.len(), second.as_ptr(), second.len())
    })
}

/// Vertex k of an outline handed in, none where there are no more than k: 21.
pub fn vertex(outline: &[f64], k: usize) -> Result<Option<Point>, Refusal> {
    // SAFETY: the pointer leads to as many numbers as are said.
    let a = unsafe { ffi::lw_vertex(outline.as_ptr(), outline.len(), k) };
    Refusal::told(a.refusal, 0, 0, 0, 0.0)?;
    Ok((k < outline.len() / 2).then_some((a.east, a.north)))
}

/// Edge k of an outline handed in, from vertex k to the next, the last one closing the ring; none where there are no more than k: 21.
pub fn edge(outline: &[f64], k: usize) -> Result<Option<(Point, Point)>, Refusal> {
    // SAFETY: the pointer leads to as many numbers as are said.
    let a = unsafe { ffi::lw_edge(outline.as_ptr(), outline.len(), k) };
    Refusal::told(a.refusal, 0, 0, 0, 0.0)?;
    let ends = ((a.start_east, a.start_north), (a.end_east, a.end_north));
    Ok((k < outline.len() / 2).then_some(ends))
}

/// Writes the inset of an outline handed in to `out`, and says how many vertices it has: 21, 13, 14, what the offset meets, then 20.
/// The completed events stand beside it, refused or not. Above 0 its vertices lie at least as far from the
/// outline's edges as [`Outline::inset`](crate::Outline::inset) says.
pub fn inset(outline: &[f64], distance: f64, out: &mut [f64]) -> (Result<usize, Refusal>, Events) {
    // SAFETY: both pointers lead to as many numbers as are said, and a `&mut` is apart from a `&`.
    answers::offset(unsafe {
        ffi::lw_inset(
            outline.as_ptr(),
            outline.len(),
            distance,
            out.as_mut_ptr(),
            out.len(),
        )
    })
}

/// Writes the outset, likewise, but of exact distances nothing is promised.
pub fn outset(outline: &[f64], distance: f64, out: &mut [f64]) -> (Result<usize, Refusal>, Events) {
    // SAFETY: as for `inset`.
    answers::offset(unsafe {
        ffi::lw_outset(
            outline.as_ptr(),
            outline.len(),
            distance,
            out.as_mut_ptr(),
            out.len(),
        )
    })
}
