//! Regions as they are drawn, and regions handed in: the rings' numbers one after the other, and the vertices of each ring.

use super::answers::{self, Events, Nearest, Place, Point, Rings};
use crate::ffi;
use crate::refusal::Refusal;

/// Writes the region of these numbers to `out`, ring after ring; `lengths` has the vertices of each ring: 1 to 7, 27, 8 to 12, then
/// 20.
pub fn region(numbers: &[f64], lengths: &[usize], out: &mut [f64]) -> Result<Rings, Refusal> {
    let (n, l, o) = (numbers, lengths, out);
    // SAFETY: each pointer leads to as many numbers as are said, and a `&mut` is apart from a `&`.
    answers::rings(unsafe {
        ffi::lw_region(
            n.as_ptr(),
            n.len(),
            l.as_ptr(),
            l.len(),
            o.as_mut_ptr(),
            o.len(),
        )
    })
}

/// Writes the inset of the region of these numbers to `out`: 1 to 7, 27, 8 to 14, what the offset meets, then 20. Above 0 its
/// vertices lie at least as far from the edges of the rings handed in as [`Region::inset`](crate::Region::inset) says.
pub fn region_inset(
    numbers: &[f64],
    lengths: &[usize],
    distance: f64,
    out: &mut [f64],
) -> (Result<Rings, Refusal>, Events) {
    let (n, l, o) = (numbers, lengths, out);
    // SAFETY: each pointer leads to as many numbers as are said, and a `&mut` is apart from a `&`.
    answers::region_offset(unsafe {
        ffi::lw_region_inset(
            n.as_ptr(),
            n.len(),
            l.as_ptr(),
            l.len(),
            distance,
            o.as_mut_ptr(),
            o.len(),
        )
    })
}

/// Writes the region of given outlines to `out` as they are, the outer one first: 21 (not of more than 8 holes), 10, 11, 12, then 20.
/// One that runs clockwise is not turned round; [`region`] does that.
pub fn given_region(numbers: &[f64], counts: &[usize], out: &mut [f64]) -> Result<Rings, Refusal> {
    let (n, c, o) = (numbers, counts, out);
    // SAFETY: each pointer leads to as many numbers as are said, and a `&mut` is apart from a `&`.
    answers::rings(unsafe {
        ffi::lw_given_region(
            n.as_ptr(),
            n.len(),
            c.as_ptr(),
            c.len(),
            o.as_mut_ptr(),
            o.len(),
        )
    })
}

/// Writes an outline handed in to `out` as it is, not turned round, a region without holes: 21, then 20.
pub fn without_holes(outline: &[f64], out: &mut [f64]) -> Result<Rings, Refusal> {
    // SAFETY: both pointers lead to as many numbers as are said, and a `&mut` is apart from a `&`.
    answers::rings(unsafe {
        ffi::lw_without_holes(outline.as_ptr(), outline.len(), out.as_mut_ptr(), out.len())
    })
}

/// Does 21 pass this region? Its rings are told: 21. How they run is not asked.
pub fn stored_region(numbers: &[f64], counts: &[usize]) -> Result<Rings, Refusal> {
    let (n, c) = (numbers, counts);
    // SAFETY: both pointers lead to as many numbers as are said.
    answers::rings(unsafe { ffi::lw_stored_region(n.as_ptr(), n.len(), c.as_ptr(), c.len()) })
}

/// Writes the inset of a region handed in to `out`: 21, 13, 14, what the offset meets, then 20. How far its vertices lie from
/// what is handed in, [`Region::inset`](crate::Region::inset) says. Holes run counter-clockwise, too: the inset of one that runs
/// clockwise can be granted without it.
pub fn stored_region_inset(
    numbers: &[f64],
    counts: &[usize],
    distance: f64,
    out: &mut [f64],
) -> (Result<Rings, Refusal>, Events) {
    let (n, c, o) = (numbers, counts, out);
    // SAFETY: each pointer leads to as many numbers as are said, and a `&mut` is apart from a `&`.
    answers::region_offset(unsafe {
        ffi::lw_stored_region_inset(
            n.as_ptr(),
            n.len(),
            c.as_ptr(),
            c.len(),
            distance,
            o.as_mut_ptr(),
            o.len(),
        )
    })
}

/// Where a point lies in a region handed in; one in a hole is outside, and one on its edge on the boundary, but right beside the
/// outer ring that can be told outside: 21, then 2 of the point.
pub fn region_contains(numbers: &[f64], counts: &[usize], point: Point) -> Result<Place, Refusal> {
    let (n, c) = (numbers, counts);
    // SAFETY: both pointers lead to as many numbers as are said.
    answers::place(unsafe {
        ffi::lw_region_contains(n.as_ptr(), n.len(), c.as_ptr(), c.len(), point.0, point.1)
    })
}

/// The nearest point of the boundary of a region handed in, that of the holes too: 21, then 2 of the point.
pub fn region_nearest(numbers: &[f64], counts: &[usize], point: Point) -> Result<Nearest, Refusal> {
    let (n, c) = (numbers, counts);
    // SAFETY: both pointers lead to as many numbers as are said.
    answers::nearest(unsafe {
        ffi::lw_region_nearest(n.as_ptr(), n.len(), c.as_ptr(), c.len(), point.0, point.1)
    })
}

/// The area inside the outer ring and outside every hole of a region handed in: 21.
pub fn region_area(numbers: &[f64], counts: &[usize]) -> Result<f64, Refusal> {
    let (n, c) = (numbers, counts);
    // SAFETY: both pointers lead to as many numbers as are said.
    answers::area(unsafe { ffi::lw_region_area(n.as_ptr(), n.len(), c.as_ptr(), c.len()) })
}

/// The length of the outer ring and of every hole of a region handed in: 21.
pub fn region_perimeter(numbers: &[f64], counts: &[usize]) -> Result<f64, Refusal> {
    let (n, c) = (numbers, counts);
    // SAFETY: both pointers lead to as many numbers as are said.
    answers::length(unsafe { ffi::lw_region_perimeter(n.as_ptr(), n.len(), c.as_ptr(), c.len()) })
}

/// Writes the outer ring of a region handed in to `out`, and says how many vertices it has: 21, then 20.
pub fn region_outer(numbers: &[f64], counts: &[usize], out: &mut [f64]) -> Result<usize, Refusal> {
    let (n, c, o) = (numbers, counts, out);
    // SAFETY: each pointer leads to as many numbers as are said, and a `&mut` is apart from a `&`.
    answers::vertices(unsafe {
        ffi::lw_region_outer(
            n.as_ptr(),
            n.len(),
            c.as_ptr(),
            c.len(),
            o.as_mut_ptr(),
            o.len(),
        )
    })
}

/// Writes hole k of a region handed in to `out`, and says how many vertices it has; where there are no more than k, that is none
/// and nothing is written: 21, then 20.
pub fn region_hole(
    numbers: &[f64],
    counts: &[usize],
    k: usize,
    out: &mut [f64],
) -> Result<Option<usize>, Refusal> {
    let (n, c, o) = (numbers, counts, out);
    // SAFETY: each pointer leads to as many numbers as are said, and a `&mut` is apart from a `&`.
    let told = answers::vertices(unsafe {
        ffi::lw_region_hole(
            n.as_ptr(),
            n.len(),
            c.as_ptr(),
            c.len(),
            k,
            o.as_mut_ptr(),
            o.len(),
        )
    });
    told.map(|count| (count > 0).then_some(count))
}
