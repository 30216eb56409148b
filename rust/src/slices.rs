//! The functions over numbers and lent output. Nothing is allocated.
//!
//! Numbers come as one flat list, east then north of each vertex. Where a call is refused the output is as it was; a granted one
//! changes only the numbers that it writes. An output of [`OUTLINE_NUMBERS`](crate::OUTLINE_NUMBERS) is long enough for any
//! outline, one of [`REGION_NUMBERS`](crate::REGION_NUMBERS) for any region.
//!
//! Numbers *as drawn* are checked: [`check`], [`outline`], [`region`], [`region_inset`]. Any other function takes a shape as one of
//! these, or an inset or outset, wrote it, asks 21 of it, and works on it as it is: 27 is not asked of it, so that an inset with an
//! edge shorter than 0.000001 can be inset again.
//!
//! Each ring of such a shape runs counter-clockwise, holes too. That is not asked: of a hole that runs clockwise, as in GeoJSON, an
//! inset can be granted without it, and the cage then runs over the hole. [`outline`] and [`region`] turn such rings round.
//!
//! ```
//! use lizardwire::{slices, Refusal, REGION_NUMBERS};
//!
//! let drawn = [0.0, 0.0, 9.0, 0.0, 9.0, 9.0, 0.0, 9.0, 4.0, 4.0, 5.0, 4.0, 5.0, 5.0, 4.0, 5.0];
//! let (mut first, mut second) = ([0.0; REGION_NUMBERS], [0.0; REGION_NUMBERS]);
//! let rings = slices::region_inset(&drawn, &[4, 4], 0.5, &mut first).0?;
//! let cage = &first[..rings.numbers()];
//! assert_eq!(slices::region_area(cage, rings.counts())?, 60.0);
//! let again = slices::stored_region_inset(cage, rings.counts(), 0.5, &mut second).0?;
//! assert_eq!(slices::region_area(&second[..again.numbers()], again.counts())?, 40.0);
//! # Ok::<(), Refusal>(())
//! ```

mod answers;
mod lines;
mod outlines;
mod regions;

pub use answers::{Events, Meeting, Nearest, NearestPoints, Place, Point, Rings};
pub use lines::{job_line, Fed, NotFed, Stream};
pub use outlines::*;
pub use regions::*;

use crate::ffi;

/// The double nearest to the root of x² + y², ties to even.
pub fn hypot(x: f64, y: f64) -> f64 {
    // SAFETY: takes and gives numbers.
    unsafe { ffi::lw_hypot(x, y) }
}

/// The version of the library that is linked, which is [`VERSION`](crate::VERSION) where both are of one build.
pub fn version() -> usize {
    // SAFETY: gives a number.
    unsafe { ffi::lw_version() }
}
