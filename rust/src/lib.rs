//! Lizardwire: cages of outlines and regions.
//!
//! An outline and a distance go in; the ring that its edges make once they have moved inward (or outward) by that distance
//! comes out, or a [`Refusal`] that says which question was answered with no, and the value that goes with it. Where a
//! drawing has a narrow place, the ring can lack the part behind it.
//!
//! ```
//! use lizardwire::{Outline, Place, Refusal};
//!
//! let square = Outline::new(&[(0.0, 0.0), (4.0, 0.0), (4.0, 4.0), (0.0, 4.0)])?;
//! assert_eq!(square.inset(1.0)?.vertices(), [(1.0, 1.0), (3.0, 1.0), (3.0, 3.0), (1.0, 3.0)]);
//! assert_eq!(square.contains((4.0, 2.0))?, Place::OnBoundary);
//! assert_eq!(square.inset(2.0), Err(Refusal::Collapses { distance: 2.0 }));
//! assert_eq!(square.inset(1.0)?.inset(0.5)?.area(), 1.0);
//! # Ok::<(), Refusal>(())
//! ```
//!
//! A [`Region`] is an outline with holes. What an inset gives is an outline or a region again, which can be asked and inset like
//! any other. [`slices`] has the same without any allocation, over numbers and lent output. [`answer_jobs`] answers job lines.
//!
//! What may grow is open: a `match` on a [`Refusal`] or a [`Place`] needs a `_`, and no struct of answers can be written out.
//!
//! ```compile_fail,E0004
//! fn covered(place: lizardwire::Place) -> bool {
//!     match place {
//!         lizardwire::Place::Inside | lizardwire::Place::OnBoundary => true,
//!         lizardwire::Place::Outside => false,
//!     }
//! }
//! ```
//!
//! The work is done by the proved functions of `lizardwire_c`, linked as a static library for x86-64 Linux, which `tools/library`
//! builds; one that stands elsewhere is named in cargo's configuration, by `rustc-link-search` and `rustc-link-lib` under
//! `[target.x86_64-unknown-linux-gnu.lizardwire_c]`. This crate is ordinary Rust over them, and has no dependencies.
//!
//! How much stack a call takes stands at the top of `include/lizardwire.h`. The 2 MB of a thread that Rust starts have room for any;
//! a smaller stack may not.

#![deny(improper_ctypes)]
#![deny(missing_docs)]
#![deny(unsafe_op_in_unsafe_fn)]

mod drawing;
mod ffi;
mod jobs;
mod refusal;
mod shapes;
pub mod slices;
mod words;

pub use jobs::{answer_jobs, answer_line};
pub use refusal::Refusal;
pub use shapes::{Outline, Region};
pub use slices::{hypot, version, Events, Meeting, Nearest, NearestPoints, Place, Point};
pub use words::words;

/// The version of the library's header that this crate is written for; [`version`] says that of the library.
pub const VERSION: usize = 4;
/// The most vertices of an outline, and of the front of an offset.
pub const VERTICES: usize = 128;
/// The most holes of a region.
pub const HOLES: usize = 8;
/// The most vertices of a hole.
pub const HOLE_VERTICES: usize = 32;
/// Lent output of this many numbers is never too short for an outline.
pub const OUTLINE_NUMBERS: usize = 256;
/// Lent output of this many numbers is never too short for a region.
pub const REGION_NUMBERS: usize = 768;
/// The longest job line that is read, in bytes, LF not counted; an answer line is shorter.
pub const LINE_BYTES: usize = 16_384;
/// The state of a stream of job lines, in bytes.
pub const STREAM_BYTES: usize = 16_387;
/// Lent output of this many bytes is never too short for an answer of a stream, with its LF.
pub const STREAM_OUTPUT: usize = 16_385;
