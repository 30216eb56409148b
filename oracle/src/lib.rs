//! The `region` module of kinavis, run on job lines.
//!
//! `src/kinavis/` holds the files of kinavis 788b4e6149; CHANGES.md lists what
//! was changed in them. `src/beside/` stands in for what they use and what is
//! not among them.

// `error.rs` imports from the crate `kinavis_kernel`; its names are in `error`.
extern crate self as kinavis_kernel;

mod beside;
pub use beside::{error, geodesy, inline, math, units};

#[rustfmt::skip]
#[path = "kinavis/region/mod.rs"]
pub mod region;

pub mod answer;
pub mod draw;
pub mod events;
pub mod generate;
pub mod hypot;
pub mod job;
pub mod lines;
pub mod outlines;
pub mod regions;
pub mod stored;
pub mod tally;
pub mod turns;
pub mod wrong;
