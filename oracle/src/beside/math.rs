//! `crate::math`: kinavis's own, with `hypot` chosen at start-up.

#[rustfmt::skip]
#[path = "../kinavis/kernel/math.rs"]
mod kernel;

#[cfg(not(feature = "unpatched"))]
pub use crate::hypot::chosen as hypot;
pub use kernel::*;

/// `hypot` as kinavis has it.
pub fn library_hypot(x: f64, y: f64) -> f64 {
    kernel::hypot(x, y)
}
