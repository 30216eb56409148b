//! `crate::error`: kinavis's own errors, and those of its kernel.

#[rustfmt::skip]
#[path = "../kinavis/error.rs"]
pub mod navigation;

pub use crate::beside::kernel::{ensure_finite, ensure_range, Excerpt, KernelError, EXCERPT_BYTES};
pub use navigation::{NavigationError, Result};
