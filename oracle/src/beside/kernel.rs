//! `KernelError` with the cases that the files of kinavis name.

use core::fmt;

/// Failure of a value type or of a numeric step.
#[derive(Debug, Clone, PartialEq)]
pub enum KernelError {
    /// `NaN` or infinity.
    NotFinite { parameter: &'static str, value: f64 },
    /// A value beyond its bounds.
    OutOfRange {
        parameter: &'static str,
        value: f64,
        min: f64,
        max: f64,
    },
    /// Too few elements.
    InsufficientData {
        found: usize,
        required: usize,
        context: &'static str,
    },
    /// Too many elements.
    CapacityExceeded {
        context: &'static str,
        needed: usize,
        capacity: usize,
    },
    /// A loop that did not end in its limit.
    NotConverged { iterations: u32, residual: f64 },
    /// A quantity that is not defined.
    Indeterminate { quantity: &'static str },
}

impl fmt::Display for KernelError {
    fn fmt(&self, f: &mut fmt::Formatter<'_>) -> fmt::Result {
        write!(f, "{self:?}")
    }
}

impl core::error::Error for KernelError {}

/// Refuses `NaN` and infinity.
pub fn ensure_finite(parameter: &'static str, value: f64) -> Result<f64, KernelError> {
    if value.is_finite() {
        Ok(value)
    } else {
        Err(KernelError::NotFinite { parameter, value })
    }
}

/// Refuses a value beyond its bounds; no file here calls it.
pub fn ensure_range(
    parameter: &'static str,
    value: f64,
    min: f64,
    max: f64,
) -> Result<f64, KernelError> {
    if (min..=max).contains(&value) {
        Ok(value)
    } else {
        Err(KernelError::OutOfRange {
            parameter,
            value,
            min,
            max,
        })
    }
}

/// Named by `error.rs`, used by none.
pub type Excerpt = &'static str;
/// Named by `error.rs`, used by none.
pub const EXCERPT_BYTES: usize = 0;
