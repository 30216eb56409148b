//! `Distance`: a finite number of metres.

use super::kernel::{ensure_finite, KernelError};

/// A finite length.
#[derive(Debug, Clone, Copy, PartialEq, PartialOrd, Default)]
pub struct Distance(f64);

impl Distance {
    /// No length.
    pub const ZERO: Self = Self(0.0);

    /// From metres; refuses `NaN` and infinity.
    pub fn from_metres(value: f64) -> Result<Self, KernelError> {
        ensure_finite("distance", value)?;
        Ok(Self(value))
    }

    /// In metres.
    pub const fn metres(self) -> f64 {
        self.0
    }
}
