//! `Height`, for `VerticalLimits`, which no job uses.

use super::kernel::KernelError;
use super::units::Distance;

/// Height on one datum.
#[derive(Debug, Clone, Copy, PartialEq)]
pub struct Height(f64);

impl Height {
    /// How far this height lies above another.
    pub fn difference(self, other: Self) -> Result<Distance, KernelError> {
        Distance::from_metres(self.0 - other.0)
    }
}
