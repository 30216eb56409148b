//! Stand-ins for what the files of kinavis use.

pub mod error;
pub mod geodesy;
pub mod inline;
pub mod kernel;
pub mod math;
pub mod units;
