//! Comparisons on fixed cases: spline.rs against the second reading of the scope, and the port against both.

pub mod bands;
pub mod build;
pub mod check;
pub mod curve;
pub mod dequantize;
pub mod desks;
pub mod draw;
pub mod numbers;
pub mod polyline;
#[cfg(feature = "port")]
pub mod port;
pub mod profile;
pub mod reach;
pub mod read;
pub mod segments;
pub mod tally;
pub mod trace;
pub mod transform;
pub mod verdict;
pub mod write;
