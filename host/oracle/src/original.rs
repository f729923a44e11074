//! The text of spline.rs (build.rs fetches it; only its two calls of `ln` are changed), with the names that it expects in scope.

// Outside crates of the original, as modules of the same names.
use crate::stubs::{jxl_simd, num_traits, whereat};
// Shadows the standard `Vec` and `vec!`.
use crate::stubs::memory::{vec, Vec};

include!(concat!(env!("OUT_DIR"), "/spline.rs"));

pub(crate) mod layers;
