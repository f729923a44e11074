//! What spline.rs leans on, at the paths where it looks for it: parts of the original where the scope names them
//! (fetched by build.rs), plain stand-ins for the rest.

pub(crate) mod jxl_simd;
pub(crate) mod list;
pub(crate) mod logarithm;
pub(crate) mod memory;

/// `JxlCodestreamLevel` with `spline_area_limit`, from options.rs.
pub(crate) mod api {
    include!(concat!(env!("OUT_DIR"), "/options.rs"));
}

pub(crate) mod bit_reader {
    pub use super::list::BitReader;
}

/// `unpack_signed` from decode.rs; the readers are stand-ins.
pub(crate) mod entropy_coding {
    pub mod decode {
        pub use crate::stubs::list::{Histograms, SymbolReader};
        include!(concat!(env!("OUT_DIR"), "/decode.rs"));
    }
}

pub(crate) mod error {
    use crate::original::Point;
    use crate::stubs::memory::OutOfMemory;
    use crate::Why;
    use std::ops::Range;

    pub type Result<T> = std::result::Result<T, Error>;

    /// The errors that spline.rs names, with what it puts into them.
    #[derive(Debug)]
    #[allow(dead_code)]
    pub enum Error {
        SplinesTooMany(u32, u32),
        SplinesCoordinatesLimit(isize, isize),
        SplinesTooManyControlPoints(u32, u32),
        SplinesDeltaLimit(i64, i64),
        SplinesPointOutOfRange(Point, i32, Range<i32>),
        SplinesDistanceTooLarge(u64, u64),
        SplinesAreaTooLarge(u64, u64),
        SplineAdjacentCoincidingControlPoints(usize, Point, usize, Point),
        OutOfMemory,
    }

    impl From<OutOfMemory> for Error {
        fn from(_: OutOfMemory) -> Self {
            Error::OutOfMemory
        }
    }

    impl Error {
        /// Its plain name; none for memory.
        pub fn why(&self) -> Option<Why> {
            Some(match self {
                Error::SplinesTooMany(..) => Why::SplinesTooMany,
                Error::SplinesCoordinatesLimit(..) => Why::SplinesCoordinatesLimit,
                Error::SplinesTooManyControlPoints(..) => Why::SplinesTooManyControlPoints,
                Error::SplinesDeltaLimit(..) => Why::SplinesDeltaLimit,
                Error::SplinesPointOutOfRange(..) => Why::SplinesPointOutOfRange,
                Error::SplinesDistanceTooLarge(..) => Why::SplinesDistanceTooLarge,
                Error::SplinesAreaTooLarge(..) => Why::SplinesAreaTooLarge,
                Error::SplineAdjacentCoincidingControlPoints(..) => {
                    Why::SplineAdjacentCoincidingControlPoints
                }
                Error::OutOfMemory => return None,
            })
        }
    }
}

pub(crate) mod frame {
    pub mod color_correlation_map {
        /// The two correlations, given as they are.
        pub struct ColorCorrelationParams {
            pub y_to_x: f32,
            pub y_to_b: f32,
        }

        impl ColorCorrelationParams {
            /// spline.rs asks for factor 0 only.
            pub fn y_to_x(&self, _factor: i32) -> f32 {
                self.y_to_x
            }

            pub fn y_to_b(&self, _factor: i32) -> f32 {
                self.y_to_b
            }
        }
    }
}

/// `fast_cos` and `fast_erff_simd` from fast_math.rs, all of log2.rs; no memory tracking, no tracing.
pub(crate) mod util {
    pub use super::memory::{MemoryTracker, NewWithCapacity};
    pub use fast_math::{fast_cos, fast_erff_simd};
    pub use log2::CeilLog2;

    mod fast_math {
        use crate::stubs::jxl_simd::{F32SimdVec, SimdDescriptor};
        use std::f32::consts::{PI, SQRT_2};
        include!(concat!(env!("OUT_DIR"), "/fast_math.rs"));
    }

    mod log2 {
        include!(concat!(env!("OUT_DIR"), "/log2.rs"));
    }

    pub mod tracing_wrappers {
        pub use instrument::instrument;

        /// Traces nothing.
        macro_rules! trace {
            ($($anything:tt)*) => {};
        }
        pub(crate) use trace;
    }
}

pub(crate) mod whereat {
    /// Adds no place to an error.
    macro_rules! at {
        ($error:expr) => {
            $error
        };
    }
    pub(crate) use at;
}

pub(crate) mod num_traits {
    /// The one conversion that spline.rs uses, with the range tests of the crate num_traits.
    pub trait ToPrimitive {
        fn to_i32(&self) -> Option<i32>;
    }

    impl ToPrimitive for i32 {
        fn to_i32(&self) -> Option<i32> {
            Some(*self)
        }
    }

    impl ToPrimitive for f32 {
        /// Toward zero; none for a NaN and for anything outside -2^31 up to but not including 2^31.
        fn to_i32(&self) -> Option<i32> {
            const MIN: f32 = i32::MIN as f32;
            const PAST_MAX: f32 = i32::MAX as f32;
            (*self >= MIN && *self < PAST_MAX).then(|| *self as i32)
        }
    }
}
