//! Vectors of one lane, on which a multiply-add is a rounded product, then a rounded sum.

use std::ops::{Add, Div, Mul, Sub};

pub trait SimdDescriptor: Copy {
    type F32Vec: F32SimdVec<Descriptor = Self>;
}

pub trait F32SimdVec:
    Copy + Add<Output = Self> + Sub<Output = Self> + Mul<Output = Self> + Div<Output = Self>
{
    type Descriptor: SimdDescriptor;
    const LEN: usize;

    fn splat(d: Self::Descriptor, value: f32) -> Self;
    fn load(d: Self::Descriptor, memory: &[f32]) -> Self;
    fn store(&self, memory: &mut [f32]);
    fn mul_add(self, factor: Self, addend: Self) -> Self;
    fn abs(self) -> Self;
    fn sqrt(self) -> Self;
    fn copysign(self, sign: Self) -> Self;
}

/// The only descriptor here.
#[derive(Clone, Copy)]
pub struct Scalar;

impl SimdDescriptor for Scalar {
    type F32Vec = Lane;
}

#[derive(Clone, Copy)]
pub struct Lane(pub f32);

impl F32SimdVec for Lane {
    type Descriptor = Scalar;
    const LEN: usize = 1;

    fn splat(_: Scalar, value: f32) -> Self {
        Lane(value)
    }

    fn load(_: Scalar, memory: &[f32]) -> Self {
        Lane(memory[0])
    }

    fn store(&self, memory: &mut [f32]) {
        memory[0] = self.0;
    }

    fn mul_add(self, factor: Self, addend: Self) -> Self {
        self * factor + addend
    }

    fn abs(self) -> Self {
        Lane(self.0.abs())
    }

    fn sqrt(self) -> Self {
        Lane(self.0.sqrt())
    }

    fn copysign(self, sign: Self) -> Self {
        Lane(self.0.copysign(sign.0))
    }
}

impl Add for Lane {
    type Output = Self;
    fn add(self, other: Self) -> Self {
        Lane(self.0 + other.0)
    }
}

impl Sub for Lane {
    type Output = Self;
    fn sub(self, other: Self) -> Self {
        Lane(self.0 - other.0)
    }
}

impl Mul for Lane {
    type Output = Self;
    fn mul(self, other: Self) -> Self {
        Lane(self.0 * other.0)
    }
}

impl Div for Lane {
    type Output = Self;
    fn div(self, other: Self) -> Self {
        Lane(self.0 / other.0)
    }
}

/// Makes the function over a descriptor, and the one that calls it with the descriptor at hand.
macro_rules! simd_function {
    (
        $dispatch:ident,
        $d:ident : $D:ident,
        fn $name:ident($($argument:ident : $type:ty),* $(,)?) $body:block
    ) => {
        fn $name<$D: SimdDescriptor>($d: $D, $($argument: $type),*) $body

        fn $dispatch($($argument: $type),*) {
            $name($crate::stubs::jxl_simd::Scalar, $($argument),*)
        }
    };
}
pub(crate) use simd_function;
