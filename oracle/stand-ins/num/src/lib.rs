//! Stand-in for `num`: the traits that the Rust's `FloatElement` asks for, with the methods that its
//! files call, for f32 and f64. Each method is the operation of the standard library.

use std::ops::{Add, AddAssign, Div, DivAssign, Mul, MulAssign, Neg, Sub, SubAssign};

/// Types with a zero.
pub trait Zero: Sized + Add<Output = Self> {
    fn zero() -> Self;
}

/// Types with a sign.
pub trait Signed: Neg<Output = Self> {}

/// The questions that the Rust and the tie rules ask of a float.
pub trait Float: Copy + PartialOrd + Neg<Output = Self> {
    fn max_value() -> Self;
    fn is_nan(self) -> bool;
    fn is_infinite(self) -> bool;
    fn is_sign_negative(self) -> bool;
    fn sqrt(self) -> Self;
}

/// The module that the Rust takes further traits from.
pub mod traits {
    use super::*;

    /// Numbers made from f32 and usize; both are rounded as `as` rounds.
    pub trait FromPrimitive: Sized {
        fn from_f32(value: f32) -> Option<Self>;
        fn from_usize(value: usize) -> Option<Self>;
    }

    /// Arithmetic, also in place.
    pub trait NumAssign:
        Sized
        + Add<Output = Self>
        + Sub<Output = Self>
        + Mul<Output = Self>
        + Div<Output = Self>
        + AddAssign
        + SubAssign
        + MulAssign
        + DivAssign
    {
    }

    /// Named in a bound; none of its constants is read.
    pub trait FloatConst {}
}

macro_rules! float {
    ($float:ident) => {
        impl Zero for $float {
            fn zero() -> Self {
                0.0
            }
        }

        impl Signed for $float {}

        impl Float for $float {
            fn max_value() -> Self {
                $float::MAX
            }
            fn is_nan(self) -> bool {
                $float::is_nan(self)
            }
            fn is_infinite(self) -> bool {
                $float::is_infinite(self)
            }
            fn is_sign_negative(self) -> bool {
                $float::is_sign_negative(self)
            }
            fn sqrt(self) -> Self {
                $float::sqrt(self)
            }
        }

        impl traits::FromPrimitive for $float {
            fn from_f32(value: f32) -> Option<Self> {
                Some(value as $float)
            }
            fn from_usize(value: usize) -> Option<Self> {
                Some(value as $float)
            }
        }

        impl traits::NumAssign for $float {}
        impl traits::FloatConst for $float {}
    };
}

float!(f32);
float!(f64);
