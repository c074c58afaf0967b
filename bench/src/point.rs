//! Complex numbers for nalgebra with the library's modulus, the root of re·re + im·im: simba's own takes the C library's hypot.
//! All else is by parts, as simba's. What the symmetric decomposition never calls is not there, and says so if it is called.
use num_traits::{FromPrimitive, Num, One, Zero};
use simba::scalar::{ComplexField, Field, RealField, SubsetOf};
use simba::simd::SimdValue;
use std::fmt;
use std::ops::{Add, AddAssign, Div, DivAssign, Mul, MulAssign, Neg, Rem, RemAssign, Sub, SubAssign};

/// Laid out as C's struct of two parts.
#[repr(C)]
#[derive(Clone, Copy, Debug, PartialEq)]
pub struct Point<F> {
    pub re: F,
    pub im: F,
}

fn absent() -> ! {
    unimplemented!("no part of the symmetric decomposition")
}

impl<F: fmt::Display> fmt::Display for Point<F> {
    fn fmt(&self, f: &mut fmt::Formatter<'_>) -> fmt::Result {
        write!(f, "{} + {}i", self.re, self.im)
    }
}

impl<F: Copy> Point<F> {
    #[inline]
    fn map(self, each: impl Fn(F) -> F) -> Point<F> {
        Point { re: each(self.re), im: each(self.im) }
    }

    #[inline]
    fn zip(self, other: Point<F>, each: impl Fn(F, F) -> F) -> Point<F> {
        Point { re: each(self.re, other.re), im: each(self.im, other.im) }
    }
}

impl<F: RealField + Copy> Add for Point<F> {
    type Output = Point<F>;

    #[inline]
    fn add(self, other: Point<F>) -> Point<F> {
        self.zip(other, |a, b| a + b)
    }
}

impl<F: RealField + Copy> Sub for Point<F> {
    type Output = Point<F>;

    #[inline]
    fn sub(self, other: Point<F>) -> Point<F> {
        self.zip(other, |a, b| a - b)
    }
}

impl<F: RealField + Copy> Mul for Point<F> {
    type Output = Point<F>;

    #[inline]
    fn mul(self, other: Point<F>) -> Point<F> {
        Point { re: self.re * other.re - self.im * other.im, im: self.re * other.im + self.im * other.re }
    }
}

impl<F: RealField + Copy> Neg for Point<F> {
    type Output = Point<F>;

    #[inline]
    fn neg(self) -> Point<F> {
        self.map(|a| -a)
    }
}

impl<F: RealField + Copy> Div for Point<F> {
    type Output = Point<F>;

    fn div(self, _: Point<F>) -> Point<F> {
        absent()
    }
}

impl<F: RealField + Copy> Rem for Point<F> {
    type Output = Point<F>;

    fn rem(self, _: Point<F>) -> Point<F> {
        absent()
    }
}

macro_rules! assigns {
    ($($operation:ident $function:ident $operator:tt;)*) => {$(
        impl<F: RealField + Copy> $operation for Point<F> {
            #[inline]
            fn $function(&mut self, other: Point<F>) {
                *self = *self $operator other;
            }
        }
    )*};
}

assigns! {
    AddAssign add_assign +;
    SubAssign sub_assign -;
    MulAssign mul_assign *;
    DivAssign div_assign /;
    RemAssign rem_assign %;
}

impl<F: RealField + Copy> Zero for Point<F> {
    #[inline]
    fn zero() -> Point<F> {
        Point { re: F::zero(), im: F::zero() }
    }

    #[inline]
    fn is_zero(&self) -> bool {
        self.re.is_zero() && self.im.is_zero()
    }
}

impl<F: RealField + Copy> One for Point<F> {
    #[inline]
    fn one() -> Point<F> {
        Point { re: F::one(), im: F::zero() }
    }
}

impl<F: RealField + Copy> Num for Point<F> {
    type FromStrRadixErr = ();

    fn from_str_radix(_: &str, _: u32) -> Result<Point<F>, ()> {
        absent()
    }
}

impl<F: RealField + Copy> FromPrimitive for Point<F> {
    fn from_i64(_: i64) -> Option<Point<F>> {
        absent()
    }

    fn from_u64(_: u64) -> Option<Point<F>> {
        absent()
    }
}

impl<F: RealField + Copy> Field for Point<F> {}

impl<F: RealField + Copy> SimdValue for Point<F> {
    const LANES: usize = 1;

    type Element = Point<F>;
    type SimdBool = bool;

    #[inline(always)]
    fn splat(value: Point<F>) -> Point<F> {
        value
    }

    #[inline(always)]
    fn extract(&self, _: usize) -> Point<F> {
        *self
    }

    #[inline(always)]
    unsafe fn extract_unchecked(&self, _: usize) -> Point<F> {
        *self
    }

    #[inline(always)]
    fn replace(&mut self, _: usize, value: Point<F>) {
        *self = value;
    }

    #[inline(always)]
    unsafe fn replace_unchecked(&mut self, _: usize, value: Point<F>) {
        *self = value;
    }

    #[inline(always)]
    fn select(self, first: bool, other: Point<F>) -> Point<F> {
        if first {
            self
        } else {
            other
        }
    }
}

impl<F: RealField + Copy> SubsetOf<Point<F>> for Point<F> {
    fn to_superset(&self) -> Point<F> {
        *self
    }

    fn from_superset_unchecked(superset: &Point<F>) -> Point<F> {
        *superset
    }

    fn is_in_subset(_: &Point<F>) -> bool {
        true
    }
}

macro_rules! real_numbers {
    ($($real:ty),*) => {$(
        impl<F: RealField + Copy> SubsetOf<Point<F>> for $real {
            #[inline]
            fn to_superset(&self) -> Point<F> {
                Point { re: nalgebra::convert(*self), im: F::zero() }
            }

            fn from_superset_unchecked(_: &Point<F>) -> $real {
                absent()
            }

            fn is_in_subset(_: &Point<F>) -> bool {
                absent()
            }
        }
    )*};
}

real_numbers!(f32, f64);

macro_rules! absent_functions {
    ($($function:ident($($argument:ty),*) -> $answer:ty;)*) => {$(
        fn $function(self $(, _: $argument)*) -> $answer {
            absent()
        }
    )*};
}

impl<F: RealField + Copy> ComplexField for Point<F> {
    type RealField = F;

    #[inline]
    fn from_real(re: F) -> Point<F> {
        Point { re, im: F::zero() }
    }

    #[inline]
    fn real(self) -> F {
        self.re
    }

    #[inline]
    fn imaginary(self) -> F {
        self.im
    }

    #[inline]
    fn modulus(self) -> F {
        self.modulus_squared().sqrt()
    }

    #[inline]
    fn modulus_squared(self) -> F {
        self.re * self.re + self.im * self.im
    }

    #[inline]
    fn norm1(self) -> F {
        self.re.abs() + self.im.abs()
    }

    #[inline]
    fn scale(self, factor: F) -> Point<F> {
        self.map(|a| a * factor)
    }

    #[inline]
    fn unscale(self, divisor: F) -> Point<F> {
        self.map(|a| a / divisor)
    }

    #[inline]
    fn conjugate(self) -> Point<F> {
        Point { re: self.re, im: -self.im }
    }

    #[inline]
    fn is_finite(&self) -> bool {
        self.re.is_finite() && self.im.is_finite()
    }

    absent_functions! {
        argument() -> F; abs() -> F; hypot(Point<F>) -> F; recip() -> Point<F>; mul_add(Point<F>, Point<F>) -> Point<F>;
        floor() -> Point<F>; ceil() -> Point<F>; round() -> Point<F>; trunc() -> Point<F>; fract() -> Point<F>;
        sin() -> Point<F>; cos() -> Point<F>; sin_cos() -> (Point<F>, Point<F>); tan() -> Point<F>;
        asin() -> Point<F>; acos() -> Point<F>; atan() -> Point<F>;
        sinh() -> Point<F>; cosh() -> Point<F>; tanh() -> Point<F>;
        asinh() -> Point<F>; acosh() -> Point<F>; atanh() -> Point<F>;
        log(F) -> Point<F>; log2() -> Point<F>; log10() -> Point<F>; ln() -> Point<F>; ln_1p() -> Point<F>;
        sqrt() -> Point<F>; exp() -> Point<F>; exp2() -> Point<F>; exp_m1() -> Point<F>;
        powi(i32) -> Point<F>; powf(F) -> Point<F>; powc(Point<F>) -> Point<F>; cbrt() -> Point<F>;
        try_sqrt() -> Option<Point<F>>;
    }
}
