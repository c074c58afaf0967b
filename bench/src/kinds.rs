//! The four kinds of numbers, and what is asked of each to be compared.
use crate::point::Point;
use crate::random::Random;
use simba::scalar::{ComplexField, RealField};

pub trait Real: RealField + Copy {
    const NAME: &'static str;

    /// The exponent of the smallest number above zero, and that of the largest power of two.
    const LEAST: i32;
    const MOST: i32;

    /// How many binary digits a subnormal number has at most.
    const SUBNORMAL_DIGITS: u64;

    /// The bits, with one pattern for every NaN.
    fn bits(self) -> u64;

    /// From -1 up to 1, of all its binary digits.
    fn unit(random: &mut Random) -> Self;

    /// 2^k, for a k from LEAST to MOST.
    fn power(k: i32) -> Self;

    /// 2^-52 or 2^-23.
    fn epsilon() -> Self;

    fn infinity() -> Self;

    fn nan() -> Self;
}

macro_rules! reals {
    ($($real:ident $bits:ident $name:literal $digits:literal $bias:literal $nan:literal;)*) => {$(
        impl Real for $real {
            const NAME: &'static str = $name;
            const LEAST: i32 = 1 - $bias - $digits;
            const MOST: i32 = $bias;
            const SUBNORMAL_DIGITS: u64 = $digits;

            fn bits(self) -> u64 {
                if self.is_nan() { $nan } else { self.to_bits().into() }
            }

            fn unit(random: &mut Random) -> $real {
                (random.draw() >> (63 - $digits)) as $real / (1u64 << $digits) as $real - 1.0
            }

            fn power(k: i32) -> $real {
                assert!((Self::LEAST..=Self::MOST).contains(&k));
                <$real>::from_bits(if k > -$bias { ((k + $bias) as $bits) << $digits } else { 1 << (k - Self::LEAST) })
            }

            fn epsilon() -> $real {
                <$real>::EPSILON
            }

            fn infinity() -> $real {
                <$real>::INFINITY
            }

            fn nan() -> $real {
                <$real>::NAN
            }
        }
    )*};
}

reals! {
    f64 u64 "64" 52 1023 0x7FF8_0000_0000_0000;
    f32 u32 "32" 23 127 0x7FC0_0000;
}

pub trait Kind: ComplexField<RealField: Real> + Copy {
    fn name() -> String;

    /// A number of the diagonal, or another.
    fn unit(random: &mut Random, diagonal: bool) -> Self;

    /// A number of modulus one, of which products are exact.
    fn phase(random: &mut Random) -> Self;

    /// Zeros and ones with a sign to each part.
    fn signed(random: &mut Random, diagonal: bool) -> Self;

    fn push_bits(self, bits: &mut Vec<u64>);
}

fn signed_part<R: Real>(random: &mut Random) -> R {
    let part = if random.chance(70) { R::zero() } else { R::one() };
    if random.chance(50) {
        -part
    } else {
        part
    }
}

macro_rules! kinds {
    ($($real:ident)*) => {$(
        impl Kind for $real {
            fn name() -> String {
                format!("r{}", $real::NAME)
            }

            fn unit(random: &mut Random, _: bool) -> $real {
                Real::unit(random)
            }

            fn phase(random: &mut Random) -> $real {
                random.pick(&[1.0, -1.0])
            }

            fn signed(random: &mut Random, _: bool) -> $real {
                signed_part(random)
            }

            fn push_bits(self, bits: &mut Vec<u64>) {
                bits.push(Real::bits(self));
            }
        }

        impl Kind for Point<$real> {
            fn name() -> String {
                format!("c{}", $real::NAME)
            }

            fn unit(random: &mut Random, diagonal: bool) -> Point<$real> {
                let re = Real::unit(random);
                Point { re, im: if diagonal { 0.0 } else { Real::unit(random) } }
            }

            fn phase(random: &mut Random) -> Point<$real> {
                let (re, im) = random.pick(&[(1.0, 0.0), (0.0, 1.0), (-1.0, 0.0), (0.0, -1.0)]);
                Point { re, im }
            }

            fn signed(random: &mut Random, diagonal: bool) -> Point<$real> {
                let re = signed_part(random);
                let im: $real = signed_part(random);
                Point { re, im: if diagonal { 0.0 * im } else { im } }
            }

            fn push_bits(self, bits: &mut Vec<u64>) {
                bits.push(Real::bits(self.re));
                bits.push(Real::bits(self.im));
            }
        }
    )*};
}

kinds!(f64 f32);

pub fn bits<T: Kind>(list: &[T]) -> Vec<u64> {
    let mut bits = Vec::new();
    for x in list {
        x.push_bits(&mut bits);
    }
    bits
}

pub fn real_bits<R: Real>(list: &[R]) -> Vec<u64> {
    list.iter().map(|x| x.bits()).collect()
}
