//! The five scalars, each with the few operations that are its own.
//!
//! euclid's bounds ask for num_traits' Signed and for PartialOrd, which hold far more. All that a function must not
//! look at panics (`unobserved`), so a run that ends shows that none did.
use num_traits::{Num, One, Signed, Zero};
use std::cmp::Ordering;
use std::fmt;
use std::ops::{Add, Div, Mul, Neg, Rem, Sub};

/// What the harness needs of a scalar; all that euclid needs is in Signed and PartialOrd.
pub trait Scalar: Copy + fmt::Display + PartialOrd + Signed {
    /// whether the scalar has a less-than and an absolute value
    const ORDERED: bool;
    fn read(word: &str) -> Option<Self>;
}

/// The operations of a scalar; `number!` hands them to the traits that euclid asks for.
trait Operations: Copy {
    const ZERO: Self;
    const ONE: Self;
    fn sum(self, other: Self) -> Self;
    fn difference(self, other: Self) -> Self;
    fn product(self, other: Self) -> Self;
    fn quotient(self, other: Self) -> Self;
    fn negative(self) -> Self;
    fn equal(self, other: Self) -> bool;
    fn less(self, _: Self) -> bool {
        unobserved()
    }
    fn absolute(self) -> Self {
        unobserved()
    }
}

#[track_caller]
fn unobserved() -> ! {
    panic!("a function used an operation that the scalar does not have")
}

macro_rules! number {
    ($t:ident) => {
        impl Add for $t { type Output = $t; fn add(self, other: $t) -> $t { self.sum(other) } }
        impl Sub for $t { type Output = $t; fn sub(self, other: $t) -> $t { self.difference(other) } }
        impl Mul for $t { type Output = $t; fn mul(self, other: $t) -> $t { self.product(other) } }
        impl Div for $t { type Output = $t; fn div(self, other: $t) -> $t { self.quotient(other) } }
        impl Neg for $t { type Output = $t; fn neg(self) -> $t { self.negative() } }
        impl Rem for $t { type Output = $t; fn rem(self, _: $t) -> $t { unobserved() } }
        impl PartialEq for $t { fn eq(&self, other: &$t) -> bool { self.equal(*other) } }
        impl PartialOrd for $t {
            fn lt(&self, other: &$t) -> bool { self.less(*other) }
            fn gt(&self, other: &$t) -> bool { other.less(*self) }
            fn le(&self, _: &$t) -> bool { unobserved() }
            fn ge(&self, _: &$t) -> bool { unobserved() }
            fn partial_cmp(&self, _: &$t) -> Option<Ordering> { unobserved() }
        }
        impl Zero for $t {
            fn zero() -> $t { $t::ZERO }
            fn is_zero(&self) -> bool { unobserved() }
            fn set_zero(&mut self) { unobserved() }
        }
        impl One for $t {
            fn one() -> $t { $t::ONE }
            fn is_one(&self) -> bool { unobserved() }
            fn set_one(&mut self) { unobserved() }
        }
        impl Num for $t {
            type FromStrRadixErr = ();
            fn from_str_radix(_: &str, _: u32) -> Result<$t, ()> { unobserved() }
        }
        impl Signed for $t {
            fn abs(&self) -> $t { self.absolute() }
            fn abs_sub(&self, _: &$t) -> $t { unobserved() }
            fn signum(&self) -> $t { unobserved() }
            fn is_positive(&self) -> bool { unobserved() }
            fn is_negative(&self) -> bool { unobserved() }
        }
    };
}

/// An f64: IEEE 754, each operation rounded once.
#[derive(Clone, Copy)]
pub struct Real(f64);

impl Operations for Real {
    const ZERO: Real = Real(0.0);
    const ONE: Real = Real(1.0);
    fn sum(self, other: Real) -> Real { Real(self.0 + other.0) }
    fn difference(self, other: Real) -> Real { Real(self.0 - other.0) }
    fn product(self, other: Real) -> Real { Real(self.0 * other.0) }
    fn quotient(self, other: Real) -> Real { Real(self.0 / other.0) }
    fn negative(self) -> Real { Real(-self.0) }
    fn equal(self, other: Real) -> bool { self.0 == other.0 }
    fn less(self, other: Real) -> bool { self.0 < other.0 }
    fn absolute(self) -> Real { Real(self.0.abs()) }
}
number!(Real);

impl Scalar for Real {
    const ORDERED: bool = true;
    /// Hexadecimal digits alone: from_str_radix would take a plus sign too, and any number of zeros.
    fn read(word: &str) -> Option<Real> {
        let digits = word.len() <= 16 && word.bytes().all(|b| b.is_ascii_hexdigit());
        let bits = u64::from_str_radix(word, 16).ok().filter(|_| digits)?;
        Some(Real(f64::from_bits(bits)))
    }
}

impl fmt::Display for Real {
    /// Which bits a NaN has is left open, so all are shown as one.
    fn fmt(&self, f: &mut fmt::Formatter) -> fmt::Result {
        let shown = if self.0.is_nan() { 0x7ff8_0000_0000_0000 } else { self.0.to_bits() };
        write!(f, "{shown:016x}")
    }
}

/// An i32 that wraps modulo 2^32; the quotient truncates, then wraps, and is 0 by zero.
#[derive(Clone, Copy)]
pub struct Count(i32);

impl Operations for Count {
    const ZERO: Count = Count(0);
    const ONE: Count = Count(1);
    fn sum(self, other: Count) -> Count { Count(self.0.wrapping_add(other.0)) }
    fn difference(self, other: Count) -> Count { Count(self.0.wrapping_sub(other.0)) }
    fn product(self, other: Count) -> Count { Count(self.0.wrapping_mul(other.0)) }
    fn quotient(self, other: Count) -> Count {
        if other.0 == 0 { Count(0) } else { Count(self.0.wrapping_div(other.0)) }
    }
    fn negative(self) -> Count { Count(self.0.wrapping_neg()) }
    fn equal(self, other: Count) -> bool { self.0 == other.0 }
}
number!(Count);

/// A number modulo the prime 65,521, held from 0 to 65,520; the quotient by zero is 0.
#[derive(Clone, Copy)]
pub struct Residue(u64);

const PRIME: u64 = 65_521;

impl Residue {
    /// By Fermat: a number that is not zero, to the power of the prime less two, is its inverse; zero stays zero.
    fn inverse(self) -> Residue {
        let (mut power, mut square, mut exponent) = (Residue(1), self, PRIME - 2);
        while exponent > 0 {
            if exponent % 2 == 1 {
                power = power.product(square);
            }
            square = square.product(square);
            exponent /= 2;
        }
        power
    }
}

impl From<i32> for Residue {
    fn from(n: i32) -> Residue { Residue(i64::from(n).rem_euclid(PRIME as i64) as u64) }
}

impl Operations for Residue {
    const ZERO: Residue = Residue(0);
    const ONE: Residue = Residue(1);
    fn sum(self, other: Residue) -> Residue { Residue((self.0 + other.0) % PRIME) }
    fn difference(self, other: Residue) -> Residue { Residue((self.0 + PRIME - other.0) % PRIME) }
    fn product(self, other: Residue) -> Residue { Residue(self.0 * other.0 % PRIME) }
    fn quotient(self, other: Residue) -> Residue { self.product(other.inverse()) }
    fn negative(self) -> Residue { Residue((PRIME - self.0) % PRIME) }
    fn equal(self, other: Residue) -> bool { self.0 == other.0 }
}
number!(Residue);

fn clamped(n: i64) -> i32 {
    n.clamp(i32::MIN.into(), i32::MAX.into()) as i32
}

/// An i32 that counts 256ths and clamps; product and quotient round down, and the quotient by zero is 0.
#[derive(Clone, Copy)]
pub struct Pixel(i32);

fn floor_div(a: i64, b: i64) -> i64 {
    let inexact_and_below_zero = a % b != 0 && (a < 0) != (b < 0);
    a / b - i64::from(inexact_and_below_zero)
}

impl Operations for Pixel {
    const ZERO: Pixel = Pixel(0);
    const ONE: Pixel = Pixel(256);
    fn sum(self, other: Pixel) -> Pixel { Pixel(self.0.saturating_add(other.0)) }
    fn difference(self, other: Pixel) -> Pixel { Pixel(self.0.saturating_sub(other.0)) }
    fn product(self, other: Pixel) -> Pixel {
        Pixel(clamped(floor_div(i64::from(self.0) * i64::from(other.0), 256)))
    }
    fn quotient(self, other: Pixel) -> Pixel {
        if other.0 == 0 { Pixel(0) } else { Pixel(clamped(floor_div(256 * i64::from(self.0), other.0.into()))) }
    }
    fn negative(self) -> Pixel { Pixel(self.0.saturating_neg()) }
    fn equal(self, other: Pixel) -> bool { self.0 == other.0 }
    fn less(self, other: Pixel) -> bool { self.0 < other.0 }
    fn absolute(self) -> Pixel { Pixel(self.0.saturating_abs()) }
}
number!(Pixel);

/// An i32 that clamps; the quotient truncates, and is 0 by zero.
#[derive(Clone, Copy)]
pub struct Whole(i32);

impl Operations for Whole {
    const ZERO: Whole = Whole(0);
    const ONE: Whole = Whole(1);
    fn sum(self, other: Whole) -> Whole { Whole(self.0.saturating_add(other.0)) }
    fn difference(self, other: Whole) -> Whole { Whole(self.0.saturating_sub(other.0)) }
    fn product(self, other: Whole) -> Whole { Whole(self.0.saturating_mul(other.0)) }
    fn quotient(self, other: Whole) -> Whole {
        if other.0 == 0 { Whole(0) } else { Whole(self.0.saturating_div(other.0)) }
    }
    fn negative(self) -> Whole { Whole(self.0.saturating_neg()) }
    fn equal(self, other: Whole) -> bool { self.0 == other.0 }
    fn less(self, other: Whole) -> bool { self.0 < other.0 }
    fn absolute(self) -> Whole { Whole(self.0.saturating_abs()) }
}
number!(Whole);

macro_rules! written_as_i32 {
    ($t:ident, ordered: $ordered:literal, from: $from:expr) => {
        impl Scalar for $t {
            const ORDERED: bool = $ordered;
            fn read(word: &str) -> Option<$t> { word.parse().ok().map($from) }
        }
        impl fmt::Display for $t {
            fn fmt(&self, f: &mut fmt::Formatter) -> fmt::Result { self.0.fmt(f) }
        }
    };
}
written_as_i32!(Count, ordered: false, from: Count);
written_as_i32!(Residue, ordered: false, from: |n: i32| Residue::from(n));
written_as_i32!(Pixel, ordered: true, from: Pixel);
written_as_i32!(Whole, ordered: true, from: Whole);
