//! The three prime fields, each by the library's calls at it.
use crate::calls::{self, RunStep};
use crate::error::{Error, done, written};
use crate::field::{PrimeField, Sealed};
use std::fmt;
use std::slice::{from_raw_parts, from_raw_parts_mut};

/// A field whose values are words, by a module of calls.
///
/// The calls are safe as they are made: a pointer goes with the length of its slice, which is borrowed while the call
/// runs, alone where it is written; a value has the layout of its word, and every word is a value.
macro_rules! prime_field {
    ($(#[$doc:meta])* $name:ident($word:ty), $calls:ident, $order:expr) => {
        $(#[$doc])*
        #[derive(Clone, Copy, PartialEq, Eq, Hash)]
        #[repr(transparent)]
        pub struct $name(pub(crate) $word);

        /// The canonical number; where the word is no value, the word.
        impl fmt::Display for $name {
            fn fmt(&self, f: &mut fmt::Formatter<'_>) -> fmt::Result {
                match self.number() {
                    Ok(number) => number.fmt(f),
                    Err(_) => write!(f, "no value: the word {}", self.0),
                }
            }
        }

        impl fmt::Debug for $name {
            fn fmt(&self, f: &mut fmt::Formatter<'_>) -> fmt::Result {
                write!(f, "{}({self})", stringify!($name))
            }
        }

        impl Sealed for $name {}

        impl PrimeField for $name {
            type Word = $word;

            const ORDER: $word = $order;

            const TWO_ADICITY: usize = (Self::ORDER - 1).trailing_zeros() as usize;

            fn from_words_unchecked(words: &[$word]) -> &[Self] {
                unsafe { from_raw_parts(words.as_ptr().cast(), words.len()) }
            }

            fn from_words_unchecked_mut(words: &mut [$word]) -> &mut [Self] {
                unsafe { from_raw_parts_mut(words.as_mut_ptr().cast(), words.len()) }
            }

            fn words(values: &[Self]) -> &[$word] {
                unsafe { from_raw_parts(values.as_ptr().cast(), values.len()) }
            }

            fn from_canonical(numbers: &mut [$word]) -> Result<&mut [Self], Error> {
                done(unsafe { calls::$calls::from_canonical(numbers.as_mut_ptr(), numbers.len()) })?;
                Ok(Self::from_words_unchecked_mut(numbers))
            }

            fn to_canonical(values: &mut [Self]) -> Result<&mut [$word], Error> {
                let numbers: &mut [$word] =
                    unsafe { from_raw_parts_mut(values.as_mut_ptr().cast(), values.len()) };
                done(unsafe { calls::$calls::to_canonical(numbers.as_mut_ptr(), numbers.len()) })?;
                Ok(numbers)
            }

            fn check(values: &[Self]) -> Result<(), Error> {
                done(unsafe { calls::$calls::check(values.as_ptr().cast(), values.len()) })
            }

            fn sum(values: &[Self]) -> Result<Self, Error> {
                let (at, len) = (values.as_ptr().cast(), values.len());
                written(Self(0), |sum| unsafe { calls::$calls::sum(at, len, &mut sum.0) })
            }

            fn product(values: &[Self]) -> Result<Self, Error> {
                let (at, len) = (values.as_ptr().cast(), values.len());
                written(Self(0), |product| unsafe {
                    calls::$calls::product(at, len, &mut product.0)
                })
            }

            fn dot(left: &[Self], right: &[Self]) -> Result<Self, Error> {
                let (at, len) = (left.as_ptr().cast(), left.len());
                written(Self(0), |dot| unsafe {
                    calls::$calls::dot(at, len, right.as_ptr().cast(), right.len(), &mut dot.0)
                })
            }

            fn add(left: &mut [Self], right: &[Self]) -> Result<(), Error> {
                let (at, len) = (left.as_mut_ptr().cast(), left.len());
                done(unsafe { calls::$calls::add(at, len, right.as_ptr().cast(), right.len()) })
            }

            fn mul(left: &mut [Self], right: &[Self]) -> Result<(), Error> {
                let (at, len) = (left.as_mut_ptr().cast(), left.len());
                done(unsafe { calls::$calls::mul(at, len, right.as_ptr().cast(), right.len()) })
            }

            fn scale(values: &mut [Self], factor: Self) -> Result<(), Error> {
                let (at, len) = (values.as_mut_ptr().cast(), values.len());
                done(unsafe { calls::$calls::scale(at, len, factor.0) })
            }

            fn add_scaled(left: &mut [Self], right: &[Self], factor: Self) -> Result<(), Error> {
                let (at, len) = (left.as_mut_ptr().cast(), left.len());
                let (from, count) = (right.as_ptr().cast(), right.len());
                done(unsafe { calls::$calls::add_scaled(at, len, from, count, factor.0) })
            }

            fn horner(coefficients: &[Self], point: Self) -> Result<Self, Error> {
                let (at, len) = (coefficients.as_ptr().cast(), coefficients.len());
                written(Self(0), |value| unsafe {
                    calls::$calls::horner(at, len, point.0, &mut value.0)
                })
            }

            fn powers(base: Self, start: Self, powers: &mut [Self]) -> Result<(), Error> {
                let (at, len) = (powers.as_mut_ptr().cast(), powers.len());
                done(unsafe { calls::$calls::powers(base.0, start.0, at, len) })
            }

            fn inverse(self) -> Result<Self, Error> {
                written(Self(0), |inverse| unsafe {
                    calls::$calls::inverse(self.0, &mut inverse.0)
                })
            }

            fn batch_inverse(values: &mut [Self]) -> Result<(), Error> {
                let (at, len) = (values.as_mut_ptr().cast(), values.len());
                done(unsafe { calls::$calls::batch_inverse(at, len) })
            }

            fn sqrt(self) -> Result<Self, Error> {
                written(Self(0), |root| unsafe { calls::$calls::sqrt(self.0, &mut root.0) })
            }

            fn coset(shift: Self, log_size: usize, points: &mut [Self]) -> Result<(), Error> {
                let (at, len) = (points.as_mut_ptr().cast(), points.len());
                done(unsafe { calls::$calls::coset(shift.0, log_size, at, len) })
            }

            fn eval_coset(
                coefficients: &[Self],
                shift: Self,
                log_size: usize,
                values: &mut [Self],
            ) -> Result<(), Error> {
                let (from, count) = (coefficients.as_ptr().cast(), coefficients.len());
                let (at, len) = (values.as_mut_ptr().cast(), values.len());
                done(unsafe { calls::$calls::eval_coset(from, count, shift.0, log_size, at, len) })
            }

            fn run(registers: &mut [Self], steps: &[RunStep]) -> Result<(), Error> {
                let (at, len) = (registers.as_mut_ptr().cast(), registers.len());
                done(unsafe { calls::$calls::run(at, len, steps.as_ptr(), steps.len()) })
            }
        }
    };
}

prime_field! {
    /// A residue modulo 2^31 - 2^27 + 1, in Montgomery's form: the word is 2^32 times the number.
    BabyBear(u32), bb, (1 << 31) - (1 << 27) + 1
}

prime_field! {
    /// A residue modulo 2^31 - 2^24 + 1, in Montgomery's form: the word is 2^32 times the number.
    KoalaBear(u32), kb, (1 << 31) - (1 << 24) + 1
}

prime_field! {
    /// A residue modulo 2^64 - 2^32 + 1: the word is the number. Upstream's words may lie above the order, and have to
    /// be reduced before they are values here.
    Goldilocks(u64), gl, u64::MAX - (1 << 32) + 2
}
