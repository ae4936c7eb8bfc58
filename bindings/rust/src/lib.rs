//! Arithmetic of the prime fields BabyBear, KoalaBear and Goldilocks that is proved: safe calls of the static
//! library `p3_c`, which `scripts/bindings` makes, over slices.
//!
//! A value is one word in memory, in upstream's representation: Montgomery's form of 32 bits for [`BabyBear`] and
//! [`KoalaBear`], the number itself in 64 for [`Goldilocks`]. A slice of words is taken as a slice of values without
//! a copy ([`PrimeField::from_words`]). Each call answers for every input: where it can't, it says why ([`Error`]),
//! and all that it was lent is as it was before.
//!
//! ```
//! use p3_field_proved::{BabyBear, Error, PrimeField};
//!
//! # fn main() -> Result<(), Error> {
//! let mut numbers = [1, 2, 3, 4];
//! let values = BabyBear::from_canonical(&mut numbers)?;
//! BabyBear::batch_inverse(values)?;
//! assert_eq!(BabyBear::to_canonical(values)?, [1, 1006632961, 1342177281, 1509949441]);
//! # Ok(())
//! # }
//! ```
#![deny(missing_docs, unsafe_op_in_unsafe_fn)]

pub mod calls;
mod error;
mod field;
mod fields;
mod limbs;
mod quartic;

pub use calls::RunStep;
pub use error::Error;
pub use field::PrimeField;
pub use fields::{BabyBear, Goldilocks, KoalaBear};
pub use limbs::Limb;
pub use quartic::BabyBearx4;

/// The example of README.md, as a test.
#[cfg(doctest)]
#[doc = include_str!("../README.md")]
struct Readme;
