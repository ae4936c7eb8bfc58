//! Finite fields, their extensions by `X^D = W` and by trinomials, lane-wise packings, cosets, square roots, batch
//! inversion, and runs of steps, in stable Rust without `std`, without dependencies and without `unsafe`.
//!
//! The code is made from sources in which every function is proved to meet its contract: by a script that only takes
//! out what is for the prover. A function's contract stands in its documentation, in the words of the prover.
//!
//! ```
//! use p3_field_proved::{BabyBear, BabyBearx4, Field, batch_multiplicative_inverse};
//!
//! let x = BabyBearx4::new([1, 2, 3, 4].map(BabyBear::new));
//! assert_eq!(x * x.inverse(), BabyBearx4::new([1, 0, 0, 0].map(BabyBear::new)));
//! let inverses = batch_multiplicative_inverse(&[BabyBear::new(2), BabyBear::new(3)]);
//! assert_eq!(inverses[1] * BabyBear::new(3), BabyBear::new(1));
//! ```
#![no_std]
#![forbid(unsafe_code)]
#![cfg_attr(feature = "nightly", feature(portable_simd))]

extern crate alloc;
#[cfg(test)]
extern crate std;

mod by_upstream;
mod proved;
pub mod rattle;

pub use by_upstream::{
    batch_multiplicative_inverse, split_32, split_pf_to_field_order_limbs, split_pf_to_packed_limbs,
};
pub use proved::p3_field::*;
pub use proved::p3_fields::*;

/// Values of polynomials at points, over cosets, and over vectors of values.
pub mod poly_eval {
    pub use crate::by_upstream::eval_coset;
    pub use crate::proved::poly_eval::*;
}
