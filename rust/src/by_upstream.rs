//! A thin layer by hand: calls under upstream's names whose results are vectors of Rust's own, where the proved calls
//! take an allocator and may be refused. Those stand beside these with `_in` at the end of their names.
use crate::coset::TwoAdicMultiplicativeCoset;
use crate::proved::{p3_field, poly_eval};
use crate::rattle::alloc::{AllocError, Global};
use crate::{Field, PrimeField, PrimeField32, TwoAdicField, rattle};
use alloc::vec::Vec;

/// Rust's own vector of a result.
fn own<T>(result: Result<rattle::Vec<T>, AllocError>) -> Vec<T> {
    result.expect("memory was refused").into()
}

/// The inverses of values, by one inversion.
///
/// # Panics
///
/// Where a value has no inverse, or memory is refused.
pub fn batch_multiplicative_inverse<F: Field>(values: &[F]) -> Vec<F> {
    own(p3_field::batch_multiplicative_inverse(Global, values))
}

/// The canonical number of a value in `count` limbs of 32 bits, the lowest first, each as a value of another field.
///
/// # Panics
///
/// Where memory is refused.
pub fn split_32<S: PrimeField, T: PrimeField32>(value: S, count: usize) -> Vec<T> {
    own(p3_field::split_32(Global, value, count))
}

/// The canonical number of a value in `count` limbs of `bits` bits, the lowest first, each as a value of another field.
///
/// # Panics
///
/// Where memory is refused. What the limbs have to fit is the contract of `split_pf_to_packed_limbs_in`.
pub fn split_pf_to_packed_limbs<S: PrimeField, T: PrimeField32>(value: S, count: usize, bits: u32) -> Vec<T> {
    own(p3_field::split_pf_to_packed_limbs(Global, value, count, bits))
}

/// The canonical number of a value in `count` digits to the base of another field's order, the lowest first.
///
/// # Panics
///
/// Where memory is refused.
pub fn split_pf_to_field_order_limbs<S: PrimeField, T: PrimeField32>(value: S, count: usize) -> Vec<T> {
    own(p3_field::split_pf_to_field_order_limbs(Global, value, count))
}

/// The values of a polynomial at the points of a coset, in the order of the points; the coefficients from the constant
/// one upward.
///
/// # Panics
///
/// Where memory is refused. What the coset has to fit is the contract of `eval_coset_in`.
pub fn eval_coset<F: TwoAdicField>(coefficients: &[F], coset: &TwoAdicMultiplicativeCoset<F>) -> Vec<F> {
    own(poly_eval::eval_coset(Global, coefficients, coset))
}
