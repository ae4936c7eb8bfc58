//! The rows' loops by intrinsics, in the forms that upstream's own field crates have for vectors: the third
//! side, written by hand.
mod fields;
#[cfg(target_feature = "avx2")]
mod goldilocks;
mod lists;
#[cfg(target_feature = "avx2")]
mod longs;
mod packings;
#[cfg(test)]
mod tests;
mod words;

#[cfg(not(target_feature = "sse4.2"))]
compile_error!("build in bench/, for x86-64-v2 at least: the loops by hand have its instructions");

use crate::baby_bear::{BabyBear, BabyBearByWords};
use crate::residues::{F17, Goldilocks, Residue};
use fields::VectorField;
use words::{LONGEST_IN_8, Longest, Words, Words4, Words8, Words16};

/// A loop over two lists: both, and the rounds.
pub type PairLoop = fn(&[u64], &[u64], u64) -> u64;

/// A loop over one list.
pub type ListLoop = fn(&[u64], u64) -> u64;

/// A chain over two packed values: their coefficients, the lanes and the rounds.
pub type PackedLoop = fn(&[u64], &[u64], usize, u64) -> u64;

/// The loops over packings of some lanes.
pub struct PackingLoops {
    /// Sums and differences are written by hand for words of 32 bits alone.
    pub sums: Option<PairLoop>,
    pub differences: Option<PairLoop>,
    pub slice_products: PairLoop,
    pub products: PairLoop,
    pub dot_products: PairLoop,
}

impl PackingLoops {
    /// The loops over packings of the words P, which are PARTS vectors V. Lists of packings are taken in the longest
    /// vectors, as the compiler takes them.
    fn over<F: VectorField, P: Words, V: Words, const PARTS: usize>() -> Self {
        PackingLoops {
            sums: Some(packings::sums::<F, Longest>),
            differences: Some(packings::differences::<F, Longest>),
            slice_products: packings::slice_products::<F, Longest>,
            products: packings::products::<F, P>,
            dot_products: packings::dot_products::<F, V, PARTS>,
        }
    }

    /// The loops over packings of Goldilocks that are PARTS vectors.
    #[cfg(target_feature = "avx2")]
    fn of_longs<const PARTS: usize>() -> Self {
        PackingLoops {
            sums: None,
            differences: None,
            slice_products: goldilocks::slice_products,
            products: goldilocks::products::<PARTS>,
            dot_products: goldilocks::dot_products::<PARTS>,
        }
    }

    /// The loops over packings of so many lanes.
    fn of_lanes<F: VectorField>(lanes: usize) -> Option<Self> {
        match lanes {
            4 => Some(Self::over::<F, Words4, Words4, 1>()),
            8 => Some(Self::over::<F, Words8, Longest, LONGEST_IN_8>()),
            16 => Some(Self::over::<F, Words16, Longest, { 2 * LONGEST_IN_8 }>()),
            _ => None,
        }
    }
}

/// The loops over lists of residues.
pub struct ListLoops {
    pub multiplied_slices: PairLoop,
    pub added_slices: PairLoop,
    pub sums: PairLoop,
    pub scalings: PairLoop,
    pub scaled_sums: PairLoop,
    pub dot_products: PairLoop,
    pub list_sums: ListLoop,
    pub inversions: ListLoop,
    /// The coefficients, the first point and the rounds.
    pub horner_chain: fn(&[u64], u64, u64) -> u64,
    /// The base, the length and the rounds.
    pub power_lists: fn(u64, usize, u64) -> u64,
}

impl ListLoops {
    /// The loops in vectors of eight words, or in the longest ones.
    fn of<F: VectorField>() -> Self {
        ListLoops {
            multiplied_slices: lists::multiplied_slices::<F, Longest>,
            added_slices: lists::added_slices::<F, Longest>,
            sums: packings::sums::<F, Longest>,
            scalings: packings::scalings::<F, Longest>,
            scaled_sums: packings::scaled_sums::<F, Longest>,
            dot_products: lists::dot_products::<F, Longest>,
            list_sums: lists::list_sums::<F, Words8>,
            inversions: lists::inversions::<F, Words8>,
            horner_chain: lists::horner_chain::<F, Longest>,
            power_lists: lists::power_lists::<F, Words8>,
        }
    }
}

/// A type, and the loops that are written by hand for it; none where it says nothing.
pub trait ByHand: Residue {
    /// Those over packings of so many lanes.
    fn packing_loops(_lanes: usize) -> Option<PackingLoops> {
        None
    }

    /// Those over lists.
    fn list_loops() -> Option<ListLoops> {
        None
    }
}

impl ByHand for F17 {
    fn packing_loops(lanes: usize) -> Option<PackingLoops> {
        PackingLoops::of_lanes::<F17>(lanes)
    }

    fn list_loops() -> Option<ListLoops> {
        Some(ListLoops::of::<F17>())
    }
}

impl ByHand for BabyBear {
    fn packing_loops(lanes: usize) -> Option<PackingLoops> {
        PackingLoops::of_lanes::<BabyBear>(lanes)
    }

    fn list_loops() -> Option<ListLoops> {
        Some(ListLoops::of::<BabyBear>())
    }
}

impl ByHand for BabyBearByWords {}

/// With shorter vectors than those of x86-64-v3 products are no faster than word by word.
impl ByHand for Goldilocks {
    #[cfg(target_feature = "avx2")]
    fn packing_loops(lanes: usize) -> Option<PackingLoops> {
        match lanes {
            4 => Some(PackingLoops::of_longs::<1>()),
            8 => Some(PackingLoops::of_longs::<2>()),
            _ => None,
        }
    }
}

/// The products of packed values of an extension of degree 4.
pub fn packed_products<F: VectorField>(lanes: usize) -> Option<PackedLoop> {
    match lanes {
        4 => Some(packings::extension_products::<F, Words4, 1>),
        8 => Some(packings::extension_products::<F, Longest, LONGEST_IN_8>),
        _ => None,
    }
}
