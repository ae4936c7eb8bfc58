//! What is written by hand answers what the plain loops do.
use super::fields::VectorField;
use super::{ByHand, PairLoop, packed_products};
use super::{lists, packings};
use super::words::{Words, Words4, Words8, Words16};
use crate::baby_bear::BabyBear;
use crate::extensions::{BabyBearx4, Extension, F17x4};
use crate::lane_cases::units;
use crate::residues::{F17, Goldilocks, Residue};
use crate::{lanes, primes, slices};

/// Two pairs of lists: of any numbers, and of those whose words are the greatest.
fn pairs_of_lists<F: VectorField>(length: usize) -> [[Vec<u64>; 2]; 2] {
    let greatest = vec![F::of_word(F::ORDER as u32 - 1).number(); length];
    let any = [1, 2].map(|seed| units(F::ORDER, seed, length).to_vec());
    [any, [greatest.clone(), greatest]]
}

/// The loops over packings of N lanes.
fn packings_agree<F: VectorField, V: Words, P: Words, const PARTS: usize, const N: usize>(left: &[u64], right: &[u64]) {
    assert_eq!(V::LANES, N);
    for rounds in [0, 1, 3] {
        let plain = [
            lanes::sums::<F, N, 0>(left, right, rounds),
            lanes::differences::<F, N, 0>(left, right, rounds),
            lanes::slice_products::<F, N>(left, right, rounds),
            lanes::products::<F, N>(left, right, rounds),
            lanes::dot_products::<F, N>(left, right, rounds),
        ];
        let by_hand = [
            packings::sums::<F, V>(left, right, rounds),
            packings::differences::<F, V>(left, right, rounds),
            packings::slice_products::<F, V>(left, right, rounds),
            packings::products::<F, V>(left, right, rounds),
            packings::dot_products::<F, P, PARTS>(left, right, rounds),
        ];
        assert_eq!(by_hand, plain);
    }
}

/// The loops over lists of residues.
fn lists_agree<F: VectorField, V: Words>(left: &[u64], right: &[u64]) {
    for rounds in [1, 3] {
        let (k, point) = (rounds as usize, 3);
        let plain = [
            slices::scalings::<F, 0>(left, right, rounds),
            slices::scaled_sums::<F, 0>(left, right, rounds),
            primes::multiplied_slices::<F>(left, right, rounds),
            primes::added_slices::<F, 0>(left, right, rounds),
            primes::dot_products::<F>(left, right, k),
            primes::sums::<F>(left, k),
            primes::horner_chain::<F>(left, point, rounds),
            primes::power_lists::<F>(point, 4096, rounds),
            lanes::inversions::<F, true>(left, rounds),
        ];
        let by_hand = [
            packings::scalings::<F, V>(left, right, rounds),
            packings::scaled_sums::<F, V>(left, right, rounds),
            lists::multiplied_slices::<F, V>(left, right, rounds),
            lists::added_slices::<F, V>(left, right, rounds),
            lists::dot_products::<F, V>(left, right, rounds),
            lists::list_sums::<F, V>(left, rounds),
            lists::horner_chain::<F, V>(left, point, rounds),
            lists::power_lists::<F, V>(point, 4096, rounds),
            lists::inversions::<F, V>(left, rounds),
        ];
        assert_eq!(by_hand, plain);
    }
}

/// The products of an extension of degree 4 at so many lanes.
fn extensions_agree<E: Extension, F: VectorField>(lanes: usize) {
    let by_hand = packed_products::<F>(lanes).unwrap();
    for [left, right] in pairs_of_lists::<F>(4 * lanes) {
        for count in [0, 1, 5] {
            let plain = lanes::extension_products::<E>(&left, &right, lanes, count);
            assert_eq!(by_hand(&left, &right, lanes, count), plain);
        }
    }
}

/// All loops over the words of one field.
fn loops_agree<F: VectorField>() {
    for [left, right] in pairs_of_lists::<F>(1000) {
        packings_agree::<F, Words4, Words4, 1, 4>(&left, &right);
        packings_agree::<F, Words8, Words4, 2, 8>(&left, &right);
        let (left_16, right_16) = (&left[..992], &right[..992]);
        packings_agree::<F, Words16, Words4, 4, 16>(left_16, right_16);
        packings_agree::<F, Words16, Words8, 2, 16>(left_16, right_16);
        lists_agree::<F, Words4>(&left, &right);
        lists_agree::<F, Words8>(&left, &right);
    }
}

#[test]
fn f17() {
    loops_agree::<F17>();
}

#[test]
fn baby_bear() {
    loops_agree::<BabyBear>();
}

#[test]
fn extensions() {
    extensions_agree::<F17x4, F17>(4);
    extensions_agree::<F17x4, F17>(8);
    extensions_agree::<BabyBearx4, BabyBear>(4);
    extensions_agree::<BabyBearx4, BabyBear>(8);
}

/// The products of packings of Goldilocks, where they are written by hand.
fn goldilocks_agrees<const N: usize>(left: &[u64], right: &[u64]) {
    let Some(loops) = Goldilocks::packing_loops(N) else {
        return;
    };
    for rounds in [0, 1, 2, 5] {
        let plain: [PairLoop; 3] = [
            lanes::slice_products::<Goldilocks, N>,
            lanes::products::<Goldilocks, N>,
            lanes::dot_products::<Goldilocks, N>,
        ];
        let by_hand = [loops.slice_products, loops.products, loops.dot_products];
        for (by_hand, plain) in by_hand.into_iter().zip(plain) {
            assert_eq!(by_hand(left, right, rounds), plain(left, right, rounds));
        }
    }
}

/// Of any numbers, and of numbers at the order's ends.
#[test]
fn goldilocks() {
    let order = Goldilocks::ORDER;
    let any = [1, 2].map(|seed| units(order, seed, 1000));
    let ends: Vec<u64> = (0..1000).map(|i| if i % 3 == 0 { order - 1 - i / 3 } else { (1 << 32) - i }).collect();
    let turned: Vec<u64> = ends.iter().rev().copied().collect();
    for [left, right] in [any, [&ends, &turned], [&vec![order - 1; 1000], &ends]] {
        goldilocks_agrees::<4>(left, right);
        goldilocks_agrees::<8>(left, right);
    }
}
