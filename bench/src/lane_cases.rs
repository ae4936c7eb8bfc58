//! The rows of lanes, each operation counted a lane, and those of batch inversion.
use crate::baby_bear::{BabyBear, BabyBearByWords};
use crate::by_hand::{self, ByHand, ListLoop, ListLoops, PackedLoop, PackingLoops, PairLoop};
use crate::calls::*;
use crate::extensions::{BabyBearx4, BabyBearx4ByWords, Extension, F17x4};
use crate::lanes;
use crate::places::{self, PLACES};
use crate::residues::{F17, Goldilocks};
use crate::slices;
use crate::table::{Call, Case, with_plain_of};
use std::hint::black_box;

const LENGTH: usize = 1000;

/// Numbers from one to one less than the order, by a linear congruence.
pub fn units(order: u64, seed: u64, length: usize) -> &'static [u64] {
    let mut state = black_box(seed);
    let mut next = || {
        state = state.wrapping_mul(6364136223846793005).wrapping_add(1442695040888963407);
        (state >> 1) % (order - 1) + 1
    };
    (0..length).map(|_| next()).collect::<Vec<_>>().leak()
}

/// A call of the library over two lists: the type, how many lanes, the lists and the rounds.
type SliceCall = unsafe extern "C" fn(u32, u32, *const u64, usize, *const u64, usize, u64) -> u64;

/// The call of a loop over two lists.
fn pair_call(run: PairLoop, left: &'static [u64], right: &'static [u64]) -> Call {
    Box::new(move |k| run(left, right, k))
}

/// The rows of packings of N lanes. The lists hold whole packings.
fn packing_cases<F: ByHand, const N: usize>(name: &str, field: u32) -> Vec<Case> {
    let length = LENGTH - LENGTH % N;
    let (left, right) = (units(F::ORDER, 1, length), units(F::ORDER, 2, length));
    let over = move |call: SliceCall| {
        move |k| unsafe { call(field, N as u32, left.as_ptr(), length, right.as_ptr(), length, k) }
    };
    let loops = F::packing_loops(N);
    let by_hand =
        |chosen: fn(&PackingLoops) -> Option<PairLoop>| Some(pair_call(chosen(loops.as_ref()?)?, left, right));
    let row = |word: &str, operations: usize, call: SliceCall, plain: PairLoop| {
        let name = format!("{name} {word}, {N} lanes");
        Case::new(name, operations as u64, over(call), move |k| plain(left, right, k))
    };
    let row_at_places = |word: &str, call: SliceCall, copies: [PairLoop; PLACES]| Case {
        name: format!("{name} {word}, {N} lanes"),
        operations: length as u64,
        library: Box::new(over(call)),
        plain: places::calls(copies, move |copy, k| copy(left, right, k)),
        by_hand: None,
    };
    let sums = [lanes::sums::<F, N, 0>, lanes::sums::<F, N, 1>, lanes::sums::<F, N, 2>, lanes::sums::<F, N, 3>];
    let differences = [
        lanes::differences::<F, N, 0>,
        lanes::differences::<F, N, 1>,
        lanes::differences::<F, N, 2>,
        lanes::differences::<F, N, 3>,
    ];
    vec![
        row_at_places("packed sums", p3_speed_lane_sums, sums).beside(by_hand(|l| l.sums)),
        row_at_places("packed differences", p3_speed_lane_differences, differences).beside(by_hand(|l| l.differences)),
        row("packed slice products", length, p3_speed_lane_slice_products, lanes::slice_products::<F, N>)
            .beside(by_hand(|l| Some(l.slice_products))),
        row("packed product chain", N, p3_speed_lane_products, lanes::products::<F, N>).beside(by_hand(|l| Some(l.products))),
        row("packed dot product", length, p3_speed_lane_dot_products, lanes::dot_products::<F, N>)
            .beside(by_hand(|l| Some(l.dot_products))),
    ]
}

/// The rows of calls over lists of residues, which the library takes N at a time.
fn slice_cases<F: ByHand, const N: usize>(name: &str, field: u32) -> Vec<Case> {
    let (left, right) = (units(F::ORDER, 6, LENGTH), units(F::ORDER, 7, LENGTH));
    let loops = F::list_loops();
    let by_hand = |chosen: fn(&ListLoops) -> PairLoop| Some(pair_call(chosen(loops.as_ref()?), left, right));
    let row = |word: &str, call: SliceCall, copies: [PairLoop; PLACES]| Case {
        name: format!("{name} {word}, {N} lanes"),
        operations: LENGTH as u64,
        library: Box::new(move |k| unsafe {
            call(field, N as u32, left.as_ptr(), LENGTH, right.as_ptr(), LENGTH, k)
        }),
        plain: places::calls(copies, move |copy, k| copy(left, right, k)),
        by_hand: None,
    };
    let sums = [slices::sums::<F, 0>, slices::sums::<F, 1>, slices::sums::<F, 2>, slices::sums::<F, 3>];
    let scalings = [
        slices::scalings::<F, 0>,
        slices::scalings::<F, 1>,
        slices::scalings::<F, 2>,
        slices::scalings::<F, 3>,
    ];
    let scaled_sums = [
        slices::scaled_sums::<F, 0>,
        slices::scaled_sums::<F, 1>,
        slices::scaled_sums::<F, 2>,
        slices::scaled_sums::<F, 3>,
    ];
    vec![
        row("add_slices", p3_speed_slice_sums, sums).beside(by_hand(|l| l.sums)),
        row("slice scaled", p3_speed_slice_scalings, scalings).beside(by_hand(|l| l.scalings)),
        row("scaled slice added", p3_speed_scaled_slice_sums, scaled_sums).beside(by_hand(|l| l.scaled_sums)),
    ]
}

/// The rows of packed extensions.
fn extension_cases<E: Extension, const N: usize>(
    name: &str,
    extension: u32,
    product_by_hand: Option<PackedLoop>,
) -> Vec<Case> {
    let (left, right) = (units(E::ORDER, 3, 4 * N), units(E::ORDER, 4, 4 * N));
    let row = |word: &str, call: SliceCall, plain: PackedLoop| {
        Case::new(
            format!("{name} packed {word}, {N} lanes"),
            N as u64,
            move |k| unsafe { call(extension, N as u32, left.as_ptr(), left.len(), right.as_ptr(), right.len(), k) },
            move |k| plain(left, right, N, k),
        )
    };
    vec![
        row("product", p3_speed_packed_products, lanes::extension_products::<E>)
            .beside(product_by_hand.map(|run| Box::new(move |k| run(left, right, N, k)) as Call)),
        row("inverse", p3_speed_packed_inverses, lanes::extension_inverses::<E, N>),
    ]
}

/// The rows of packed extensions of degree 4 at N lanes.
fn quartic_cases<const N: usize>() -> Vec<Case> {
    let mut cases = extension_cases::<F17x4, N>("f17x4", 0, by_hand::packed_products::<F17>(N));
    let bears = extension_cases::<BabyBearx4, N>("bbx4", 1, by_hand::packed_products::<BabyBear>(N));
    cases.extend(with_plain_of(bears, extension_cases::<BabyBearx4ByWords, N>("bbx4", 1, None)));
    cases
}

/// The row of batch inversion, whose plain loop is there in two forms.
fn inversion_cases<F: ByHand>(name: &str, field: u32) -> Vec<Case> {
    let numbers = units(F::ORDER, 5, LENGTH);
    let call = |run: ListLoop| Box::new(move |k| run(numbers, k)) as Call;
    vec![Case {
        name: format!("{name} batch inversion"),
        operations: LENGTH as u64,
        library: Box::new(move |k| unsafe { p3_speed_inversions(field, numbers.as_ptr(), LENGTH, k) }),
        plain: vec![call(lanes::inversions::<F, true>), call(lanes::inversions::<F, false>)],
        by_hand: F::list_loops().map(|loops| call(loops.inversions)),
    }]
}

/// The rows of BabyBear, with both forms of its plain reduction.
fn baby_bear_cases(rows: [fn(&str, u32) -> Vec<Case>; 2]) -> Vec<Case> {
    let [cases, by_words] = rows.map(|rows| rows("babybear", 1));
    with_plain_of(cases, by_words)
}

/// All rows of lanes.
pub fn cases() -> Vec<Case> {
    let mut cases = packing_cases::<F17, 4>("f17", 0);
    cases.extend(packing_cases::<F17, 8>("f17", 0));
    cases.extend(packing_cases::<F17, 16>("f17", 0));
    cases.extend(baby_bear_cases([packing_cases::<BabyBear, 4>, packing_cases::<BabyBearByWords, 4>]));
    cases.extend(baby_bear_cases([packing_cases::<BabyBear, 8>, packing_cases::<BabyBearByWords, 8>]));
    cases.extend(baby_bear_cases([packing_cases::<BabyBear, 16>, packing_cases::<BabyBearByWords, 16>]));
    cases.extend(packing_cases::<Goldilocks, 4>("goldilocks", 2));
    cases.extend(packing_cases::<Goldilocks, 8>("goldilocks", 2));
    cases.extend(slice_cases::<F17, 4>("f17", 0));
    cases.extend(slice_cases::<F17, 8>("f17", 0));
    cases.extend(baby_bear_cases([slice_cases::<BabyBear, 4>, slice_cases::<BabyBearByWords, 4>]));
    cases.extend(baby_bear_cases([slice_cases::<BabyBear, 8>, slice_cases::<BabyBearByWords, 8>]));
    cases.extend(slice_cases::<Goldilocks, 4>("goldilocks", 2));
    cases.extend(slice_cases::<Goldilocks, 8>("goldilocks", 2));
    cases.extend(quartic_cases::<4>());
    cases.extend(quartic_cases::<8>());
    cases.extend(inversion_cases::<F17>("f17", 0));
    cases.extend(baby_bear_cases([inversion_cases::<BabyBear>, inversion_cases::<BabyBearByWords>]));
    cases.extend(inversion_cases::<Goldilocks>("goldilocks", 2));
    cases
}
