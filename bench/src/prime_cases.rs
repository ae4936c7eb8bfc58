//! The rows of the prime types.
use crate::baby_bear::{BabyBear, BabyBearByWords};
use crate::by_hand::{ByHand, ListLoop, ListLoops, PairLoop};
use crate::calls::*;
use crate::places;
use crate::primes;
use crate::residues::{F17, Goldilocks};
use crate::table::{Call, Case, with_plain_of};
use std::hint::black_box;

const LENGTH: usize = 1000;
const POWERS: usize = 4096;
const EXPONENT: u64 = 0xd1b5_4a32_d192_ed03;

/// Numbers below the order, by a linear congruence.
fn numbers(order: u64, seed: u64) -> Vec<u64> {
    let mut state = seed;
    let mut next = || {
        state = state.wrapping_mul(6364136223846793005).wrapping_add(1442695040888963407);
        (state >> 1) % order
    };
    (0..LENGTH).map(|_| next()).collect()
}

/// A row of a type.
fn case<L, P>(type_name: &str, name: &str, operations: u64, library: L, plain: P) -> Case
where
    L: Fn(u64) -> u64 + 'static,
    P: Fn(u64) -> u64 + 'static,
{
    Case::new(format!("{type_name} {name}"), operations, library, plain)
}

/// Pairs of slices that both sides take.
struct Inputs {
    field: u32,
    left: &'static [u64],
    right: &'static [u64],
}

impl Inputs {
    /// The call of a loop over both lists that is written by hand, if the type has such.
    fn by_hand<F: ByHand>(&self, chosen: fn(&ListLoops) -> PairLoop) -> Option<Call> {
        let Inputs { left, right, .. } = *self;
        let run = F::list_loops().as_ref().map(chosen)?;
        Some(Box::new(move |k| run(left, right, k)))
    }

    /// The same of a loop over the left list.
    fn by_hand_on_left<F: ByHand>(&self, chosen: fn(&ListLoops) -> ListLoop) -> Option<Call> {
        let Inputs { left, .. } = *self;
        let run = F::list_loops().as_ref().map(chosen)?;
        Some(Box::new(move |k| run(left, k)))
    }
}

/// The sums of slices in place, whose times depend on where the loop lies: at each place.
fn sums_in_place<F: ByHand>(name: &str, i: &Inputs) -> Case {
    let Inputs { field, left, right } = *i;
    let copies = [
        primes::added_slices::<F, 0>,
        primes::added_slices::<F, 1>,
        primes::added_slices::<F, 2>,
        primes::added_slices::<F, 3>,
    ];
    Case {
        name: format!("{name} slice sums in place"),
        operations: LENGTH as u64,
        library: Box::new(move |k| unsafe {
            p3_speed_added_slices(field, left.as_ptr(), LENGTH, right.as_ptr(), LENGTH, k)
        }),
        plain: places::calls(copies, move |copy, k| copy(left, right, k)),
        by_hand: i.by_hand::<F>(|loops| loops.added_slices),
    }
}

/// A call of the library of Horner's rule: the type, the coefficients, the first point and the rounds.
type HornerCall = unsafe extern "C" fn(u32, *const u64, usize, u64, u64) -> u64;

/// A row of Horner's rule.
fn horner_case<F: ByHand>(name: &str, word: &str, i: &Inputs, call: HornerCall) -> Case {
    let Inputs { field, left, .. } = *i;
    let point = black_box(3);
    let by_hand = F::list_loops().map(|loops| Box::new(move |k| (loops.horner_chain)(left, point, k)) as Call);
    case(name, word, 1000,
        move |k| unsafe { call(field, left.as_ptr(), LENGTH, point, k) },
        move |k| primes::horner_chain::<F>(left, point, k))
    .beside(by_hand)
}

/// The rows of slices.
fn slice_cases<F: ByHand>(name: &str, i: Inputs) -> Vec<Case> {
    let Inputs { field, left, right } = i;
    let (l, r, n) = (left.as_ptr() as usize, right.as_ptr() as usize, LENGTH);
    let at = |p: usize| p as *const u64;
    vec![
        case(name, "slice products", 1000,
            move |k| unsafe { p3_speed_multiplied_slices(field, at(l), n, at(r), n, k) },
            move |k| primes::multiplied_slices::<F>(left, right, k))
        .beside(i.by_hand::<F>(|loops| loops.multiplied_slices)),
        sums_in_place::<F>(name, &i),
        case(name, "sum by Sum", 1000,
            move |k| unsafe { p3_speed_sums(field, at(l), n, k as usize) },
            move |k| primes::sums::<F>(left, k as usize))
        .beside(i.by_hand_on_left::<F>(|loops| loops.list_sums)),
        case(name, "sum by sum_array", 1000,
            move |k| unsafe { p3_speed_array_sums(field, at(l), n, k as usize) },
            move |k| primes::array_sums::<F, LENGTH>(left, k as usize))
        .beside(i.by_hand_on_left::<F>(|loops| loops.list_sums)),
        case(name, "dot product", 1000,
            move |k| unsafe { p3_speed_dot_products(field, at(l), n, at(r), n, k as usize) },
            move |k| primes::dot_products::<F>(left, right, k as usize))
        .beside(i.by_hand::<F>(|loops| loops.dot_products)),
        case(name, "linear combination", 1000,
            move |k| unsafe { p3_speed_linear_combinations(field, at(l), n, at(r), n, k as usize) },
            move |k| primes::linear_combinations::<F>(left, right, k as usize))
        .beside(i.by_hand::<F>(|loops| loops.dot_products)),
        horner_case::<F>(name, "Horner", &i, p3_speed_horner_chain),
        horner_case::<F>(name, "Horner over a slice", &i, p3_speed_horner_slice_chain),
    ]
}

/// The rows of chains and lists of powers.
fn chain_cases<F: ByHand>(name: &str, field: u32) -> Vec<Case> {
    // hidden from the compiler, so that no side is compiled for these numbers alone
    let [start, factor, step, exponent] = black_box([5, 3, 7, EXPONENT]);
    let length = black_box(POWERS);
    let powers_by_hand =
        F::list_loops().map(|loops| Box::new(move |k| (loops.power_lists)(factor, length, k)) as Call);
    vec![
        case(name, "product chain", 1000,
            move |k| p3_speed_product_chain(field, start, factor, 1000 * k),
            move |k| primes::product_chain::<F>(start, factor, 1000 * k)),
        case(name, "exp_u64", 1,
            move |k| p3_speed_power_chain(field, start, step, exponent, k),
            move |k| primes::power_chain::<F>(start, step, exponent, k)),
        case(name, "list of 4096 powers", 4096,
            move |k| p3_speed_power_lists(field, factor, length, k),
            move |k| primes::power_lists::<F>(factor, length, k))
        .beside(powers_by_hand),
        case(name, "try_inverse", 1,
            move |k| p3_speed_inverse_chain(field, start, step, k),
            move |k| primes::inverse_chain::<F>(start, step, k)),
        case(name, "tonelli_shanks", 1,
            move |k| p3_speed_root_chain(field, start, step, k),
            move |k| primes::root_chain::<F>(start, step, k)),
    ]
}

/// The rows of one type.
fn cases_of<F: ByHand>(name: &str, field: u32) -> Vec<Case> {
    let inputs = Inputs {
        field,
        left: numbers(F::ORDER, black_box(1)).leak(),
        right: numbers(F::ORDER, black_box(2)).leak(),
    };
    let mut cases = chain_cases::<F>(name, field);
    cases.extend(slice_cases::<F>(name, inputs));
    cases
}

/// All rows of the prime types.
pub fn cases() -> Vec<Case> {
    let mut cases = cases_of::<F17>("f17", 0);
    cases.extend(with_plain_of(cases_of::<BabyBear>("babybear", 1), cases_of::<BabyBearByWords>("babybear", 1)));
    cases.extend(cases_of::<Goldilocks>("goldilocks", 2));
    cases
}
