//! The rows of values over cosets, each counted a value.
use crate::baby_bear::{BabyBear, BabyBearByWords};
use crate::calls::p3_speed_coset_values;
use crate::cosets;
use crate::lane_cases::units;
use crate::residues::{Goldilocks, Residue};
use crate::table::{Case, with_plain_of};
use std::hint::black_box;

/// How many values a run has at least: so many that reading the numbers and the one value at the end take
/// little beside them.
const VALUES: u64 = 1 << 19;

/// A plain loop over a coset: the numbers of the coefficients, the shift, the log size and the rounds.
type CosetLoop = fn(&[u64], u64, usize, u64) -> u64;

/// A row over a coset of `2^log_size` items, which takes so many rounds at once.
fn case<F: Residue>(name: String, field: u32, log_size: usize, rounds: u64, plain: CosetLoop) -> Case {
    let numbers = units(F::ORDER, 8, 1 << log_size);
    let (shift, log_size) = black_box((F::GENERATOR, log_size));
    Case::new(
        name,
        rounds << log_size,
        move |k| unsafe {
            p3_speed_coset_values(field, numbers.as_ptr(), numbers.len(), shift, log_size, rounds * k)
        },
        move |k| plain(numbers, shift, log_size, rounds * k),
    )
}

/// The rows of one type.
fn cases_of<F: Residue>(name: &str, field: u32) -> Vec<Case> {
    let row = |log_size: usize| {
        let name = format!("{name} coset of {} values", 1 << log_size);
        case::<F>(name, field, log_size, VALUES >> log_size, cosets::by_halves::<F>)
    };
    let beside_horner = |log_size: usize| {
        let name = format!("{name} coset of {} beside Horner", 1 << log_size);
        case::<F>(name, field, log_size, 1, cosets::by_points::<F>)
    };
    vec![row(12), row(16), beside_horner(12)]
}

/// All rows of values over cosets.
pub fn cases() -> Vec<Case> {
    let mut cases = with_plain_of(cases_of::<BabyBear>("babybear", 1), cases_of::<BabyBearByWords>("babybear", 1));
    cases.extend(cases_of::<Goldilocks>("goldilocks", 2));
    cases
}
