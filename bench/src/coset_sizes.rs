//! How the time of values over a coset grows with its size.
use crate::baby_bear::BabyBear;
use crate::calls::p3_speed_coset_values;
use crate::cosets;
use crate::lane_cases::units;
use crate::residues::{Goldilocks, Residue};
use std::hint::black_box;
use std::ops::RangeInclusive;
use std::time::Instant;

/// The name of the table.
pub const NAME: &str = "coset sizes";

const LOG_SIZES: RangeInclusive<usize> = 10..=20;
const RUNS: usize = 9;

/// How many values each run has.
const VALUES: u64 = 1 << 22;

/// Nanoseconds of the fastest run of the call.
fn best(call: impl Fn() -> u64) -> f64 {
    let times = (0..RUNS).map(|_| {
        let start = Instant::now();
        black_box(call());
        start.elapsed().as_nanos() as f64
    });
    times.fold(f64::INFINITY, f64::min)
}

/// Nanoseconds of the library for a value over a coset of `2^log_size` items, and whether plain Rust has the
/// same answer. What a call of no rounds takes, which reads the numbers, is taken off.
fn a_value<F: Residue>(field: u32, log_size: usize) -> (f64, bool) {
    let numbers = units(F::ORDER, 9, 1 << log_size);
    let (shift, log_size) = black_box((F::GENERATOR, log_size));
    let library = |rounds| unsafe {
        p3_speed_coset_values(field, numbers.as_ptr(), numbers.len(), shift, log_size, rounds)
    };
    let rounds = VALUES >> log_size;
    let taken = best(|| library(rounds)) - best(|| library(0));
    let agree = library(rounds) == cosets::by_halves::<F>(numbers, shift, log_size, rounds);
    (taken / VALUES as f64, agree)
}

/// Prints nanoseconds a value, and a value and level, of which there are as many as the log size says; whether
/// all values agree.
pub fn print() -> bool {
    println!();
    println!("| coset of  | babybear: a value | and level | goldilocks: a value | and level |");
    println!("|-----------|-------------------|-----------|---------------------|-----------|");
    let mut all_agree = true;
    for log_size in LOG_SIZES {
        let (baby_bear, agree) = a_value::<BabyBear>(1, log_size);
        let (goldilocks, agree_too) = a_value::<Goldilocks>(2, log_size);
        all_agree &= agree && agree_too;
        println!(
            "| 2^{log_size:<7} | {baby_bear:>17.2} | {:>9.3} | {goldilocks:>19.2} | {:>9.3} |{}",
            baby_bear / log_size as f64,
            goldilocks / log_size as f64,
            if agree && agree_too { "" } else { " THE VALUES DIFFER" },
        );
    }
    all_agree
}
