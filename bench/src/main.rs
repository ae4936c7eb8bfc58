//! The proved library beside plain Rust and beside intrinsics that do the same work, in one process and in
//! turn.
mod baby_bear;
mod by_hand;
mod calculator;
mod calculator_cases;
mod calls;
mod coset_cases;
mod coset_sizes;
mod cosets;
mod extension_cases;
mod extensions;
mod lane_cases;
mod lanes;
mod places;
mod prime_cases;
mod primes;
mod residues;
mod slices;
mod sums;
mod table;

fn main() {
    let word = std::env::args().nth(1).unwrap_or_default();
    let mut cases = prime_cases::cases();
    cases.extend(extension_cases::cases());
    cases.extend(lane_cases::cases());
    cases.extend(coset_cases::cases());
    cases.extend(calculator_cases::cases());
    let mut agree = table::print(&cases, &word);
    // that table times the library alone
    if table::LIBRARY && coset_sizes::NAME.contains(&word) {
        agree &= coset_sizes::print();
    }
    if !agree {
        std::process::exit(1);
    }
}
