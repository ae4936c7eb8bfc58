//! Runs of steps by their definition, in plain arithmetic modulo the order, and steps and words that are none.
mod common;

use common::{generator, mixed, no_value, numbers, order, power, product, sum, value, values};
use p3_field_proved::Error::{NoInverse, NoRoot, Step, Word};
use p3_field_proved::{BabyBear, Error, Goldilocks, KoalaBear, PrimeField, RunStep};

/// A step over a ring.
fn step(op: u32, d: u32, a: u32, b: u32, e: u64) -> RunStep {
    RunStep { op, d, a, b, e }
}

/// What a step of the operations 0 to 8 gives.
fn gives<F: PrimeField>(registers: &[u64], step: &RunStep) -> u64 {
    let (x, y) = (registers[step.a as usize], registers.get(step.b as usize).copied());
    let negative = |x: u64| (order::<F>() - x) % order::<F>();
    let second = || y.expect("a second register");
    match step.op {
        0 => sum::<F>(x, second()),
        1 => sum::<F>(x, negative(second())),
        2 => product::<F>(x, second()),
        3 => negative(x),
        4 => product::<F>(x, x),
        5 => sum::<F>(x, x),
        6 => power::<F>(x, step.e),
        7 => product::<F>(x, power::<F>(2, step.e)),
        8 => power::<F>(x, order::<F>() - 2),
        other => panic!("no operation {other}"),
    }
}

/// Each operation by itself, and long runs of them.
fn by_definition<F: PrimeField>() {
    for length in [1, 4, 16] {
        for seed in 0..20 {
            let mut expected: Vec<u64> =
                mixed::<F>(length, seed).into_iter().map(|x| x.max(1)).collect();
            let mut registers = values::<F>(&expected);
            let chosen = mixed::<Goldilocks>(300, seed);
            let register = |x: u64| (x % length as u64) as u32;
            let mut steps = vec![];
            for part in chosen.chunks(5) {
                let next = step(
                    (part[0] % 9) as u32,
                    register(part[1]),
                    register(part[2]),
                    register(part[3]),
                    part[4],
                );
                // a zero has no inverse
                if next.op < 8 || expected[next.a as usize] != 0 {
                    expected[next.d as usize] = gives::<F>(&expected, &next);
                    steps.push(next);
                }
            }
            assert_eq!(F::run(&mut registers, &steps), Ok(()));
            assert_eq!(numbers(&registers), expected);
        }
    }
    // a register that no operation reads may be any
    let mut registers = values::<F>(&[5]);
    assert_eq!(F::run(&mut registers, &[step(4, 0, 0, 9, 9)]), Ok(()));
    assert_eq!(numbers(&registers), [25]);
    assert_eq!(F::run(&mut [], &[]), Ok(()));
}

/// Either root may be taken.
fn roots<F: PrimeField>() {
    let mut registers = values::<F>(&[81, 0]);
    assert_eq!(F::run(&mut registers, &[step(9, 1, 0, 0, 0), step(4, 0, 1, 0, 0)]), Ok(()));
    assert_eq!(numbers(&registers)[0], 81);
    let root = numbers(&registers)[1];
    assert!(root == 9 || root == order::<F>() - 9);
}

/// Whether the run is refused for this reason, and the registers as they were.
fn refused<F: PrimeField>(why: Error, registers: &[F], steps: &[RunStep]) {
    let mut list = registers.to_vec();
    assert_eq!(F::run(&mut list, steps), Err(why));
    assert_eq!(list, registers);
}

fn refusals<F: PrimeField>() {
    let registers = values::<F>(&[3, 0, 5]);
    let good = step(2, 0, 2, 2, 0);
    for bad in [step(10, 0, 0, 0, 0), step(u32::MAX, 0, 0, 0, 0), step(1 << 16, 0, 0, 0, 0)] {
        refused(Step, &registers, &[good, bad]);
    }
    for op in 0..10 {
        refused(Step, &registers, &[good, step(op, 3, 0, 0, 0)]);
        refused(Step, &registers, &[good, step(op, 0, 3, 0, 0)]);
        refused::<F>(Step, &[], &[step(op, 0, 0, 0, 0)]);
    }
    for op in 0..3 {
        refused(Step, &registers, &[good, step(op, 0, 0, u32::MAX, 0)]);
    }
    let mut words = registers.clone();
    words[1] = no_value();
    refused(Word, &words, &[good]);
    // steps are looked at before words, and these before inverses
    refused(Step, &words, &[step(10, 0, 0, 0, 0)]);
    refused(Word, &words, &[step(8, 0, 1, 0, 0)]);
    refused(NoInverse, &registers, &[good, step(8, 0, 1, 0, 0), good]);
    let no_square = [value::<F>(generator::<F>()), value(0)];
    refused(NoRoot, &no_square, &[step(9, 1, 0, 0, 0)]);
}

/// Tests at each of the three fields.
macro_rules! at_each_field {
    ($($test:ident: $kind:ident)*) => {
        $(#[test]
        fn $test() {
            $kind::<BabyBear>();
            $kind::<KoalaBear>();
            $kind::<Goldilocks>();
        })*
    };
}

at_each_field! { runs: by_definition square_roots: roots bad_input: refusals }
