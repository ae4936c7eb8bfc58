//! Limbs: packed, split and counted by values that were made elsewhere and by the definitions, and bad input.
mod common;

use common::{Row, list, mixed, no_value, numbers, table, value, values};
use p3_field_proved::Error::{Radix, Word};
use p3_field_proved::{BabyBear, Goldilocks, KoalaBear, Limb};

/// Tests by each row of the table, at the row's field.
macro_rules! by_table {
    ($($call:ident)*) => {
        $(#[test]
        fn $call() {
            for row in table(stringify!($call)) {
                match row.field.as_str() {
                    "bb" => rows::$call::<BabyBear>(&row),
                    "kb" => rows::$call::<KoalaBear>(&row),
                    other => panic!("no field {other}"),
                }
            }
        })*
    };
}

by_table! { pack most_digits }

mod rows {
    use super::*;

    pub fn pack<F: Limb>(row: &Row) {
        let packed = F::pack(&row.values(1), row.number(0) as u32);
        assert_eq!(packed, Ok(value(list(&row.answer)[0])));
    }

    pub fn most_digits<F: Limb>(row: &Row) {
        assert_eq!(F::most_digits(row.number(0) as u32), Ok(list(&row.answer)[0] as usize));
    }
}

/// The digits of a number are those of its bits.
fn digits<F: Limb>() {
    for number in mixed::<Goldilocks>(50, 3) {
        for (radix_bits, count) in [(1, 64), (1, 70), (7, 3), (10, 7), (30, 3), (30, 0)] {
            let mut limbs = values::<F>(&vec![1; count]);
            assert_eq!(F::split(value(number), radix_bits, &mut limbs), Ok(()));
            let digit = |i: usize| {
                (number as u128 >> (i as u32 * radix_bits).min(127)) as u64 % (1 << radix_bits)
            };
            assert_eq!(numbers(&limbs), (0..count).map(digit).collect::<Vec<_>>());
            if count as u32 * radix_bits >= 64 {
                assert_eq!(F::pack(&limbs, radix_bits), Ok(value(number)));
            }
        }
    }
}

/// A radix of no bits, or of too many, and words that are none.
fn refusals<F: Limb>() {
    let bad = vec![no_value::<F>(); 3];
    for radix_bits in [0, 64, 65, 128, u32::MAX] {
        assert_eq!(F::pack(&bad, radix_bits), Err(Radix));
        assert_eq!(F::most_digits(radix_bits), Err(Radix));
    }
    for radix_bits in [0, 31, 32, 63, 64, 1 << 31, u32::MAX] {
        let mut limbs = values::<F>(&[7, 8]);
        assert_eq!(F::split(no_value(), radix_bits, &mut limbs), Err(Radix));
        assert_eq!(numbers(&limbs), [7, 8]);
    }
    for mut limbs in [values::<F>(&[7, 8]), vec![]] {
        let before = limbs.clone();
        assert_eq!(F::split(no_value(), 30, &mut limbs), Err(Word));
        assert_eq!(limbs, before);
    }
    assert_eq!(F::pack(&bad, 30), Err(Word));
}

#[test]
fn by_definition() {
    digits::<BabyBear>();
    digits::<KoalaBear>();
}

#[test]
fn bad_input() {
    refusals::<BabyBear>();
    refusals::<KoalaBear>();
}
