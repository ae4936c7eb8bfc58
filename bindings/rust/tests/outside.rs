//! Each call by values that were made elsewhere: `vectors/` has a table a call, made with the original crate and by
//! the definitions.
mod common;

use common::{Row, list, numbers, table, value, values};
use p3_field_proved::{BabyBear, Error, Goldilocks, KoalaBear, PrimeField};

/// Tests a call by each row of its table, at the row's field.
macro_rules! by_table {
    ($($call:ident)*) => {
        $(#[test]
        fn $call() {
            for row in table(stringify!($call)) {
                match row.field.as_str() {
                    "bb" => rows::$call::<BabyBear>(&row),
                    "kb" => rows::$call::<KoalaBear>(&row),
                    "gl" => rows::$call::<Goldilocks>(&row),
                    other => panic!("no field {other}"),
                }
            }
        })*
    };
}

by_table! {
    words sum product dot add mul scale add_scaled horner powers inverse batch_inverse sqrt coset eval_coset
}

mod rows {
    use super::*;

    pub fn words<F: PrimeField>(row: &Row) {
        let word = F::words(&row.values::<F>(0))[0];
        assert_eq!(word.into(), list(&row.answer)[0]);
        assert_eq!(numbers(F::from_words(&[word]).unwrap()), row.list(0));
    }

    pub fn sum<F: PrimeField>(row: &Row) {
        assert_eq!(F::sum(&row.values(0)), Ok(value(list(&row.answer)[0])));
    }

    pub fn product<F: PrimeField>(row: &Row) {
        assert_eq!(F::product(&row.values(0)), Ok(value(list(&row.answer)[0])));
    }

    pub fn dot<F: PrimeField>(row: &Row) {
        assert_eq!(F::dot(&row.values(0), &row.values(1)), Ok(value(list(&row.answer)[0])));
    }

    pub fn add<F: PrimeField>(row: &Row) {
        let mut left = row.values::<F>(0);
        assert_eq!(F::add(&mut left, &row.values(1)), Ok(()));
        assert_eq!(numbers(&left), list(&row.answer));
    }

    pub fn mul<F: PrimeField>(row: &Row) {
        let mut left = row.values::<F>(0);
        assert_eq!(F::mul(&mut left, &row.values(1)), Ok(()));
        assert_eq!(numbers(&left), list(&row.answer));
    }

    pub fn scale<F: PrimeField>(row: &Row) {
        let mut list_of = row.values::<F>(0);
        assert_eq!(F::scale(&mut list_of, row.value(1)), Ok(()));
        assert_eq!(numbers(&list_of), list(&row.answer));
    }

    pub fn add_scaled<F: PrimeField>(row: &Row) {
        let mut left = row.values::<F>(0);
        assert_eq!(F::add_scaled(&mut left, &row.values(1), row.value(2)), Ok(()));
        assert_eq!(numbers(&left), list(&row.answer));
    }

    pub fn horner<F: PrimeField>(row: &Row) {
        assert_eq!(F::horner(&row.values(0), row.value(1)), Ok(value(list(&row.answer)[0])));
    }

    /// The answer has the powers at the indices of the last argument.
    pub fn powers<F: PrimeField>(row: &Row) {
        let mut powers = values::<F>(&vec![0; row.number(2) as usize]);
        assert_eq!(F::powers(row.value(0), row.value(1), &mut powers), Ok(()));
        let chosen: Vec<F> = row.list(3).into_iter().map(|i| powers[i as usize]).collect();
        assert_eq!(numbers(&chosen), list(&row.answer));
    }

    pub fn inverse<F: PrimeField>(row: &Row) {
        assert_eq!(row.value::<F>(0).inverse(), Ok(value(list(&row.answer)[0])));
    }

    pub fn batch_inverse<F: PrimeField>(row: &Row) {
        let mut list_of = row.values::<F>(0);
        assert_eq!(F::batch_inverse(&mut list_of), Ok(()));
        assert_eq!(numbers(&list_of), list(&row.answer));
    }

    /// Either root is one.
    pub fn sqrt<F: PrimeField>(row: &Row) {
        let root = row.value::<F>(0).sqrt();
        if row.answer == "None" {
            return assert_eq!(root, Err(Error::NoRoot));
        }
        let other = list(&row.answer)[0];
        let negative = (common::order::<F>() - other) % common::order::<F>();
        assert!(root == Ok(value(other)) || root == Ok(value(negative)), "{root:?}");
    }

    pub fn coset<F: PrimeField>(row: &Row) {
        let log_size = row.number(1) as usize;
        let mut points = values::<F>(&vec![0; 1 << log_size]);
        assert_eq!(F::coset(row.value(0), log_size, &mut points), Ok(()));
        assert_eq!(numbers(&points), list(&row.answer));
    }

    pub fn eval_coset<F: PrimeField>(row: &Row) {
        let log_size = row.number(2) as usize;
        let mut over = values::<F>(&vec![0; 1 << log_size]);
        assert_eq!(F::eval_coset(&row.values(0), row.value(1), log_size, &mut over), Ok(()));
        assert_eq!(numbers(&over), list(&row.answer));
    }
}
