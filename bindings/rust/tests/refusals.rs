//! Bad input of each kind to each call, at each field: the status, and that what was lent is as it was.
mod common;

use common::{generator, mixed, no_value, value, values};
use p3_field_proved::Error::{Length, LogSize, NoInverse, Word};
use p3_field_proved::{BabyBear, Error, Goldilocks, KoalaBear, PrimeField, calls};

/// Where a bad word stands in a list of `LENGTH`: at its ends, and where blocks of a power of two may end.
const INDICES: [usize; 8] = [0, 1, 15, 16, 255, 256, 511, LENGTH - 1];
const LENGTH: usize = 700;

/// A list that has no zero.
fn list<F: PrimeField>(seed: u64) -> Vec<F> {
    values(&mixed::<F>(LENGTH, seed).into_iter().map(|x| x.max(1)).collect::<Vec<_>>())
}

/// Lists with this value at one of the indices.
fn lists_with<F: PrimeField>(bad: F) -> impl Iterator<Item = Vec<F>> {
    INDICES.into_iter().map(move |index| {
        let mut list = list(index as u64);
        list[index] = bad;
        list
    })
}

/// Whether the call on the list is refused for this reason, and the list as it was.
fn refused<F: PrimeField>(
    why: Error,
    list: &mut [F],
    call: impl FnOnce(&mut [F]) -> Result<(), Error>,
) {
    let before = list.to_vec();
    assert_eq!(call(list), Err(why));
    assert_eq!(list, before);
}

/// Tests at each of the three fields.
macro_rules! at_each_field {
    ($($kind:ident)*) => {
        $(#[test]
        fn $kind() {
            kinds::$kind::<BabyBear>();
            kinds::$kind::<KoalaBear>();
            kinds::$kind::<Goldilocks>();
        })*
    };
}

at_each_field! {
    lengths words_of_one_list words_of_two_lists words_beside_lists words_of_cosets zeros log_sizes sizes
}

mod kinds {
    use super::*;

    pub fn lengths<F: PrimeField>() {
        let factor = value::<F>(3);
        for length in [0, 1, LENGTH - 1, LENGTH + 1] {
            let right = vec![factor; length];
            assert_eq!(F::dot(&list(1), &right), Err(Length));
            refused::<F>(Length, &mut list(1), |left| F::add(left, &right));
            refused::<F>(Length, &mut list(1), |left| F::mul(left, &right));
            refused::<F>(Length, &mut list(1), |left| F::add_scaled(left, &right, factor));
            // the lengths are looked at before the words
            refused::<F>(Length, &mut list(1), |left| F::add(left, &vec![no_value(); length]));
        }
    }

    pub fn words_of_one_list<F: PrimeField>() {
        let factor = value::<F>(3);
        for mut bad in lists_with(no_value::<F>()) {
            assert_eq!(F::check(&bad), Err(Word));
            assert_eq!(F::from_words(F::words(&bad)), Err(Word));
            assert_eq!(F::sum(&bad), Err(Word));
            assert_eq!(F::product(&bad), Err(Word));
            assert_eq!(F::horner(&bad, factor), Err(Word));
            refused(Word, &mut bad, |list| F::to_canonical(list).map(|_| ()));
            refused(Word, &mut bad, |list| F::scale(list, factor));
            refused(Word, &mut bad, |list| F::batch_inverse(list));
            let mut numbers = F::words(&bad).to_vec();
            assert_eq!(F::from_canonical(&mut numbers), Err(Word));
            assert_eq!(numbers, F::words(&bad));
        }
    }

    pub fn words_of_two_lists<F: PrimeField>() {
        let factor = value::<F>(3);
        for mut bad in lists_with(no_value::<F>()) {
            let mut good = list::<F>(3);
            assert_eq!(F::dot(&good, &bad), Err(Word));
            assert_eq!(F::dot(&bad, &good), Err(Word));
            refused(Word, &mut bad, |left| F::add(left, &good));
            refused(Word, &mut bad, |left| F::mul(left, &good));
            refused(Word, &mut bad, |left| F::add_scaled(left, &good, factor));
            refused(Word, &mut good, |left| F::add(left, &bad));
            refused(Word, &mut good, |left| F::mul(left, &bad));
            refused(Word, &mut good, |left| F::add_scaled(left, &bad, factor));
        }
    }

    pub fn words_beside_lists<F: PrimeField>() {
        let (bad, factor) = (no_value::<F>(), value::<F>(3));
        assert_eq!(F::from_number(F::ORDER), Err(Word));
        assert_eq!(bad.number(), Err(Word));
        assert_eq!(bad.inverse(), Err(Word));
        assert_eq!(bad.sqrt(), Err(Word));
        for mut good in [vec![], list::<F>(4)] {
            let right = good.clone();
            assert_eq!(F::horner(&good, bad), Err(Word));
            refused(Word, &mut good, |list| F::scale(list, bad));
            refused(Word, &mut good, |left| F::add_scaled(left, &right, bad));
            refused(Word, &mut good, |room| F::powers(bad, factor, room));
            refused(Word, &mut good, |room| F::powers(factor, bad, room));
        }
    }

    pub fn words_of_cosets<F: PrimeField>() {
        let (bad, one) = (no_value::<F>(), value::<F>(1));
        let mut room = vec![one; 8];
        refused(Word, &mut room, |points| F::coset(bad, 3, points));
        refused(Word, &mut room, |over| F::eval_coset(&list(5), bad, 3, over));
        for coefficients in lists_with(bad) {
            refused(Word, &mut room, |over| F::eval_coset(&coefficients, one, 3, over));
            // words are looked at before inverses
            refused(Word, &mut room, |over| F::eval_coset(&coefficients, value(0), 3, over));
        }
    }

    pub fn zeros<F: PrimeField>() {
        let zero = value::<F>(0);
        assert_eq!(zero.inverse(), Err(NoInverse));
        for mut list in lists_with(zero) {
            refused(NoInverse, &mut list, |list| F::batch_inverse(list));
            *list.last_mut().unwrap() = no_value();
            refused(Word, &mut list, |list| F::batch_inverse(list));
        }
        let mut room = vec![value::<F>(1); 8];
        refused(NoInverse, &mut room, |points| F::coset(zero, 3, points));
        refused(NoInverse, &mut room, |over| F::eval_coset(&list(5), zero, 3, over));
    }

    pub fn log_sizes<F: PrimeField>() {
        let one = value::<F>(1);
        for log_size in [F::TWO_ADICITY + 1, 63, 64, 65, 1 << 32, usize::MAX] {
            for length in [0, 1, 2, 8] {
                let mut room = vec![one; length];
                refused(LogSize, &mut room, |points| F::coset(one, log_size, points));
                refused(LogSize, &mut room, |over| F::eval_coset(&list(5), one, log_size, over));
                // the log size is looked at before the words
                refused(LogSize, &mut room, |points| F::coset(no_value(), log_size, points));
            }
        }
    }

    pub fn sizes<F: PrimeField>() {
        let one = value::<F>(1);
        for (log_size, length) in
            [(0, 0), (0, 2), (3, 0), (3, 7), (3, 9), (3, 16), (F::TWO_ADICITY, 8)]
        {
            let mut room = vec![one; length];
            refused(Length, &mut room, |points| F::coset(one, log_size, points));
            refused(Length, &mut room, |over| F::eval_coset(&list(5), one, log_size, over));
        }
    }
}

/// Calls that answer one word through a pointer: where they are refused, what is there stays.
macro_rules! answers {
    ($name:ident, $calls:ident, $field:ident, $word:ty) => {
        #[test]
        fn $name() {
            use calls::{status::*, $calls::*};
            let mut room: $word = 77;
            let (at, bad) = (&mut room as *mut $word, $field::ORDER);
            let list = [1, bad];
            let no_square = $field::words(&[value(generator::<$field>())])[0];
            let refused = unsafe {
                [
                    (WORD, sum(list.as_ptr(), 2, at)),
                    (WORD, product(list.as_ptr(), 2, at)),
                    (WORD, dot(list.as_ptr(), 2, list.as_ptr(), 2, at)),
                    (LENGTH, dot(list.as_ptr(), 2, list.as_ptr(), 1, at)),
                    (WORD, horner(list.as_ptr(), 2, 1, at)),
                    (WORD, horner(list.as_ptr(), 1, bad, at)),
                    (WORD, inverse(bad, at)),
                    (NO_INVERSE, inverse(0, at)),
                    (WORD, sqrt(bad, at)),
                    (NO_ROOT, sqrt(no_square, at)),
                ]
            };
            for (index, (wanted, answered)) in refused.into_iter().enumerate() {
                assert_eq!(answered, wanted, "{index}");
            }
            assert_eq!(room, 77);
            assert_eq!(unsafe { sum(list.as_ptr(), 1, at) }, OK);
            assert_eq!(room, 1);
        }
    };
}

answers! { answers_of_baby_bear, bb, BabyBear, u32 }
answers! { answers_of_koala_bear, kb, KoalaBear, u32 }
answers! { answers_of_goldilocks, gl, Goldilocks, u64 }
