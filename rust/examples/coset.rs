//! The values of a polynomial over a coset of a two-adic subgroup.
use p3_field_proved::coset::TwoAdicMultiplicativeCoset;
use p3_field_proved::poly_eval::eval_coset;
use p3_field_proved::{BabyBear, PrimeCharacteristicRing};

fn main() {
    // 1 + 2 X + 3 X^2 over the coset of four points from 5 on.
    let coefficients = [1, 2, 3].map(BabyBear::new);
    let coset = TwoAdicMultiplicativeCoset::new(BabyBear::new(5), 2).expect("a shift with an inverse, and few points");
    let values = eval_coset(&coefficients, &coset);
    println!("{values:?}");
    assert_eq!(values[0], BabyBear::from_u64(1 + 2 * 5 + 3 * 25));
}
