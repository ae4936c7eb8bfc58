//! A function over every field, called at a prime field, an extension and a packing.
use p3_field_proved::{BabyBear, BabyBearx4, Packed, PackedValue, PrimeCharacteristicRing};

/// The value of a polynomial at a point, the coefficients from the constant one upward.
fn value_at<R: PrimeCharacteristicRing>(coefficients: &[R], point: R) -> R {
    coefficients.iter().rev().fold(R::zero(), |value, &coefficient| value * point + coefficient)
}

fn main() {
    let two = BabyBear::new(2);
    println!("{}", value_at(&[1, 2, 3].map(BabyBear::new), two));
    let x = BabyBearx4::new([0, 1, 0, 0].map(BabyBear::new));
    println!("{}", value_at(&[BabyBearx4::one(), x, x], x));
    let points = Packed::<BabyBear, 4>::new([0, 1, 2, 3].map(BabyBear::new));
    let values = value_at(&[1, 2, 3].map(|c| Packed::broadcast(BabyBear::new(c))), points);
    println!("{values:?}");
    assert_eq!(PackedValue::extract(&values, 2), BabyBear::new(17));
}
