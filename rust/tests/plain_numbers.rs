//! The calls of the crate against plain arithmetic of 128 bits, on values of a generator of our own.
use p3_field_proved::{
    BabyBear, BabyBearx4, F17, Field, Goldilocks, KoalaBear, Packed, PackedValue, PrimeCharacteristicRing, PrimeField64,
    TwoAdicField, batch_multiplicative_inverse,
};

/// A generator of words, by xorshift.
struct Words(u64);

impl Words {
    fn next(&mut self) -> u64 {
        self.0 ^= self.0 << 13;
        self.0 ^= self.0 >> 7;
        self.0 ^= self.0 << 17;
        self.0
    }

    /// The edges of a range, and then words below its end.
    fn below(&mut self, order: u64, count: usize) -> Vec<u64> {
        let edges = [0, 1, 2, order - 1, order - 2, order / 2, order / 2 + 1];
        let mut numbers = edges.iter().map(|n| n % order).collect::<Vec<_>>();
        numbers.extend((0..count).map(|_| self.next() % order));
        numbers
    }
}

/// The power of a number modulo an order, by squaring.
fn power(base: u64, exponent: u64, order: u64) -> u64 {
    let (mut base, mut rest, mut result) = (base as u128, exponent, 1u128);
    while rest > 0 {
        if rest % 2 == 1 {
            result = result * base % order as u128;
        }
        base = base * base % order as u128;
        rest /= 2;
    }
    (result % order as u128) as u64
}

fn operations<F: PrimeField64>(order: u64) {
    let numbers = Words(1).below(order, 60);
    for (i, &a) in numbers.iter().enumerate() {
        let x = F::from_u64(a);
        assert_eq!(x.as_canonical_u64(), a);
        assert_eq!((-x).as_canonical_u64(), (order - a) % order);
        assert_eq!(x.exp_u64(1_000_003).as_canonical_u64(), power(a, 1_000_003, order));
        assert_eq!(x.try_inverse().map(|y| y.as_canonical_u64()), (a != 0).then(|| power(a, order - 2, order)));
        for &b in &numbers[i..] {
            let y = F::from_u64(b);
            let (p, q, m) = (a as u128, b as u128, order as u128);
            assert_eq!((x + y).as_canonical_u64() as u128, (p + q) % m);
            assert_eq!((x - y).as_canonical_u64() as u128, (p + m - q) % m);
            assert_eq!((x * y).as_canonical_u64() as u128, p * q % m);
        }
    }
}

#[test]
fn residues() {
    operations::<F17>(17);
    operations::<BabyBear>((1 << 31) - (1 << 27) + 1);
    operations::<KoalaBear>((1 << 31) - (1 << 24) + 1);
    operations::<Goldilocks>(0xffff_ffff_0000_0001);
}

#[test]
fn square_roots() {
    let mut words = Words(2);
    for _ in 0..50 {
        let x = BabyBear::from_u64(words.next());
        let root = x.square().try_sqrt();
        assert!(root == Some(x) || root == Some(-x));
    }
    // 31 generates, so it is no square.
    assert_eq!(BabyBear::from_u64(31).try_sqrt(), None);
}

/// The coefficients of a product modulo `X^4 - 31`, one product after the other.
fn quartic_product(a: &[u64; 4], b: &[u64; 4], order: u64) -> [u64; 4] {
    let mut result = [0u128; 4];
    for i in 0..4 {
        for j in 0..4 {
            let product = a[i] as u128 * b[j] as u128 % order as u128;
            let folded = if i + j < 4 { product } else { 31 * product };
            result[(i + j) % 4] += folded;
        }
    }
    result.map(|sum| (sum % order as u128) as u64)
}

fn quartic(numbers: &[u64; 4]) -> BabyBearx4 {
    BabyBearx4::new(numbers.map(BabyBear::from_u64))
}

#[test]
fn products_and_inverses_of_an_extension() {
    let order = (1 << 31) - (1 << 27) + 1;
    let mut words = Words(3);
    for _ in 0..200 {
        let mut four = || [(); 4].map(|()| words.next() % order);
        let (a, b) = (four(), four());
        assert_eq!(quartic(&a) * quartic(&b), quartic(&quartic_product(&a, &b, order)));
        let inverse = quartic(&a).try_inverse().expect("a nonzero value");
        assert_eq!(inverse * quartic(&a), quartic(&[1, 0, 0, 0]));
    }
    assert_eq!(quartic(&[0; 4]).try_inverse(), None);
}

fn lanes<const N: usize>()
where
    Packed<BabyBear, N>: PackedValue<Value = BabyBear> + PrimeCharacteristicRing,
{
    let mut words = Words(4);
    for _ in 0..50 {
        let left: [BabyBear; N] = std::array::from_fn(|_| BabyBear::from_u64(words.next()));
        let right: [BabyBear; N] = std::array::from_fn(|_| BabyBear::from_u64(words.next()));
        let (x, y) = (Packed::<BabyBear, N>::from_slice(&left), Packed::<BabyBear, N>::from_slice(&right));
        for lane in 0..N {
            assert_eq!(PackedValue::extract(&(x + y), lane), left[lane] + right[lane]);
            assert_eq!(PackedValue::extract(&(x - y), lane), left[lane] - right[lane]);
            assert_eq!(PackedValue::extract(&(x * y), lane), left[lane] * right[lane]);
        }
    }
}

#[test]
fn packings_lane_by_lane() {
    lanes::<4>();
    lanes::<8>();
    lanes::<16>();
}

#[test]
fn inverses_of_a_list() {
    let numbers = Words(5).below((1 << 31) - (1 << 24) + 1, 300);
    let values: Vec<KoalaBear> = numbers.into_iter().filter(|&n| n != 0).map(KoalaBear::from_u64).collect();
    for (inverse, value) in batch_multiplicative_inverse(&values).into_iter().zip(values) {
        assert_eq!(inverse * value, KoalaBear::one());
    }
}

#[test]
fn generators_of_two_adic_subgroups() {
    for bits in 0..=BabyBear::TWO_ADICITY {
        let generator = BabyBear::two_adic_generator(bits);
        assert_eq!(generator.exp_power_of_2(bits), BabyBear::one());
        assert!(bits == 0 || generator.exp_power_of_2(bits - 1) != BabyBear::one());
    }
}
