//! What the tests share: values of numbers, tables of outside values, and lists that are the same at each run.
#![allow(dead_code)]

use p3_field_proved::PrimeField;
use std::fs;

/// The word of this number, whatever it is.
pub fn word<F: PrimeField>(number: u64) -> F::Word {
    F::Word::try_from(number).expect("a word")
}

/// The order as a number.
pub fn order<F: PrimeField>() -> u64 {
    F::ORDER.into()
}

/// The value of a canonical number.
pub fn value<F: PrimeField>(number: u64) -> F {
    F::from_number(word::<F>(number)).expect("a number below the order")
}

/// The values of canonical numbers.
pub fn values<F: PrimeField>(numbers: &[u64]) -> Vec<F> {
    numbers.iter().copied().map(value).collect()
}

/// The canonical numbers of values.
pub fn numbers<F: PrimeField>(values: &[F]) -> Vec<u64> {
    values.iter().map(|x| x.number().expect("a word below the order").into()).collect()
}

/// A value that isn't one: its word is the order.
pub fn no_value<F: PrimeField>() -> F {
    F::from_words_unchecked(&[F::ORDER])[0]
}

/// The product modulo the order.
pub fn product<F: PrimeField>(x: u64, y: u64) -> u64 {
    (x as u128 * y as u128 % order::<F>() as u128) as u64
}

/// The sum modulo the order.
pub fn sum<F: PrimeField>(x: u64, y: u64) -> u64 {
    ((x as u128 + y as u128) % order::<F>() as u128) as u64
}

/// The power modulo the order.
pub fn power<F: PrimeField>(base: u64, exponent: u64) -> u64 {
    let bits = (0..u64::BITS).rev().map(|i| exponent >> i & 1);
    bits.fold(1, |x, bit| {
        let square = product::<F>(x, x);
        if bit == 1 { product::<F>(square, base) } else { square }
    })
}

/// The primes that divide a number whose primes are below 2^17.
fn primes_of(number: u64) -> Vec<u64> {
    let mut left = number;
    let mut primes = vec![];
    for p in 2..1 << 17 {
        if left % p == 0 {
            primes.push(p);
        }
        while left % p == 0 {
            left /= p;
        }
    }
    assert_eq!(left, 1);
    primes
}

/// The least number whose powers are all nonzero elements, which is what upstream takes as the generator.
pub fn generator<F: PrimeField>() -> u64 {
    let count = order::<F>() - 1;
    let primes = primes_of(count);
    let generates = |&x: &u64| primes.iter().all(|p| power::<F>(x, count / p) != 1);
    (2..).find(generates).expect("a generator")
}

/// Numbers below the order, the same at each run: its ends come among them.
pub fn mixed<F: PrimeField>(count: usize, seed: u64) -> Vec<u64> {
    let mut state = seed.wrapping_mul(0x9e37_79b9_7f4a_7c15) | 1;
    let mut next = || {
        state ^= state << 13;
        state ^= state >> 7;
        state ^= state << 17;
        state
    };
    let numbers = (0..count).map(|_| match next() % 16 {
        0 => 0,
        1 => 1,
        2 => order::<F>() - 1,
        _ => next() % order::<F>(),
    });
    numbers.collect()
}

/// Lengths below, at and above those that the library works by.
pub const LENGTHS: [usize; 16] = [0, 1, 2, 3, 7, 8, 15, 16, 17, 31, 33, 255, 256, 257, 1000, 1031];

/// A row of a table: a field, arguments and an answer, by tabs. Arguments are separated by `|`, lists by commas.
pub struct Row {
    pub field: String,
    arguments: Vec<String>,
    pub answer: String,
}

impl Row {
    pub fn text(&self, index: usize) -> &str {
        &self.arguments[index]
    }

    pub fn number(&self, index: usize) -> u64 {
        self.arguments[index].parse().expect("a number")
    }

    pub fn list(&self, index: usize) -> Vec<u64> {
        list(&self.arguments[index])
    }

    pub fn value<F: PrimeField>(&self, index: usize) -> F {
        value(self.number(index))
    }

    pub fn values<F: PrimeField>(&self, index: usize) -> Vec<F> {
        values(&self.list(index))
    }
}

/// The numbers of a list.
pub fn list(text: &str) -> Vec<u64> {
    let parts = text.split(',').filter(|part| !part.is_empty());
    parts.map(|part| part.parse().expect("a number")).collect()
}

/// The rows of a table, of which there are some.
pub fn table(name: &str) -> Vec<Row> {
    let file = format!("{}/tests/vectors/{name}.tsv", env!("CARGO_MANIFEST_DIR"));
    let text = fs::read_to_string(&file).expect(&file);
    let row = |line: &str| {
        let [field, arguments, answer] = line.split('\t').collect::<Vec<_>>()[..] else {
            panic!("{file}: {line}");
        };
        let arguments = arguments.split('|').map(String::from).collect();
        Row { field: field.into(), arguments, answer: answer.into() }
    };
    let rows: Vec<Row> = text.lines().map(row).collect();
    assert!(!rows.is_empty(), "{file}");
    rows
}
