//! The rows of the extensions.
use crate::calls::*;
use crate::extensions::*;
use crate::table::{Case, with_plain_of};
use std::hint::black_box;

/// The coefficients as one number, to be compared.
fn mixed(value: &[u64; 8]) -> u64 {
    value.iter().fold(0, |sum, c| sum.wrapping_mul(0x9e37_79b9_7f4a_7c15).wrapping_add(*c))
}

/// The first value, as far as the degree goes.
static VALUE: [u64; 8] = [2, 3, 5, 7, 11, 13, 1, 4];
/// The factor, and what is added to an inverse.
static OTHER: [u64; 8] = [3, 1, 4, 1, 5, 9, 2, 6];

/// What runs a chain over the first coefficients of the value, as many as the degree, and mixes what is left.
fn over(start: &[u64; 8], degree: usize, call: &dyn Fn(&mut [u64])) -> u64 {
    let mut value = [0; 8];
    value[..degree].copy_from_slice(&start[..degree]);
    call(&mut value[..degree]);
    mixed(&value)
}

/// Both lists, hidden from the compiler, so that no side is compiled for these numbers alone.
fn hidden() -> (&'static [u64; 8], &'static [u64; 8]) {
    black_box((&VALUE, &OTHER))
}

/// The rows of one ring: of products and squares.
fn ring_cases_of<E: Ring + 'static>(name: &str, extension: u32, degree: usize) -> Vec<Case> {
    let (start, other) = hidden();
    vec![
        Case::new(
            format!("{name} product"),
            1,
            move |k| over(start, degree, &|v| unsafe {
                p3_speed_extension_products(extension, v.as_mut_ptr(), degree, other.as_ptr(), degree, k)
            }),
            move |k| over(start, degree, &|v| product_chain::<E>(v, &other[..degree], k)),
        ),
        Case::new(
            format!("{name} square"),
            1,
            move |k| over(start, degree, &|v| unsafe {
                p3_speed_extension_squares(extension, v.as_mut_ptr(), degree, k)
            }),
            move |k| over(start, degree, &|v| square_chain::<E>(v, k)),
        ),
    ]
}

/// The rows of one extension: those of the ring, and of inverses.
fn cases_of<E: Extension + 'static>(name: &str, extension: u32, degree: usize) -> Vec<Case> {
    let (start, other) = hidden();
    let mut cases = ring_cases_of::<E>(name, extension, degree);
    cases.push(Case::new(
        format!("{name} try_inverse"),
        1,
        move |k| over(start, degree, &|v| unsafe {
            p3_speed_extension_inverses(extension, v.as_mut_ptr(), degree, other.as_ptr(), degree, k)
        }),
        move |k| over(start, degree, &|v| inverse_chain::<E>(v, &other[..degree], k)),
    ));
    cases
}

/// All rows of the extensions.
pub fn cases() -> Vec<Case> {
    let mut cases = cases_of::<F17x2>("f17x2", 0, 2);
    cases.extend(cases_of::<F17x4>("f17x4", 1, 4));
    cases.extend(cases_of::<F17x8>("f17x8", 2, 8));
    cases.extend(cases_of::<F31x6>("f31x6", 3, 6));
    cases.extend(cases_of::<F31t3>("f31t3", 4, 3));
    cases.extend(cases_of::<F17t5>("f17t5", 5, 5));
    cases.extend(with_plain_of(cases_of::<BabyBearx4>("bbx4", 6, 4), cases_of::<BabyBearx4ByWords>("bbx4", 6, 4)));
    cases.extend(ring_cases_of::<F2t7>("f2t7", 7, 7));
    let by_words = ring_cases_of::<BabyBeart7ByWords>("bbt7", 8, 7);
    cases.extend(with_plain_of(ring_cases_of::<BabyBeart7>("bbt7", 8, 7), by_words));
    cases
}
