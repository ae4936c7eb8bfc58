//! The calls of the static library as C has them: a slice goes as a pointer and a length. `bindings/c/p3_field.h`
//! says what a caller upholds.
//!
//! `scripts/c-header` writes this file, and `.ci/run` compares it.

/// What a call answers.
pub mod status {
    /// All is done.
    pub const OK: i32 = 0;
    /// The lengths differ, or a length isn't what the call asks for.
    pub const LENGTH: i32 = 1;
    /// A word is not below the order.
    pub const WORD: i32 = 2;
    /// A value has no inverse.
    pub const NO_INVERSE: i32 = 3;
    /// No square root is found.
    pub const NO_ROOT: i32 = 4;
    /// The log size is past the two-adicity.
    pub const LOG_SIZE: i32 = 5;
    /// Memory was refused.
    pub const MEMORY: i32 = 6;
    /// A step's number is unknown, or a register that it names isn't there.
    pub const STEP: i32 = 7;
    /// The bits of the radix are not what the call asks for.
    pub const RADIX: i32 = 8;
}

/// One step over registers: register d becomes what the operation gives of registers a and b as
/// they stand, or of register a alone.
#[derive(Clone, Copy, Debug, PartialEq, Eq)]
#[repr(C)]
pub struct RunStep {
    /// The operation: 0 the sum, 1 the difference, 2 the product, 3 the negation, 4 the square, 5
    /// the double, 6 the power e, 7 the product with two to the power e, 8 the inverse, 9 a square
    /// root.
    pub op: u32,
    /// The register that is written.
    pub d: u32,
    /// The register that is read.
    pub a: u32,
    /// The second register that is read, by the operations 0, 1 and 2.
    pub b: u32,
    /// The exponent of the operations 6 and 7.
    pub e: u64,
}

/// BabyBear.
pub mod bb {
    use super::RunStep;

    unsafe extern "C" {
        /// Writes over each canonical number the word of its value. Refused by P3_WORD.
        #[link_name = "p3_bb_from_canonical"]
        pub fn from_canonical(values: *mut u32, values_len: usize) -> i32;
        /// Writes over each word the canonical number of its value. Refused by P3_WORD.
        #[link_name = "p3_bb_to_canonical"]
        pub fn to_canonical(values: *mut u32, values_len: usize) -> i32;
        /// Whether each word is below the order. Refused by P3_WORD.
        #[link_name = "p3_bb_check"]
        pub fn check(values: *const u32, values_len: usize) -> i32;
        /// The sum of the values; of none it is zero. Refused by P3_WORD.
        #[link_name = "p3_bb_sum"]
        pub fn sum(values: *const u32, values_len: usize, sum: *mut u32) -> i32;
        /// The product of the values; of none it is one. Refused by P3_WORD.
        #[link_name = "p3_bb_product"]
        pub fn product(values: *const u32, values_len: usize, product: *mut u32) -> i32;
        /// The sum of the products, index by index. Refused by P3_LENGTH, P3_WORD.
        #[link_name = "p3_bb_dot"]
        pub fn dot(
            left: *const u32,
            left_len: usize,
            right: *const u32,
            right_len: usize,
            dot: *mut u32,
        ) -> i32;
        /// Adds to each value of the left slice that of the right one at its index. Refused by
        /// P3_LENGTH, P3_WORD.
        #[link_name = "p3_bb_add"]
        pub fn add(left: *mut u32, left_len: usize, right: *const u32, right_len: usize) -> i32;
        /// Multiplies each value of the left slice by that of the right one at its index. Refused
        /// by P3_LENGTH, P3_WORD.
        #[link_name = "p3_bb_mul"]
        pub fn mul(left: *mut u32, left_len: usize, right: *const u32, right_len: usize) -> i32;
        /// Multiplies each value by the factor. Refused by P3_WORD.
        #[link_name = "p3_bb_scale"]
        pub fn scale(values: *mut u32, values_len: usize, factor: u32) -> i32;
        /// Adds to each value of the left slice that of the right one at its index times the
        /// factor. Refused by P3_LENGTH, P3_WORD.
        #[link_name = "p3_bb_add_scaled"]
        pub fn add_scaled(
            left: *mut u32,
            left_len: usize,
            right: *const u32,
            right_len: usize,
            factor: u32,
        ) -> i32;
        /// The value at the point of the polynomial with these coefficients, the constant one
        /// first. Refused by P3_WORD.
        #[link_name = "p3_bb_horner"]
        pub fn horner(
            coefficients: *const u32,
            coefficients_len: usize,
            point: u32,
            value: *mut u32,
        ) -> i32;
        /// Writes the start, its product with the base, that one's product with the base, and so on
        /// to the slice's end. Refused by P3_WORD.
        #[link_name = "p3_bb_powers"]
        pub fn powers(base: u32, start: u32, powers: *mut u32, powers_len: usize) -> i32;
        /// The inverse of the value. Refused by P3_WORD, P3_NO_INVERSE.
        #[link_name = "p3_bb_inverse"]
        pub fn inverse(value: u32, inverse: *mut u32) -> i32;
        /// Writes over each value its inverse. Refused by P3_WORD, P3_NO_INVERSE.
        #[link_name = "p3_bb_batch_inverse"]
        pub fn batch_inverse(values: *mut u32, values_len: usize) -> i32;
        /// A square root of the value, as the search by Tonelli and Shanks finds it. Refused by
        /// P3_WORD, P3_NO_ROOT.
        #[link_name = "p3_bb_sqrt"]
        pub fn sqrt(value: u32, root: *mut u32) -> i32;
        /// Writes the points of the coset of the shift whose size is two to the log size, which is
        /// the slice's length: the shift times the powers of the two-adic generator of that order.
        /// Refused by P3_LOG_SIZE, P3_LENGTH, P3_WORD, P3_NO_INVERSE.
        #[link_name = "p3_bb_coset"]
        pub fn coset(shift: u32, log_size: usize, points: *mut u32, points_len: usize) -> i32;
        /// Writes the values, over the coset of the shift whose size is two to the log size, of the
        /// polynomial with these coefficients, the constant one first. The size is the slice's
        /// length. Refused by P3_LOG_SIZE, P3_LENGTH, P3_WORD, P3_NO_INVERSE, P3_MEMORY.
        #[link_name = "p3_bb_eval_coset"]
        pub fn eval_coset(
            coefficients: *const u32,
            coefficients_len: usize,
            shift: u32,
            log_size: usize,
            values: *mut u32,
            values_len: usize,
        ) -> i32;
        /// Carries out the steps, one after the other, over the values of the registers. Where a
        /// step's value has no inverse or no root is found, no register is written. Refused by
        /// P3_STEP, P3_WORD, P3_NO_INVERSE, P3_NO_ROOT, P3_MEMORY.
        #[link_name = "p3_bb_run"]
        pub fn run(
            registers: *mut u32,
            registers_len: usize,
            steps: *const RunStep,
            steps_len: usize,
        ) -> i32;
        /// The value of Goldilocks for the number whose digits in radix two to the radix bits, the
        /// lowest first, are the limbs. Refused by P3_RADIX, P3_WORD, P3_MEMORY.
        #[link_name = "p3_bb_pack"]
        pub fn pack(limbs: *const u32, limbs_len: usize, radix_bits: u32, value: *mut u64) -> i32;
        /// Writes the lowest digits of the value of Goldilocks in radix two to the radix bits, the
        /// lowest first, as many as there are limbs. Refused by P3_RADIX, P3_WORD, P3_MEMORY.
        #[link_name = "p3_bb_split"]
        pub fn split(value: u64, radix_bits: u32, limbs: *mut u32, limbs_len: usize) -> i32;
        /// How many limbs can be packed into one value of Goldilocks at most, in radix two to the
        /// radix bits, so that lists of one length stay apart where the radix is not below the
        /// order. Refused by P3_RADIX.
        #[link_name = "p3_bb_most_digits"]
        pub fn most_digits(radix_bits: u32, count: *mut usize) -> i32;
    }
}

/// KoalaBear.
pub mod kb {
    use super::RunStep;

    unsafe extern "C" {
        /// Writes over each canonical number the word of its value. Refused by P3_WORD.
        #[link_name = "p3_kb_from_canonical"]
        pub fn from_canonical(values: *mut u32, values_len: usize) -> i32;
        /// Writes over each word the canonical number of its value. Refused by P3_WORD.
        #[link_name = "p3_kb_to_canonical"]
        pub fn to_canonical(values: *mut u32, values_len: usize) -> i32;
        /// Whether each word is below the order. Refused by P3_WORD.
        #[link_name = "p3_kb_check"]
        pub fn check(values: *const u32, values_len: usize) -> i32;
        /// The sum of the values; of none it is zero. Refused by P3_WORD.
        #[link_name = "p3_kb_sum"]
        pub fn sum(values: *const u32, values_len: usize, sum: *mut u32) -> i32;
        /// The product of the values; of none it is one. Refused by P3_WORD.
        #[link_name = "p3_kb_product"]
        pub fn product(values: *const u32, values_len: usize, product: *mut u32) -> i32;
        /// The sum of the products, index by index. Refused by P3_LENGTH, P3_WORD.
        #[link_name = "p3_kb_dot"]
        pub fn dot(
            left: *const u32,
            left_len: usize,
            right: *const u32,
            right_len: usize,
            dot: *mut u32,
        ) -> i32;
        /// Adds to each value of the left slice that of the right one at its index. Refused by
        /// P3_LENGTH, P3_WORD.
        #[link_name = "p3_kb_add"]
        pub fn add(left: *mut u32, left_len: usize, right: *const u32, right_len: usize) -> i32;
        /// Multiplies each value of the left slice by that of the right one at its index. Refused
        /// by P3_LENGTH, P3_WORD.
        #[link_name = "p3_kb_mul"]
        pub fn mul(left: *mut u32, left_len: usize, right: *const u32, right_len: usize) -> i32;
        /// Multiplies each value by the factor. Refused by P3_WORD.
        #[link_name = "p3_kb_scale"]
        pub fn scale(values: *mut u32, values_len: usize, factor: u32) -> i32;
        /// Adds to each value of the left slice that of the right one at its index times the
        /// factor. Refused by P3_LENGTH, P3_WORD.
        #[link_name = "p3_kb_add_scaled"]
        pub fn add_scaled(
            left: *mut u32,
            left_len: usize,
            right: *const u32,
            right_len: usize,
            factor: u32,
        ) -> i32;
        /// The value at the point of the polynomial with these coefficients, the constant one
        /// first. Refused by P3_WORD.
        #[link_name = "p3_kb_horner"]
        pub fn horner(
            coefficients: *const u32,
            coefficients_len: usize,
            point: u32,
            value: *mut u32,
        ) -> i32;
        /// Writes the start, its product with the base, that one's product with the base, and so on
        /// to the slice's end. Refused by P3_WORD.
        #[link_name = "p3_kb_powers"]
        pub fn powers(base: u32, start: u32, powers: *mut u32, powers_len: usize) -> i32;
        /// The inverse of the value. Refused by P3_WORD, P3_NO_INVERSE.
        #[link_name = "p3_kb_inverse"]
        pub fn inverse(value: u32, inverse: *mut u32) -> i32;
        /// Writes over each value its inverse. Refused by P3_WORD, P3_NO_INVERSE.
        #[link_name = "p3_kb_batch_inverse"]
        pub fn batch_inverse(values: *mut u32, values_len: usize) -> i32;
        /// A square root of the value, as the search by Tonelli and Shanks finds it. Refused by
        /// P3_WORD, P3_NO_ROOT.
        #[link_name = "p3_kb_sqrt"]
        pub fn sqrt(value: u32, root: *mut u32) -> i32;
        /// Writes the points of the coset of the shift whose size is two to the log size, which is
        /// the slice's length: the shift times the powers of the two-adic generator of that order.
        /// Refused by P3_LOG_SIZE, P3_LENGTH, P3_WORD, P3_NO_INVERSE.
        #[link_name = "p3_kb_coset"]
        pub fn coset(shift: u32, log_size: usize, points: *mut u32, points_len: usize) -> i32;
        /// Writes the values, over the coset of the shift whose size is two to the log size, of the
        /// polynomial with these coefficients, the constant one first. The size is the slice's
        /// length. Refused by P3_LOG_SIZE, P3_LENGTH, P3_WORD, P3_NO_INVERSE, P3_MEMORY.
        #[link_name = "p3_kb_eval_coset"]
        pub fn eval_coset(
            coefficients: *const u32,
            coefficients_len: usize,
            shift: u32,
            log_size: usize,
            values: *mut u32,
            values_len: usize,
        ) -> i32;
        /// Carries out the steps, one after the other, over the values of the registers. Where a
        /// step's value has no inverse or no root is found, no register is written. Refused by
        /// P3_STEP, P3_WORD, P3_NO_INVERSE, P3_NO_ROOT, P3_MEMORY.
        #[link_name = "p3_kb_run"]
        pub fn run(
            registers: *mut u32,
            registers_len: usize,
            steps: *const RunStep,
            steps_len: usize,
        ) -> i32;
        /// The value of Goldilocks for the number whose digits in radix two to the radix bits, the
        /// lowest first, are the limbs. Refused by P3_RADIX, P3_WORD, P3_MEMORY.
        #[link_name = "p3_kb_pack"]
        pub fn pack(limbs: *const u32, limbs_len: usize, radix_bits: u32, value: *mut u64) -> i32;
        /// Writes the lowest digits of the value of Goldilocks in radix two to the radix bits, the
        /// lowest first, as many as there are limbs. Refused by P3_RADIX, P3_WORD, P3_MEMORY.
        #[link_name = "p3_kb_split"]
        pub fn split(value: u64, radix_bits: u32, limbs: *mut u32, limbs_len: usize) -> i32;
        /// How many limbs can be packed into one value of Goldilocks at most, in radix two to the
        /// radix bits, so that lists of one length stay apart where the radix is not below the
        /// order. Refused by P3_RADIX.
        #[link_name = "p3_kb_most_digits"]
        pub fn most_digits(radix_bits: u32, count: *mut usize) -> i32;
    }
}

/// Goldilocks.
pub mod gl {
    use super::RunStep;

    unsafe extern "C" {
        /// Writes over each canonical number the word of its value. Refused by P3_WORD.
        #[link_name = "p3_gl_from_canonical"]
        pub fn from_canonical(values: *mut u64, values_len: usize) -> i32;
        /// Writes over each word the canonical number of its value. Refused by P3_WORD.
        #[link_name = "p3_gl_to_canonical"]
        pub fn to_canonical(values: *mut u64, values_len: usize) -> i32;
        /// Whether each word is below the order. Refused by P3_WORD.
        #[link_name = "p3_gl_check"]
        pub fn check(values: *const u64, values_len: usize) -> i32;
        /// The sum of the values; of none it is zero. Refused by P3_WORD.
        #[link_name = "p3_gl_sum"]
        pub fn sum(values: *const u64, values_len: usize, sum: *mut u64) -> i32;
        /// The product of the values; of none it is one. Refused by P3_WORD.
        #[link_name = "p3_gl_product"]
        pub fn product(values: *const u64, values_len: usize, product: *mut u64) -> i32;
        /// The sum of the products, index by index. Refused by P3_LENGTH, P3_WORD.
        #[link_name = "p3_gl_dot"]
        pub fn dot(
            left: *const u64,
            left_len: usize,
            right: *const u64,
            right_len: usize,
            dot: *mut u64,
        ) -> i32;
        /// Adds to each value of the left slice that of the right one at its index. Refused by
        /// P3_LENGTH, P3_WORD.
        #[link_name = "p3_gl_add"]
        pub fn add(left: *mut u64, left_len: usize, right: *const u64, right_len: usize) -> i32;
        /// Multiplies each value of the left slice by that of the right one at its index. Refused
        /// by P3_LENGTH, P3_WORD.
        #[link_name = "p3_gl_mul"]
        pub fn mul(left: *mut u64, left_len: usize, right: *const u64, right_len: usize) -> i32;
        /// Multiplies each value by the factor. Refused by P3_WORD.
        #[link_name = "p3_gl_scale"]
        pub fn scale(values: *mut u64, values_len: usize, factor: u64) -> i32;
        /// Adds to each value of the left slice that of the right one at its index times the
        /// factor. Refused by P3_LENGTH, P3_WORD.
        #[link_name = "p3_gl_add_scaled"]
        pub fn add_scaled(
            left: *mut u64,
            left_len: usize,
            right: *const u64,
            right_len: usize,
            factor: u64,
        ) -> i32;
        /// The value at the point of the polynomial with these coefficients, the constant one
        /// first. Refused by P3_WORD.
        #[link_name = "p3_gl_horner"]
        pub fn horner(
            coefficients: *const u64,
            coefficients_len: usize,
            point: u64,
            value: *mut u64,
        ) -> i32;
        /// Writes the start, its product with the base, that one's product with the base, and so on
        /// to the slice's end. Refused by P3_WORD.
        #[link_name = "p3_gl_powers"]
        pub fn powers(base: u64, start: u64, powers: *mut u64, powers_len: usize) -> i32;
        /// The inverse of the value. Refused by P3_WORD, P3_NO_INVERSE.
        #[link_name = "p3_gl_inverse"]
        pub fn inverse(value: u64, inverse: *mut u64) -> i32;
        /// Writes over each value its inverse. Refused by P3_WORD, P3_NO_INVERSE.
        #[link_name = "p3_gl_batch_inverse"]
        pub fn batch_inverse(values: *mut u64, values_len: usize) -> i32;
        /// A square root of the value, as the search by Tonelli and Shanks finds it. Refused by
        /// P3_WORD, P3_NO_ROOT.
        #[link_name = "p3_gl_sqrt"]
        pub fn sqrt(value: u64, root: *mut u64) -> i32;
        /// Writes the points of the coset of the shift whose size is two to the log size, which is
        /// the slice's length: the shift times the powers of the two-adic generator of that order.
        /// Refused by P3_LOG_SIZE, P3_LENGTH, P3_WORD, P3_NO_INVERSE.
        #[link_name = "p3_gl_coset"]
        pub fn coset(shift: u64, log_size: usize, points: *mut u64, points_len: usize) -> i32;
        /// Writes the values, over the coset of the shift whose size is two to the log size, of the
        /// polynomial with these coefficients, the constant one first. The size is the slice's
        /// length. Refused by P3_LOG_SIZE, P3_LENGTH, P3_WORD, P3_NO_INVERSE, P3_MEMORY.
        #[link_name = "p3_gl_eval_coset"]
        pub fn eval_coset(
            coefficients: *const u64,
            coefficients_len: usize,
            shift: u64,
            log_size: usize,
            values: *mut u64,
            values_len: usize,
        ) -> i32;
        /// Carries out the steps, one after the other, over the values of the registers. Where a
        /// step's value has no inverse or no root is found, no register is written. Refused by
        /// P3_STEP, P3_WORD, P3_NO_INVERSE, P3_NO_ROOT, P3_MEMORY.
        #[link_name = "p3_gl_run"]
        pub fn run(
            registers: *mut u64,
            registers_len: usize,
            steps: *const RunStep,
            steps_len: usize,
        ) -> i32;
    }
}

/// The quartic extension of BabyBear.
pub mod bbx4 {
    unsafe extern "C" {
        /// Multiplies each value of the left list by that of the right one at its index. Refused by
        /// P3_LENGTH, P3_WORD.
        #[link_name = "p3_bbx4_mul"]
        pub fn mul(left: *mut u32, left_len: usize, right: *const u32, right_len: usize) -> i32;
        /// Writes over each value its square. Refused by P3_LENGTH, P3_WORD.
        #[link_name = "p3_bbx4_square"]
        pub fn square(values: *mut u32, values_len: usize) -> i32;
        /// Writes over each value its image under the Frobenius map, taken so many times. Refused
        /// by P3_LENGTH, P3_WORD.
        #[link_name = "p3_bbx4_frobenius"]
        pub fn frobenius(values: *mut u32, values_len: usize, count: usize) -> i32;
        /// Writes the sum of the products, index by index: one value. Refused by P3_LENGTH,
        /// P3_WORD.
        #[link_name = "p3_bbx4_dot"]
        pub fn dot(
            left: *const u32,
            left_len: usize,
            right: *const u32,
            right_len: usize,
            dot: *mut u32,
            dot_len: usize,
        ) -> i32;
        /// Writes the inverse of one value. Refused by P3_LENGTH, P3_WORD, P3_NO_INVERSE.
        #[link_name = "p3_bbx4_inverse"]
        pub fn inverse(
            value: *const u32,
            value_len: usize,
            inverse: *mut u32,
            inverse_len: usize,
        ) -> i32;
        /// Writes over each value its inverse. Refused by P3_LENGTH, P3_WORD, P3_NO_INVERSE,
        /// P3_MEMORY.
        #[link_name = "p3_bbx4_batch_inverse"]
        pub fn batch_inverse(values: *mut u32, values_len: usize) -> i32;
    }
}
