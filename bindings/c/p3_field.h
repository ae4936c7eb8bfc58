/* Field arithmetic that is proved: the calls of the static library p3_c.

   `scripts/c-header` writes this file from the library's exports, and `.ci/run` compares it. What each call
   answers is proved of it for every input, as far as the caller upholds what follows, which nothing checks:

   - A pointer isn't null, is aligned for its type and has as many elements behind it as the length after it
     says, also where that is 0. They have been written before, and no other thread writes them while the call
     runs.
   - What a call writes (a pointer without `const`) overlaps nothing else that it was given, and no other thread
     reads it while the call runs.
   - `malloc`, `realloc` and `free` are of one allocator, and align a block to each power of two up to 16 that
     divides its size.
   - No call is made from a signal handler, or from the forked child of a process with threads.

   A word stands for an element of a field: of BabyBear and KoalaBear in Montgomery's form, 2^32 times the
   element, in 32 bits, and of Goldilocks the element itself, in 64. It is below the field's order.

   A value of the quartic extension of BabyBear, by X^4 = 31, is four such words: of its coefficients at 1, X,
   X^2 and X^3, in this order. A list of values is a list of words, four a value.

   Every call takes every such input and answers a status. Where that isn't P3_OK, nothing was written. */
#ifndef P3_FIELD_H
#define P3_FIELD_H

#include <stdbool.h>
#include <stddef.h>
#include <stdint.h>

#ifdef __cplusplus
extern "C" {
#endif

/* What a call answers: where several hold, P3_LOG_SIZE before P3_LENGTH, P3_STEP and P3_RADIX,
   all of these before P3_WORD, and that before the others. */
enum p3_status {
    /* All is done. */
    P3_OK = 0,

    /* The lengths differ, or a length isn't what the call asks for. */
    P3_LENGTH = 1,

    /* A word is not below the order. */
    P3_WORD = 2,

    /* A value has no inverse. */
    P3_NO_INVERSE = 3,

    /* No square root is found. */
    P3_NO_ROOT = 4,

    /* The log size is past the two-adicity. */
    P3_LOG_SIZE = 5,

    /* Memory was refused. */
    P3_MEMORY = 6,

    /* A step's number is unknown, or a register that it names isn't there. */
    P3_STEP = 7,

    /* The bits of the radix are not what the call asks for. */
    P3_RADIX = 8
};

/* One step over registers: register d becomes what the operation gives of registers a and b as
   they stand, or of register a alone. */
struct p3_run_step {
    /* The operation: 0 the sum, 1 the difference, 2 the product, 3 the negation, 4 the square, 5
       the double, 6 the power e, 7 the product with two to the power e, 8 the inverse, 9 a
       square root. */
    uint32_t op;
    /* The register that is written. */
    uint32_t d;
    /* The register that is read. */
    uint32_t a;
    /* The second register that is read, by the operations 0, 1 and 2. */
    uint32_t b;
    /* The exponent of the operations 6 and 7. */
    uint64_t e;
};

/* ---- BabyBear ---- */

/* Writes over each canonical number the word of its value. Refused by P3_WORD. */
int32_t p3_bb_from_canonical(uint32_t *values, size_t values_len);

/* Writes over each word the canonical number of its value. Refused by P3_WORD. */
int32_t p3_bb_to_canonical(uint32_t *values, size_t values_len);

/* Whether each word is below the order. Refused by P3_WORD. */
int32_t p3_bb_check(const uint32_t *values, size_t values_len);

/* The sum of the values; of none it is zero. Refused by P3_WORD. */
int32_t p3_bb_sum(const uint32_t *values, size_t values_len, uint32_t *sum);

/* The product of the values; of none it is one. Refused by P3_WORD. */
int32_t p3_bb_product(const uint32_t *values, size_t values_len, uint32_t *product);

/* The sum of the products, index by index. Refused by P3_LENGTH, P3_WORD. */
int32_t p3_bb_dot(const uint32_t *left, size_t left_len, const uint32_t *right, size_t right_len,
    uint32_t *dot);

/* Adds to each value of the left slice that of the right one at its index. Refused by P3_LENGTH,
   P3_WORD. */
int32_t p3_bb_add(uint32_t *left, size_t left_len, const uint32_t *right, size_t right_len);

/* Multiplies each value of the left slice by that of the right one at its index. Refused by
   P3_LENGTH, P3_WORD. */
int32_t p3_bb_mul(uint32_t *left, size_t left_len, const uint32_t *right, size_t right_len);

/* Multiplies each value by the factor. Refused by P3_WORD. */
int32_t p3_bb_scale(uint32_t *values, size_t values_len, uint32_t factor);

/* Adds to each value of the left slice that of the right one at its index times the factor.
   Refused by P3_LENGTH, P3_WORD. */
int32_t p3_bb_add_scaled(uint32_t *left, size_t left_len, const uint32_t *right, size_t right_len,
    uint32_t factor);

/* The value at the point of the polynomial with these coefficients, the constant one first.
   Refused by P3_WORD. */
int32_t p3_bb_horner(const uint32_t *coefficients, size_t coefficients_len, uint32_t point,
    uint32_t *value);

/* Writes the start, its product with the base, that one's product with the base, and so on to
   the slice's end. Refused by P3_WORD. */
int32_t p3_bb_powers(uint32_t base, uint32_t start, uint32_t *powers, size_t powers_len);

/* The inverse of the value. Refused by P3_WORD, P3_NO_INVERSE. */
int32_t p3_bb_inverse(uint32_t value, uint32_t *inverse);

/* Writes over each value its inverse. Refused by P3_WORD, P3_NO_INVERSE. */
int32_t p3_bb_batch_inverse(uint32_t *values, size_t values_len);

/* A square root of the value, as the search by Tonelli and Shanks finds it. Refused by P3_WORD,
   P3_NO_ROOT. */
int32_t p3_bb_sqrt(uint32_t value, uint32_t *root);

/* Writes the points of the coset of the shift whose size is two to the log size, which is the
   slice's length: the shift times the powers of the two-adic generator of that order. Refused by
   P3_LOG_SIZE, P3_LENGTH, P3_WORD, P3_NO_INVERSE. */
int32_t p3_bb_coset(uint32_t shift, size_t log_size, uint32_t *points, size_t points_len);

/* Writes the values, over the coset of the shift whose size is two to the log size, of the
   polynomial with these coefficients, the constant one first. The size is the slice's length.
   Refused by P3_LOG_SIZE, P3_LENGTH, P3_WORD, P3_NO_INVERSE, P3_MEMORY. */
int32_t p3_bb_eval_coset(const uint32_t *coefficients, size_t coefficients_len, uint32_t shift,
    size_t log_size, uint32_t *values, size_t values_len);

/* Carries out the steps, one after the other, over the values of the registers. Where a step's
   value has no inverse or no root is found, no register is written. Refused by P3_STEP, P3_WORD,
   P3_NO_INVERSE, P3_NO_ROOT, P3_MEMORY. */
int32_t p3_bb_run(uint32_t *registers, size_t registers_len, const struct p3_run_step *steps,
    size_t steps_len);

/* The value of Goldilocks for the number whose digits in radix two to the radix bits, the lowest
   first, are the limbs. Refused by P3_RADIX, P3_WORD, P3_MEMORY. */
int32_t p3_bb_pack(const uint32_t *limbs, size_t limbs_len, uint32_t radix_bits, uint64_t *value);

/* Writes the lowest digits of the value of Goldilocks in radix two to the radix bits, the lowest
   first, as many as there are limbs. Refused by P3_RADIX, P3_WORD, P3_MEMORY. */
int32_t p3_bb_split(uint64_t value, uint32_t radix_bits, uint32_t *limbs, size_t limbs_len);

/* How many limbs can be packed into one value of Goldilocks at most, in radix two to the radix
   bits, so that lists of one length stay apart where the radix is not below the order. Refused
   by P3_RADIX. */
int32_t p3_bb_most_digits(uint32_t radix_bits, size_t *count);

/* ---- KoalaBear ---- */

/* Writes over each canonical number the word of its value. Refused by P3_WORD. */
int32_t p3_kb_from_canonical(uint32_t *values, size_t values_len);

/* Writes over each word the canonical number of its value. Refused by P3_WORD. */
int32_t p3_kb_to_canonical(uint32_t *values, size_t values_len);

/* Whether each word is below the order. Refused by P3_WORD. */
int32_t p3_kb_check(const uint32_t *values, size_t values_len);

/* The sum of the values; of none it is zero. Refused by P3_WORD. */
int32_t p3_kb_sum(const uint32_t *values, size_t values_len, uint32_t *sum);

/* The product of the values; of none it is one. Refused by P3_WORD. */
int32_t p3_kb_product(const uint32_t *values, size_t values_len, uint32_t *product);

/* The sum of the products, index by index. Refused by P3_LENGTH, P3_WORD. */
int32_t p3_kb_dot(const uint32_t *left, size_t left_len, const uint32_t *right, size_t right_len,
    uint32_t *dot);

/* Adds to each value of the left slice that of the right one at its index. Refused by P3_LENGTH,
   P3_WORD. */
int32_t p3_kb_add(uint32_t *left, size_t left_len, const uint32_t *right, size_t right_len);

/* Multiplies each value of the left slice by that of the right one at its index. Refused by
   P3_LENGTH, P3_WORD. */
int32_t p3_kb_mul(uint32_t *left, size_t left_len, const uint32_t *right, size_t right_len);

/* Multiplies each value by the factor. Refused by P3_WORD. */
int32_t p3_kb_scale(uint32_t *values, size_t values_len, uint32_t factor);

/* Adds to each value of the left slice that of the right one at its index times the factor.
   Refused by P3_LENGTH, P3_WORD. */
int32_t p3_kb_add_scaled(uint32_t *left, size_t left_len, const uint32_t *right, size_t right_len,
    uint32_t factor);

/* The value at the point of the polynomial with these coefficients, the constant one first.
   Refused by P3_WORD. */
int32_t p3_kb_horner(const uint32_t *coefficients, size_t coefficients_len, uint32_t point,
    uint32_t *value);

/* Writes the start, its product with the base, that one's product with the base, and so on to
   the slice's end. Refused by P3_WORD. */
int32_t p3_kb_powers(uint32_t base, uint32_t start, uint32_t *powers, size_t powers_len);

/* The inverse of the value. Refused by P3_WORD, P3_NO_INVERSE. */
int32_t p3_kb_inverse(uint32_t value, uint32_t *inverse);

/* Writes over each value its inverse. Refused by P3_WORD, P3_NO_INVERSE. */
int32_t p3_kb_batch_inverse(uint32_t *values, size_t values_len);

/* A square root of the value, as the search by Tonelli and Shanks finds it. Refused by P3_WORD,
   P3_NO_ROOT. */
int32_t p3_kb_sqrt(uint32_t value, uint32_t *root);

/* Writes the points of the coset of the shift whose size is two to the log size, which is the
   slice's length: the shift times the powers of the two-adic generator of that order. Refused by
   P3_LOG_SIZE, P3_LENGTH, P3_WORD, P3_NO_INVERSE. */
int32_t p3_kb_coset(uint32_t shift, size_t log_size, uint32_t *points, size_t points_len);

/* Writes the values, over the coset of the shift whose size is two to the log size, of the
   polynomial with these coefficients, the constant one first. The size is the slice's length.
   Refused by P3_LOG_SIZE, P3_LENGTH, P3_WORD, P3_NO_INVERSE, P3_MEMORY. */
int32_t p3_kb_eval_coset(const uint32_t *coefficients, size_t coefficients_len, uint32_t shift,
    size_t log_size, uint32_t *values, size_t values_len);

/* Carries out the steps, one after the other, over the values of the registers. Where a step's
   value has no inverse or no root is found, no register is written. Refused by P3_STEP, P3_WORD,
   P3_NO_INVERSE, P3_NO_ROOT, P3_MEMORY. */
int32_t p3_kb_run(uint32_t *registers, size_t registers_len, const struct p3_run_step *steps,
    size_t steps_len);

/* The value of Goldilocks for the number whose digits in radix two to the radix bits, the lowest
   first, are the limbs. Refused by P3_RADIX, P3_WORD, P3_MEMORY. */
int32_t p3_kb_pack(const uint32_t *limbs, size_t limbs_len, uint32_t radix_bits, uint64_t *value);

/* Writes the lowest digits of the value of Goldilocks in radix two to the radix bits, the lowest
   first, as many as there are limbs. Refused by P3_RADIX, P3_WORD, P3_MEMORY. */
int32_t p3_kb_split(uint64_t value, uint32_t radix_bits, uint32_t *limbs, size_t limbs_len);

/* How many limbs can be packed into one value of Goldilocks at most, in radix two to the radix
   bits, so that lists of one length stay apart where the radix is not below the order. Refused
   by P3_RADIX. */
int32_t p3_kb_most_digits(uint32_t radix_bits, size_t *count);

/* ---- Goldilocks ---- */

/* Writes over each canonical number the word of its value. Refused by P3_WORD. */
int32_t p3_gl_from_canonical(uint64_t *values, size_t values_len);

/* Writes over each word the canonical number of its value. Refused by P3_WORD. */
int32_t p3_gl_to_canonical(uint64_t *values, size_t values_len);

/* Whether each word is below the order. Refused by P3_WORD. */
int32_t p3_gl_check(const uint64_t *values, size_t values_len);

/* The sum of the values; of none it is zero. Refused by P3_WORD. */
int32_t p3_gl_sum(const uint64_t *values, size_t values_len, uint64_t *sum);

/* The product of the values; of none it is one. Refused by P3_WORD. */
int32_t p3_gl_product(const uint64_t *values, size_t values_len, uint64_t *product);

/* The sum of the products, index by index. Refused by P3_LENGTH, P3_WORD. */
int32_t p3_gl_dot(const uint64_t *left, size_t left_len, const uint64_t *right, size_t right_len,
    uint64_t *dot);

/* Adds to each value of the left slice that of the right one at its index. Refused by P3_LENGTH,
   P3_WORD. */
int32_t p3_gl_add(uint64_t *left, size_t left_len, const uint64_t *right, size_t right_len);

/* Multiplies each value of the left slice by that of the right one at its index. Refused by
   P3_LENGTH, P3_WORD. */
int32_t p3_gl_mul(uint64_t *left, size_t left_len, const uint64_t *right, size_t right_len);

/* Multiplies each value by the factor. Refused by P3_WORD. */
int32_t p3_gl_scale(uint64_t *values, size_t values_len, uint64_t factor);

/* Adds to each value of the left slice that of the right one at its index times the factor.
   Refused by P3_LENGTH, P3_WORD. */
int32_t p3_gl_add_scaled(uint64_t *left, size_t left_len, const uint64_t *right, size_t right_len,
    uint64_t factor);

/* The value at the point of the polynomial with these coefficients, the constant one first.
   Refused by P3_WORD. */
int32_t p3_gl_horner(const uint64_t *coefficients, size_t coefficients_len, uint64_t point,
    uint64_t *value);

/* Writes the start, its product with the base, that one's product with the base, and so on to
   the slice's end. Refused by P3_WORD. */
int32_t p3_gl_powers(uint64_t base, uint64_t start, uint64_t *powers, size_t powers_len);

/* The inverse of the value. Refused by P3_WORD, P3_NO_INVERSE. */
int32_t p3_gl_inverse(uint64_t value, uint64_t *inverse);

/* Writes over each value its inverse. Refused by P3_WORD, P3_NO_INVERSE. */
int32_t p3_gl_batch_inverse(uint64_t *values, size_t values_len);

/* A square root of the value, as the search by Tonelli and Shanks finds it. Refused by P3_WORD,
   P3_NO_ROOT. */
int32_t p3_gl_sqrt(uint64_t value, uint64_t *root);

/* Writes the points of the coset of the shift whose size is two to the log size, which is the
   slice's length: the shift times the powers of the two-adic generator of that order. Refused by
   P3_LOG_SIZE, P3_LENGTH, P3_WORD, P3_NO_INVERSE. */
int32_t p3_gl_coset(uint64_t shift, size_t log_size, uint64_t *points, size_t points_len);

/* Writes the values, over the coset of the shift whose size is two to the log size, of the
   polynomial with these coefficients, the constant one first. The size is the slice's length.
   Refused by P3_LOG_SIZE, P3_LENGTH, P3_WORD, P3_NO_INVERSE, P3_MEMORY. */
int32_t p3_gl_eval_coset(const uint64_t *coefficients, size_t coefficients_len, uint64_t shift,
    size_t log_size, uint64_t *values, size_t values_len);

/* Carries out the steps, one after the other, over the values of the registers. Where a step's
   value has no inverse or no root is found, no register is written. Refused by P3_STEP, P3_WORD,
   P3_NO_INVERSE, P3_NO_ROOT, P3_MEMORY. */
int32_t p3_gl_run(uint64_t *registers, size_t registers_len, const struct p3_run_step *steps,
    size_t steps_len);

/* ---- The quartic extension of BabyBear ---- */

/* Multiplies each value of the left list by that of the right one at its index. Refused by
   P3_LENGTH, P3_WORD. */
int32_t p3_bbx4_mul(uint32_t *left, size_t left_len, const uint32_t *right, size_t right_len);

/* Writes over each value its square. Refused by P3_LENGTH, P3_WORD. */
int32_t p3_bbx4_square(uint32_t *values, size_t values_len);

/* Writes over each value its image under the Frobenius map, taken so many times. Refused by
   P3_LENGTH, P3_WORD. */
int32_t p3_bbx4_frobenius(uint32_t *values, size_t values_len, size_t count);

/* Writes the sum of the products, index by index: one value. Refused by P3_LENGTH, P3_WORD. */
int32_t p3_bbx4_dot(const uint32_t *left, size_t left_len, const uint32_t *right, size_t right_len,
    uint32_t *dot, size_t dot_len);

/* Writes the inverse of one value. Refused by P3_LENGTH, P3_WORD, P3_NO_INVERSE. */
int32_t p3_bbx4_inverse(const uint32_t *value, size_t value_len, uint32_t *inverse,
    size_t inverse_len);

/* Writes over each value its inverse. Refused by P3_LENGTH, P3_WORD, P3_NO_INVERSE, P3_MEMORY. */
int32_t p3_bbx4_batch_inverse(uint32_t *values, size_t values_len);

#ifdef __cplusplus
}
#endif

#endif
