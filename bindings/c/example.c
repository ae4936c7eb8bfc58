/* Inverts a list and evaluates a polynomial over a coset, at BabyBear; prints the numbers, and what a call answers
   that can't be done.

       cc -Wall -Wextra -Werror example.c ../lib/libp3_c.a -o example && ./example */
#include "p3_field.h"

#include <inttypes.h>
#include <stdio.h>

enum { LOG_SIZE = 3, SIZE = 1 << LOG_SIZE };

/* Prints the numbers that the words stand for, and makes them words again. */
static int32_t print_numbers(const char *name, uint32_t *words, size_t count)
{
    int32_t status = p3_bb_to_canonical(words, count);
    if (status != P3_OK)
        return status;
    printf("%s:", name);
    for (size_t i = 0; i < count; i++)
        printf(" %" PRIu32, words[i]);
    printf("\n");
    return p3_bb_from_canonical(words, count);
}

/* The inverse of each number from 1 to 4. */
static int32_t invert_a_list(void)
{
    uint32_t values[] = {1, 2, 3, 4};
    size_t count = sizeof values / sizeof *values;
    int32_t status = p3_bb_from_canonical(values, count);
    if (status == P3_OK)
        status = p3_bb_batch_inverse(values, count);
    return status == P3_OK ? print_numbers("inverses", values, count) : status;
}

/* The values of 1 + 2 X + 3 X^2 over the coset of 31 with eight members. */
static int32_t evaluate_over_a_coset(void)
{
    uint32_t coefficients[] = {1, 2, 3};
    uint32_t shift[] = {31};
    uint32_t values[SIZE];
    int32_t status = p3_bb_from_canonical(coefficients, 3);
    if (status == P3_OK)
        status = p3_bb_from_canonical(shift, 1);
    if (status == P3_OK)
        status = p3_bb_eval_coset(coefficients, 3, shift[0], LOG_SIZE, values, SIZE);
    return status == P3_OK ? print_numbers("values", values, SIZE) : status;
}

/* Whether a list with a zero is refused, and as it was. */
static int32_t refuse_zero(void)
{
    uint32_t values[] = {5, 0};
    int32_t status = p3_bb_batch_inverse(values, 2);
    printf("with a zero: status %" PRId32 ", and the list is %" PRIu32 " %" PRIu32 "\n", status, values[0], values[1]);
    return status == P3_NO_INVERSE ? P3_OK : status;
}

int main(void)
{
    int32_t status = invert_a_list();
    if (status == P3_OK)
        status = evaluate_over_a_coset();
    if (status == P3_OK)
        status = refuse_zero();
    if (status != P3_OK)
        fprintf(stderr, "example: status %" PRId32 "\n", status);
    return status == P3_OK ? 0 : 1;
}
