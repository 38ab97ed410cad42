/* Coefficients and forms: those with the most digits or the most forms, and each refusal. */
#include "stack.h"

#include <string.h>

/* The functions of one coefficient. */
static void of(const char *what, int32_t n)
{
    lend();
    lent.n = n;
    try_call(REDUCE, 0, what);
    try_call(CANONICAL, 0, what);
    try_call(MINIMAL_FORMS, 0, what);
    try_call(FORM_COUNT, 0, what);
}

static void masks(uint32_t refusal, const char *what, uint32_t plus, uint32_t minus)
{
    lend();
    lent.plus = plus;
    lent.minus = minus;
    try_call(FORM_VALUE, refusal, what);
    try_call(FORM_WEIGHT, refusal, what);
}

static void short_tables(void)
{
    lend();
    lent.plus_length = FORMS - 1;
    try_call(MINIMAL_FORMS, 3, "a short table for plus");
    lend();
    lent.minus_length = FORMS - 1;
    try_call(MINIMAL_FORMS, 3, "a short table for minus");
}

static void trims(void)
{
    lend();
    try_call(TRIMMED, 0, "256 coefficients");
    memset(lent.coefficients, 0, sizeof lent.coefficients);
    try_call(TRIMMED, 0, "256 zeros");
    lent.coefficient_count = 0;
    try_call(TRIMMED, 0, "none");
}

void try_forms(void)
{
    of("858993459", 858993459);
    of("-858993459", -858993459);
    of("1431655765", 1431655765);
    of("2^31 - 1", INT32_MAX);
    of("-2^31", INT32_MIN);
    of("0", 0);
    masks(0, "32 digits", 0x55555555, 0xaaaaaaaa);
    masks(0, "32 digits 1", 0xffffffff, 0);
    masks(8, "all digits in both", 0xffffffff, 0xffffffff);
    masks(8, "the highest digit in both", 0x80000000, 0x80000000);
    short_tables();
    trims();
}
