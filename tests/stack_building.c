/* Building: the sets with the most rows, every size of set, and each refusal. */
#include "stack.h"

#include <string.h>

/* An odd part of weight 16: a digit at each even place, by its bit 1 or -1, and 1 at the highest. */
static int32_t heaviest(uint32_t signs)
{
    int32_t value = 1 << 30;
    for (int i = 0; i < 15; i++)
        value += (signs >> i & 1) != 0 ? 1 << 2 * i : -(1 << 2 * i);
    return value;
}

static int32_t heaviest_of(uint32_t i) { return heaviest(i * 0x4d35); }

static int32_t scattered(uint32_t i) { return (int32_t)(i * 0x9e3779b1u >> 1 | 1); }

static int32_t odd(uint32_t i) { return (int32_t)(2 * i + 1); }

static int32_t most_forms(uint32_t i) { return 858993459 - (int32_t)(i << 20); }

static int32_t least(uint32_t i) { return i % 2 == 0 ? INT32_MIN : 0; }

const struct kind kinds[KINDS] = {
    {"weight 16", "weight 16, last forms", heaviest_of},
    {"scattered", "scattered, last forms", scattered},
    {"odd numbers", "odd numbers, last forms", odd},
    {"many forms", "many forms, last forms", most_forms},
    {"-2^31 and 0", "-2^31 and 0", least},
};

void lend_kind(const struct kind *kind, uint32_t count, int last_forms)
{
    lend();
    lent.coefficient_count = lent.choice_count = count;
    for (uint32_t i = 0; i < count; i++) {
        uint32_t forms;
        lent.coefficients[i] = kind->coefficient(i);
        fir_form_count(lent.coefficients[i], &forms);
        lent.choices[i] = last_forms ? forms - 1 : 0;
    }
}

void lend_heaviest(void) { lend_kind(&kinds[0], TAPS, 0); }

/* In sizes about those at which something may change. */
static void all_sizes(const struct kind *kind)
{
    static const uint32_t counts[] = {1, 2, 4, 5, 34, 35, 64, 65, 128, TAPS};
    for (size_t i = 0; i < sizeof counts / sizeof counts[0]; i++) {
        lend_kind(kind, counts[i], 0);
        try_call(BUILD, 0, kind->first_forms);
        lend_kind(kind, counts[i], 1);
        try_call(BUILD, 0, kind->last_forms);
    }
}

static void refusals(void)
{
    const struct kind *heavy = &kinds[0];
    lend_kind(heavy, 0, 0);
    try_call(BUILD, 1, "no taps");
    lend_kind(heavy, TAPS + 1, 0);
    try_call(BUILD, 2, "257 taps");
    lend_kind(heavy, TAPS, 1);
    lent.choice_count--;
    try_call(BUILD, 3, "a choice is missing");
    lend_kind(heavy, TAPS, 1);
    lent.rows_length--;
    try_call(BUILD, 3, "a short table of rows");
    lend_kind(heavy, TAPS, 1);
    lent.taps_length--;
    try_call(BUILD, 3, "a short table of tap rows");
    lend_kind(heavy, TAPS, 1);
    lent.choices[TAPS - 1]++;
    try_call(BUILD, 9, "the last choice is past the forms");
}

void try_building(void)
{
    for (int i = 0; i < KINDS; i++)
        all_sizes(&kinds[i]);
    refusals();
}
