/* Taps and sets of them: as many as there can be, and each refusal. */
#include "stack.h"

#include <math.h>
#include <string.h>

static void one(uint32_t refusal, const char *what, double tap, uint32_t fraction_bits)
{
    lend();
    memcpy(&lent.bits, &tap, sizeof tap);
    lent.fraction_bits = fraction_bits;
    try_call(ROUND_TAP, refusal, what);
}

static void one_tap(void)
{
    one(0, "a half", 0.625, 2);
    one(0, "-2^31", -1.0, 31);
    one(0, "the least number", 0x1p-1074, 31);
    one(4, "32 fraction bits", 1.0, 32);
    one(5, "infinite", INFINITY, 15);
    one(5, "not a number", NAN, 15);
    one(6, "out of bounds", 1e300, 15);
}

/* Both modes, each with its refusal. */
static void both(uint32_t plain, uint32_t normalised, const char *what)
{
    lent.normalised = 0;
    try_call(ROUND_TAPS, plain, what);
    lent.normalised = 1;
    try_call(ROUND_TAPS, normalised, what);
}

static void lengths(void)
{
    lend();
    both(0, 0, "256 taps");
    lent.tap_count = 1;
    both(0, 0, "1 tap");
    lent.tap_count = 0;
    both(1, 1, "no taps");
    lent.tap_count = TAPS + 1;
    both(2, 2, "257 taps");
    lend();
    lent.coefficient_count = TAPS - 1;
    both(3, 3, "a short table");
}

static void values(void)
{
    lend();
    lent.fraction_bits = 32;
    both(4, 4, "32 fraction bits");
    lend();
    lent.taps[TAPS - 1] = NAN;
    both(5, 5, "the last tap is not a number");
    lent.taps[TAPS - 1] = 1e300;
    both(6, 0, "the last tap is large");
    memset(lent.taps, 0, sizeof lent.taps);
    both(0, 7, "all taps are 0");
    lent.taps[TAPS - 3] = 0x1p600;
    lent.taps[TAPS - 2] = -0x1p600;
    lent.taps[TAPS - 1] = 0x1p-500;
    both(6, 7, "two of the last quotients are infinite");
}

void try_taps(void)
{
    one_tap();
    lengths();
    values();
}
