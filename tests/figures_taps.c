/* The paper's bench figures for taps and the edges of the range. */
#include "figures.h"

#include <string.h>

enum { TABLE = 300 };

static void tap(const char *what, double value, uint32_t fraction_bits, uint32_t refusal,
                int32_t coefficient)
{
    answer(what, refusal, coefficient, fir_round_tap(bits_of(value), fraction_bits));
}

static void one_tap(void)
{
    const double two31 = 2147483648.0;
    tap("0.625 at F = 2", 0.625, 2, 0, 2);
    tap("-0.625 at F = 2", -0.625, 2, 0, -2);
    tap("0.5 at F = 2", 0.5, 2, 0, 2);
    tap("0.5 at F = 0", 0.5, 0, 0, 0);
    tap("-0.5 at F = 0", -0.5, 0, 0, 0);
    tap("1.5 at F = 0", 1.5, 0, 0, 2);
    tap("-1.5 at F = 0", -1.5, 0, 0, -2);
    tap("-1 at F = 31", -1.0, 31, 0, INT32_MIN);
    tap("1 at F = 31", 1.0, 31, 6, 0);
    tap("1 - 2^-53 at F = 31", 1.0 - 0x1p-53, 31, 6, 0);
    tap("-0 at F = 15", -0.0, 15, 0, 0);
    tap("the largest number below 0.5 at F = 0", 0.5 - 0x1p-54, 0, 0, 0);
    tap("2^31 - 1 at F = 0", two31 - 1, 0, 0, INT32_MAX);
    tap("2^31 - 0.5 at F = 0", two31 - 0.5, 0, 6, 0);
    tap("-2^31 - 0.25 at F = 0", -two31 - 0.25, 0, 0, INT32_MIN);
    tap("-2^31 - 0.5 at F = 0", -two31 - 0.5, 0, 0, INT32_MIN);
    tap("the next number below it", -two31 - 0.5 - 0x1p-21, 0, 6, 0);
    tap("0.625 at F = 32", 0.625, 32, 4, 0);
    answer("not-a-number with a payload", 5, 0, fir_round_tap(0x7ff4000012345678, 15));
    answer("negative not-a-number", 5, 0, fir_round_tap(0xfff8000000000001, 15));
    answer("infinity", 5, 0, fir_round_tap(0x7ff0000000000000, 15));
    answer("infinity at F = 32", 4, 0, fir_round_tap(0x7ff0000000000000, 32));
}

/* One call of the set entry. Before it the table holds 1000, 1001, and so on. */
struct call {
    int32_t table[TABLE];
    double divisor, leftover;
    uint64_t answer;
};

static struct call call(const double *taps, size_t taps_given, uint32_t fraction_bits,
                        uint32_t normalised, size_t table_given)
{
    struct call c = {{0}, 12345.0, 67890.0, 0};
    for (int i = 0; i < TABLE; i++)
        c.table[i] = 1000 + i;
    c.answer = fir_round_taps(taps, taps_given, fraction_bits, normalised, c.table, table_given,
                              &c.divisor, &c.leftover);
    return c;
}

/* How many elements of the table from this one on are no longer as before. */
static int changed(const struct call *c, int from)
{
    int count = 0;
    for (int i = from; i < TABLE; i++)
        count += c->table[i] != 1000 + i;
    return count;
}

static void accepted(const char *what, const double *taps, int count, uint32_t normalised,
                     const int32_t *coefficients, double divisor, double leftover)
{
    const struct call c = call(taps, (size_t)count, 2, normalised, TABLE);
    puts(what);
    answer("  answer", 0, 0, c.answer);
    for (int i = 0; i < count; i++)
        number("  coefficient", coefficients[i], c.table[i]);
    number("  elements changed past the taps", 0, changed(&c, count));
    real("  divisor", divisor, c.divisor);
    real("  leftover", leftover, c.leftover);
}

static void refused(const char *what, const struct call c, uint32_t refusal, int32_t place)
{
    puts(what);
    answer("  answer", refusal, place, c.answer);
    number("  elements changed", 0, changed(&c, 0));
    real("  divisor as before", 12345.0, c.divisor);
    real("  leftover as before", 67890.0, c.leftover);
}

static void accepted_sets(void)
{
    const double ones[] = {1, 1, 1, 1}, positive[] = {0.625}, negative[] = {-0.625}, exact[] = {0.5};
    const double both[] = {0.5, 0.625, -0.625}, turned[] = {-0.625, 0.625}, up[] = {0.375, 0.625};
    const int32_t quarters[] = {1, 1, 1, 1}, two[] = {2}, minus_two[] = {-2};
    const int32_t three_of[] = {2, 2, -2}, two_of[] = {-2, 2}, twos[] = {2, 2};
    accepted("1, 1, 1, 1 normalised at F = 2", ones, 4, 1, quarters, 4, 0);
    accepted("0.625 at F = 2", positive, 1, 0, two, 1, 0.5);
    accepted("-0.625 at F = 2", negative, 1, 0, minus_two, 1, -0.5);
    accepted("0.5 at F = 2", exact, 1, 0, two, 1, 0);
    accepted("0.5, 0.625, -0.625 at F = 2", both, 3, 0, three_of, 1, 0.5);
    accepted("-0.625, 0.625 at F = 2", turned, 2, 0, two_of, 1, -0.5);
    accepted("0.375, 0.625 at F = 2", up, 2, 0, twos, 1, -0.5);
}

static void refused_sets(void)
{
    static const double zeros[257];
    const double cancel[] = {1, -1}, ones[] = {1, 1, 1, 1}, far[] = {0, 0, 1e300};
    refused("1, -1 normalised", call(cancel, 2, 2, 1, TABLE), 7, 0);
    refused("zero length", call(ones, 0, 2, 0, TABLE), 1, 0);
    refused("zero length normalised", call(ones, 0, 2, 1, 0), 1, 0);
    refused("257 taps", call(zeros, 257, 2, 0, TABLE), 2, 0);
    refused("a table one short", call(ones, 4, 2, 1, 3), 3, 0);
    refused("F = 32", call(ones, 4, 32, 1, TABLE), 4, 0);
    refused("tap 2 out of bounds", call(far, 3, 2, 0, TABLE), 6, 2);
}

/* A signalling not-a-number of either sign: a refused call leaves it, bit for bit, where the
 * results would go, and among the taps it is refusal 5. */
static void signalling(uint64_t pattern)
{
    const double cancel[] = {1, -1};
    double divisor, leftover, taps[] = {1, 1, 1};
    int32_t table[3];
    memcpy(&divisor, &pattern, sizeof divisor);
    memcpy(&leftover, &pattern, sizeof leftover);
    memcpy(&taps[1], &pattern, sizeof taps[1]);
    printf("signalling not-a-number %" PRIx64 "\n", pattern);
    answer("  1, -1 normalised", 7, 0,
           fir_round_taps(cancel, 2, 2, 1, table, 3, &divisor, &leftover));
    answer("  as tap 1", 5, 1, fir_round_taps(taps, 3, 2, 0, table, 3, &divisor, &leftover));
    answer("  normalised", 5, 1, fir_round_taps(taps, 3, 2, 1, table, 3, &divisor, &leftover));
    number("  divisor's bits as before", (int64_t)pattern, (int64_t)bits_of(divisor));
    number("  leftover's bits as before", (int64_t)pattern, (int64_t)bits_of(leftover));
}

void taps(void)
{
    one_tap();
    accepted_sets();
    refused_sets();
    signalling(0x7ff0000000000001);
    signalling(0xfff0000000000001);
}
