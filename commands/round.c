/* round F [-n] [-b] [FILE]
 * each tap with its coefficient and leftover, and the gain at rest
 *
 * F is the number of fraction bits, 0 to 31. The coefficient is the whole number nearest to tap * 2^F, a
 * half going to the even one; the leftover is tap * 2^F less the coefficient, exactly. Taps are numbers
 * in text, decimal or hexadecimal, with blanks or line ends between, and # starts a comment.
 *   -n  normalised: the taps are added up, and each is divided by the sum (the divisor) first
 *   -b  the taps are binary64 numbers of 8 bytes each, low byte first, instead of text
 * Below the taps stand the divisor, the largest leftover by magnitude, and the gain at rest: the sum of
 * the coefficients over 2^F, what a steady level comes out at. Numbers have as many digits as are
 * needed to read them back. */
#include <inttypes.h>
#include <math.h>
#include <stdio.h>
#include <string.h>

#include "shared/command.h"

/* A tap's leftover, as the core gives it for a set of that tap alone. */
static int leftover_of(const struct rounded_set *set, size_t tap, double *leftover) {
    double quotient = set->given.taps[tap] / set->divisor, divisor;
    int32_t coefficient;
    uint64_t answer = fir_round_taps(&quotient, 1, set->fraction_bits, 0, &coefficient, 1, &divisor, leftover);
    if (answer != 0) return turned_down(answer);
    if (coefficient != set->coefficients[tap]) return failed("tap %zu is rounded to two coefficients", tap);
    return DONE;
}

/* Taps and leftovers as text, and the widths of their columns. */
struct set_text {
    char taps[FIR_MOST_TAPS][NUMBER_TEXT], leftovers[FIR_MOST_TAPS][NUMBER_TEXT];
    int taps_width, leftovers_width;
};

static int write_set(const struct rounded_set *set, struct set_text *text) {
    text->taps_width = wider(0, "tap");
    text->leftovers_width = wider(0, "leftover");
    for (size_t i = 0; i < set->given.count; i++) {
        double leftover;
        int status = leftover_of(set, i, &leftover);
        if (status != DONE) return status;
        text->taps_width = wider(text->taps_width, number_text(set->given.taps[i], text->taps[i]));
        text->leftovers_width = wider(text->leftovers_width, number_text(leftover, text->leftovers[i]));
    }
    return DONE;
}

static int print_taps(const struct rounded_set *set) {
    static struct set_text text;
    int status = write_set(set, &text);
    if (status != DONE) return status;
    printf("number  %*s  coefficient  %*s\n", text.taps_width, "tap", text.leftovers_width, "leftover");
    for (size_t i = 0; i < set->given.count; i++) {
        printf("%6zu  %*s  %11" PRId32 "  %*s\n", i, text.taps_width, text.taps[i], set->coefficients[i],
               text.leftovers_width, text.leftovers[i]);
    }
    return DONE;
}

int run_round(const struct arguments *arguments) {
    static struct rounded_set set;
    char text[NUMBER_TEXT];
    int64_t sum = 0;
    int status = read_rounded(arguments, has_option(arguments, "-n"), &set);
    if (status == DONE) status = print_taps(&set);
    if (status != DONE) return status;
    for (size_t i = 0; i < set.given.count; i++) sum += set.coefficients[i];
    printf("divisor %s\n", number_text(set.divisor, text));
    printf("largest leftover %s\n", number_text(set.leftover, text));
    printf("gain at rest %s (%" PRId64 " / 2^%" PRIu32 ")\n",
           number_text(ldexp((double)sum, -(int)set.fraction_bits), text), sum, set.fraction_bits);
    return DONE;
}
