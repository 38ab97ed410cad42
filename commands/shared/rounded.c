/* Taps from standard input, rounded at the F of the command. */
#include "command.h"

const uint32_t first_forms[FIR_MOST_TAPS] = {0};

/* 12 comes after 1 and 2, which count whole taps, and before what the core finds. */
static uint64_t round_input(int normalised, struct rounded_set *set) {
    size_t count = set->given.count;
    if (set->given.piece && count > 0 && count <= FIR_MOST_TAPS) return refused(FIR_CUT_TAP, 0);
    return fir_round_taps(set->given.taps, count, set->fraction_bits, (uint32_t)normalised,
                          set->coefficients, FIR_MOST_TAPS, &set->divisor, &set->leftover);
}

int read_rounded(const struct arguments *arguments, int normalised, struct rounded_set *set) {
    int status = read_taps(arguments, &set->given);
    if (status != DONE) return status;
    set->fraction_bits = decimal(arguments->words[0], FIR_MOST_FRACTION_BITS);
    uint64_t answer = round_input(normalised, set);
    return answer == 0 ? DONE : turned_down(answer);
}

void say_if_all_zero(const struct arguments *arguments, const struct rounded_set *set) {
    for (size_t i = 0; i < set->given.count; i++) {
        if (set->coefficients[i] != 0) return;
    }
    say_all_zero(arguments);
}
