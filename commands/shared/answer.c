/* Answers of the core, in words. */
#include <stdio.h>

#include "command.h"

static const char *const words[] = {
#define REFUSAL(number, name, text) [number] = text,
#include "refusals.h"
#undef REFUSAL
};

uint64_t refused(unsigned number, unsigned place) {
    return (uint64_t)number << 32 | place;
}

int turned_down(uint64_t answer) {
    uint32_t number = fir_refusal(answer), place = fir_place(answer);
    char text[160];
    if (number == FIR_NOT_NORMALISABLE && place > 0) {
        say("tap %u divided by the sum of the taps is infinite (refusal %u)", place, number);
        return TURNED_DOWN;
    }
    snprintf(text, sizeof text, words[number], place);
    say("%s (refusal %u)", text, number);
    return TURNED_DOWN;
}

void say_all_zero(const struct arguments *arguments) {
    say("every coefficient is 0%s", has_option(arguments, "-b") ? "; with -b a tap is 8 bytes" : "");
}
