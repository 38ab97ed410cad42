/* forms N
 * every minimal form of a coefficient, and that there is no other
 *
 * N is a whole number from -2147483648 to 2147483647, in decimal. A minimal form writes N with digits
 * 1, 0 and n (for -1) so that no string of such digits, of any length, with the value N has fewer that
 * are not 0. One line a form, in order: its number from 0, which is the choice that building takes; its
 * digits, from the highest that is not 0 down; its terms; and its weight, the number of those digits. Of
 * two forms the earlier is the one that is not 0 at the highest place where they differ, so the
 * canonical form is first. The last line says how many there are. Nothing is turned down. */
#include <inttypes.h>
#include <stdio.h>
#include <stdlib.h>
#include <string.h>

#include "shared/command.h"

/* 16 terms of at most 11 characters. */
enum { PLACES = 32, TERMS_TEXT = 200 };

struct listing {
    uint32_t plus[FIR_FORMS_LENGTH], minus[FIR_FORMS_LENGTH], count;
};

static void write_digits(uint32_t plus, uint32_t minus, char text[PLACES + 1]) {
    int length = 0;
    for (int place = PLACES - 1; place >= 0; place--) {
        char digit = digit_at(plus, minus, place);
        if (length > 0 || digit != '0' || place == 0) text[length++] = digit;
    }
    text[length] = '\0';
}

static void write_terms(uint32_t plus, uint32_t minus, char text[TERMS_TEXT]) {
    int length = 0;
    strcpy(text, "0");
    for (int place = PLACES - 1; place >= 0; place--) {
        uint32_t power = (uint32_t)1 << place;
        const char *sign = (minus & power) != 0 ? "-" : length > 0 ? "+" : "";
        if (((plus | minus) & power) == 0) continue;
        length += snprintf(text + length, TERMS_TEXT - (size_t)length, "%s%" PRIu32, sign, power);
    }
}

/* The listing as text, and the widths of its columns. */
struct listing_text {
    char digits[FIR_FORMS_LENGTH][PLACES + 1], terms[FIR_FORMS_LENGTH][TERMS_TEXT];
    int digits_width, terms_width;
};

static void write_listing(const struct listing *listing, struct listing_text *text) {
    for (uint32_t i = 0; i < listing->count; i++) {
        write_digits(listing->plus[i], listing->minus[i], text->digits[i]);
        write_terms(listing->plus[i], listing->minus[i], text->terms[i]);
        text->digits_width = wider(text->digits_width, text->digits[i]);
        text->terms_width = wider(text->terms_width, text->terms[i]);
    }
}

static void print_listing(const struct listing *listing, uint32_t weight) {
    static struct listing_text text;
    write_listing(listing, &text);
    for (uint32_t i = 0; i < listing->count; i++) {
        printf("%4" PRIu32 "  %*s  %-*s  %2" PRIu32 "\n", i, text.digits_width, text.digits[i], text.terms_width,
               text.terms[i], weight);
    }
}

int run_forms(const struct arguments *arguments) {
    static struct listing listing;
    int32_t n = (int32_t)strtol(arguments->words[0], NULL, 10);
    uint32_t weight;
    uint64_t answer = fir_minimal_forms(n, listing.plus, FIR_FORMS_LENGTH, listing.minus, FIR_FORMS_LENGTH,
                                        &listing.count);
    if (answer == 0) answer = fir_form_weight(listing.plus[0], listing.minus[0], &weight);
    if (answer != 0) return turned_down(answer);
    print_listing(&listing, weight);
    printf("%" PRId32 " has %" PRIu32 " minimal form%s, of weight %" PRIu32 ", and no other\n", n, listing.count,
           listing.count == 1 ? "" : "s", weight);
    return DONE;
}
