/* taps [-b|--hex] [FILE]
 * taps from text to 8 bytes each, as ./sheet reads them, and back
 *
 * Without an option text becomes bytes: binary64 numbers of 8 bytes each, low byte first. The text holds
 * decimal numbers (-0.125, 1e-3) or hexadecimal ones (0x1.8p-4), with blanks or line ends between; #
 * starts a comment. A number that binary64 does not hold is rounded to the nearest. inf and nan stand
 * for themselves. Nothing is written unless the whole text is right.
 *   -b     bytes become text: decimal, with the fewest digits that give the same number
 *   --hex  bytes become hexadecimal text */
#include <math.h>
#include <stdio.h>
#include <stdlib.h>

#include "shared/command.h"

struct list {
    double *taps;
    size_t count, room;
};

static int add(struct list *list, double tap) {
    if (list->count == list->room) {
        size_t room = 2 * list->room + FIR_MOST_TAPS;
        double *taps = realloc(list->taps, room * sizeof *taps);
        if (taps == NULL) return failed("no room for more than %zu taps", list->count);
        list->taps = taps;
        list->room = room;
    }
    list->taps[list->count++] = tap;
    return DONE;
}

static void put_bytes(double tap) {
    unsigned char bytes[8];
    tap_bytes(tap, bytes);
    fwrite(bytes, 1, sizeof bytes, stdout);
}

static void put_text(double tap, int hexadecimal) {
    char text[NUMBER_TEXT];
    if (hexadecimal && !isnan(tap)) printf("%a\n", tap);
    else puts(number_text(tap, text));
}

/* All taps, or none where the input is not right to its end. */
static int read_list(struct reader *reader, struct list *list) {
    double tap;
    int found, status = DONE;
    while (status == DONE && (found = next_tap(reader, &tap)) == 1) status = add(list, tap);
    if (status != DONE || found == FAILED) return FAILED;
    return found == PIECE ? turned_down(refused(FIR_CUT_TAP, 0)) : DONE;
}

int run_taps(const struct arguments *arguments) {
    int hexadecimal = has_option(arguments, "--hex");
    struct reader reader = {hexadecimal || has_option(arguments, "-b"), 0, 0};
    struct list list = {NULL, 0, 0};
    int status = read_list(&reader, &list);
    for (size_t i = 0; status == DONE && i < list.count; i++) {
        if (reader.bytes) put_text(list.taps[i], hexadecimal);
        else put_bytes(list.taps[i]);
    }
    free(list.taps);
    return status;
}
