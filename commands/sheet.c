/* sheet [-b] [F [FILE]]
 * the sheet of a set of taps: the network that layout people work from
 *
 * The same sheet as ./sheet prints, from taps in text: decimal or hexadecimal numbers, with blanks or
 * line ends between; # starts a comment. F is the number of fraction bits, 0 to 31, and 15 where it is
 * missing. README.md says what the columns hold.
 *   -b  the taps are binary64 numbers of 8 bytes each, low byte first, instead of text
 * Status 1 where the sheet says refused; standard error then says why. */
#include <stdio.h>
#include <stdlib.h>
#include <string.h>

#include "shared/command.h"

/* The taps as the program reads them, with the piece that the input ends with. */
static size_t packed(const struct tap_set *set, unsigned char *bytes) {
    size_t length = 8 * set->count;
    for (size_t i = 0; i < set->count; i++) tap_bytes(set->taps[i], bytes + 8 * i);
    if (set->piece) bytes[length++] = 0;
    return length;
}

/* Whether some tap line names a row. */
static int some_nonzero(const char *text) {
    unsigned tap, row;
    for (const char *line = strstr(text, "\ntap,"); line != NULL; line = strstr(line + 1, "\ntap,")) {
        if (sscanf(line, "\ntap,%u,%u", &tap, &row) == 2) return 1;
    }
    return 0;
}

/* The words are those that the program is called with: its path, and F where there is one. */
int run_sheet(const struct arguments *arguments) {
    static struct tap_set set;
    static unsigned char bytes[8 * (FIR_MOST_TAPS + 1) + 1];
    char *const words[3] = {arguments->words[0], arguments->count > 1 ? arguments->words[1] : NULL, NULL};
    char *text;
    unsigned number, place;
    int status = read_taps(arguments, &set);
    if (status == DONE) status = run_program(words, bytes, packed(&set, bytes), &text);
    if (status != DONE) return status;
    fputs(text, stdout);
    if (sscanf(text, "%*s refused,%u,,,,,%u", &number, &place) == 2) {
        status = turned_down(refused(number, place));
    } else if (!some_nonzero(text)) {
        say_all_zero(arguments);
    }
    free(text);
    return status;
}
