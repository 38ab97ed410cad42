/* planes F WIDTH [-b] [FILE]
 * the digit planes of a grid of taps, one for each place
 *
 * The taps are a grid, row by row: WIDTH columns, and as many rows as the taps fill, both 1 to 16. Each
 * coefficient, the whole number nearest to tap * 2^F, is written in the first of its forms that
 * ./fir forms lists. Plane p has for every cell the digit at place p, which is worth 2^p. The text is
 * that of RFC 4180, with the columns plane, row and digits: for each plane from 0 to 31 one line a row
 * of the grid, its digits 1, 0 and n (for -1) from column 0 on. A last row that is not full is an error.
 * F is the number of fraction bits, 0 to 31. Taps are numbers in text, decimal or hexadecimal, with
 * blanks or line ends between, and # starts a comment.
 *   -b  the taps are binary64 numbers of 8 bytes each, low byte first, instead of text */
#include <stdio.h>

#include "shared/command.h"

/* A grid, and its planes. */
struct planes {
    size_t height, width;
    uint64_t plus[FIR_PLANES_LENGTH], minus[FIR_PLANES_LENGTH];
};

/* Writes the planes of all rows that the taps begin, so that too many are turned down before it is asked
 * whether the last is full; its other cells are 0. With a width of 0 there are no rows. */
static uint64_t write_planes(const struct rounded_set *set, struct planes *planes) {
    size_t width = planes->width;
    planes->height = width == 0 ? 0 : (set->given.count + width - 1) / width;
    return fir_write_planes(planes->height, width, set->coefficients, FIR_MOST_TAPS, first_forms, FIR_MOST_TAPS,
                            planes->plus, FIR_PLANES_LENGTH, planes->minus, FIR_PLANES_LENGTH);
}

static void print_row(const struct planes *planes, int plane, size_t row) {
    printf("%d,%zu,", plane, row);
    for (size_t cell = row * planes->width; cell < (row + 1) * planes->width; cell++) {
        size_t word = (size_t)plane * FIR_PLANE_WORDS + cell / 64;
        putchar(digit_at(planes->plus[word], planes->minus[word], (int)(cell % 64)));
    }
    printf("\r\n");
}

static void print_planes(const struct planes *planes) {
    printf("plane,row,digits\r\n");
    for (int plane = 0; plane < FIR_PLANES; plane++) {
        for (size_t row = 0; row < planes->height; row++) print_row(planes, plane, row);
    }
}

int run_planes(const struct arguments *arguments) {
    static struct rounded_set set;
    static struct planes planes;
    int status = read_rounded(arguments, 0, &set);
    if (status != DONE) return status;
    planes.width = decimal(arguments->words[1], FIR_MOST_SIDE);
    uint64_t answer = write_planes(&set, &planes);
    if (answer != 0) return turned_down(answer);
    if (set.given.count % planes.width != 0) {
        return failed("the last row has only %zu of %zu taps", set.given.count % planes.width, planes.width);
    }
    print_planes(&planes);
    say_if_all_zero(arguments, &set);
    return DONE;
}
