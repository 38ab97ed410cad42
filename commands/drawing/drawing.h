/* What the drawings of a network share. */
#ifndef DRAWING_H
#define DRAWING_H

#include <stdint.h>
#include <stdio.h>

#include "fir.h"

struct row {
    uint32_t left, right, shift, sign, value;
};

struct tap_row {
    uint32_t sign, row, shift;
};

/* A network that keeps the rules, with the coefficients of its taps, the depth of each row, and in `total` the
 * adders of the filter. */
struct network {
    size_t row_count, tap_count;
    struct row rows[FIR_MOST_ROWS];
    struct tap_row taps[FIR_MOST_TAPS];
    int32_t coefficients[FIR_MOST_TAPS];
    uint32_t depths[FIR_MOST_ROWS], deepest, total;
};

/* The network of the sheet on standard input. */
int read_sheet(struct network *network);

/* One line a row, by depth, then one a tap, then the adders. */
void write_text(const struct network *network, FILE *stream);

/* In Graphviz's language; with a place for each row and tap where Graphviz is to find none. */
void write_dot(const struct network *network, int placed, FILE *stream);

/* The last line of both. */
void write_adders(const struct network *network, FILE *stream);

#endif
