/* draw [--svg|--dot] [SHEET]
 * the network of a sheet, drawn: as text, or as SVG by Graphviz
 *
 * SHEET is a sheet that ./sheet or ./fir sheet has printed. It is checked first: every row by the row
 * rule, every tap by the tap row rule, the value of each tap, the total. x is the sample and << a shift
 * to the left. The depth of a row is the number of adders on the longest path to it. The last line has
 * the adders of the filter: those of the rows, and those that join the taps.
 *   --svg  SVG, which Graphviz draws: rows in columns by their depth, taps in their order at the right;
 *          what is taken off comes along a dashed line
 *   --dot  what Graphviz reads, for its other formats */
#include <stdio.h>
#include <stdlib.h>

#include "drawing/drawing.h"
#include "shared/command.h"

/* Graphviz finds places itself for up to so many rows and taps, whose lines pass so many columns. */
enum { MOST_VERTICES = 200, MOST_COLUMNS = 1000 };

static uint32_t passed_to_rows(const struct network *network) {
    uint32_t passed = 0;
    for (size_t i = 1; i < network->row_count; i++) {
        const struct row *row = &network->rows[i];
        passed += 2 * network->depths[i] - network->depths[row->left] - network->depths[row->right];
    }
    return passed;
}

static uint32_t passed_to_taps(const struct network *network) {
    uint32_t passed = 0;
    for (size_t i = 0; i < network->tap_count; i++) {
        const struct tap_row *tap = &network->taps[i];
        if (tap->sign != 0) passed += network->deepest + 1 - network->depths[tap->row];
    }
    return passed;
}

static int is_large(const struct network *network) {
    return network->row_count + network->tap_count > MOST_VERTICES ||
           passed_to_rows(network) + passed_to_taps(network) > MOST_COLUMNS;
}

/* The text that Graphviz reads, to be freed. */
static char *dot_text(const struct network *network, int placed, size_t *length) {
    char *text = NULL;
    FILE *stream = open_memstream(&text, length);
    if (stream == NULL) return NULL;
    write_dot(network, placed, stream);
    if (fclose(stream) == 0) return text;
    free(text);
    return NULL;
}

static int draw_svg(const struct network *network) {
    static char *by_dot[] = {"dot", "-Tsvg", NULL}, *as_placed[] = {"dot", "-Kneato", "-n2", "-Tsvg", NULL};
    int placed = is_large(network);
    char *picture;
    size_t length;
    char *text = dot_text(network, placed, &length);
    if (text == NULL) return failed("no room for the drawing");
    int status = run_program(placed ? as_placed : by_dot, text, length, &picture);
    free(text);
    if (status != DONE) return failed("Graphviz, whose dot is expected on PATH, draws SVG; text needs no option");
    fputs(picture, stdout);
    free(picture);
    return DONE;
}

int run_draw(const struct arguments *arguments) {
    static struct network network;
    int status = read_sheet(&network);
    if (status != DONE) return status;
    if (has_option(arguments, "--svg")) return draw_svg(&network);
    if (has_option(arguments, "--dot")) write_dot(&network, 0, stdout);
    else write_text(&network, stdout);
    return DONE;
}
