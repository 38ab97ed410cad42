/* A network as plain text. */
#include <inttypes.h>

#include "drawing.h"

enum { NAME = 32, TERM = 48 };

/* What a row or tap takes from a row: row 0 is the sample. */
static const char *source(uint32_t row, char text[NAME]) {
    if (row == 0) return "x";
    snprintf(text, NAME, "node %" PRIu32, row);
    return text;
}

static const char *shifted(uint32_t row, uint32_t shift, char text[TERM]) {
    char name[NAME];
    if (shift == 0) snprintf(text, TERM, "%s", source(row, name));
    else snprintf(text, TERM, "(%s << %" PRIu32 ")", source(row, name), shift);
    return text;
}

static void write_row(const struct network *network, size_t i, FILE *stream) {
    const struct row *row = &network->rows[i];
    char left[TERM], right[NAME], sum[3 * TERM], name[NAME];
    shifted(row->left, row->shift, left);
    if (i == 0) snprintf(sum, sizeof sum, "x");
    else if (row->sign == 'r') snprintf(sum, sizeof sum, "%s - %s", source(row->right, right), left);
    else snprintf(sum, sizeof sum, "%s %c %s", left, (char)row->sign, source(row->right, right));
    snprintf(name, sizeof name, "node %zu", i);
    fprintf(stream, "depth %-4" PRIu32 " %-9s = %-36s = %" PRIu32 "x\n", network->depths[i], name, sum, row->value);
}

static void write_tap(const struct network *network, size_t i, FILE *stream) {
    const struct tap_row *tap = &network->taps[i];
    char term[TERM], signed_term[TERM + 1], name[NAME];
    snprintf(signed_term, sizeof signed_term, "%s%s", tap->sign == '-' ? "-" : "", shifted(tap->row, tap->shift, term));
    snprintf(name, sizeof name, "tap %zu", i);
    if (tap->sign == 0) fprintf(stream, "%10s %-9s = 0\n", "", name);
    else fprintf(stream, "%10s %-9s = %-36s = %" PRId32 "x\n", "", name, signed_term, network->coefficients[i]);
}

void write_adders(const struct network *network, FILE *stream) {
    size_t in_rows = network->row_count - 1;
    fprintf(stream, "%" PRIu32 " adder%s: %zu in the rows, %zu joining the taps; longest path to a row: %" PRIu32,
            network->total, network->total == 1 ? "" : "s", in_rows, network->total - in_rows, network->deepest);
}

static void write_depth(const struct network *network, uint32_t depth, FILE *stream) {
    for (size_t i = 0; i < network->row_count; i++) {
        if (network->depths[i] == depth) write_row(network, i, stream);
    }
}

void write_text(const struct network *network, FILE *stream) {
    for (uint32_t depth = 0; depth <= network->deepest; depth++) write_depth(network, depth, stream);
    for (size_t i = 0; i < network->tap_count; i++) write_tap(network, i, stream);
    write_adders(network, stream);
    fputc('\n', stream);
}
