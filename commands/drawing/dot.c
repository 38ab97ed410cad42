/* A network in Graphviz's language. */
#include <inttypes.h>
#include <string.h>

#include "drawing.h"

/* Where rows and taps stand: how many are in each column, and how many of them came so far. */
struct columns {
    int placed;
    uint32_t high, most[FIR_MOST_ROWS + 1], used[FIR_MOST_ROWS + 1];
};

/* Points between two that stand below each other; between columns there is room for the slant. */
enum { DOWN = 44, ACROSS = 160, SLANT = 16 };

static void add_column(struct columns *columns, uint32_t column) {
    uint32_t most = ++columns->most[column];
    if (most > columns->high) columns->high = most;
}

static void count(const struct network *network, struct columns *columns) {
    for (size_t i = 0; i < network->row_count; i++) add_column(columns, network->depths[i]);
    for (size_t i = 0; i < network->tap_count; i++) add_column(columns, network->deepest + 1);
}

/* The place of the next in a column, whose middle is at height 0. */
static void write_place(struct columns *columns, uint32_t column, FILE *stream) {
    int64_t from_top = DOWN * (int64_t)columns->used[column]++, half = DOWN / 2 * ((int64_t)columns->most[column] - 1);
    int64_t across = ACROSS + DOWN * (int64_t)columns->high / SLANT;
    if (columns->placed) fprintf(stream, ", pos=\"%" PRId64 ",%" PRId64 "\"", across * column, half - from_top);
    fprintf(stream, "];\n");
}

/* What is taken off comes along a dashed line with a minus sign. */
static void edge(uint32_t from, const char *kind, size_t to, int minus, uint32_t shift, FILE *stream) {
    fprintf(stream, "    node%" PRIu32 " -> %s%zu [label=\"%s", from, kind, to, minus ? "-" : "+");
    if (shift > 0) fprintf(stream, " << %" PRIu32, shift);
    fprintf(stream, "\"%s];\n", minus ? ", style=dashed" : "");
}

static void write_rows(const struct network *network, struct columns *columns, FILE *stream) {
    for (size_t i = 0; i < network->row_count; i++) {
        if (i == 0) fprintf(stream, "    node0 [label=\"x\", shape=circle");
        else fprintf(stream, "    node%zu [label=\"node %zu\\n%" PRIu32 "\", shape=box", i, i, network->rows[i].value);
        write_place(columns, network->depths[i], stream);
    }
}

static void write_taps(const struct network *network, struct columns *columns, FILE *stream) {
    for (size_t i = 0; i < network->tap_count; i++) {
        fprintf(stream, "    tap%zu [label=\"tap %zu\\n%" PRId32 "\", shape=ellipse", i, i, network->coefficients[i]);
        write_place(columns, network->deepest + 1, stream);
    }
}

static void write_row_edges(const struct network *network, FILE *stream) {
    for (size_t i = 1; i < network->row_count; i++) {
        const struct row *row = &network->rows[i];
        edge(row->left, "node", i, row->sign == 'r', row->shift, stream);
        edge(row->right, "node", i, row->sign == '-', 0, stream);
    }
}

static void write_tap_edges(const struct network *network, FILE *stream) {
    for (size_t i = 0; i < network->tap_count; i++) {
        const struct tap_row *tap = &network->taps[i];
        if (tap->sign != 0) edge(tap->row, "tap", i, tap->sign == '-', tap->shift, stream);
    }
}

/* Rows of one depth stand in one column. */
static void write_column(const struct network *network, uint32_t depth, FILE *stream) {
    fprintf(stream, "    { rank=same;");
    for (size_t i = 0; i < network->row_count; i++) {
        if (network->depths[i] == depth) fprintf(stream, " node%zu;", i);
    }
    fprintf(stream, " }\n");
}

/* Taps stand in the last column, and lines that are not seen keep their order. */
static void write_tap_column(const struct network *network, FILE *stream) {
    fprintf(stream, "    { rank=sink; edge [style=invis]; tap0");
    for (size_t i = 1; i < network->tap_count; i++) fprintf(stream, " -> tap%zu", i);
    fprintf(stream, "; }\n");
}

static void write_columns(const struct network *network, FILE *stream) {
    for (uint32_t depth = 0; depth <= network->deepest; depth++) write_column(network, depth, stream);
    write_tap_column(network, stream);
}

void write_dot(const struct network *network, int placed, FILE *stream) {
    static const char font[] = "fontname=\"Helvetica\"";
    static struct columns columns;
    memset(&columns, 0, sizeof columns);
    columns.placed = placed;
    count(network, &columns);
    fprintf(stream, "digraph network {\n    graph [rankdir=LR, nodesep=0.2, ranksep=0.8, outputorder=edgesfirst, splines=%s, ",
            placed ? "line" : "true");
    fprintf(stream, "%s, label=\"", font);
    write_adders(network, stream);
    fprintf(stream, "\"];\n    node [%s, fontsize=11, style=filled, fillcolor=white];\n", font);
    fprintf(stream, "    edge [%s, fontsize=10];\n", font);
    write_rows(network, &columns, stream);
    write_taps(network, &columns, stream);
    if (!placed) write_columns(network, stream);
    write_row_edges(network, stream);
    write_tap_edges(network, stream);
    fprintf(stream, "}\n");
}
