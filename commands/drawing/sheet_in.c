/* A sheet, read and checked. */
#include <errno.h>
#include <inttypes.h>
#include <stdlib.h>
#include <string.h>

#include "../shared/command.h"
#include "drawing.h"

enum { KIND, NUMBER, LEFT, SHIFT, SIGN, RIGHT, VALUE, COLUMNS, LINE = 128 };

static const char header[] = "kind,number,left,shift,sign,right,value";

/* The line that is read: its number, its text and its fields. */
struct line {
    unsigned long number;
    char text[LINE];
    char *fields[COLUMNS];
};

static int no_line(const struct line *line) {
    return failed("line %lu is no line of a sheet", line->number);
}

/* 1, or 0 at the end of the input, or FAILED. The line end is CR LF, or LF. */
static int next_line(struct line *line) {
    line->number++;
    if (fgets(line->text, LINE, stdin) == NULL) {
        return ferror(stdin) ? failed("cannot read the sheet: %s", strerror(errno)) : 0;
    }
    size_t length = strlen(line->text);
    if (length == 0 || line->text[length - 1] != '\n') return no_line(line);
    line->text[--length] = '\0';
    if (length > 0 && line->text[length - 1] == '\r') line->text[length - 1] = '\0';
    return 1;
}

static int split(struct line *line) {
    char *rest = line->text;
    for (int i = 0; i < COLUMNS; i++) {
        line->fields[i] = rest;
        rest = strchr(rest, ',');
        if ((rest == NULL) != (i == COLUMNS - 1)) return 0;
        if (rest != NULL) *rest++ = '\0';
    }
    return 1;
}

/* A decimal number as a sheet has it: no zeros in front, and no sign but a minus before what is not 0. */
static int is_number(const char *text, int64_t least, int64_t most, int64_t *value) {
    const char *first = text + (*text == '-');
    size_t digits = strspn(first, "0123456789");
    *value = strtoll(text, NULL, 10);
    if (digits == 0 || digits > 10 || first[digits] != '\0') return 0;
    return (*first != '0' || strcmp(text, "0") == 0) && *value >= least && *value <= most;
}

static int word(const struct line *line, int column, uint32_t *value) {
    int64_t number;
    int is = is_number(line->fields[column], 0, UINT32_MAX, &number);
    *value = is ? (uint32_t)number : 0;
    return is;
}

/* Whether these columns and no other but kind, number and value hold something. */
static int holds(const struct line *line, const char *columns) {
    for (int i = LEFT; i <= RIGHT; i++) {
        if ((line->fields[i][0] != '\0') != (columns[i - LEFT] == 'x')) return 0;
    }
    return 1;
}

static int sign_of(const struct line *line, uint32_t *sign) {
    *sign = (unsigned char)line->fields[SIGN][0];
    return strlen(line->fields[SIGN]) == 1;
}

/* The first row has nothing but its value. */
static int read_row(const struct line *line, struct network *network) {
    if (network->tap_count > 0) return 0;
    struct row *row = &network->rows[network->row_count];
    if (network->row_count++ == 0) {
        row->sign = '+';
        return holds(line, "....") && word(line, VALUE, &row->value);
    }
    return holds(line, "xxxx") && word(line, LEFT, &row->left) && word(line, SHIFT, &row->shift) &&
           sign_of(line, &row->sign) && word(line, RIGHT, &row->right) && word(line, VALUE, &row->value);
}

static int read_tap(const struct line *line, struct network *network) {
    int64_t value;
    if (!is_number(line->fields[VALUE], INT32_MIN, INT32_MAX, &value)) return 0;
    network->coefficients[network->tap_count] = (int32_t)value;
    struct tap_row *tap = &network->taps[network->tap_count++];
    if (holds(line, "....")) return value == 0;
    return holds(line, "xxx.") && word(line, LEFT, &tap->row) && word(line, SHIFT, &tap->shift) &&
           sign_of(line, &tap->sign);
}

/* Nothing follows the last line. */
static int ends(struct line *line) {
    int found = next_line(line);
    return found == 1 ? no_line(line) : found == FAILED ? FAILED : DONE;
}

/* The refused line: number and place. */
static int refused_sheet(struct line *line) {
    uint32_t number, place;
    if (!holds(line, "....") || !word(line, NUMBER, &number) || !word(line, VALUE, &place)) return no_line(line);
    if (number < FIR_NO_TAPS || number > FIR_CUT_TAP) return no_line(line);
    int status = ends(line);
    if (status != DONE) return status;
    say("there is nothing to draw, the sheet says refused:");
    return turned_down(refused(number, place));
}

/* The tables have no more room than a network may take. */
static uint64_t full(const struct network *network, const char *kind) {
    if (strcmp(kind, "node") == 0 && network->row_count == FIR_MOST_ROWS) return refused(FIR_ROW_RULE, 0);
    if (strcmp(kind, "tap") == 0 && network->tap_count == FIR_MOST_TAPS) return refused(FIR_TOO_MANY_TAPS, 0);
    return 0;
}

static int read_total(struct line *line, struct network *network) {
    if (strcmp(line->fields[KIND], "total") != 0 || !holds(line, "....") || line->fields[VALUE][0] != '\0') {
        return no_line(line);
    }
    return word(line, NUMBER, &network->total) ? ends(line) : no_line(line);
}

/* Rows, taps and the total, each by number. */
static int read_lines(struct line *line, struct network *network) {
    int found;
    uint32_t number;
    while ((found = next_line(line)) == 1) {
        if (!split(line)) return no_line(line);
        const char *kind = line->fields[KIND];
        if (strcmp(kind, "refused") == 0 && network->row_count == 0) return refused_sheet(line);
        if (full(network, kind) != 0) return turned_down(full(network, kind));
        if (!word(line, NUMBER, &number)) return no_line(line);
        if (strcmp(kind, "node") == 0 && number == network->row_count && read_row(line, network)) continue;
        if (strcmp(kind, "tap") == 0 && number == network->tap_count && read_tap(line, network)) continue;
        return read_total(line, network);
    }
    return found == FAILED ? FAILED : failed("the sheet has no total line");
}

/* The adders of the filter: one for each row but the first, and one for each nonzero tap but the first. */
static size_t adders(const struct network *network) {
    size_t taps = 0;
    for (size_t i = 0; i < network->tap_count; i++) taps += network->coefficients[i] != 0;
    return network->row_count - 1 + (taps > 0 ? taps - 1 : 0);
}

/* The rules are the core's; a sheet also has the value of each tap, and the total. */
static int check(struct network *network) {
    int32_t coefficients[FIR_MOST_TAPS];
    uint64_t answer = fir_coefficients((const uint32_t *)network->rows, FIR_ROWS_LENGTH, network->row_count,
                                       (const uint32_t *)network->taps, FIR_TAP_ROWS_LENGTH, network->tap_count,
                                       coefficients, FIR_MOST_TAPS);
    if (answer != 0) return turned_down(answer);
    for (size_t i = 0; i < network->tap_count; i++) {
        if (coefficients[i] == network->coefficients[i]) continue;
        return failed("tap %zu has another value than its row, shift and sign give", i);
    }
    size_t wanted = adders(network);
    if (network->total == wanted) return DONE;
    return failed("the total is %" PRIu32 ", but by its rows and nonzero taps it is %zu", network->total, wanted);
}

static void find_depths(struct network *network) {
    for (size_t i = 1; i < network->row_count; i++) {
        uint32_t left = network->depths[network->rows[i].left], right = network->depths[network->rows[i].right];
        network->depths[i] = 1 + (left > right ? left : right);
        if (network->depths[i] > network->deepest) network->deepest = network->depths[i];
    }
}

int read_sheet(struct network *network) {
    static struct line line;
    int found = next_line(&line);
    if (found == FAILED) return FAILED;
    if (found == 0 || strcmp(line.text, header) != 0) return failed("the first line is not a sheet's header");
    int status = read_lines(&line, network);
    if (status == DONE) status = check(network);
    if (status == DONE) find_depths(network);
    return status;
}
