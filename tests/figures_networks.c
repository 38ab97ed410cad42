/* The paper's bench figures for networks and running, and the sheet's network as Verilog. */
#include "figures.h"

#include <string.h>

enum { ROWS = 4096, TAPS = 256, REGISTERS = 256, BEFORE = 1000 };

/* The sheet's network, as C stores it. */
static struct row {
    uint32_t left, right, shift, sign, value;
} rows[ROWS] = {{0, 0, 0, '+', 1}, {0, 0, 1, '+', 3}, {1, 1, 4, '-', 45}};

static struct tap_row {
    uint32_t sign, row, shift;
} tap_rows[TAPS] = {{'+', 1, 0}, {'-', 1, 1}, {'+', 2, 0}, {0, 0, 0}};

enum { ROW_COUNT = 3, TAP_COUNT = 4 };

static uint64_t checked(size_t rows_length, size_t row_count, size_t tap_count)
{
    return fir_check(&rows[0].left, rows_length, row_count, &tap_rows[0].sign, 3 * TAPS, tap_count);
}

static void checks(void)
{
    answer("The sheet's network", 0, 0, checked(5 * ROWS, ROW_COUNT, TAP_COUNT));
    answer("  no taps", 1, 0, checked(5 * ROWS, ROW_COUNT, 0));
    answer("  257 taps", 2, 0, checked(5 * ROWS, ROW_COUNT, TAPS + 1));
    answer("  a word short", 3, 0, checked(5 * ROWS - 1, ROW_COUNT, TAP_COUNT));
    answer("  no rows", 10, 0, checked(5 * ROWS, 0, TAP_COUNT));
    answer("  a row too many", 10, ROW_COUNT, checked(5 * ROWS, ROW_COUNT + 1, TAP_COUNT));
    answer("  a row too few", 11, 2, checked(5 * ROWS, ROW_COUNT - 1, TAP_COUNT));
}

static void read_back(void)
{
    const int32_t wanted[] = {3, -6, 45, 0, BEFORE};
    int32_t got[] = {BEFORE, BEFORE, BEFORE, BEFORE, BEFORE};
    answer("Its coefficients", 0, 0,
           fir_coefficients(&rows[0].left, 5 * ROWS, ROW_COUNT, &tap_rows[0].sign, 3 * TAPS,
                            TAP_COUNT, got, 5));
    for (int i = 0; i < 5; i++)
        number("  coefficient", wanted[i], got[i]);
}

static const char module[] =
    "module smoother(input signed [15:0] x, output signed [63:0] t0, output signed [63:0] t1, "
    "output signed [63:0] t2, output signed [63:0] t3);\n"
    "wire signed [63:0] n0;\n"
    "wire signed [63:0] n1;\n"
    "wire signed [63:0] n2;\n"
    "assign n0 = x;\n"
    "assign n1 = (n0 <<< 1) + n0;\n"
    "assign n2 = (n1 <<< 4) - n1;\n"
    "assign t0 = n1 <<< 0;\n"
    "assign t1 = -(n1 <<< 1);\n"
    "assign t2 = n2 <<< 0;\n"
    "assign t3 = 0;\n"
    "endmodule\n";

/* The text stands between guards. */
enum { LENGTH = 376, GUARD = 1000, FILLED = 0xa5 };
static uint8_t area[GUARD + LENGTH + GUARD];

/* How many bytes of the area are neither the text's first so many nor as before. */
static int strays(size_t length)
{
    int count = 0;
    for (size_t i = 0; i < sizeof area; i++) {
        const int inside = i >= GUARD && i < GUARD + length;
        count += area[i] != (inside ? (uint8_t)module[i - GUARD] : FILLED);
    }
    return count;
}

static void written(const char *what, size_t row_count, size_t text_length, uint32_t refusal,
                    int32_t place)
{
    size_t length = BEFORE;
    memset(area, FILLED, sizeof area);
    answer(what, refusal, place,
           fir_verilog(&rows[0].left, 5 * ROWS, row_count, &tap_rows[0].sign, 3 * TAPS, TAP_COUNT,
                       area + GUARD, text_length, &length));
    number("  length", refusal == 0 ? LENGTH : BEFORE, (int64_t)length);
    number("  bytes that are wrong", 0, strays(refusal == 0 ? LENGTH : 0));
}

static void verilog(void)
{
    number("The sheet's network as Verilog", LENGTH, (int64_t)strlen(module));
    written("  in an area that is longer", ROW_COUNT, LENGTH + GUARD, 0, 0);
    written("  in one of its length", ROW_COUNT, LENGTH, 0, 0);
    written("  in one a byte short", ROW_COUNT, LENGTH - 1, 13, 0);
    written("  in none", ROW_COUNT, 0, 13, 0);
    written("  a row too few, in none", ROW_COUNT - 1, 0, 11, 2);
}

void networks(void)
{
    const int16_t samples[] = {1, 2, INT16_MIN};
    const int64_t wanted[] = {3, 0, -98271, BEFORE};
    static uint64_t registers[REGISTERS];
    int64_t got[] = {BEFORE, BEFORE, BEFORE, BEFORE};
    checks();
    read_back();
    answer("The sheet's filter, cleared", 0, 0,
           fir_run(&rows[0].left, 5 * ROWS, ROW_COUNT, &tap_rows[0].sign, 3 * TAPS, TAP_COUNT,
                   samples, 3, registers, REGISTERS, got, 4));
    for (int i = 0; i < 4; i++)
        number("  output", wanted[i], got[i]);
    verilog();
}
