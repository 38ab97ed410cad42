/* Each function of fir.h, called with what is lent. */
#include "stack.h"

struct lent lent;

static void round_tap(void)
{
    lent.answer = fir_round_tap(lent.bits, lent.fraction_bits);
}

static void round_taps(void)
{
    lent.answer = fir_round_taps(lent.taps, lent.tap_count, lent.fraction_bits, lent.normalised,
                                 lent.coefficients, lent.coefficient_count, &lent.divisor,
                                 &lent.leftover);
}

static void reduce(void)
{
    lent.answer = fir_reduce(lent.n, &lent.negative, &lent.odd_part, &lent.shift);
}

static void trimmed(void)
{
    lent.answer = fir_trimmed(lent.coefficients, lent.coefficient_count, &lent.start, &lent.end);
}

static void form_value(void)
{
    lent.answer = fir_form_value(lent.plus, lent.minus, &lent.value);
}

static void form_weight(void)
{
    lent.answer = fir_form_weight(lent.plus, lent.minus, &lent.weight);
}

static void canonical(void)
{
    lent.answer = fir_canonical(lent.n, &lent.plus, &lent.minus);
}

static void minimal_forms(void)
{
    lent.answer = fir_minimal_forms(lent.n, lent.plus_table, lent.plus_length, lent.minus_table,
                                    lent.minus_length, &lent.count);
}

static void form_count(void)
{
    lent.answer = fir_form_count(lent.n, &lent.count);
}

static void write_planes(void)
{
    lent.answer = fir_write_planes(lent.height, lent.width, lent.coefficients,
                                   lent.coefficient_count, lent.choices, lent.choice_count,
                                   lent.planes_plus, lent.planes_plus_length, lent.planes_minus,
                                   lent.planes_minus_length);
}

static void read_planes(void)
{
    lent.answer = fir_read_planes(lent.height, lent.width, lent.planes_plus,
                                  lent.planes_plus_length, lent.planes_minus,
                                  lent.planes_minus_length, lent.cell_plus, lent.cell_plus_count,
                                  lent.cell_minus, lent.cell_minus_count);
}

static void build(void)
{
    lent.answer = fir_build(lent.coefficients, lent.coefficient_count, lent.choices,
                            lent.choice_count, lent.rows, lent.rows_length, lent.tap_rows,
                            lent.taps_length, &lent.row_count);
}

static void check(void)
{
    lent.answer = fir_check(lent.rows, lent.rows_length, lent.row_count, lent.tap_rows,
                            lent.taps_length, lent.tap_count);
}

static void coefficients(void)
{
    lent.answer = fir_coefficients(lent.rows, lent.rows_length, lent.row_count, lent.tap_rows,
                                   lent.taps_length, lent.tap_count, lent.coefficients,
                                   lent.coefficient_count);
}

static void run(void)
{
    lent.answer = fir_run(lent.rows, lent.rows_length, lent.row_count, lent.tap_rows,
                          lent.taps_length, lent.tap_count, lent.samples, lent.sample_count,
                          lent.registers, lent.register_count, lent.outputs, lent.output_count);
}

static void verilog(void)
{
    lent.answer = fir_verilog(lent.rows, lent.rows_length, lent.row_count, lent.tap_rows,
                              lent.taps_length, lent.tap_count, lent.text, lent.text_length,
                              &lent.length);
}

struct entry entries[FUNCTIONS] = {
    [ROUND_TAP] = {.name = "fir_round_tap", .call = round_tap},
    [ROUND_TAPS] = {.name = "fir_round_taps", .call = round_taps},
    [REDUCE] = {.name = "fir_reduce", .call = reduce},
    [TRIMMED] = {.name = "fir_trimmed", .call = trimmed},
    [FORM_VALUE] = {.name = "fir_form_value", .call = form_value},
    [FORM_WEIGHT] = {.name = "fir_form_weight", .call = form_weight},
    [CANONICAL] = {.name = "fir_canonical", .call = canonical},
    [MINIMAL_FORMS] = {.name = "fir_minimal_forms", .call = minimal_forms},
    [FORM_COUNT] = {.name = "fir_form_count", .call = form_count},
    [WRITE_PLANES] = {.name = "fir_write_planes", .call = write_planes},
    [READ_PLANES] = {.name = "fir_read_planes", .call = read_planes},
    [BUILD] = {.name = "fir_build", .call = build},
    [CHECK] = {.name = "fir_check", .call = check},
    [COEFFICIENTS] = {.name = "fir_coefficients", .call = coefficients},
    [RUN] = {.name = "fir_run", .call = run},
    [VERILOG] = {.name = "fir_verilog", .call = verilog},
};
