/* What is lent before anything is changed: all tables at full length, a set of 256 taps, a network of
 * 4,096 rows that uses every sign, and planes without a digit 0. */
#include "stack.h"

#include <string.h>

void put_row(uint32_t i, uint32_t left, uint32_t right, uint32_t shift, uint32_t sign)
{
    uint32_t *row = &lent.rows[5 * i];
    const uint32_t lifted = lent.rows[5 * left + 4] << shift, other = lent.rows[5 * right + 4];
    row[0] = left;
    row[1] = right;
    row[2] = shift;
    row[3] = sign;
    row[4] = sign == '+' ? lifted + other : sign == '-' ? lifted - other : other - lifted;
}

/* By turns 4 more than the row before, 2 less, and the same again. */
static void lend_rows(void)
{
    lent.rows[3] = '+';
    lent.rows[4] = 1;
    for (uint32_t i = 1; i < ROWS; i++) {
        if (i % 3 == 1)
            put_row(i, 0, i - 1, 2, '+');
        else if (i % 3 == 2)
            put_row(i, 0, i - 1, 1, 'r');
        else
            put_row(i, i - 1, i - 1, 1, '-');
    }
    lent.row_count = ROWS;
    lent.rows_length = ROW_TABLE;
}

static void lend_taps(void)
{
    for (uint32_t i = 0; i < TAPS; i++) {
        lent.taps[i] = (i % 7 + 1) * 0.001;
        lent.coefficients[i] = (int32_t)(i % 100) * 12345;
        lent.tap_rows[3 * i] = i % 2 == 0 ? '+' : '-';
        lent.tap_rows[3 * i + 1] = ROWS - 1 - i;
        lent.tap_rows[3 * i + 2] = i % 19;
    }
    lent.tap_count = lent.coefficient_count = lent.choice_count = TAPS;
    lent.taps_length = TAP_TABLE;
    lent.fraction_bits = 15;
}

static void lend_planes(void)
{
    for (uint32_t i = 0; i < PLANES_TABLE; i++) {
        lent.planes_plus[i] = (i + 1) * 0x9e3779b97f4a7c15;
        lent.planes_minus[i] = ~lent.planes_plus[i];
    }
    lent.height = lent.width = SIDE;
    lent.planes_plus_length = lent.planes_minus_length = PLANES_TABLE;
    lent.cell_plus_count = lent.cell_minus_count = CELLS;
}

void lend(void)
{
    memset(&lent, 0, sizeof lent);
    lend_rows();
    lend_taps();
    lend_planes();
    for (uint32_t i = 0; i < REGISTERS; i++)
        lent.registers[i] = i * 0x9e3779b97f4a7c15;
    for (uint32_t i = 0; i < SAMPLES; i++)
        lent.samples[i] = (int16_t)(i * 7919 % 65536 - 32768);
    lent.n = 45;
    lent.sample_count = lent.output_count = SAMPLES;
    lent.register_count = REGISTERS;
    lent.plus_length = lent.minus_length = FORMS;
    lent.text_length = TEXT;
}
