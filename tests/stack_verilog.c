/* The Verilog text: the longest and the shortest, and areas that do not hold it. */
#include "stack.h"

#include <string.h>

/* Rows of 1025 and 1 by turns, and 256 taps of -2^31: no network has a longer text. */
static void lend_longest(void)
{
    const uint32_t tap_row[] = {'-', ROWS - 2, 31};
    lend();
    for (uint32_t i = 1; i < ROWS; i++) {
        if (i % 2 == 1)
            put_row(i, i - 1, i - 1, 10, '+');
        else
            put_row(i, i - 2, i - 1, 10, 'r');
    }
    for (uint32_t i = 0; i < TAPS; i++)
        memcpy(&lent.tap_rows[3 * i], tap_row, sizeof tap_row);
}

static void longest(void)
{
    lend_longest();
    try_call(VERILOG, 0, "the longest text");
    lent.text_length--;
    try_call(VERILOG, 13, "the longest text, in an area one byte short");
    lent.text_length = 0;
    try_call(VERILOG, 13, "the longest text, in no area");
}

static void shortest(void)
{
    lend();
    lent.row_count = lent.tap_count = 1;
    memset(lent.tap_rows, 0, sizeof lent.tap_rows);
    try_call(VERILOG, 0, "one row and an empty tap");
    lent.text_length = 1;
    try_call(VERILOG, 13, "one row and an empty tap, in an area of one byte");
}

void try_verilog(void)
{
    longest();
    shortest();
}
