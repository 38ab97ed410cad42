/* The names in fir.h: lengths, bounds, and the halves of an answer. */
#include "figures.h"

void names(void)
{
    const uint64_t both = (uint64_t)10 << 32 | 4095;
    number("FIR_MOST_TAPS", 256, FIR_MOST_TAPS);
    number("FIR_MOST_FRACTION_BITS", 31, FIR_MOST_FRACTION_BITS);
    number("FIR_MOST_ROWS", 4096, FIR_MOST_ROWS);
    number("FIR_FORMS_LENGTH", 1597, FIR_FORMS_LENGTH);
    number("FIR_MOST_SIDE", 16, FIR_MOST_SIDE);
    number("FIR_MOST_CELLS", 256, FIR_MOST_CELLS);
    number("FIR_PLANES", 32, FIR_PLANES);
    number("FIR_PLANE_WORDS", 4, FIR_PLANE_WORDS);
    number("FIR_PLANES_LENGTH", 128, FIR_PLANES_LENGTH);
    number("FIR_ROW_WORDS", 5, FIR_ROW_WORDS);
    number("FIR_ROWS_LENGTH", 20480, FIR_ROWS_LENGTH);
    number("FIR_TAP_ROW_WORDS", 3, FIR_TAP_ROW_WORDS);
    number("FIR_TAP_ROWS_LENGTH", 768, FIR_TAP_ROWS_LENGTH);
    number("FIR_REGISTERS_LENGTH", 256, FIR_REGISTERS_LENGTH);
    number("FIR_VERILOG_BYTES", 276457, FIR_VERILOG_BYTES);
    number("the refusal of an answer", FIR_ROW_RULE, fir_refusal(both));
    number("its place", 4095, fir_place(both));
    number("the refusal of 2^64 - 1", UINT32_MAX, fir_refusal(UINT64_MAX));
    number("its place", UINT32_MAX, fir_place(UINT64_MAX));
    number("the refusal of no taps", FIR_NO_TAPS,
           fir_refusal(fir_round_taps(&(double){1}, 0, 15, 0, &(int32_t){0}, 1, &(double){0}, &(double){0})));
}
