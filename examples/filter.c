/* A filter from taps to outputs: rounding, building, running. In the repository's root:
 *   ./library
 *   cc -Iinclude examples/filter.c target/staticlib/libfir.a -o target/filter_c
 * or, where it is installed:
 *   cc examples/filter.c $(pkg-config --cflags --libs fir) -o target/filter_c */
#include <inttypes.h>
#include <stdio.h>

#include "fir.h"

static int turned_down(uint64_t answer) {
    fprintf(stderr, "refusal %" PRIu32 ", place %" PRIu32 "\n", fir_refusal(answer), fir_place(answer));
    return 1;
}

int main(void) {
    static const double taps[4] = {3 / 32768.0, -6 / 32768.0, 45 / 32768.0, 0};
    static const int16_t samples[3] = {1, 2, -32768};
    static uint32_t choices[4], rows[FIR_ROWS_LENGTH], tap_rows[FIR_TAP_ROWS_LENGTH];
    static uint64_t registers[FIR_REGISTERS_LENGTH];
    int32_t coefficients[4];
    int64_t outputs[3];
    double divisor, leftover;
    size_t count;
    uint64_t answer = fir_round_taps(taps, 4, 15, 0, coefficients, 4, &divisor, &leftover);
    if (answer != 0) return turned_down(answer);
    answer = fir_build(coefficients, 4, choices, 4, rows, FIR_ROWS_LENGTH, tap_rows, FIR_TAP_ROWS_LENGTH,
                       &count);
    if (answer != 0) return turned_down(answer);
    answer = fir_run(rows, FIR_ROWS_LENGTH, count, tap_rows, FIR_TAP_ROWS_LENGTH, 4, samples, 3, registers,
                     FIR_REGISTERS_LENGTH, outputs, 3);
    if (answer != 0) return turned_down(answer);
    printf("adders %zu, outputs", count - 1); /* of the rows */
    for (int i = 0; i < 3; i++) printf(" %" PRId64, outputs[i]);
    printf("\n");
    return 0;
}
