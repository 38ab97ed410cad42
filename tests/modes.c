/* What fir.h says of floating-point modes: all but the two functions for taps are the same in every
 * rounding mode, with subnormal numbers kept or not. A mode is set around the calls alone. */
#include <fenv.h>
#include <stdio.h>
#include <stdlib.h>
#include <string.h>
#include <xmmintrin.h>

#include "fir.h"

enum { SETS = 300, SAMPLES = 40, CALLS = 14, FLUSH = 0x8040 };

static const int modes[] = {FE_TONEAREST, FE_DOWNWARD, FE_UPWARD, FE_TOWARDZERO};

/* All that the calls leave. */
struct results {
    uint64_t answers[CALLS];
    uint32_t rows[FIR_ROWS_LENGTH], taps[FIR_TAP_ROWS_LENGTH];
    uint32_t plus[FIR_FORMS_LENGTH], minus[FIR_FORMS_LENGTH], count, weight;
    uint32_t form_count, negative, odd_part, shift, canonical_plus, canonical_minus;
    size_t row_count, start, end;
    int64_t value;
    int32_t coefficients[FIR_MOST_TAPS];
    uint64_t registers[FIR_REGISTERS_LENGTH];
    int64_t outputs[SAMPLES];
    uint8_t text[FIR_VERILOG_BYTES];
    size_t length;
    uint64_t planes_plus[FIR_PLANES_LENGTH], planes_minus[FIR_PLANES_LENGTH];
    uint32_t cell_plus[FIR_MOST_CELLS], cell_minus[FIR_MOST_CELLS];
};

struct set {
    size_t count;
    int32_t coefficients[FIR_MOST_TAPS];
    uint32_t choices[FIR_MOST_TAPS];
    int16_t samples[SAMPLES];
};

static uint64_t state = 88172645463325252u;

static uint32_t next(void) {
    state ^= state << 13;
    state ^= state >> 7;
    state ^= state << 17;
    return (uint32_t)(state >> 16);
}

static void draw_set(struct set *set) {
    unsigned bits = next() % 31 + 1;
    set->count = next() % FIR_MOST_TAPS + 1;
    for (size_t i = 0; i < set->count; i++) set->coefficients[i] = (int32_t)next() >> (32 - bits);
    for (int i = 0; i < SAMPLES; i++) set->samples[i] = (int16_t)next();
}

static void run_forms(const struct set *set, struct results *r) {
    int32_t n = set->coefficients[0];
    r->answers[4] = fir_minimal_forms(n, r->plus, FIR_FORMS_LENGTH, r->minus, FIR_FORMS_LENGTH, &r->count);
    r->answers[5] = fir_form_weight(r->plus[0], r->minus[0], &r->weight);
    r->answers[6] = fir_form_value(r->plus[0], r->minus[0], &r->value);
    r->answers[7] = fir_form_count(n, &r->form_count);
    r->answers[8] = fir_canonical(n, &r->canonical_plus, &r->canonical_minus);
    r->answers[9] = fir_reduce(n, &r->negative, &r->odd_part, &r->shift);
    r->answers[10] = fir_trimmed(set->coefficients, set->count, &r->start, &r->end);
}

/* As many full rows as the set has. */
static void run_planes(const struct set *set, struct results *r) {
    size_t width = set->count < FIR_MOST_SIDE ? set->count : FIR_MOST_SIDE, height = set->count / width;
    r->answers[12] = fir_write_planes(height, width, set->coefficients, set->count, set->choices, set->count,
                                      r->planes_plus, FIR_PLANES_LENGTH, r->planes_minus, FIR_PLANES_LENGTH);
    r->answers[13] = fir_read_planes(height, width, r->planes_plus, FIR_PLANES_LENGTH, r->planes_minus,
                                     FIR_PLANES_LENGTH, r->cell_plus, FIR_MOST_CELLS, r->cell_minus, FIR_MOST_CELLS);
}

static void run(const struct set *set, struct results *r) {
    size_t count = set->count;
    memset(r, 0, sizeof *r);
    r->answers[0] = fir_build(set->coefficients, count, set->choices, count, r->rows, FIR_ROWS_LENGTH, r->taps,
                              FIR_TAP_ROWS_LENGTH, &r->row_count);
    r->answers[1] = fir_check(r->rows, FIR_ROWS_LENGTH, r->row_count, r->taps, FIR_TAP_ROWS_LENGTH, count);
    r->answers[2] = fir_coefficients(r->rows, FIR_ROWS_LENGTH, r->row_count, r->taps, FIR_TAP_ROWS_LENGTH, count,
                                     r->coefficients, FIR_MOST_TAPS);
    r->answers[3] = fir_run(r->rows, FIR_ROWS_LENGTH, r->row_count, r->taps, FIR_TAP_ROWS_LENGTH, count, set->samples,
                            SAMPLES, r->registers, FIR_REGISTERS_LENGTH, r->outputs, SAMPLES);
    r->answers[11] = fir_verilog(r->rows, FIR_ROWS_LENGTH, r->row_count, r->taps, FIR_TAP_ROWS_LENGTH, count, r->text,
                                 FIR_VERILOG_BYTES, &r->length);
    run_forms(set, r);
    run_planes(set, r);
}

static void run_in(int mode, int flushed, const struct set *set, struct results *results) {
    unsigned before = _mm_getcsr();
    fesetround(mode);
    if (flushed) _mm_setcsr(_mm_getcsr() | FLUSH);
    run(set, results);
    _mm_setcsr(before);
    fesetround(FE_TONEAREST);
}

int main(void) {
    static struct set set;
    static struct results wanted, found;
    for (int i = 0; i < SETS; i++) {
        draw_set(&set);
        run(&set, &wanted);
        for (int k = 0; k < CALLS; k++) {
            if (wanted.answers[k] != 0) return puts("modes: a call is turned down"), 1;
        }
        for (size_t m = 0; m < 8; m++) {
            run_in(modes[m % 4], m >= 4, &set, &found);
            if (memcmp(&wanted, &found, sizeof found) != 0) return printf("modes: set %d, mode %zu\n", i, m), 1;
        }
    }
    printf("modes: %d sets are the same in 8 modes\n", SETS);
    return 0;
}
