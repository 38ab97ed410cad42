/* Networks: 4,096 rows, 256 taps and 20,000 samples, and each refusal. */
#include "stack.h"

static void all(uint32_t refusal, const char *what)
{
    try_call(CHECK, refusal, what);
    try_call(COEFFICIENTS, refusal, what);
    try_call(RUN, refusal, what);
    try_call(VERILOG, refusal, what);
}

static void lengths(void)
{
    static const size_t taps[] = {1, 2, 3, 4, 5, 255, TAPS};
    static const size_t samples[] = {0, 1, 2, 3, 4, 5, 8, SAMPLES};
    for (size_t i = 0; i < sizeof taps / sizeof taps[0]; i++) {
        lend();
        lent.tap_count = taps[i];
        for (size_t j = 0; j < sizeof samples / sizeof samples[0]; j++) {
            lent.sample_count = samples[j];
            try_call(RUN, 0, "any number of taps and samples");
        }
    }
}

static void refused_lengths(void)
{
    lend();
    lent.tap_count = 0;
    all(1, "no taps");
    lent.tap_count = TAPS + 1;
    all(2, "257 taps");
    lend();
    lent.rows_length--;
    all(3, "a short table of rows");
    lend();
    lent.taps_length--;
    all(3, "a short table of tap rows");
    lend();
    lent.coefficient_count--;
    try_call(COEFFICIENTS, 3, "a short table of coefficients");
    lent.register_count--;
    try_call(RUN, 3, "255 registers");
    lend();
    lent.output_count--;
    try_call(RUN, 3, "a short table of outputs");
}

static void refused_rows(void)
{
    lend();
    lent.row_count = 0;
    all(10, "no rows");
    lent.row_count = ROWS + 1;
    all(10, "4,097 rows");
    lend();
    lent.rows[ROW_TABLE - 1] += 2;
    all(10, "the last row is wrong");
    lend();
    lent.tap_rows[TAP_TABLE - 1] = 32;
    all(11, "the last tap row is wrong");
}

void try_networks(void)
{
    lend();
    all(0, "4,096 rows, 256 taps, 20,000 samples");
    lengths();
    refused_lengths();
    refused_rows();
}
