/* Every function of fir.h, called on a stack of its own: what it is handed, and how much it needs. */
#ifndef STACK_H
#define STACK_H

#include "fir.h"

enum {
    TAPS = 256,
    ROWS = 4096,
    ROW_TABLE = 5 * ROWS,
    TAP_TABLE = 3 * TAPS,
    FORMS = 1597,
    SIDE = 16,
    CELLS = SIDE * SIDE,
    PLANES_TABLE = 128,
    SAMPLES = 20000,
    REGISTERS = 256,
    TEXT = FIR_VERILOG_BYTES
};

/* All that any call is handed, and all that it leaves. */
struct lent {
    uint64_t answer, bits;
    uint32_t fraction_bits, normalised;
    int32_t n;
    uint32_t plus, minus;
    size_t tap_count, coefficient_count, choice_count, row_count, sample_count;
    size_t rows_length, taps_length, plus_length, minus_length, register_count, output_count;
    size_t text_length, length;
    double divisor, leftover;
    uint32_t negative, odd_part, shift, weight, count;
    int64_t value;
    size_t start, end;
    double taps[TAPS + 1];
    int32_t coefficients[TAPS + 1];
    uint32_t choices[TAPS + 1];
    uint32_t rows[ROW_TABLE], tap_rows[TAP_TABLE];
    uint32_t plus_table[FORMS], minus_table[FORMS];
    int16_t samples[SAMPLES];
    uint64_t registers[REGISTERS];
    int64_t outputs[SAMPLES];
    uint8_t text[TEXT];
    size_t height, width, planes_plus_length, planes_minus_length, cell_plus_count, cell_minus_count;
    uint64_t planes_plus[PLANES_TABLE], planes_minus[PLANES_TABLE];
    uint32_t cell_plus[CELLS], cell_minus[CELLS];
};

extern struct lent lent;

enum function {
    ROUND_TAP,
    ROUND_TAPS,
    REDUCE,
    TRIMMED,
    FORM_VALUE,
    FORM_WEIGHT,
    CANONICAL,
    MINIMAL_FORMS,
    FORM_COUNT,
    WRITE_PLANES,
    READ_PLANES,
    BUILD,
    CHECK,
    COEFFICIENTS,
    RUN,
    VERILOG,
    FUNCTIONS
};

struct entry {
    const char *name;
    /* Calls it with what is lent. */
    void (*call)(void);
    /* Bytes: what fir.h states, and the most that was measured, with what. */
    size_t stated, need;
    const char *most;
};

extern struct entry entries[FUNCTIONS];

/* What came of a call on a stack of so many bytes: the signal that ended it or 0, the refusal,
 * whether it left what an ordinary call leaves, and how many bytes of the stack it changed. */
struct outcome {
    int signal, same;
    uint32_t refusal;
    size_t depth;
};

struct outcome on_stack(void (*call)(void), size_t bytes);

/* Tries a function with what is lent, which it must answer with this refusal, 0 for none; what is
 * lent stays as it was. */
void try_call(enum function which, uint32_t refusal, const char *what);

/* Lends everything, at full length and with nothing in it that is refused. */
void lend(void);

/* Kinds of coefficients that ask for much, and what each is called with its first and last forms. */
struct kind {
    const char *first_forms, *last_forms;
    int32_t (*coefficient)(uint32_t);
};

enum { KINDS = 5 };
extern const struct kind kinds[KINDS];

/* Lends everything, with so many coefficients of a kind and the last form of each or the first. */
void lend_kind(const struct kind *kind, uint32_t count, int last_forms);

/* The same with 256 coefficients of weight 16. */
void lend_heaviest(void);

/* Lends one row, with the value that its parts give. */
void put_row(uint32_t i, uint32_t left, uint32_t right, uint32_t shift, uint32_t sign);

/* The largest inputs, and one for each refusal. */
void try_taps(void);
void try_forms(void);
void try_planes(void);
void try_building(void);
void try_networks(void);
void try_verilog(void);

/* Reads what fir.h states, and gives how much of it is wrong. */
int read_header(const char *path);

#endif
