/* The proved core for multiplierless FIR filters, for C. Link libfir.a, or libfir.so; see ./library.
 *
 * Every bit pattern is legal input. Memory that is lent must not overlap other memory of the same
 * call, and a pointer is not null even where its length is 0. A length counts elements. Functions
 * keep no state: any number of threads may call them at once, each on memory of its own.
 *
 * The core asks of the machine: x86-64; binary64 arithmetic that rounds to nearest and keeps
 * subnormal numbers (neither FTZ nor DAZ), with exceptions masked, all of which a C program starts
 * with; and the stack below. fir_round_tap and fir_round_taps may give other results in another
 * rounding mode, or without subnormal numbers; the other functions do not depend on it.
 *
 * A call needs at most so many bytes of stack, accepted or turned down, its arguments and return
 * address included (measured on x86-64; what memcpy and memset need of their own comes on top):
 *   stack: fir_round_tap          64
 *   stack: fir_round_taps       3264
 *   stack: fir_reduce             64
 *   stack: fir_trimmed            64
 *   stack: fir_form_value         64
 *   stack: fir_form_weight       320
 *   stack: fir_canonical          64
 *   stack: fir_minimal_forms     128
 *   stack: fir_form_count         64
 *   stack: fir_write_planes      448
 *   stack: fir_read_planes       640
 *   stack: fir_build           62912
 *   stack: fir_check            1216
 *   stack: fir_coefficients     1280
 *   stack: fir_run              7744
 *   stack: fir_verilog           256 */
#ifndef FIR_H
#define FIR_H

#include <stddef.h>
#include <stdint.h>

#ifdef __cplusplus
extern "C" {
#endif

/* The first number changes where a program has to be compiled again. */
#define FIR_VERSION "1.4"
#define FIR_VERSION_MAJOR 1
#define FIR_VERSION_MINOR 4

/* A call answers one 64-bit number. Its upper half is the refusal number, 0 for none. Where nothing
 * else is said, the lower half is the place of the refusal, counted from 0, and 0 where the call is
 * accepted. A call that is turned down changes no memory. Of several refusals the first in the order
 * that a function lists is answered, at the lowest place that it applies to. */
enum fir_refusal_number {
    FIR_NO_TAPS = 1,          /* no taps; place 0 */
    FIR_TOO_MANY_TAPS = 2,    /* more than 256 taps; place 0 */
    FIR_SHORT_TABLE = 3,      /* a lent table is under its length; place 0 */
    FIR_FRACTION_BITS = 4,    /* more than 31 fraction bits; place 0 */
    FIR_TAP_NOT_FINITE = 5,   /* a tap is infinite or not a number; place: the tap */
    FIR_OUT_OF_BOUNDS = 6,    /* a coefficient is outside -2^31 to 2^31 - 1; place: the tap */
    FIR_NOT_NORMALISABLE = 7, /* the sum is zero, infinite or not a number: place 0; or a quotient is
                                 infinite: place: the tap */
    FIR_MASKS_OVERLAP = 8,    /* the masks of a form overlap; place: the lowest digit in both, or in a
                                 grid the lowest cell of such a form */
    FIR_NO_SUCH_FORM = 9,     /* a choice is not below the number of forms; place: the tap, or in a grid
                                 the cell */
    FIR_ROW_RULE = 10,        /* a row breaks the row rule; place: the row. No rows, or more than
                                 4096: place 0 */
    FIR_TAP_ROW_RULE = 11,    /* a tap row breaks the tap row rule; place: the tap */
    FIR_CUT_TAP = 12,         /* programs only: the input ends inside a tap; place 0 */
    FIR_TEXT_TOO_LONG = 13,   /* the text is longer than the lent area; place 0 */
    FIR_GRID_SIDES = 14       /* a side of the grid is 0 or above 16; place 0 */
};

static inline uint32_t fir_refusal(uint64_t answer) { return (uint32_t)(answer >> 32); }
static inline uint32_t fir_place(uint64_t answer) { return (uint32_t)(answer & 0xffffffffu); }

/* Bounds, and the lengths of tables. */
enum {
    FIR_MOST_TAPS = 256,
    FIR_MOST_FRACTION_BITS = 31,
    FIR_MOST_ROWS = 4096,
    FIR_FORMS_LENGTH = 1597, /* each table of masks, the most forms of one coefficient */
    FIR_MOST_SIDE = 16,
    FIR_MOST_CELLS = FIR_MOST_SIDE * FIR_MOST_SIDE, /* 256 */
    FIR_PLANES = 32,
    FIR_PLANE_WORDS = 4,
    FIR_PLANES_LENGTH = FIR_PLANES * FIR_PLANE_WORDS, /* 128 words, each mask table of planes */
    FIR_ROW_WORDS = 5,
    FIR_ROWS_LENGTH = FIR_MOST_ROWS * FIR_ROW_WORDS, /* 20480 words */
    FIR_TAP_ROW_WORDS = 3,
    FIR_TAP_ROWS_LENGTH = FIR_MOST_TAPS * FIR_TAP_ROW_WORDS, /* 768 words */
    FIR_REGISTERS_LENGTH = 256
};

/* The most bytes of a network's Verilog text. */
#define FIR_VERILOG_BYTES 276457

/* One tap, given as the 64 bits of a binary64 number: the whole number N nearest to
 * tap * 2^fraction_bits, and of two that are as near the even one. The lower half of the answer is
 * N's 32-bit pattern, and 0 when turned down: the place, always 0, is not sent. Turned down with 4, 5
 * or 6. */
uint64_t fir_round_tap(uint64_t bits, uint32_t fraction_bits);

/* A set of taps, each rounded as fir_round_tap does. Where normalised is not 0, the taps are added in
 * order and each is divided by the sum, and the quotient stands for the tap.
 *   taps[tap_count]                  the taps
 *   coefficients[coefficient_count]  tap_count coefficients are written, from the start; the table
 *                                    may be longer, and is then untouched past them
 *   divisor                          the sum, or 1 where nothing was normalised
 *   leftover                         the largest tap * 2^fraction_bits - N by magnitude, with its
 *                                    sign; the earliest of equals, and +0 where all are exact
 * Turned down with 1, 2, 3 (coefficient_count is under tap_count), 4, 5, 7 or 6; each of 5, 7 and 6 is
 * tried over all taps before the next. 7 only where normalised is not 0: of the sum, then of each
 * quotient; 6 is then of the quotients. */
uint64_t fir_round_taps(const double *taps, size_t tap_count, uint32_t fraction_bits,
                        uint32_t normalised, int32_t *coefficients, size_t coefficient_count,
                        double *divisor, double *leftover);

/* A coefficient n that is not 0 is sign * odd_part * 2^shift with odd_part odd: negative is 1 for a
 * sign of -1, else 0. For n = 0 all three are 0: zero has no odd part. Nothing is turned down. */
uint64_t fir_reduce(int32_t n, uint32_t *negative, uint32_t *odd_part, uint32_t *shift);

/* The stretch of coefficients[coefficient_count] from the first that is not 0 to the last: it starts
 * at *start and ends before *end; 0 and 0 where there is none. Nothing is turned down. */
uint64_t fir_trimmed(const int32_t *coefficients, size_t coefficient_count, size_t *start,
                     size_t *end);

/* A form is a string of 32 digits 1, 0 and -1, given by two masks: the places that hold 1 and those
 * that hold -1, place 0 in the lowest bit. Its value is plus - minus, its weight the number of
 * digits that are not 0. Turned down with 8. */
uint64_t fir_form_value(uint32_t plus, uint32_t minus, int64_t *value);
uint64_t fir_form_weight(uint32_t plus, uint32_t minus, uint32_t *weight);

/* The canonical form of n: no two neighbouring digits are both not 0. Nothing is turned down. */
uint64_t fir_canonical(int32_t n, uint32_t *plus, uint32_t *minus);

/* Every minimal form of n, of which no string of digits with the value n has fewer that are not 0:
 * the masks of form i at plus[i] and minus[i]. Of two forms the earlier is the one that is not 0 at
 * the highest place where they differ, so the canonical form is first. *count is how many there are,
 * at most 1597; both tables have at least FIR_FORMS_LENGTH elements and are untouched past the count.
 * Turned down with 3 (a table of masks is shorter). */
uint64_t fir_minimal_forms(int32_t n, uint32_t *plus, size_t plus_count, uint32_t *minus,
                           size_t minus_count, uint32_t *count);

/* How many minimal forms n has, without listing them. Nothing is turned down. */
uint64_t fir_form_count(int32_t n, uint32_t *count);

/* A grid has height rows of width cells, both from 1 to FIR_MOST_SIDE. Cells are counted row by row:
 * cell c is column c % width of row c / width. Plane p, from 0 to 31, has for every cell the digit 1, 0
 * or -1 at place p of the cell's form. All planes are two tables of masks, one of the cells that hold 1
 * and one of those that hold -1: cell c of plane p is bit c % 64, from the lowest, of word
 * 4 * p + c / 64.
 *   plus[plus_count], minus[minus_count]  at least FIR_PLANES_LENGTH words, of which 128 are the planes'
 * Every table may be longer than that, or than one element a cell; what lies past is neither looked at
 * nor touched. */

/* Writes the planes of a grid. coefficients[coefficient_count] has one coefficient for each cell, and
 * choices[choice_count] the number of a minimal form of it, its sign and shift included, counted from 0
 * in the order of fir_minimal_forms. Zero has one form, so its choice is 0. All 128 words of both tables
 * are written, with 0 in the bits past the last cell. Turned down with 14, 3 (plus or minus is short, or
 * coefficient_count or choice_count is under height * width) or 9, and nothing is written then. */
uint64_t fir_write_planes(size_t height, size_t width, const int32_t *coefficients,
                          size_t coefficient_count, const uint32_t *choices, size_t choice_count,
                          uint64_t *plus, size_t plus_count, uint64_t *minus, size_t minus_count);

/* Turns planes back into the form of each cell: its masks, place p from plane p, at cell_plus[c] and
 * cell_minus[c], one element of both for each cell. Forms need not be minimal, and bits past the last
 * cell do not matter. Turned down with 14, 3 (plus or minus is short, or cell_plus_count or
 * cell_minus_count is under height * width) or 8, and nothing is written then. */
uint64_t fir_read_planes(size_t height, size_t width, const uint64_t *plus, size_t plus_count,
                         const uint64_t *minus, size_t minus_count, uint32_t *cell_plus,
                         size_t cell_plus_count, uint32_t *cell_minus, size_t cell_minus_count);

/* A network, in two tables. A row is five words: left, right, shift, sign and value; row i starts at
 * rows[5 * i]. Row 0 is 0, 0, 0, '+', 1. A later row names two earlier rows, a shift s from 1 to 31
 * and a sign; with the values of those two rows, '+' is 2^s * left + right, '-' is
 * 2^s * left - right, 'r' is right - 2^s * left. That is its value, which is odd and from 1 to
 * 2^31 - 1, and 2^s * left is at most 2^32. A tap row is three words: sign, row and shift; tap row j
 * starts at taps[3 * j]. It is 0, 0, 0 for a coefficient of 0, or '+' or '-', a row of the network
 * and a shift from 0 to 31, and its coefficient is sign * value * 2^shift, from -2^31 to 2^31 - 1.
 *   rows[rows_length]  at least FIR_ROWS_LENGTH words, of which row_count rows are the network's
 *   taps[taps_length]  at least FIR_TAP_ROWS_LENGTH words, of which tap_count tap rows are the network's
 * What lies past them in the tables does not matter. */

/* Builds the network of coefficients[coefficient_count], one tap row for each. choices[choice_count]
 * has for each coefficient the number of a minimal form of its odd part, counted from 0 in the order of
 * fir_minimal_forms, and 0 for a coefficient of 0; of equal odd parts the earliest choice is used. The
 * rows and tap rows are written from the start of the tables, which are untouched past them, and
 * *row_count is the number of rows, at most 3841; one less is the number of adders in the rows; a filter
 * needs one more for each further nonzero tap. Turned down with 1, 2 (by coefficient_count), 3
 * (choice_count is under coefficient_count, or rows or taps are short) or 9. */
uint64_t fir_build(const int32_t *coefficients, size_t coefficient_count, const uint32_t *choices,
                   size_t choice_count, uint32_t *rows, size_t rows_length, uint32_t *taps,
                   size_t taps_length, size_t *row_count);

/* Whether the tables hold a network that keeps the rules. Turned down with 1, 2 (by tap_count), 3 (rows
 * or taps are short), 10 or 11. */
uint64_t fir_check(const uint32_t *rows, size_t rows_length, size_t row_count,
                   const uint32_t *taps, size_t taps_length, size_t tap_count);

/* The coefficients of such a network: tap_count of them are written, from the start of
 * coefficients[coefficient_count], which is untouched past them. Turned down with 1, 2, 3 (rows or taps
 * are short, or coefficient_count is under tap_count), 10 or 11. */
uint64_t fir_coefficients(const uint32_t *rows, size_t rows_length, size_t row_count,
                          const uint32_t *taps, size_t taps_length, size_t tap_count,
                          int32_t *coefficients, size_t coefficient_count);

/* Samples run through such a network, one after the other. With h(k) the coefficient of tap k, 0 past
 * the last, the output for a sample x is r(0) + h(0) * x; then each r(k) becomes
 * r(k + 1) + h(k + 1) * x, and r(255) becomes 0. Sums wrap modulo 2^64 and are read as signed. From
 * 256 registers of 0, over any number of calls, the outputs are the exact sums over all samples
 * accepted so far, where each accepted call has the same network; calls that are turned down in
 * between change nothing.
 *   samples[sample_count]      the samples; none are accepted too
 *   registers[register_count]  at least FIR_REGISTERS_LENGTH, of which the first 256 move on
 *   outputs[output_count]      sample_count outputs are written, from the start; untouched past them
 * Turned down with 1, 2, 3 (rows or taps are short, register_count is under 256, or output_count under
 * sample_count), 10 or 11. */
uint64_t fir_run(const uint32_t *rows, size_t rows_length, size_t row_count, const uint32_t *taps,
                 size_t taps_length, size_t tap_count, const int16_t *samples, size_t sample_count,
                 uint64_t *registers, size_t register_count, int64_t *outputs, size_t output_count);

/* Such a network as text of IEEE 1364-2005: one module, smoother, each line closed by LF. Its input x
 * is the sample, signed and of 16 bits; its outputs t0, t1 and so on, one for each tap, are signed and
 * of 64 bits, and each is the sample times the tap's coefficient. The text depends on the network alone,
 * and no byte of 0 closes it. It is written from the start of text[text_length], which is untouched past
 * it, and *length is how many bytes it has, at most FIR_VERILOG_BYTES. Turned down with 1, 2, 3 (rows or
 * taps are short), 10, 11 or 13 (the text has more than text_length bytes). */
uint64_t fir_verilog(const uint32_t *rows, size_t rows_length, size_t row_count,
                     const uint32_t *taps, size_t taps_length, size_t tap_count, uint8_t *text,
                     size_t text_length, size_t *length);

#ifdef __cplusplus
}
#endif

#endif
