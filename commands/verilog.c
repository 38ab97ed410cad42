/* verilog F [-b] [FILE]
 * the network of a set of taps as a Verilog module
 *
 * One module, smoother, as text of IEEE 1364-2005, of the network that ./fir sheet prints for the same F
 * and taps. Its input x is the sample, signed and of 16 bits; n0, n1 and so on are the rows; its outputs
 * t0, t1 and so on, one for each tap, are signed and of 64 bits, and each is the sample times the tap's
 * coefficient. F is the number of fraction bits, 0 to 31. Taps are numbers in text, decimal or
 * hexadecimal, with blanks or line ends between, and # starts a comment.
 *   -b  the taps are binary64 numbers of 8 bytes each, low byte first, instead of text */
#include <stdio.h>

#include "shared/command.h"

/* A network, and its text. */
struct module {
    uint32_t rows[FIR_ROWS_LENGTH], taps[FIR_TAP_ROWS_LENGTH];
    size_t row_count, length;
    uint8_t text[FIR_VERILOG_BYTES];
};

static uint64_t write_module(const struct rounded_set *set, struct module *module) {
    size_t count = set->given.count;
    uint64_t answer = fir_build(set->coefficients, count, first_forms, count, module->rows, FIR_ROWS_LENGTH,
                                module->taps, FIR_TAP_ROWS_LENGTH, &module->row_count);
    if (answer != 0) return answer;
    return fir_verilog(module->rows, FIR_ROWS_LENGTH, module->row_count, module->taps, FIR_TAP_ROWS_LENGTH, count,
                       module->text, FIR_VERILOG_BYTES, &module->length);
}

int run_verilog(const struct arguments *arguments) {
    static struct rounded_set set;
    static struct module module;
    int status = read_rounded(arguments, 0, &set);
    if (status != DONE) return status;
    uint64_t answer = write_module(&set, &module);
    if (answer != 0) return turned_down(answer);
    fwrite(module.text, 1, module.length, stdout);
    say_if_all_zero(arguments, &set);
    return DONE;
}
