/* What the commands of ./fir share. The script ./fir has taken the arguments apart by the usage that
 * stands on top of a command's file, and standard input is the file that was named. */
#ifndef COMMAND_H
#define COMMAND_H

#include <stddef.h>
#include <stdint.h>

#include "fir.h"

/* Exit statuses. */
enum { DONE = 0, TURNED_DOWN = 1, FAILED = 2 };

struct arguments {
    int option_count, count;
    char **options, **words;
};

int has_option(const struct arguments *arguments, const char *option);

/* The commands, each in a file of its own name. */
int run_draw(const struct arguments *arguments);
int run_forms(const struct arguments *arguments);
int run_planes(const struct arguments *arguments);
int run_round(const struct arguments *arguments);
int run_sheet(const struct arguments *arguments);
int run_taps(const struct arguments *arguments);
int run_verilog(const struct arguments *arguments);

/* Words on standard error, behind the command's name. */
void say(const char *format, ...) __attribute__((format(printf, 1, 2)));

/* The same, and the status of what is neither done nor turned down. */
int failed(const char *format, ...) __attribute__((format(printf, 1, 2)));

/* The refusal of an answer in words, and its status. */
int turned_down(uint64_t answer);

uint64_t refused(unsigned number, unsigned place);

/* Says that every coefficient is 0, and what may be the reason. */
void say_all_zero(const struct arguments *arguments);

/* A tap from standard input: 1, or 0 at the end. FAILED where the input cannot be read, which is then
 * said; PIECE where 8-byte taps end inside one. */
enum { PIECE = 3 };
struct reader {
    int bytes;
    unsigned long line; /* from 1 on; 0 before the first word */
    int held;           /* the character behind the last word, where there is one */
};
int next_tap(struct reader *reader, double *tap);

/* A tap as 8 bytes, low byte first. */
void tap_bytes(double tap, unsigned char bytes[8]);

/* All taps, but at most one more than are accepted, and whether there is a piece of one after them. */
struct tap_set {
    size_t count;
    int piece;
    double taps[FIR_MOST_TAPS + 1];
};
int read_taps(const struct arguments *arguments, struct tap_set *set);

/* F by document 01, and a side of a grid: the digits of a decimal number up to the most, leading zeros
 * allowed. Anything else is one more, which every function turns down in its turn. */
uint32_t decimal(const char *text, uint32_t most);

/* Taps from standard input, rounded at the F that is the first word. */
struct rounded_set {
    struct tap_set given;
    uint32_t fraction_bits;
    int32_t coefficients[FIR_MOST_TAPS];
    double divisor, leftover;
};
int read_rounded(const struct arguments *arguments, int normalised, struct rounded_set *set);

/* The choice of its first form for every coefficient, as in the sheet. */
extern const uint32_t first_forms[FIR_MOST_TAPS];

/* Says so where every coefficient of the set is 0. */
void say_if_all_zero(const struct arguments *arguments, const struct rounded_set *set);

/* The digit that two masks have at a place: 1, 0, or n for -1. */
char digit_at(uint64_t plus, uint64_t minus, int place);

/* The width of a column that also holds this text. */
int wider(int width, const char *text);

/* The fewest decimal digits that are read as the same number. */
enum { NUMBER_TEXT = 32 };
const char *number_text(double number, char text[NUMBER_TEXT]);

/* Runs a program on these bytes. It has to write something and to end well; what it writes is to be
 * freed. */
int run_program(char *const words[], const void *input, size_t length, char **output);

#endif
