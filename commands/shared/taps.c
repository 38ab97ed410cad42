/* Taps as text, or as 8 bytes each. */
#include <ctype.h>
#include <errno.h>
#include <math.h>
#include <stdio.h>
#include <stdlib.h>
#include <string.h>

#include "command.h"

enum { LONGEST = 2000, SHOWN = 40 };

/* The next character; CR LF and CR are line ends as LF is. */
static int next_character(struct reader *reader) {
    int c = reader->held != 0 ? reader->held : getchar();
    reader->held = 0;
    if (c != '\r') return c;
    c = getchar();
    if (c != '\n' && c != EOF) ungetc(c, stdin);
    return '\n';
}

/* The first character of the next word, behind blanks, line ends and comments. */
static int first_character(struct reader *reader) {
    int c = next_character(reader), comment = c == '#';
    while (c != EOF && (comment || isspace(c))) {
        reader->line += c == '\n';
        c = next_character(reader);
        comment = c == '#' || (comment && c != '\n');
    }
    return c;
}

/* The length of the next word, 0 at the end. */
static size_t next_word(struct reader *reader, char word[LONGEST + 1]) {
    size_t length = 0;
    int c = first_character(reader);
    while (c != EOF && c != '#' && !isspace(c) && length < LONGEST) {
        word[length++] = (char)c;
        c = next_character(reader);
    }
    if (c != EOF) reader->held = c;
    word[length] = '\0';
    return length;
}

/* Says a word, without control characters. */
static int unfit(unsigned long line, const char *what, const char *word, size_t length) {
    char shown[SHOWN + 4];
    int plain = 1;
    size_t i;
    for (i = 0; i < length && i < SHOWN; i++) {
        unsigned char c = (unsigned char)word[i];
        plain = plain && c >= ' ' && c < 127;
        shown[i] = c >= ' ' && c != 127 ? (char)c : '?';
    }
    strcpy(shown + i, length > SHOWN ? ".." : "");
    if (plain) return failed("line %lu: %s: %s", line, what, shown);
    return failed("line %lu: %s: %s; taps of 8 bytes are read with -b", line, what, shown);
}

/* A mark at the start says that the text is UTF-8; it is no part of the first word. */
static size_t drop_mark(char *word, size_t length) {
    if (strncmp(word, "\xef\xbb\xbf", 3) != 0) return length;
    memmove(word, word + 3, length - 2);
    return length - 3;
}

static int text_tap(struct reader *reader, double *tap) {
    static char word[LONGEST + 1];
    char *end;
    int first = reader->line == 0;
    if (first) reader->line = 1;
    size_t length = next_word(reader, word);
    if (first) length = drop_mark(word, length);
    if (first && length == 0) length = next_word(reader, word);
    if (length == 0) return 0;
    errno = 0;
    *tap = strtod(word, &end);
    if (length == LONGEST) return unfit(reader->line, "too long for a number", word, length);
    if (end != word + length) return unfit(reader->line, "not a number", word, length);
    if (errno == ERANGE && isinf(*tap)) {
        return unfit(reader->line, "past the range of binary64", word, length);
    }
    return 1;
}

static int byte_tap(double *tap) {
    unsigned char bytes[8];
    uint64_t bits = 0;
    size_t length = fread(bytes, 1, 8, stdin);
    if (length < 8) return length == 0 ? 0 : PIECE;
    for (int i = 7; i >= 0; i--) bits = bits << 8 | bytes[i];
    memcpy(tap, &bits, sizeof bits);
    return 1;
}

void tap_bytes(double tap, unsigned char bytes[8]) {
    uint64_t bits;
    memcpy(&bits, &tap, sizeof bits);
    for (int i = 0; i < 8; i++) bytes[i] = (unsigned char)(bits >> (8 * i) & 255);
}

int next_tap(struct reader *reader, double *tap) {
    int found = reader->bytes ? byte_tap(tap) : text_tap(reader, tap);
    if (ferror(stdin)) return failed("cannot read the taps: %s", strerror(errno));
    return found;
}

int read_taps(const struct arguments *arguments, struct tap_set *set) {
    struct reader reader = {has_option(arguments, "-b"), 0, 0};
    int found = 1;
    set->count = 0;
    while (set->count <= FIR_MOST_TAPS && (found = next_tap(&reader, &set->taps[set->count])) == 1) set->count++;
    set->piece = found == PIECE;
    return found == FAILED ? FAILED : DONE;
}
