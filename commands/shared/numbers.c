/* Numbers in text: F and sides, digits, binary64 numbers as people read them, and columns of them. */
#include <stdio.h>
#include <stdlib.h>
#include <string.h>

#include "command.h"

uint32_t decimal(const char *text, uint32_t most) {
    const uint32_t none = most + 1;
    uint32_t value = *text == '\0' ? none : 0;
    for (; *text != '\0'; text++) {
        if (*text < '0' || *text > '9') return none;
        value = 10 * value + (uint32_t)(*text - '0');
        if (value > none) value = none;
    }
    return value;
}

char digit_at(uint64_t plus, uint64_t minus, int place) {
    return plus >> place & 1 ? '1' : minus >> place & 1 ? 'n' : '0';
}

int wider(int width, const char *text) {
    int length = (int)strlen(text);
    return length > width ? length : width;
}

const char *number_text(double number, char text[NUMBER_TEXT]) {
    if (number != number) return strcpy(text, "nan");
    for (int digits = 1; digits <= 17; digits++) {
        snprintf(text, NUMBER_TEXT, "%.*g", digits, number);
        if (strtod(text, NULL) == number) break;
    }
    return text;
}
