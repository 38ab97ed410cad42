/* The paper's bench figures and edges, through fir.h as C sees it. */
#include "figures.h"

#include <string.h>

static int figures, wrong;

static void judge(int right)
{
    figures++;
    wrong += !right;
    puts(right ? "" : "  WRONG");
}

uint64_t bits_of(double number)
{
    uint64_t bits;
    memcpy(&bits, &number, sizeof bits);
    return bits;
}

void number(const char *what, int64_t wanted, int64_t got)
{
    printf("%s: wanted %" PRId64 ", got %" PRId64, what, wanted, got);
    judge(wanted == got);
}

void real(const char *what, double wanted, double got)
{
    printf("%s: wanted %+.17g, got %+.17g", what, wanted, got);
    judge(bits_of(wanted) == bits_of(got));
}

void answer(const char *what, uint32_t refusal, int32_t lower, uint64_t got)
{
    printf("%s: wanted refusal %" PRIu32 ", %" PRId32 ", got refusal %" PRIu32 ", %" PRId32, what,
           refusal, lower, (uint32_t)(got >> 32), (int32_t)(uint32_t)got);
    judge(got == ((uint64_t)refusal << 32 | (uint32_t)lower));
}

int main(void)
{
    names();
    taps();
    coefficients();
    forms();
    planes();
    networks();
    printf("figures.c: %d figures, %d wrong\n", figures, wrong);
    return wrong != 0;
}
