/* What the figures are compared with: each comparison prints one line and is counted. */
#ifndef FIGURES_H
#define FIGURES_H

#include "fir.h"

#include <inttypes.h>
#include <stdio.h>

uint64_t bits_of(double number);

void number(const char *what, int64_t wanted, int64_t got);

/* By its bits, so that +0 is not -0. */
void real(const char *what, double wanted, double got);

/* An answer's halves; the lower one as a signed number. */
void answer(const char *what, uint32_t refusal, int32_t lower, uint64_t got);

/* The figures. */
void names(void);
void taps(void);
void coefficients(void);
void forms(void);
void planes(void);
void networks(void);

#endif
