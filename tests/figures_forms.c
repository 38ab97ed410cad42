/* The paper's bench figures for reduction, trimming and minimal forms. */
#include "figures.h"

enum { MOST = 1597, TABLE = MOST + 3, BEFORE = 1000 };

static void reduced(const char *what, int32_t n, uint32_t negative, uint32_t odd_part,
                    uint32_t shift)
{
    uint32_t got[3] = {BEFORE, BEFORE, BEFORE};
    puts(what);
    answer("  answer", 0, 0, fir_reduce(n, &got[0], &got[1], &got[2]));
    number("  negative", negative, got[0]);
    number("  odd part", odd_part, got[1]);
    number("  shift", shift, got[2]);
}

static void trimmed(const char *what, const int32_t *filter, size_t count, size_t start,
                    size_t end)
{
    size_t got[2] = {BEFORE, BEFORE};
    puts(what);
    answer("  answer", 0, 0, fir_trimmed(filter, count, &got[0], &got[1]));
    number("  start", (int64_t)start, (int64_t)got[0]);
    number("  end", (int64_t)end, (int64_t)got[1]);
}

void coefficients(void)
{
    const int32_t filter[] = {0, 5, 0, 7, 0, 0};
    reduced("-2^31 reduced", INT32_MIN, 1, 1, 31);
    reduced("2^31 - 1 reduced", INT32_MAX, 0, INT32_MAX, 0);
    reduced("180 reduced", 180, 0, 45, 2);
    reduced("-45 reduced", -45, 1, 45, 0);
    reduced("0 reduced", 0, 0, 0, 0);
    trimmed("0, 5, 0, 7, 0, 0 trimmed", filter, 6, 1, 4);
    trimmed("0 trimmed", filter, 1, 0, 0);
    trimmed("zero length trimmed", filter, 0, 0, 0);
}

/* The masks of one form. */
struct form {
    uint32_t plus, minus;
};

static void measured(struct form form, int64_t value, uint32_t weight)
{
    int64_t got_value = BEFORE;
    uint32_t got_weight = BEFORE;
    answer("  answer for the value", 0, 0, fir_form_value(form.plus, form.minus, &got_value));
    number("  value", value, got_value);
    answer("  answer for the weight", 0, 0, fir_form_weight(form.plus, form.minus, &got_weight));
    number("  weight", weight, got_weight);
}

static void overlapping(const char *what, struct form form, int32_t place)
{
    int64_t value = BEFORE;
    uint32_t weight = BEFORE;
    puts(what);
    answer("  answer for the value", 8, place, fir_form_value(form.plus, form.minus, &value));
    number("  value as before", BEFORE, value);
    answer("  answer for the weight", 8, place, fir_form_weight(form.plus, form.minus, &weight));
    number("  weight as before", BEFORE, weight);
}

static void canonical(int32_t n, struct form form)
{
    struct form got = {BEFORE, BEFORE};
    answer("  answer for the canonical form", 0, 0, fir_canonical(n, &got.plus, &got.minus));
    number("  its plus", form.plus, got.plus);
    number("  its minus", form.minus, got.minus);
}

/* One call of the lister. Before it each table holds 1000, 1001, and so on. */
struct call {
    uint32_t plus[TABLE], minus[TABLE], count;
    uint64_t answer;
};

static struct call call(int32_t n, size_t plus_given, size_t minus_given)
{
    struct call c = {{0}, {0}, BEFORE, 0};
    for (uint32_t i = 0; i < TABLE; i++)
        c.plus[i] = c.minus[i] = BEFORE + i;
    c.answer = fir_minimal_forms(n, c.plus, plus_given, c.minus, minus_given, &c.count);
    return c;
}

/* How many elements of the tables from this one on are no longer as before. */
static int changed(const struct call *c, uint32_t from)
{
    int count = 0;
    for (uint32_t i = from; i < TABLE; i++)
        count += (c->plus[i] != BEFORE + i) + (c->minus[i] != BEFORE + i);
    return count;
}

/* How many of the forms have another value or weight, or are turned down. */
static int strays(const struct call *c, int32_t n, uint32_t forms, uint32_t weight)
{
    int count = 0;
    for (uint32_t i = 0; i < forms; i++) {
        int64_t value = BEFORE;
        uint32_t digits = BEFORE;
        const uint64_t a = fir_form_value(c->plus[i], c->minus[i], &value);
        const uint64_t b = fir_form_weight(c->plus[i], c->minus[i], &digits);
        count += a != 0 || b != 0 || value != n || digits != weight;
    }
    return count;
}

/* So many forms of n, all of this weight. */
static struct call counted(const char *what, int32_t n, uint32_t forms, uint32_t weight)
{
    const struct call c = call(n, TABLE, TABLE);
    uint32_t count = BEFORE;
    puts(what);
    answer("  answer", 0, 0, c.answer);
    number("  forms", forms, c.count);
    number("  elements changed past the forms", 0, changed(&c, forms));
    number("  forms of another value or weight", 0, strays(&c, n, forms, weight));
    answer("  answer for the count", 0, 0, fir_form_count(n, &count));
    number("  count", forms, count);
    canonical(n, (struct form){c.plus[0], c.minus[0]});
    return c;
}

/* These forms, in this order. */
static void listed(const char *what, int32_t n, const struct form *forms, uint32_t count,
                   uint32_t weight)
{
    const struct call c = counted(what, n, count, weight);
    for (uint32_t i = 0; i < count; i++) {
        number("  plus", forms[i].plus, c.plus[i]);
        number("  minus", forms[i].minus, c.minus[i]);
    }
}

static void refused(const char *what, const struct call c)
{
    puts(what);
    answer("  answer", 3, 0, c.answer);
    number("  elements changed", 0, changed(&c, 0));
    number("  count as before", BEFORE, c.count);
}

/* 64-16-4+1, 64-16-2-1, 32+16-4+1, 32+16-2-1, 32+8+4+1; the same times 4; the same times -1. */
static void forms_of_45(void)
{
    const struct form forms[] = {{64 + 1, 16 + 4},
                                 {64, 16 + 2 + 1},
                                 {32 + 16 + 1, 4},
                                 {32 + 16, 2 + 1},
                                 {32 + 8 + 4 + 1, 0}};
    struct form shifted[5], negated[5];
    for (int i = 0; i < 5; i++) {
        shifted[i] = (struct form){4 * forms[i].plus, 4 * forms[i].minus};
        negated[i] = (struct form){forms[i].minus, forms[i].plus};
    }
    listed("45", 45, forms, 5, 4);
    listed("180", 180, shifted, 5, 4);
    listed("-45", -45, negated, 5, 4);
}

static void few_forms(void)
{
    const struct form three[] = {{4, 1}, {2 + 1, 0}};
    const struct form eleven[] = {{16, 4 + 1}, {8 + 4, 1}, {8 + 2 + 1, 0}};
    const struct form thirteen[] = {{16 + 1, 4}, {16, 2 + 1}, {8 + 4 + 1, 0}};
    const struct form zero = {0, 0}, one = {1, 0}, last = {0x80000000, 1}, least = {0, 0x80000000};
    const struct form fives = {0x55555555, 0};
    listed("3", 3, three, 2, 2);
    listed("11", 11, eleven, 3, 3);
    listed("13", 13, thirteen, 3, 3);
    listed("0", 0, &zero, 1, 0);
    listed("1", 1, &one, 1, 1);
    listed("2^31 - 1", INT32_MAX, &last, 1, 2);
    listed("-2^31", INT32_MIN, &least, 1, 1);
    listed("1431655765", 1431655765, &fives, 1, 16);
}

void forms(void)
{
    forms_of_45();
    few_forms();
    counted("858993459", 858993459, MOST, 16);
    number("  answer in tables of 1597", 0, (int64_t)call(858993459, MOST, MOST).answer);
    refused("plus table one short", call(45, MOST - 1, MOST));
    refused("minus table one short", call(45, MOST, MOST - 1));
    refused("tables of zero length", call(858993459, 0, 0));
    overlapping("both masks hold places 3 and 31", (struct form){0x80000018, 0x80000009}, 3);
    overlapping("both masks hold place 31", (struct form){0x80000000, 0x80000001}, 31);
    overlapping("both masks hold all places", (struct form){UINT32_MAX, UINT32_MAX}, 0);
    puts("all places hold 1");
    measured((struct form){UINT32_MAX, 0}, UINT32_MAX, 32);
    puts("all places hold -1");
    measured((struct form){0, UINT32_MAX}, -(int64_t)UINT32_MAX, 32);
}
