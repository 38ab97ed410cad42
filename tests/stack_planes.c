/* Planes: grids of every kind of coefficient, from one cell to 256, and each refusal. */
#include "stack.h"

/* Grids of a kind, written, and what is written read. */
static void written(const struct kind *kind, int last_forms)
{
    static const size_t sides[][2] = {{1, 1}, {1, SIDE}, {SIDE, 1}, {3, 5}, {SIDE, SIDE}};
    const char *what = last_forms ? kind->last_forms : kind->first_forms;
    for (size_t i = 0; i < sizeof sides / sizeof sides[0]; i++) {
        lend_kind(kind, CELLS, last_forms);
        lent.height = sides[i][0];
        lent.width = sides[i][1];
        try_call(WRITE_PLANES, 0, what);
        entries[WRITE_PLANES].call();
        try_call(READ_PLANES, 0, what);
    }
}

static void both(uint32_t refusal, const char *what)
{
    try_call(WRITE_PLANES, refusal, what);
    try_call(READ_PLANES, refusal, what);
}

static void refused_sides(void)
{
    static const size_t sides[] = {0, SIDE + 1, (size_t)-1};
    for (size_t i = 0; i < sizeof sides / sizeof sides[0]; i++) {
        lend();
        lent.height = sides[i];
        both(14, "a height of 0, of 17, of all bits");
        lend();
        lent.width = sides[i];
        both(14, "a width of 0, of 17, of all bits");
    }
}

static void refused_lengths(void)
{
    lend();
    lent.planes_plus_length--;
    both(3, "a short table for plus");
    lend();
    lent.planes_minus_length--;
    both(3, "a short table for minus");
    lend();
    lent.coefficient_count--;
    try_call(WRITE_PLANES, 3, "a short table of coefficients");
    lent.cell_plus_count--;
    try_call(READ_PLANES, 3, "a short table for the cells' plus");
    lend();
    lent.choice_count--;
    try_call(WRITE_PLANES, 3, "a choice is missing");
    lent.cell_minus_count--;
    try_call(READ_PLANES, 3, "a short table for the cells' minus");
}

static void refused_cells(void)
{
    lend_kind(&kinds[0], CELLS, 1);
    lent.choices[CELLS - 1]++;
    try_call(WRITE_PLANES, 9, "the last choice is past the forms");
    lent.planes_plus[PLANES_TABLE - 1] = lent.planes_minus[PLANES_TABLE - 1] = (uint64_t)1 << 63;
    try_call(READ_PLANES, 8, "the last cell overlaps in the last plane");
}

void try_planes(void)
{
    lend();
    try_call(READ_PLANES, 0, "256 cells of 32 digits");
    for (int i = 0; i < KINDS; i++) {
        written(&kinds[i], 0);
        written(&kinds[i], 1);
    }
    refused_sides();
    refused_lengths();
    refused_cells();
}
