/* Figures for digit planes: grids written, read back, and turned down. */
#include "figures.h"

enum { WORDS = 128, TABLE = WORDS + 2, CELLS = 256, ELEMENTS = CELLS + 2, BEFORE = 1000 };

/* The tables of a call. Before it each holds 1000, 1001, and so on. */
static uint64_t plus[TABLE], minus[TABLE];
static uint32_t cell_plus[ELEMENTS], cell_minus[ELEMENTS];

static void fill(void)
{
    for (uint32_t i = 0; i < TABLE; i++)
        plus[i] = minus[i] = BEFORE + i;
    for (uint32_t i = 0; i < ELEMENTS; i++)
        cell_plus[i] = cell_minus[i] = BEFORE + i;
}

/* How many words of the planes, from this one on, are no longer as before. */
static int words_changed(uint32_t from)
{
    int count = 0;
    for (uint32_t i = from; i < TABLE; i++)
        count += (plus[i] != BEFORE + i) + (minus[i] != BEFORE + i);
    return count;
}

/* The same of the cells' masks. */
static int cells_changed(size_t from)
{
    int count = 0;
    for (size_t i = from; i < ELEMENTS; i++)
        count += (cell_plus[i] != BEFORE + i) + (cell_minus[i] != BEFORE + i);
    return count;
}

static int words_in_use(void)
{
    int count = 0;
    for (int i = 0; i < WORDS; i++)
        count += (plus[i] != 0) + (minus[i] != 0);
    return count;
}

struct grid {
    size_t height, width;
    int32_t coefficients[CELLS];
    uint32_t choices[CELLS];
};

static uint64_t written(const struct grid *grid)
{
    fill();
    return fir_write_planes(grid->height, grid->width, grid->coefficients, CELLS, grid->choices,
                            CELLS, plus, TABLE, minus, TABLE);
}

static uint64_t read_back(const struct grid *grid)
{
    return fir_read_planes(grid->height, grid->width, plus, TABLE, minus, TABLE, cell_plus,
                           ELEMENTS, cell_minus, ELEMENTS);
}

/* How many cells do not have the form that was chosen. */
static int strays(const struct grid *grid)
{
    static uint32_t form_plus[FIR_FORMS_LENGTH], form_minus[FIR_FORMS_LENGTH];
    int count = 0;
    for (size_t c = 0; c < grid->height * grid->width; c++) {
        const uint32_t choice = grid->choices[c];
        uint32_t forms;
        fir_minimal_forms(grid->coefficients[c], form_plus, FIR_FORMS_LENGTH, form_minus,
                          FIR_FORMS_LENGTH, &forms);
        count += cell_plus[c] != form_plus[choice] || cell_minus[c] != form_minus[choice];
    }
    return count;
}

/* Written, with so many words that are not 0, and read back. */
static void there_and_back(const char *what, const struct grid *grid, int in_use)
{
    puts(what);
    answer("  answer for writing", 0, 0, written(grid));
    number("  words changed past the planes", 0, words_changed(WORDS));
    number("  words that are not 0", in_use, words_in_use());
    answer("  answer for reading", 0, 0, read_back(grid));
    number("  elements changed past the cells", 0, cells_changed(grid->height * grid->width));
    number("  cells of another form", 0, strays(grid));
}

/* 4-1, -8+2, 32+8+4+1 and 0, plane by plane and cell by cell. */
static void small_grid(void)
{
    static const struct grid grid = {2, 2, {3, -6, 45, 0}, {0, 0, 4, 0}};
    const uint64_t planes_wanted[][2] = {{4, 1}, {2, 0}, {4 + 1, 0}, {4, 2}, {0, 0}, {4, 0}};
    const uint32_t cells_wanted[][2] = {{4, 1}, {2, 8}, {32 + 8 + 4 + 1, 0}, {0, 0}};
    there_and_back("3, -6, 45 and 0, with the last form of 45", &grid, 7);
    for (int p = 0; p < 6; p++) {
        number("  cells with 1", (int64_t)planes_wanted[p][0], (int64_t)plus[4 * p]);
        number("  cells with -1", (int64_t)planes_wanted[p][1], (int64_t)minus[4 * p]);
    }
    for (int c = 0; c < 4; c++) {
        number("  plus of the cell", cells_wanted[c][0], cell_plus[c]);
        number("  minus of the cell", cells_wanted[c][1], cell_minus[c]);
    }
}

/* The places of cells in the tables, and the longest listing. */
static void large_grids(void)
{
    static const struct grid least = {1, 1, {INT32_MIN}, {0}}, zeros = {16, 16, {0}, {0}};
    static const struct grid ends = {16, 16, {[63] = 1, [64] = 2, [255] = INT32_MIN}, {0}};
    static const struct grid last_forms = {
        3, 5, {[7] = 858993459, [14] = -858993459}, {[7] = 1596, [14] = 1596}};
    there_and_back("-2^31", &least, 1);
    number("  cell 0 of plane 31", 1, minus[4 * 31] == 1);
    there_and_back("1, 2 and -2^31 in cells 63, 64 and 255", &ends, 3);
    number("  cell 63 of plane 0", 1, plus[0] == (uint64_t)1 << 63);
    number("  cell 64 of plane 1", 1, plus[4 + 1] == 1);
    number("  cell 255 of plane 31", 1, minus[4 * 31 + 3] == (uint64_t)1 << 63);
    there_and_back("858993459 and its negative, the last of 1597 forms", &last_forms, 32);
    there_and_back("256 zeros", &zeros, 0);
}

/* Lengths of what is lent: the planes, and what has one element a cell. */
struct lengths {
    size_t plus, minus, first, second;
};

static const struct lengths none = {0, 0, 0, 0}, just_enough = {WORDS, WORDS, 15, 15};

/* All cells are 45, whose forms are 0 to 4, and the first cell asks for one more. */
static uint64_t writes(size_t height, size_t width, struct lengths lengths)
{
    static const uint32_t choices[CELLS] = {5};
    static int32_t coefficients[CELLS];
    for (int i = 0; i < CELLS; i++)
        coefficients[i] = 45;
    fill();
    return fir_write_planes(height, width, coefficients, lengths.first, choices, lengths.second,
                            plus, lengths.plus, minus, lengths.minus);
}

/* Both tables hold 1000, 1001 and so on: cell 3 is the first to overlap in plane 0, and cell 2 in
 * plane 1; no plane has cells 0 and 1. */
static uint64_t reads(size_t height, size_t width, struct lengths lengths)
{
    fill();
    return fir_read_planes(height, width, plus, lengths.plus, minus, lengths.minus, cell_plus,
                           lengths.first, cell_minus, lengths.second);
}

static void refused(const char *what, uint32_t refusal, int32_t place, uint64_t got)
{
    answer(what, refusal, place, got);
    number("  words changed", 0, words_changed(0));
    number("  elements changed", 0, cells_changed(0));
}

static void both_refuse(const char *what, size_t height, size_t width, struct lengths lengths,
                        uint32_t refusal)
{
    puts(what);
    refused("  answer for writing", refusal, 0, writes(height, width, lengths));
    refused("  answer for reading", refusal, 0, reads(height, width, lengths));
}

static void refusals(void)
{
    static const struct grid choices = {2, 3, {45, -45, 0, 180}, {4, 4, 1, 5}};
    const size_t wraps = (size_t)1 << 32;
    both_refuse("no rows, in no tables", 0, 16, none, 14);
    both_refuse("no columns, in no tables", 16, 0, none, 14);
    both_refuse("17 rows", 17, 1, just_enough, 14);
    both_refuse("17 columns", 1, 17, just_enough, 14);
    both_refuse("2^32 by 2^32, whose product wraps to 0", wraps, wraps, none, 14);
    both_refuse("plus a word short", 3, 5, (struct lengths){WORDS - 1, WORDS, 15, 15}, 3);
    both_refuse("minus a word short", 3, 5, (struct lengths){WORDS, WORDS - 1, 15, 15}, 3);
    both_refuse("the first table by cells short", 3, 5, (struct lengths){WORDS, WORDS, 14, 15}, 3);
    both_refuse("the second table by cells short", 3, 5, (struct lengths){WORDS, WORDS, 15, 14}, 3);
    refused("form 5 of 45", 9, 0, writes(3, 5, just_enough));
    refused("form 1 of 0, before form 5 of 180", 9, 2, written(&choices));
    refused("overlaps from cell 3 on in plane 0, from 2 on in plane 1", 8, 2, reads(3, 5, just_enough));
}

static void clear_planes(void)
{
    for (int i = 0; i < WORDS; i++)
        plus[i] = minus[i] = 0;
}

/* Planes that no grid of coefficients has. */
static void other_planes(void)
{
    static const struct grid pair = {1, 2, {0}, {0}}, largest = {16, 16, {0}, {0}};
    answer("overlaps past the last of two cells", 0, 0, reads(1, 2, just_enough));
    number("  elements changed past the cells", 0, cells_changed(2));
    number("  digits of the cells", 0, cell_plus[0] | cell_minus[0] | cell_plus[1] | cell_minus[1]);
    clear_planes();
    for (int p = 0; p < 32; p++) {
        minus[4 * p] = 1;
        plus[4 * p] = 2;
    }
    answer("32 digits -1 and 32 digits 1, which are no minimal forms", 0, 0, read_back(&pair));
    number("  minus of cell 0", UINT32_MAX, cell_minus[0]);
    number("  plus of cell 1", UINT32_MAX, cell_plus[1]);
    number("  the other masks", 0, cell_plus[0] | cell_minus[1]);
    clear_planes();
    plus[WORDS - 1] = minus[WORDS - 1] = (uint64_t)1 << 63;
    answer("an overlap in cell 255 of plane 31", 8, 255, read_back(&largest));
    number("  elements changed past the two cells", 0, cells_changed(2));
}

void planes(void)
{
    small_grid();
    large_grids();
    refusals();
    other_planes();
}
