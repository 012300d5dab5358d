/* The library beside (a) same.c, (b) direct.c and (c) usual.c; compiled with BEFORE also beside another build of it.

     bench check             library, (a) and (b) give the same bytes; the cells that (c) gets wrong
     bench times P N [R..]   N rounds of every row, or of the rows R..: a line with P, the row's number and the
                             nanoseconds a unit of library, (a), (b), (c) and the other build
     bench table             the table made of such lines from standard input; P tells apart where code was placed
     bench strip P N [R..]   N rounds of every row of a drawing on the strip: a line with P, the row's number and the
                             nanoseconds a call of the strip, the strip once more, the main path and the main path once
                             more
     bench strip_table       the table made of such lines from standard input
     bench rows [R..]        for each row its number, name, unit and functions
     bench strip_rows [R..]  the same of the rows of drawings on the strip
     bench count R K         one run of row R by box K (0 the library, 1 to 4 the others, 5 and 6 library and other build
                             with the main path in the place of the strip), for instructions to be counted from outside;
                             prints its units */
#define _POSIX_C_SOURCE 199309L
#include <math.h>
#include <stdbool.h>
#include <stdio.h>
#include <stdlib.h>
#include <string.h>
#include <time.h>

#include "agree.h"
#include "box.h"
#include "inputs.h"
#include "totals.h"

static const struct box boxes[] = {
    BOX(gidzkhalu),
    BOX(same),
    BOX(direct),
    BOX(usual),
#ifdef BEFORE
    BOX(before),
#endif
};

enum {
    BOXES = sizeof boxes / sizeof *boxes,
    OTHER_BUILD = 4,
    MAIN_PATH = 5,
    STRIP_BOXES = 4,
    PLACES = 4,
    PARTS = 4,
    PART = SHEET_CELLS / PARTS,
    MOST = 1 << 15
};

static uint8_t grid[CELLS], list[3 * (3 * STEPS + 1)], buffer[SHEET_CELLS], text[21 * (PART + 1) + 1];
static uint8_t cubes[2][SHEETS][SHEET_CELLS];
static uint32_t marked[2]; /* cells of all cubes of a set */

/* The library, and the other build if there is one, with the main path in the place of the strip. */
static struct box main_path[2];

/* Three bytes or twelve for each swatch. */
static uint8_t *out;

/* The sum of answers, so that no call is left out. */
static answer total;

/* Processor time, which leaves out what other programs take. */
static double nanoseconds(void)
{
    struct timespec t;
    clock_gettime(CLOCK_PROCESS_CPUTIME_ID, &t);
    return 1e9 * (double)t.tv_sec + (double)t.tv_nsec;
}

/* The time that a run spent on filling the grid, which is not counted. */
static double filling;

static void fill_grid(uint8_t byte)
{
    double begin = nanoseconds();
    memset(grid, byte, CELLS);
    filling += nanoseconds() - begin;
}

/* Each run answers how many units it did: samples, calls or sheets; 0 if the box has no such function. */

/* A choice, and what the grid holds before a drawing. */
enum { OVER_UNMARKED, OVER_MARKED, UNDER_UNMARKED, UNDER_MARKED };

static uint32_t choice_of(int way)
{
    return way == OVER_UNMARKED || way == OVER_MARKED ? OVER : UNDER;
}

/* Before drawing k of a run: marked cells stay marked; unmarked ones are cleared before every so many drawings. */
static void prepare_grid(int way, int k, int together)
{
    if (way == OVER_UNMARKED || way == UNDER_UNMARKED) {
        if (k % together == 0)
            fill_grid(0);
    } else if (k == 0) {
        fill_grid(255);
    }
}

/* Short calls are made over the set so many times, so that a run takes as long as others. */
static int times_over = 32;

static size_t draw_strokes(const struct box *box, int s, int way, int times)
{
    uint32_t n = strokes[s].steps, new_cells;
    for (int k = 0; k < times * CURVES; k++) {
        const uint8_t *points = curves[strokes[s].set][k % CURVES];
        prepare_grid(way, k, 16);
        total += box->draw_curve(SIDE, points, 12, n, 1, choice_of(way), grid, CELLS, &new_cells);
    }
    return (size_t)times * CURVES;
}

static size_t list_strokes(const struct box *box, int s, int times)
{
    for (int k = 0; k < times * CURVES; k++) {
        const uint8_t *points = curves[strokes[s].set][k % CURVES];
        total += box->list_curve(SIDE, points, 12, strokes[s].steps, list, sizeof list);
    }
    return (size_t)times * CURVES;
}

static size_t check_curves(const struct box *box, int s)
{
    for (int k = 0; k < times_over * CURVES; k++) {
        const uint8_t *points = curves[strokes[s].set][k % CURVES];
        total += box->check_curve(SIDE, points, 12, strokes[s].steps);
    }
    return (size_t)times_over * CURVES;
}

static size_t draw_curves(const struct box *box, int way)
{
    return draw_strokes(box, BOXED_512, way, 1) * (STEPS + 1);
}

static size_t draw_over(const struct box *box, int s)
{
    return draw_strokes(box, s, OVER_MARKED, 1) * (strokes[s].steps + 1);
}

static size_t draw_short(const struct box *box, int s)
{
    return draw_strokes(box, s, OVER_MARKED, times_over);
}

static size_t list_curves(const struct box *box, int s)
{
    return list_strokes(box, s, 1) * (strokes[s].steps + 1);
}

static size_t list_short(const struct box *box, int s)
{
    return list_strokes(box, s, times_over);
}

static size_t draw_paths_of(const struct box *box, int s, int way, int times)
{
    uint32_t n = strokes[s].steps, new_cells;
    if (!box->draw_path)
        return 0;
    for (int k = 0; k < times * CURVES; k++) {
        const uint8_t *points = curves[strokes[s].set][k % CURVES];
        prepare_grid(way, k, 16);
        total += box->draw_path(SIDE, points, 12, n, 1, choice_of(way), grid, CELLS, &new_cells);
    }
    return (size_t)times * CURVES;
}

/* less: bytes fewer than the longest path takes. */
static size_t list_paths_of(const struct box *box, int s, size_t less, int times)
{
    uint32_t n = strokes[s].steps;
    if (!box->list_path)
        return 0;
    for (int k = 0; k < times * CURVES; k++)
        total += box->list_path(SIDE, curves[strokes[s].set][k % CURVES], 12, n, list, 3 * (3 * (size_t)n + 1) - less);
    return (size_t)times * CURVES;
}

static size_t draw_paths(const struct box *box, int way)
{
    return draw_paths_of(box, BOXED_512, way, 1) * (STEPS + 1);
}

static size_t draw_path_over(const struct box *box, int s)
{
    return draw_paths_of(box, s, OVER_MARKED, 1) * (strokes[s].steps + 1);
}

static size_t draw_path_under(const struct box *box, int s)
{
    return draw_paths_of(box, s, UNDER_UNMARKED, 1) * (strokes[s].steps + 1);
}

static size_t draw_path_short(const struct box *box, int s)
{
    return draw_paths_of(box, s, OVER_MARKED, times_over);
}

static size_t list_paths(const struct box *box, int s)
{
    return list_paths_of(box, s, 0, 1) * (strokes[s].steps + 1);
}

static size_t list_paths_counted(const struct box *box, int s)
{
    return list_paths_of(box, s, 1, 1) * (strokes[s].steps + 1);
}

static size_t list_path_short(const struct box *box, int s)
{
    return list_paths_of(box, s, 0, times_over);
}

/* A run over a set of polygons makes as many calls for each set. */
static size_t choose_counts(const struct box *box, int set)
{
    const struct polygon_set *of = &polygons_of[set];
    if (!box->choose_steps)
        return 0;
    for (int k = 0; k < POLYGONS; k++)
        total += box->choose_steps(of->side, polygons[set][k % of->count], 12);
    return POLYGONS;
}

static size_t draw_with_chosen(const struct box *box, int set)
{
    const struct polygon_set *of = &polygons_of[set];
    uint32_t new_cells;
    if (!box->draw_chosen)
        return 0;
    for (int k = 0; k < POLYGONS; k++) {
        prepare_grid(OVER_MARKED, k, 1);
        total += box->draw_chosen(of->side, polygons[set][k % of->count], 12, 1, OVER, grid,
                                  (size_t)of->side * of->side * of->side, &new_cells);
    }
    return POLYGONS;
}

static size_t flip_curves(const struct box *box, int set)
{
    uint8_t flipped[12];
    if (!box->flip_curve)
        return 0;
    for (int k = 0; k < times_over * CURVES; k++)
        total += box->flip_curve(curves[set][k % CURVES], 12, flipped, 12);
    return (size_t)times_over * CURVES;
}

/* Set 0 has 64 × 64 steps, set 1 256 × 256, and fewer patches are enough. */
static size_t draw_patches(const struct box *box, int set, int way)
{
    uint32_t n = set == 0 ? 64 : 256, new_cells;
    int count = set == 0 ? PATCHES : PATCHES / 4;
    for (int k = 0; k < count; k++) {
        prepare_grid(way, k, 1);
        total += box->draw_patch(SIDE, patches[set][k], 48, n, n, 1, choice_of(way), grid, CELLS, &new_cells);
    }
    return (size_t)count * (n + 1) * (n + 1);
}

static size_t small_patches(const struct box *box, int way)
{
    return draw_patches(box, 0, way);
}

static size_t large_patches(const struct box *box, int way)
{
    return draw_patches(box, 1, way);
}

static size_t check_patches(const struct box *box, int set)
{
    uint32_t n = set == 0 ? 64 : 256;
    int count = set == 0 ? PATCHES : PATCHES / 4;
    for (int k = 0; k < count; k++)
        total += box->check_patch(SIDE, patches[set][k], 48, n, n);
    return (size_t)count * (n + 1) * (n + 1);
}

static size_t flip_patches(const struct box *box, int set)
{
    uint8_t flipped[48];
    uint32_t n = 64, m = 256;
    if (!box->flip_patch)
        return 0;
    for (int k = 0; k < times_over * CURVES; k++)
        total += box->flip_patch(patches[set][k % PATCHES], 48, &n, &m, flipped, 48);
    return (size_t)times_over * CURVES;
}

static size_t draw_solids(const struct box *box, int way)
{
    uint32_t n = SOLID_STEPS, new_cells;
    if (!box->draw_solid)
        return 0;
    for (int k = 0; k < SOLIDS; k++) {
        prepare_grid(way, k, 1);
        total += box->draw_solid(SIDE, solids[k], 192, n, n, n, 1, choice_of(way), grid, CELLS, &new_cells);
    }
    return (size_t)SOLIDS * (n + 1) * (n + 1) * (n + 1);
}

static size_t check_solids(const struct box *box, int set)
{
    uint32_t n = SOLID_STEPS;
    (void)set;
    if (!box->check_solid)
        return 0;
    for (int k = 0; k < SOLIDS; k++)
        total += box->check_solid(SIDE, solids[k], 192, n, n, n);
    return (size_t)SOLIDS * (n + 1) * (n + 1) * (n + 1);
}

/* The counts along t, u and v are all steps. */
static size_t draw_small_solids(const struct box *box, int steps)
{
    uint32_t n = (uint32_t)steps, new_cells;
    if (!box->draw_solid)
        return 0;
    for (int k = 0; k < times_over * SMALL_SOLIDS; k++) {
        prepare_grid(OVER_MARKED, k, 1);
        total += box->draw_solid(SIDE, close_solids[k % SMALL_SOLIDS], 192, n, n, n, 1, OVER, grid, CELLS, &new_cells);
    }
    return (size_t)times_over * SMALL_SOLIDS;
}

static size_t check_small_solids(const struct box *box, int steps)
{
    uint32_t n = (uint32_t)steps;
    if (!box->check_solid)
        return 0;
    for (int k = 0; k < times_over * SMALL_SOLIDS; k++)
        total += box->check_solid(SIDE, close_solids[k % SMALL_SOLIDS], 192, n, n, n);
    return (size_t)times_over * SMALL_SOLIDS;
}

/* Refused by 15 at the first step. */
static size_t refuse_steep_solids(const struct box *box, int way)
{
    uint32_t n = SOLID_STEPS, new_cells;
    if (!box->draw_solid)
        return 0;
    for (int k = 0; k < times_over * SMALL_SOLIDS; k++)
        total += box->draw_solid(SIDE, steep_solids[k % SMALL_SOLIDS], 192, n, n, n, 1, choice_of(way), grid, CELLS,
                                 &new_cells);
    return (size_t)times_over * SMALL_SOLIDS;
}

/* One step more along v: refused by 13. */
static size_t refuse_solids(const struct box *box, int way)
{
    uint32_t n = SOLID_STEPS, new_cells;
    if (!box->draw_solid)
        return 0;
    for (int k = 0; k < times_over * CURVES; k++)
        total += box->draw_solid(SIDE, close_solids[k % SMALL_SOLIDS], 192, n, n, n + 1, 1, choice_of(way), grid, CELLS,
                                 &new_cells);
    return (size_t)times_over * CURVES;
}

/* The strip has as many grids as the cells of one of side 64 hold, and each is drawn into by so many calls in turn: few
   fillings are enough for grids of unmarked cells. */
static uint8_t *strip_grid(int way, int k, int together)
{
    int grids = CELLS / STRIP_CELLS;
    prepare_grid(way, k, together * grids);
    return grid + k / together % grids * STRIP_CELLS;
}

static size_t draw_strip_curves(const struct box *box, int way)
{
    uint32_t new_cells;
    if (!box->draw_strip_curve)
        return 0;
    for (int k = 0; k < times_over * CURVES; k++)
        total += box->draw_strip_curve(STRIP_SIDE, strip_curves[k % CURVES], 12, STRIP_STEPS, 1, choice_of(way),
                                       strip_grid(way, k, 16), STRIP_CELLS, &new_cells);
    return (size_t)times_over * CURVES;
}

static size_t draw_strip_patches(const struct box *box, int way)
{
    uint32_t new_cells;
    if (!box->draw_strip_patch)
        return 0;
    for (int k = 0; k < PATCHES; k++)
        total += box->draw_strip_patch(STRIP_SIDE, strip_patches[k], 48, STRIP_STEPS, STRIP_STEPS, 1, choice_of(way),
                                       strip_grid(way, k, 1), STRIP_CELLS, &new_cells);
    return PATCHES;
}

/* One cell more along each edge: refused by 23. */
static size_t refuse_strip_curves(const struct box *box, int way)
{
    uint32_t side = STRIP_SIDE + 1, new_cells;
    if (!box->draw_strip_curve)
        return 0;
    for (int k = 0; k < times_over * CURVES; k++)
        total += box->draw_strip_curve(side, strip_curves[k % CURVES], 12, STRIP_STEPS, 1, choice_of(way), grid,
                                       (size_t)side * side * side, &new_cells);
    return (size_t)times_over * CURVES;
}

/* One step more along u: refused by 24. */
static size_t refuse_strip_patches(const struct box *box, int way)
{
    uint32_t new_cells;
    if (!box->draw_strip_patch)
        return 0;
    for (int k = 0; k < times_over * CURVES; k++)
        total += box->draw_strip_patch(STRIP_SIDE, strip_patches[k % PATCHES], 48, STRIP_STEPS, STRIP_STEPS + 1, 1,
                                       choice_of(way), grid, STRIP_CELLS, &new_cells);
    return (size_t)times_over * CURVES;
}

static size_t cells_of(const struct box *box, int set, uint32_t kind)
{
    for (size_t i = 0; i < swatches; i++) {
        const float *v = channels[set][i];
        total += box->to_cell(SIDE, kind, v[0], v[1], v[2], out + 3 * i, 3);
    }
    return swatches;
}

static size_t color_cells(const struct box *box, int set)
{
    return cells_of(box, set, 0);
}

static size_t grey_cells(const struct box *box, int set)
{
    return cells_of(box, set, 1);
}

static size_t hue_cells(const struct box *box, int set)
{
    return cells_of(box, set, 2);
}

static size_t mixes_of(const struct box *box, int set, uint32_t kind)
{
    for (size_t i = 0; i < swatches; i++) {
        const float *v = channels[set][i];
        total += box->half_way(kind, v[0], v[1], v[2], kind, v[3], v[4], v[5], out + 12 * i, 12);
    }
    return swatches;
}

static size_t color_mixes(const struct box *box, int set)
{
    return mixes_of(box, set, 0);
}

static size_t grey_mixes(const struct box *box, int set)
{
    return mixes_of(box, set, 1);
}

static size_t hue_mixes(const struct box *box, int set)
{
    return mixes_of(box, set, 2);
}

static void list_cube(const struct box *box, const uint8_t *cube)
{
    for (size_t first = 0; first < SHEET_CELLS; first += PART)
        total += box->list_part(SHEET_SIDE, cube, SHEET_CELLS, first, PART, text, sizeof text);
}

static size_t draw_sheets(const struct box *box, int set)
{
    uint32_t detail, new_cells;
    for (int k = 0; k < SHEETS; k++)
        total += box->draw_sheet(sheets[set][k], SHEET_BYTES, buffer, sizeof buffer, &detail, &new_cells);
    return SHEETS;
}

static size_t list_sheets(const struct box *box, int set)
{
    for (int k = 0; k < SHEETS; k++)
        list_cube(box, cubes[set][k]);
    return SHEETS;
}

static size_t draw_and_list_sheets(const struct box *box, int set)
{
    uint32_t detail, new_cells;
    for (int k = 0; k < SHEETS; k++) {
        total += box->draw_sheet(sheets[set][k], SHEET_BYTES, buffer, sizeof buffer, &detail, &new_cells);
        list_cube(box, buffer);
    }
    return SHEETS;
}

/* The cubes of the sheets; set 2 those of side 64. */
static size_t total_cubes(const struct box *box, int set)
{
    for (int k = 0; k < (set < 2 ? SHEETS : CUBES); k++)
        if (set < 2)
            total += box->totals(SHEET_SIDE, cubes[set][k], SHEET_CELLS, text, TOTALS_TEXT + 1);
        else
            total += box->totals(SIDE, full_cubes[k], CELLS, text, TOTALS_TEXT + 1);
    return set < 2 ? SHEETS : CUBES;
}

static const struct row {
    const char *name, *unit, *functions;
    size_t (*run)(const struct box *box, int set);
    int set;   /* of inputs, or the way of a drawing */
    int boxes; /* 3 where (c) has nothing to compare */
} rows[] = {
    {"draw a curve, n = 512, side 64, over, cells unmarked", "sample", "draw_curve", draw_curves, OVER_UNMARKED, 4},
    {"draw it over, cells marked", "sample", "draw_curve", draw_curves, OVER_MARKED, 4},
    {"draw it under, cells unmarked", "sample", "draw_curve", draw_curves, UNDER_UNMARKED, 4},
    {"draw it under, cells marked", "sample", "draw_curve", draw_curves, UNDER_MARKED, 4},
    {"list it", "sample", "list_curve", list_curves, BOXED_512, 4},
    {"check it, quits", "call", "check_curve", check_curves, BOXED_512, 3},
    {"check a curve, gaps up to 1, n = 1, walks", "call", "check_curve", check_curves, CLOSE_1, 3},
    {"check it, n = 2, walks", "call", "check_curve", check_curves, CLOSE_2, 3},
    {"check it, n = 3, quits", "call", "check_curve", check_curves, CLOSE_3, 3},
    {"check it, n = 512, quits", "call", "check_curve", check_curves, CLOSE_512, 3},
    {"draw it over, n = 1, walks", "call", "draw_curve", draw_short, CLOSE_1, 4},
    {"draw it over, n = 2, walks", "call", "draw_curve", draw_short, CLOSE_2, 4},
    {"draw it over, n = 3, quits", "call", "draw_curve", draw_short, CLOSE_3, 4},
    {"list it, n = 1, walks", "call", "list_curve", list_short, CLOSE_1, 4},
    {"check a curve, gaps up to 63, n = 188, walks", "call", "check_curve", check_curves, CROSSING_188, 3},
    {"check it, n = 189, quits", "call", "check_curve", check_curves, CROSSING_189, 3},
    {"draw it over, n = 188, walks", "sample", "draw_curve", draw_over, CROSSING_188, 4},
    {"draw it over, n = 189, quits", "sample", "draw_curve", draw_over, CROSSING_189, 4},
    {"list it, n = 188, walks", "sample", "list_curve", list_curves, CROSSING_188, 4},
    {"list it, n = 189, quits", "sample", "list_curve", list_curves, CROSSING_189, 4},
    {"check a curve, first step too long", "call", "check_curve", check_curves, STEEP_64, 3},
    {"choose the steps, side 8", "call", "choose_steps", choose_counts, SMALL, 4},
    {"draw with the chosen count over, side 8", "call", "draw_chosen", draw_with_chosen, SMALL, 4},
    {"choose the steps, side 64", "call", "choose_steps", choose_counts, LARGE, 4},
    {"draw with the chosen count over, side 64", "call", "draw_chosen", draw_with_chosen, LARGE, 4},
    {"choose the steps of the slowest polygon", "call", "choose_steps", choose_counts, SLOWEST, 4},
    {"draw it with the chosen count over", "call", "draw_chosen", draw_with_chosen, SLOWEST, 4},
    {"flip a curve", "call", "flip_curve", flip_curves, BOXED, 4},
    {"draw the path of a curve, n = 512, side 64, over, cells unmarked", "sample", "draw_path", draw_paths, OVER_UNMARKED,
     4},
    {"draw it over, cells marked", "sample", "draw_path", draw_paths, OVER_MARKED, 4},
    {"draw it under, cells unmarked", "sample", "draw_path", draw_paths, UNDER_UNMARKED, 4},
    {"draw it under, cells marked", "sample", "draw_path", draw_paths, UNDER_MARKED, 4},
    {"list it, room for every path", "sample", "list_path", list_paths, BOXED_512, 4},
    {"list it, counted first", "sample", "list_path", list_paths_counted, BOXED_512, 4},
    {"draw the path, gaps up to 63, n = 188, over, walks", "sample", "draw_path", draw_path_over, CROSSING_188, 4},
    {"draw it over, n = 189, quits", "sample", "draw_path", draw_path_over, CROSSING_189, 4},
    {"draw it under, cells unmarked, n = 189, quits", "sample", "draw_path", draw_path_under, CROSSING_189, 4},
    {"list it, n = 189, room for every path", "sample", "list_path", list_paths, CROSSING_189, 4},
    {"list it, n = 189, counted first", "sample", "list_path", list_paths_counted, CROSSING_189, 4},
    {"draw the path, gaps up to 1, n = 3, over, quits", "call", "draw_path", draw_path_short, CLOSE_3, 4},
    {"list it, n = 1, room for every path, walks", "call", "list_path", list_path_short, CLOSE_1, 4},
    {"draw a patch, 64 × 64, side 64, over, cells unmarked", "sample", "draw_patch", small_patches, OVER_UNMARKED, 4},
    {"draw it over, cells marked", "sample", "draw_patch", small_patches, OVER_MARKED, 4},
    {"draw it under, cells unmarked", "sample", "draw_patch", small_patches, UNDER_UNMARKED, 4},
    {"draw it under, cells marked", "sample", "draw_patch", small_patches, UNDER_MARKED, 4},
    {"check it", "sample", "check_patch", check_patches, 0, 3},
    {"draw a patch, 256 × 256, side 64, over, cells unmarked", "sample", "draw_patch", large_patches, OVER_UNMARKED, 4},
    {"draw it over, cells marked", "sample", "draw_patch", large_patches, OVER_MARKED, 4},
    {"draw it under, cells unmarked", "sample", "draw_patch", large_patches, UNDER_UNMARKED, 4},
    {"draw it under, cells marked", "sample", "draw_patch", large_patches, UNDER_MARKED, 4},
    {"check it", "sample", "check_patch", check_patches, 1, 3},
    {"flip a patch", "call", "flip_patch", flip_patches, 0, 4},
    {"draw a curve on the strip, n = 64, side 17, over, cells unmarked", "call", "draw_strip_curve", draw_strip_curves,
     OVER_UNMARKED, 4},
    {"draw it over, cells marked", "call", "draw_strip_curve", draw_strip_curves, OVER_MARKED, 4},
    {"draw it under, cells unmarked", "call", "draw_strip_curve", draw_strip_curves, UNDER_UNMARKED, 4},
    {"draw it under, cells marked", "call", "draw_strip_curve", draw_strip_curves, UNDER_MARKED, 4},
    {"refuse it with side 18 (23)", "call", "draw_strip_curve", refuse_strip_curves, OVER_MARKED, 3},
    {"draw a patch on the strip, 64 × 64, side 17, over, cells unmarked", "call", "draw_strip_patch", draw_strip_patches,
     OVER_UNMARKED, 4},
    {"draw it over, cells marked", "call", "draw_strip_patch", draw_strip_patches, OVER_MARKED, 4},
    {"draw it under, cells unmarked", "call", "draw_strip_patch", draw_strip_patches, UNDER_UNMARKED, 4},
    {"draw it under, cells marked", "call", "draw_strip_patch", draw_strip_patches, UNDER_MARKED, 4},
    {"refuse it with 64 × 65 steps (24)", "call", "draw_strip_patch", refuse_strip_patches, OVER_MARKED, 3},
    {"draw a solid, 32 × 32 × 32, side 64, over, cells unmarked", "sample", "draw_solid", draw_solids, OVER_UNMARKED, 4},
    {"draw it over, cells marked", "sample", "draw_solid", draw_solids, OVER_MARKED, 4},
    {"draw it under, cells unmarked", "sample", "draw_solid", draw_solids, UNDER_UNMARKED, 4},
    {"draw it under, cells marked", "sample", "draw_solid", draw_solids, UNDER_MARKED, 4},
    {"check it", "sample", "check_solid", check_solids, 0, 3},
    {"draw a solid, gaps up to 1, 1 × 1 × 1, over", "call", "draw_solid", draw_small_solids, 1, 4},
    {"check it", "call", "check_solid", check_small_solids, 1, 3},
    {"draw it, 4 × 4 × 4, over", "call", "draw_solid", draw_small_solids, 4, 4},
    {"check it", "call", "check_solid", check_small_solids, 4, 3},
    {"refuse a solid at its first step (15)", "call", "draw_solid", refuse_steep_solids, OVER_MARKED, 3},
    {"refuse one with 32 × 32 × 33 steps (13)", "call", "draw_solid", refuse_solids, OVER_MARKED, 3},
    {"swatch to cell, colour, bright", "call", "to_cell", color_cells, BRIGHT, 4},
    {"swatch to cell, colour, dark", "call", "to_cell", color_cells, DARK, 4},
    {"swatch to cell, grey, bright", "call", "to_cell", grey_cells, BRIGHT, 4},
    {"swatch to cell, grey, dark", "call", "to_cell", grey_cells, DARK, 4},
    {"hue to cell", "call", "to_cell", hue_cells, HUES, 4},
    {"half-way, colour, bright", "call", "half_way", color_mixes, BRIGHT, 4},
    {"half-way, colour, dark", "call", "half_way", color_mixes, DARK, 4},
    {"half-way, grey, bright", "call", "half_way", grey_mixes, BRIGHT, 4},
    {"half-way, grey, dark", "call", "half_way", grey_mixes, DARK, 4},
    {"half-way, hues", "call", "half_way", hue_mixes, HUES, 4},
    {"sheet of 200 lines to listing, sparse", "sheet", "draw_sheet list_part", draw_and_list_sheets, 0, 4},
    {"of it the drawing", "sheet", "draw_sheet", draw_sheets, 0, 4},
    {"of it the listing", "sheet", "list_part", list_sheets, 0, 4},
    {"sheet of 200 lines to listing, dense", "sheet", "draw_sheet list_part", draw_and_list_sheets, 1, 4},
    {"of it the drawing", "sheet", "draw_sheet", draw_sheets, 1, 4},
    {"of it the listing", "sheet", "list_part", list_sheets, 1, 4},
    {"totals of a cube, side 40, sparse", "cube", "totals", total_cubes, 0, 4},
    {"totals of a cube, side 40, dense", "cube", "totals", total_cubes, 1, 4},
    {"totals of a cube, side 64, any bytes", "cube", "totals", total_cubes, 2, 4},
};

enum { ROWS = sizeof rows / sizeof *rows };

/* Drawings on the strip, which the main path also makes. */
static bool is_of_strip(const struct row *row)
{
    return row->run == draw_strip_curves || row->run == draw_strip_patches;
}

static void make(size_t swatch_count)
{
    make_inputs(swatch_count);
    for (int k = 0; k < 2; k++) {
        main_path[k] = boxes[k == 0 ? 0 : BOXES - 1];
        main_path[k].draw_strip_curve = main_path[k].draw_curve;
        main_path[k].draw_strip_patch = main_path[k].draw_patch;
    }
    out = calloc(swatch_count, 12);
    if (!out)
        exit(2);
    for (int set = 0; set < 2; set++)
        for (int k = 0; k < SHEETS; k++) {
            uint32_t detail, new_cells;
            direct_draw_sheet(sheets[set][k], SHEET_BYTES, cubes[set][k], SHEET_CELLS, &detail, &new_cells);
            marked[set] += new_cells;
        }
}

/* The boxes that are timed beside one another: all, or strip and main path. */
struct boxes {
    int count;
    const struct box *box[BOXES];
};

static struct boxes all_boxes(void)
{
    struct boxes all = {BOXES, {NULL}};
    for (int k = 0; k < BOXES; k++)
        all.box[k] = &boxes[k];
    return all;
}

/* Each twice: how far two times of the same function differ. Both run equally often: the branches of what runs more often
   are foreseen better. */
static struct boxes strip_boxes(void)
{
    return (struct boxes){STRIP_BOXES, {&boxes[0], &boxes[0], &main_path[0], &main_path[0]}};
}

/* One round: the boxes one after the other, in an order drawn anew. */
static void time_round(const struct row *row, const struct boxes *among, double times[BOXES])
{
    int order[BOXES];
    for (int k = 0; k < among->count; k++)
        order[k] = k;
    for (int k = 0; k < among->count; k++) {
        int other = k + (int)random_below((uint32_t)(among->count - k)), box = order[other];
        order[other] = order[k];
        filling = 0;
        double begin = nanoseconds();
        size_t units = row->run(among->box[box], row->set);
        times[box] = (nanoseconds() - begin - filling) / (double)units;
    }
}

static void time_row(const struct row *row, const struct boxes *among, const char *place, int rounds)
{
    double times[BOXES];
    time_round(row, among, times);
    while (rounds-- > 0) {
        time_round(row, among, times);
        printf("%s %d", place, (int)(row - rows));
        for (int k = 0; k < among->count; k++)
            printf(" %.4f", times[k]);
        printf("\n");
    }
}

static const struct row *row_of(const char *number)
{
    int i = atoi(number);
    if (i < 0 || i >= ROWS)
        exit(2);
    return &rows[i];
}

/* A row is among the numbers, or there are none. */
static bool is_chosen(int row, char **numbers)
{
    char **at = numbers;
    while (*at && row_of(*at) != &rows[row])
        at++;
    return *at || !*numbers;
}

static void print_rows(bool strip, char **numbers)
{
    for (int i = 0; i < ROWS; i++)
        if (is_chosen(i, numbers) && (!strip || is_of_strip(&rows[i])))
            printf("%d|%s|%s|%s\n", i, rows[i].name, rows[i].unit, rows[i].functions);
}

/* The order of a round must not depend on the place alone. */
static void times(bool strip, const char *place, int rounds, char **numbers)
{
    make(strip ? 1 : 1000000);
    times_over = strip ? 8 : times_over;
    seed((uint64_t)time(NULL));
    struct boxes among = strip ? strip_boxes() : all_boxes();
    for (int i = 0; i < ROWS; i++)
        if (is_chosen(i, numbers) && (!strip || is_of_strip(&rows[i])))
            time_row(&rows[i], &among, place, rounds);
}

static struct line {
    int place, row;
    double times[BOXES];
} lines[MOST];

static int read_lines(int columns)
{
    int n = 0;
    struct line l;
    while (n < MOST && scanf("%d %d", &l.place, &l.row) == 2) {
        for (int k = 0; k < columns; k++)
            if (scanf("%lf", &l.times[k]) != 1)
                exit(2);
        lines[n++] = l;
    }
    return n;
}

static int by_size(const void *a, const void *b)
{
    double x = *(const double *)a, y = *(const double *)b;
    return x < y ? -1 : x > y;
}

/* The median of a row's times of a box over those of another, or alone if the two are one, at a place, or at all for -1; 0
   if there is no line, or the other did no units and its time for one is infinite. */
static double median(int count, int row, int place, int box, int other)
{
    static double values[MOST];
    size_t n = 0;
    for (int i = 0; i < count; i++) {
        const struct line *l = &lines[i];
        if (l->row == row && (place < 0 || l->place == place))
            values[n++] = box == other ? l->times[box] : l->times[box] / l->times[other];
    }
    qsort(values, n, sizeof *values, by_size);
    return n == 0 ? 0 : values[n / 2];
}

/* The medians of the places: their geometric mean, the least and the greatest. */
struct ratio {
    int places;
    double mean, least, most;
};

static struct ratio ratio_of(int count, int row, int box, int other)
{
    struct ratio r = {0, 0, 1e9, 0};
    double logs = 0;
    for (int p = 0; p < PLACES; p++) {
        double m = median(count, row, p, box, other);
        if (m == 0)
            continue;
        r.places++;
        logs += log(m);
        r.least = m < r.least ? m : r.least;
        r.most = m > r.most ? m : r.most;
    }
    r.mean = exp(logs / r.places);
    return r;
}

/* The library's ratio to a box; to (a) and the other build also by place. */
static void print_ratio(int count, int row, int box)
{
    struct ratio r = ratio_of(count, row, 0, box);
    if (r.places == 0) {
        printf(" none | |");
        return;
    }
    printf(" %.2f |", r.mean);
    if (box == 1 || box == OTHER_BUILD)
        printf(" %.2f to %.2f |", r.least, r.most);
}

static void table(void)
{
    int count = read_lines(BOXES);
    printf("| call | library, ns | / (a) | by place | / (b) | / (c) |%s\n|---|---|---|---|---|---|%s\n",
           BOXES > OTHER_BUILD ? " / before | by place |" : "", BOXES > OTHER_BUILD ? "---|---|" : "");
    for (int row = 0; row < ROWS; row++) {
        double own = median(count, row, -1, 0, 0);
        if (own == 0)
            continue;
        printf("| %s | %.*f a %s |", rows[row].name, own < 1000 ? 2 : 0, own, rows[row].unit);
        for (int k = 1; k < rows[row].boxes; k++)
            print_ratio(count, row, k);
        printf("%s", rows[row].boxes == 3 ? " none |" : "");
        if (BOXES > OTHER_BUILD)
            print_ratio(count, row, OTHER_BUILD);
        printf("\n");
    }
}

static void print_strip_ratio(int count, int row, int box, int other)
{
    struct ratio r = ratio_of(count, row, box, other);
    printf(" %.3f | %.3f to %.3f |", r.mean, r.least, r.most);
}

static void strip_table(void)
{
    int count = read_lines(STRIP_BOXES);
    if (count == 0)
        return;
    printf("| call | strip, ns | main path, ns | strip / main path | by place | strip / itself | by place | main path / itself "
           "| by place |\n|---|---|---|---|---|---|---|---|---|\n");
    for (int row = 0; row < ROWS; row++) {
        double strip = median(count, row, -1, 0, 0), path = median(count, row, -1, 2, 2);
        if (strip == 0)
            continue;
        printf("| %s | %.2f | %.2f |", rows[row].name, strip, path);
        print_strip_ratio(count, row, 0, 2);
        print_strip_ratio(count, row, 1, 0);
        print_strip_ratio(count, row, 3, 2);
        printf("\n");
    }
}

static void print_marked(void)
{
    for (int set = 0; set < 2; set++)
        printf("A %s sheet marks %lu of %d cells; for all of its strokes the step test quits.\n",
               set == 0 ? "sparse" : "dense", (unsigned long)marked[set] / SHEETS, SHEET_CELLS);
}

static void check(void)
{
    make(1000000);
    agree_on_inputs();
    agree_on_random_calls();
    printf("Library, (a) and (b) gave the same answers, counts and bytes on the inputs and on random calls, good and "
           "bad.\n");
    print_marked();
    printf("\n");
    count_wrong_cells();
}

static void count(const struct row *row, int box)
{
    if (box < 0 || (box >= BOXES && box < MAIN_PATH) || box > MAIN_PATH + 1)
        exit(2);
    make(10000);
    times_over = 1;
    printf("%zu\n", row->run(box < MAIN_PATH ? &boxes[box] : &main_path[box - MAIN_PATH], row->set));
}

int main(int argc, char **argv)
{
    const char *mode = argc > 1 ? argv[1] : "";
    if (strcmp(mode, "check") == 0)
        check();
    else if (strcmp(mode, "times") == 0 && argc > 3)
        times(false, argv[2], atoi(argv[3]), argv + 4);
    else if (strcmp(mode, "table") == 0)
        table();
    else if (strcmp(mode, "strip") == 0 && argc > 3)
        times(true, argv[2], atoi(argv[3]), argv + 4);
    else if (strcmp(mode, "strip_table") == 0)
        strip_table();
    else if (strcmp(mode, "rows") == 0)
        print_rows(false, argv + 2);
    else if (strcmp(mode, "strip_rows") == 0)
        print_rows(true, argv + 2);
    else if (strcmp(mode, "count") == 0 && argc == 4)
        count(row_of(argv[2]), atoi(argv[3]));
    else
        return 2;
    return total == -1;
}
