/* (b) Direct exact evaluation: every sample from its Bernstein weights, in whole numbers. The largest number, a
   patch's doubled value, is 2 × 63 × 256³ × 256³ < 2^55, a solid's 2 × 63 × 32³ × 32³ × 32³ < 2^52, so int64_t holds
   them all. The step test of a curve quits as (a)'s. */
#include <math.h>
#include <stdbool.h>
#include <stdint.h>
#include <stdlib.h>

#include "cell.h"
#include "gaps.h"
#include "totals.h"

/* n³ times the value at i / n. */
static inline int64_t blend(int64_t n, int64_t i, int64_t g0, int64_t g1, int64_t g2, int64_t g3)
{
    int64_t k = n - i;
    return k * k * k * g0 + 3 * i * k * k * g1 + 3 * i * i * k * g2 + i * i * i * g3;
}

static inline int64_t cubed(int64_t n)
{
    return n * n * n;
}

/* The cell that owns value / scale, above cell - 1/2 up to cell + 1/2: that of the sample before or one beside it. */
static inline int64_t move(int64_t cell, int64_t value, int64_t scale)
{
    int64_t past = 2 * value - 2 * scale * cell;
    if (past > scale)
        return cell + 1;
    return past <= -scale ? cell - 1 : cell;
}

/* Curves. */

static inline int64_t sample(const uint8_t *points, int64_t n, int64_t i)
{
    return blend(n, i, points[0], points[3], points[6], points[9]);
}

static bool step_too_long(const uint8_t *points, uint32_t n)
{
    int64_t scale = cubed(n);
    for (int a = 0; a < 3; a++) {
        int64_t before = sample(points + a, n, 0);
        for (uint32_t i = 1; i <= n; i++) {
            int64_t value = sample(points + a, n, i);
            if (llabs(value - before) > scale)
                return true;
            before = value;
        }
    }
    return false;
}

/* The smallest count that the step test accepts, by trying one after the other. */
static uint32_t smallest(const uint8_t *points)
{
    uint32_t n = 1;
    while (!quits(points, n) && step_too_long(points, n))
        n++;
    return n;
}

static INLINED uint32_t mark_samples(uint32_t side, const uint8_t *points, uint32_t n, uint8_t mark, bool under,
                                     uint8_t *grid)
{
    int64_t s = side, scale = cubed(n), x = points[0], y = points[1], z = points[2];
    uint32_t new_cells = 0;
    for (uint32_t i = 0; i <= n; i++) {
        x = move(x, sample(points, n, i), scale);
        y = move(y, sample(points + 1, n, i), scale);
        z = move(z, sample(points + 2, n, i), scale);
        new_cells += mark_cell(grid + (x + s * y + s * s * z), mark, under);
    }
    return new_cells;
}

static void list_samples(const uint8_t *points, uint32_t n, uint8_t *list)
{
    int64_t scale = cubed(n), x = points[0], y = points[1], z = points[2];
    for (uint32_t i = 0; i <= n; i++) {
        x = move(x, sample(points, n, i), scale);
        y = move(y, sample(points + 1, n, i), scale);
        z = move(z, sample(points + 2, n, i), scale);
        list[3 * i] = (uint8_t)x;
        list[3 * i + 1] = (uint8_t)y;
        list[3 * i + 2] = (uint8_t)z;
    }
}

/* Paths. */

/* The cell of sample i on one axis; answers whether it is another than that of the sample before. */
static inline bool moves(int64_t *cell, const uint8_t *points, int64_t n, int64_t i, int64_t scale)
{
    int64_t before = *cell;
    *cell = move(before, sample(points, n, i), scale);
    return *cell != before;
}

static INLINED uint32_t mark_cells(uint32_t side, const uint8_t *points, uint32_t n, uint8_t mark, bool under,
                                   uint8_t *grid, uint32_t *new_cells)
{
    int64_t s = side, scale = cubed(n), x = points[0], y = points[1], z = points[2];
    uint32_t cells = 1, fresh = mark_cell(grid + (x + s * y + s * s * z), mark, under);
    for (uint32_t i = 1; i <= n; i++) {
        if (moves(&x, points, n, i, scale)) {
            cells++;
            fresh += mark_cell(grid + (x + s * y + s * s * z), mark, under);
        }
        if (moves(&y, points + 1, n, i, scale)) {
            cells++;
            fresh += mark_cell(grid + (x + s * y + s * s * z), mark, under);
        }
        if (moves(&z, points + 2, n, i, scale)) {
            cells++;
            fresh += mark_cell(grid + (x + s * y + s * s * z), mark, under);
        }
    }
    *new_cells = fresh;
    return cells;
}

static inline void put_cell(uint8_t *list, int64_t x, int64_t y, int64_t z)
{
    list[0] = (uint8_t)x;
    list[1] = (uint8_t)y;
    list[2] = (uint8_t)z;
}

static uint32_t list_cells(const uint8_t *points, uint32_t n, uint8_t *list)
{
    int64_t scale = cubed(n), x = points[0], y = points[1], z = points[2];
    uint8_t *at = list;
    put_cell(at, x, y, z);
    for (uint32_t i = 1; i <= n; i++) {
        if (moves(&x, points, n, i, scale))
            put_cell(at += 3, x, y, z);
        if (moves(&y, points + 1, n, i, scale))
            put_cell(at += 3, x, y, z);
        if (moves(&z, points + 2, n, i, scale))
            put_cell(at += 3, x, y, z);
    }
    return (uint32_t)(at - list) / 3 + 1;
}

static inline bool has_room(const uint8_t *points, uint32_t n, size_t list_len)
{
    int64_t scale = cubed(n), cell[3] = {points[0], points[1], points[2]};
    uint32_t cells = 1;
    if (list_len >= 3 * (3 * (size_t)n + 1))
        return true;
    for (uint32_t i = 1; i <= n; i++)
        for (int a = 0; a < 3; a++)
            cells += moves(&cell[a], points + a, n, i, scale);
    return list_len >= 3 * (size_t)cells;
}

/* Patches. */

/* The control values along t of row j, times m³. */
static inline void row_controls(const uint8_t *points, int64_t m, int64_t j, int64_t g[4])
{
    for (int i = 0; i < 4; i++)
        g[i] = blend(m, j, points[12 * i], points[12 * i + 3], points[12 * i + 6], points[12 * i + 9]);
}

static inline int64_t row_sample(const int64_t g[4], int64_t n, int64_t i)
{
    return blend(n, i, g[0], g[1], g[2], g[3]);
}

/* Some two neighbours of the row, or of the row and the one before it, lie too far apart. The row is left in row. */
static bool long_in_row(const int64_t g[4], uint32_t n, int64_t scale, bool first, int64_t *row)
{
    for (uint32_t i = 0; i <= n; i++) {
        int64_t value = row_sample(g, n, i);
        if (!first && llabs(value - row[i]) > scale)
            return true;
        row[i] = value;
        if (i > 0 && llabs(value - row[i - 1]) > scale)
            return true;
    }
    return false;
}

static bool patch_step_too_long(const uint8_t *points, uint32_t n, uint32_t m)
{
    int64_t scale = cubed(n) * cubed(m), row[257], g[4];
    for (int a = 0; a < 3; a++)
        for (uint32_t j = 0; j <= m; j++) {
            row_controls(points + a, m, j, g);
            if (long_in_row(g, n, scale, j == 0, row))
                return true;
        }
    return false;
}

static INLINED uint32_t mark_row(const int64_t gx[4], const int64_t gy[4], const int64_t gz[4],
                                 const int64_t start[3], uint32_t n, int64_t scale, int64_t s, uint8_t mark, bool under,
                                 uint8_t *grid)
{
    int64_t x = start[0], y = start[1], z = start[2];
    uint32_t new_cells = mark_cell(grid + (x + s * y + s * s * z), mark, under);
    for (uint32_t i = 1; i <= n; i++) {
        x = move(x, row_sample(gx, n, i), scale);
        y = move(y, row_sample(gy, n, i), scale);
        z = move(z, row_sample(gz, n, i), scale);
        new_cells += mark_cell(grid + (x + s * y + s * s * z), mark, under);
    }
    return new_cells;
}

static INLINED uint32_t mark_rows(uint32_t side, const uint8_t *points, uint32_t n, uint32_t m, uint8_t mark,
                                  bool under, uint8_t *grid)
{
    int64_t scale = cubed(n) * cubed(m), g[3][4];
    int64_t start[3] = {points[0], points[1], points[2]};
    uint32_t new_cells = 0;
    for (uint32_t j = 0; j <= m; j++) {
        for (int a = 0; a < 3; a++) {
            row_controls(points + a, m, j, g[a]);
            start[a] = move(start[a], row_sample(g[a], n, 0), scale);
        }
        new_cells += mark_row(g[0], g[1], g[2], start, n, scale, side, mark, under, grid);
    }
    return new_cells;
}

/* Solids. */

/* The control values of slice k, times l³: those of a patch. */
static inline void slice_controls(const uint8_t *points, int64_t l, int64_t k, int64_t g[16])
{
    for (int i = 0; i < 16; i++)
        g[i] = blend(l, k, points[12 * i], points[12 * i + 3], points[12 * i + 6], points[12 * i + 9]);
}

/* The control values along t of row j of the slice, times m³ l³. */
static inline void slice_row_controls(const int64_t s[16], int64_t m, int64_t j, int64_t g[4])
{
    for (int i = 0; i < 4; i++)
        g[i] = blend(m, j, s[4 * i], s[4 * i + 1], s[4 * i + 2], s[4 * i + 3]);
}

/* Some two neighbours of the slice, or of the slice and the one before it, lie too far apart. The slice is left in
   slice. */
static bool long_in_slice(const int64_t s[16], uint32_t n, uint32_t m, int64_t scale, bool first, int64_t slice[33][33])
{
    for (uint32_t j = 0; j <= m; j++) {
        int64_t g[4];
        slice_row_controls(s, m, j, g);
        for (uint32_t i = 0; i <= n; i++) {
            int64_t value = row_sample(g, n, i);
            if (!first && llabs(value - slice[j][i]) > scale)
                return true;
            slice[j][i] = value;
            if (i > 0 && llabs(value - slice[j][i - 1]) > scale)
                return true;
            if (j > 0 && llabs(value - slice[j - 1][i]) > scale)
                return true;
        }
    }
    return false;
}

static bool solid_step_too_long(const uint8_t *points, uint32_t n, uint32_t m, uint32_t l)
{
    int64_t scale = cubed(n) * cubed(m) * cubed(l), slice[33][33], s[16];
    for (int a = 0; a < 3; a++)
        for (uint32_t k = 0; k <= l; k++) {
            slice_controls(points + a, l, k, s);
            if (long_in_slice(s, n, m, scale, k == 0, slice))
                return true;
        }
    return false;
}

/* The cells of the slice's first samples are followed from slice to slice in first, those of its rows' from row to row. */
static INLINED uint32_t mark_slice(int64_t s[3][16], int64_t first[3], uint32_t n, uint32_t m, int64_t scale,
                                   int64_t side, uint8_t mark, bool under, uint8_t *grid)
{
    int64_t g[3][4], start[3] = {first[0], first[1], first[2]};
    uint32_t new_cells = 0;
    for (uint32_t j = 0; j <= m; j++) {
        for (int a = 0; a < 3; a++) {
            slice_row_controls(s[a], m, j, g[a]);
            start[a] = move(start[a], row_sample(g[a], n, 0), scale);
            if (j == 0)
                first[a] = start[a];
        }
        new_cells += mark_row(g[0], g[1], g[2], start, n, scale, side, mark, under, grid);
    }
    return new_cells;
}

static INLINED uint32_t mark_slices(uint32_t side, const uint8_t *points, uint32_t n, uint32_t m, uint32_t l,
                                    uint8_t mark, bool under, uint8_t *grid)
{
    int64_t scale = cubed(n) * cubed(m) * cubed(l), s[3][16];
    int64_t first[3] = {points[0], points[1], points[2]};
    uint32_t new_cells = 0;
    for (uint32_t k = 0; k <= l; k++) {
        for (int a = 0; a < 3; a++)
            slice_controls(points + a, l, k, s[a]);
        new_cells += mark_slice(s, first, n, m, scale, side, mark, under, grid);
    }
    return new_cells;
}

/* Swatches: the product of a float (24 bits) and side - 1 (6 bits) is exact in a double, and so is what is left of it
   above a whole number. */

static int refusal_of_one(float v)
{
    if (!isfinite(v))
        return 31;
    return v < 0.0f || v > 1.0f ? 32 : 0;
}

static int refusal_of_three(float a, float b, float c)
{
    int refusal = refusal_of_one(a);
    if (refusal == 0)
        refusal = refusal_of_one(b);
    return refusal != 0 ? refusal : refusal_of_one(c);
}

static int refusal_of_hue(float h, float s, float v)
{
    if (!(0.0f <= h && h < 6.0f))
        return isfinite(h) ? 33 : 31;
    int refusal = refusal_of_one(s);
    return refusal != 0 ? refusal : refusal_of_one(v);
}

static inline uint8_t coordinate(uint32_t side, float v)
{
    double exact = (double)v * (side - 1);
    int c = (int)exact;
    return (uint8_t)(c + (exact - c > 0.5));
}

/* The definition is a float sum, rounded once, and a product: there is no more direct way. */
static inline float mix(float a, float b)
{
    return (a + b) * 0.5f;
}

/* Totals: a table for each number, and the coordinates of every place by division. */
static uint8_t *put_totals(uint32_t side, const uint8_t *cube, uint8_t *text)
{
    uint32_t counts[256] = {0}, x[256] = {0}, y[256] = {0}, z[256] = {0};
    for (uint32_t p = 0; p < side * side * side; p++) {
        uint8_t mark = cube[p];
        counts[mark]++;
        x[mark] += p % side;
        y[mark] += p / side % side;
        z[mark] += p / (side * side);
    }
    for (uint32_t k = 1; k <= 256; k++) {
        uint32_t mark = k % 256; /* 0 comes last */
        if (counts[mark] == 0 && mark != 0)
            continue;
        put_totals_line(mark, counts[mark], x[mark], y[mark], z[mark], text);
        text += TOTALS_LINE;
    }
    return text;
}

/* Flips: the place of every byte by division. */

static void reverse_points(const uint8_t *points, uint8_t *flipped)
{
    for (uint32_t p = 0; p < 12; p++)
        flipped[p] = points[9 - p / 3 * 3 + p % 3];
}

static void exchange_points(const uint8_t *points, uint8_t *flipped)
{
    for (uint32_t p = 0; p < 48; p++)
        flipped[p] = points[p / 3 % 4 * 12 + p / 12 * 3 + p % 3];
}

#define CALL(name) direct_##name
#include "calls.h"
#include "chosen.h"
#include "sheet.h"
