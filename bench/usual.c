/* (c) What is usually written instead: float evaluation of the Bernstein form and rounding, no step test; sscanf and
   sprintf for sheets; three nested loops and snprintf for totals. What the library draws with a chosen count is drawn by its
   other calls, on doubled counts. Lengths, sides, counts and marks are tried, so that no write goes astray; which number
   refuses a swatch, a sheet or a cube is left rough. */
#include <math.h>
#include <stdbool.h>
#include <stddef.h>
#include <stdint.h>
#include <stdio.h>
#include <string.h>

#include "cell.h"

static inline float blend(float t, float g0, float g1, float g2, float g3)
{
    float k = 1.0f - t;
    return k * k * k * g0 + 3.0f * t * k * k * g1 + 3.0f * t * t * k * g2 + t * t * t * g3;
}

/* A half goes down. */
static inline size_t nearest(float v)
{
    int32_t c = (int32_t)v;
    return (size_t)(c + (v - (float)c > 0.5f));
}

/* Curves. */

static inline size_t rounded(const uint8_t *points, float t)
{
    return nearest(blend(t, points[0], points[3], points[6], points[9]));
}

static INLINED uint32_t mark_samples(uint32_t side, const uint8_t *points, uint32_t n, uint8_t mark, bool under,
                                     uint8_t *grid)
{
    uint32_t new_cells = 0;
    for (uint32_t i = 0; i <= n; i++) {
        float t = (float)i / (float)n;
        size_t x = rounded(points, t), y = rounded(points + 1, t), z = rounded(points + 2, t);
        new_cells += mark_cell(grid + (x + side * (y + side * z)), mark, under);
    }
    return new_cells;
}

static void list_samples(const uint8_t *points, uint32_t n, uint8_t *list)
{
    for (uint32_t i = 0; i <= n; i++) {
        float t = (float)i / (float)n;
        for (int a = 0; a < 3; a++)
            *list++ = (uint8_t)rounded(points + a, t);
    }
}

static inline bool quits(const uint8_t *points, uint32_t n)
{
    (void)points, (void)n;
    return false;
}

static inline bool step_too_long(const uint8_t *points, uint32_t n)
{
    (void)points, (void)n;
    return false;
}

/* Paths. */

/* Takes an axis to the next sample's cell; answers whether it was another one. */
static inline bool moves(size_t *at, size_t next)
{
    bool moved = *at != next;
    *at = next;
    return moved;
}

static INLINED uint32_t mark_cells(uint32_t side, const uint8_t *points, uint32_t n, uint8_t mark, bool under,
                                   uint8_t *grid, uint32_t *new_cells)
{
    size_t x = points[0], y = points[1], z = points[2];
    uint32_t cells = 1, fresh = mark_cell(grid + (x + side * (y + side * z)), mark, under);
    for (uint32_t i = 1; i <= n; i++) {
        float t = (float)i / (float)n;
        size_t next_x = rounded(points, t), next_y = rounded(points + 1, t), next_z = rounded(points + 2, t);
        if (moves(&x, next_x)) {
            cells++;
            fresh += mark_cell(grid + (x + side * (y + side * z)), mark, under);
        }
        if (moves(&y, next_y)) {
            cells++;
            fresh += mark_cell(grid + (x + side * (y + side * z)), mark, under);
        }
        if (moves(&z, next_z)) {
            cells++;
            fresh += mark_cell(grid + (x + side * (y + side * z)), mark, under);
        }
    }
    *new_cells = fresh;
    return cells;
}

static inline void put_cell(uint8_t *list, size_t x, size_t y, size_t z)
{
    list[0] = (uint8_t)x;
    list[1] = (uint8_t)y;
    list[2] = (uint8_t)z;
}

static uint32_t list_cells(const uint8_t *points, uint32_t n, uint8_t *list)
{
    size_t x = points[0], y = points[1], z = points[2];
    uint8_t *at = list;
    put_cell(at, x, y, z);
    for (uint32_t i = 1; i <= n; i++) {
        float t = (float)i / (float)n;
        size_t next_x = rounded(points, t), next_y = rounded(points + 1, t), next_z = rounded(points + 2, t);
        if (moves(&x, next_x))
            put_cell(at += 3, x, y, z);
        if (moves(&y, next_y))
            put_cell(at += 3, x, y, z);
        if (moves(&z, next_z))
            put_cell(at += 3, x, y, z);
    }
    return (uint32_t)(at - list) / 3 + 1;
}

static inline bool has_room(const uint8_t *points, uint32_t n, size_t list_len)
{
    size_t x = points[0], y = points[1], z = points[2], cells = 1;
    if (list_len >= 3 * (3 * (size_t)n + 1))
        return true;
    for (uint32_t i = 1; i <= n; i++) {
        float t = (float)i / (float)n;
        size_t next_x = rounded(points, t), next_y = rounded(points + 1, t), next_z = rounded(points + 2, t);
        cells += moves(&x, next_x);
        cells += moves(&y, next_y);
        cells += moves(&z, next_z);
    }
    return list_len >= 3 * cells;
}

/* Patches. */

static inline void row_controls(const uint8_t *points, float u, float g[4])
{
    for (int i = 0; i < 4; i++)
        g[i] = blend(u, points[12 * i], points[12 * i + 3], points[12 * i + 6], points[12 * i + 9]);
}

static inline size_t rounded_in_row(const float g[4], float t)
{
    return nearest(blend(t, g[0], g[1], g[2], g[3]));
}

static INLINED uint32_t mark_rows(uint32_t side, const uint8_t *points, uint32_t n, uint32_t m, uint8_t mark,
                                  bool under, uint8_t *grid)
{
    uint32_t new_cells = 0;
    for (uint32_t j = 0; j <= m; j++) {
        float gx[4], gy[4], gz[4], u = (float)j / (float)m;
        row_controls(points, u, gx);
        row_controls(points + 1, u, gy);
        row_controls(points + 2, u, gz);
        for (uint32_t i = 0; i <= n; i++) {
            float t = (float)i / (float)n;
            size_t x = rounded_in_row(gx, t), y = rounded_in_row(gy, t), z = rounded_in_row(gz, t);
            new_cells += mark_cell(grid + (x + side * (y + side * z)), mark, under);
        }
    }
    return new_cells;
}

static inline bool patch_step_too_long(const uint8_t *points, uint32_t n, uint32_t m)
{
    (void)points, (void)n, (void)m;
    return false;
}

/* Solids. */

/* The control values of a slice: those of a patch. */
static inline void slice_controls(const uint8_t *points, float v, float g[16])
{
    for (int i = 0; i < 16; i++)
        g[i] = blend(v, points[12 * i], points[12 * i + 3], points[12 * i + 6], points[12 * i + 9]);
}

static inline void slice_row_controls(const float s[16], float u, float g[4])
{
    for (int i = 0; i < 4; i++)
        g[i] = blend(u, s[4 * i], s[4 * i + 1], s[4 * i + 2], s[4 * i + 3]);
}

static INLINED uint32_t mark_slices(uint32_t side, const uint8_t *points, uint32_t n, uint32_t m, uint32_t l,
                                    uint8_t mark, bool under, uint8_t *grid)
{
    uint32_t new_cells = 0;
    for (uint32_t k = 0; k <= l; k++) {
        float sx[16], sy[16], sz[16], v = (float)k / (float)l;
        slice_controls(points, v, sx);
        slice_controls(points + 1, v, sy);
        slice_controls(points + 2, v, sz);
        for (uint32_t j = 0; j <= m; j++) {
            float gx[4], gy[4], gz[4], u = (float)j / (float)m;
            slice_row_controls(sx, u, gx);
            slice_row_controls(sy, u, gy);
            slice_row_controls(sz, u, gz);
            for (uint32_t i = 0; i <= n; i++) {
                float t = (float)i / (float)n;
                size_t x = rounded_in_row(gx, t), y = rounded_in_row(gy, t), z = rounded_in_row(gz, t);
                new_cells += mark_cell(grid + (x + side * (y + side * z)), mark, under);
            }
        }
    }
    return new_cells;
}

static inline bool solid_step_too_long(const uint8_t *points, uint32_t n, uint32_t m, uint32_t l)
{
    (void)points, (void)n, (void)m, (void)l;
    return false;
}

/* Swatches. */

static inline int refusal_of_one(float v)
{
    if (isnan(v))
        return 31;
    return v < 0 || v > 1 ? 32 : 0;
}

static int refusal_of_three(float a, float b, float c)
{
    if (isnan(a) || isnan(b) || isnan(c))
        return 31;
    return a < 0 || b < 0 || c < 0 || a > 1 || b > 1 || c > 1 ? 32 : 0;
}

static int refusal_of_hue(float h, float s, float v)
{
    if (isnan(h) || isnan(s) || isnan(v))
        return 31;
    if (h < 0 || h >= 6)
        return 33;
    return s < 0 || v < 0 || s > 1 || v > 1 ? 32 : 0;
}

static inline uint8_t coordinate(uint32_t side, float v)
{
    return (uint8_t)(v * (float)(side - 1) + 0.5f);
}

static inline float mix(float a, float b)
{
    return a + (b - a) * 0.5f;
}

/* Flips: point by point. */

static void reverse_points(const uint8_t *points, uint8_t *flipped)
{
    for (int k = 0; k < 4; k++)
        memcpy(flipped + 3 * k, points + 3 * (3 - k), 3);
}

static void exchange_points(const uint8_t *points, uint8_t *flipped)
{
    for (int i = 0; i < 4; i++)
        for (int j = 0; j < 4; j++)
            memcpy(flipped + 3 * (4 * i + j), points + 3 * (4 * j + i), 3);
}

#define CALL(name) usual_##name
#include "calls.h"

/* Chosen counts, by a caller of a library that has none: 1 step, and on 15 twice as many. 256 are enough for every
   curve. */

answer usual_choose_steps(uint32_t side, const uint8_t *points, size_t points_len)
{
    uint32_t n = 1;
    answer checked = gidzkhalu_check_curve(side, points, points_len, n);
    while (checked == -15) {
        n *= 2;
        checked = gidzkhalu_check_curve(side, points, points_len, n);
    }
    return checked < 0 ? checked : (answer)n;
}

answer usual_draw_chosen(uint32_t side, const uint8_t *points, size_t points_len, uint8_t mark, uint32_t choice,
                         uint8_t *grid, size_t grid_len, uint32_t *new_cells)
{
    uint32_t n = 1;
    answer drawn = gidzkhalu_draw_curve(side, points, points_len, n, mark, choice, grid, grid_len, new_cells);
    while (drawn == -15) {
        n *= 2;
        drawn = gidzkhalu_draw_curve(side, points, points_len, n, mark, choice, grid, grid_len, new_cells);
    }
    return drawn;
}

/* Sheets. */

/* Reads a line of 14 numbers; false if it has not as many, or some number is out of range. */
static bool read_curve(const uint8_t *line, size_t len, uint32_t side, struct curve *curve)
{
    char text[72] = {0};
    unsigned mark, p[12];
    memcpy(text, line, len < 71 ? len : 71);
    int fields = sscanf(text, "%u %u %u %u %u %u %u %u %u %u %u %u %u %u", &mark, &curve->steps, &p[0], &p[1], &p[2],
                        &p[3], &p[4], &p[5], &p[6], &p[7], &p[8], &p[9], &p[10], &p[11]);
    if (fields != 14 || mark < 1 || mark > 255 || is_count_out(512, curve->steps))
        return false;
    curve->mark = (uint8_t)mark;
    for (int k = 0; k < 12; k++) {
        if (p[k] >= side)
            return false;
        curve->points[k] = (uint8_t)p[k];
    }
    return true;
}

answer usual_draw_sheet(const uint8_t *input, size_t input_len, uint8_t *buffer, size_t buffer_len, uint32_t *detail,
                        uint32_t *new_cells)
{
    char text[7] = {0};
    unsigned side;
    if (buffer_len != 64000)
        return -21;
    memcpy(text, input, input_len < 6 ? input_len : 6);
    *detail = 1;
    if (sscanf(text, "%u", &side) != 1 || side < 2 || side > 40)
        return -42;
    memset(buffer, 0, (size_t)side * side * side);
    answer lines = 0;
    uint32_t marked = 0;
    for (size_t at = 6; at < input_len; at += 71, lines++) {
        struct curve curve;
        *detail = (uint32_t)lines + 2;
        if (!read_curve(input + at, input_len - at, side, &curve))
            return -42;
        marked += mark_samples(side, curve.points, curve.steps, curve.mark, false, buffer);
    }
    *detail = side;
    *new_cells = marked;
    return lines;
}

answer usual_list_part(uint32_t side, const uint8_t *cube, size_t cube_len, size_t first, size_t count, uint8_t *text,
                       size_t text_len)
{
    char *at = (char *)text;
    if (!is_side(side) || cube_len != (size_t)side * side * side || (text_len - 1) / 21 <= count)
        return -22;
    if (first == 0)
        at += sprintf(at, "    X    Y    Z MARK\n");
    for (size_t p = first; p < cube_len && p - first < count; p++)
        if (cube[p] != 0)
            at += sprintf(at, "%5u%5u%5u%5u\n", (unsigned)(p % side), (unsigned)(p / side % side),
                          (unsigned)(p / side / side), (unsigned)cube[p]);
    return (answer)(at - (char *)text);
}

answer usual_totals(uint32_t side, const uint8_t *cube, size_t cube_len, uint8_t *text, size_t text_len)
{
    struct {
        uint32_t count, x, y, z;
    } totals[256] = {{0}};
    char *at = (char *)text;
    if (order_of_text(side, cube_len, text_len < 256 * 51 + 1) != 0)
        return -22;
    for (unsigned z = 0; z < side; z++)
        for (unsigned y = 0; y < side; y++)
            for (unsigned x = 0; x < side; x++) {
                unsigned mark = cube[x + side * (y + side * z)];
                totals[mark].count++;
                totals[mark].x += x;
                totals[mark].y += y;
                totals[mark].z += z;
            }
    for (unsigned k = 1; k <= 256; k++) {
        unsigned mark = k % 256;
        if (totals[mark].count > 0 || mark == 0)
            at += snprintf(at, 52, "%10u%10u%10u%10u%10u\n", mark, totals[mark].count, totals[mark].x, totals[mark].y,
                           totals[mark].z);
    }
    return (answer)(at - (char *)text);
}

answer usual_refusal_line(uint32_t number, uint32_t line, uint8_t *text, size_t text_len)
{
    if (text_len < 19)
        return -22;
    return sprintf((char *)text, "REFUSED%5u%5u\n", (unsigned)number, (unsigned)line);
}
