/* The functions of a box, around its own. The file that includes this one defines CALL, the name of a function with its
   prefix, and before it:
     curves    quits, step_too_long, list_samples, mark_samples
     paths     has_room, which counts the cells if the list may be too short; list_cells and mark_cells, which answer how
               many there are
     patches   patch_step_too_long, mark_rows
     solids    solid_step_too_long, mark_slices
               mark_samples, mark_cells, mark_rows and mark_slices go over or under and tell how many cells are new
     flips     reverse_points, of a curve; exchange_points, of a patch
     swatches  refusal_of_one and refusal_of_three, 0 or the number of channels; refusal_of_hue, of hue, saturation and
               value; coordinate; mix, of two channels */
#ifndef CALLS_H
#define CALLS_H

#include "box.h"
#include "order.h"

#include <string.h>

#if defined(__GNUC__)
#define WHOLE __attribute__((noinline)) /* the main path is not split for the strip, which calls it */
#else
#define WHOLE
#endif

/* Curves. */

/* The step test: WALKED, QUIT or -15. */
static inline answer test_steps(const uint8_t *points, uint32_t steps)
{
    if (quits(points, steps))
        return QUIT;
    return step_too_long(points, steps) ? -15 : WALKED;
}

answer CALL(check_curve)(uint32_t side, const uint8_t *points, size_t points_len, uint32_t steps)
{
    if (points_len != 12)
        return -51;
    int refusal = order_of_list(side, points, 12, is_count_out(512, steps), false);
    if (refusal != 0)
        return -refusal;
    return test_steps(points, steps);
}

answer CALL(list_curve)(uint32_t side, const uint8_t *points, size_t points_len, uint32_t steps, uint8_t *list,
                        size_t list_len)
{
    if (points_len != 12)
        return -51;
    int refusal =
        order_of_list(side, points, 12, is_count_out(512, steps), is_curve_list_short(steps, list_len));
    if (refusal != 0)
        return -refusal;
    if (test_steps(points, steps) < 0)
        return -15;
    list_samples(points, steps, list);
    return (answer)steps + 1;
}

WHOLE answer CALL(draw_curve)(uint32_t side, const uint8_t *points, size_t points_len, uint32_t steps, uint8_t mark,
                              uint32_t choice, uint8_t *grid, size_t grid_len, uint32_t *new_cells)
{
    if (points_len != 12)
        return -51;
    if (choice > UNDER)
        return -55;
    int refusal = order_of_drawing(side, points, 12, grid_len, mark, is_count_out(512, steps));
    if (refusal != 0)
        return -refusal;
    if (test_steps(points, steps) < 0)
        return -15;
    if (choice == UNDER)
        *new_cells = mark_samples(side, points, steps, mark, true, grid);
    else
        *new_cells = mark_samples(side, points, steps, mark, false, grid);
    return (answer)steps + 1;
}

/* Paths. */

answer CALL(list_path)(uint32_t side, const uint8_t *points, size_t points_len, uint32_t steps, uint8_t *list,
                       size_t list_len)
{
    if (points_len != 12)
        return -51;
    int refusal = order_of_list(side, points, 12, is_count_out(512, steps), false);
    if (refusal != 0)
        return -refusal;
    if (test_steps(points, steps) < 0)
        return -15;
    if (!has_room(points, steps, list_len))
        return -22;
    return list_cells(points, steps, list);
}

answer CALL(draw_path)(uint32_t side, const uint8_t *points, size_t points_len, uint32_t steps, uint8_t mark,
                       uint32_t choice, uint8_t *grid, size_t grid_len, uint32_t *new_cells)
{
    if (points_len != 12)
        return -51;
    if (choice > UNDER)
        return -55;
    int refusal = order_of_drawing(side, points, 12, grid_len, mark, is_count_out(512, steps));
    if (refusal != 0)
        return -refusal;
    if (test_steps(points, steps) < 0)
        return -15;
    if (choice == UNDER)
        return mark_cells(side, points, steps, mark, true, grid, new_cells);
    return mark_cells(side, points, steps, mark, false, grid, new_cells);
}

/* Patches. */

answer CALL(check_patch)(uint32_t side, const uint8_t *points, size_t points_len, uint32_t n, uint32_t m)
{
    if (points_len != 48)
        return -51;
    int refusal = order_of_list(side, points, 48, is_count_out(256, n) || is_count_out(256, m), false);
    if (refusal != 0)
        return -refusal;
    return patch_step_too_long(points, n, m) ? -15 : 0;
}

WHOLE answer CALL(draw_patch)(uint32_t side, const uint8_t *points, size_t points_len, uint32_t n, uint32_t m,
                              uint8_t mark, uint32_t choice, uint8_t *grid, size_t grid_len, uint32_t *new_cells)
{
    if (points_len != 48)
        return -51;
    if (choice > UNDER)
        return -55;
    int refusal = order_of_drawing(side, points, 48, grid_len, mark, is_count_out(256, n) || is_count_out(256, m));
    if (refusal != 0)
        return -refusal;
    if (patch_step_too_long(points, n, m))
        return -15;
    if (choice == UNDER)
        *new_cells = mark_rows(side, points, n, m, mark, true, grid);
    else
        *new_cells = mark_rows(side, points, n, m, mark, false, grid);
    return (answer)((n + 1) * (m + 1));
}

/* Solids. */

static inline bool is_solid_count_out(uint32_t n, uint32_t m, uint32_t l)
{
    return is_count_out(32, n) || is_count_out(32, m) || is_count_out(32, l);
}

answer CALL(check_solid)(uint32_t side, const uint8_t *points, size_t points_len, uint32_t n, uint32_t m, uint32_t l)
{
    if (points_len != 192)
        return -51;
    int refusal = order_of_list(side, points, 192, is_solid_count_out(n, m, l), false);
    if (refusal != 0)
        return -refusal;
    return solid_step_too_long(points, n, m, l) ? -15 : 0;
}

answer CALL(draw_solid)(uint32_t side, const uint8_t *points, size_t points_len, uint32_t n, uint32_t m, uint32_t l,
                        uint8_t mark, uint32_t choice, uint8_t *grid, size_t grid_len, uint32_t *new_cells)
{
    if (points_len != 192)
        return -51;
    if (choice > UNDER)
        return -55;
    int refusal = order_of_drawing(side, points, 192, grid_len, mark, is_solid_count_out(n, m, l));
    if (refusal != 0)
        return -refusal;
    if (solid_step_too_long(points, n, m, l))
        return -15;
    if (choice == UNDER)
        *new_cells = mark_slices(side, points, n, m, l, mark, true, grid);
    else
        *new_cells = mark_slices(side, points, n, m, l, mark, false, grid);
    return (answer)((n + 1) * (m + 1) * (l + 1));
}

/* The strip: two rules around the main path. */

answer CALL(draw_strip_curve)(uint32_t side, const uint8_t *points, size_t points_len, uint32_t steps, uint8_t mark,
                              uint32_t choice, uint8_t *grid, size_t grid_len, uint32_t *new_cells)
{
    if (side <= 17 && steps <= 64)
        return CALL(draw_curve)(side, points, points_len, steps, mark, choice, grid, grid_len, new_cells);
    if (points_len != 12)
        return -51;
    if (choice > UNDER)
        return -55;
    return -order_off_strip(side, grid_len, mark, is_count_out(512, steps));
}

answer CALL(draw_strip_patch)(uint32_t side, const uint8_t *points, size_t points_len, uint32_t n, uint32_t m,
                              uint8_t mark, uint32_t choice, uint8_t *grid, size_t grid_len, uint32_t *new_cells)
{
    if (side <= 17 && n <= 64 && m <= 64)
        return CALL(draw_patch)(side, points, points_len, n, m, mark, choice, grid, grid_len, new_cells);
    if (points_len != 48)
        return -51;
    if (choice > UNDER)
        return -55;
    return -order_off_strip(side, grid_len, mark, is_count_out(256, n) || is_count_out(256, m));
}

/* Flips. */

answer CALL(flip_curve)(const uint8_t *points, size_t points_len, uint8_t *flipped, size_t flipped_len)
{
    if (points_len != 12)
        return -51;
    if (flipped_len != 12)
        return -52;
    reverse_points(points, flipped);
    return 0;
}

answer CALL(flip_patch)(const uint8_t *points, size_t points_len, uint32_t *n, uint32_t *m, uint8_t *flipped,
                        size_t flipped_len)
{
    if (points_len != 48)
        return -51;
    if (flipped_len != 48)
        return -52;
    exchange_points(points, flipped);
    uint32_t along_t = *n;
    *n = *m;
    *m = along_t;
    return 0;
}

/* Swatches. A grey's one channel is tried once. */

static inline int refusal_of_swatch(uint32_t kind, float a, float b, float c)
{
    if (kind == 2)
        return refusal_of_hue(a, b, c);
    return kind == 1 ? refusal_of_one(a) : refusal_of_three(a, b, c);
}

struct rgb {
    float red, green, blue;
};

/* The product that is taken from 1 is a statement of its own: no compiler makes one operation of the two. */
static inline float part(float v, float s, float f)
{
    float taken = s * f;
    return v * (1.0f - taken);
}

static inline struct rgb rgb_of_hue(float h, float s, float v)
{
    float p = v * (1.0f - s);
    if (h < 1.0f)
        return (struct rgb){v, part(v, s, 1.0f - h), p};
    if (h < 2.0f)
        return (struct rgb){part(v, s, h - 1.0f), v, p};
    if (h < 3.0f)
        return (struct rgb){p, v, part(v, s, 1.0f - (h - 2.0f))};
    if (h < 4.0f)
        return (struct rgb){p, part(v, s, h - 3.0f), v};
    if (h < 5.0f)
        return (struct rgb){part(v, s, 1.0f - (h - 4.0f)), p, v};
    return (struct rgb){v, p, part(v, s, h - 5.0f)};
}

static inline struct rgb rgb_of(uint32_t kind, float a, float b, float c)
{
    if (kind == 2)
        return rgb_of_hue(a, b, c);
    if (kind == 1)
        b = c = a;
    return (struct rgb){a, b, c};
}

answer CALL(to_cell)(uint32_t side, uint32_t kind, float a, float b, float c, uint8_t *cell, size_t cell_len)
{
    if (kind > 2)
        return -53;
    if (cell_len != 3)
        return -52;
    if (!is_side(side))
        return -11;
    int refusal = refusal_of_swatch(kind, a, b, c);
    if (refusal != 0)
        return -refusal;
    if (kind == 1) {
        cell[0] = cell[1] = cell[2] = coordinate(side, a);
        return 0;
    }
    struct rgb w = rgb_of(kind, a, b, c);
    cell[0] = coordinate(side, w.red);
    cell[1] = coordinate(side, w.green);
    cell[2] = coordinate(side, w.blue);
    return 0;
}

answer CALL(half_way)(uint32_t kind, float a, float b, float c, uint32_t kind2, float a2, float b2, float c2,
                      uint8_t *channels, size_t channels_len)
{
    if (kind > 2 || kind2 > 2)
        return -53;
    if (channels_len != 12)
        return -52;
    int refusal = refusal_of_swatch(kind, a, b, c);
    if (refusal != 0)
        return -refusal;
    struct rgb v = rgb_of(kind, a, b, c);
    refusal = refusal_of_swatch(kind2, a2, b2, c2);
    if (refusal != 0)
        return -refusal;
    struct rgb w = rgb_of(kind2, a2, b2, c2);
    float mixed[3] = {mix(v.red, w.red), mix(v.green, w.green), mix(v.blue, w.blue)};
    memcpy(channels, mixed, sizeof mixed); /* x86-64 has the low byte first */
    return 0;
}

#endif
