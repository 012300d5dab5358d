/* The refusals before the step test, in document 01's order. */
#ifndef ORDER_H
#define ORDER_H

#include <stdbool.h>
#include <stddef.h>
#include <stdint.h>

struct curve {
    uint8_t points[12];
    uint32_t steps;
    uint8_t mark;
};

static inline bool is_side(uint32_t side)
{
    return 2 <= side && side <= 64;
}

static inline bool is_count_out(uint32_t most, uint32_t n)
{
    return n == 0 || n > most;
}

static inline bool some_coordinate_out(uint32_t side, const uint8_t *points, size_t len)
{
    for (size_t i = 0; i < len; i++)
        if (points[i] >= side)
            return true;
    return false;
}

/* 11, 13, 22, 14 of a check or a listing; 0 if none applies. */
static inline int order_of_list(uint32_t side, const uint8_t *points, size_t len, bool count_out, bool list_short)
{
    if (!is_side(side))
        return 11;
    if (count_out)
        return 13;
    if (list_short)
        return 22;
    if (some_coordinate_out(side, points, len))
        return 14;
    return 0;
}

/* 11, 21, 12, 13, 14 of a drawing; 0 if none applies. */
static inline int order_of_drawing(uint32_t side, const uint8_t *points, size_t len, size_t grid_len, uint8_t mark,
                                   bool count_out)
{
    if (!is_side(side))
        return 11;
    if (grid_len != (size_t)side * side * side)
        return 21;
    if (mark == 0)
        return 12;
    return order_of_list(side, points, len, count_out, false);
}

/* 11, 23, 21, 12, 13, 24 of a drawing on the strip, with a side above 17 or a step count above 64. */
static inline int order_off_strip(uint32_t side, size_t grid_len, uint8_t mark, bool count_out)
{
    if (!is_side(side))
        return 11;
    if (side > 17)
        return 23;
    if (grid_len != (size_t)side * side * side)
        return 21;
    if (mark == 0)
        return 12;
    return count_out ? 13 : 24;
}

/* 11, 21, 22 of a text about a cube; 0 if none applies. */
static inline int order_of_text(uint32_t side, size_t cube_len, bool text_short)
{
    if (!is_side(side))
        return 11;
    if (cube_len != (size_t)side * side * side)
        return 21;
    return text_short ? 22 : 0;
}

static inline bool is_curve_list_short(uint32_t steps, size_t list_len)
{
    return list_len < 3 * ((size_t)steps + 1);
}

#endif
