/* The functions of a box whose step count is chosen. The file that includes this one defines CALL and smallest, the
   smallest count that the step test accepts for four points. */
#ifndef CHOSEN_H
#define CHOSEN_H

#include "box.h"
#include "order.h"

answer CALL(choose_steps)(uint32_t side, const uint8_t *points, size_t points_len)
{
    if (points_len != 12)
        return -51;
    int refusal = order_of_list(side, points, 12, false, false);
    if (refusal != 0)
        return -refusal;
    return smallest(points);
}

answer CALL(draw_chosen)(uint32_t side, const uint8_t *points, size_t points_len, uint8_t mark, uint32_t choice,
                         uint8_t *grid, size_t grid_len, uint32_t *new_cells)
{
    if (points_len != 12)
        return -51;
    if (choice > UNDER)
        return -55;
    int refusal = order_of_drawing(side, points, 12, grid_len, mark, false);
    if (refusal != 0)
        return -refusal;
    uint32_t steps = smallest(points);
    if (choice == UNDER)
        *new_cells = mark_samples(side, points, steps, mark, true, grid);
    else
        *new_cells = mark_samples(side, points, steps, mark, false, grid);
    return (answer)steps + 1;
}

#endif
