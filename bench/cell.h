/* The writing of a cell, for (a), (b) and (c). */
#ifndef CELL_H
#define CELL_H

#include <stdbool.h>
#include <stdint.h>

/* Of a function that goes over or under, called with a constant: each choice has a loop of its own. */
#if defined(__GNUC__)
#define INLINED inline __attribute__((always_inline))
#else
#define INLINED inline
#endif

/* Marks a cell over what it holds, or under it: a marked cell then keeps its mark. Answers 1 if it was unmarked, or 0. */
static inline uint32_t mark_cell(uint8_t *cell, uint8_t mark, bool under)
{
    uint8_t held = *cell;
    *cell = under && held != 0 ? held : mark;
    return held == 0;
}

#endif
