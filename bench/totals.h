/* Numbers in columns, and the totals of a cube as lines. */
#ifndef TOTALS_H
#define TOTALS_H

#include <stddef.h>
#include <stdint.h>

enum {
    TOTALS_LINE = 51,               /* bytes of a mark's line */
    TOTALS_TEXT = 256 * TOTALS_LINE /* bytes of the most lines */
};

/* A number in columns; of a larger one the last digits. */
static inline void put_number(uint32_t v, int columns, uint8_t *text)
{
    for (int i = columns - 1; i >= 0; i--) {
        text[i] = (uint8_t)(v == 0 && i < columns - 1 ? ' ' : '0' + v % 10);
        v /= 10;
    }
}

/* The line of a mark, with the count of its cells and the sums of their coordinates. */
static inline void put_totals_line(uint32_t mark, uint32_t count, uint32_t x, uint32_t y, uint32_t z, uint8_t *text)
{
    put_number(mark, 10, text);
    put_number(count, 10, text + 10);
    put_number(x, 10, text + 20);
    put_number(y, 10, text + 30);
    put_number(z, 10, text + 40);
    text[50] = '\n';
}

#endif
