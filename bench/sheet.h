/* Stroke sheets, read, judged and listed, and totals, for (a) and (b). The file that includes this one has calls.h
   before it, and what that asks for, and defines put_totals, which writes the lines of a cube's totals and answers the
   byte after them. */
#ifndef SHEET_H
#define SHEET_H

#include "box.h"
#include "order.h"
#include "totals.h"

#include <string.h>

enum {
    BUFFER = 64000, /* bytes of a sheet's buffer */
    FIELDS = 14,    /* of a curve line */
    LINE = 71,      /* bytes of a curve line with its line feed */
    FIRST = 6,      /* bytes of line 1 */
    BAD = 100000    /* the value of a bad field */
};

/* The value of a field of five columns. */
static uint32_t number(const uint8_t *field)
{
    int i = 0;
    while (i < 5 && field[i] == ' ')
        i++;
    if (i == 5 || (i < 4 && field[i] == '0'))
        return BAD;
    uint32_t n = 0;
    for (; i < 5; i++) {
        uint32_t digit = (uint32_t)field[i] - '0';
        if (digit > 9)
            return BAD;
        n = 10 * n + digit;
    }
    return n;
}

static bool is_line(const uint8_t *rest, size_t len, size_t fields)
{
    size_t last = 5 * fields;
    return len > last && rest[last] == '\n' && !memchr(rest, '\n', last);
}

/* Reads a curve line up to a field that does not fit; false if there is one. */
static bool read_curve(const uint8_t *line, struct curve *curve)
{
    uint32_t mark = number(line);
    if (mark == 0 || mark > 255)
        return false;
    curve->mark = (uint8_t)mark;
    curve->steps = number(line + 5);
    if (curve->steps == BAD)
        return false;
    for (int k = 0; k < 12; k++) {
        uint32_t c = number(line + 10 + 5 * k);
        if (c > 255)
            return false;
        curve->points[k] = (uint8_t)c;
    }
    return true;
}

/* Of a curve line that does not fit: 42, 12, 13 or 14. */
static int refusal_of(const uint8_t *line)
{
    for (int k = 0; k < FIELDS; k++)
        if (number(line + 5 * k) == BAD)
            return 42;
    uint32_t mark = number(line);
    if (mark == 0 || mark > 255)
        return 12;
    return is_count_out(512, number(line + 5)) ? 13 : 14;
}

/* Line 1: 41, 42, 11, 43; 0 if none applies. */
static int judge_side(const uint8_t *input, size_t len, uint32_t *side)
{
    if (!is_line(input, len, 1))
        return 41;
    *side = number(input);
    if (*side == BAD)
        return 42;
    if (!is_side(*side))
        return 11;
    return *side > 40 ? 43 : 0;
}

/* A curve line: 44, 41, 42, 12, 13, 14, 15; 0 if none applies. */
static int judge_curve(uint32_t side, uint32_t line, const uint8_t *rest, size_t len)
{
    if (line > 201)
        return 44;
    if (!is_line(rest, len, FIELDS))
        return 41;
    struct curve curve;
    if (!read_curve(rest, &curve))
        return refusal_of(rest);
    int refusal = order_of_list(side, curve.points, 12, is_count_out(512, curve.steps), false);
    if (refusal != 0)
        return refusal;
    return test_steps(curve.points, curve.steps) < 0 ? 15 : 0;
}

/* The first refusal of a sheet, with its line; 0 if none applies, with the line past the last. */
static int judge_sheet(const uint8_t *input, size_t len, uint32_t *side, uint32_t *line)
{
    *line = 1;
    int refusal = judge_side(input, len, side);
    if (refusal != 0)
        return refusal;
    *line = 2;
    for (size_t at = FIRST; at < len; at += LINE, ++*line) {
        refusal = judge_curve(*side, *line, input + at, len - at);
        if (refusal != 0)
            return refusal;
    }
    return 0;
}

/* Answers how many cells are new, one line after the other. */
static uint32_t draw_lines(const uint8_t *input, uint32_t side, uint32_t curves, uint8_t *cube)
{
    uint32_t new_cells = 0;
    memset(cube, 0, (size_t)side * side * side);
    for (uint32_t k = 0; k < curves; k++) {
        struct curve curve;
        if (read_curve(input + FIRST + LINE * k, &curve))
            new_cells += mark_samples(side, curve.points, curve.steps, curve.mark, false, cube);
    }
    return new_cells;
}

answer CALL(draw_sheet)(const uint8_t *input, size_t len, uint8_t *buffer, size_t buffer_len, uint32_t *detail,
                        uint32_t *new_cells)
{
    *detail = 0;
    if (buffer_len != BUFFER)
        return -21;
    uint32_t side, line;
    int refusal = judge_sheet(input, len, &side, &line);
    if (refusal != 0) {
        *detail = line;
        return -refusal;
    }
    *new_cells = draw_lines(input, side, line - 2, buffer);
    *detail = side;
    return (answer)line - 2;
}

/* A byte in five columns. */
static inline void put_byte(uint8_t v, uint8_t *text)
{
    text[0] = ' ';
    text[1] = ' ';
    text[2] = (uint8_t)(v < 100 ? ' ' : '0' + v / 100);
    text[3] = (uint8_t)(v < 10 ? ' ' : '0' + v / 10 % 10);
    text[4] = (uint8_t)('0' + v % 10);
}

/* The lines of a row's marked cells from x on; answers the byte after them. */
static uint8_t *put_row(const uint8_t *marks, size_t len, size_t x, size_t y, size_t z, uint8_t *text)
{
    for (size_t i = 0; i < len; i++) {
        if (marks[i] == 0)
            continue;
        put_byte((uint8_t)(x + i), text);
        put_byte((uint8_t)y, text + 5);
        put_byte((uint8_t)z, text + 10);
        put_byte(marks[i], text + 15);
        text[20] = '\n';
        text += 21;
    }
    return text;
}

/* The lines of n places from byte first on, row by row. */
static uint8_t *put_cells(size_t side, const uint8_t *cube, size_t first, size_t n, uint8_t *text)
{
    size_t end = first + n;
    size_t x = first % side, y = first / side % side, z = first / side / side;
    while (first < end) {
        size_t stop = first + (side - x);
        if (stop > end)
            stop = end;
        text = put_row(cube + first, stop - first, x, y, z, text);
        first = stop;
        x = 0;
        if (++y == side) {
            y = 0;
            z++;
        }
    }
    return text;
}

answer CALL(list_part)(uint32_t side, const uint8_t *cube, size_t cube_len, size_t first, size_t count, uint8_t *text,
                       size_t text_len)
{
    static const char heading[] = "    X    Y    Z MARK\n";
    int refusal = order_of_text(side, cube_len, text_len / 21 <= count);
    if (refusal != 0)
        return -refusal;
    size_t left = first < cube_len ? cube_len - first : 0;
    uint8_t *at = text;
    if (first == 0) {
        memcpy(at, heading, 21);
        at += 21;
    }
    return (answer)(put_cells(side, cube, first, count < left ? count : left, at) - text);
}

answer CALL(totals)(uint32_t side, const uint8_t *cube, size_t cube_len, uint8_t *text, size_t text_len)
{
    int refusal = order_of_text(side, cube_len, text_len < TOTALS_TEXT);
    if (refusal != 0)
        return -refusal;
    return (answer)(put_totals(side, cube, text) - text);
}

answer CALL(refusal_line)(uint32_t number, uint32_t line, uint8_t *text, size_t text_len)
{
    if (number > 99999 || line > 99999)
        return -54;
    if (text_len < 18)
        return -22;
    memcpy(text, "REFUSED", 7);
    put_number(number, 5, text + 7);
    put_number(line, 5, text + 12);
    text[17] = '\n';
    return 18;
}

#endif
