/* (a) The library's algorithm in C: integer forward differences of twice the value, a remainder above -N and up to N for
   each axis, the step test on differences before the first write, which quits where the gaps are small, the same search
   for a step count, the same refusals in the same order. */
#include <math.h>
#include <stdbool.h>
#include <stddef.h>
#include <stdint.h>
#include <string.h>

#include "cell.h"
#include "gaps.h"
#include "totals.h"

#if defined(__GNUC__)
#define RARE(test) __builtin_expect(test, 0)
#define APART __attribute__((noinline)) /* a loop of its own keeps its numbers in registers */
#else
#define RARE(test) (test)
#define APART
#endif

/* A cubic along one parameter: its value and its forward differences. */
struct cubic {
    int64_t value, d1, d2, d3;
};

static inline int64_t cubed(int64_t n)
{
    return n * n * n;
}

/* Sample 0 of the cubic with control values q0 to q3 and n steps. */
static inline struct cubic start(int64_t n, int64_t q0, int64_t q1, int64_t q2, int64_t q3)
{
    int64_t a3 = -q0 + 3 * q1 - 3 * q2 + q3;
    int64_t a2 = 3 * q0 - 6 * q1 + 3 * q2;
    int64_t a1 = -3 * q0 + 3 * q1;
    struct cubic c = {n * n * n * q0, a3 + n * (a2 + n * a1), 6 * a3 + n * (2 * a2), 6 * a3};
    return c;
}

/* The same through four coordinates of the points, gap bytes apart, doubled. */
static inline struct cubic start_column(const uint8_t *points, int64_t n, size_t gap)
{
    return start(n, 2 * points[0], 2 * points[gap], 2 * points[2 * gap], 2 * points[3 * gap]);
}

static inline void next(struct cubic *c)
{
    c->value += c->d1;
    c->d1 += c->d2;
    c->d2 += c->d3;
}

static inline bool is_long(int64_t scale, int64_t d1)
{
    return RARE(d1 > 2 * scale || d1 < -2 * scale);
}

/* Some of the first n steps of the cubic is long. */
static INLINED bool has_long_step(struct cubic c, uint32_t n, int64_t scale)
{
    for (; n > 0; n--) {
        if (is_long(scale, c.d1))
            return true;
        next(&c);
    }
    return false;
}

static APART bool some_step_long(struct cubic c, uint32_t n, int64_t scale)
{
    return has_long_step(c, n, scale);
}

/* Some of the first n values of a cubic of differences is long. */
static INLINED bool has_long_value(struct cubic c, uint32_t n, int64_t scale)
{
    for (; n > 0; n--) {
        if (is_long(scale, c.value))
            return true;
        next(&c);
    }
    return false;
}

/* The next sample on one axis of a walk: the differences, then the decision. The cubic's value is the remainder, above
   -N and up to N; a move takes the place one stride on or back. */
static inline void step(struct cubic *c, int64_t scale, int64_t stride, int64_t *place)
{
    next(c);
    if (c->value > scale) {
        *place += stride;
        c->value -= 2 * scale;
    } else if (c->value <= -scale) {
        *place -= stride;
        c->value += 2 * scale;
    }
}

/* Marks the cells of a row, sample 0 and n steps; answers how many are new. */
static INLINED uint32_t mark_row(struct cubic x, struct cubic y, struct cubic z, int64_t place, uint32_t n,
                                 int64_t scale, int64_t side, uint8_t mark, bool under, uint8_t *grid)
{
    uint32_t new_cells = mark_cell(grid + place, mark, under);
    for (; n > 0; n--) {
        step(&x, scale, 1, &place);
        step(&y, scale, side, &place);
        step(&z, scale, side * side, &place);
        new_cells += mark_cell(grid + place, mark, under);
    }
    return new_cells;
}

static inline int64_t first_place(const uint8_t *points, int64_t side)
{
    return points[0] + side * (points[1] + side * points[2]);
}

/* Curves. */

static bool step_too_long(const uint8_t *points, uint32_t n)
{
    for (int a = 0; a < 3; a++)
        if (some_step_long(start_column(points + a, n, 3), n, cubed(n)))
            return true;
    return false;
}

/* The last step on one axis is too long. It is the first of the points in reverse order. */
static inline bool is_last_long(const uint8_t *points, uint32_t n, int64_t scale)
{
    struct cubic back = start(n, 2 * points[9], 2 * points[6], 2 * points[3], 2 * points[0]);
    return is_long(scale, back.d1);
}

static inline bool is_refused(const uint8_t *points, uint32_t n)
{
    int64_t scale = cubed(n);
    return is_last_long(points, n, scale) || has_long_step(start_column(points, n, 3), n, scale);
}

/* The first count from n on that one axis accepts. The most is accepted unexamined. */
static uint32_t climb(const uint8_t *points, uint32_t n, uint32_t most)
{
    while (n < most && is_refused(points, n))
        n++;
    return n;
}

/* The largest distance from the first point to the last on an axis. */
static inline uint32_t ends_apart(const uint8_t *points)
{
    int most = 0;
    for (int a = 0; a < 3; a++) {
        int apart = abs(points[9 + a] - points[a]);
        if (apart > most)
            most = apart;
    }
    return (uint32_t)most;
}

static inline uint32_t at_least_1(uint32_t n)
{
    return n == 0 ? 1 : n;
}

/* The smallest count: the axes in turn, x after z, each from the count that the one before it came to, until all three
   stay at one. */
static uint32_t smallest(const uint8_t *points)
{
    uint32_t most = at_least_1(3 * largest_gap(points)), n = at_least_1(ends_apart(points));
    int agreed = 0;
    for (int a = 0;; a = a == 2 ? 0 : a + 1) {
        uint32_t m = climb(points + a, n, most);
        agreed = m == n ? agreed + 1 : 1;
        n = m;
        if (agreed == 3)
            return n;
    }
}

/* Sample 0 on one axis: no remainder. */
static inline struct cubic start_walk(const uint8_t *points, uint32_t n)
{
    struct cubic c = start_column(points, n, 3);
    c.value = 0;
    return c;
}

static INLINED uint32_t mark_samples(uint32_t side, const uint8_t *points, uint32_t n, uint8_t mark, bool under,
                                     uint8_t *grid)
{
    return mark_row(start_walk(points, n), start_walk(points + 1, n), start_walk(points + 2, n),
                    first_place(points, side), n, cubed(n), side, mark, under, grid);
}

static inline void put_cell(uint8_t *list, int64_t x, int64_t y, int64_t z)
{
    list[0] = (uint8_t)x;
    list[1] = (uint8_t)y;
    list[2] = (uint8_t)z;
}

static void list_samples(const uint8_t *points, uint32_t n, uint8_t *list)
{
    int64_t scale = cubed(n), x = points[0], y = points[1], z = points[2];
    struct cubic cx = start_walk(points, n), cy = start_walk(points + 1, n), cz = start_walk(points + 2, n);
    put_cell(list, x, y, z);
    for (; n > 0; n--) {
        step(&cx, scale, 1, &x);
        step(&cy, scale, 1, &y);
        step(&cz, scale, 1, &z);
        list += 3;
        put_cell(list, x, y, z);
    }
}

/* Paths. */

/* A step, and whether it moved. */
static inline bool moves(struct cubic *c, int64_t scale, int64_t stride, int64_t *place)
{
    next(c);
    if (c->value > scale) {
        *place += stride;
        c->value -= 2 * scale;
        return true;
    }
    if (c->value <= -scale) {
        *place -= stride;
        c->value += 2 * scale;
        return true;
    }
    return false;
}

/* Marks the cells of the path: one after each move. Answers how many there are. */
static INLINED uint32_t mark_cells(uint32_t side, const uint8_t *points, uint32_t n, uint8_t mark, bool under,
                                   uint8_t *grid, uint32_t *new_cells)
{
    int64_t scale = cubed(n), row = side, plane = row * row, place = first_place(points, side);
    struct cubic x = start_walk(points, n), y = start_walk(points + 1, n), z = start_walk(points + 2, n);
    uint32_t cells = 1, fresh = mark_cell(grid + place, mark, under);
    for (; n > 0; n--) {
        if (moves(&x, scale, 1, &place)) {
            cells++;
            fresh += mark_cell(grid + place, mark, under);
        }
        if (moves(&y, scale, row, &place)) {
            cells++;
            fresh += mark_cell(grid + place, mark, under);
        }
        if (moves(&z, scale, plane, &place)) {
            cells++;
            fresh += mark_cell(grid + place, mark, under);
        }
    }
    *new_cells = fresh;
    return cells;
}

static uint32_t list_cells(const uint8_t *points, uint32_t n, uint8_t *list)
{
    int64_t scale = cubed(n), x = points[0], y = points[1], z = points[2];
    struct cubic cx = start_walk(points, n), cy = start_walk(points + 1, n), cz = start_walk(points + 2, n);
    uint8_t *at = list;
    put_cell(at, x, y, z);
    for (; n > 0; n--) {
        if (moves(&cx, scale, 1, &x))
            put_cell(at += 3, x, y, z);
        if (moves(&cy, scale, 1, &y))
            put_cell(at += 3, x, y, z);
        if (moves(&cz, scale, 1, &z))
            put_cell(at += 3, x, y, z);
    }
    return (uint32_t)(at - list) / 3 + 1;
}

/* The moves of one axis. */
static APART uint32_t count_moves(struct cubic c, uint32_t n, int64_t scale)
{
    uint32_t count = 0;
    int64_t place = 0;
    for (; n > 0; n--)
        count += moves(&c, scale, 1, &place);
    return count;
}

/* A list with room for the longest path is not counted for. */
static inline bool has_room(const uint8_t *points, uint32_t n, size_t list_len)
{
    if (list_len >= 3 * (3 * (size_t)n + 1))
        return true;
    uint32_t cells = 1;
    for (int a = 0; a < 3; a++)
        cells += count_moves(start_walk(points + a, n), n, cubed(n));
    return list_len >= 3 * (size_t)cells;
}

/* Patches. */

/* One axis: cubics along u of the value at t = 0 and of its three differences along t. */
struct surface {
    struct cubic value, d1, d2, d3;
};

/* Four cubics along the next parameter, of the numbers of four. */
static inline struct surface start_across(int64_t m, struct cubic c0, struct cubic c1, struct cubic c2, struct cubic c3)
{
    struct surface s = {
        start(m, c0.value, c1.value, c2.value, c3.value),
        start(m, c0.d1, c1.d1, c2.d1, c3.d1),
        start(m, c0.d2, c1.d2, c2.d2, c3.d2),
        start(m, c0.d3, c1.d3, c2.d3, c3.d3),
    };
    return s;
}

/* Row 0 of sixteen points, t bytes apart along t and u bytes along u. */
static INLINED struct surface start_face(const uint8_t *points, int64_t n, int64_t m, size_t t, size_t u)
{
    return start_across(m, start_column(points, n, t), start_column(points + u, n, t),
                        start_column(points + 2 * u, n, t), start_column(points + 3 * u, n, t));
}

static struct surface start_surface(const uint8_t *points, int64_t n, int64_t m)
{
    return start_face(points, n, m, 12, 3);
}

static inline void next_row(struct surface *s)
{
    next(&s->value);
    next(&s->d1);
    next(&s->d2);
    next(&s->d3);
}

/* The cubic along t of the row, and that of the steps to the next row. */
static inline struct cubic row(const struct surface *s)
{
    struct cubic c = {s->value.value, s->d1.value, s->d2.value, s->d3.value};
    return c;
}

static inline struct cubic slope(const struct surface *s)
{
    struct cubic c = {s->value.d1, s->d1.d1, s->d2.d1, s->d3.d1};
    return c;
}

/* Some step along t or u is long, in m + 1 rows of n + 1 samples. */
static INLINED bool long_on_surface(struct surface s, uint32_t n, uint32_t m, int64_t scale)
{
    for (uint32_t j = 0; j < m; j++) {
        if (has_long_step(row(&s), n, scale) || has_long_value(slope(&s), n + 1, scale))
            return true;
        next_row(&s);
    }
    return has_long_step(row(&s), n, scale);
}

static bool long_on_axis(const uint8_t *points, uint32_t n, uint32_t m)
{
    return long_on_surface(start_surface(points, n, m), n, m, cubed(n) * cubed(m));
}

static bool patch_step_too_long(const uint8_t *points, uint32_t n, uint32_t m)
{
    return long_on_axis(points, n, m) || long_on_axis(points + 1, n, m) || long_on_axis(points + 2, n, m);
}

/* The next row of a drawing: the value's cubic is a walk along u, whose remainder goes into the row. */
static inline void step_row(struct surface *s, int64_t scale, int64_t stride, int64_t *place)
{
    step(&s->value, scale, stride, place);
    next(&s->d1);
    next(&s->d2);
    next(&s->d3);
}

static inline struct surface start_rows(const uint8_t *points, uint32_t n, uint32_t m)
{
    struct surface s = start_surface(points, n, m);
    s.value.value = 0;
    return s;
}

/* Marks the cells of a patch, or of a slice of a solid, from its first row on: m + 1 rows. */
static INLINED uint32_t mark_surface(struct surface x, struct surface y, struct surface z, int64_t place, uint32_t n,
                                     uint32_t m, int64_t scale, int64_t side, uint8_t mark, bool under, uint8_t *grid)
{
    uint32_t new_cells = 0;
    for (;; m--) {
        new_cells += mark_row(row(&x), row(&y), row(&z), place, n, scale, side, mark, under, grid);
        if (m == 0)
            return new_cells;
        step_row(&x, scale, 1, &place);
        step_row(&y, scale, side, &place);
        step_row(&z, scale, side * side, &place);
    }
}

static INLINED uint32_t mark_rows(uint32_t side, const uint8_t *points, uint32_t n, uint32_t m, uint8_t mark,
                                  bool under, uint8_t *grid)
{
    return mark_surface(start_rows(points, n, m), start_rows(points + 1, n, m), start_rows(points + 2, n, m),
                        first_place(points, side), n, m, cubed(n) * cubed(m), side, mark, under, grid);
}

/* Solids. */

/* One axis: cubics along v, of a surface's sixteen numbers at t = u = 0. Each member has those of one order along t. */
struct solid {
    struct surface value, d1, d2, d3;
};

static void start_solid(const uint8_t *points, int64_t n, int64_t m, int64_t l, struct solid *s)
{
    struct surface f0 = start_face(points, n, m, 48, 12), f1 = start_face(points + 3, n, m, 48, 12);
    struct surface f2 = start_face(points + 6, n, m, 48, 12), f3 = start_face(points + 9, n, m, 48, 12);
    s->value = start_across(l, f0.value, f1.value, f2.value, f3.value);
    s->d1 = start_across(l, f0.d1, f1.d1, f2.d1, f3.d1);
    s->d2 = start_across(l, f0.d2, f1.d2, f2.d2, f3.d2);
    s->d3 = start_across(l, f0.d3, f1.d3, f2.d3, f3.d3);
}

static inline void next_slice(struct solid *s)
{
    next_row(&s->value);
    next_row(&s->d1);
    next_row(&s->d2);
    next_row(&s->d3);
}

/* The surface of the slice, and that of the steps to the next slice. */
static inline struct surface slice(const struct solid *s)
{
    struct surface f = {row(&s->value), row(&s->d1), row(&s->d2), row(&s->d3)};
    return f;
}

static inline struct surface slice_slope(const struct solid *s)
{
    struct surface f = {slope(&s->value), slope(&s->d1), slope(&s->d2), slope(&s->d3)};
    return f;
}

/* Some value of a surface of differences is long, in m + 1 rows of n + 1 samples. */
static INLINED bool long_value_on_surface(struct surface s, uint32_t n, uint32_t m, int64_t scale)
{
    for (;; m--) {
        if (has_long_value(row(&s), n + 1, scale))
            return true;
        if (m == 0)
            return false;
        next_row(&s);
    }
}

static bool solid_long_on_axis(const uint8_t *points, uint32_t n, uint32_t m, uint32_t l)
{
    int64_t scale = cubed(n) * cubed(m) * cubed(l);
    struct solid s;
    start_solid(points, n, m, l, &s);
    for (;; l--) {
        if (long_on_surface(slice(&s), n, m, scale))
            return true;
        if (l == 0)
            return false;
        if (long_value_on_surface(slice_slope(&s), n, m, scale))
            return true;
        next_slice(&s);
    }
}

static bool solid_step_too_long(const uint8_t *points, uint32_t n, uint32_t m, uint32_t l)
{
    return solid_long_on_axis(points, n, m, l) || solid_long_on_axis(points + 1, n, m, l) ||
           solid_long_on_axis(points + 2, n, m, l);
}

/* The next slice of a drawing: the value's cubic is a walk along v, whose remainder goes into the slice. */
static inline void step_slice(struct solid *s, int64_t scale, int64_t stride, int64_t *place)
{
    step_row(&s->value, scale, stride, place);
    next_row(&s->d1);
    next_row(&s->d2);
    next_row(&s->d3);
}

static inline void start_slices(const uint8_t *points, uint32_t n, uint32_t m, uint32_t l, struct solid *s)
{
    start_solid(points, n, m, l, s);
    s->value.value.value = 0;
}

static INLINED uint32_t mark_slices(uint32_t side, const uint8_t *points, uint32_t n, uint32_t m, uint32_t l,
                                    uint8_t mark, bool under, uint8_t *grid)
{
    int64_t h = side, scale = cubed(n) * cubed(m) * cubed(l), place = first_place(points, h);
    struct solid x, y, z;
    uint32_t new_cells = 0;
    start_slices(points, n, m, l, &x);
    start_slices(points + 1, n, m, l, &y);
    start_slices(points + 2, n, m, l, &z);
    for (;; l--) {
        new_cells += mark_surface(slice(&x), slice(&y), slice(&z), place, n, m, scale, h, mark, under, grid);
        if (l == 0)
            return new_cells;
        step_slice(&x, scale, 1, &place);
        step_slice(&y, scale, h, &place);
        step_slice(&z, scale, h * h, &place);
    }
}

/* Swatches. */

static inline bool in_range(float v)
{
    return 0.0f <= v && v <= 1.0f;
}

/* Of a channel out of range. */
static inline int channel_refusal(float v)
{
    return isfinite(v) ? 32 : 31;
}

static inline int refusal_of_one(float v)
{
    return in_range(v) ? 0 : channel_refusal(v);
}

static inline int refusal_of_three(float a, float b, float c)
{
    if (in_range(a) && in_range(b) && in_range(c))
        return 0;
    return channel_refusal(!in_range(a) ? a : !in_range(b) ? b : c);
}

static inline int refusal_of_hue(float h, float s, float v)
{
    bool hue_in_range = 0.0f <= h && h < 6.0f;
    if (hue_in_range && in_range(s) && in_range(v))
        return 0;
    if (!hue_in_range)
        return isfinite(h) ? 33 : 31;
    return channel_refusal(in_range(s) ? v : s);
}

/* With v's exponent x, v is mantissa / 2^(150 - x), and w / 2^(149 - x) is twice v × (side - 1): rounded up and halved,
   a half goes down. w is below 2^30, so a shift of 31 serves for every longer one. */
static inline uint8_t coordinate(uint32_t side, float v)
{
    uint32_t b;
    memcpy(&b, &v, sizeof b);
    uint32_t shift = 149 - (b >> 23 & 255), w = (0x800000 | (b & 0x7fffff)) * (side - 1);
    return (uint8_t)((((w - 1) >> (shift < 31 ? shift : 31)) + 1) / 2);
}

static inline float mix(float a, float b)
{
    return (a + b) * 0.5f;
}

/* Totals. */

/* A mark has two words: the count of its cells and the sum of their x, 32 bits each, and the sums of y and z. Cells of
   even and of odd x have words of their own, so that along a run of one mark a sum does not wait for the one before it:
   those of mark m stand at 4 m for even x, at 4 m + 2 for odd x. */
enum { TABLE = 4 * 256 };

static inline void add(uint8_t mark, uint64_t x, uint64_t y, uint64_t z, uint64_t table[TABLE])
{
    uint64_t *words = table + 4 * mark + 2 * (x % 2);
    words[0] += 1 + (x << 32);
    words[1] += y + (z << 32);
}

/* The cells of a row, an even and an odd x at a time. */
static inline void add_row(const uint8_t *marks, uint32_t side, uint64_t y, uint64_t z, uint64_t table[TABLE])
{
    uint64_t x = 0;
    for (; x + 1 < side; x += 2) {
        add(marks[x], x, y, z, table);
        add(marks[x + 1], x + 1, y, z, table);
    }
    if (x < side)
        add(marks[x], x, y, z, table);
}

static void add_rows(uint32_t side, const uint8_t *cube, uint64_t table[TABLE])
{
    for (uint32_t z = 0; z < side; z++)
        for (uint32_t y = 0; y < side; y++, cube += side)
            add_row(cube, side, y, z, table);
}

/* The line of a mark, if it has cells or is 0; answers the byte after it. */
static inline uint8_t *put_total(uint32_t mark, const uint64_t table[TABLE], uint8_t *text)
{
    const uint64_t *words = table + 4 * mark;
    uint64_t first = words[0] + words[2], second = words[1] + words[3];
    if ((uint32_t)first == 0 && mark != 0)
        return text;
    put_totals_line(mark, (uint32_t)first, (uint32_t)(first >> 32), (uint32_t)second, (uint32_t)(second >> 32), text);
    return text + TOTALS_LINE;
}

static uint8_t *put_totals(uint32_t side, const uint8_t *cube, uint8_t *text)
{
    uint64_t table[TABLE] = {0};
    add_rows(side, cube, table);
    for (uint32_t mark = 1; mark < 256; mark++)
        text = put_total(mark, table, text);
    return put_total(0, table, text);
}

/* Flips: the points with these numbers, in turn. */

static INLINED void put_points(const uint8_t *points, const uint8_t *numbers, size_t count, uint8_t *flipped)
{
    for (size_t k = 0; k < count; k++) {
        const uint8_t *from = points + 3 * numbers[k];
        uint8_t x = from[0], y = from[1], z = from[2];
        flipped[3 * k] = x;
        flipped[3 * k + 1] = y;
        flipped[3 * k + 2] = z;
    }
}

static void reverse_points(const uint8_t *points, uint8_t *flipped)
{
    static const uint8_t numbers[4] = {3, 2, 1, 0};
    put_points(points, numbers, 4, flipped);
}

static void exchange_points(const uint8_t *points, uint8_t *flipped)
{
    static const uint8_t numbers[16] = {0, 4, 8, 12, 1, 5, 9, 13, 2, 6, 10, 14, 3, 7, 11, 15};
    put_points(points, numbers, 16, flipped);
}

#define CALL(name) same_##name
#include "calls.h"
#include "chosen.h"
#include "sheet.h"
