/* The reference of reference.h. */
#include "reference.h"

#include <assert.h>
#include <string.h>

/* The order of refusals */

void order_add(struct order *order, int number, int applies) {
    order->step[order->length].number = number;
    order->step[order->length].applies = applies != 0;
    order->length++;
}

int order_first(const struct order *order) {
    for (int k = 0; k < order->length; k++)
        if (order->step[k].applies)
            return order->step[k].number;
    return 0;
}

static int side_outside(uint32_t side) { return side < 2 || 64 < side; }

/* S x S x S of any 32-bit side fits in 96 bits. */
static wide volume(uint32_t side) { return (wide)side * side * side; }

static size_t place(uint32_t side, int32_t x, int32_t y, int32_t z) {
    return (size_t)x + (size_t)side * (size_t)y + (size_t)side * side * (size_t)z;
}

int lists(const struct object_call *c) { return c->service == LIST || c->service == LIST_PATH; }

int draws(const struct object_call *c) {
    return c->service == DRAW || c->service == DRAW_CHOSEN || c->service == DRAW_PATH || c->service == DRAW_STRIP;
}

int chooses(const struct object_call *c) { return c->service == CHOOSE || c->service == DRAW_CHOSEN; }

int of_path(const struct object_call *c) { return c->service == LIST_PATH || c->service == DRAW_PATH; }

int on_strip(const struct object_call *c) { return c->service == DRAW_STRIP; }

/* Parameters */

enum { PARAMETERS = 3 };

size_t record_bytes(enum form form) { return (size_t)12 << 2 * form; }

uint32_t count_along(const struct object_call *c, int parameter) {
    return parameter == 0 ? c->n : parameter == 1 ? c->m : c->l;
}

/* Exact samples */

static void weights_at(uint32_t n, uint32_t i, wide weight[4]) {
    wide i1 = i, r = (wide)n - i;
    weight[0] = r * r * r;
    weight[1] = 3 * i1 * r * r;
    weight[2] = 3 * i1 * i1 * r;
    weight[3] = i1 * i1 * i1;
}

/* One axis: point k at points[3 k]. */
static wide weighted(const uint8_t *points, const wide weight[4]) {
    wide sum = 0;
    for (int k = 0; k < 4; k++)
        sum += weight[k] * points[3 * k];
    return sum;
}

/* How far neighbours along a parameter are from one another. */
static size_t stride_of(const struct samples *s, int parameter) {
    size_t stride = 1;
    for (int p = 0; p < parameter; p++)
        stride *= s->number[p];
    return stride;
}

/* Sums over one parameter after another, the last first: with the weights of a sample along it, every four points that
   differ in it alone become one. The values are those from sample number at on, of the parameters up to this one. */
static void sum_along(int parameter, wide (*g)[3], size_t at, struct samples *s) {
    size_t lines = (size_t)1 << 2 * parameter, stride = stride_of(s, parameter);
    uint32_t n = (uint32_t)s->number[parameter] - 1;
    for (uint32_t i = 0; i <= n; i++, at += stride) {
        wide weight[4], sum[16][3];
        weights_at(n, i, weight);
        for (size_t line = 0; line < lines; line++)
            for (int axis = 0; axis < 3; axis++) {
                sum[line][axis] = 0;
                for (size_t k = 0; k < 4; k++)
                    sum[line][axis] += weight[k] * g[4 * line + k][axis];
            }
        if (parameter > 0)
            sum_along(parameter - 1, sum, at, s);
        else
            for (int axis = 0; axis < 3; axis++)
                s->value[axis][at] = sum[0][axis];
    }
}

void exact_values(const struct object_call *c, struct samples *s) {
    wide g[64][3];
    s->many = 1;
    s->scale = 1;
    for (int p = 0; p < PARAMETERS; p++) {
        uint32_t count = count_along(c, p);
        s->number[p] = p <= (int)c->form ? (size_t)count + 1 : 1;
        s->scale *= p <= (int)c->form ? (wide)count * count * count : 1;
        s->many *= s->number[p];
    }
    for (size_t k = 0; k < record_bytes(c->form); k++)
        g[k / 3][k % 3] = c->points[k];
    sum_along((int)c->form, g, 0, s);
}

static wide distance(wide a, wide b) { return a < b ? b - a : a - b; }

/* Samples that differ in this parameter and those before it alone stand in one block. */
wide longest_step_along(const struct samples *s, int parameter) {
    size_t stride = stride_of(s, parameter), block = stride * s->number[parameter];
    wide longest = 0;
    for (int axis = 0; axis < 3; axis++) {
        const wide *v = s->value[axis];
        for (size_t start = 0; start < s->many; start += block)
            for (size_t at = start; at + stride < start + block; at++)
                if (distance(v[at], v[at + stride]) > longest)
                    longest = distance(v[at], v[at + stride]);
    }
    return longest;
}

wide longest_step(const struct samples *s) {
    wide longest = 0;
    for (int p = 0; p < PARAMETERS; p++) {
        wide along = longest_step_along(s, p);
        longest = along > longest ? along : longest;
    }
    return longest;
}

/* The smallest count */

/* The values are those of exact_values; none is kept but those of the sample before. */
static int some_step_too_long(const uint8_t *points, uint32_t n) {
    wide weight[4], before[3] = {0}, scale = (wide)n * n * n;
    for (uint32_t i = 0; i <= n; i++) {
        weights_at(n, i, weight);
        for (int axis = 0; axis < 3; axis++) {
            wide value = weighted(points + axis, weight);
            if (i > 0 && distance(before[axis], value) > scale)
                return 1;
            before[axis] = value;
        }
    }
    return 0;
}

uint32_t smallest_count(const struct object_call *c) {
    uint32_t n = 1;
    while (some_step_too_long(c->points, n))
        n++;
    return n;
}

/* Where the step test of a curve quits */

static wide largest_gap_along(const uint8_t *points, int axis) {
    wide largest = 0;
    for (int k = 0; k < 3; k++) {
        wide gap = distance(points[3 * k + axis], points[3 * (k + 1) + axis]);
        if (gap > largest)
            largest = gap;
    }
    return largest;
}

int test_quits(const struct object_call *c) {
    int on_every_axis = 1;
    for (int axis = 0; axis < 3; axis++)
        on_every_axis &= 3 * largest_gap_along(c->points, axis) <= c->n;
    return on_every_axis;
}

/* Cells */

/* A cell c owns the values above c - 1/2 up to and including c + 1/2: what is more than a half past the whole part goes to
   the next one. */
static int32_t owner(wide value, wide scale) {
    wide whole = value / scale;
    return (int32_t)(2 * (value - whole * scale) > scale ? whole + 1 : whole);
}

static void take_cells(struct samples *s) {
    for (int axis = 0; axis < 3; axis++)
        for (size_t at = 0; at < s->many; at++)
            s->cell[axis][at] = owner(s->value[axis][at], s->scale);
}

/* Paths */

static size_t cells_of_path(const struct samples *s) {
    wide length = 1;
    for (int axis = 0; axis < 3; axis++)
        for (size_t at = 1; at < s->many; at++)
            length += distance(s->cell[axis][at - 1], s->cell[axis][at]);
    return (size_t)length;
}

size_t path_length(const struct object_call *c) {
    static struct samples samples;
    exact_values(c, &samples);
    take_cells(&samples);
    return cells_of_path(&samples);
}

static void add_to_path(struct samples *path, const int32_t cell[3]) {
    for (int axis = 0; axis < 3; axis++)
        path->cell[axis][path->many] = cell[axis];
    path->many++;
}

/* From the cell reached, x goes to that of the next sample, then y, then z, and each move adds the cell it comes to. */
static void take_path(const struct samples *s, struct samples *path) {
    int32_t reached[3] = {s->cell[0][0], s->cell[1][0], s->cell[2][0]};
    path->many = 0;
    add_to_path(path, reached);
    for (size_t at = 1; at < s->many; at++)
        for (int axis = 0; axis < 3; axis++)
            while (reached[axis] != s->cell[axis][at]) {
                reached[axis] += reached[axis] < s->cell[axis][at] ? 1 : -1;
                add_to_path(path, reached);
            }
    path->number[0] = path->many;
    path->number[1] = path->number[2] = 1;
}

/* Sample 0 has none, and its value, a coordinate, lies on no half. */
static size_t sample_before(const struct samples *s, size_t at) {
    int p = 0;
    while (at / stride_of(s, p) % s->number[p] == 0)
        p++;
    return at - stride_of(s, p);
}

void count_ties(const struct samples *s, uint64_t *rising, uint64_t *falling, uint64_t *beside) {
    for (int axis = 0; axis < 3; axis++)
        for (size_t at = 0; at < s->many; at++) {
            const wide *v = s->value[axis];
            wide over = 2 * (v[at] - s->cell[axis][at] * s->scale), from_half = s->scale - distance(over, 0);
            *rising += over == s->scale && v[sample_before(s, at)] < v[at];
            *falling += over == s->scale && v[sample_before(s, at)] > v[at];
            *beside += s->scale > 8 && (from_half == 1 || from_half == 2);
        }
}

static void count_pair(const struct samples *s, size_t at, size_t next, struct neighbours *n) {
    int on_halves = 0, apart = 0;
    for (int axis = 0; axis < 3; axis++) {
        const wide *v = s->value[axis];
        apart |= distance(s->cell[axis][at], s->cell[axis][next]) > 1;
        on_halves |= distance(v[at], v[next]) == s->scale && 2 * (v[at] % s->scale) == s->scale;
    }
    n->on_halves += (uint64_t)on_halves;
    n->apart += (uint64_t)apart;
}

void count_neighbours(const struct samples *s, struct neighbours *n) {
    for (int p = 0; p < PARAMETERS; p++) {
        size_t stride = stride_of(s, p), block = stride * s->number[p];
        for (size_t start = 0; start < s->many; start += block)
            for (size_t at = start; at + stride < start + block; at++) {
                n->along[p]++;
                count_pair(s, at, at + stride, n);
            }
    }
}

/* Checking, listing and drawing */

static uint32_t most_steps(const struct object_call *c) { return c->form == CURVE ? 512 : c->form == PATCH ? 256 : 32; }

/* Whether some count of the object is from low to high. */
static int some_count(const struct object_call *c, uint32_t low, uint32_t high) {
    int some = 0;
    for (int p = 0; p <= (int)c->form; p++)
        some |= low <= count_along(c, p) && count_along(c, p) <= high;
    return some;
}

static int count_outside(const struct object_call *c) {
    return some_count(c, 0, 0) || some_count(c, most_steps(c) + 1, UINT32_MAX);
}

/* Of the strip: 18 to 64, and 65 to what 13 lets pass. */
static int side_off_strip(uint32_t side) { return 18 <= side && side <= 64; }

static int count_off_strip(const struct object_call *c) { return some_count(c, 65, most_steps(c)); }

static int coordinate_outside(const struct object_call *c) {
    for (size_t k = 0; k < c->points_len; k++)
        if (c->points[k] >= c->side)
            return 1;
    return 0;
}

/* Behind another number 15 is only tried for objects of few samples. */
static int few_samples(const struct object_call *c) {
    wide many = 1;
    for (int p = 0; p <= (int)c->form; p++)
        many *= (wide)count_along(c, p) + 1;
    return !some_count(c, 0, 0) && many <= 800;
}

static int steps_too_long(const struct object_call *c, const struct order *order, struct samples *s) {
    if (order_first(order) != 0 && !few_samples(c))
        return 0;
    exact_values(c, s);
    return longest_step(s) > s->scale;
}

/* Shorter than 3 bytes for each cell of the path, or, where another number applies, for one cell. */
static int path_list_short(const struct object_call *c, const struct order *order, struct samples *s) {
    if (order_first(order) != 0)
        return c->lent_len < 3;
    take_cells(s);
    return c->lent_len < 3 * cells_of_path(s);
}

static void strip_order(const struct object_call *c, struct order *order, struct samples *s) {
    int wrong_record = c->points_len != record_bytes(c->form);
    order_add(order, 51, wrong_record);
    order_add(order, 55, c->choice != OVER && c->choice != UNDER);
    order_add(order, 11, side_outside(c->side));
    order_add(order, 23, side_off_strip(c->side));
    order_add(order, 21, (wide)c->lent_len != volume(c->side));
    order_add(order, 12, c->mark == 0);
    order_add(order, 13, count_outside(c));
    order_add(order, 24, count_off_strip(c));
    order_add(order, 14, !wrong_record && coordinate_outside(c));
    order_add(order, 15, !wrong_record && steps_too_long(c, order, s));
}

static void object_order(const struct object_call *c, struct order *order, struct samples *s) {
    int wrong_record = c->points_len != record_bytes(c->form);
    order_add(order, 51, wrong_record);
    if (draws(c))
        order_add(order, 55, c->choice != OVER && c->choice != UNDER);
    order_add(order, 11, side_outside(c->side));
    if (draws(c)) {
        order_add(order, 21, (wide)c->lent_len != volume(c->side));
        order_add(order, 12, c->mark == 0);
    }
    if (!chooses(c))
        order_add(order, 13, count_outside(c));
    if (c->service == LIST)
        order_add(order, 22, (wide)c->lent_len < 3 * ((wide)c->n + 1));
    order_add(order, 14, !wrong_record && coordinate_outside(c));
    if (!chooses(c))
        order_add(order, 15, !wrong_record && steps_too_long(c, order, s));
    if (c->service == LIST_PATH)
        order_add(order, 22, path_list_short(c, order, s));
}

static void list_cells(const struct samples *s, uint8_t *list) {
    for (size_t at = 0; at < s->many; at++)
        for (int axis = 0; axis < 3; axis++)
            *list++ = (uint8_t)s->cell[axis][at];
}

static size_t place_of(const struct samples *s, size_t at, uint32_t side) {
    return place(side, s->cell[0][at], s->cell[1][at], s->cell[2][at]);
}

static void mark_cell(uint8_t *cell, uint8_t mark, enum choice choice) {
    if (choice == OVER || *cell == 0)
        *cell = mark;
}

void mark_cells(const struct samples *s, uint32_t side, uint8_t mark, enum choice choice, uint8_t *grid) {
    for (size_t at = 0; at < s->many; at++)
        mark_cell(grid + place_of(s, at, side), mark, choice);
}

void mark_backwards(const struct samples *s, uint32_t side, uint8_t mark, enum choice choice, uint8_t *grid) {
    for (size_t at = s->many; at > 0; at--)
        mark_cell(grid + place_of(s, at - 1, side), mark, choice);
}

/* Blocks of 64 for speed. */
size_t unmarked_cells(const uint8_t *grid, size_t len) {
    size_t count = 0;
    for (; len >= 64; len -= 64, grid += 64) {
        uint8_t of_block = 0;
        for (int k = 0; k < 64; k++)
            of_block = (uint8_t)(of_block + (grid[k] == 0));
        count += of_block;
    }
    while (len > 0)
        count += grid[--len] == 0;
    return count;
}

static void draw(const struct object_call *c, const struct samples *s) {
    size_t before = unmarked_cells(c->lent, c->lent_len), after;
    mark_cells(s, c->side, c->mark, (enum choice)c->choice, c->lent);
    after = unmarked_cells(c->lent, c->lent_len);
    assert(after <= before);
    *c->new_cells = (uint32_t)(before - after);
}

int64_t reference_object(const struct object_call *c, struct order *order, struct samples *s, struct samples *path) {
    const struct samples *cells = of_path(c) ? path : s;
    if (on_strip(c))
        strip_order(c, order, s);
    else
        object_order(c, order, s);
    if (order_first(order) != 0)
        return -order_first(order);
    if (chooses(c)) {
        struct object_call chosen = *c;
        chosen.n = smallest_count(c);
        exact_values(&chosen, s);
    }
    take_cells(s);
    if (c->service == CHECK)
        return c->form == CURVE ? test_quits(c) : 0;
    if (c->service == CHOOSE)
        return (int64_t)s->number[0] - 1;
    if (of_path(c))
        take_path(s, path);
    if (lists(c))
        list_cells(cells, c->lent);
    else
        draw(c, cells);
    return (int64_t)cells->many;
}

/* Flips */

static void put_point(uint8_t *to, const uint8_t *from) {
    for (int axis = 0; axis < 3; axis++)
        to[axis] = from[axis];
}

/* 51 and 52, for a record of so many bytes. */
static int flip_order(size_t right, size_t points_len, size_t flipped_len, struct order *order) {
    order_add(order, 51, points_len != right);
    order_add(order, 52, flipped_len != right);
    return order_first(order);
}

int64_t reference_flip_curve(const uint8_t *points, size_t points_len, uint8_t *flipped, size_t flipped_len,
                             struct order *order) {
    int refusal = flip_order(12, points_len, flipped_len, order);
    for (int k = 0; refusal == 0 && k < 4; k++)
        put_point(flipped + 3 * (3 - k), points + 3 * k);
    return -refusal;
}

int64_t reference_flip_patch(const uint8_t *points, size_t points_len, uint32_t *n, uint32_t *m, uint8_t *flipped,
                             size_t flipped_len, struct order *order) {
    int refusal = flip_order(48, points_len, flipped_len, order);
    uint32_t along_t = *n, along_u = *m;
    if (refusal != 0)
        return -refusal;
    for (int i = 0; i < 4; i++)
        for (int j = 0; j < 4; j++)
            put_point(flipped + 3 * (4 * j + i), points + 3 * (4 * i + j));
    *n = along_u;
    *m = along_t;
    return 0;
}

/* Cells of an accepted object */

size_t different_cells(const struct samples *s, uint32_t side) {
    static uint8_t met[64 * 64 * 64];
    size_t count = 0;
    for (size_t at = 0; at < s->many; at++) {
        size_t p = place_of(s, at, side);
        count += met[p] == 0;
        met[p] = 1;
    }
    mark_cells(s, side, 0, OVER, met);
    return count;
}

size_t turns(const struct samples *s) {
    size_t count = 1;
    for (size_t at = 1; at < s->many; at++) {
        int same = 1;
        for (int axis = 0; axis < 3; axis++)
            same &= s->cell[axis][at] == s->cell[axis][at - 1];
        count += !same;
    }
    return count;
}

int meets_mark(const struct samples *s, uint32_t side, uint8_t mark, const uint8_t *grid) {
    for (size_t at = 0; at < s->many; at++)
        if (grid[place_of(s, at, side)] == mark)
            return 1;
    return 0;
}

/* What was met in turn: 1 a marked cell, 2 then an unmarked one, 3 then a marked one. */
int meets_gap(const struct samples *s, uint32_t side, const uint8_t *grid) {
    int met = 0;
    for (size_t at = 0; at < s->many && met < 3; at++)
        met += (grid[place_of(s, at, side)] != 0) == (met % 2 == 0);
    return met == 3;
}

/* Demand 3 */

/* At most so many halves of a cell. */
static int within_halves(wide halves, wide value, wide scale, int32_t coordinate) {
    return 2 * distance(value, coordinate * scale) <= halves * scale;
}

static int within_half(wide value, wide scale, int32_t coordinate) {
    return within_halves(1, value, scale, coordinate);
}

static int sample_within(const struct samples *s, size_t at, uint32_t side) {
    for (int axis = 0; axis < 3; axis++) {
        int32_t cell = s->cell[axis][at];
        if (cell < 0 || (int32_t)side <= cell || !within_half(s->value[axis][at], s->scale, cell))
            return 0;
    }
    return 1;
}

static int cell_holds(const struct object_call *c, uint8_t before, uint8_t after) {
    if (c->choice == OVER)
        return after == c->mark;
    return after != 0 && after == (before == 0 ? c->mark : before);
}

int samples_hold(const struct samples *s, const struct object_call *c, const uint8_t *before, const uint8_t *after) {
    struct neighbours neighbours = {0};
    for (size_t at = 0; at < s->many; at++) {
        size_t p = place_of(s, at, c->side);
        if (!sample_within(s, at, c->side) || !cell_holds(c, before[p], after[p]))
            return 0;
    }
    count_neighbours(s, &neighbours);
    return neighbours.apart == 0;
}

int path_holds(const struct samples *path, const struct object_call *c, const uint8_t *before, const uint8_t *after) {
    for (size_t at = 0; at < path->many; at++) {
        size_t p = place_of(path, at, c->side);
        if (!cell_holds(c, before[p], after[p]))
            return 0;
    }
    return 1;
}

static wide cells_between(const struct samples *a, size_t at, const struct samples *b, size_t bt) {
    wide far = 0;
    for (int axis = 0; axis < 3; axis++)
        far += distance(a->cell[axis][at], b->cell[axis][bt]);
    return far;
}

static int near_sample(const struct samples *s, size_t at, const struct samples *path, size_t on) {
    for (int axis = 0; axis < 3; axis++)
        if (!within_halves(3, s->value[axis][at], s->scale, path->cell[axis][on]))
            return 0;
    return 1;
}

/* on: how far along the path the last sample's cell was. */
int path_leads(const struct samples *s, const struct samples *path) {
    size_t on = 0;
    if (cells_between(s, 0, path, 0) != 0)
        return 0;
    for (size_t at = 1; at < s->many; at++)
        while (cells_between(s, at, path, on) != 0) {
            on++;
            if (on == path->many || cells_between(path, on - 1, path, on) != 1 || !near_sample(s, at - 1, path, on))
                return 0;
        }
    return on + 1 == path->many;
}

/* With the samples' cells put back, the grid is the one before. */
int others_kept(const struct samples *s, const struct object_call *c, const uint8_t *before, const uint8_t *after) {
    static uint8_t put_back[64 * 64 * 64];
    memcpy(put_back, after, c->lent_len);
    for (size_t at = 0; at < s->many; at++) {
        size_t p = place_of(s, at, c->side);
        put_back[p] = before[p];
    }
    return memcmp(put_back, before, c->lent_len) == 0;
}

/* Blocks of 64 for speed. */
int marks_kept(const uint8_t *before, const uint8_t *after, size_t len) {
    uint8_t changed = 0;
    for (; len >= 64; len -= 64, before += 64, after += 64)
        for (int k = 0; k < 64; k++)
            changed |= (uint8_t)((before[k] != 0) & (after[k] != before[k]));
    while (len-- > 0)
        changed |= (uint8_t)((before[len] != 0) & (after[len] != before[len]));
    return !changed;
}

/* The coordinates within so many halves, 1 or 3, of a value, at most four; answers their number. */
static int near_coordinates(wide halves, wide value, wide scale, uint32_t side, int32_t near[4]) {
    int found = 0;
    int32_t below = (int32_t)(value / scale);
    for (int32_t c = below > 0 ? below - 1 : 0; c <= below + 2; c++)
        if (c < (int32_t)side && within_halves(halves, value, scale, c))
            near[found++] = c;
    return found;
}

void explain(const struct samples *s, const struct object_call *call, const uint8_t *grid, uint8_t *explained) {
    for (size_t at = 0; at < s->many; at++) {
        int32_t near[3][4];
        int found[3];
        for (int axis = 0; axis < 3; axis++)
            found[axis] = near_coordinates(of_path(call) ? 3 : 1, s->value[axis][at], s->scale, call->side, near[axis]);
        for (int a = 0; a < found[0]; a++)
            for (int b = 0; b < found[1]; b++)
                for (int c = 0; c < found[2]; c++) {
                    size_t p = place(call->side, near[0][a], near[1][b], near[2][c]);
                    if (grid[p] == call->mark)
                        explained[p] = 1;
                }
    }
}

/* Swatches: a pattern's number is its significand times 2 to the power of its exponent - 150 */

static const uint32_t ONE = 0x3F800000, BELOW_SIX = 0x40BFFFFF, INFINITE = 0x7F800000, SIGN = 0x80000000;

static uint32_t exponent_of(uint32_t bits) {
    uint32_t field = bits >> 23 & 0xFF;
    return field == 0 ? 1 : field;
}

static uint32_t significand_of(uint32_t bits) {
    uint32_t fraction = bits & 0x7FFFFF;
    return (bits >> 23 & 0xFF) == 0 ? fraction : fraction + 0x800000;
}

static int infinite_or_no_number(uint32_t bits) { return (bits & ~SIGN) >= INFINITE; }

/* Below 0 or above the greatest. An infinity is outside as well, minus zero is not. */
static int outside(uint32_t bits, uint32_t greatest) {
    uint32_t magnitude = bits & ~SIGN;
    if (magnitude > INFINITE)
        return 0;
    return (bits & SIGN) != 0 ? magnitude != 0 : magnitude > greatest;
}

/* A kind that does not exist is tried as three channels. */
static void swatch_order(const struct swatch *swatch, struct order *order) {
    for (int k = 0; k < (swatch->kind == 1 ? 1 : 3); k++) {
        int hue = swatch->kind == 2 && k == 0;
        order_add(order, 31, infinite_or_no_number(swatch->number[k]));
        order_add(order, hue ? 33 : 32, outside(swatch->number[k], hue ? BELOW_SIX : ONE));
    }
}

/* A number not below 0 in units of 2^-300, low word first: a product of two f32 is a whole number of them. */
enum { WORDS = 5, UNITS_OF_ONE = 300 };

struct units {
    uint64_t word[WORDS];
};

/* The number times 2^shift, below 2^320. */
static struct units placed(uint64_t number, uint32_t shift) {
    struct units u = {{0}};
    u.word[shift / 64] = number << shift % 64;
    if (shift / 64 < WORDS - 1 && shift % 64 != 0)
        u.word[shift / 64 + 1] = number >> (64 - shift % 64);
    return u;
}

/* Of a pattern the sign is left out. */
static struct units units_of(uint32_t bits) {
    return placed(significand_of(bits), exponent_of(bits) + UNITS_OF_ONE - 150);
}

static struct units product_of(uint32_t a, uint32_t b) {
    return placed((uint64_t)significand_of(a) * significand_of(b), exponent_of(a) + exponent_of(b));
}

static struct units sum_of(struct units a, struct units b) {
    wide carry = 0;
    for (int k = 0; k < WORDS; k++) {
        carry += (wide)a.word[k] + b.word[k];
        a.word[k] = (uint64_t)carry;
        carry >>= 64;
    }
    return a;
}

/* a - b, where b is not above a: a + (2^320 - 1 - b) + 1. */
static struct units difference_of(struct units a, struct units b) {
    for (int k = 0; k < WORDS; k++)
        b.word[k] = ~b.word[k];
    return sum_of(sum_of(a, b), placed(1, 0));
}

static struct units half_of(struct units a) {
    for (int k = 0; k < WORDS; k++)
        a.word[k] = a.word[k] >> 1 | (k < WORDS - 1 ? a.word[k + 1] << 63 : 0);
    return a;
}

static int bit(struct units u, unsigned k) { return (int)(u.word[k / 64] >> k % 64 & 1); }

static int any_below(struct units u, unsigned k) {
    int any = 0;
    for (unsigned w = 0; w < WORDS; w++)
        if (64 * w < k)
            any |= (64 * w + 64 <= k ? u.word[w] : u.word[w] << (64 * w + 64 - k)) != 0;
    return any;
}

/* The pattern nearest to the number, below 4, a tie going to the even one: bits low to low + 23 are kept, the top one of
   the number among them; below 2^-126 low is that of 2^-149, and the pattern is the significand alone. */
static uint32_t pattern_of(struct units u) {
    static const unsigned least = UNITS_OF_ONE - 149;
    unsigned low = UNITS_OF_ONE + 1 - 23;
    uint32_t kept = 0;
    int half, rest;
    while (low > least && !bit(u, low + 23))
        low--;
    half = bit(u, low - 1);
    rest = any_below(u, low - 1);
    for (unsigned k = 0; k < 24; k++)
        kept |= (uint32_t)bit(u, low + k) << k;
    if (half && (rest || kept % 2 == 1))
        kept++;
    return ((low - least) << 23) + kept;
}

/* The operations of a hue, each rounded once. No number is below 0; a product with one minus zero is minus zero. */
static uint32_t times(uint32_t a, uint32_t b) { return ((a ^ b) & SIGN) | pattern_of(product_of(a, b)); }

static uint32_t minus(struct units a, struct units b) { return pattern_of(difference_of(a, b)); }

static uint32_t one_minus(uint32_t a) { return minus(units_of(ONE), units_of(a)); }

/* What red, green and blue are for a whole part of the hue from 0 to 5. */
enum { V, P, Q, R };

static const uint8_t ROW[6][3] = {{V, R, P}, {Q, V, P}, {P, V, R}, {P, Q, V}, {R, P, V}, {V, P, Q}};

uint32_t whole_part_of_hue(uint32_t h) {
    return (uint32_t)(units_of(h).word[UNITS_OF_ONE / 64] >> UNITS_OF_ONE % 64);
}

/* f is without a sign: a minus zero makes no difference in 1 - f and 1 - s f. */
static void hue_channels(uint32_t h, uint32_t s, uint32_t v, uint32_t channel[3]) {
    uint32_t k = whole_part_of_hue(h), f = minus(units_of(h), placed(k, UNITS_OF_ONE)), of[4];
    of[V] = v;
    of[P] = times(v, one_minus(s));
    of[Q] = times(v, one_minus(times(s, f)));
    of[R] = times(v, one_minus(times(s, one_minus(f))));
    for (int at = 0; at < 3; at++)
        channel[at] = of[ROW[k][at]];
}

void channels_of(const struct swatch *swatch, uint32_t channel[3]) {
    const uint32_t *number = swatch->number;
    if (swatch->kind == 2) {
        hue_channels(number[0], number[1], number[2], channel);
        return;
    }
    for (int k = 0; k < 3; k++)
        channel[k] = number[swatch->kind == 1 ? 0 : k];
}

/* 2 v (S-1) = *doubled / 2^*shift. A shift above 100 only says that the quotient is below 1: *doubled is below 2^31. */
static void doubled_product(uint32_t side, uint32_t bits, wide *doubled, uint32_t *shift) {
    *doubled = (wide)significand_of(bits) * 2 * (side - 1);
    *shift = 150 - exponent_of(bits);
    if (*shift > 100)
        *shift = 100;
}

/* The c with 2c - 1 < 2 v (S-1) <= 2c + 1: the least c that the upper bound admits. */
static uint8_t coordinate_of(uint32_t side, uint32_t bits) {
    wide doubled, c = 0;
    uint32_t shift;
    doubled_product(side, bits, &doubled, &shift);
    while (doubled > (2 * c + 1) << shift)
        c++;
    return (uint8_t)c;
}

int channels_on_half(uint32_t side, const struct swatch *swatch) {
    uint32_t channel[3];
    int found = 0;
    channels_of(swatch, channel);
    for (int k = 0; k < 3; k++) {
        uint32_t shift;
        wide doubled;
        doubled_product(side, channel[k], &doubled, &shift);
        found += doubled == ((wide)2 * coordinate_of(side, channel[k]) + 1) << shift;
    }
    return found;
}

static int no_kind(const struct swatch *swatch) { return swatch->kind > 2; }

int64_t reference_to_cell(uint32_t side, const struct swatch *swatch, uint8_t *cell, size_t cell_len,
                          struct order *order) {
    uint32_t channel[3];
    order_add(order, 53, no_kind(swatch));
    order_add(order, 52, cell_len != 3);
    order_add(order, 11, side_outside(side));
    swatch_order(swatch, order);
    if (order_first(order) != 0)
        return -order_first(order);
    channels_of(swatch, channel);
    for (int k = 0; k < 3; k++)
        cell[k] = coordinate_of(side, channel[k]);
    return 0;
}

static uint32_t half_way_channel(uint32_t a, uint32_t b) {
    if (a == SIGN && b == SIGN)
        return SIGN;
    return pattern_of(half_of(units_of(pattern_of(sum_of(units_of(a), units_of(b))))));
}

int64_t reference_half_way(const struct swatch *first, const struct swatch *second, uint8_t *channels,
                           size_t channels_len, struct order *order) {
    uint32_t a[3], b[3];
    order_add(order, 53, no_kind(first) || no_kind(second));
    order_add(order, 52, channels_len != 12);
    swatch_order(first, order);
    swatch_order(second, order);
    if (order_first(order) != 0)
        return -order_first(order);
    channels_of(first, a);
    channels_of(second, b);
    for (int k = 0; k < 3; k++) {
        uint32_t mixed = half_way_channel(a[k], b[k]);
        for (int at = 0; at < 4; at++)
            channels[4 * k + at] = (uint8_t)(mixed >> 8 * at);
    }
    return 0;
}

/* The stroke sheet */

enum { BUFFER = 64000, CURVE_LINES = 200, FIELDS = 14 };

/* A line: its bytes without the line feed, and whether it has one. */
struct line {
    const uint8_t *bytes;
    size_t length;
    int ended;
};

static struct line line_from(const uint8_t *input, size_t input_len, size_t at) {
    struct line line = {input + at, 0, 0};
    while (at + line.length < input_len && line.bytes[line.length] != 10)
        line.length++;
    line.ended = at + line.length < input_len;
    return line;
}

/* A field's number, and whether the field is bad. A bad field of blanks and digits has its number, others `otherwise`.
 */
static uint32_t field_of(const struct line *line, size_t k, uint32_t otherwise, int *bad) {
    const uint8_t *field = line->bytes + 5 * k;
    size_t blanks = 0;
    uint32_t number = 0;
    while (blanks < 5 && field[blanks] == ' ')
        blanks++;
    *bad = blanks == 5 || (blanks < 4 && field[blanks] == '0');
    for (size_t at = blanks; at < 5; at++) {
        if (field[at] < '0' || '9' < field[at]) {
            *bad = 1;
            return otherwise;
        }
        number = 10 * number + (field[at] - '0');
    }
    return blanks < 5 ? number : otherwise;
}

/* Reads the wanted number of fields; those that the line lacks are `otherwise`. Answers whether a field is bad. */
static int fields_of(const struct line *line, size_t wanted, uint32_t otherwise, uint32_t *number) {
    int any_bad = 0;
    for (size_t k = 0; k < wanted; k++) {
        int bad = 0;
        number[k] = 5 * k + 5 <= line->length ? field_of(line, k, otherwise, &bad) : otherwise;
        any_bad |= bad;
    }
    return any_bad;
}

static int wrong_line(const struct line *line, size_t fields) { return line->length != 5 * fields || !line->ended; }

static uint32_t side_line(const struct line *line, struct order *order) {
    uint32_t side;
    int bad = fields_of(line, 1, 2, &side);
    order_add(order, 41, wrong_line(line, 1));
    order_add(order, 42, bad);
    order_add(order, 11, side_outside(side));
    order_add(order, 43, 40 < side && side <= 64);
    return side;
}

/* The refusals that look at a curve line's numbers; a coordinate above 255 is never below the side. */
static void stroke_order(const uint32_t *number, uint32_t side, uint8_t *points, struct order *order) {
    static struct samples samples;
    struct object_call curve = {CHECK, CURVE, side, number[1], 0, 0, 0, OVER, points, 12, NULL, 0, NULL};
    int outside = 0, large = 0;
    for (int k = 0; k < 12; k++) {
        outside |= number[2 + k] >= side;
        large |= number[2 + k] > 255;
        points[k] = (uint8_t)number[2 + k];
    }
    order_add(order, 12, number[0] == 0 || number[0] > 255);
    order_add(order, 13, count_outside(&curve));
    order_add(order, 14, outside);
    order_add(order, 15, !large && steps_too_long(&curve, order, &samples));
}

/* A cube as it is drawn line by line, with the new cells so far. */
struct drawing {
    uint8_t cube[BUFFER];
    uint32_t side, new_cells;
    struct strokes strokes;
};

/* Draws a curve line that no number refuses, over those before it. */
static void draw_stroke(const uint32_t *number, const uint8_t *points, struct drawing *d) {
    static struct samples samples;
    uint32_t new_cells;
    struct object_call curve = {DRAW, CURVE,  d->side, number[1], 0, 0, (uint8_t)number[0],
                                OVER, points, 12,      d->cube,   0, &new_cells};
    struct order unused = {0};
    curve.lent_len = (size_t)volume(d->side);
    reference_object(&curve, &unused, &samples, NULL);
    d->new_cells += new_cells;
    d->strokes.cells += different_cells(&samples, d->side);
    d->strokes.without_new += new_cells == 0;
    d->strokes.quit += test_quits(&curve) != 0;
}

/* Judges line number `at` and draws it if no number applies. */
static void curve_line(const struct line *line, uint32_t at, struct drawing *d, struct order *order) {
    uint32_t number[FIELDS];
    uint8_t points[12];
    int bad = fields_of(line, FIELDS, 1, number);
    order_add(order, 44, at > CURVE_LINES + 1);
    order_add(order, 41, wrong_line(line, FIELDS));
    order_add(order, 42, bad);
    stroke_order(number, d->side, points, order);
    if (order_first(order) == 0)
        draw_stroke(number, points, d);
}

/* Draws the lines up to the first that is refused; answers the number of the last line looked at. */
static uint32_t sheet_lines(const uint8_t *input, size_t input_len, struct drawing *d, struct order *order) {
    struct line line = line_from(input, input_len, 0);
    size_t next = line.length + 1;
    uint32_t at = 1;
    d->side = side_line(&line, order);
    if (order_first(order) == 0)
        memset(d->cube, 0, (size_t)volume(d->side));
    for (; order_first(order) == 0 && next < input_len; next += line.length + 1) {
        order->length = 0;
        line = line_from(input, input_len, next);
        curve_line(&line, ++at, d, order);
    }
    return at;
}

int64_t reference_draw_sheet(const uint8_t *input, size_t input_len, uint8_t *buffer, size_t buffer_len,
                             uint32_t *detail, uint32_t *new_cells, struct order *order, struct strokes *strokes) {
    static struct drawing drawing;
    struct order of_line = {0};
    size_t cells;
    uint32_t at;
    drawing.new_cells = 0;
    drawing.strokes = (struct strokes){0, 0, 0};
    at = sheet_lines(input, input_len, &drawing, &of_line);
    order_add(order, 21, buffer_len != BUFFER);
    for (int k = 0; k < of_line.length; k++)
        order_add(order, of_line.step[k].number, of_line.step[k].applies);
    int refusal = order_first(order);
    if (refusal != 0) {
        *detail = refusal == 21 ? 0 : at;
        return -refusal;
    }
    cells = (size_t)volume(drawing.side);
    assert(drawing.new_cells == cells - unmarked_cells(drawing.cube, cells));
    memcpy(buffer, drawing.cube, cells);
    *detail = drawing.side;
    *new_cells = drawing.new_cells;
    *strokes = drawing.strokes;
    return (int64_t)at - 1;
}

/* The listing, and the totals */

/* The numbers of a call that writes about a cube, with the least length of its text; answers the first that applies. */
static int cube_order(uint32_t side, size_t cube_len, size_t text_len, wide least, struct order *order) {
    order_add(order, 11, side_outside(side));
    order_add(order, 21, (wide)cube_len != volume(side));
    order_add(order, 22, (wide)text_len < least);
    return order_first(order);
}

/* A number in 5 columns. */
static void put_number(uint8_t *text, uint32_t number) {
    for (int k = 4; k >= 0; k--) {
        text[k] = k < 4 && number == 0 ? ' ' : (uint8_t)('0' + number % 10);
        number /= 10;
    }
}

int64_t reference_list_part(uint32_t side, const uint8_t *cube, size_t cube_len, size_t first, size_t count,
                            uint8_t *text, size_t text_len, struct order *order) {
    size_t bytes = 0;
    if (cube_order(side, cube_len, text_len, 21 * ((wide)count + 1), order) != 0)
        return -order_first(order);
    if (first == 0) {
        memcpy(text, "    X    Y    Z MARK\n", 21);
        bytes = 21;
    }
    for (size_t p = first; p < cube_len && p - first < count; p++)
        if (cube[p] != 0) {
            put_number(text + bytes, (uint32_t)p % side);
            put_number(text + bytes + 5, (uint32_t)p / side % side);
            put_number(text + bytes + 10, (uint32_t)p / (side * side));
            put_number(text + bytes + 15, cube[p]);
            text[bytes + 20] = 10;
            bytes += 21;
        }
    return (int64_t)bytes;
}

/* A number in 10 columns, its first digit first: how often each power of ten goes into what is left. */
static void put_total(uint8_t *text, uint32_t number) {
    int begun = 0;
    for (uint32_t power = 1000000000; power > 0; power /= 10) {
        uint8_t digit = '0';
        for (; number >= power; number -= power)
            digit++;
        begun |= digit > '0' || power == 1;
        *text++ = begun ? digit : ' ';
    }
}

/* The count of a mark's cells and the sums of their x, y and z, by a pass over the cube that looks for the mark. */
static void totals_of(uint32_t side, const uint8_t *cube, size_t cube_len, int mark, uint32_t total[4]) {
    const uint8_t *end = cube + cube_len;
    memset(total, 0, 4 * sizeof *total);
    for (const uint8_t *at = cube; (at = memchr(at, mark, (size_t)(end - at))) != NULL; at++) {
        uint32_t p = (uint32_t)(at - cube);
        total[0]++;
        total[1] += p % side;
        total[2] += p / side % side;
        total[3] += p / (side * side);
    }
}

/* Mark 0 comes after 255. */
int64_t reference_totals(uint32_t side, const uint8_t *cube, size_t cube_len, uint8_t *text, size_t text_len,
                         struct order *order) {
    uint8_t *line = text;
    if (cube_order(side, cube_len, text_len, 51 * 256, order) != 0)
        return -order_first(order);
    for (int k = 1; k <= 256; k++) {
        uint32_t total[4], mark = (uint32_t)k % 256;
        totals_of(side, cube, cube_len, (int)mark, total);
        if (mark != 0 && total[0] == 0)
            continue;
        put_total(line, mark);
        for (int at = 0; at < 4; at++)
            put_total(line + 10 + 10 * at, total[at]);
        line[50] = 10;
        line += 51;
    }
    return line - text;
}

int64_t reference_refusal_line(uint32_t number, uint32_t line, uint8_t *text, size_t text_len, struct order *order) {
    order_add(order, 54, number > 99999 || line > 99999);
    order_add(order, 22, text_len < 18);
    if (order_first(order) != 0)
        return -order_first(order);
    memcpy(text, "REFUSED", 7);
    put_number(text + 7, number);
    put_number(text + 12, line);
    text[17] = 10;
    return 18;
}
