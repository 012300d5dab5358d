/* The random inputs of cases.h. */
#include "cases.h"

#include <string.h>

/* Random numbers: splitmix64, started anew for each case */

enum { POOL = 1 << 20 };

static uint64_t run_seed, state;
static uint8_t pool[POOL];

static uint64_t mixed(uint64_t z) {
    z = (z ^ z >> 30) * UINT64_C(0xBF58476D1CE4E5B9);
    z = (z ^ z >> 27) * UINT64_C(0x94D049BB133111EB);
    return z ^ z >> 31;
}

static uint64_t random_bits(void) {
    state += UINT64_C(0x9E3779B97F4A7C15);
    return mixed(state);
}

void start_run(uint64_t seed) {
    run_seed = mixed(seed + UINT64_C(0x9E3779B97F4A7C15));
    state = run_seed;
    for (size_t k = 0; k < POOL; k++)
        pool[k] = (uint8_t)(random_bits() >> 40);
}

void start_case(uint64_t kind, uint64_t number) { state = mixed(run_seed ^ mixed(kind << 48 ^ number)); }

uint32_t below(uint32_t n) { return (uint32_t)((random_bits() >> 32) * n >> 32); }

int one_in(uint32_t n) { return below(n) == 0; }

uint32_t random_word(void) { return (uint32_t)(random_bits() >> 32); }

/* Pieces of a pool of random bytes. */
void random_bytes(uint8_t *to, size_t len) {
    while (len > 0) {
        size_t at = below(POOL - 64), piece = POOL - at < len ? POOL - at : len;
        memcpy(to, pool + at, piece);
        to += piece;
        len -= piece;
    }
}

#define PICK(table) ((table)[below(sizeof(table) / sizeof *(table))])

unsigned random_faults(unsigned possible) {
    unsigned faults = 0;
    for (uint32_t wanted = one_in(2) ? 0 : 1 + below(2); wanted > 0; wanted--)
        faults |= 1u << below(possible > ALL_FAULTS ? 10 : 8);
    return faults & possible;
}

/* Sides */

uint32_t random_side(void) {
    static const uint32_t notable[] = {2, 32, 33, 40, 41, 63, 64};
    switch (below(20)) {
    case 0:
        return PICK(notable);
    case 1:
        return 2 + below(63);
    case 2:
    case 3:
    case 4:
        return 10 + below(8);
    default:
        return 2 + below(8);
    }
}

/* Among them sides whose cube is 0 in 32 or 64 bits. */
uint32_t bad_side(void) {
    static const uint32_t sides[] = {0,   1,   65,   65,    66,      100,        255,
                                     256, 257, 1626, 65536, 4194304, 0x80000000, 0xFFFFFFFF};
    return one_in(10) ? 65 + below(0xFFFFFFFF - 65) : PICK(sides);
}

uint32_t strip_side(void) {
    static const uint32_t notable[] = {2, 2, 3, 16, 17, 17, 17};
    return one_in(4) ? PICK(notable) : one_in(3) ? 10 + below(8) : 2 + below(8);
}

static uint32_t side_off_strip(void) {
    static const uint32_t sides[] = {18, 18, 18, 19, 20, 33, 63, 64};
    return one_in(4) ? 18 + below(47) : PICK(sides);
}

/* Control points of one axis: point k at points[3 k] */

static uint32_t between(uint32_t low, uint32_t high) { return low + below(high - low + 1); }

/* Narrow mostly: wide ones need many steps. */
static uint32_t random_spread(uint32_t side, uint32_t narrow, int large) {
    uint32_t most = side - 1;
    if (large || one_in(16))
        return below(most + 1);
    return below((most < narrow ? most : narrow) + 1);
}

static void curve_axis(uint8_t *points, uint32_t side, uint32_t spread) {
    uint32_t low = below(side - spread), shape = below(6), lone = below(4), third = spread / 3;
    int back = one_in(2);
    for (uint32_t k = 0; k < 4; k++) {
        uint32_t c;
        switch (shape) {
        case 0:
            c = third * k;
            break;
        case 1:
            c = one_in(2) ? spread : 0;
            break;
        case 2:
            c = k == lone ? spread : 0;
            break;
        default:
            c = below(spread + 1);
        }
        points[3 * k] = (uint8_t)(low + (back ? spread - c : c));
    }
}

/* The number of point k of a patch or a solid along a parameter, 0 to 3. */
static uint32_t digit_of(uint32_t k, enum form form, int parameter) { return k >> 2 * ((int)form - parameter) & 3; }

/* Straight along all parameters, or along one; a curve along one; one point alone; ends; anything; of a solid, a patch along
   two, and straight but for one point. A solid with a spread above 10 is mostly straight. */
static uint32_t shape_of(enum form form, uint32_t spread) {
    static const uint32_t straight[] = {0, 0, 1, 9};
    if (form == SOLID && spread > 10 && !one_in(4))
        return PICK(straight);
    return below(form == SOLID ? 10 : 8);
}

/* Of a patch or a solid. */
static void net_axis(uint8_t *points, enum form form, uint32_t side, uint32_t spread) {
    uint32_t low = below(side - spread), shape = shape_of(form, spread), many = 4u << 2 * form, lone = below(many);
    uint32_t parameters = (uint32_t)form + 1, part = spread / (3 * parameters), third = spread / 3, edge[16];
    int back = one_in(2), along = (int)below(parameters), across = (along + 1) % (int)parameters;
    for (int k = 0; k < 16; k++)
        edge[k] = below(spread + 1);
    for (uint32_t k = 0; k < many; k++) {
        uint32_t digit = digit_of(k, form, along), sum = 0, c;
        for (int p = 0; p < (int)parameters; p++)
            sum += digit_of(k, form, p);
        switch (shape) {
        case 0:
            c = part * sum;
            break;
        case 1:
            c = third * digit;
            break;
        case 2:
            c = edge[digit];
            break;
        case 3:
            c = k == lone ? spread : 0;
            break;
        case 4:
            c = one_in(2) ? spread : 0;
            break;
        case 8:
            c = edge[4 * digit + digit_of(k, form, across)];
            break;
        case 9:
            c = part * sum + (k == lone && part * sum < spread);
            break;
        default:
            c = below(spread + 1);
        }
        points[3 * k] = (uint8_t)(low + (back ? spread - c : c));
    }
}

/* How far the coordinates of an axis may lie apart where they are to be narrow. */
static uint32_t narrow_spread(enum form form) {
    static const uint32_t of_solid[] = {1, 1, 1, 2, 2, 3, 6, 9};
    return form == CURVE ? 7 : form == PATCH ? (one_in(4) ? 6 : 3) : PICK(of_solid);
}

/* With 32 steps along each parameter a gap of 10 always suffices. A straight solid may be wider: by 31 along one of them,
   and by 63 along all three together. */
static uint32_t large_solid_spread(uint32_t side) {
    static const uint32_t widths[] = {4, 10, 10, 31, 63};
    uint32_t most = PICK(widths);
    return most < side ? between(most / 2, most) : below(side);
}

/* A solid that is straight along each parameter, and along each on another axis: a block. */
static void block(uint8_t *points, uint32_t side, int large) {
    uint32_t turn = below(3), back = below(2), most = (side - 1) / 3;
    if (most > (large ? 10 : 2))
        most = large ? 10 : 2;
    for (uint32_t axis = 0; axis < 3; axis++) {
        uint32_t third = large && most == 10 ? between(7, 10) : below(most + 1), low = below(side - 3 * third);
        int along = (int)((back ? 3 + turn - axis : turn + axis) % 3), falls = one_in(2);
        for (uint32_t k = 0; k < 64; k++) {
            uint32_t digit = digit_of(k, SOLID, along);
            points[3 * k + axis] = (uint8_t)(low + third * (falls ? 3 - digit : digit));
        }
    }
}

static void random_points(uint8_t *points, enum form form, uint32_t side, int large) {
    uint32_t narrow = narrow_spread(form);
    if (form == SOLID && one_in(large ? 4 : 32)) {
        block(points, side, large);
        return;
    }
    for (int axis = 0; axis < 3; axis++) {
        uint32_t spread = 0;
        if (!one_in(4))
            spread = form == SOLID && large ? large_solid_spread(side) : random_spread(side, narrow, large);
        if (form == CURVE)
            curve_axis(points + axis, side, spread);
        else
            net_axis(points + axis, form, side, spread);
    }
}

/* Step counts: around three times the largest gap of neighbouring points, which always suffices */

static uint32_t gap_of(uint8_t a, uint8_t b) { return a < b ? (uint32_t)(b - a) : (uint32_t)(a - b); }

/* The largest gap of points k and k + stride, where both are in one line of four. */
static uint32_t largest_gap(const uint8_t *points, uint32_t count, uint32_t stride) {
    uint32_t largest = 0;
    for (uint32_t k = 0; k < 3 * (count - stride); k++) {
        uint32_t gap = gap_of(points[k], points[k + 3 * stride]);
        if ((k / 3 / stride) % 4 != 3 && gap > largest)
            largest = gap;
    }
    return largest;
}

static uint32_t most_steps(enum form form) { return form == CURVE ? 512 : form == PATCH ? 256 : 32; }

static uint32_t random_count(uint32_t gap, uint32_t limit, int large) {
    uint32_t n, enough = 3 * gap;
    switch (below(8)) {
    case 0:
        n = 1 + below(enough + 2);
        break;
    case 1:
    case 2:
        n = enough;
        break;
    case 3:
    case 4:
        n = enough > 2 ? enough + 1 - below(4) : enough;
        break;
    case 5:
        n = enough * (1 + below(4));
        break;
    case 6:
        n = 2 + 2 * below(6);
        break;
    default:
        n = large ? limit - below(limit / 2) : 1 + below(2 * enough + 4);
    }
    if (one_in(large ? 4 : 400))
        n = limit - below(2);
    return n < 1 ? 1 : n > limit ? limit : n;
}

static int accepted(const struct object_call *call) {
    static struct samples samples;
    exact_values(call, &samples);
    return longest_step(&samples) <= samples.scale;
}

/* Lowers a count to the first that is refused, and in half of the cases to the one above it. */
static void lower_to_threshold(const struct object_call *call, uint32_t *count) {
    for (int tries = 0; tries < 40 && *count > 1 && accepted(call); tries++)
        --*count;
    *count += below(2);
}

static uint32_t *count_at(struct object_call *call, int parameter) {
    return parameter == 0 ? &call->n : parameter == 1 ? &call->m : &call->l;
}

/* One of an object's counts. */
static uint32_t *some_count(struct object_call *call) { return count_at(call, (int)below((uint32_t)call->form + 1)); }

static uint32_t samples_of(const struct object_call *call) { return (call->n + 1) * (call->m + 1) * (call->l + 1); }

/* Of a patch or a solid that is not large. */
static void fewer_samples(struct object_call *call) {
    uint32_t most = one_in(64) ? 4000 : 600;
    if (call->form == PATCH && call->n > 40 && call->m > 40)
        call->m = 1 + below(8);
    while (call->form == SOLID && samples_of(call) > most)
        *some_count(call) = 1 + below(5);
}

static void random_counts(struct object_call *call, int large) {
    uint32_t many = 4u << 2 * call->form;
    for (int p = 0; p < 3; p++)
        *count_at(call, p) = 0;
    for (int p = 0; p <= (int)call->form; p++) {
        uint32_t gap = largest_gap(call->points, many, 1u << 2 * ((int)call->form - p));
        *count_at(call, p) = random_count(gap, most_steps(call->form), large);
    }
    if (!large)
        fewer_samples(call);
    else if (call->form == SOLID && !one_in(4))
        call->n = call->m = call->l = 32;
    if (call->n < 40 && call->m < 40 && samples_of(call) <= 1600 && one_in(call->form == CURVE ? 8 : 24))
        lower_to_threshold(call, some_count(call));
}

/* With few samples of a patch that is not large. */
static void strip_counts(struct object_call *call, int large) {
    if (call->n > 64 && !one_in(16))
        call->n = 64 - below(2);
    if (call->form == PATCH && call->m > 64 && !one_in(16))
        call->m = 64 - below(2);
    if (one_in(4))
        *(call->form == PATCH && one_in(2) ? &call->m : &call->n) = one_in(4) ? 60 + below(8) : 64;
    if (call->form == PATCH && !large && call->n > 40 && call->m > 40)
        *(one_in(2) ? &call->n : &call->m) = 1 + below(8);
}

/* Faults */

/* Two cells or more in one step; not along t where the count along t is to be bad. */
static void long_step(struct object_call *call, uint8_t *points, unsigned faults) {
    int not_along_t = call->form != CURVE && (faults & (BAD_COUNT | STRIP_COUNT)) != 0;
    uint32_t axis = below(3), far = call->side > 2 ? between(2, call->side - 1) : 1;
    int along = not_along_t ? 1 + (int)below((uint32_t)call->form) : (int)below((uint32_t)call->form + 1);
    uint32_t last = 3u << 2 * ((int)call->form - along);
    points[axis] = 0;
    points[3 * last + axis] = (uint8_t)far;
    *count_at(call, along) = 1;
}

/* 0, or above the limit. A curve that is to have a long step as well gets coordinates up to 255; a solid gets few samples
   along the third parameter. */
static void bad_count(struct object_call *call, uint8_t *points, unsigned faults) {
    static const uint32_t curve[] = {0, 0, 513, 513, 514, 600, 1023, 1024, 65536, 65537, 0x80000000, 0xFFFFFFFF};
    static const uint32_t patch[] = {0, 0, 257, 257, 258, 300, 512, 513, 65536, 65537, 0x80000000, 0xFFFFFFFF};
    static const uint32_t solid[] = {0, 0, 33, 33, 33, 34, 64, 256, 257, 512, 65537, 0x80000001, 0xFFFFFFFF};
    uint32_t bad = call->form == CURVE ? PICK(curve) : call->form == PATCH ? PICK(patch) : PICK(solid);
    if ((faults & LONG_STEP) == 0) {
        *some_count(call) = bad;
    } else if (call->form == CURVE) {
        for (int k = 0; k < 4; k++)
            points[3 * k] = k % 2 ? 255 : 0;
        call->n = 513 + below(200);
    } else {
        call->n = one_in(2) ? most_steps(call->form) + 1 : bad;
        if (call->form == SOLID)
            *(call->m == 1 ? &call->l : &call->m) = 1 + below(3);
    }
}

/* A curve that is to have a long step as well gets coordinates up to 255; a patch has its long step, or a bad count, along
   the other parameter. */
static void count_off_strip(struct object_call *call, uint8_t *points, unsigned faults) {
    static const uint32_t curve[] = {65, 65, 65, 66, 100, 128, 255, 256, 257, 320, 511, 512, 512};
    static const uint32_t patch[] = {65, 65, 65, 66, 100, 128, 255, 256, 256};
    int along_u = call->form == PATCH && (faults & LONG_STEP) == 0 && one_in(2);
    *(along_u ? &call->m : &call->n) = call->form == PATCH ? PICK(patch) : PICK(curve);
    if (call->form == PATCH && (faults & BAD_COUNT) != 0)
        *(along_u ? &call->n : &call->m) = one_in(2) ? 0 : 257 + below(300);
    for (int k = 0; k < 4 && call->form == CURVE && (faults & LONG_STEP) != 0; k++)
        points[3 * k] = k % 2 ? 255 : 0;
}

static void bad_coordinate(const struct object_call *call, uint8_t *points) {
    uint32_t k = below((uint32_t)call->points_len);
    if (call->side > 255)
        points[k] = 255;
    else
        points[k] = (uint8_t)(one_in(2) ? call->side : between(call->side, 255));
}

/* Among them those that are a choice in their low byte or low two bytes. */
static uint32_t bad_choice(void) {
    static const uint32_t choices[] = {2, 2, 3, 254, 255, 256, 257, 258, 65536, 65537, 0x80000000, 0xFFFFFFFF};
    return one_in(4) ? 2 + below(0xFFFFFFFE) : PICK(choices);
}

static size_t bad_points_len(size_t right) {
    static const size_t lengths[] = {0, 1, 11, 12, 13, 24, 36, 47, 48, 49, 60, 96, 191, 192, 193, 240};
    size_t len = PICK(lengths);
    return len == right ? right - 1 : len;
}

/* The bytes that the list of a path takes, or where there is none those of its samples. */
static size_t path_bytes(const struct object_call *call) {
    if (call->points_len != 12 || call->n < 1 || call->n > 600)
        return 3 * ((size_t)(call->n > 600 ? 600 : call->n) + 1);
    return 3 * path_length(call);
}

/* So many, that many for the samples or for the longest path, or one or two more or less, or any between. */
static size_t path_list_length(const struct object_call *call) {
    size_t least = path_bytes(call), n = call->n > 600 ? 600 : call->n, some;
    switch (below(8)) {
    case 0:
    case 1:
        some = least;
        break;
    case 2:
    case 3:
        some = least + 1 + below(3);
        break;
    case 4:
        some = 3 * (n + 1) + below(4);
        break;
    case 5:
        some = 3 * (3 * n + 1) + below(3) - 1;
        break;
    case 6:
        some = 3 * (3 * n + 1) + below(20);
        break;
    default:
        some = least + below((uint32_t)(6 * n + 3));
    }
    return some < least ? least : some;
}

/* One, two, three or any number of bytes too few, that many for the samples, or too few for any cell. */
static size_t short_path_list(const struct object_call *call) {
    size_t least = path_bytes(call), samples = 3 * ((size_t)(call->n > 600 ? 600 : call->n) + 1);
    switch (below(6)) {
    case 0:
    case 1:
        return least - 1 - below(3);
    case 2:
        return samples < least ? samples : least - 1;
    case 3:
        return below(3);
    default:
        return below((uint32_t)least);
    }
}

size_t right_length(const struct object_call *call) {
    uint32_t cube = call->side * call->side * call->side;
    if (call->service == LIST_PATH)
        return path_list_length(call);
    if (call->service == LIST)
        return 3 * ((size_t)(call->n > 1000 ? 1000 : call->n) + 1) + (one_in(2) ? 0 : below(20));
    return cube <= 300000 ? cube : below(1000);
}

static size_t bad_length(const struct object_call *call) {
    size_t right;
    if (call->service == LIST_PATH)
        return short_path_list(call);
    right = right_length(call);
    if (call->service == LIST) {
        size_t least = 3 * ((size_t)(call->n > 1000 ? 1000 : call->n) + 1);
        return one_in(2) ? least - 1 : below((uint32_t)least);
    }
    switch (below(6)) {
    case 0:
        return 0;
    case 1:
        return below((uint32_t)right + 1);
    case 2:
        return (size_t)(call->side % 256) * (call->side % 256);
    case 3:
    case 4:
        return right + 1;
    default:
        return right > 0 ? right - 1 : 1;
    }
}

/* All but points and counts. */
static void begin_record(struct object_call *call, uint8_t *points, unsigned faults) {
    call->points = points;
    call->points_len = record_bytes(call->form);
    call->mark = (faults & BAD_MARK) != 0 ? 0 : (uint8_t)(1 + below(255));
    call->choice = (faults & BAD_CHOICE) != 0 ? bad_choice() : below(2);
    random_bytes(points, RECORD_ROOM);
}

/* The faults that do not look at the counts, and the lent length. */
static void end_record(struct object_call *call, uint8_t *points, unsigned faults) {
    if (faults & BAD_SIDE)
        call->side = bad_side();
    else if (faults & STRIP_SIDE)
        call->side = side_off_strip();
    if (faults & BAD_COORDINATE)
        bad_coordinate(call, points);
    if (faults & BAD_RECORD)
        call->points_len = bad_points_len(call->points_len);
    call->lent_len = (faults & BAD_LENGTH) != 0 ? bad_length(call) : right_length(call);
}

/* A straight curve that moves by one on each axis at every step, or one that goes up and down, or down and up, on each. */
static void moving_path(struct object_call *call, uint8_t *points) {
    uint32_t last = call->side - 1, third = last < 3 || one_in(2) ? 0 : 1 + below(last / 3);
    for (uint32_t axis = 0; axis < 3; axis++) {
        uint32_t low = third == 0 ? 0 : below(call->side - 3 * third), most = third == 0 ? last : 3 * third;
        int back = one_in(2);
        for (uint32_t k = 0; k < 4; k++) {
            uint32_t c = third > 0 ? third * k : k == 1 || k == 2 ? last : below(last < 3 ? last + 1 : 4);
            points[3 * k + axis] = (uint8_t)(low + (back ? most - c : c));
        }
    }
    call->n = third > 0 ? 3 * third : 512 - below(323);
}

void random_object(struct object_call *call, uint8_t *points, int large, unsigned faults) {
    begin_record(call, points, faults);
    random_points(points, call->form, call->side, large);
    random_counts(call, large);
    if (of_path(call) && one_in(large ? 4 : 32))
        moving_path(call, points);
    if (on_strip(call))
        strip_counts(call, large);
    if (faults & LONG_STEP)
        long_step(call, points, faults);
    if (faults & STRIP_COUNT)
        count_off_strip(call, points, faults);
    else if (faults & BAD_COUNT)
        bad_count(call, points, faults);
    end_record(call, points, faults);
}

/* Curves near where the step test quits */

/* A coordinate at most so far from another. */
static uint8_t near_to(uint8_t c, uint32_t far, uint32_t side) {
    return (uint8_t)between(c > far ? c - far : 0, c + far < side ? c + far : side - 1);
}

/* One axis with a gap of points k and k + 1, in either direction; the other gaps are at most so far. */
static void gap_axis(uint8_t *points, uint32_t side, uint32_t k, uint32_t gap, uint32_t far) {
    uint32_t low = below(side - gap), from = one_in(2) ? gap : 0;
    points[3 * k] = (uint8_t)(low + from);
    points[3 * (k + 1)] = (uint8_t)(low + gap - from);
    for (uint32_t i = k; i > 0; i--)
        points[3 * (i - 1)] = near_to(points[3 * i], far, side);
    for (uint32_t i = k + 1; i < 3; i++)
        points[3 * (i + 1)] = near_to(points[3 * i], far, side);
}

static uint32_t random_gap(uint32_t side) {
    switch (below(8)) {
    case 0:
        return 0;
    case 1:
    case 2:
        return side - 1;
    default:
        return below(side);
    }
}

/* Three times the gap, one or two above or below; two times; any up to a little more; many. */
static uint32_t count_near(uint32_t gap) {
    uint32_t n, enough = 3 * gap;
    switch (below(8)) {
    case 0:
    case 1:
        n = enough;
        break;
    case 2:
    case 3:
    case 4:
        n = enough + below(4) - 1;
        break;
    case 5:
        n = enough + below(4) - 2;
        break;
    case 6:
        n = one_in(2) ? 2 * gap : 512 - below(2);
        break;
    default:
        n = 1 + below(enough + 3);
    }
    return 1 <= n && n <= 512 ? n : 1;
}

/* Past the side with all points on one axis: the gaps stay. */
static void move_out(uint32_t side, uint8_t *points) {
    uint32_t axis = below(3);
    for (uint32_t k = 0; k < 4; k++)
        points[3 * k + axis] = (uint8_t)(points[3 * k + axis] + side);
}

void random_gaps(struct object_call *call, uint8_t *points, unsigned faults) {
    uint32_t gap = random_gap(call->side), axis = below(3), far = gap;
    if (gap > 0 && !one_in(4))
        far = one_in(3) ? 0 : below(gap);
    call->points = points;
    call->points_len = 12;
    call->mark = (uint8_t)(1 + below(255));
    call->choice = below(2);
    call->n = count_near(gap);
    random_bytes(points, RECORD_ROOM);
    for (uint32_t a = 0; a < 3; a++)
        gap_axis(points + a, call->side, below(3), a == axis ? gap : below(far + 1), far);
    if (faults & BAD_COUNT)
        bad_count(call, points, faults);
    if ((faults & BAD_COORDINATE) != 0 && one_in(2))
        bad_coordinate(call, points);
    else if (faults & BAD_COORDINATE)
        move_out(call->side, points);
    if (faults & BAD_SIDE)
        call->side = bad_side();
    if (faults & BAD_RECORD)
        call->points_len = bad_points_len(call->points_len);
}

/* Curves whose step count is chosen */

/* Shapes of one axis, in sixths of its spread: straight, two gaps alike, one gap first, last or between, and ends that
   agree. */
static const uint8_t SIXTHS[][4] = {{0, 2, 4, 6}, {0, 3, 6, 6}, {0, 0, 3, 6}, {0, 6, 6, 6},
                                    {0, 0, 0, 6}, {0, 0, 6, 6}, {0, 0, 6, 0}, {0, 6, 0, 6}};

/* Changes points 2 and 3, where the side allows it, so that the ends are two apart and the value half-way is one from each:
   two steps are accepted, and more may be refused. */
static void put_even(uint8_t *points, uint32_t side) {
    uint32_t last = points[0] + 2u, both = points[0] + last;
    if (last < side && points[3] <= both && both - points[3] < side) {
        points[6] = (uint8_t)(both - points[3]);
        points[9] = (uint8_t)last;
    }
}

/* Such a shape, often with a point moved by one; or ends that are near one another, or two apart, and anything between; or
   anything. */
static void chosen_axis(uint8_t *points, uint32_t side, uint32_t spread) {
    const uint8_t *shape = PICK(SIXTHS);
    uint32_t low = below(side - spread), kind = below(8), moved = 3 * below(4);
    int back = one_in(2);
    for (uint32_t k = 0; k < 4; k++) {
        uint32_t c = kind < 4 ? spread * shape[k] / 6 : below(spread + 1);
        points[3 * k] = (uint8_t)(low + (back ? spread - c : c));
    }
    if (kind == 2 || kind == 3)
        points[moved] = near_to(points[moved], 1, side);
    if (kind == 4)
        points[9] = near_to(points[0], 4, side);
    if (kind == 5)
        put_even(points, side);
}

/* One axis may be the widest by far, or the only one that is not flat. */
void random_chosen(struct object_call *call, uint8_t *points, int large, unsigned faults) {
    uint32_t widest = random_spread(call->side, 12, large), axis = below(3), others = below(3);
    begin_record(call, points, faults);
    call->n = random_word();
    for (uint32_t a = 0; a < 3; a++) {
        uint32_t spread = a == axis || others == 0 ? widest : others == 1 ? below(widest + 1) : below(2);
        chosen_axis(points + a, call->side, spread < call->side ? spread : call->side - 1);
    }
    end_record(call, points, faults);
}

/* Swatches */

float float_of(uint32_t bits) {
    float v;
    memcpy(&v, &bits, 4);
    return v;
}

static uint32_t bits_of(float v) {
    uint32_t bits;
    memcpy(&bits, &v, 4);
    return bits;
}

/* The f32 nearest to an odd multiple of 1 / (2 (S-1)), which is where a coordinate ends, or one beside it. */
static uint32_t near_half(uint32_t side) {
    uint32_t cells = 2 <= side && side <= 64 ? side - 1 : 1;
    return bits_of((float)((2.0 * below(cells) + 1) / (2.0 * cells))) + below(3) - 1;
}

static uint32_t special_channel(void) {
    static const uint32_t patterns[] = {
        0x00000000, 0x80000000, 0x3F800000, 0x3F800001, 0x3F7FFFFF, 0x00000001, 0x007FFFFF, 0x00800000, 0x00800001,
        0x80000001, 0x807FFFFF, 0x80800000, 0xBF800000, 0x40000000, 0x7F7FFFFF, 0xFF7FFFFF, 0x7F800000, 0xFF800000,
        0x7F800001, 0x7FC00000, 0x7FFFFFFF, 0xFFC00000, 0xFF800001, 0xFFFFFFFF, 0x3F000000, 0x3E800000, 0x3F400000};
    return PICK(patterns);
}

static uint32_t random_channel(uint32_t side) {
    switch (below(32)) {
    case 0:
    case 1:
        return special_channel();
    case 2:
        return random_word();
    case 3:
    case 4:
    case 5:
        return below(0x00800000);
    case 6:
    case 7:
    case 8:
        return below(0x3F800001);
    case 9:
    case 10:
    case 11:
    case 12:
        return bits_of((float)below(1 << 24) / (1 << 24) / 128);
    case 13:
        return one_in(2) ? 0 : 0x80000000;
    case 14:
    case 15:
    case 16:
    case 17:
    case 18:
    case 19:
    case 20:
    case 21:
        return near_half(side);
    default:
        return bits_of((float)below((1 << 24) + 1) / (1 << 24));
    }
}

/* A whole number from 0 to 6, or one of the two f32 next to it on either side; minus zero is next to 0. */
static uint32_t near_whole(void) {
    uint32_t whole = below(7), away = below(3);
    if (whole == 0)
        return (one_in(2) ? 0 : 0x80000000) + away;
    return one_in(2) ? bits_of((float)whole) + away : bits_of((float)whole) - away;
}

/* Hues over all of 0 to 6, near whole numbers, and refused ones. */
static uint32_t random_hue(void) {
    static const uint32_t refused[] = {0x40C00000, 0x40C00001, 0x40E00000, 0x41C00000, 0x80000001, 0xBF800000,
                                       0xC0A00000, 0x7F800000, 0xFF800000, 0x7FC00000, 0xFF800001};
    switch (below(32)) {
    case 0:
        return special_channel();
    case 1:
        return one_in(2) ? random_word() : PICK(refused);
    case 2:
        return below(0x00800000);
    case 3:
    case 4:
        return below(0x40C00000);
    case 5:
    case 6:
        return 0x40BFFFFF - below(256);
    case 7:
        return one_in(2) ? 0 : 0x80000000;
    case 8:
    case 9:
    case 10:
    case 11:
        return bits_of((float)below(6 * 8) / 8);
    case 12:
    case 13:
    case 14:
    case 15:
    case 16:
    case 17:
        return near_whole();
    default:
        return bits_of((float)(below(6u << 29) / 536870912.0));
    }
}

/* A saturation or a value. */
static uint32_t random_share(uint32_t side) {
    static const uint32_t ends[] = {0x00000000, 0x80000000, 0x00000001, 0x3F800000, 0x3F7FFFFF, 0x3F800001};
    switch (below(8)) {
    case 0:
        return PICK(ends);
    case 1:
        return bits_of((float)below(17) / 16);
    default:
        return random_channel(side);
    }
}

/* A value that takes p, q or r of a hue near to a half, or any where there is none. */
static uint32_t value_near_half(uint32_t h, uint32_t s, uint32_t side) {
    float f = float_of(h) - (float)whole_part_of_hue(h), saturation = float_of(s);
    float shares[] = {1, f, 1 - f}, value = float_of(near_half(side)) / (1 - saturation * PICK(shares));
    return 0 <= value && value <= 1 ? bits_of(value) + below(3) - 1 : random_share(side);
}

static void random_hsv(uint32_t number[3], uint32_t side) {
    number[0] = random_hue();
    number[1] = random_share(side);
    number[2] = number[0] < 0x40C00000 && number[1] < 0x3F800000 && one_in(4)
                    ? value_near_half(number[0], number[1], side)
                    : random_share(side);
}

uint32_t bad_kind(void) {
    static const uint32_t kinds[] = {3, 3, 4, 255, 256, 257, 65536, 0x80000000, 0xFFFFFFFF};
    return PICK(kinds);
}

void random_swatch(struct swatch *swatch, uint32_t kind, uint32_t side) {
    swatch->kind = kind;
    if (kind == 2)
        random_hsv(swatch->number, side);
    else
        for (int k = 0; k < 3; k++)
            swatch->number[k] = random_channel(side);
}

/* A hue is not next to a channel. */
void random_second(struct swatch *second, const struct swatch *first) {
    random_swatch(second, below(KINDS_OF_SWATCH), random_side());
    for (int k = (second->kind == 2) == (first->kind == 2) ? 0 : 1; k < 3; k++)
        if (one_in(3))
            second->number[k] = first->number[k] + below(5) - 2;
}

/* Sheets: a line is built as fourteen numbers, then as text; either may be given faults */

enum line_fault { LENGTH = 1, FIELD = 2, MARK = 4, COUNT = 8, COORDINATE = 16, STEP = 32 };

struct text {
    uint8_t *bytes;
    size_t len;
};

static void put(struct text *text, uint8_t byte) {
    if (text->len < SHEET_ROOM)
        text->bytes[text->len++] = byte;
}

static void put_columns(uint8_t *field, uint32_t number) {
    memset(field, ' ', 5);
    for (int k = 4; k == 4 || (k >= 0 && number > 0); k--) {
        field[k] = (uint8_t)('0' + number % 10);
        number /= 10;
    }
}

/* A tab, a sign, the bytes beside the digits, a letter, bytes past 127: none belongs in a field. */
static void spoil_field(uint8_t *field) {
    static const uint8_t wrong[] = {9, 0, 13, '+', '-', '.', '/', ':', 'x', 'O', 127, 128, 176, 255};
    uint32_t k = below(5);
    switch (below(5)) {
    case 0:
        field[k] = PICK(wrong);
        break;
    case 1:
        memset(field, ' ', 5);
        break;
    case 2:
        memmove(field, field + 1, 4);
        field[4] = ' ';
        break;
    case 3:
        field[below(4)] = '1';
        field[4] = ' ';
        break;
    default:
        for (k = 0; k < 5; k++)
            if (field[k] == ' ' && (k > 2 || one_in(2)))
                field[k] = '0';
        if (field[4] == '0' && field[3] == ' ')
            field[3] = '0';
    }
}

/* Writes the line with a wrong length or without its line feed. Answers whether the input is to end here. */
static int put_wrong_line(struct text *text, const uint8_t *line, uint32_t len) {
    uint32_t at = below(len), kind = below(7);
    for (uint32_t k = 0; k < len; k++) {
        if (kind == 0 && k == at)
            continue;
        if (kind == 1 && k == at)
            put(text, one_in(2) ? ' ' : '1');
        if (kind == 2 || (kind == 3 && k >= at))
            break;
        put(text, line[k]);
    }
    if (kind == 4)
        put(text, 13);
    if (kind == 5)
        put(text, one_in(2) ? ' ' : '7');
    if (kind != 6)
        put(text, 10);
    return kind == 6;
}

static int put_line(struct text *text, uint8_t *line, uint32_t fields, unsigned faults) {
    if (faults & FIELD)
        spoil_field(line + 5 * below(fields));
    if (faults & LENGTH)
        return put_wrong_line(text, line, 5 * fields);
    for (uint32_t k = 0; k < 5 * fields; k++)
        put(text, line[k]);
    put(text, 10);
    return 0;
}

/* Line 1, with a wrong length, a bad field or, for MARK, a side that is 11 or 43, or more than one of these. */
static int put_side_line(struct text *text, uint32_t side, unsigned faults) {
    static const uint32_t bad[] = {0, 1, 41, 41, 42, 63, 64, 65, 66, 100, 258, 260, 296, 4098, 65540, 99999};
    uint8_t line[5];
    put_columns(line, (faults & MARK) != 0 ? PICK(bad) : side);
    return put_line(text, line, 1, faults);
}

/* Bad numbers, among them those that are good in their low byte or low two bytes. */
static void spoil_numbers(uint32_t *number, uint32_t side, unsigned faults) {
    static const uint32_t marks[] = {0, 0, 256, 256, 257, 300, 512, 65536, 65537, 99999};
    static const uint32_t counts[] = {0, 0, 513, 513, 514, 600, 1024, 65536, 65539, 99999};
    uint32_t k = 2 + below(12);
    if (faults & STEP) {
        number[1] = 1;
        number[2] = 0;
        number[11] = side > 2 ? between(2, side - 1) : 1;
    }
    if (faults & MARK)
        number[0] = PICK(marks);
    if (faults & COUNT)
        number[1] = PICK(counts);
    if ((faults & COUNT) != 0 && (faults & STEP) != 0) {
        number[1] = 513;
        number[2] = number[8] = 0;
        number[5] = number[11] = 255;
    }
    if (faults & COORDINATE)
        number[k] = one_in(2) ? side : one_in(2) ? 256 * (1 + below(300)) + below(side) : between(side, 99999);
}

/* Of the lines that are not trivial one in eight of a short sheet may have too few steps. */
static void random_numbers(uint32_t *number, uint32_t side, int trivial, int large) {
    uint8_t points[64];
    struct object_call curve = {CHECK, CURVE, side, 1, 0, 0, 0, OVER, points, 12, NULL, 0, NULL};
    random_points(points, CURVE, side, 0);
    for (int k = 3; trivial && k < 12; k++)
        points[k] = points[k % 3];
    random_counts(&curve, 0);
    if (!trivial && (large || !one_in(8)) && curve.n < 3 * largest_gap(points, 4, 1))
        curve.n = 3 * largest_gap(points, 4, 1);
    number[0] = 1 + below(255);
    number[1] = trivial ? 1 + below(3) : curve.n;
    for (int k = 0; k < 12; k++)
        number[2 + k] = points[k];
}

static int put_curve_line(struct text *text, uint32_t side, int trivial, int large, unsigned faults) {
    uint32_t number[14];
    uint8_t line[70];
    random_numbers(number, side, trivial, large);
    spoil_numbers(number, side, faults);
    for (int k = 0; k < 14; k++)
        put_columns(line + 5 * k, number[k]);
    return put_line(text, line, 14, faults);
}

static unsigned random_line_faults(void) {
    unsigned faults = 1u << below(6);
    return one_in(2) ? faults : faults | 1u << below(6);
}

/* Bytes changed anywhere, bytes behind the end, or an end that comes early. */
static void spoil_text(struct text *text) {
    static const uint8_t likely[] = {' ', '0', '1', '2', '9', 10, 10, 13};
    switch (below(3)) {
    case 0:
        for (uint32_t k = below(3); k < 3 && text->len > 0; k++)
            text->bytes[below((uint32_t)text->len)] = one_in(4) ? (uint8_t)below(256) : PICK(likely);
        break;
    case 1:
        put(text, PICK(likely));
        break;
    default:
        text->len = below((uint32_t)text->len + 1);
    }
}

static uint32_t random_lines(int large, int *trivial) {
    *trivial = !large && one_in(50);
    if (large)
        return one_in(4) ? 200 : 150 + below(51);
    return *trivial ? 199 + below(4) : below(6);
}

/* Any bytes, or one byte over and over. */
static size_t no_sheet(uint8_t *bytes) {
    static const uint8_t likely[] = {' ', '0', '5', 10};
    size_t len = below(one_in(10) ? SHEET_ROOM : 200);
    random_bytes(bytes, len);
    if (one_in(4))
        memset(bytes, PICK(likely), len);
    return len;
}

size_t random_sheet(uint8_t *bytes, int large) {
    struct text text = {bytes, 0};
    int trivial, ended;
    uint32_t lines = random_lines(large, &trivial), side = one_in(4) ? 2 + below(39) : 2 + below(9);
    uint32_t faulty = one_in(large ? 4 : 2) ? below(lines + 1) : lines + 1;
    if (one_in(40))
        return no_sheet(bytes);
    if (large || one_in(16))
        side = 40 - below(3);
    if (faulty <= lines && one_in(2))
        faulty = one_in(3) ? 0 : lines;
    ended = put_side_line(&text, side, faulty == 0 ? 1 + below(LENGTH + FIELD + MARK) : 0);
    for (uint32_t k = 1; k <= lines && !ended; k++)
        ended = put_curve_line(&text, side, trivial, large, k == faulty ? random_line_faults() : 0);
    if (one_in(12))
        spoil_text(&text);
    return text.len;
}

/* Cubes */

/* Marks here and there, on unmarked cells or on one mark. */
static void scattered_marks(uint8_t *cube, size_t len) {
    uint32_t marks = below((uint32_t)len / 4 + 2);
    memset(cube, one_in(8) ? (int)below(256) : 0, len);
    for (uint32_t k = 0; k < marks && len > 0; k++)
        cube[below((uint32_t)len)] = (uint8_t)below(256);
}

void random_cube(uint8_t *cube, size_t len) {
    static const uint8_t ends[] = {0, 1, 254, 255};
    uint32_t first = below(256);
    switch (below(16)) {
    case 0:
        memset(cube, PICK(ends), len);
        break;
    case 1:
        for (size_t k = 0; k < len; k++)
            cube[k] = (uint8_t)(first + k);
        break;
    case 2:
        random_bytes(cube, len);
        for (size_t k = 0; k < len; k++)
            cube[k] |= cube[k] == 0;
        break;
    case 3:
    case 4:
    case 5:
        random_bytes(cube, len);
        break;
    case 6:
        random_bytes(cube, len);
        for (size_t k = 0; k < len; k++)
            cube[k] = cube[k] < 128 ? 0 : cube[k];
        break;
    default:
        scattered_marks(cube, len);
    }
}
