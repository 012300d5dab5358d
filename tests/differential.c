/* Runs seeded random calls of the C interface against the exact reference of reference.h and compares every answer,
   every byte of every buffer and every number written, with guard bytes on both sides. Usage:
   differential [seed [scale [kind number]]] */
#include "cases.h"
#include "compare.h"
#include "gidzkhalu.h"
#include "reference.h"

#include <inttypes.h>
#include <signal.h>
#include <stdio.h>
#include <stdlib.h>
#include <string.h>
#include <time.h>

static struct lent points = {.name = "points"}, grid = {.name = "grid or list"}, small = {.name = "cell or channels"},
                   input = {.name = "input"}, buffer = {.name = "buffer"}, detail = {.name = "detail"},
                   new_cells = {.name = "new cells"}, cube = {.name = "cube"}, text = {.name = "text"},
                   flipped = {.name = "flipped"}, flip_n = {.name = "n"}, flip_m = {.name = "m"};

/* Curves, patches and solids */

static const char *const SERVICE[SERVICES] = {
    "check", "list", "draw", "choose the steps of", "draw with chosen steps", "list the path of", "draw the path of",
    "draw on the strip"};

static const char *const FORM[] = {"curve", "patch", "solid"};

enum { PARAMETERS = 3, RECORD_MOST = GIDZKHALU_SOLID_BYTES };

static void print_object(const struct object_call *c) {
    printf("  %s %s: side %" PRIu32, SERVICE[c->service], FORM[c->form], c->side);
    for (int p = 0; p <= (int)c->form && !chooses(c); p++)
        printf(", %c %" PRIu32, "nml"[p], count_along(c, p));
    if (draws(c))
        printf(", mark %d, choice %" PRIu32, c->mark, c->choice);
    if (lists(c) || draws(c))
        printf(", %s of %zu bytes", lists(c) ? "list" : "grid", c->lent_len);
    printf("\n");
    print_bytes("points", c->points, c->points_len);
}

static int64_t library_object(const struct object_call *c) {
    const uint8_t *p = c->points;
    size_t len = c->points_len;
    if (c->form == SOLID && c->service == CHECK)
        return gidzkhalu_check_solid(c->side, p, len, c->n, c->m, c->l);
    if (c->form == SOLID)
        return gidzkhalu_draw_solid(c->side, p, len, c->n, c->m, c->l, c->mark, c->choice, c->lent, c->lent_len,
                                    c->new_cells);
    if (c->form == PATCH && c->service == CHECK)
        return gidzkhalu_check_patch(c->side, p, len, c->n, c->m);
    if (c->form == PATCH && on_strip(c))
        return gidzkhalu_draw_strip_patch(c->side, p, len, c->n, c->m, c->mark, c->choice, c->lent, c->lent_len,
                                          c->new_cells);
    if (c->form == PATCH)
        return gidzkhalu_draw_patch(c->side, p, len, c->n, c->m, c->mark, c->choice, c->lent, c->lent_len,
                                    c->new_cells);
    if (c->service == CHECK)
        return gidzkhalu_check_curve(c->side, p, len, c->n);
    if (c->service == LIST)
        return gidzkhalu_list_curve(c->side, p, len, c->n, c->lent, c->lent_len);
    if (c->service == LIST_PATH)
        return gidzkhalu_list_path(c->side, p, len, c->n, c->lent, c->lent_len);
    if (c->service == DRAW_PATH)
        return gidzkhalu_draw_path(c->side, p, len, c->n, c->mark, c->choice, c->lent, c->lent_len, c->new_cells);
    if (on_strip(c))
        return gidzkhalu_draw_strip_curve(c->side, p, len, c->n, c->mark, c->choice, c->lent, c->lent_len,
                                          c->new_cells);
    if (c->service == CHOOSE)
        return gidzkhalu_choose_steps(c->side, p, len);
    if (c->service == DRAW_CHOSEN)
        return gidzkhalu_draw_chosen(c->side, p, len, c->mark, c->choice, c->lent, c->lent_len, c->new_cells);
    return gidzkhalu_draw_curve(c->side, p, len, c->n, c->mark, c->choice, c->lent, c->lent_len, c->new_cells);
}

static int any_coordinate(const struct object_call *c, uint32_t value) {
    for (size_t k = 0; k < c->points_len; k++)
        if (c->points[k] == value)
            return 1;
    return 0;
}

/* The largest gap between consecutive points of a curve: the place of the first one, 3 x its axis + its first point, and
   how many are as large. */
struct gap {
    uint32_t size;
    int place, times;
};

static struct gap largest_gap(const uint8_t *p) {
    struct gap largest = {0, 0, 0};
    for (int place = 0; place < 9; place++) {
        int from = p[place / 3 + place % 3 * 3], to = p[place / 3 + place % 3 * 3 + 3];
        uint32_t size = (uint32_t)abs(from - to);
        if (size > largest.size)
            largest = (struct gap){size, place, 0};
        largest.times += size == largest.size;
    }
    return largest;
}

/* Whether three times the gap of points 0 and 3, on every axis, is at most n. */
static int ends_near(const struct object_call *c) {
    int near = 1;
    for (int axis = 0; axis < 3; axis++)
        near &= 3 * abs(c->points[axis] - c->points[axis + 9]) <= (int)c->n;
    return near;
}

static void meet_quit(const struct object_call *c, const struct gap *largest) {
    int exact = c->n == 3 * largest->size;
    meet(CHECK_QUIT, 1);
    meet(QUIT_EXACT, exact);
    meet(QUIT_ABOVE, c->n == 3 * largest->size + 1);
    meet((enum met)(QUIT_X_0 + largest->place), exact && largest->times == 1);
    meet(QUIT_EQUAL, largest->size == 0 && c->n == 1);
    meet(QUIT_189, largest->size == 63 && c->n == 189);
    meet(QUIT_512, c->n == 512);
}

static void meet_walked(const struct object_call *c, const struct gap *largest) {
    int one_below = c->n + 1 == 3 * largest->size;
    meet(CHECK_WALKED, 1);
    meet(WALKED_BELOW, one_below);
    meet((enum met)(WALKED_X_0 + largest->place), one_below && largest->times == 1);
    meet(WALKED_188, largest->size == 63 && c->n == 188);
    meet(WALKED_ENDS, ends_near(c));
}

/* answer: of the reference. */
static void meet_accepted_curve(const struct object_call *c, int64_t answer) {
    struct gap largest = largest_gap(c->points);
    int quits = test_quits(c);
    if (c->service == CHECK && answer == GIDZKHALU_QUIT)
        meet_quit(c, &largest);
    else if (c->service == CHECK)
        meet_walked(c, &largest);
    meet(quits ? QUIT_LIST : WALKED_LIST, c->service == LIST);
    meet(quits ? QUIT_DRAW : WALKED_DRAW, c->service == DRAW);
}

/* Of a refused curve with points of 12 bytes or more. */
static void meet_refused_curve(const struct object_call *c, int64_t answer) {
    int quits = test_quits(c);
    meet(LONG_BELOW, answer == -15 && c->n + 1 == 3 * largest_gap(c->points).size);
    meet(QUIT_51, answer == -51 && quits);
    meet(QUIT_55, answer == -55 && quits);
    meet(QUIT_11, answer == -11 && quits);
    meet(QUIT_21, answer == -21 && quits);
    meet(QUIT_12, answer == -12 && quits);
    meet(QUIT_13, answer == -13 && quits);
    meet(QUIT_13_0, answer == -13 && c->n == 0 && quits);
    meet(QUIT_22, answer == -22 && quits);
    meet(QUIT_14, answer == -14 && quits);
}

/* The values of the last object that passed all numbers before 15, and its cells if it was accepted. Of an accepted path
   its own cells are in path. */
static struct samples samples, path;

/* What an accepted call lists or draws. */
static const struct samples *cells_of(const struct object_call *c) { return of_path(c) ? &path : &samples; }

static int ends_apart_by(const struct object_call *c, uint32_t far) {
    int some = 0;
    for (int axis = 0; axis < 3; axis++)
        some |= (uint32_t)abs(c->points[axis] - c->points[axis + 9]) == far;
    return some;
}

/* Of an accepted call that chooses; n is the chosen count. */
static void meet_accepted_choice(const struct object_call *c) {
    uint32_t gap = largest_gap(c->points).size;
    meet(CHOSEN_EQUAL, c->n == 1 && gap == 0);
    meet(CHOSEN_1, c->n == 1 && gap >= 2);
    meet(CHOSEN_ENOUGH, gap >= 2 && c->n == 3 * gap);
    meet(CHOSEN_BELOW, gap >= 2 && c->n + 1 == 3 * gap);
    meet(CHOSEN_HALF, c->n > 1 && 2 * c->n <= 3 * gap);
    meet(CHOSEN_ENDS, c->n > 1 && ends_apart_by(c, c->n));
    meet(CHOSEN_STEP_ONE, longest_step(&samples) == samples.scale);
    meet(CHOSEN_188, c->n == 188);
    meet(CHOSEN_SIDE_2, c->side == 2);
    meet(CHOSEN_SIDE_64, c->side == 64);
    meet(CHOSEN_COORDINATE_LAST, any_coordinate(c, c->side - 1));
}

static void meet_refused_choice(const struct object_call *c, int64_t answer) {
    size_t volume = (size_t)c->side * c->side * c->side;
    meet(CHOSEN_SIDE_1, answer == -11 && c->side == 1);
    meet(CHOSEN_SIDE_65, answer == -11 && c->side == 65);
    meet(CHOSEN_COORDINATE_SIDE, answer == -14 && any_coordinate(c, c->side));
    meet(CHOSEN_GRID_SHORT, answer == -21 && c->lent_len + 1 == volume);
    meet(CHOSEN_GRID_LONG, answer == -21 && c->lent_len == volume + 1);
    meet(CHOSEN_CHOICE_2, answer == -55 && c->choice == 2);
    meet(CHOSEN_CHOICE_256, answer == -55 && c->choice == 256);
}

/* The steps of accepted paths by their moves: at 9 (x + 1) + 3 (y + 1) + z + 1, each -1, 0 or 1. */
enum { WAYS = 27 };

static uint64_t path_steps[WAYS];

static void count_path_steps(void) {
    for (size_t at = 1; at < samples.many; at++) {
        int way = 0;
        for (int axis = 0; axis < 3; axis++)
            way = 3 * way + samples.cell[axis][at] - samples.cell[axis][at - 1] + 1;
        path_steps[way]++;
    }
}

/* Of an accepted path; answer: of the reference. */
static void meet_accepted_path(const struct object_call *c, int64_t answer) {
    size_t n = c->n, listed = c->service == LIST_PATH ? 3 * (size_t)answer : 0, len = c->lent_len;
    count_path_steps();
    count_ties(&samples, &met[PATH_HALF_RISING], &met[PATH_HALF_FALLING], &met[PATH_NEAR_HALF]);
    if (listed > 0) {
        meet(PATH_LIST_EXACT, len == listed && len < 3 * (3 * n + 1));
        meet(PATH_LIST_SAMPLES, len == 3 * (n + 1) && listed < len);
        meet(PATH_LIST_BELOW_SAMPLES, len < 3 * (n + 1));
        meet(PATH_LIST_BELOW_MOST, len + 1 == 3 * (3 * n + 1));
        meet(PATH_LIST_MOST, len == 3 * (3 * n + 1) && listed < len);
        meet(PATH_LIST_FULL, len == listed && n > 1 && len == 3 * (3 * n + 1));
    }
    meet(PATH_ONE_CELL, answer == 1);
    meet(PATH_LONG, answer > 200);
    meet(PATH_COMES_BACK, different_cells(&path, c->side) < path.many);
    meet(PATH_STEP_ONE, longest_step(&samples) == samples.scale);
    meet(PATH_SIDE_2, c->side == 2);
    meet(PATH_SIDE_64, c->side == 64);
    meet(PATH_COUNT_1, n == 1);
    meet(PATH_512, n == 512);
    meet(test_quits(c) ? PATH_QUIT : PATH_WALKED, 1);
    meet(PATH_COORDINATE_LAST, any_coordinate(c, c->side - 1));
}

/* Of a path's list that is too short: the cells of the samples are there. */
static void meet_short_path(const struct object_call *c) {
    size_t n = c->n, listed = 3 * path_length(c), len = c->lent_len;
    meet(PATH_LIST_SHORT, len + 1 == listed);
    meet(PATH_SHORT_CELL, len + 3 == listed);
    meet(PATH_SHORT_SAMPLES, len >= 3 * (n + 1));
    meet(PATH_SHORT_FULL, len + 1 == listed && n > 1 && listed == 3 * (3 * n + 1));
}

static void meet_refused_path(const struct object_call *c, int64_t answer) {
    size_t volume = (size_t)c->side * c->side * c->side;
    if (answer == -22)
        meet_short_path(c);
    meet(PATH_SIDE_1, answer == -11 && c->side == 1);
    meet(PATH_SIDE_65, answer == -11 && c->side == 65);
    meet(PATH_COUNT_0, answer == -13 && c->n == 0);
    meet(PATH_513, answer == -13 && c->n == 513);
    meet(PATH_COORDINATE_SIDE, answer == -14 && any_coordinate(c, c->side));
    meet(PATH_LONG_STEP, answer == -15 && c->service == LIST_PATH && c->lent_len >= 3 * (3 * (size_t)c->n + 1));
    meet(PATH_GRID_SHORT, answer == -21 && c->lent_len + 1 == volume);
    meet(PATH_GRID_LONG, answer == -21 && c->lent_len == volume + 1);
    meet(PATH_CHOICE_2, answer == -55 && c->choice == 2);
    meet(PATH_CHOICE_256, answer == -55 && c->choice == 256);
}

/* Of an accepted drawing on the strip. */
static void meet_accepted_strip(const struct object_call *c) {
    meet(STRIP_SIDE_2, c->side == 2);
    meet(STRIP_SIDE_17, c->side == 17);
    meet(STRIP_COUNT_1, c->n == 1 || (c->form == PATCH && c->m == 1));
    meet(STRIP_CURVE_64, c->form == CURVE && c->n == 64);
    meet(STRIP_PATCH_64_T, c->form == PATCH && c->n == 64);
    meet(STRIP_PATCH_64_U, c->form == PATCH && c->m == 64);
    meet(STRIP_PATCH_64_64, c->form == PATCH && c->n == 64 && c->m == 64);
    meet(STRIP_STEP_ONE, longest_step(&samples) == samples.scale);
    meet(STRIP_COORDINATE_LAST, any_coordinate(c, c->side - 1));
}

/* A step count of a patch that 13 lets pass and 24 does not, and one that 13 does not. */
static int off_strip(uint32_t count) { return 65 <= count && count <= 256; }
static int outside(uint32_t count) { return count == 0 || 256 < count; }

static void meet_refused_strip(const struct object_call *c, int64_t answer) {
    size_t volume = (size_t)c->side * c->side * c->side;
    int of_curve = c->form == CURVE, steps = answer == -24, outside_range = answer == -13;
    meet(STRIP_SIDE_1, answer == -11 && c->side == 1);
    meet(STRIP_SIDE_18, answer == -23 && c->side == 18);
    meet(STRIP_SIDE_64, answer == -23 && c->side == 64);
    meet(STRIP_SIDE_65, answer == -11 && c->side == 65);
    meet(STRIP_COUNT_0, outside_range && (c->n == 0 || (c->form == PATCH && c->m == 0)));
    meet(STRIP_CURVE_65, steps && of_curve && c->n == 65);
    meet(STRIP_CURVE_512, steps && of_curve && c->n == 512);
    meet(STRIP_CURVE_513, outside_range && of_curve && c->n == 513);
    meet(STRIP_PATCH_65_T, steps && c->form == PATCH && c->n == 65 && c->m <= 64);
    meet(STRIP_PATCH_65_U, steps && c->form == PATCH && c->m == 65 && c->n <= 64);
    meet(STRIP_PATCH_256, steps && c->form == PATCH && (c->n == 256 || c->m == 256));
    meet(STRIP_PATCH_257, outside_range && c->form == PATCH && (c->n == 257 || c->m == 257));
    meet(STRIP_13_T, outside_range && c->form == PATCH && outside(c->n) && off_strip(c->m));
    meet(STRIP_13_U, outside_range && c->form == PATCH && outside(c->m) && off_strip(c->n));
    meet(STRIP_STEP_LONG, answer == -15);
    meet(STRIP_COORDINATE_SIDE, answer == -14 && any_coordinate(c, c->side));
    meet(STRIP_GRID_SHORT, answer == -21 && c->lent_len + 1 == volume);
    meet(STRIP_GRID_LONG, answer == -21 && c->lent_len == volume + 1);
    meet(STRIP_GRID_EMPTY, answer == -21 && c->lent_len == 0);
    meet(STRIP_CHOICE_2, answer == -55 && c->choice == 2);
    meet(STRIP_CHOICE_256, answer == -55 && c->choice == 256);
}

/* Solids. Of the values of the last object: where the steps that are too long are. */
struct long_steps {
    int along[PARAMETERS], axis[3], inside, beside; /* inside: neither first nor last along the other parameters */
    int first, between, last;                       /* along their parameter */
};

/* The number of a sample along a parameter. */
static size_t number_along(size_t at, int parameter) {
    for (int p = 0; p < parameter; p++)
        at /= samples.number[p];
    return at % samples.number[parameter];
}

static void find_long(size_t at, size_t next, int parameter, struct long_steps *found) {
    size_t i = number_along(at, parameter);
    int some = 0, inside = 1;
    for (int axis = 0; axis < 3; axis++) {
        wide step = samples.value[axis][next] - samples.value[axis][at];
        int is_long = step > samples.scale || -step > samples.scale;
        some |= is_long;
        found->axis[axis] |= is_long;
    }
    if (!some)
        return;
    for (int p = 0; p < PARAMETERS; p++)
        inside &= p == parameter || (0 < number_along(at, p) && number_along(at, p) + 1 < samples.number[p]);
    found->along[parameter] = 1;
    *(inside ? &found->inside : &found->beside) = 1;
    *(i == 0 ? &found->first : i + 2 < samples.number[parameter] ? &found->between : &found->last) = 1;
}

static struct long_steps long_steps(void) {
    struct long_steps found = {{0}, {0}, 0, 0, 0, 0, 0};
    size_t stride = 1;
    for (int p = 0; p < PARAMETERS; stride *= samples.number[p], p++)
        for (size_t at = 0; at < samples.many; at++)
            if (number_along(at, p) + 1 < samples.number[p])
                find_long(at, at + stride, p, &found);
    return found;
}

/* Of a solid that is refused with 15. */
static void meet_long_solid(void) {
    struct long_steps found = long_steps();
    meet(SOLID_STEP_ABOVE_ONE, 50 * longest_step(&samples) < 51 * samples.scale);
    for (int axis = 0; axis < 3; axis++)
        meet((enum met)(SOLID_LONG_X + axis), found.axis[axis] && found.axis[0] + found.axis[1] + found.axis[2] == 1);
    for (int p = 0; p < PARAMETERS; p++) {
        int alone = found.along[p] && found.along[0] + found.along[1] + found.along[2] == 1;
        int three = alone && samples.number[p] > 3;
        meet((enum met)(SOLID_LONG_T + 4 * p), alone);
        meet((enum met)(SOLID_LONG_T_INSIDE + 4 * p), alone && !found.beside);
        meet((enum met)(SOLID_LONG_T_FIRST + 4 * p), three && !found.between && !found.last);
        meet((enum met)(SOLID_LONG_T_LAST + 4 * p), three && !found.between && !found.first);
    }
}

/* The different coordinates of an accepted object on the axis that has fewest of them. */
static uint32_t coordinates(void) {
    uint32_t fewest = UINT32_MAX;
    for (int axis = 0; axis < 3; axis++) {
        uint64_t held = 0;
        uint32_t different = 0;
        for (size_t at = 0; at < samples.many; at++)
            held |= UINT64_C(1) << samples.cell[axis][at];
        for (; held != 0; held &= held - 1)
            different++;
        fewest = different < fewest ? different : fewest;
    }
    return fewest;
}

static void meet_accepted_solid(const struct object_call *c) {
    wide longest = longest_step(&samples), along[PARAMETERS];
    int ones = 0;
    for (int p = 0; p < PARAMETERS; p++) {
        along[p] = longest_step_along(&samples, p);
        ones += along[p] == samples.scale;
        meet((enum met)(SOLID_32_T + p), count_along(c, p) == 32);
    }
    for (int p = 0; p < PARAMETERS; p++)
        meet((enum met)(SOLID_STEP_ONE_T + p), ones == 1 && along[p] == samples.scale);
    count_ties(&samples, &met[SOLID_HALF_RISING], &met[SOLID_HALF_FALLING], &met[SOLID_NEAR_HALF]);
    meet(SOLID_STEP_BELOW_ONE, longest < samples.scale && 50 * longest >= 49 * samples.scale);
    meet(SOLID_SIDE_2, c->side == 2);
    meet(SOLID_SIDE_64, c->side == 64);
    meet(SOLID_32, c->n == 32 && c->m == 32 && c->l == 32);
    meet(SOLID_1, c->n == 1 && c->m == 1 && c->l == 1);
    meet(SOLID_SAME, c->n > 1 && c->n == c->m && c->n == c->l);
    meet(SOLID_DIFFERENT, c->n != c->m && c->n != c->l && c->m != c->l);
    meet(SOLID_COORDINATE_LAST, any_coordinate(c, c->side - 1));
    meet(SOLID_WIDE, coordinates() >= 20);
}

/* Whether all counts but the one along a parameter are good. */
static int others_good(const struct object_call *c, int parameter) {
    int good = 1;
    for (int p = 0; p < PARAMETERS; p++)
        good &= p == parameter || (1 <= count_along(c, p) && count_along(c, p) <= GIDZKHALU_SOLID_STEPS_MOST);
    return good;
}

static int last_alone_outside(const struct object_call *c) {
    for (size_t k = 0; k + 1 < RECORD_MOST; k++)
        if (c->points[k] >= c->side)
            return 0;
    return 1;
}

static void meet_refused_solid(const struct object_call *c, int64_t answer) {
    size_t volume = (size_t)c->side * c->side * c->side;
    if (answer == -15)
        meet_long_solid();
    for (int p = 0; p < PARAMETERS; p++) {
        meet((enum met)(SOLID_COUNT_0_T + p), answer == -13 && count_along(c, p) == 0 && others_good(c, p));
        meet((enum met)(SOLID_33_T + p), answer == -13 && count_along(c, p) == 33 && others_good(c, p));
    }
    meet(SOLID_SIDE_1, answer == -11 && c->side == 1);
    meet(SOLID_SIDE_65, answer == -11 && c->side == 65);
    meet(SOLID_COORDINATE_SIDE, answer == -14 && any_coordinate(c, c->side));
    meet(SOLID_LAST_POINT, answer == -14 && last_alone_outside(c));
    meet(SOLID_GRID_SHORT, answer == -21 && c->lent_len + 1 == volume);
    meet(SOLID_GRID_LONG, answer == -21 && c->lent_len == volume + 1);
    meet(SOLID_GRID_EMPTY, answer == -21 && c->lent_len == 0);
    meet(SOLID_CHOICE_2, answer == -55 && c->choice == 2);
    meet(SOLID_CHOICE_256, answer == -55 && c->choice == 256);
    meet(SOLID_191, answer == -51 && c->points_len == 191);
    meet(SOLID_193, answer == -51 && c->points_len == 193);
    meet(SOLID_48, answer == -51 && c->points_len == 48);
}

/* The neighbours of accepted patches, and of accepted solids, whose cells differ by more than one on some axis. */
static uint64_t patch_neighbours_apart, solid_neighbours_apart;

/* Compares the cells of all neighbours of an accepted object; answers how many differ by more than one on some axis. */
static uint64_t cells_apart(const struct object_call *c) {
    struct neighbours neighbours = {0};
    count_neighbours(&samples, &neighbours);
    if (c->form == PATCH) {
        met[NEIGHBOURS_T] += neighbours.along[0];
        met[NEIGHBOURS_U] += neighbours.along[1];
        met[NEIGHBOURS_HALVES] += neighbours.on_halves;
        patch_neighbours_apart += neighbours.apart;
    }
    if (c->form == SOLID) {
        for (int p = 0; p < PARAMETERS; p++)
            met[SOLID_NEIGHBOURS_T + p] += neighbours.along[p];
        met[SOLID_NEIGHBOURS_HALVES] += neighbours.on_halves;
        solid_neighbours_apart += neighbours.apart;
    }
    return neighbours.apart;
}

static void meet_accepted_object(const struct object_call *c) {
    wide longest = longest_step(&samples);
    count_ties(&samples, &met[c->form == PATCH ? PATCH_HALF_RISING : CURVE_HALF_RISING],
               &met[c->form == PATCH ? PATCH_HALF_FALLING : CURVE_HALF_FALLING],
               &met[c->form == PATCH ? PATCH_NEAR_HALF : CURVE_NEAR_HALF]);
    meet(c->form == PATCH ? PATCH_STEP_ONE : CURVE_STEP_ONE, longest == samples.scale);
    meet(STEP_BELOW_ONE, longest < samples.scale && 50 * longest >= 49 * samples.scale);
    meet(SIDE_2, c->side == 2);
    meet(SIDE_64, c->side == 64);
    meet(COUNT_1, c->n == 1 || (c->form == PATCH && c->m == 1));
    meet(CURVE_512, c->form == CURVE && c->n == 512);
    meet(PATCH_256_T, c->form == PATCH && c->n == 256);
    meet(PATCH_256_U, c->form == PATCH && c->m == 256);
    meet(PATCH_256_256, c->form == PATCH && c->n == 256 && c->m == 256);
    meet(COORDINATE_LAST, any_coordinate(c, c->side - 1));
    meet(LIST_EXACT, c->service == LIST && c->lent_len == 3 * ((size_t)c->n + 1));
}

static void meet_refused_object(const struct object_call *c, int64_t answer) {
    size_t volume = (size_t)c->side * c->side * c->side;
    meet(SIDE_1, answer == -11 && c->side == 1);
    meet(SIDE_65, answer == -11 && c->side == 65);
    meet(CHOICE_2, answer == -55 && c->choice == 2);
    meet(CHOICE_255, answer == -55 && c->choice == 255);
    meet(CHOICE_256, answer == -55 && c->choice == 256);
    meet(CHOICE_HIGH, answer == -55 && c->choice == 0x80000000);
    meet(CHOICE_LAST, answer == -55 && c->choice == 0xFFFFFFFF);
    meet(COUNT_0, answer == -13 && (c->n == 0 || (c->form == PATCH && c->m == 0)));
    meet(CURVE_513, answer == -13 && c->form == CURVE && c->n == 513);
    meet(PATCH_257, answer == -13 && c->form == PATCH && (c->n == 257 || c->m == 257));
    meet(COORDINATE_SIDE, answer == -14 && any_coordinate(c, c->side));
    meet(LIST_SHORT, answer == -22 && c->lent_len + 1 == 3 * ((size_t)c->n + 1));
    meet(GRID_SHORT, answer == -21 && c->lent_len + 1 == volume);
    meet(GRID_LONG, answer == -21 && c->lent_len == volume + 1);
    meet(STEP_ABOVE_ONE, answer == -15 && 50 * longest_step(&samples) < 51 * samples.scale);
}

static void meet_object(const struct object_call *c, int64_t answer) {
    if (c->form == SOLID) {
        if (answer >= 0)
            meet_accepted_solid(c);
        else
            meet_refused_solid(c, answer);
    } else if (of_path(c)) {
        if (answer >= 0)
            meet_accepted_path(c, answer);
        else
            meet_refused_path(c, answer);
    } else if (on_strip(c)) {
        if (answer >= 0)
            meet_accepted_strip(c);
        else
            meet_refused_strip(c, answer);
    } else if (answer >= 0 && chooses(c)) {
        meet_accepted_choice(c);
    } else if (answer >= 0) {
        meet_accepted_object(c);
        if (c->form == CURVE)
            meet_accepted_curve(c, answer);
    } else if (chooses(c)) {
        meet_refused_choice(c, answer);
    } else {
        meet_refused_object(c, answer);
        if (c->form == CURVE && c->points_len >= GIDZKHALU_CURVE_BYTES)
            meet_refused_curve(c, answer);
    }
}

static void count_check(const struct object_call *c, int64_t answer) {
    running.counts->quit += c->service == CHECK && c->form == CURVE && answer == GIDZKHALU_QUIT;
    running.counts->walked += c->service == CHECK && c->form == CURVE && answer == GIDZKHALU_WALKED;
}

/* Counts of new cells that were compared. */
static void count_drawing(int64_t answer) {
    running.counts->new_cells += answer >= 0;
    running.counts->left += answer < 0;
}

/* Compares the count of a drawing; unmarked is the number of unmarked cells of its grid before it. Those that the library
   counts in an accepted one are no more than its samples, or the cells of its path, its different cells and the unmarked
   cells. */
static int compare_new_cells(const struct object_call *c, int64_t answer, size_t unmarked) {
    uint32_t count = *number_at(new_cells.got);
    uint32_t of_patch = c->form == PATCH, drawn = 3 * c->choice;
    uint32_t kind = on_strip(c) ? 4 + of_patch : c->service == DRAW_PATH ? 3 : c->service == DRAW_CHOSEN ? 2 : of_patch;
    size_t cells;
    count_drawing(answer);
    if (answer < 0)
        return same(&new_cells);
    drawn += 6 * (c->form == SOLID ? 6 : kind);
    cells = different_cells(cells_of(c), c->side);
    meet((enum met)(CURVE_OVER_UNMARKED + drawn), unmarked == grid.len);
    meet((enum met)(CURVE_OVER_HALF + drawn),
         2 * grid.len <= 5 * unmarked && 5 * unmarked <= 3 * grid.len && 0 < count && count < cells);
    meet((enum met)(CURVE_OVER_MARKED + drawn), unmarked == 0);
    meet(ALL_SAMPLES_NEW, count == (uint64_t)answer);
    meet(GRID_FILLED, count > 0 && count == unmarked);
    meet(SOLID_FILLS, c->form == SOLID && count > 0 && count == unmarked);
    meet(SOLID_ALL_NEW, c->form == SOLID && count == (uint64_t)answer);
    meet(ONE_CELL_NEW, c->form == CURVE && cells == 1 && count == 1);
    meet(ONE_CELL_MARKED, c->form == CURVE && cells == 1 && count == 0);
    meet(c->choice == OVER ? OVER_COMES_BACK : UNDER_COMES_BACK,
         c->form == CURVE && turns(cells_of(c)) > cells && count == cells);
    return same(&new_cells) && count <= (uint64_t)answer && count <= cells && count <= unmarked;
}

/* Compares one call on the buffers points and grid; *want is the answer that the reference gives. Of an accepted call that
   chooses its count, that becomes the call's n. */
static int compare_object(struct object_call *c, int64_t *want) {
    struct order order = {0};
    size_t unmarked = draws(c) ? unmarked_cells(grid.want, grid.len) : 0;
    uint64_t apart;
    int64_t got;
    int agreed, leads;
    lend_number(&new_cells);
    c->points = points.want;
    c->lent = grid.want;
    c->new_cells = number_at(new_cells.want);
    *want = reference_object(c, &order, &samples, &path);
    apart = *want >= 0 ? cells_apart(c) : 0;
    leads = *want < 0 || !of_path(c) || path_leads(&samples, &path);
    c->points = passed(&points, NULL_POINTS);
    if (lists(c) || draws(c))
        c->lent = passed(&grid, lists(c) ? NULL_LIST : NULL_GRID);
    c->new_cells = number_at(new_cells.got);
    got = library_object(c);
    if (*want >= 0 && chooses(c))
        c->n = (uint32_t)samples.number[0] - 1;
    count_order(running.counts, &order);
    count_check(c, *want);
    meet_object(c, *want);
    agreed = apart == 0 && leads && *want == got && same(&points) && same(&grid);
    if (draws(c))
        agreed &= compare_new_cells(c, *want, unmarked);
    if (agreed)
        return 1;
    print_failure(*want, got);
    if (apart > 0)
        printf("  neighbours whose cells are more than one apart: %" PRIu64 "\n", apart);
    if (!leads)
        printf("  the reference's path is not face to face from sample to sample\n");
    c->points = points.want;
    print_object(c);
    print_difference(&points);
    print_difference(&grid);
    if (draws(c))
        print_number(&new_cells);
    return 0;
}

static int object_case(enum service service, enum form form, int large, unsigned faults) {
    struct object_call c = {service, form, CURVE, 0, 0, 0, 0, OVER, NULL, 0, NULL, 0, NULL};
    uint8_t record[RECORD_ROOM];
    int64_t answer;
    c.side = !large ? random_side() : one_in(2) ? 64 : 33 + below(32);
    random_object(&c, record, large, faults);
    lend_bytes(&points, record, c.points_len);
    if (lists(&c))
        lend(&grid, c.lent_len);
    else
        lend_cube(&grid, draws(&c) ? c.lent_len : 0);
    return compare_object(&c, &answer);
}

static int check_curve(void) { return object_case(CHECK, CURVE, 0, random_faults(ALL_FAULTS)); }
static int list_curve(void) { return object_case(LIST, CURVE, 0, random_faults(ALL_FAULTS)); }
static int draw_curve(void) { return object_case(DRAW, CURVE, 0, random_faults(ALL_FAULTS)); }
static int check_patch(void) { return object_case(CHECK, PATCH, 0, random_faults(ALL_FAULTS)); }
static int draw_patch(void) { return object_case(DRAW, PATCH, 0, random_faults(ALL_FAULTS)); }

static int list_path(void) { return object_case(LIST_PATH, CURVE, 0, random_faults(ALL_FAULTS)); }
static int draw_path(void) { return object_case(DRAW_PATH, CURVE, 0, random_faults(ALL_FAULTS)); }

static int large_path(void) {
    return object_case(one_in(2) ? LIST_PATH : DRAW_PATH, CURVE, 1, one_in(4) ? random_faults(ALL_FAULTS) : 0);
}

static int large_curve(void) {
    return object_case((enum service)below(3), CURVE, 1, one_in(4) ? random_faults(ALL_FAULTS) : 0);
}

static int check_solid(void) { return object_case(CHECK, SOLID, 0, random_faults(ALL_FAULTS)); }
static int draw_solid(void) { return object_case(DRAW, SOLID, 0, random_faults(ALL_FAULTS)); }

static int large_solid(void) {
    return object_case(one_in(4) ? CHECK : DRAW, SOLID, 1, one_in(8) ? random_faults(ALL_FAULTS) : 0);
}

static int large_patch(void) {
    return object_case(one_in(4) ? CHECK : DRAW, PATCH, 1, one_in(8) ? random_faults(ALL_FAULTS) : 0);
}

/* The same record checked, listed and drawn, its step count near three times its largest gap: all three are accepted, or
   refused with the same number. */
static int near_quitting(void) {
    struct object_call c = {CHECK, CURVE, one_in(16) ? 64 : random_side(), 0, 0, 0, 0, OVER, NULL, 0, NULL, 0, NULL};
    uint8_t record[RECORD_ROOM];
    int64_t checked, listed, drawn;
    random_gaps(&c, record, random_faults(RECORD_FAULTS));
    lend_bytes(&points, record, c.points_len);
    lend(&grid, 0);
    if (!compare_object(&c, &checked))
        return 0;
    c.service = LIST;
    c.lent_len = right_length(&c);
    lend(&grid, c.lent_len);
    if (!compare_object(&c, &listed))
        return 0;
    c.service = DRAW;
    c.lent_len = right_length(&c);
    lend_cube(&grid, c.lent_len);
    if (!compare_object(&c, &drawn))
        return 0;
    if (listed == drawn && (checked < 0 ? listed == checked : listed == (int64_t)c.n + 1))
        return 1;
    print_failure(checked, listed);
    printf("  a check, a listing and a drawing (%" PRId64 ") do not agree:\n", drawn);
    c.points = points.want;
    print_object(&c);
    return 0;
}

/* Chosen step counts */

static int chosen_case(enum service service, int large, unsigned faults) {
    struct object_call c = {service, CURVE, 0, 0, 0, 0, 0, OVER, NULL, 0, NULL, 0, NULL};
    uint8_t record[RECORD_ROOM];
    int64_t answer;
    c.side = !large ? random_side() : one_in(2) ? 64 : 33 + below(32);
    random_chosen(&c, record, large, faults);
    lend_bytes(&points, record, c.points_len);
    lend_cube(&grid, draws(&c) ? c.lent_len : 0);
    return compare_object(&c, &answer);
}

static int choose_steps(void) { return chosen_case(CHOOSE, 0, random_faults(CHOSEN_FAULTS)); }
static int draw_chosen(void) { return chosen_case(DRAW_CHOSEN, 0, random_faults(CHOSEN_FAULTS)); }

static int large_choice(void) {
    return chosen_case(one_in(2) ? CHOOSE : DRAW_CHOSEN, 1, one_in(8) ? random_faults(CHOSEN_FAULTS) : 0);
}

/* Swatches */

static void print_swatch(const struct swatch *s) {
    printf("  kind %" PRIu32 ", numbers %08" PRIX32 " %08" PRIX32 " %08" PRIX32 "\n", s->kind, s->number[0], s->number[1],
           s->number[2]);
}

static size_t small_length(size_t right, int wrong) {
    static const size_t lengths[] = {0, 1, 2, 3, 4, 11, 12, 13, 16};
    size_t len = right;
    while (wrong && len == right)
        len = lengths[below(9)];
    return len;
}

enum { ONE = 0x3F800000, SIX = 0x40C00000, LEAST_NORMAL = 0x00800000 };

static const uint32_t MINUS_ZERO = 0x80000000;

static int subnormal(uint32_t bits) { return 0 < bits && bits < LEAST_NORMAL; }

static void meet_channels(uint32_t side, const struct swatch *s, int64_t answer) {
    int minus_zero = 0, small = 0, dark = 0, above = 0;
    for (int k = 0; k < (s->kind == 1 ? 1 : 3); k++) {
        uint32_t bits = s->number[k];
        minus_zero |= bits == MINUS_ZERO;
        small |= subnormal(bits);
        dark |= LEAST_NORMAL <= bits && bits < 0x3C000000;
        above |= bits == ONE + 1;
    }
    meet(CHANNEL_ABOVE_1, answer == -32 && above);
    meet(CHANNEL_MINUS_ZERO, answer == 0 && minus_zero);
    meet(CHANNEL_SUBNORMAL, answer == 0 && small);
    meet(CHANNEL_DARK, answer == 0 && dark);
    meet(CHANNEL_HALF, answer == 0 && channels_on_half(side, s) > 0);
}

static void meet_accepted_hue(uint32_t side, const struct swatch *s) {
    uint32_t hue = s->number[0], saturation = s->number[1], value = s->number[2], channel[3];
    int small = 0, zero = 0, k = (int)whole_part_of_hue(hue);
    channels_of(s, channel);
    for (int at = 0; at < 3; at++) {
        small |= subnormal(channel[at]);
        zero |= channel[at] == 0;
    }
    meet((enum met)(HUE_0 + k), 1);
    meet(HUE_WHOLE, float_of(hue) == (float)k);
    meet(HUE_MINUS_ZERO, hue == MINUS_ZERO);
    meet(HUE_SUBNORMAL, subnormal(hue));
    meet(HUE_BELOW_WHOLE, k < 5 && float_of(hue + 1) == (float)(k + 1));
    meet(HUE_BELOW_6, hue == SIX - 1);
    meet(SATURATION_0, saturation == 0);
    meet(SATURATION_MINUS_ZERO, saturation == MINUS_ZERO);
    meet(SATURATION_1, saturation == ONE);
    meet(VALUE_0, value == 0);
    meet(VALUE_MINUS_ZERO, value == MINUS_ZERO);
    meet(VALUE_1, value == ONE);
    meet(HUE_HALF, channels_on_half(side, s) > 0);
    meet(HUE_TO_SUBNORMAL, LEAST_NORMAL <= value && value <= ONE && small);
    meet(HUE_TO_ZERO, 0 < value && value <= ONE && saturation < ONE && zero);
}

static void meet_swatch(uint32_t side, const struct swatch *s, int64_t answer) {
    if (s->kind != 2)
        meet_channels(side, s, answer);
    else if (answer == 0)
        meet_accepted_hue(side, s);
    meet(HUE_6, answer == -33 && s->number[0] == SIX);
    meet(HUE_BELOW_0, answer == -33 && s->number[0] == MINUS_ZERO + 1);
}

static int to_cell_case(uint32_t kind, int wrong) {
    struct order order = {0};
    struct swatch s;
    uint32_t side = one_in(8) ? bad_side() : 2 + below(63);
    unsigned faults = wrong ? 1 + below(3) : one_in(20) ? below(4) : 0;
    int64_t want, got;
    random_swatch(&s, kind, side);
    if (faults & 1)
        s.kind = bad_kind();
    lend(&small, small_length(GIDZKHALU_CELL_BYTES, faults & 2));
    want = reference_to_cell(side, &s, small.want, small.len, &order);
    got = gidzkhalu_to_cell(side, s.kind, float_of(s.number[0]), float_of(s.number[1]), float_of(s.number[2]),
                            passed(&small, NULL_CELL), small.len);
    count_order(running.counts, &order);
    meet_swatch(side, &s, want);
    if (want == got && same(&small))
        return 1;
    print_failure(want, got);
    printf("  to_cell: side %" PRIu32 ", cell of %zu bytes\n", side, small.len);
    print_swatch(&s);
    print_difference(&small);
    return 0;
}

static int to_cell(void) { return to_cell_case(below(2), 0); }
static int hue_to_cell(void) { return to_cell_case(2, 0); }

/* Of an accepted call; its channels are in small.want. */
static void meet_half_way(const struct swatch *a, const struct swatch *b) {
    static const uint8_t minus_zero[4] = {0, 0, 0, 0x80};
    uint32_t bits = a->number[0], other = b->number[0];
    uint32_t low = bits < other ? bits : other, high = bits < other ? other : bits;
    int hue = a->kind == 2 || b->kind == 2;
    meet((enum met)(COLOUR_COLOUR + KINDS_OF_SWATCH * a->kind + b->kind), 1);
    meet(SUM_ROUNDED, !hue && high < MINUS_ZERO && (low >> 23) + 1 == high >> 23 && low % 2 == 1);
    meet(MIX_MINUS_ZERO, hue && memcmp(small.want, minus_zero, 4) == 0);
}

static int half_way_case(int wrong) {
    struct order order = {0};
    struct swatch a, b;
    unsigned faults = wrong ? 1 + below(7) : one_in(20) ? below(8) : 0;
    int64_t want, got;
    random_swatch(&a, below(KINDS_OF_SWATCH), random_side());
    random_second(&b, &a);
    if (faults & 1)
        a.kind = bad_kind();
    if (faults & 2)
        b.kind = bad_kind();
    lend(&small, small_length(GIDZKHALU_CHANNELS_BYTES, faults & 4));
    want = reference_half_way(&a, &b, small.want, small.len, &order);
    got = gidzkhalu_half_way(a.kind, float_of(a.number[0]), float_of(a.number[1]), float_of(a.number[2]), b.kind,
                             float_of(b.number[0]), float_of(b.number[1]), float_of(b.number[2]),
                             passed(&small, NULL_CHANNELS), small.len);
    count_order(running.counts, &order);
    if (want == 0)
        meet_half_way(&a, &b);
    if (want == got && same(&small))
        return 1;
    print_failure(want, got);
    printf("  half_way: channels of %zu bytes\n", small.len);
    print_swatch(&a);
    print_swatch(&b);
    print_difference(&small);
    return 0;
}

static int half_way(void) { return half_way_case(0); }

/* Sheets */

static size_t sheet_buffer_length(void) {
    static const size_t lengths[] = {0, 1, 8, 63999, 64001, 64000 - 71, 65536};
    return one_in(2) ? lengths[below(7)] : 63999 + 2 * below(2);
}

/* The bytes of the cube of an accepted sheet. */
static size_t sheet_cells(void) { return GIDZKHALU_CUBE_BYTES(*number_at(detail.want)); }

/* Of an accepted sheet, whose count is that of the marked cells of the library's cube. */
static int compare_sheet_count(int64_t curves, const struct strokes *strokes) {
    uint32_t count = *number_at(new_cells.got);
    meet(SHEET_NO_CURVE, curves == 0 && count == 0);
    meet(SHEET_APART, curves > 1 && count == strokes->cells);
    meet(SHEET_OVERLAPS, count < strokes->cells);
    meet(SHEET_COVERED, strokes->without_new > 0);
    meet(SHEET_QUITS, 0 < strokes->quit && strokes->quit < (uint64_t)curves);
    return count <= strokes->cells && count == sheet_cells() - unmarked_cells(buffer.got, sheet_cells());
}

/* *want is the answer that the reference gives. */
static int sheet_case(int large, int64_t *want) {
    static uint8_t sheet[SHEET_ROOM];
    struct order order = {0};
    struct strokes strokes;
    int64_t got;
    int agreed;
    lend_bytes(&input, sheet, random_sheet(sheet, large));
    lend(&buffer, one_in(20) ? sheet_buffer_length() : GIDZKHALU_SHEET_BUFFER_BYTES);
    lend_number(&detail);
    lend_number(&new_cells);
    *want = reference_draw_sheet(input.want, input.len, buffer.want, buffer.len, number_at(detail.want),
                                 number_at(new_cells.want), &order, &strokes);
    got = gidzkhalu_draw_sheet(passed(&input, NULL_INPUT), input.len, passed(&buffer, NULL_BUFFER), buffer.len,
                               number_at(detail.got), number_at(new_cells.got));
    count_order(running.counts, &order);
    count_drawing(*want);
    meet(SHEET_200, *want == 200);
    meet(SHEET_SIDE_40, *want >= 0 && *number_at(detail.want) == 40);
    agreed = *want == got && same(&input) && same(&buffer) && same(&detail) && same(&new_cells);
    if (agreed && (*want < 0 || compare_sheet_count(*want, &strokes)))
        return 1;
    print_failure(*want, got);
    printf("  draw_sheet: buffer of %zu bytes\n", buffer.len);
    print_text(input.want, input.len);
    print_difference(&input);
    print_difference(&buffer);
    print_number(&detail);
    print_number(&new_cells);
    return 0;
}

static int draw_sheet(void) {
    int64_t answer;
    return sheet_case(0, &answer);
}

static int large_sheet(void) {
    int64_t answer;
    return sheet_case(1, &answer);
}

/* Listings */

/* A byte to begin at: the ends of the cube and of its rows, and far past it. */
static size_t random_first(uint32_t side, size_t len) {
    switch (below(6)) {
    case 0:
        return 0;
    case 1:
        return side * (size_t)below(200);
    case 2:
        return len - 1 + below(3);
    case 3:
        return one_in(4) ? SIZE_MAX - below(3) : len + below(1000);
    default:
        return below((uint32_t)len + 1);
    }
}

static size_t random_count_of_places(size_t first, size_t len) {
    switch (len > 5000 && !one_in(8) ? 0 : below(5)) {
    case 0:
        return below(one_in(2) ? 3 : 300);
    case 1:
        return first < len ? len - first + below(3) : below(10);
    case 2:
        return len;
    default:
        return below((uint32_t)len + 1);
    }
}

/* 21 (count + 1) bytes or some more; too few of them where they are to be short, or for a count that overflows. */
static size_t random_text_length(size_t *count, int short_of) {
    size_t least = 21 * (*count + 1);
    if (short_of && one_in(4)) {
        *count = one_in(2) ? SIZE_MAX - below(2) : SIZE_MAX / 21 + below(2);
        return below(100);
    }
    if (short_of)
        return one_in(2) ? least - 1 : below((uint32_t)least);
    return least + (one_in(2) ? 0 : below(50));
}

/* Compares one part; *bytes is the library's answer, and its text is in text.got. */
static int compare_part(uint32_t side, size_t first, size_t count, size_t text_len, int64_t *bytes) {
    struct order order = {0};
    int64_t want;
    lend(&text, text_len);
    want = reference_list_part(side, cube.want, cube.len, first, count, text.want, text.len, &order);
    *bytes = gidzkhalu_list_part(side, passed(&cube, NULL_CUBE), cube.len, first, count, passed(&text, NULL_TEXT),
                                 text.len);
    count_order(running.counts, &order);
    meet(PART_HEADING, want >= 0 && first == 0);
    meet(PART_PAST, want >= 0 && first >= cube.len);
    if (want == *bytes && same(&cube) && same(&text))
        return 1;
    print_failure(want, *bytes);
    printf("  list_part: side %" PRIu32 ", first %zu, count %zu, text of %zu bytes\n", side, first, count, text.len);
    print_cube(cube.want, cube.len);
    print_difference(&cube);
    print_difference(&text);
    return 0;
}

/* The faults of a call that writes a text about a cube; BAD_RECORD stands for a short text. */
static unsigned random_text_faults(void) { return random_faults(BAD_SIDE | BAD_LENGTH | BAD_RECORD); }

/* Lends a cube of a side, or of a bad one, or of a wrong length; answers the side. */
static uint32_t lend_cube_of(uint32_t side, unsigned faults) {
    size_t len;
    if (faults & BAD_SIDE)
        side = bad_side();
    len = side <= 70 ? (size_t)side * side * side : (uint32_t)(side * side * side) % 300000;
    if (faults & BAD_LENGTH)
        len = one_in(4) ? below(1000) : len > 0 ? len - 1 + 2 * below(2) : 1;
    lend_cube(&cube, len);
    return side;
}

static int part_case(uint32_t side) {
    unsigned faults = random_text_faults();
    size_t first, count, text_len;
    int64_t bytes;
    side = lend_cube_of(side, faults);
    first = random_first(side, cube.len);
    count = random_count_of_places(first, cube.len);
    text_len = random_text_length(&count, faults & BAD_RECORD);
    return compare_part(side, first, count, text_len, &bytes);
}

/* The parts in turn, one behind another, are the whole listing. */
static int joined_case(uint32_t side) {
    static uint8_t whole[GIDZKHALU_PART_BYTES(64 * 64 * 64)], joined[2 * sizeof whole];
    size_t len = (size_t)side * side * side, at = 0;
    int64_t all, bytes;
    lend_cube(&cube, len);
    if (!compare_part(side, 0, len, GIDZKHALU_PART_BYTES(len), &all))
        return 0;
    memcpy(whole, text.got, (size_t)all);
    for (size_t first = 0, count; first < len; first += count, at += (size_t)bytes) {
        count = 1 + below(one_in(2) ? side : (uint32_t)len);
        if (!compare_part(side, first, count, GIDZKHALU_PART_BYTES(count), &bytes))
            return 0;
        memcpy(joined + at, text.got, (size_t)bytes);
    }
    if (at == (size_t)all && memcmp(whole, joined, at) == 0)
        return 1;
    print_failure(all, (int64_t)at);
    printf("  parts joined: side %" PRIu32 "\n", side);
    print_cube(cube.want, cube.len);
    return 0;
}

static int list_part(void) { return part_case(one_in(200) ? 2 + below(63) : 2 + below(8)); }
static int parts_joined(void) { return joined_case(2 + below(6)); }

static uint32_t large_side(void) { return one_in(2) ? 64 : 20 + below(45); }

static int large_listing(void) {
    uint32_t side = large_side();
    return one_in(2) ? part_case(side) : joined_case(side);
}

/* A sheet is drawn, and its cube is listed: the heading and a line for each new cell. */
static int sheet_listing(void) {
    int64_t curves, bytes;
    if (!sheet_case(one_in(100), &curves))
        return 0;
    if (curves < 0)
        return 1;
    lend_bytes(&cube, buffer.got, sheet_cells());
    if (!compare_part(*number_at(detail.got), 0, cube.len, GIDZKHALU_PART_BYTES(cube.len), &bytes))
        return 0;
    if (bytes == GIDZKHALU_LISTING_LINE_BYTES * (1 + (int64_t)*number_at(new_cells.got)))
        return 1;
    print_failure(GIDZKHALU_LISTING_LINE_BYTES * (1 + (int64_t)*number_at(new_cells.got)), bytes);
    printf("  the listing has not a line for each new cell:\n");
    print_text(input.want, input.len);
    return 0;
}

/* Totals: of a cube, 256 lines at most */

enum { TOTALS_LINE = GIDZKHALU_TOTALS_LINE_BYTES, TOTALS_TEXT = GIDZKHALU_TOTALS_BYTES };

/* Of an accepted call; its lines are in text.want. */
static void meet_totals(uint32_t side, size_t bytes) {
    static const char none[] = "         0";
    int full = memcmp(text.want + bytes - TOTALS_LINE + 10, none, 10) == 0;
    size_t marks = bytes / TOTALS_LINE - 1;
    meet(TOTALS_SIDE_2, side == 2);
    meet(TOTALS_SIDE_64, side == 64);
    meet(TOTALS_NO_MARK, marks == 0);
    meet(TOTALS_ONE_MARK, marks == 1 && full && side == 64);
    meet(TOTALS_FULL, marks > 1 && full);
    meet(TOTALS_EVERY_MARK, marks == 255 && !full);
    meet(TOTALS_EXACT, text.len == TOTALS_TEXT);
}

/* Compares the totals of the cube that a buffer begins with. */
static int compare_totals(uint32_t side, const struct lent *of, size_t cube_len, size_t text_len) {
    struct order order = {0};
    int64_t want, got;
    lend(&text, text_len);
    want = reference_totals(side, of->want, cube_len, text.want, text.len, &order);
    got = gidzkhalu_totals(side, passed(of, NULL_CUBE), cube_len, passed(&text, NULL_TEXT), text.len);
    count_order(running.counts, &order);
    meet(TOTALS_SHORT, want == -22 && text.len + 1 == TOTALS_TEXT);
    if (want >= 0)
        meet_totals(side, (size_t)want);
    if (want == got && same(of) && same(&text))
        return 1;
    print_failure(want, got);
    printf("  totals: side %" PRIu32 ", text of %zu bytes\n", side, text.len);
    print_cube(of->want, cube_len);
    print_difference(of);
    print_difference(&text);
    return 0;
}

static size_t totals_text_length(int short_of) {
    if (short_of)
        return one_in(2) ? TOTALS_TEXT - 1 : below(TOTALS_TEXT);
    return TOTALS_TEXT + (one_in(2) ? 0 : below(100));
}

static int totals_case(uint32_t side) {
    unsigned faults = random_text_faults();
    side = lend_cube_of(side, faults);
    return compare_totals(side, &cube, cube.len, totals_text_length(faults & BAD_RECORD));
}

static int totals(void) { return totals_case(one_in(200) ? below(71) : 2 + below(8)); }
static int large_totals(void) { return totals_case(large_side()); }

/* A sheet is drawn, and the totals are those of its cube. */
static int sheet_totals(void) {
    int64_t curves;
    if (!sheet_case(one_in(100), &curves))
        return 0;
    if (curves < 0)
        return 1;
    meet(TOTALS_SHEET, curves > 1);
    return compare_totals(*number_at(detail.want), &buffer, sheet_cells(), totals_text_length(0));
}

/* Among them 99999 and the next. */
static uint32_t random_printed(uint32_t usual) {
    switch (below(8)) {
    case 0:
        return random_word();
    case 1:
        return 99999 + below(2);
    case 2:
    case 3:
        return below(100000);
    default:
        return below(usual);
    }
}

static int refusal_line(void) {
    struct order order = {0};
    uint32_t number = random_printed(100), line = random_printed(203);
    int64_t want, got;
    lend(&text, one_in(4) ? 17 - (one_in(2) ? 0 : below(18)) : 18 + below(8));
    want = reference_refusal_line(number, line, text.want, text.len, &order);
    got = gidzkhalu_refusal_line(number, line, passed(&text, NULL_TEXT), text.len);
    count_order(running.counts, &order);
    meet(LINE_99999, want == 18 && (number == 99999 || line == 99999));
    meet(LINE_100000, want == -54 && (number == 100000 || line == 100000));
    if (want == got && same(&text))
        return 1;
    print_failure(want, got);
    printf("  refusal_line: number %" PRIu32 ", line %" PRIu32 ", text of %zu bytes\n", number, line, text.len);
    print_difference(&text);
    return 0;
}

/* A length of the record or a choice that is wrong. */
static int wrong_record(enum service service, enum form form) {
    struct object_call c = {service, form, 0, 0, 0, 0, 0, OVER, NULL, 0, NULL, 0, NULL};
    unsigned fault = draws(&c) && one_in(2) ? BAD_CHOICE : BAD_RECORD;
    return object_case(service, form, 0, fault | random_faults(ALL_FAULTS));
}

/* 51, 52, 53 or 55 for each call but a flip that can have them, often with another number that applies. */
static int wrong_length(void) {
    switch (below(17)) {
    case 0:
    case 1:
    case 2:
        return to_cell_case(below(KINDS_OF_SWATCH), 1);
    case 3:
    case 4:
    case 5:
        return half_way_case(1);
    case 6:
    case 7:
        return wrong_record(one_in(3) ? CHECK : one_in(2) ? DRAW : DRAW_STRIP, PATCH);
    case 8:
        return wrong_record(one_in(3) ? CHECK : DRAW, SOLID);
    default:
        return wrong_record((enum service)below(SERVICES), CURVE);
    }
}

/* Drawings, by the grid before them and the one after them */

enum { CELLS = 64 * 64 * 64, LONGEST_GRID = 300001 }; /* of a wrong length as well */

/* Of the accepted drawing compared last, which went under. */
static void meet_under(const struct object_call *c, const uint8_t *before) {
    meet(UNDER_NOTHING, *number_at(new_cells.got) == 0 && unmarked_cells(before, grid.len) > 0);
    meet(UNDER_OWN_MARK, meets_mark(cells_of(c), c->side, c->mark, before));
    meet(UNDER_GAP, c->form == CURVE && meets_gap(cells_of(c), c->side, before));
}

/* Of the accepted path drawn last: some cell that no sample has was unmarked, or went under a mark. */
static void meet_between(const struct object_call *c, const uint8_t *before) {
    static uint8_t other[CELLS];
    size_t unmarked;
    memcpy(other, before, grid.len);
    mark_cells(&samples, c->side, 1, OVER, other);
    unmarked = unmarked_cells(other, grid.len);
    mark_cells(&path, c->side, 1, UNDER, other);
    meet(PATH_BETWEEN_NEW, unmarked_cells(other, grid.len) < unmarked);
    memcpy(other, before, grid.len);
    mark_cells(&samples, c->side, 0, OVER, other);
    unmarked = unmarked_cells(other, grid.len);
    mark_cells(&path, c->side, 0, OVER, other);
    meet(PATH_BETWEEN_KEPT, c->choice == UNDER && unmarked_cells(other, grid.len) > unmarked);
}

/* What is wrong with the library's grid after the accepted drawing compared last, by the documents' words, or NULL. */
static const char *fault_of_drawing(const struct object_call *c, const uint8_t *before) {
    static uint8_t backwards[CELLS];
    if (!samples_hold(&samples, c, before, grid.got))
        return "demand 3's second sentence does not hold after the last call";
    if (of_path(c) && !path_holds(&path, c, before, grid.got))
        return "a cell of the path does not hold what it is to hold after the last call";
    if (!others_kept(cells_of(c), c, before, grid.got))
        return "the last call has changed a cell that has no sample and is on no path";
    if (c->choice == UNDER && !marks_kept(before, grid.got, grid.len))
        return "the last call went under and has changed a marked cell";
    memcpy(backwards, before, grid.len);
    mark_backwards(cells_of(c), c->side, c->mark, (enum choice)c->choice, backwards);
    if (memcmp(backwards, grid.got, grid.len) != 0)
        return "the last call's samples in reverse order leave another grid";
    return NULL;
}

static int print_drawing(const char *fault, const struct object_call *c, const uint8_t *before) {
    struct object_call printed = *c;
    printf("FAILED: %s, case %" PRIu64 ", seed %" PRIu64 ": %s\n", running.name, running.number, running.seed, fault);
    printed.points = points.want;
    print_cube(before, grid.len);
    print_object(&printed);
    print_number(&new_cells);
    return 0;
}

/* Compares a drawing into the grid with the reference's and with the documents' words. */
static int compare_drawing(struct object_call *c, int64_t *answer) {
    static uint8_t before[LONGEST_GRID];
    const char *fault;
    memcpy(before, grid.got, grid.len);
    if (!compare_object(c, answer))
        return 0;
    if (*answer < 0)
        return 1;
    if (c->choice == UNDER)
        meet_under(c, before);
    if (of_path(c))
        meet_between(c, before);
    fault = fault_of_drawing(c, before);
    return fault == NULL || print_drawing(fault, c, before);
}

/* Paths, by the library's list of samples */

static int reversed(const uint8_t *list, const uint8_t *back, size_t cells) {
    for (size_t i = 0; i < cells; i++)
        if (memcmp(list + 3 * i, back + 3 * (cells - 1 - i), 3) != 0)
            return 0;
    return 1;
}

/* The path through cells of three bytes; answers the number of its cells. */
static size_t path_through(const uint8_t *cell, size_t cells, uint8_t *to) {
    size_t length = 1;
    memcpy(to, cell, 3);
    for (size_t at = 1; at < cells; at++)
        for (size_t axis = 0; axis < 3; axis++)
            if (cell[3 * at + axis] != cell[3 * (at - 1) + axis]) {
                memcpy(to + 3 * length, to + 3 * (length - 1), 3);
                to[3 * length + axis] = cell[3 * at + axis];
                length++;
            }
    return length;
}

enum { LONGEST_PATH = 3 * GIDZKHALU_CURVE_STEPS_MOST + 1 };

/* What is wrong with the library's path, listed into the grid buffer, beside the cells that it lists for the samples, or
   NULL. */
static const char *fault_of_path(const struct object_call *c, int64_t answer) {
    static uint8_t sampled[GIDZKHALU_LIST_BYTES(GIDZKHALU_CURVE_STEPS_MOST)], made[3 * LONGEST_PATH];
    size_t length;
    if (gidzkhalu_list_curve(c->side, points.got, points.len, c->n, sampled, sizeof sampled) != (int64_t)c->n + 1)
        return "the curve cannot be listed";
    length = path_through(sampled, c->n + 1, made);
    if (answer != (int64_t)length || memcmp(made, grid.got, 3 * length) != 0)
        return "the library's list of samples leads to another path";
    return NULL;
}

/* A mark in each cell of a list. */
static void mark_listed(const uint8_t *list, size_t cells, const struct object_call *c, uint8_t *to) {
    for (size_t at = 0; at < cells; at++) {
        uint8_t *cell = to + list[3 * at] + c->side * (list[3 * at + 1] + c->side * (size_t)list[3 * at + 2]);
        if (c->choice == OVER || *cell == 0)
            *cell = c->mark;
    }
}

/* The flip's path, by the library, has as many cells; others, or in another order, are met. */
static const char *fault_of_flipped_path(const struct object_call *c, const uint8_t *listed, int64_t answer) {
    static uint8_t back[3 * LONGEST_PATH];
    uint8_t record[GIDZKHALU_CURVE_BYTES];
    for (int k = 0; k < 4; k++)
        memcpy(record + 3 * (3 - k), points.got + 3 * k, 3);
    if (gidzkhalu_list_path(c->side, record, sizeof record, c->n, back, sizeof back) != answer)
        return "the flip's path has not as many cells";
    meet(PATH_FLIP_OTHER, !reversed(listed, back, (size_t)answer));
    return NULL;
}

/* A curve's path listed and drawn. */
static int path_by_samples(void) {
    static uint8_t listed[3 * LONGEST_PATH], start[CELLS];
    struct object_call c = {LIST_PATH, CURVE, random_side(), 0, 0, 0, 0, OVER, NULL, 0, NULL, 0, NULL};
    uint8_t record[RECORD_ROOM];
    const char *fault;
    int64_t answer, drawn;
    random_object(&c, record, one_in(40), 0);
    lend_bytes(&points, record, c.points_len);
    lend(&grid, c.lent_len);
    if (!compare_object(&c, &answer))
        return 0;
    if (answer < 0)
        return 1;
    memcpy(listed, grid.got, 3 * (size_t)answer);
    fault = fault_of_path(&c, answer);
    if (fault == NULL)
        fault = fault_of_flipped_path(&c, listed, answer);
    meet(PATH_BY_SAMPLES, 1);
    c.service = DRAW_PATH;
    c.lent_len = right_length(&c);
    lend_cube(&grid, c.lent_len);
    memcpy(start, grid.got, grid.len);
    if (!compare_drawing(&c, &drawn))
        return 0;
    mark_listed(listed, (size_t)answer, &c, start);
    if (fault == NULL && (drawn != answer || memcmp(start, grid.got, grid.len) != 0))
        fault = "the cells that are drawn are not those that are listed";
    return fault == NULL || print_drawing(fault, &c, start);
}

/* Chosen counts, by other calls of the library */

/* Of a chosen count of 3 or more: what one less is refused for, if that is a single axis. */
static void meet_deciding(struct object_call c) {
    int axes = 0, deciding = 0, first = 0, inside = 0, last = 0;
    if (--c.n < 2)
        return;
    exact_values(&c, &samples);
    for (int axis = 0; axis < 3; axis++) {
        int some = 0;
        for (uint32_t i = 0; i < c.n; i++) {
            wide step = samples.value[axis][i + 1] - samples.value[axis][i];
            int is_long = step > samples.scale || -step > samples.scale;
            some |= is_long;
            first |= is_long && i == 0;
            last |= is_long && i + 1 == c.n;
            inside |= is_long && 0 < i && i + 1 < c.n;
        }
        axes += some;
        deciding = some ? axis : deciding;
    }
    if (axes == 1 && first + inside + last == 1)
        meet((enum met)(CHOSEN_X_FIRST + 3 * deciding + (first ? 0 : inside ? 1 : 2)), 1);
}

/* The largest of the counts that would be chosen for the axes alone. */
static uint32_t count_of_axes(const uint8_t record[GIDZKHALU_CURVE_BYTES]) {
    uint32_t largest = 1;
    for (int axis = 0; axis < 3; axis++) {
        uint8_t alone[GIDZKHALU_CURVE_BYTES] = {0};
        struct object_call c = {CHOOSE, CURVE, 64, 0, 0, 0, 0, OVER, alone, sizeof alone, NULL, 0, NULL};
        uint32_t count;
        for (int k = 0; k < 4; k++)
            alone[3 * k + axis] = record[3 * k + axis];
        count = smallest_count(&c);
        largest = count > largest ? count : largest;
    }
    return largest;
}

/* With the points' x y z as z x y, and side 64. */
static int64_t count_turned(const uint8_t record[GIDZKHALU_CURVE_BYTES]) {
    uint8_t turned[GIDZKHALU_CURVE_BYTES];
    for (int k = 0; k < 12; k++)
        turned[k / 3 * 3 + (k + 1) % 3] = record[k];
    return gidzkhalu_choose_steps(64, turned, sizeof turned);
}

/* What is wrong with a chosen count by checks of the library and by the count of the same points turned, or NULL. */
static const char *fault_of_count(const struct object_call *c, const uint8_t record[GIDZKHALU_CURVE_BYTES]) {
    size_t len = GIDZKHALU_CURVE_BYTES;
    uint32_t most = 3 * largest_gap(record).size;
    int refused_above = 0;
    for (uint32_t n = 1; n < c->n; n++)
        if (gidzkhalu_check_curve(c->side, record, len, n) != -GIDZKHALU_REFUSED_LONG_STEP)
            return "a check does not refuse a count below the chosen one";
    if (gidzkhalu_check_curve(c->side, record, len, c->n) < 0)
        return "a check refuses the chosen count";
    if (count_turned(record) != c->n)
        return "on other axes another count is chosen";
    for (uint32_t n = c->n + 1; n <= most && !refused_above; n++)
        refused_above = gidzkhalu_check_curve(c->side, record, len, n) < 0;
    meet(CHECKED_BELOW, c->n > 1);
    meet(CHECKED_CHOSEN, 1);
    meet(CHOSEN_TURNED, 1);
    meet(c->n == 1 ? CHOSEN_1_REFUSED : CHOSEN_REFUSED, refused_above);
    return c->n == 1 || c->n <= most ? NULL : "the chosen count is above three times the largest gap";
}

/* Draws a curve with the chosen count and with that count passed, each into a grid of the same bytes: the same answer, new
   cells and grid. */
static int chosen_or_passed(struct object_call *c) {
    static uint8_t start[CELLS], drawn[CELLS];
    uint32_t count;
    int64_t answer, answer_passed;
    c->service = DRAW_CHOSEN;
    lend_cube(&grid, c->lent_len);
    memcpy(start, grid.got, grid.len);
    if (!compare_drawing(c, &answer))
        return 0;
    memcpy(drawn, grid.got, grid.len);
    count = *number_at(new_cells.got);
    lend_bytes(&grid, start, grid.len);
    c->service = DRAW;
    if (!compare_drawing(c, &answer_passed))
        return 0;
    meet(CHOSEN_OR_PASSED, 1);
    return (answer == answer_passed && answer == (int64_t)c->n + 1 && count == *number_at(new_cells.got) &&
            memcmp(drawn, grid.got, grid.len) == 0) ||
           print_drawing("with the chosen count passed another drawing is made", c, start);
}

static int chosen_by_checks(void) {
    struct object_call c = {CHOOSE, CURVE, random_side(), 0, 0, 0, 0, OVER, NULL, 0, NULL, 0, NULL};
    uint8_t record[RECORD_ROOM];
    const char *fault;
    int64_t answer;
    random_chosen(&c, record, 0, 0);
    lend_bytes(&points, record, c.points_len);
    lend(&grid, 0);
    if (!compare_object(&c, &answer))
        return 0;
    fault = fault_of_count(&c, record);
    if (fault != NULL) {
        print_failure(answer, answer);
        printf("  %s:\n", fault);
        c.points = points.want;
        print_object(&c);
        return 0;
    }
    c.points = record;
    meet_deciding(c);
    meet(CHOSEN_ABOVE_AXES, count_of_axes(record) < c.n);
    return chosen_or_passed(&c);
}

/* Flips */

static int64_t reference_flip(int patch, struct order *order) {
    if (patch)
        return reference_flip_patch(points.want, points.len, number_at(flip_n.want), number_at(flip_m.want),
                                    flipped.want, flipped.len, order);
    return reference_flip_curve(points.want, points.len, flipped.want, flipped.len, order);
}

static int64_t library_flip(int patch) {
    const uint8_t *p = passed(&points, NULL_POINTS);
    uint8_t *to = passed(&flipped, NULL_FLIP);
    if (patch)
        return gidzkhalu_flip_patch(p, points.len, number_at(flip_n.got), number_at(flip_m.got), to, flipped.len);
    return gidzkhalu_flip_curve(p, points.len, to, flipped.len);
}

/* Compares the flip of the buffer points with the counts n and m, which a curve does not pass; the flip is left in flipped,
   flip_n and flip_m. *want is the answer that the reference gives. */
static int compare_flip(int patch, uint32_t n, uint32_t m, size_t flipped_len, int64_t *want) {
    struct order order = {0};
    int64_t got;
    lend(&flipped, flipped_len);
    lend_this_number(&flip_n, n);
    lend_this_number(&flip_m, m);
    *want = reference_flip(patch, &order);
    got = library_flip(patch);
    count_order(running.counts, &order);
    meet(FLIP_SHORT, *want == -52 && flipped_len + 1 == points.len);
    meet(FLIP_LONG, *want == -52 && flipped_len == points.len + 1);
    if (*want == got && same(&points) && same(&flipped) && same(&flip_n) && same(&flip_m))
        return 1;
    print_failure(*want, got);
    printf("  flip %s: n %" PRIu32 ", m %" PRIu32 ", flip of %zu bytes\n", patch ? "patch" : "curve", n, m, flipped.len);
    print_bytes("points", points.want, points.len);
    print_difference(&points);
    print_difference(&flipped);
    print_number(&flip_n);
    print_number(&flip_m);
    return 0;
}

/* Of the points of a record, or of its flip. */
static size_t flip_length(size_t right, int wrong) {
    static const size_t lengths[] = {0, 0, 1, 9, 11, 12, 13, 24, 36, 47, 48, 49, 60};
    size_t len = right;
    while (wrong && len == right)
        len = one_in(2) ? right - 1 + 2 * below(2) : lengths[below(13)];
    return len;
}

static uint32_t flip_count(void) {
    static const uint32_t counts[] = {0, 1, 255, 256, 257, 65536, 0x80000000, 0xFFFFFFFF};
    return one_in(2) ? counts[below(8)] : one_in(2) ? below(300) : random_word();
}

/* Any bytes and counts; flipped twice they are what they were. */
static int flip_case(int patch) {
    size_t right = patch ? GIDZKHALU_PATCH_BYTES : GIDZKHALU_CURVE_BYTES;
    unsigned faults = one_in(2) ? 0 : below(4);
    uint32_t n = flip_count(), m = flip_count();
    uint8_t record[RECORD_ROOM];
    int64_t answer;
    random_bytes(record, sizeof record);
    lend_bytes(&points, record, flip_length(right, faults & 1));
    if (!compare_flip(patch, n, m, flip_length(right, faults & 2), &answer))
        return 0;
    if (answer < 0)
        return 1;
    meet(FLIP_COUNT_0, patch && n != m && (n == 0 || m == 0));
    meet(FLIP_COUNT_LAST, patch && n != m && (n == UINT32_MAX || m == UINT32_MAX));
    lend_bytes(&points, flipped.got, right);
    if (!compare_flip(patch, *number_at(flip_n.got), *number_at(flip_m.got), right, &answer))
        return 0;
    meet(patch ? PATCH_FLIPPED_TWICE : CURVE_FLIPPED_TWICE, !patch || n != m);
    if (memcmp(flipped.got, record, right) == 0 && *number_at(flip_n.got) == n && *number_at(flip_m.got) == m)
        return 1;
    print_failure(0, answer);
    printf("  flipped twice, the record is another one:\n");
    print_bytes("points", record, right);
    return 0;
}

static int flip_curve(void) { return flip_case(0); }
static int flip_patch(void) { return flip_case(1); }

/* The library's call on a record: what it answered, what it left in the grid or list, and its new cells. */
struct called {
    int64_t answer;
    const uint8_t *left;
    uint32_t count;
};

/* What is wrong with the library's call on the flip, compared last, beside that on the record, or NULL. */
static const char *fault_of_flip(const struct object_call *c, const struct called *record, int64_t answer) {
    size_t listed = c->service == LIST && answer >= 0 ? 3 * (size_t)answer : 0;
    if (answer != record->answer)
        return "the flip has another answer";
    if (draws(c) && answer >= 0 && *number_at(new_cells.got) != record->count)
        return "the flip has other new cells";
    if (!reversed(record->left, grid.got, listed / 3))
        return "the flip does not list the same cells in reverse order";
    if (grid.len > listed && memcmp(record->left + listed, grid.got + listed, grid.len - listed) != 0)
        return c->service == LIST ? "the flip leaves other bytes in the list" : "the flip leaves another grid";
    return NULL;
}

static int print_flip(const char *fault, const struct object_call *c, const struct called *record, int64_t answer) {
    struct object_call printed = *c;
    print_failure(record->answer, answer);
    printf("  %s:\n", fault);
    printed.points = points.want;
    print_object(&printed);
    return 0;
}

/* other: the flip has other points; halves: samples on a half that were met. Of a call that chooses, n is the count. */
static void meet_flip(const struct object_call *c, const struct called *record, int other, uint64_t halves) {
    int accepted = record->answer >= 0, sides = c->form == PATCH && c->n != c->m;
    int drawn = accepted && draws(c) && 0 < record->count && record->count < different_cells(&samples, c->side);
    int curve = drawn && other && c->service == DRAW && c->form == CURVE;
    int chosen = drawn && other && c->service == DRAW_CHOSEN;
    int check = c->service == CHECK && c->form == CURVE && other, list = accepted && other && c->service == LIST;
    meet(FLIP_QUIT, check && record->answer == GIDZKHALU_QUIT);
    meet(FLIP_WALKED, check && record->answer == GIDZKHALU_WALKED);
    meet(FLIP_LIST_HALF, list && halves > 0);
    meet(FLIP_LIST_REST, list && grid.len > 3 * (size_t)record->answer);
    meet(c->choice == OVER ? FLIP_CURVE_OVER : FLIP_CURVE_UNDER, curve);
    meet(FLIP_CHOSEN, c->service == CHOOSE && record->answer > 1 && other);
    meet(c->choice == OVER ? FLIP_CHOSEN_OVER : FLIP_CHOSEN_UNDER, chosen);
    meet(FLIP_PATCH_CHECK, accepted && c->service == CHECK && sides);
    meet(FLIP_PATCH_HALF, accepted && c->service == DRAW && sides && halves > 0);
    meet(c->choice == OVER ? FLIP_PATCH_OVER : FLIP_PATCH_UNDER, drawn && sides && c->service == DRAW);
    meet(FLIP_LONG_STEP, record->answer == -15 && sides);
    meet(c->choice == OVER ? FLIP_STRIP_CURVE_OVER : FLIP_STRIP_CURVE_UNDER,
         drawn && other && on_strip(c) && c->form == CURVE);
    meet(c->choice == OVER ? FLIP_STRIP_PATCH_OVER : FLIP_STRIP_PATCH_UNDER, drawn && sides && on_strip(c));
    meet(FLIP_STRIP_STEPS, record->answer == -24 && sides);
}

static uint64_t halves_met(void) {
    return met[CURVE_HALF_RISING] + met[CURVE_HALF_FALLING] + met[PATCH_HALF_RISING] + met[PATCH_HALF_FALLING];
}

/* The call on a record and, from the same bytes, on its flip, made by the library: the same answer, new cells and grid, or
   the same cells in reverse order. Points of a wrong length have no flip: 51 for both. */
static int call_and_flip(struct object_call *c, const uint8_t *record) {
    static uint8_t start[LONGEST_GRID], left[LONGEST_GRID];
    struct object_call flip = *c;
    struct called called = {0, left, 0};
    uint64_t halves = halves_met();
    const char *fault;
    int64_t answer;
    lend_bytes(&points, record, c->points_len);
    if (c->service == LIST)
        lend(&grid, c->lent_len);
    else
        lend_cube(&grid, draws(c) ? c->lent_len : 0);
    memcpy(start, grid.got, grid.len);
    if (!compare_object(c, &called.answer))
        return 0;
    halves = halves_met() - halves;
    memcpy(left, grid.got, grid.len);
    called.count = draws(c) ? *number_at(new_cells.got) : 0;
    if (!compare_flip(c->form == PATCH, flip.n, flip.m, record_bytes(c->form), &answer))
        return 0;
    if (answer < 0)
        return answer == called.answer || print_flip("a record without a flip is not refused so", c, &called, answer);
    flip.n = *number_at(flip_n.got);
    flip.m = *number_at(flip_m.got);
    lend_bytes(&points, flipped.got, flipped.len);
    lend_bytes(&grid, start, grid.len);
    if (!compare_object(&flip, &answer))
        return 0;
    meet_flip(c, &called, memcmp(record, flipped.got, flipped.len) != 0, halves);
    fault = fault_of_flip(&flip, &called, answer);
    return fault == NULL || print_flip(fault, &flip, &called, answer);
}

/* large: one case in so many is. */
static int flip_of_object(enum service service, enum form form, uint32_t large) {
    struct object_call c = {service, form, 0, 0, 0, 0, 0, OVER, NULL, 0, NULL, 0, NULL};
    uint8_t record[RECORD_ROOM];
    int is_large = one_in(large);
    c.side = on_strip(&c) ? strip_side() : is_large ? 33 + below(32) : random_side();
    if (on_strip(&c))
        random_object(&c, record, is_large, random_faults(STRIP_FAULTS));
    else if (chooses(&c))
        random_chosen(&c, record, is_large, random_faults(CHOSEN_FAULTS));
    else if (service == CHECK && form == CURVE && one_in(2))
        random_gaps(&c, record, random_faults(RECORD_FAULTS));
    else
        random_object(&c, record, is_large, random_faults(ALL_FAULTS));
    return call_and_flip(&c, record);
}

static int check_curve_flip(void) { return flip_of_object(CHECK, CURVE, 100); }
static int list_curve_flip(void) { return flip_of_object(LIST, CURVE, 100); }
static int draw_curve_flip(void) { return flip_of_object(DRAW, CURVE, 100); }
static int choose_steps_flip(void) { return flip_of_object(CHOOSE, CURVE, 100); }
static int draw_chosen_flip(void) { return flip_of_object(DRAW_CHOSEN, CURVE, 100); }
static int check_patch_flip(void) { return flip_of_object(CHECK, PATCH, 2000); }
static int draw_patch_flip(void) { return flip_of_object(DRAW, PATCH, 2000); }
static int strip_curve_flip(void) { return flip_of_object(DRAW_STRIP, CURVE, 100); }
static int strip_patch_flip(void) { return flip_of_object(DRAW_STRIP, PATCH, 400); }

/* The strip, beside the main path */

/* Of the call on the strip and the one on the main path, compared last. */
static void meet_beside(const struct object_call *c, int64_t strip, int64_t main_path) {
    int drawn = main_path >= 0;
    meet(c->form == PATCH ? STRIP_AS_MAIN_PATCH : STRIP_AS_MAIN_CURVE, strip >= 0);
    meet(STRIP_REFUSED_AS_MAIN, strip < 0 && strip == main_path);
    meet(drawn ? STRIP_23_DRAWN : STRIP_23_REFUSED, strip == -23);
    meet(c->form == PATCH ? STRIP_24_DRAWN_PATCH : STRIP_24_DRAWN_CURVE, strip == -24 && drawn);
    meet(STRIP_24_REFUSED, strip == -24 && !drawn);
}

/* What is wrong with the library's call on the strip beside its call on the main path, compared last, both from the grid
   start, or NULL. */
static const char *fault_beside(const struct object_call *c, const struct called *strip, int64_t main_path,
                                const uint8_t *start) {
    int beyond = c->side > GIDZKHALU_STRIP_SIDE_MOST || c->n > GIDZKHALU_STRIP_STEPS_MOST ||
                 (c->form == PATCH && c->m > GIDZKHALU_STRIP_STEPS_MOST);
    int own = strip->answer == -GIDZKHALU_REFUSED_STRIP_SIDE || strip->answer == -GIDZKHALU_REFUSED_STRIP_STEPS;
    if (main_path < 0 && strip->answer >= 0)
        return "the strip accepts what the main path refuses";
    if (main_path >= 0 && (strip->answer < 0) != beyond)
        return "of what the main path accepts, the strip does not refuse what is beyond it, and that alone";
    if (own && !beyond)
        return "the strip refuses what is not beyond it with 23 or 24";
    if (strip->answer < 0 && strip->count < 0x80000000)
        return "the strip refuses and writes a count of new cells";
    if (strip->answer < 0 && memcmp(strip->left, start, grid.len) != 0)
        return "the strip refuses and leaves another grid";
    if (own)
        return NULL;
    if (strip->answer != main_path)
        return "the strip has another answer than the main path";
    if (main_path >= 0 && strip->count != *number_at(new_cells.got))
        return "the strip has other new cells than the main path";
    if (memcmp(strip->left, grid.got, grid.len) != 0)
        return "the strip leaves another grid than the main path";
    return NULL;
}

/* The call on the strip and, from the same bytes, on the main path. */
static int strip_case(enum form form, int large, unsigned faults) {
    static uint8_t start[LONGEST_GRID], left[LONGEST_GRID];
    struct object_call c = {DRAW_STRIP, form, large ? 17 : strip_side(), 0, 0, 0, 0, OVER, NULL, 0, NULL, 0, NULL};
    struct object_call on_main_path;
    struct called strip = {0, left, 0};
    uint8_t record[RECORD_ROOM];
    const char *fault;
    int64_t answer;
    random_object(&c, record, large, faults);
    lend_bytes(&points, record, c.points_len);
    lend_cube(&grid, c.lent_len);
    memcpy(start, grid.got, grid.len);
    if (!compare_drawing(&c, &strip.answer))
        return 0;
    memcpy(left, grid.got, grid.len);
    strip.count = *number_at(new_cells.got);
    lend_bytes(&grid, start, grid.len);
    on_main_path = c;
    on_main_path.service = DRAW;
    if (!compare_object(&on_main_path, &answer))
        return 0;
    meet_beside(&c, strip.answer, answer);
    fault = fault_beside(&c, &strip, answer, start);
    return fault == NULL || print_drawing(fault, &c, start);
}

static int strip_curve(void) { return strip_case(CURVE, 0, random_faults(STRIP_FAULTS)); }
static int strip_patch(void) { return strip_case(PATCH, 0, random_faults(STRIP_FAULTS)); }

static int large_strip(void) {
    return strip_case(one_in(8) ? CURVE : PATCH, 1, one_in(8) ? random_faults(STRIP_FAULTS) : 0);
}

/* Solids that are a curve, a patch, or a solid with its parameters in another order, beside these */

/* The number of point k of a solid along a parameter, 0 to 3. */
static size_t digit_of(size_t k, int parameter) { return k >> 2 * (PARAMETERS - 1 - parameter) & 3; }

/* Makes a solid of an object: t, u and v, as many as the object has, become the parameters to[0], to[1] and to[2]. Answers
   the number of samples of the solid for each of the object. */
static int64_t make_solid(const struct object_call *object, const int to[PARAMETERS], struct object_call *solid,
                          uint8_t record[RECORD_MOST]) {
    uint32_t count[PARAMETERS];
    int64_t more = 1;
    for (size_t k = 0; k < RECORD_MOST / 3; k++) {
        size_t from = 0;
        for (int p = 0; p <= (int)object->form; p++)
            from = 4 * from + digit_of(k, to[p]);
        memcpy(record + 3 * k, object->points + 3 * from, 3);
    }
    for (int p = 0; p < PARAMETERS; p++) {
        count[to[p]] = p <= (int)object->form ? count_along(object, p) : one_in(32) ? 32 : 1 + below(6);
        more *= p <= (int)object->form ? 1 : (int64_t)count[to[p]] + 1;
    }
    *solid = *object;
    solid->form = SOLID;
    solid->n = count[0];
    solid->m = count[1];
    solid->l = count[2];
    solid->points_len = RECORD_MOST;
    return more;
}

/* What is wrong with the library's solid, drawn last, beside its drawing of the object, or NULL; more: the samples of the
   solid for each of the object. */
static const char *fault_beside_object(const struct object_call *solid, const struct called *object, int64_t answer,
                                       int64_t more) {
    int beyond = solid->n > 32 || solid->m > 32 || solid->l > 32;
    if (beyond && (object->answer >= 0 || object->answer == -14 || object->answer == -15))
        return answer == -13 ? NULL : "a solid with a step count above 32 is not refused with 13";
    if (answer != (object->answer < 0 ? object->answer : more * object->answer))
        return "the solid has not the answer that follows from the other's";
    if (answer >= 0 && *number_at(new_cells.got) != object->count)
        return "the solid has other new cells";
    if (memcmp(object->left, grid.got, grid.len) != 0)
        return "the solid leaves another grid";
    return NULL;
}

static void meet_beside_object(const struct object_call *object, const int to[PARAMETERS], int64_t drawn,
                               int64_t answer) {
    int different = object->n != object->m && object->n != object->l && object->m != object->l;
    int accepted = answer >= 0 && different_cells(&samples, object->side) > 1;
    meet((enum met)(SOLID_AS_CURVE_T + to[0]), object->form == CURVE && accepted);
    meet((enum met)(SOLID_AS_PATCH_TU + (to[1] == (to[0] + 1) % 3 ? to[0] : 3 + to[1])),
         object->form == PATCH && accepted);
    meet(SOLID_TURNED, object->form == SOLID && accepted && different && to[0] != 0);
    meet(SOLID_13_DRAWN, drawn >= 0 && answer == -13);
    meet(SOLID_15_BOTH, object->form != SOLID && drawn == -15 && answer == -15);
}

/* A check of the solid: accepted where its drawing is, or refused as it is. */
static int checked_as_drawn(struct object_call *solid, int64_t answer, const uint8_t *start) {
    int64_t checked;
    solid->service = CHECK;
    lend(&grid, 0);
    if (!compare_object(solid, &checked))
        return 0;
    if (answer >= 0 ? checked == 0 : checked == answer || answer == -55 || answer == -21 || answer == -12)
        return 1;
    return print_drawing("a check and a drawing of a solid do not agree", solid, start);
}

/* The object drawn, then the solid, from the same bytes. */
static int solid_beside(void) {
    static uint8_t start[LONGEST_GRID], left[LONGEST_GRID];
    struct object_call object = {DRAW, (enum form)below(3), random_side(), 0, 0, 0, 0, OVER, NULL, 0, NULL, 0, NULL};
    struct object_call solid;
    struct called called = {0, left, 0};
    uint8_t record[RECORD_ROOM], solid_record[RECORD_MOST];
    int turn = (int)below(3), back = one_in(2), to[PARAMETERS];
    const char *fault;
    int64_t answer, more;
    random_object(&object, record, 0, one_in(3) ? random_faults(ALL_FAULTS & ~(unsigned)(BAD_RECORD | BAD_COUNT)) : 0);
    for (int p = 0; p < PARAMETERS; p++)
        to[p] = (back ? 3 + turn - p : turn + p) % PARAMETERS;
    more = make_solid(&object, to, &solid, solid_record);
    lend_bytes(&points, record, object.points_len);
    lend_cube(&grid, object.lent_len);
    memcpy(start, grid.got, grid.len);
    if (!compare_object(&object, &called.answer))
        return 0;
    memcpy(left, grid.got, grid.len);
    called.count = *number_at(new_cells.got);
    lend_bytes(&points, solid_record, sizeof solid_record);
    lend_bytes(&grid, start, grid.len);
    if (!compare_drawing(&solid, &answer))
        return 0;
    meet_beside_object(&object, to, called.answer, answer);
    fault = fault_beside_object(&solid, &called, answer, more);
    if (fault != NULL)
        return print_drawing(fault, &solid, start);
    return checked_as_drawn(&solid, answer, start);
}

/* Two drawings into one grid */

/* The different cells of the object compared last that are marked in other. */
static size_t cells_shared(const struct object_call *c, uint8_t *other, size_t len) {
    size_t before = unmarked_cells(other, len);
    mark_cells(cells_of(c), c->side, 0, OVER, other);
    return unmarked_cells(other, len) - before;
}

/* first_cells holds a mark in each cell of the first drawing. */
static void meet_second(const struct object_call *first, const struct object_call *second, uint8_t *first_cells) {
    uint32_t count = *number_at(new_cells.got), drawn = 5 * second->choice;
    size_t cells = different_cells(cells_of(second), second->side);
    size_t marked = grid.len - unmarked_cells(first_cells, grid.len);
    size_t shared = cells_shared(second, first_cells, grid.len);
    int on_part = 0 < count && 0 < shared && shared < marked;
    meet((enum met)(CURVE_OVER_CURVE + drawn),
         first->form == CURVE && second->form == CURVE && on_part && 2 * shared <= cells);
    meet((enum met)(CURVE_OVER_PATCH + drawn), first->form == PATCH && second->form == CURVE && on_part);
    meet((enum met)(PATCH_OVER_CURVE + drawn), first->form == CURVE && second->form == PATCH && on_part);
    meet((enum met)(SOLID_OVER_OTHER + drawn), first->form != SOLID && second->form == SOLID && on_part);
    meet((enum met)(OTHER_OVER_SOLID + drawn), first->form == SOLID && second->form != SOLID && on_part);
    meet(OVER_ON_UNDER, first->choice == UNDER && second->choice == OVER && on_part);
}

/* Draws the object a second time, over or under itself: no cell is new. */
static int drawn_again(struct object_call *c) {
    uint8_t mark = c->mark;
    uint32_t itself;
    int64_t answer;
    if (one_in(2))
        c->mark = (uint8_t)(1 + below(255));
    c->choice = below(2);
    itself = c->form == CURVE ? c->mark != mark : 1 + (uint32_t)c->form;
    meet((enum met)(CURVE_OVER_ITSELF + 4 * c->choice + itself), 1);
    if (!compare_drawing(c, &answer))
        return 0;
    if (answer >= 0 && *number_at(new_cells.got) == 0)
        return 1;
    print_failure(answer, answer);
    printf("  drawn over or under itself, an object has new cells:\n");
    print_object(c);
    print_number(&new_cells);
    return 0;
}

/* A solid, or a patch, or a curve, its count passed or chosen, or a path; patches and curves on the strip too. */
static enum service random_drawing(enum form *form) {
    static const enum service of_curve[] = {DRAW, DRAW, DRAW_CHOSEN, DRAW_PATH, DRAW_STRIP};
    *form = one_in(12) ? SOLID : one_in(3) ? PATCH : CURVE;
    return *form == CURVE ? of_curve[below(5)] : *form == PATCH && one_in(4) ? DRAW_STRIP : DRAW;
}

/* Into an unmarked grid, or one that holds marks: an object, then the same or another one. */
static int two_drawings(void) {
    static uint8_t first_cells[CELLS];
    struct object_call first = {DRAW, CURVE, random_side(), 0, 0, 0, 0, OVER, NULL, 0, NULL, 0, NULL}, second = first;
    uint8_t record[RECORD_ROOM];
    int64_t answer;
    first.service = random_drawing(&first.form);
    random_object(&first, record, 0, 0);
    lend_bytes(&points, record, first.points_len);
    lend_cube(&grid, first.lent_len);
    if (one_in(2)) {
        memset(grid.want, 0, grid.len);
        memset(grid.got, 0, grid.len);
    }
    if (!compare_drawing(&first, &answer))
        return 0;
    if (answer < 0)
        return 1;
    if (one_in(3))
        return drawn_again(&first);
    memset(first_cells, 0, grid.len);
    mark_cells(cells_of(&first), first.side, 1, OVER, first_cells);
    second.service = random_drawing(&second.form);
    random_object(&second, record, 0, 0);
    lend_bytes(&points, record, second.points_len);
    if (!compare_drawing(&second, &answer))
        return 0;
    if (answer >= 0)
        meet_second(&first, &second, first_cells);
    return 1;
}

/* One drawing over and under */

/* A mark that some cell of the grid holds, or the one given where the cell is unmarked. */
static uint8_t held_mark(uint8_t otherwise) {
    uint8_t held = grid.len == 0 ? 0 : grid.got[below((uint32_t)grid.len)];
    return held != 0 ? held : otherwise;
}

/* Whether each cell, after a drawing under, holds what it held, and where it was unmarked what it holds after the same
   drawing over. */
static int under_as_over(const uint8_t *start, const uint8_t *over) {
    for (size_t p = 0; p < grid.len; p++)
        if (grid.got[p] != (start[p] != 0 ? start[p] : over[p]))
            return 0;
    return 1;
}

/* The same record over and then under, each into a grid of the same bytes: the same answer and the same new cells. */
static int over_and_under(void) {
    static uint8_t start[LONGEST_GRID], over[LONGEST_GRID];
    struct object_call c = {DRAW, CURVE, random_side(), 0, 0, 0, 0, OVER, NULL, 0, NULL, 0, NULL};
    uint8_t record[RECORD_ROOM];
    uint32_t count;
    int64_t answer, answer_under;
    c.service = random_drawing(&c.form);
    random_object(&c, record, 0, one_in(2) ? random_faults(ALL_FAULTS & ~(unsigned)BAD_CHOICE) : 0);
    lend_bytes(&points, record, c.points_len);
    lend_cube(&grid, c.lent_len);
    if (c.mark != 0 && one_in(2))
        c.mark = held_mark(c.mark);
    memcpy(start, grid.got, grid.len);
    c.choice = OVER;
    if (!compare_drawing(&c, &answer))
        return 0;
    memcpy(over, grid.got, grid.len);
    count = *number_at(new_cells.got);
    lend_bytes(&grid, start, grid.len);
    c.choice = UNDER;
    if (!compare_drawing(&c, &answer_under))
        return 0;
    if (answer != answer_under)
        return print_drawing("over and under do not have the same answer", &c, start);
    if (answer >= 0 && count != *number_at(new_cells.got))
        return print_drawing("over and under do not have as many new cells", &c, start);
    return answer < 0 || under_as_over(start, over) ||
           print_drawing("over and under do not have the same new cells", &c, start);
}

/* Lists of calls into one grid: demand 3 */

enum { CALLS = 12 };

static struct object_call calls[CALLS];
static uint8_t call_points[CALLS][RECORD_ROOM];
static int call_accepted[CALLS];

static void random_call(struct object_call *c, uint8_t *record, uint32_t side) {
    c->service = random_drawing(&c->form);
    c->side = one_in(20) ? random_side() : side;
    c->m = c->l = 0;
    random_object(c, record, 0, one_in(4) ? random_faults(ALL_FAULTS) : 0);
    c->lent_len = grid.len;
}

static int print_list(const char *fault, int length, const uint8_t *start) {
    printf("FAILED: %s, case %" PRIu64 ", seed %" PRIu64 ": %s\n", running.name, running.number, running.seed, fault);
    print_cube(start, grid.len);
    for (int k = 0; k < length; k++) {
        printf("  call %d, %s\n", k, call_accepted[k] ? "accepted" : "refused");
        print_object(&calls[k]);
    }
    return 0;
}

/* Draws call k and adds its new cells; if it is accepted, the second sentence holds just after it. Answers what is wrong,
   or NULL. */
static const char *fault_of_call(int k, size_t *added) {
    static uint8_t before[CELLS];
    struct object_call c = calls[k];
    const char *fault = NULL;
    int64_t answer;
    int agreed;
    lend_bytes(&points, call_points[k], c.points_len);
    memcpy(before, grid.got, grid.len);
    agreed = compare_object(&c, &answer);
    calls[k].n = c.n;
    call_accepted[k] = answer >= 0;
    if (answer >= 0) {
        *added += *number_at(new_cells.got);
        fault = fault_of_drawing(&c, before);
    }
    return fault != NULL || agreed ? fault : "the last call is not the reference's";
}

/* The first sentence, for the grid after the list. */
static int list_holds(int length, const uint8_t *start) {
    static uint8_t explained[CELLS];
    memset(explained, 0, grid.len);
    for (int k = 0; k < length; k++)
        if (call_accepted[k]) {
            exact_values(&calls[k], &samples);
            explain(&samples, &calls[k], grid.got, explained);
        }
    for (size_t p = 0; p < grid.len; p++)
        if (grid.got[p] != start[p] && !explained[p])
            return 0;
    return 1;
}

static int list_of_calls(void) {
    static uint8_t start[CELLS];
    uint32_t side = random_side();
    int length = (int)below(CALLS + 1), accepted[2] = {0, 0}, curves[2] = {0, 0}, paths[2] = {0, 0}, strip[2] = {0, 0};
    int solids[2] = {0, 0};
    size_t added = 0;
    const char *fault;
    lend_cube(&grid, (size_t)side * side * side);
    memcpy(start, grid.got, grid.len);
    for (int k = 0; k < length; k++) {
        random_call(&calls[k], call_points[k], side);
        fault = fault_of_call(k, &added);
        if (fault != NULL)
            return print_list(fault, k + 1, start);
        if (call_accepted[k])
            accepted[calls[k].choice]++;
        if (call_accepted[k] && calls[k].form == CURVE)
            curves[chooses(&calls[k])]++;
        if (call_accepted[k])
            paths[of_path(&calls[k])]++;
        if (call_accepted[k])
            strip[on_strip(&calls[k])]++;
        if (call_accepted[k])
            solids[calls[k].form == SOLID]++;
    }
    meet(LIST_OF_THREE, accepted[OVER] + accepted[UNDER] >= 3);
    meet(LIST_OF_BOTH, accepted[OVER] > 0 && accepted[UNDER] > 0);
    meet(LIST_OF_CHOSEN, curves[0] > 0 && curves[1] > 0);
    meet(LIST_OF_PATHS, paths[0] > 0 && paths[1] > 0);
    meet(LIST_OF_STRIP, strip[0] > 0 && strip[1] > 0);
    meet(LIST_OF_SOLIDS, solids[0] > 0 && solids[1] > 0);
    if (added != unmarked_cells(start, grid.len) - unmarked_cells(grid.got, grid.len))
        return print_list("the new cells do not add up", length, start);
    return list_holds(length, start) || print_list("demand 3's first sentence does not hold", length, start);
}

/* The documents' samples: the reference and the library give what is written there, or follows by hand */

static const struct {
    const char *name;
    uint8_t g[4];
    uint32_t n;
    const char *cells; /* empty: accepted; NULL: refused, 15 */
} KNOWN[] = {
    {"K1", {0, 1, 2, 3}, 3, "0123"},    {"K2", {0, 1, 2, 3}, 2, NULL},       {"K3", {0, 1, 2, 3}, 6, "0011223"},
    {"K4", {3, 2, 1, 0}, 6, "3221100"}, {"K5", {0, 0, 0, 1}, 1, "01"},       {"K6", {0, 0, 0, 2}, 1, NULL},
    {"K7", {0, 0, 0, 6}, 17, ""},       {"K8", {0, 0, 0, 6}, 16, NULL},      {"K9", {0, 3, 3, 0}, 9, "0122222210"},
    {"K10", {0, 3, 3, 0}, 7, NULL},     {"K10, n = 8", {0, 3, 3, 0}, 8, ""}, {"K11", {5, 5, 5, 5}, 1, "55"}};

static int known_failed(const char *name) {
    printf("FAILED: the documents' sample %s\n", name);
    return 0;
}

static void lend_known(int k, int axis) {
    uint8_t record[12] = {0};
    for (int i = 0; i < 4; i++)
        record[3 * i + axis] = KNOWN[k].g[i];
    lend_bytes(&points, record, 12);
}

static int known_curve(int k, int axis) {
    struct object_call c = {LIST, CURVE, 8, 0, 0, 0, 0, OVER, NULL, 12, NULL, 64, NULL};
    const char *cells = KNOWN[k].cells;
    int64_t answer;
    lend_known(k, axis);
    lend(&grid, c.lent_len);
    c.n = KNOWN[k].n;
    if (!compare_object(&c, &answer) || answer != (cells == NULL ? -15 : (int64_t)c.n + 1))
        return known_failed(KNOWN[k].name);
    for (size_t i = 0; cells != NULL && cells[i] != 0; i++)
        if (grid.got[3 * i + (size_t)axis] != cells[i] - '0')
            return known_failed(KNOWN[k].name);
    return 1;
}

/* What side 8 has unmarked. */
static const uint8_t UNMARKED[512];

static const size_t STRIDE[3] = {1, 8, 64};

/* One axis of a curve, the others 0, or for 3 all three alike. */
static void lend_axes(const uint8_t g[4], int axis) {
    uint8_t record[12];
    for (int at = 0; at < 12; at++)
        record[at] = at % 3 == axis || axis == 3 ? g[at / 3] : 0;
    lend_bytes(&points, record, 12);
}

/* The sample on one axis, or for 3 on all three alike: the path has each cell that it comes to, on three axes from corner
   to corner by x, y and z. */
static int known_path(int k, int axis) {
    struct object_call c = {LIST_PATH, CURVE, 8, KNOWN[k].n, 0, 0, 9, OVER, NULL, 12, NULL, 0, NULL};
    const char *cells = KNOWN[k].cells;
    uint8_t listed[96], held[sizeof UNMARKED] = {0};
    int64_t length = 0, answer;
    if (cells == NULL || cells[0] == 0)
        return 1;
    for (size_t i = 0; cells[i] != 0; i++)
        for (int a = 0; a < 3 && (a == 0 || i > 0); a++) {
            uint8_t *to = listed + 3 * length;
            if (i > 0 && (cells[i] == cells[i - 1] || (axis < 3 && axis != a)))
                continue;
            for (int b = 0; b < 3; b++)
                to[b] = axis == b || axis == 3 ? (uint8_t)(cells[i - (b > a && i > 0)] - '0') : 0;
            held[to[0] + STRIDE[1] * to[1] + STRIDE[2] * to[2]] = 9;
            length++;
        }
    lend_axes(KNOWN[k].g, axis);
    c.lent_len = 3 * (size_t)length;
    lend(&grid, c.lent_len);
    if (!compare_object(&c, &answer) || answer != length || memcmp(grid.got, listed, c.lent_len) != 0)
        return known_failed(KNOWN[k].name);
    c.lent_len--;
    lend(&grid, c.lent_len);
    if (!compare_object(&c, &answer) || answer != -GIDZKHALU_REFUSED_SHORT)
        return known_failed(KNOWN[k].name);
    c.service = DRAW_PATH;
    c.lent_len = sizeof UNMARKED;
    lend_bytes(&grid, UNMARKED, sizeof UNMARKED);
    return (compare_object(&c, &answer) && answer == length && memcmp(grid.got, held, sizeof held) == 0) ||
           known_failed(KNOWN[k].name);
}

/* One step that moves on the three axes, by hand. */
static int known_corner(void) {
    static const uint8_t record[12] = {4, 3, 6, 4, 3, 6, 4, 3, 6, 5, 2, 5};
    static const uint8_t cells[12] = {4, 3, 6, 5, 3, 6, 5, 2, 6, 5, 2, 5};
    struct object_call c = {LIST_PATH, CURVE, 8, 1, 0, 0, 9, OVER, NULL, 12, NULL, sizeof cells, NULL};
    int64_t answer;
    lend_bytes(&points, record, sizeof record);
    lend(&grid, c.lent_len);
    return (compare_object(&c, &answer) && answer == 4 && memcmp(grid.got, cells, sizeof cells) == 0) ||
           known_failed("of a path around a corner");
}

/* Drawn into an unmarked grid, over or under, each cell of the curve is new once; drawn again with another mark, none. */
static int known_drawing(int k, int axis, uint32_t choice) {
    struct object_call c = {DRAW, CURVE, 8, KNOWN[k].n, 0, 0, 9, choice, NULL, 12, NULL, sizeof UNMARKED, NULL};
    const char *cells = KNOWN[k].cells;
    uint32_t different = 0;
    int64_t answer;
    for (char cell = '0'; cells != NULL && cell <= '7'; cell++)
        different += strchr(cells, cell) != NULL;
    lend_known(k, axis);
    lend_bytes(&grid, UNMARKED, sizeof UNMARKED);
    if (!compare_object(&c, &answer))
        return known_failed(KNOWN[k].name);
    if (cells == NULL)
        return 1;
    if (different > 0 && *number_at(new_cells.got) != different)
        return known_failed(KNOWN[k].name);
    c.mark = 8;
    return (compare_object(&c, &answer) && *number_at(new_cells.got) == 0) || known_failed(KNOWN[k].name);
}

/* K1 with a mark and a choice into a grid whose other cells are unmarked: what its four cells hold before and after, and
   how many are new. Its 3 steps are those that are chosen for it. */
static const struct {
    uint8_t mark;
    uint32_t choice;
    uint8_t before[4], after[4];
    int64_t answer;
    uint32_t count;
} PLACED[] = {{7, GIDZKHALU_OVER, {0, 0, 0, 0}, {7, 7, 7, 7}, 4, 4},
              {7, GIDZKHALU_UNDER, {0, 0, 0, 0}, {7, 7, 7, 7}, 4, 4},
              {9, GIDZKHALU_OVER, {0, 5, 9, 0}, {9, 9, 9, 9}, 4, 2},
              {9, GIDZKHALU_UNDER, {0, 5, 9, 0}, {9, 5, 9, 9}, 4, 2},
              {9, GIDZKHALU_UNDER, {9, 0, 0, 5}, {9, 9, 9, 5}, 4, 2},
              {7, GIDZKHALU_OVER, {3, 5, 9, 1}, {7, 7, 7, 7}, 4, 0},
              {7, GIDZKHALU_UNDER, {3, 5, 9, 1}, {3, 5, 9, 1}, 4, 0},
              {7, 2, {0, 5, 9, 0}, {0, 5, 9, 0}, -GIDZKHALU_REFUSED_CHOICE, 0}};

static int known_choice(size_t k, int axis, enum service service) {
    struct object_call c = {service, CURVE, 8, 3, 0, 0, 0, OVER, NULL, 12, NULL, sizeof UNMARKED, NULL};
    uint8_t held[sizeof UNMARKED] = {0};
    int64_t answer;
    for (size_t at = 0; at < 4; at++)
        held[STRIDE[axis] * at] = PLACED[k].before[at];
    c.mark = PLACED[k].mark;
    c.choice = PLACED[k].choice;
    lend_known(0, axis);
    lend_bytes(&grid, held, sizeof held);
    if (!compare_object(&c, &answer) || answer != PLACED[k].answer)
        return known_failed("K1, over or under");
    for (size_t at = 0; at < 4; at++)
        held[STRIDE[axis] * at] = PLACED[k].after[at];
    return (memcmp(grid.got, held, sizeof held) == 0 && (answer < 0 || *number_at(new_cells.got) == PLACED[k].count)) ||
           known_failed("K1, over or under");
}

/* A curve or a patch that stays in cell 1 1 1, into an unmarked grid, on the strip. */
static const struct {
    enum form form;
    uint32_t side, n, m;
    uint8_t mark;
    int64_t answer;
} STRIPPED[] = {{CURVE, 2, 1, 0, 9, 2},       {CURVE, 2, 64, 0, 9, 65},     {CURVE, 17, 64, 0, 9, 65},
                {CURVE, 17, 65, 0, 9, -24},   {CURVE, 17, 512, 0, 9, -24},  {CURVE, 17, 513, 0, 9, -13},
                {CURVE, 17, 0, 0, 9, -13},    {CURVE, 17, 65, 0, 0, -12},   {CURVE, 18, 1, 0, 9, -23},
                {CURVE, 18, 513, 0, 0, -23},  {CURVE, 64, 65, 0, 9, -23},   {CURVE, 65, 1, 0, 9, -11},
                {CURVE, 1, 65, 0, 9, -11},    {PATCH, 2, 1, 1, 9, 4},       {PATCH, 17, 64, 64, 9, 4225},
                {PATCH, 17, 65, 64, 9, -24},  {PATCH, 17, 64, 65, 9, -24},  {PATCH, 17, 256, 256, 9, -24},
                {PATCH, 17, 257, 65, 9, -13}, {PATCH, 17, 65, 257, 9, -13}, {PATCH, 17, 0, 65, 9, -13},
                {PATCH, 17, 65, 0, 9, -13},   {PATCH, 17, 65, 65, 0, -12},  {PATCH, 18, 64, 64, 9, -23},
                {PATCH, 64, 65, 257, 0, -23}, {PATCH, 65, 65, 65, 9, -11},  {PATCH, 1, 64, 64, 9, -11}};

static int known_strip(size_t k, uint32_t choice) {
    static const uint8_t unmarked[65 * 65 * 65];
    struct object_call c = {DRAW_STRIP, STRIPPED[k].form, STRIPPED[k].side, 0, 0, 0, 0, choice, NULL, 0, NULL, 0, NULL};
    uint8_t record[48];
    size_t at = 1 + c.side + (size_t)c.side * c.side;
    int64_t answer;
    memset(record, 1, sizeof record);
    c.n = STRIPPED[k].n;
    c.m = STRIPPED[k].m;
    c.mark = STRIPPED[k].mark;
    c.points_len = record_bytes(c.form);
    c.lent_len = (size_t)c.side * c.side * c.side;
    lend_bytes(&points, record, c.points_len);
    lend_bytes(&grid, unmarked, c.lent_len);
    if (!compare_object(&c, &answer) || answer != STRIPPED[k].answer)
        return known_failed("of the strip");
    return (unmarked_cells(grid.got, grid.len) == grid.len - (answer >= 0) &&
            (answer < 0 || (grid.got[at] == 9 && *number_at(new_cells.got) == 1))) ||
           known_failed("of the strip");
}

/* One axis of a curve of side 64, the others are 0, or all three alike: what a check answers. */
static const struct {
    uint8_t g[4];
    uint32_t n;
    int64_t answer;
} CHECKED[] = {{{0, 1, 2, 3}, 3, GIDZKHALU_QUIT},
               {{0, 1, 2, 3}, 2, -GIDZKHALU_REFUSED_LONG_STEP},
               {{0, 0, 0, 1}, 3, GIDZKHALU_QUIT},
               {{0, 0, 0, 1}, 2, GIDZKHALU_WALKED},
               {{0, 0, 0, 1}, 1, GIDZKHALU_WALKED},
               {{0, 0, 0, 6}, 18, GIDZKHALU_QUIT},
               {{0, 0, 0, 6}, 17, GIDZKHALU_WALKED},
               {{0, 0, 0, 6}, 16, -GIDZKHALU_REFUSED_LONG_STEP},
               {{0, 3, 3, 0}, 9, GIDZKHALU_QUIT},
               {{0, 3, 3, 0}, 8, GIDZKHALU_WALKED},
               {{0, 3, 3, 0}, 7, -GIDZKHALU_REFUSED_LONG_STEP},
               {{0, 0, 6, 6}, 18, GIDZKHALU_QUIT},
               {{0, 0, 6, 6}, 17, GIDZKHALU_WALKED},
               {{5, 5, 5, 5}, 1, GIDZKHALU_QUIT},
               {{5, 5, 5, 5}, 0, -GIDZKHALU_REFUSED_STEPS},
               {{5, 5, 5, 5}, 512, GIDZKHALU_QUIT},
               {{5, 5, 5, 5}, 513, -GIDZKHALU_REFUSED_STEPS},
               {{63, 0, 0, 0}, 512, GIDZKHALU_QUIT},
               {{63, 0, 0, 0}, 256, GIDZKHALU_QUIT},
               {{63, 0, 0, 0}, 189, GIDZKHALU_QUIT},
               {{63, 0, 0, 0}, 188, GIDZKHALU_WALKED},
               {{63, 0, 0, 0}, 187, -GIDZKHALU_REFUSED_LONG_STEP},
               {{64, 64, 64, 64}, 1, -GIDZKHALU_REFUSED_COORDINATE}};

static int known_check(size_t k, int axis) {
    struct object_call c = {CHECK, CURVE, 64, CHECKED[k].n, 0, 0, 0, OVER, NULL, 12, NULL, 0, NULL};
    int64_t answer;
    lend_axes(CHECKED[k].g, axis);
    lend(&grid, 0);
    return (compare_object(&c, &answer) && answer == CHECKED[k].answer) || known_failed("of checks");
}

/* One axis of a curve, the others are 0, or all three alike: the count that is chosen at side 64, and the cells of its
   samples, where it is drawn at side 8. */
static const struct {
    uint8_t g[4];
    uint32_t count;
    const char *cells; /* NULL: not drawn */
} COUNTED[] = {{{5, 5, 5, 5}, 1, "55"},
               {{0, 0, 0, 1}, 1, "01"},
               {{0, 3, 3, 0}, 1, "00"},
               {{0, 0, 3, 0}, 1, "00"},
               {{1, 7, 0, 0}, 1, "10"},
               {{0, 63, 63, 1}, 1, NULL},
               {{0, 2, 0, 2}, 2, "012"},
               {{1, 4, 0, 3}, 2, "123"},    /* the first of 3 steps is 32/27 */
               {{0, 0, 0, 2}, 5, "000012"}, /* 2 x 64/125 is above 1 */
               {{0, 1, 2, 3}, 3, "0123"},
               {{3, 2, 1, 0}, 3, "3210"},
               {{0, 1, 2, 2}, 3, "0122"},       /* 24/27, 46/27, 2; with 2 steps 11/8 */
               {{0, 0, 6, 6}, 9, "0012334566"}, /* 6 i^2 (27 - 2 i) / 729 */
               {{0, 0, 0, 6}, 17, NULL},
               {{6, 0, 0, 0}, 17, NULL},
               {{6, 6, 6, 0}, 17, NULL},
               {{0, 21, 42, 63}, 63, NULL},
               {{0, 31, 62, 62}, 93, NULL}, /* the first of 92 steps is 31 x (3 x 92^2 - 1) / 92^3 */
               {{63, 0, 0, 0}, 188, NULL},
               {{0, 63, 63, 63}, 188, NULL},
               {{63, 63, 63, 0}, 188, NULL}};

/* Of an axis, or of all three for 3, the cells drawn into an unmarked grid, and no others. */
static int known_cells(const char *cells, int axis, uint32_t choice) {
    struct object_call c = {DRAW_CHOSEN, CURVE, 8, 0, 0, 0, 9, choice, NULL, 12, NULL, sizeof UNMARKED, NULL};
    uint8_t drawn[sizeof UNMARKED] = {0};
    uint32_t different = 0;
    int64_t answer;
    for (size_t i = 0; cells[i] != 0; i++) {
        uint8_t *cell = drawn + (axis < 3 ? STRIDE[axis] : 1 + 8 + 64) * (size_t)(cells[i] - '0');
        different += *cell == 0;
        *cell = 9;
    }
    lend_bytes(&grid, UNMARKED, sizeof UNMARKED);
    return compare_object(&c, &answer) && answer == (int64_t)strlen(cells) && *number_at(new_cells.got) == different &&
           memcmp(grid.got, drawn, sizeof drawn) == 0;
}

static int known_count(size_t k, int axis) {
    struct object_call c = {CHOOSE, CURVE, 64, 0, 0, 0, 0, OVER, NULL, 12, NULL, 0, NULL};
    const char *cells = COUNTED[k].cells;
    int64_t answer;
    lend_axes(COUNTED[k].g, axis);
    lend(&grid, 0);
    if (!compare_object(&c, &answer) || answer != COUNTED[k].count)
        return known_failed("of chosen counts");
    return cells == NULL ||
           (known_cells(cells, axis, GIDZKHALU_OVER) && known_cells(cells, axis, GIDZKHALU_UNDER)) ||
           known_failed("of drawings with chosen counts");
}

/* Three axes of a curve, in any order. 0 0 3 0 accepts 1 and from 7 on, and 0 0 0 2 from 5 on. 7 0 14 7 refuses 3 to 17, its
   first step being 21 (n - 1) (n - 2) / n^3, and accepts 1, 2 and 18; of 1 and 2, 1 4 0 3 refuses 1, and 0 0 3 0 2. */
static const struct {
    uint8_t g[3][4];
    uint32_t count;
} TOGETHER[] = {{{{0, 0, 3, 0}, {0, 0, 0, 2}, {0, 0, 0, 0}}, 7}, {{{7, 0, 14, 7}, {0, 0, 3, 0}, {1, 4, 0, 3}}, 18}};

/* order: 0 to 5. */
static int known_count_of_axes(size_t k, int order) {
    struct object_call c = {CHOOSE, CURVE, 15, 0, 0, 0, 0, OVER, NULL, 12, NULL, 0, NULL};
    uint8_t record[12];
    int64_t answer;
    for (int at = 0; at < 12; at++)
        record[at] = TOGETHER[k].g[(order < 3 ? at % 3 + order : order - at % 3) % 3][at / 3];
    lend_bytes(&points, record, 12);
    lend(&grid, 0);
    return (compare_object(&c, &answer) && answer == TOGETHER[k].count) || known_failed("of chosen counts");
}

/* K12: x of g(i, j) is i + j; row 2 along t. No call lists a patch: the reference has the row, the grids agree. Its cells
   are those with x from 0 to 6. */
static int known_patch(void) {
    struct object_call c = {DRAW, PATCH, 8, 4, 4, 0, 9, OVER, NULL, 48, NULL, sizeof UNMARKED, NULL};
    uint8_t record[48] = {0};
    int64_t answer;
    for (int k = 0; k < 16; k++)
        record[3 * k] = (uint8_t)(k / 4 + k % 4);
    lend_bytes(&points, record, 48);
    lend_bytes(&grid, UNMARKED, sizeof UNMARKED);
    if (!compare_object(&c, &answer) || answer != 25 || *number_at(new_cells.got) != 7)
        return known_failed("K12");
    for (int i = 0; i < 5; i++)
        if (samples.cell[0][2 * 5 + i] != "12344"[i] - '0')
            return known_failed("K12");
    return 1;
}

/* Two rows with the x 0 1/2 1 and 1 3/2 2, and the y 0 1 2 of both: what the grid holds at z = 0, y by y. */
static int known_halves(void) {
    static const uint8_t x[4] = {0, 0, 1, 1}, y[4] = {0, 1, 1, 2};
    static const uint8_t drawn[27] = {9, 9, 0, 9, 9, 0, 0, 9, 9};
    struct object_call c = {DRAW, PATCH, 3, 2, 1, 0, 9, OVER, NULL, 48, NULL, 27, NULL};
    uint8_t record[48] = {0};
    int64_t answer;
    for (int k = 0; k < 16; k++) {
        record[3 * k] = (uint8_t)(x[k / 4] + x[k % 4]);
        record[3 * k + 1] = y[k / 4];
    }
    lend_bytes(&points, record, 48);
    lend_bytes(&grid, UNMARKED, 27);
    return (compare_object(&c, &answer) && answer == 6 && memcmp(grid.got, drawn, 27) == 0 &&
            *number_at(new_cells.got) == 6) ||
           known_failed("of a patch with halves in both rows");
}

/* Drawn into an unmarked grid of a side: what a solid answers, and how many cells are new. */
static int known_solid(const uint8_t record[RECORD_MOST], struct object_call c, int64_t answer, uint32_t count) {
    static const uint8_t unmarked[65 * 65 * 65];
    int64_t drawn, checked;
    c.points_len = RECORD_MOST;
    c.lent_len = (size_t)c.side * c.side * c.side;
    lend_bytes(&points, record, RECORD_MOST);
    lend_bytes(&grid, unmarked, c.lent_len);
    if (!compare_object(&c, &drawn) || drawn != answer || (answer >= 0 && *number_at(new_cells.got) != count))
        return known_failed("of solids");
    if (unmarked_cells(grid.got, grid.len) != grid.len - (answer < 0 ? 0 : count))
        return known_failed("of solids");
    c.service = CHECK;
    lend(&grid, 0);
    if (!compare_object(&c, &checked))
        return known_failed("of solids");
    return answer == -12 || checked == (answer >= 0 ? 0 : answer) || known_failed("of solids");
}

/* A solid that stays in cell 1 1 1. */
static const struct {
    uint32_t side, n, m, l;
    uint8_t mark;
    int64_t answer;
} STAYING[] = {{2, 1, 1, 1, 9, 8},      {64, 32, 32, 32, 9, 35937}, {64, 1, 32, 2, 9, 198},  {64, 2, 1, 32, 9, 198},
               {64, 32, 2, 1, 9, 198},  {64, 33, 1, 1, 9, -13},     {64, 1, 33, 1, 9, -13},  {64, 1, 1, 33, 9, -13},
               {64, 0, 1, 1, 9, -13},   {64, 1, 0, 1, 9, -13},      {64, 1, 1, 0, 9, -13},   {64, 256, 1, 1, 9, -13},
               {64, 1, 512, 1, 9, -13}, {64, 1, 1, 257, 9, -13},    {64, 33, 0, 1, 0, -12},  {65, 33, 0, 1, 0, -11},
               {1, 1, 1, 1, 9, -11},    {65, 32, 32, 32, 9, -11},   {64, 32, 32, 32, 0, -12}};

static int known_staying(size_t k, uint32_t choice) {
    struct object_call c = {DRAW, SOLID, STAYING[k].side, 0, 0, 0, 0, choice, NULL, 0, NULL, 0, NULL};
    uint8_t record[RECORD_MOST];
    memset(record, 1, sizeof record);
    c.n = STAYING[k].n;
    c.m = STAYING[k].m;
    c.l = STAYING[k].l;
    c.mark = STAYING[k].mark;
    return known_solid(record, c, STAYING[k].answer, 1);
}

/* Along t, u and v, in any order, x y z go from 0 to 3: three steps along each fill the cube of side 4, and with two along
   some parameter each is 3/2. */
static int known_block(int turn, uint32_t choice) {
    struct object_call c = {DRAW, SOLID, 4, 3, 3, 3, 9, choice, NULL, 0, NULL, 0, NULL};
    uint8_t record[RECORD_MOST];
    int good;
    for (size_t at = 0; at < RECORD_MOST; at++)
        record[at] = (uint8_t)digit_of(at / 3, turn < 3 ? ((int)(at % 3) + turn) % 3 : (turn + 2 - (int)(at % 3)) % 3);
    good = known_solid(record, c, 64, 64);
    for (int p = 0; p < PARAMETERS; p++) {
        struct object_call longer = c;
        *(p == 0 ? &longer.n : p == 1 ? &longer.m : &longer.l) = 2;
        good &= known_solid(record, longer, -15, 0);
    }
    return good;
}

/* x of g(i, j, k) is i + j + k, with 4 steps along each. No call lists a solid: the reference has the row j = 2, k = 1
   along t, the x of which are (9 + 3 i) / 4. The cells are those with x from 0 to 9. */
static int known_row(void) {
    struct object_call c = {DRAW, SOLID, 10, 4, 4, 4, 9, OVER, NULL, 0, NULL, 0, NULL};
    uint8_t record[RECORD_MOST] = {0};
    for (size_t k = 0; k < RECORD_MOST / 3; k++)
        record[3 * k] = (uint8_t)(digit_of(k, 0) + digit_of(k, 1) + digit_of(k, 2));
    if (!known_solid(record, c, 125, 10))
        return 0;
    for (size_t i = 0; i < 5; i++)
        if (samples.cell[0][(1 * 5 + 2) * 5 + i] != "23445"[i] - '0')
            return known_failed("of a solid's row");
    return 1;
}

/* With one step along each parameter the samples are the corners. One point is 1 or 2 on an axis, all others are 0. */
static int known_point(size_t k, int axis) {
    struct object_call c = {DRAW, SOLID, 8, 1, 1, 1, 9, OVER, NULL, 0, NULL, 0, NULL};
    uint8_t record[RECORD_MOST] = {0};
    int corner = 1, good;
    for (int p = 0; p < PARAMETERS; p++)
        corner &= digit_of(k, p) % 3 == 0;
    record[3 * k + (size_t)axis] = 1;
    good = known_solid(record, c, 8, 1 + (uint32_t)corner);
    record[3 * k + (size_t)axis] = 2;
    return good & known_solid(record, c, corner ? -15 : 8, 1);
}

/* 0 0 0 2 along one parameter, which takes five steps, and one step along the others. */
static int known_long(int along, int axis) {
    struct object_call c = {DRAW, SOLID, 8, 1, 1, 1, 9, OVER, NULL, 0, NULL, 0, NULL};
    uint8_t record[RECORD_MOST] = {0};
    uint32_t *steps = along == 0 ? &c.n : along == 1 ? &c.m : &c.l;
    int good = 1;
    for (size_t k = 0; k < RECORD_MOST / 3; k++)
        record[3 * k + (size_t)axis] = digit_of(k, along) == 3 ? 2 : 0;
    for (*steps = 1; *steps <= 32; ++*steps)
        good &= known_solid(record, c, *steps < 5 ? -15 : 4 * ((int64_t)*steps + 1), 3);
    return good;
}

static int known_solids(void) {
    int good = known_row();
    for (uint32_t choice = GIDZKHALU_OVER; choice <= GIDZKHALU_UNDER; choice++) {
        for (size_t k = 0; k < sizeof STAYING / sizeof *STAYING; k++)
            good &= known_staying(k, choice);
        for (int turn = 0; turn < 6; turn++)
            good &= known_block(turn, choice);
    }
    for (int axis = 0; axis < 3; axis++) {
        for (size_t k = 0; k < RECORD_MOST / 3; k++)
            good &= known_point(k, axis);
        for (int along = 0; along < PARAMETERS; along++)
            good &= known_long(along, axis);
    }
    return good;
}

/* Bytes that count up from 0, and where each point of a flip comes from. */
static int known_flips(void) {
    static const uint8_t curve[4] = {3, 2, 1, 0};
    static const uint8_t patch[16] = {0, 4, 8, 12, 1, 5, 9, 13, 2, 6, 10, 14, 3, 7, 11, 15};
    uint8_t record[GIDZKHALU_PATCH_BYTES];
    int64_t answer;
    int good = 1;
    for (size_t at = 0; at < sizeof record; at++)
        record[at] = (uint8_t)at;
    lend_bytes(&points, record, GIDZKHALU_CURVE_BYTES);
    good &= compare_flip(0, 5, 7, GIDZKHALU_CURVE_BYTES, &answer) && answer == 0;
    for (size_t at = 0; at < GIDZKHALU_CURVE_BYTES; at++)
        good &= flipped.got[at] == 3 * curve[at / 3] + at % 3;
    lend_bytes(&points, record, GIDZKHALU_PATCH_BYTES);
    good &= compare_flip(1, 5, 7, GIDZKHALU_PATCH_BYTES, &answer) && answer == 0;
    for (size_t at = 0; at < GIDZKHALU_PATCH_BYTES; at++)
        good &= flipped.got[at] == 3 * patch[at / 3] + at % 3;
    return (good && *number_at(flip_n.got) == 7 && *number_at(flip_m.got) == 5) || known_failed("of flips");
}

static int known_swatch(uint32_t side, const struct swatch *s, const uint8_t cell[3]) {
    struct order order = {0};
    uint8_t want[3] = {99, 99, 99}, got[3] = {99, 99, 99};
    int64_t answer = reference_to_cell(side, s, want, 3, &order);
    answer |= gidzkhalu_to_cell(side, s->kind, float_of(s->number[0]), float_of(s->number[1]), float_of(s->number[2]),
                                got, 3);
    if (answer == 0 && memcmp(want, cell, 3) == 0 && memcmp(got, cell, 3) == 0)
        return 1;
    printf("  side %" PRIu32 ": expected %d %d %d, came %d %d %d\n", side, cell[0], cell[1], cell[2], got[0], got[1],
           got[2]);
    print_swatch(s);
    return known_failed("of swatches");
}

static int known_grey(uint32_t side, uint32_t bits, uint8_t coordinate) {
    struct swatch grey = {1, {bits, 0, 0}};
    uint8_t cell[3] = {coordinate, coordinate, coordinate};
    return known_swatch(side, &grey, cell);
}

/* Hue k + 1/4, saturation 1/2, value 1, by hand: p = 4/8, q = 7/8, r = 5/8, and side 9 has 8 cells from 0 to 1. */
static int known_hues(void) {
    static const uint32_t hue[6] = {0x3E800000, 0x3FA00000, 0x40100000, 0x40500000, 0x40880000, 0x40A80000};
    static const uint8_t cell[6][3] = {{8, 5, 4}, {7, 8, 4}, {4, 8, 5}, {4, 7, 8}, {5, 4, 8}, {8, 4, 7}};
    int good = 1;
    for (int k = 0; k < 6; k++) {
        struct swatch s = {2, {hue[k], 0x3F000000, ONE}};
        good &= known_swatch(9, &s, cell[k]);
    }
    return good;
}

/* What the sheet program prints, or the totals program, by the library and by the reference; an accepted sheet has four
   new cells. */
static int known_print(const char *sheet, int of_totals, const char *printed) {
    struct order order = {0}, listed = {0};
    struct strokes strokes;
    uint32_t of;
    int64_t want, got;
    lend_bytes(&input, (const uint8_t *)sheet, strlen(sheet));
    lend(&buffer, GIDZKHALU_SHEET_BUFFER_BYTES);
    lend_number(&detail);
    lend_number(&new_cells);
    lend(&text, TOTALS_TEXT);
    want = reference_draw_sheet(input.want, input.len, buffer.want, buffer.len, number_at(detail.want),
                                number_at(new_cells.want), &order, &strokes);
    got = gidzkhalu_draw_sheet(input.got, input.len, buffer.got, buffer.len, number_at(detail.got),
                               number_at(new_cells.got));
    of = *number_at(detail.want);
    if (want != got || !same(&buffer) || !same(&detail) || !same(&new_cells))
        return known_failed("of sheets");
    if (want >= 0 && *number_at(new_cells.got) != 4)
        return known_failed("of sheets");
    if (want < 0) {
        want = reference_refusal_line((uint32_t)-want, of, text.want, text.len, &listed);
        got = gidzkhalu_refusal_line((uint32_t)-got, of, text.got, text.len);
    } else if (of_totals) {
        want = reference_totals(of, buffer.want, 64, text.want, text.len, &listed);
        got = gidzkhalu_totals(of, buffer.got, 64, text.got, text.len);
    } else {
        want = reference_list_part(of, buffer.want, 64, 0, 64, text.want, text.len, &listed);
        got = gidzkhalu_list_part(of, buffer.got, 64, 0, 64, text.got, text.len);
    }
    if (want == got && same(&text) && want == (int64_t)strlen(printed) && memcmp(text.got, printed, (size_t)want) == 0)
        return 1;
    printf("  expected\n%s  came\n%.*s", printed, got < 0 ? 0 : (int)got, (const char *)text.got);
    return known_failed("of sheets");
}

static const char SHEET[] = "    4\n"
                            "    7    3    0    0    0    1    0    0    2    0    0    3    0    0\n";
static const char LISTING[] = "    X    Y    Z MARK\n"
                              "    0    0    0    7\n"
                              "    1    0    0    7\n"
                              "    2    0    0    7\n"
                              "    3    0    0    7\n";
static const char TOTALS[] = "         7         4         6         0         0\n"
                             "         0        60        90        96        96\n";
static const char NO_LINE[] = "REFUSED   41    1\n";

static int document_samples(void) {
    int good = known_patch() & known_halves() & known_solids() & known_flips();
    good &= known_print(SHEET, 0, LISTING) & known_print("", 0, NO_LINE);
    good &= known_print(SHEET, 1, TOTALS) & known_print("", 1, NO_LINE);
    good &= known_grey(2, 0x3F000000, 0) & known_grey(3, 0x3E800000, 0) & known_grey(3, 0x3E800001, 1) & known_hues();
    for (uint32_t side = 2; side <= 64; side++)
        good &= known_grey(side, ONE, (uint8_t)(side - 1));
    for (int k = 0; k < (int)(sizeof KNOWN / sizeof *KNOWN); k++)
        for (int axis = 0; axis < 3; axis++)
            good &= known_curve(k, axis) & known_drawing(k, axis, GIDZKHALU_OVER) &
                    known_drawing(k, axis, GIDZKHALU_UNDER);
    for (int k = 0; k < (int)(sizeof KNOWN / sizeof *KNOWN); k++)
        for (int axis = 0; axis <= 3; axis++)
            good &= known_path(k, axis);
    good &= known_corner();
    for (size_t k = 0; k < sizeof PLACED / sizeof *PLACED; k++)
        for (int axis = 0; axis < 3; axis++)
            good &= known_choice(k, axis, DRAW) & known_choice(k, axis, DRAW_CHOSEN);
    for (size_t k = 0; k < sizeof PLACED / sizeof *PLACED; k++)
        for (int axis = 0; axis < 3; axis++)
            good &= known_choice(k, axis, DRAW_STRIP);
    for (size_t k = 0; k < sizeof STRIPPED / sizeof *STRIPPED; k++)
        good &= known_strip(k, GIDZKHALU_OVER) & known_strip(k, GIDZKHALU_UNDER);
    for (size_t k = 0; k < sizeof CHECKED / sizeof *CHECKED; k++)
        for (int axis = 0; axis <= 3; axis++)
            good &= known_check(k, axis);
    for (size_t k = 0; k < sizeof COUNTED / sizeof *COUNTED; k++)
        for (int axis = 0; axis <= 3; axis++)
            good &= known_count(k, axis);
    for (size_t k = 0; k < sizeof TOGETHER / sizeof *TOGETHER; k++)
        for (int order = 0; order < 6; order++)
            good &= known_count_of_axes(k, order);
    return good;
}

/* The run */

static const int CHECK_ORDER[] = {51, 11, 13, 14, 15, 0}, LIST_ORDER[] = {51, 11, 13, 22, 14, 15, 0},
                 DRAW_ORDER[] = {51, 55, 11, 21, 12, 13, 14, 15, 0}, CHOOSE_ORDER[] = {51, 11, 14, 0},
                 CHOSEN_ORDER[] = {51, 55, 11, 21, 12, 14, 0}, CELL_ORDER[] = {53, 52, 11, 31, 32, 31, 32, 0},
                 HUE_ORDER[] = {52, 11, 31, 33, 31, 32, 31, 32, 0},
                 HALF_ORDER[] = {53, 52, 31, 33, 31, 32, 31, 33, 31, 32, 0},
                 SIDE_LINE_ORDER[] = {21, 41, 42, 11, 43, 0},
                 CURVE_LINE_ORDER[] = {21, 44, 41, 42, 12, 13, 14, 15, 0}, TEXT_ORDER[] = {11, 21, 22, 0},
                 LINE_ORDER[] = {54, 22, 0}, RECORD_ORDER[] = {51, 55, 0}, OUT_ORDER[] = {53, 52, 0},
                 BOTH_ORDER[] = {51, 11, 21, 12, 13, 14, 15, 0}, FLIP_ORDER[] = {51, 52, 0},
                 PATH_ORDER[] = {51, 11, 13, 14, 15, 22, 0};

/* Of the strip: a curve has one count, to which 13 or 24 applies. */
static const int STRIP_ORDER[] = {51, 55, 11, 23, 21, 12, 13, 24, 14, 15, 0},
                 STRIP_13_ORDER[] = {51, 55, 11, 23, 21, 12, 13, 14, 15, 0},
                 STRIP_24_ORDER[] = {51, 55, 11, 23, 21, 12, 24, 14, 15, 0};

static const struct kind {
    const char *name;
    uint64_t cases;
    int (*run)(void);
    const int *order[2]; /* every two numbers of an order are to be met together */
} KIND[] = {{"document samples", 1, document_samples, {NULL, NULL}},
            {"check curve", 2000000, check_curve, {CHECK_ORDER, NULL}},
            {"list curve", 2000000, list_curve, {LIST_ORDER, NULL}},
            {"draw curve", 2000000, draw_curve, {DRAW_ORDER, NULL}},
            {"near quitting", 500000, near_quitting, {CHECK_ORDER, NULL}},
            {"choose steps", 2000000, choose_steps, {CHOOSE_ORDER, NULL}},
            {"draw chosen", 1000000, draw_chosen, {CHOSEN_ORDER, NULL}},
            {"chosen by checks", 500000, chosen_by_checks, {NULL, NULL}},
            {"list path", 1000000, list_path, {PATH_ORDER, NULL}},
            {"draw path", 1000000, draw_path, {DRAW_ORDER, NULL}},
            {"path by samples", 200000, path_by_samples, {NULL, NULL}},
            {"check patch", 1000000, check_patch, {CHECK_ORDER, NULL}},
            {"draw patch", 1000000, draw_patch, {DRAW_ORDER, NULL}},
            {"check solid", 400000, check_solid, {CHECK_ORDER, NULL}},
            {"draw solid", 400000, draw_solid, {DRAW_ORDER, NULL}},
            {"solid as others", 100000, solid_beside, {NULL, NULL}},
            {"strip curve", 500000, strip_curve, {STRIP_13_ORDER, STRIP_24_ORDER}},
            {"strip patch", 300000, strip_patch, {STRIP_ORDER, NULL}},
            {"flip curve", 500000, flip_curve, {FLIP_ORDER, NULL}},
            {"flip patch", 500000, flip_patch, {FLIP_ORDER, NULL}},
            {"check curve, flip", 300000, check_curve_flip, {CHECK_ORDER, NULL}},
            {"list curve, flip", 300000, list_curve_flip, {LIST_ORDER, NULL}},
            {"draw curve, flip", 300000, draw_curve_flip, {DRAW_ORDER, NULL}},
            {"choose steps, flip", 200000, choose_steps_flip, {CHOOSE_ORDER, NULL}},
            {"draw chosen, flip", 100000, draw_chosen_flip, {CHOSEN_ORDER, NULL}},
            {"check patch, flip", 100000, check_patch_flip, {CHECK_ORDER, NULL}},
            {"draw patch, flip", 100000, draw_patch_flip, {DRAW_ORDER, NULL}},
            {"strip curve, flip", 200000, strip_curve_flip, {STRIP_13_ORDER, STRIP_24_ORDER}},
            {"strip patch, flip", 100000, strip_patch_flip, {STRIP_ORDER, NULL}},
            {"swatch to cell", 4000000, to_cell, {CELL_ORDER, NULL}},
            {"hue to cell", 4000000, hue_to_cell, {CELL_ORDER, HUE_ORDER}},
            {"half-way", 8000000, half_way, {HALF_ORDER, NULL}},
            {"sheet", 1000000, draw_sheet, {SIDE_LINE_ORDER, CURVE_LINE_ORDER}},
            {"part of a listing", 1000000, list_part, {TEXT_ORDER, NULL}},
            {"parts joined", 100000, parts_joined, {NULL, NULL}},
            {"listing of a sheet", 100000, sheet_listing, {NULL, NULL}},
            {"totals", 500000, totals, {TEXT_ORDER, NULL}},
            {"totals of a sheet", 100000, sheet_totals, {NULL, NULL}},
            {"refusal line", 1000000, refusal_line, {LINE_ORDER, NULL}},
            {"wrong lengths", 1000000, wrong_length, {RECORD_ORDER, OUT_ORDER}},
            {"two drawings", 500000, two_drawings, {NULL, NULL}},
            {"over and under", 200000, over_and_under, {BOTH_ORDER, NULL}},
            {"list of calls", 200000, list_of_calls, {DRAW_ORDER, NULL}},
            {"large curve", 100000, large_curve, {NULL, NULL}},
            {"large choice", 50000, large_choice, {NULL, NULL}},
            {"large path", 20000, large_path, {NULL, NULL}},
            {"large patch", 3000, large_patch, {NULL, NULL}},
            {"large solid", 1000, large_solid, {NULL, NULL}},
            {"large strip", 3000, large_strip, {NULL, NULL}},
            {"large sheet", 5000, large_sheet, {NULL, NULL}},
            {"large listing", 1000, large_listing, {NULL, NULL}},
            {"large totals", 1000, large_totals, {NULL, NULL}}};

enum { KINDS = sizeof KIND / sizeof *KIND };

static struct counts counted[KINDS];

static int run_case(int kind, uint64_t number) {
    running.counts = &counted[kind];
    running.name = KIND[kind].name;
    running.number = number;
    start_case((uint64_t)kind, number);
    return KIND[kind].run();
}

static void print_counts(const struct counts *c) {
    for (int k = 0; k < NUMBERS; k++)
        if (c->answered[k] > 0 && k == 0)
            printf("  accepted %" PRIu64, c->answered[k]);
        else if (c->answered[k] > 0)
            printf("  %d: %" PRIu64, NUMBER[k], c->answered[k]);
    if (c->quit + c->walked > 0)
        printf("  checks quit %" PRIu64 ", walked %" PRIu64, c->quit, c->walked);
    if (c->new_cells + c->left > 0)
        printf("  new cells %" PRIu64 ", left %" PRIu64, c->new_cells, c->left);
    printf("\n");
}

/* A kind's cases up to its first failure; answers whether there was none. */
static int run_kind(int kind, double scale) {
    uint64_t cases = (uint64_t)((double)KIND[kind].cases * scale), number = 0;
    clock_t start = clock();
    if (cases < 1)
        cases = 1;
    while (number < cases && run_case(kind, number))
        number++;
    printf("%-18s %9" PRIu64 " cases %6.1f s ", KIND[kind].name, number, (double)(clock() - start) / CLOCKS_PER_SEC);
    print_counts(&counted[kind]);
    fflush(stdout);
    return number == cases;
}

/* A record of wrong length has no coordinates and no steps, and no side is outside 2 to 64 and in 41 or 18 to 64. */
static int never_together(int first, int second) {
    return (first == 51 && (second == 14 || second == 15)) || (first == 11 && (second == 43 || second == 23));
}

static int pair_met(int kind, int first, int second) {
    if (never_together(first, second) || counted[kind].over[index_of(first)][index_of(second)] > 0)
        return 1;
    printf("NOT MET: %s: %d answered where %d applies as well\n", KIND[kind].name, first, second);
    return 0;
}

static int order_met(int kind, const int *order) {
    int good = 1;
    for (int a = 0; order != NULL && order[a] != 0; a++) {
        if (counted[kind].answered[index_of(order[a])] == 0) {
            printf("NOT MET: %s: %d\n", KIND[kind].name, order[a]);
            good = 0;
        }
        for (int b = a + 1; order[b] != 0; b++)
            good &= pair_met(kind, order[a], order[b]);
    }
    return good;
}

static void print_pairs(int kind) {
    int shown = 0;
    for (int a = 1; a < NUMBERS; a++)
        for (int b = 1; b < NUMBERS; b++) {
            uint64_t times = counted[kind].over[a][b];
            if (times == 0)
                continue;
            if (shown++ % 8 == 0)
                printf("\n%-18s", shown == 1 ? KIND[kind].name : "");
            printf(" %d>%d %-6" PRIu64, NUMBER[a], NUMBER[b], times);
        }
}

/* Prints what the cases met; answers whether all that a whole run must meet was met. */
static int print_met(void) {
    int good = 1;
    printf("\nanswered > applied as well:");
    for (int kind = 0; kind < KINDS; kind++)
        print_pairs(kind);
    printf("\n\nmet:\n");
    for (int k = 0; k < METS; k++)
        printf("%9" PRIu64 " %s\n", met[k], MET_WORDS[k]);
    printf("\naccepted patches: %" PRIu64 " neighbours compared, %" PRIu64 " with cells more than one apart\n",
           met[NEIGHBOURS_T] + met[NEIGHBOURS_U], patch_neighbours_apart);
    printf("accepted solids: %" PRIu64 " neighbours compared, %" PRIu64 " with cells more than one apart\n",
           met[SOLID_NEIGHBOURS_T] + met[SOLID_NEIGHBOURS_U] + met[SOLID_NEIGHBOURS_V], solid_neighbours_apart);
    printf("steps of accepted paths, where x falls, stays and rises, in each line y so, and for each of these z so:");
    for (int way = 0; way < WAYS; way++) {
        printf("%s%" PRIu64, way % 9 == 0 ? "\n  " : " ", path_steps[way]);
        good &= path_steps[way] > 0;
    }
    printf("\n");
    for (int k = 0; k < METS; k++)
        good &= met[k] > 0;
    for (int kind = 0; kind < KINDS; kind++)
        good &= order_met(kind, KIND[kind].order[0]) & order_met(kind, KIND[kind].order[1]);
    return good;
}

/* Prints the answers of all kinds; answers the number of calls. */
static uint64_t print_totals(void) {
    struct counts total = {{0}, {{0}}, 0, 0, 0, 0};
    uint64_t calls_made = 0;
    for (int kind = 0; kind < KINDS; kind++) {
        total.new_cells += counted[kind].new_cells;
        total.left += counted[kind].left;
        total.quit += counted[kind].quit;
        total.walked += counted[kind].walked;
        for (int k = 0; k < NUMBERS; k++) {
            total.answered[k] += counted[kind].answered[k];
            calls_made += counted[kind].answered[k];
        }
    }
    printf("all kinds:");
    print_counts(&total);
    return calls_made;
}

static int run_all(double scale) {
    int failed = 0, all_met;
    uint64_t calls_made;
    for (int kind = 0; kind < KINDS; kind++)
        failed += !run_kind(kind, scale);
    calls_made = print_totals();
    all_met = print_met();
    printf("seed %" PRIu64 ", scale %g, %" PRIu64 " calls, %.0f s: ", running.seed, scale, calls_made,
           (double)clock() / CLOCKS_PER_SEC);
    if (failed > 0)
        printf("%d kinds of %d failed\n", failed, KINDS);
    else if (scale >= 1 && !all_met)
        printf("no difference, but not all was met\n");
    else
        printf("no difference in %d kinds\n", KINDS);
    return failed > 0 || (scale >= 1 && !all_met);
}

static int run_one(const char *name, uint64_t number) {
    for (int kind = 0; kind < KINDS; kind++)
        if (strcmp(KIND[kind].name, name) == 0)
            return !run_case(kind, number);
    printf("no kind is named '%s'\n", name);
    return 2;
}

/* A call that does not come back: says which. */
static void stopped(int number) {
    printf("STOPPED by signal %d: %s, case %" PRIu64 ", seed %" PRIu64 "\n", number, running.name, running.number,
           running.seed);
    fflush(stdout);
    _Exit(1);
}

int main(int argc, char **argv) {
    double scale = argc > 2 ? strtod(argv[2], NULL) : 1;
    running.seed = argc > 1 ? strtoull(argv[1], NULL, 10) : 1;
    start_run(running.seed);
    signal(SIGSEGV, stopped);
    signal(SIGABRT, stopped);
    if (argc > 4)
        return run_one(argv[3], strtoull(argv[4], NULL, 10));
    return run_all(scale);
}
