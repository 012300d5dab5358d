/* The same call by library, (a) and (b), and by (c), with what it answers and leaves compared. */
#include "agree.h"

#include <stdio.h>
#include <stdlib.h>
#include <string.h>

#include "box.h"
#include "gaps.h"
#include "inputs.h"
#include "totals.h"

enum { ROOM = CELLS + 1 };

static const struct box library = BOX(gidzkhalu), exact[] = {BOX(same), BOX(direct)};

/* The arguments of the next call. */
static struct {
    uint32_t side, n, m, l, choice, kind, kind2, number, line;
    uint8_t points[193], mark;
    size_t points_len, lent_len, cube_len, first, count, input_len;
    float a[6];
    uint8_t input[SHEET_BYTES + 200], cube[CELLS];
} in;

/* What a lent buffer holds before a call, after the library's and after another's. */
static uint8_t before[ROOM], expected[ROOM], after[ROOM];

/* The numbers that the call writes. */
static uint32_t detail, new_cells;

typedef answer call_fn(const struct box *box, uint8_t *lent);

static answer call_check_curve(const struct box *box, uint8_t *lent)
{
    (void)lent;
    return box->check_curve(in.side, in.points, in.points_len, in.n);
}

static answer call_list_curve(const struct box *box, uint8_t *lent)
{
    return box->list_curve(in.side, in.points, in.points_len, in.n, lent, in.lent_len);
}

static answer call_draw_curve(const struct box *box, uint8_t *lent)
{
    return box->draw_curve(in.side, in.points, in.points_len, in.n, in.mark, in.choice, lent, in.lent_len, &new_cells);
}

static answer call_list_path(const struct box *box, uint8_t *lent)
{
    return box->list_path(in.side, in.points, in.points_len, in.n, lent, in.lent_len);
}

static answer call_draw_path(const struct box *box, uint8_t *lent)
{
    return box->draw_path(in.side, in.points, in.points_len, in.n, in.mark, in.choice, lent, in.lent_len, &new_cells);
}

static answer call_choose_steps(const struct box *box, uint8_t *lent)
{
    (void)lent;
    return box->choose_steps(in.side, in.points, in.points_len);
}

static answer call_draw_chosen(const struct box *box, uint8_t *lent)
{
    return box->draw_chosen(in.side, in.points, in.points_len, in.mark, in.choice, lent, in.lent_len, &new_cells);
}

static answer call_check_patch(const struct box *box, uint8_t *lent)
{
    (void)lent;
    return box->check_patch(in.side, in.points, in.points_len, in.n, in.m);
}

static answer call_draw_patch(const struct box *box, uint8_t *lent)
{
    return box->draw_patch(in.side, in.points, in.points_len, in.n, in.m, in.mark, in.choice, lent, in.lent_len,
                           &new_cells);
}

static answer call_check_solid(const struct box *box, uint8_t *lent)
{
    (void)lent;
    return box->check_solid(in.side, in.points, in.points_len, in.n, in.m, in.l);
}

static answer call_draw_solid(const struct box *box, uint8_t *lent)
{
    return box->draw_solid(in.side, in.points, in.points_len, in.n, in.m, in.l, in.mark, in.choice, lent, in.lent_len,
                           &new_cells);
}

static answer call_draw_strip_curve(const struct box *box, uint8_t *lent)
{
    return box->draw_strip_curve(in.side, in.points, in.points_len, in.n, in.mark, in.choice, lent, in.lent_len,
                                 &new_cells);
}

static answer call_draw_strip_patch(const struct box *box, uint8_t *lent)
{
    return box->draw_strip_patch(in.side, in.points, in.points_len, in.n, in.m, in.mark, in.choice, lent, in.lent_len,
                                 &new_cells);
}

static answer call_flip_curve(const struct box *box, uint8_t *lent)
{
    return box->flip_curve(in.points, in.points_len, lent, in.lent_len);
}

/* The counts that it exchanges are the numbers that it writes. */
static answer call_flip_patch(const struct box *box, uint8_t *lent)
{
    detail = in.n;
    new_cells = in.m;
    return box->flip_patch(in.points, in.points_len, &detail, &new_cells, lent, in.lent_len);
}

static answer call_to_cell(const struct box *box, uint8_t *lent)
{
    return box->to_cell(in.side, in.kind, in.a[0], in.a[1], in.a[2], lent, in.lent_len);
}

static answer call_half_way(const struct box *box, uint8_t *lent)
{
    const float *a = in.a;
    return box->half_way(in.kind, a[0], a[1], a[2], in.kind2, a[3], a[4], a[5], lent, in.lent_len);
}

static answer call_draw_sheet(const struct box *box, uint8_t *lent)
{
    return box->draw_sheet(in.input, in.input_len, lent, in.lent_len, &detail, &new_cells);
}

static answer call_list_part(const struct box *box, uint8_t *lent)
{
    return box->list_part(in.side, in.cube, in.cube_len, in.first, in.count, lent, in.lent_len);
}

static answer call_totals(const struct box *box, uint8_t *lent)
{
    return box->totals(in.side, in.cube, in.cube_len, lent, in.lent_len);
}

static answer call_refusal_line(const struct box *box, uint8_t *lent)
{
    return box->refusal_line(in.number, in.line, lent, in.lent_len);
}

/* The call with numbers that it cannot write. */
static answer make(call_fn *call, const struct box *box, uint8_t *lent)
{
    detail = new_cells = UINT32_MAX;
    return call(box, lent);
}

/* One call by all, each on the same room bytes. Answers what they answer. */
static answer agree(const char *name, call_fn *call, size_t room)
{
    memcpy(expected, before, room);
    answer want = make(call, &library, expected);
    uint32_t want_detail = detail, want_new = new_cells;
    for (int k = 0; k < 2; k++) {
        memcpy(after, before, room);
        answer got = make(call, &exact[k], after);
        if (got == want && detail == want_detail && new_cells == want_new && memcmp(after, expected, room) == 0)
            continue;
        printf("%s: the library answers %lld, detail %lu, new cells %lu; %s %lld, %lu, %lu; the bytes %s\n", name,
               (long long)want, (unsigned long)want_detail, (unsigned long)want_new, exact[k].prefix, (long long)got,
               (unsigned long)detail, (unsigned long)new_cells, memcmp(after, expected, room) ? "differ" : "agree");
        exit(1);
    }
    return want;
}

/* The same where the answer is known. */
static void agree_on_known(const char *name, call_fn *call, size_t room, answer known)
{
    answer got = agree(name, call, room);
    if (got != known) {
        printf("%s: all answer %lld, not %lld\n", name, (long long)got, (long long)known);
        exit(1);
    }
}

/* A drawing on the strip by all; if it is accepted, the library's main path must do the same. Answers what they answer. */
static answer agree_on_strip(const char *name, call_fn *strip, call_fn *main_path, size_t room)
{
    answer want = agree(name, strip, room), got;
    uint32_t want_new = new_cells;
    if (want < 0)
        return want;
    memcpy(after, before, room);
    got = make(main_path, &library, after);
    if (got != want || new_cells != want_new || memcmp(after, expected, room) != 0) {
        printf("%s: strip %lld, new cells %lu; main path %lld, %lu; the bytes %s\n", name, (long long)want,
               (unsigned long)want_new, (long long)got, (unsigned long)new_cells,
               memcmp(after, expected, room) ? "differ" : "agree");
        exit(1);
    }
    return want;
}

/* The inputs. */

static void take_curve(int s, int k)
{
    in.side = SIDE;
    in.n = strokes[s].steps;
    in.mark = (uint8_t)(1 + k % 255);
    in.points_len = 12;
    memcpy(in.points, curves[strokes[s].set][k], 12);
}

static void take_polygon(int set, int k)
{
    in.side = polygons_of[set].side;
    in.mark = (uint8_t)(1 + k % 255);
    in.points_len = 12;
    memcpy(in.points, polygons[set][k], 12);
}

static void take_patch(int set, int k)
{
    in.side = SIDE;
    in.n = in.m = set == 0 ? 64 : 256;
    in.mark = (uint8_t)(1 + k);
    in.points_len = 48;
    memcpy(in.points, patches[set][k], 48);
}

static void take_solid(const uint8_t *points, uint32_t n, int k)
{
    in.side = SIDE;
    in.n = in.m = in.l = n;
    in.mark = (uint8_t)(1 + k);
    in.points_len = 192;
    memcpy(in.points, points, 192);
    in.lent_len = CELLS;
}

static void take_strip_curve(int k)
{
    in.side = STRIP_SIDE;
    in.n = STRIP_STEPS;
    in.mark = (uint8_t)(1 + k % 255);
    in.points_len = 12;
    memcpy(in.points, strip_curves[k], 12);
    in.lent_len = STRIP_CELLS;
}

static void take_strip_patch(int k)
{
    in.side = STRIP_SIDE;
    in.n = in.m = STRIP_STEPS;
    in.mark = (uint8_t)(1 + k);
    in.points_len = 48;
    memcpy(in.points, strip_patches[k], 48);
    in.lent_len = STRIP_CELLS;
}

static void take_swatches(int set, size_t i, uint32_t kind)
{
    in.side = SIDE;
    in.kind = in.kind2 = kind;
    memcpy(in.a, channels[set][i], sizeof in.a);
}

static void take_sheet(int set, int k)
{
    in.input_len = SHEET_BYTES;
    in.lent_len = SHEET_CELLS;
    memcpy(in.input, sheets[set][k], SHEET_BYTES);
}

static void take_cube(uint32_t side, const uint8_t *cube)
{
    in.side = side;
    in.cube_len = (size_t)side * side * side;
    memcpy(in.cube, cube, in.cube_len);
}

/* A drawing over and under. */
static void agree_on_choices(const char *name, call_fn *call)
{
    for (in.choice = OVER; in.choice <= UNDER; in.choice++)
        agree(name, call, ROOM);
}

/* The check has the answer that is known of its input. */
static void agree_on_check(answer known)
{
    agree_on_known("check_curve", call_check_curve, 0, known);
}

/* With room for the longest path, with as much as this one takes, and with one byte less. */
static void agree_on_path_lists(void)
{
    in.lent_len = 3 * (3 * STEPS + 1);
    answer cells = agree("list_path", call_list_path, in.lent_len + 1);
    if (cells < 0)
        return;
    for (size_t less = 0; less < 2; less++) {
        in.lent_len = 3 * (size_t)cells - less;
        agree("list_path", call_list_path, 3 * (size_t)cells + 1);
    }
}

static void agree_on_curve(int s, int k)
{
    take_curve(s, k);
    agree_on_check(strokes[s].check);
    agree_on_path_lists();
    in.lent_len = 3 * (STEPS + 1);
    agree("list_curve", call_list_curve, in.lent_len + 1);
    in.lent_len = CELLS;
    agree_on_choices("draw_curve", call_draw_curve);
    agree_on_choices("draw_path", call_draw_path);
    in.lent_len = 12;
    agree("flip_curve", call_flip_curve, 13);
}

/* Document 02's own example, on every axis: 0 0 0 6 takes 17 steps. */
static void agree_on_example(void)
{
    in.side = 7;
    in.points_len = 12;
    memset(in.points, 0, 9);
    memset(in.points + 9, 6, 3);
    if (agree("choose_steps", call_choose_steps, 0) != 17) {
        printf("choose_steps: 0 0 0 6 does not take 17 steps\n");
        exit(1);
    }
}

static void agree_on_polygon(int set, int k)
{
    take_polygon(set, k);
    agree("choose_steps", call_choose_steps, 0);
    in.lent_len = (size_t)in.side * in.side * in.side;
    for (in.choice = OVER; in.choice <= UNDER; in.choice++)
        agree("draw_chosen", call_draw_chosen, in.lent_len + 1);
}

static void agree_on_patch(int set, int k)
{
    take_patch(set, k);
    in.lent_len = CELLS;
    agree("check_patch", call_check_patch, 0);
    agree_on_choices("draw_patch", call_draw_patch);
    in.lent_len = 48;
    agree("flip_patch", call_flip_patch, 49);
}

/* Accepted by all: the check and the drawing, over and under. */
static void accepted_solid(void)
{
    answer samples = (answer)((in.n + 1) * (in.m + 1) * (in.l + 1));
    agree_on_known("check_solid", call_check_solid, 0, 0);
    for (in.choice = OVER; in.choice <= UNDER; in.choice++)
        agree_on_known("draw_solid", call_draw_solid, ROOM, samples);
}

static void refused_solid(answer known)
{
    in.choice = OVER;
    agree_on_known("check_solid", call_check_solid, 0, known);
    agree_on_known("draw_solid", call_draw_solid, ROOM, known);
}

static void agree_on_solids(void)
{
    for (int k = 0; k < SOLIDS; k++) {
        take_solid(solids[k], SOLID_STEPS, k);
        accepted_solid();
    }
    for (int k = 0; k < SMALL_SOLIDS; k++) {
        for (uint32_t n = 1; n <= 4; n += 3) {
            take_solid(close_solids[k], n, k);
            accepted_solid();
        }
        take_solid(steep_solids[k], SOLID_STEPS, k);
        refused_solid(-15);
        in.l++;
        refused_solid(-13);
    }
}

static void accepted_on_strip(const char *name, call_fn *strip, call_fn *main_path, answer samples)
{
    for (in.choice = OVER; in.choice <= UNDER; in.choice++)
        if (agree_on_strip(name, strip, main_path, in.lent_len + 1) != samples) {
            printf("%s: not %lld samples\n", name, (long long)samples);
            exit(1);
        }
}

/* As it is, with one step more, and in the next larger cube. */
static void agree_on_strip_curve(int k)
{
    take_strip_curve(k);
    agree_on_check(QUIT);
    accepted_on_strip("draw_strip_curve", call_draw_strip_curve, call_draw_curve, STRIP_STEPS + 1);
    in.choice = OVER;
    in.n = STRIP_STEPS + 1;
    agree_on_known("draw_strip_curve", call_draw_strip_curve, ROOM, -24);
    in.side = STRIP_SIDE + 1;
    agree_on_known("draw_strip_curve", call_draw_strip_curve, ROOM, -23);
}

static void agree_on_strip_patch(int k)
{
    take_strip_patch(k);
    accepted_on_strip("draw_strip_patch", call_draw_strip_patch, call_draw_patch,
                      (STRIP_STEPS + 1) * (STRIP_STEPS + 1));
    in.choice = OVER;
    in.m = STRIP_STEPS + 1;
    agree_on_known("draw_strip_patch", call_draw_strip_patch, ROOM, -24);
    in.side = STRIP_SIDE + 1;
    agree_on_known("draw_strip_patch", call_draw_strip_patch, ROOM, -23);
}

static void agree_on_swatches(int set, size_t i, uint32_t kind)
{
    take_swatches(set, i, kind);
    in.lent_len = 3;
    agree("to_cell", call_to_cell, 4);
    in.lent_len = 12;
    agree("half_way", call_half_way, 13);
}

/* Of the cube that was taken last. */
static void agree_on_totals(void)
{
    in.lent_len = TOTALS_TEXT;
    agree("totals", call_totals, TOTALS_TEXT + 1);
}

static uint32_t field(const uint8_t *line, int k)
{
    return (uint32_t)strtoul((const char *)line + 5 * k, NULL, 10);
}

/* The strokes of the sheet that was taken last. */
static void agree_on_strokes(void)
{
    in.side = SHEET_SIDE;
    in.points_len = 12;
    for (int line = 0; line < SHEET_LINES; line++) {
        const uint8_t *at = in.input + 6 + 71 * line;
        in.n = field(at, 1);
        for (int i = 0; i < 12; i++)
            in.points[i] = (uint8_t)field(at, 2 + i);
        agree_on_check(QUIT);
    }
}

static void agree_on_sheet(int set, int k)
{
    take_sheet(set, k);
    agree_on_strokes();
    agree("draw_sheet", call_draw_sheet, SHEET_CELLS + 1);
    take_cube(SHEET_SIDE, expected);
    agree_on_totals();
    in.count = 8000;
    in.lent_len = 21 * (in.count + 1);
    for (in.first = 0; in.first < SHEET_CELLS; in.first += in.count)
        agree("list_part", call_list_part, in.lent_len + 1);
}

/* Half of the bytes are 0: a drawing finds marked cells and unmarked ones. */
static void fill_before(void)
{
    for (size_t i = 0; i < ROOM; i++)
        before[i] = random_below(2) == 0 ? 0 : (uint8_t)random_bits();
}

void agree_on_inputs(void)
{
    fill_before();
    for (int s = 0; s < STROKES; s++)
        for (int k = 0; k < CURVES; k++)
            agree_on_curve(s, k);
    agree_on_example();
    for (int set = 0; set < POLYGON_SETS; set++)
        for (int k = 0; k < polygons_of[set].count; k++)
            agree_on_polygon(set, k);
    agree_on_solids();
    for (int k = 0; k < CURVES; k++)
        agree_on_strip_curve(k);
    for (int k = 0; k < PATCHES; k++)
        agree_on_strip_patch(k);
    for (int set = 0; set < 2; set++) {
        for (int k = 0; k < PATCHES; k++)
            agree_on_patch(set, k);
        for (size_t i = 0; i < swatches; i++)
            agree_on_swatches(set, i, i & 1);
        for (int k = 0; k < SHEETS; k++)
            agree_on_sheet(set, k);
    }
    for (size_t i = 0; i < swatches; i++)
        agree_on_swatches(HUES, i, 2);
    for (int k = 0; k < CUBES; k++) {
        take_cube(SIDE, full_cubes[k]);
        agree_on_totals();
    }
}

/* Random calls, good and bad. */

static int rarely(uint32_t times)
{
    return random_below(times) == 0;
}

static uint32_t some_side(void)
{
    if (rarely(20))
        return rarely(2) ? random_below(2) : 65 + random_below(3);
    return 2 + random_below(rarely(10) ? 63 : 20);
}

static uint32_t some_count(uint32_t most)
{
    if (rarely(20))
        return rarely(2) ? 0 : most + 1 + random_below(3);
    return 1 + random_below(rarely(4) || most < 60 ? most : 60);
}

static uint32_t some_choice(void)
{
    if (rarely(20))
        return rarely(2) ? 2 + random_below(300) : (uint32_t)random_bits() | 2;
    return random_below(2);
}

/* The points of a record lie near one another, so that many are accepted with few steps. */
static void some_record(int points, uint32_t most)
{
    in.side = some_side();
    in.n = some_count(most);
    in.m = some_count(most);
    uint32_t side = in.side < 2 || in.side > 64 ? 8 : in.side;
    random_points(in.points, points, side, 1 + random_below(side));
    if (rarely(20))
        in.points[random_below(3 * (uint32_t)points)] = (uint8_t)(side + random_below(3));
    in.points_len = 3 * (size_t)points + (rarely(30) ? 1 : 0);
    in.mark = (uint8_t)(rarely(20) ? 0 : 1 + random_below(255));
    in.choice = some_choice();
    in.lent_len = (size_t)in.side * in.side * in.side;
    if (in.lent_len > CELLS || rarely(30))
        in.lent_len = 27 + random_below(2);
}

/* Of the record that was taken last. */
static void agree_on_record(void)
{
    agree("draw_curve", call_draw_curve, ROOM);
    agree("draw_path", call_draw_path, ROOM);
    agree_on_strip("draw_strip_curve", call_draw_strip_curve, call_draw_curve, ROOM);
    agree("draw_chosen", call_draw_chosen, ROOM);
    agree("choose_steps", call_choose_steps, 0);
    agree("check_curve", call_check_curve, 0);
    in.lent_len = 3 * (size_t)in.n + random_below(4);
    agree("list_curve", call_list_curve, 3 * 600);
    in.lent_len = random_below(rarely(2) ? 60 : 9 * in.n + 9);
    agree("list_path", call_list_path, 9 * 600);
    in.lent_len = rarely(20) ? 11 + random_below(3) : 12;
    agree("flip_curve", call_flip_curve, 16);
}

static void some_curve(void)
{
    some_record(4, 512);
    agree_on_record();
}

/* A step count from which on the step test quits, or one less or more. */
static void some_curve_beside_quitting(void)
{
    some_record(4, 512);
    in.n = 3 * largest_gap(in.points) + random_below(3);
    if (in.n > 0)
        in.n--;
    agree_on_record();
}

static void some_patch(void)
{
    some_record(16, 256);
    agree("draw_patch", call_draw_patch, ROOM);
    agree_on_strip("draw_strip_patch", call_draw_strip_patch, call_draw_patch, ROOM);
    agree("check_patch", call_check_patch, 0);
    in.lent_len = rarely(20) ? 47 + random_below(3) : 48;
    agree("flip_patch", call_flip_patch, 64);
}

/* Of the record that was taken last: a bent block, along t and u with as many steps as are enough or one less or more. */
static void bend_solid(void)
{
    uint32_t most = 1 + random_below(10);
    random_solid(in.points, (int)in.side, (int)most);
    in.n = 3 * most + random_below(3) - 1;
    in.m = 3 * most + random_below(3) - 1;
}

/* Points anywhere, in a box at most four wide, or those of a bent block. */
static void some_solid(void)
{
    some_record(64, 32);
    in.l = some_count(32);
    if (in.side >= 4 && in.side <= 64 && !rarely(8)) {
        if (rarely(2))
            bend_solid();
        else
            random_points(in.points, 64, in.side, 1 + random_below(4));
    }
    if (rarely(20))
        in.points[random_below(192)] = (uint8_t)(in.side + random_below(3));
    agree("draw_solid", call_draw_solid, ROOM);
    agree("check_solid", call_check_solid, 0);
}

static float next_to(float v)
{
    uint32_t bits;
    memcpy(&bits, &v, sizeof bits);
    bits += random_below(3) - 1;
    memcpy(&v, &bits, sizeof v);
    return v;
}

/* Any bits or an end. */
static float odd_number(void)
{
    static const float ends[] = {0.0f, -0.0f, 1.0f, 0x1p-149f, 0x1p-126f, 0x1.fffffep-1f, 0x1.000002p0f, 0x1p-7f};
    uint32_t bits = (uint32_t)random_bits();
    float v;
    memcpy(&v, &bits, sizeof v);
    return rarely(2) ? v : ends[random_below(sizeof ends / sizeof *ends)];
}

/* An odd number, a channel of either set, or a float beside a half. */
static float some_channel(uint32_t side)
{
    uint32_t way = random_below(16);
    if (way < 2)
        return odd_number();
    if (way < 9)
        return random_channel(way & 1);
    return next_to((float)(2 * random_below(side) + 1) / (float)(2 * (side - 1)));
}

/* An odd number, a hue of the set, or a float beside a whole number from 0 to 6. */
static float some_hue(void)
{
    uint32_t way = random_below(16);
    if (way < 2)
        return odd_number();
    return way < 9 ? random_hue() : next_to((float)random_below(7));
}

static uint32_t some_kind(void)
{
    return random_below(rarely(20) ? 4 : 3);
}

/* The three numbers of a swatch. */
static void some_numbers(uint32_t kind, uint32_t side, float *numbers)
{
    for (int i = 0; i < 3; i++)
        numbers[i] = kind == 2 && i == 0 ? some_hue() : some_channel(side);
}

static void some_swatches(void)
{
    in.side = some_side();
    in.kind = some_kind();
    in.kind2 = some_kind();
    some_numbers(in.kind, in.side < 2 ? 2 : in.side, in.a);
    some_numbers(in.kind2, in.side < 2 ? 2 : in.side, in.a + 3);
    in.lent_len = rarely(20) ? 2 + random_below(3) : 3;
    agree("to_cell", call_to_cell, 16);
    in.lent_len = rarely(20) ? 11 + random_below(3) : 12;
    agree("half_way", call_half_way, 16);
}

/* A sheet, whole or with some bytes changed, cut or lengthened. */
static void some_sheet(void)
{
    static const char often[] = "0123456789 \n\n-x";
    static const char sides[][7] = {"   41\n", "   64\n", "   65\n", "    1\n", "   02\n", "   4 \n", "   39\n"};
    random_sheet(in.input, rarely(2));
    in.input_len = rarely(2) ? SHEET_BYTES : 6 + 71 * (size_t)random_below(SHEET_LINES);
    if (rarely(5))
        memcpy(in.input, sides[random_below(sizeof sides / sizeof *sides)], 6);
    for (uint32_t k = random_below(4); k > 0; k--)
        in.input[random_below((uint32_t)in.input_len)] = (uint8_t)often[random_below(sizeof often - 1)];
    if (rarely(10))
        in.input_len = rarely(2) ? in.input_len + 1 + random_below(100) : random_below((uint32_t)in.input_len + 1);
    in.lent_len = rarely(30) ? SHEET_CELLS + 1 : SHEET_CELLS;
    agree("draw_sheet", call_draw_sheet, SHEET_CELLS + 1);
}

/* A cube, few to all of its cells marked. */
static void some_cube(void)
{
    uint32_t share = 1 + random_below(20);
    in.side = some_side();
    in.cube_len = (size_t)in.side * in.side * in.side;
    if (in.cube_len > CELLS || rarely(30))
        in.cube_len = 27 + random_below(2);
    for (size_t i = 0; i < in.cube_len; i++)
        in.cube[i] = random_below(20) < share ? (uint8_t)random_bits() : 0;
}

static void some_listing(void)
{
    some_cube();
    in.first = rarely(3) ? 0 : random_below((uint32_t)in.cube_len + 3);
    in.count = random_below(12000);
    in.lent_len = 21 * (in.count + 1) - (rarely(20) ? 1 : 0);
    agree("list_part", call_list_part, ROOM);
}

static void some_totals(void)
{
    some_cube();
    in.lent_len = TOTALS_TEXT - (rarely(20) ? 1 : 0);
    agree("totals", call_totals, TOTALS_TEXT + 1);
}

static void some_refusal_line(void)
{
    in.number = rarely(2) ? random_below(60) : random_below(110000);
    in.line = rarely(2) ? random_below(203) : random_below(110000);
    in.lent_len = 17 + random_below(5);
    agree("refusal_line", call_refusal_line, 32);
}

static void repeat(int times, void (*call)(void))
{
    for (int i = 0; i < times; i++)
        call();
}

void agree_on_random_calls(void)
{
    seed(51);
    fill_before();
    repeat(4000, some_curve);
    repeat(4000, some_curve_beside_quitting);
    repeat(1000, some_patch);
    repeat(4000, some_solid);
    repeat(1000000, some_swatches);
    repeat(1000, some_sheet);
    repeat(2000, some_listing);
    repeat(2000, some_totals);
    repeat(10000, some_refusal_line);
}

/* The cells that (c) gets wrong. */

static const struct box usual = BOX(usual);

/* How many groups of so many bytes differ in the first len bytes. */
static size_t wrong(size_t len, size_t group)
{
    size_t count = 0;
    for (size_t i = 0; i < len; i += group)
        count += memcmp(after + i, expected + i, group) != 0;
    return count;
}

static const uint8_t zeros[ROOM];

/* The call by library and (c), each on the same room bytes. Answers the new cells of the library's, if it is a drawing. */
static uint32_t both(call_fn *call, const uint8_t *held, size_t room)
{
    memcpy(expected, held, room);
    memcpy(after, held, room);
    call(&library, expected);
    uint32_t marked = new_cells;
    call(&usual, after);
    return marked;
}

static void say_wrong(const char *what, size_t count, size_t of)
{
    printf("| %s | %zu | %zu |\n", what, count, of);
}

static void wrong_curves(void)
{
    size_t count = 0;
    for (int k = 0; k < CURVES; k++) {
        take_curve(BOXED_512, k);
        in.lent_len = 3 * (STEPS + 1);
        both(call_list_curve, zeros, in.lent_len);
        count += wrong(in.lent_len, 3);
    }
    say_wrong("curves, n = 512: cells of samples", count, CURVES * (STEPS + 1));
}

/* Half of the cells are marked before. */
static void wrong_curves_under(void)
{
    size_t count = 0, of = 0;
    in.choice = UNDER;
    for (int k = 0; k < CURVES; k++) {
        take_curve(BOXED_512, k);
        in.lent_len = CELLS;
        of += both(call_draw_curve, before, CELLS);
        count += wrong(CELLS, 1);
    }
    say_wrong("curves, n = 512, under: cells marked or left", count, of);
}

static void wrong_paths(void)
{
    size_t count = 0, of = 0;
    in.choice = OVER;
    for (int k = 0; k < CURVES; k++) {
        take_curve(BOXED_512, k);
        in.lent_len = CELLS;
        of += both(call_draw_path, zeros, CELLS);
        count += wrong(CELLS, 1);
    }
    say_wrong("paths, n = 512: cells marked or left", count, of);
}

static void wrong_strip_curves(void)
{
    size_t count = 0, of = 0;
    in.choice = OVER;
    for (int k = 0; k < CURVES; k++) {
        take_strip_curve(k);
        of += both(call_draw_strip_curve, zeros, STRIP_CELLS);
        count += wrong(STRIP_CELLS, 1);
    }
    say_wrong("strip, curves, n = 64: cells marked or left", count, of);
}

static void wrong_strip_patches(void)
{
    size_t count = 0, of = 0;
    in.choice = OVER;
    for (int k = 0; k < PATCHES; k++) {
        take_strip_patch(k);
        of += both(call_draw_strip_patch, zeros, STRIP_CELLS);
        count += wrong(STRIP_CELLS, 1);
    }
    say_wrong("strip, patches, 64 × 64: cells marked or left", count, of);
}

/* A count is wrong that is accepted and not the smallest. */
static void wrong_counts(int set, const char *what)
{
    size_t count = 0;
    for (int k = 0; k < polygons_of[set].count; k++) {
        take_polygon(set, k);
        count += call_choose_steps(&library, NULL) != call_choose_steps(&usual, NULL);
    }
    say_wrong(what, count, (size_t)polygons_of[set].count);
}

static void wrong_patches(int set, uint32_t choice, const char *what)
{
    size_t count = 0, of = 0;
    in.choice = choice;
    for (int k = 0; k < PATCHES; k++) {
        take_patch(set, k);
        in.lent_len = CELLS;
        of += both(call_draw_patch, choice == OVER ? zeros : before, CELLS);
        count += wrong(CELLS, 1);
    }
    say_wrong(what, count, of);
}

static void wrong_solids(uint32_t n, uint32_t choice, const char *what)
{
    size_t count = 0, of = 0;
    in.choice = choice;
    for (int k = 0; k < SOLIDS; k++) {
        take_solid(solids[k], n, k);
        of += both(call_draw_solid, choice == OVER ? zeros : before, CELLS);
        count += wrong(CELLS, 1);
    }
    say_wrong(what, count, of);
}

static void wrong_swatches(int set, uint32_t kind, const char *cells, const char *mixes)
{
    size_t count = 0, mixed = 0;
    for (size_t i = 0; i < swatches; i++) {
        take_swatches(set, i, kind);
        in.lent_len = 3;
        both(call_to_cell, zeros, 3);
        count += wrong(3, 3);
        in.lent_len = 12;
        both(call_half_way, zeros, 12);
        mixed += wrong(12, 12);
    }
    say_wrong(cells, count, swatches);
    say_wrong(mixes, mixed, swatches);
}

static void wrong_sheets(int set)
{
    size_t count = 0, of = 0;
    for (int k = 0; k < SHEETS; k++) {
        take_sheet(set, k);
        of += both(call_draw_sheet, zeros, SHEET_CELLS);
        count += wrong(SHEET_CELLS, 1);
    }
    say_wrong(set == 0 ? "sheets, sparse: cells marked or left" : "sheets, dense: cells marked or left", count, of);
}

static void wrong_totals(void)
{
    size_t count = 0;
    for (int k = 0; k < CUBES; k++) {
        take_cube(SIDE, full_cubes[k]);
        in.lent_len = TOTALS_TEXT + 1;
        both(call_totals, zeros, in.lent_len);
        count += wrong(TOTALS_TEXT, TOTALS_LINE);
    }
    say_wrong("totals, side 64: lines", count, CUBES * 256);
}

void count_wrong_cells(void)
{
    printf("| (c) gets wrong | wrong | of |\n|---|---|---|\n");
    wrong_curves();
    wrong_curves_under();
    wrong_paths();
    wrong_counts(SMALL, "chosen counts, side 8: not the smallest");
    wrong_counts(LARGE, "chosen counts, side 64: not the smallest");
    wrong_patches(0, OVER, "patches, 64 × 64: cells marked or left");
    wrong_patches(0, UNDER, "patches, 64 × 64, under: cells marked or left");
    wrong_patches(1, OVER, "patches, 256 × 256: cells marked or left");
    wrong_patches(1, UNDER, "patches, 256 × 256, under: cells marked or left");
    wrong_strip_curves();
    wrong_strip_patches();
    wrong_solids(32, OVER, "solids, 32 × 32 × 32: cells marked or left");
    wrong_solids(32, UNDER, "solids, 32 × 32 × 32, under: cells marked or left");
    wrong_solids(30, OVER, "solids, 30 × 30 × 30: cells marked or left");
    wrong_swatches(BRIGHT, 0, "swatches, bright: cells", "swatches, bright: half-way");
    wrong_swatches(DARK, 0, "swatches, dark: cells", "swatches, dark: half-way");
    wrong_swatches(HUES, 2, "hues: cells", "hues: half-way");
    wrong_sheets(0);
    wrong_sheets(1);
    wrong_totals();
}
