/* Inputs from a generator with a fixed seed. */
#include "inputs.h"

#include <stdio.h>
#include <stdlib.h>
#include <string.h>

#include "box.h"
#include "gaps.h"

uint8_t curves[CURVE_SETS][CURVES][12], patches[2][PATCHES][48], sheets[2][SHEETS][SHEET_BYTES];
uint8_t solids[SOLIDS][192], close_solids[SMALL_SOLIDS][192], steep_solids[SMALL_SOLIDS][192];
uint8_t strip_curves[CURVES][12], strip_patches[PATCHES][48];
uint8_t full_cubes[CUBES][CELLS], polygons[POLYGON_SETS][POLYGONS][12];
float (*channels[3])[6];
size_t swatches;

/* Three times a gap of 1 is 3, of 63 189. */
const struct strokes strokes[STROKES] = {
    [BOXED_512] = {BOXED, STEPS, QUIT},
    [CLOSE_1] = {CLOSE, 1, WALKED},
    [CLOSE_2] = {CLOSE, 2, WALKED},
    [CLOSE_3] = {CLOSE, 3, QUIT},
    [CLOSE_512] = {CLOSE, STEPS, QUIT},
    [CROSSING_188] = {CROSSING, 188, WALKED},
    [CROSSING_189] = {CROSSING, 189, QUIT},
    [STEEP_64] = {STEEP, 64, -15},
};

const struct polygon_set polygons_of[POLYGON_SETS] = {
    [SMALL] = {8, POLYGONS},
    [LARGE] = {SIDE, POLYGONS},
    [SLOWEST] = {SIDE, 1},
};

static const uint8_t slowest[12] = {49, 40, 63, 63, 63, 0, 22, 22, 30, 10, 0, 26};

static uint64_t state;

void seed(uint64_t s)
{
    state = s;
}

/* Splitmix64. */
uint64_t random_bits(void)
{
    uint64_t z = state += 0x9e3779b97f4a7c15u;
    z = (z ^ z >> 30) * 0xbf58476d1ce4e5b9u;
    z = (z ^ z >> 27) * 0x94d049bb133111ebu;
    return z ^ z >> 31;
}

uint32_t random_below(uint32_t n)
{
    return (uint32_t)((random_bits() >> 32) * n >> 32);
}

void random_points(uint8_t *points, int count, uint32_t side, uint32_t width)
{
    for (int a = 0; a < 3; a++) {
        uint32_t low = random_below(side - width + 1);
        for (int i = 0; i < count; i++)
            points[3 * i + a] = (uint8_t)(low + random_below(width));
    }
}

static void close_points(uint8_t points[12])
{
    do
        random_points(points, 4, SIDE, 2);
    while (largest_gap(points) == 0);
}

/* Points k and k + 1 at opposite ends of each axis, the others anywhere. */
static void crossing_points(uint8_t points[12], int k)
{
    random_points(points, 4, SIDE, SIDE);
    for (int a = 0; a < 3; a++) {
        points[3 * k + a] = random_below(2) == 0 ? 0 : SIDE - 1;
        points[3 * k + 3 + a] = (uint8_t)(SIDE - 1 - points[3 * k + a]);
    }
}

static int between(int least, int most)
{
    return least + (int)random_below((uint32_t)(most - least + 1));
}

static uint8_t clamped(int side, int v)
{
    return (uint8_t)(v < 0 ? 0 : v >= side ? side - 1 : v);
}

/* A plane through the middle of the cube, with each point moved a little. Neighbouring points differ by at most most
   on each axis, so that 3 × most steps are enough. */
static void random_patch(uint8_t points[48], int side, int most)
{
    int bend = most / 4, slope = most - 2 * bend;
    for (int a = 0; a < 3; a++) {
        int t = between(-slope, slope), u = between(-slope, slope);
        int origin = side / 2 - 3 * (t + u) / 2;
        for (int i = 0; i < 4; i++)
            for (int j = 0; j < 4; j++)
                points[3 * (4 * i + j) + a] = clamped(side, origin + t * i + u * j + between(-bend, bend));
    }
}

/* Up or down, half as far as can be or more. */
static int incline(int most)
{
    int by = between((most + 1) / 2, most);
    return random_below(2) == 0 ? by : -by;
}

/* A block in the middle of the cube that is inclined along each parameter on each axis, with each point moved a little. */
void random_solid(uint8_t points[192], int side, int most)
{
    int bend = most / 4, slope = most - 2 * bend;
    for (int a = 0; a < 3; a++) {
        int t = incline(slope), u = incline(slope), v = incline(slope);
        int origin = side / 2 - 3 * (t + u + v) / 2;
        for (int p = 0; p < 64; p++) {
            int c = origin + t * (p / 16) + u * (p / 4 % 4) + v * (p % 4) + between(-bend, bend);
            points[3 * p + a] = clamped(side, c);
        }
    }
}

/* The points of i = 0 at one end of each axis, those of i = 1 at the other, the others anywhere. */
static void steep_solid(uint8_t points[192])
{
    random_points(points, 64, SIDE, SIDE);
    for (int a = 0; a < 3; a++) {
        uint8_t end = random_below(2) == 0 ? 0 : SIDE - 1;
        for (int p = 0; p < 16; p++) {
            points[3 * p + a] = end;
            points[3 * (16 + p) + a] = (uint8_t)(SIDE - 1 - end);
        }
    }
}

float random_channel(int dark)
{
    float v = (float)((double)(random_bits() >> 11) * 0x1p-53);
    return dark && random_below(10) != 0 ? v * 0x1p-7f : v;
}

/* The product may round to 6. */
float random_hue(void)
{
    float h = 6.0f * random_channel(0);
    return h < 6.0f ? h : 0.0f;
}

static char *put_field(char *text, uint32_t v)
{
    return text + sprintf(text, "%5u", (unsigned)v);
}

void random_sheet(uint8_t sheet[SHEET_BYTES], int dense)
{
    char text[SHEET_BYTES + 1], *at = put_field(text, SHEET_SIDE);
    *at++ = '\n';
    for (int k = 0; k < SHEET_LINES; k++) {
        uint32_t width = dense ? SHEET_SIDE : 3 + random_below(8);
        uint32_t enough = 3 * (width - 1), more = random_below(dense ? STEPS - enough + 1 : 10);
        uint8_t points[12];
        random_points(points, 4, SHEET_SIDE, width);
        at = put_field(put_field(at, 1 + random_below(255)), enough + more);
        for (int i = 0; i < 12; i++)
            at = put_field(at, points[i]);
        *at++ = '\n';
    }
    memcpy(sheet, text, SHEET_BYTES);
}

static void make_channels(int set)
{
    channels[set] = malloc(swatches * sizeof *channels[set]);
    if (!channels[set])
        exit(2);
    for (size_t i = 0; i < swatches; i++)
        for (int c = 0; c < 6; c++)
            channels[set][i][c] = set == HUES && c % 3 == 0 ? random_hue() : random_channel(set == DARK);
}

void make_polygons(void)
{
    seed(2025);
    for (int set = SMALL; set <= LARGE; set++)
        for (int k = 0; k < POLYGONS; k++)
            random_points(polygons[set][k], 4, polygons_of[set].side, polygons_of[set].side);
    memcpy(polygons[SLOWEST][0], slowest, sizeof slowest);
}

static void make_solids(void)
{
    seed(2026);
    for (int k = 0; k < SOLIDS; k++)
        random_solid(solids[k], SIDE, SOLID_STEPS / 3);
    for (int k = 0; k < SMALL_SOLIDS; k++) {
        random_points(close_solids[k], 64, SIDE, 2);
        steep_solid(steep_solids[k]);
    }
}

void make_inputs(size_t swatch_count)
{
    swatches = swatch_count;
    seed(2024);
    for (int k = 0; k < CURVES; k++)
        random_points(curves[BOXED][k], 4, SIDE, 8 + random_below(SIDE - 7));
    for (int k = 0; k < PATCHES; k++) {
        random_patch(patches[0][k], SIDE, 64 / 3);
        random_patch(patches[1][k], SIDE, 60);
    }
    for (int set = 0; set < 2; set++) {
        make_channels(set);
        for (int k = 0; k < SHEETS; k++)
            random_sheet(sheets[set][k], set);
    }
    make_channels(HUES);
    for (int k = 0; k < CUBES; k++)
        for (int i = 0; i < CELLS; i++)
            full_cubes[k][i] = (uint8_t)random_bits();
    for (int k = 0; k < CURVES; k++) {
        close_points(curves[CLOSE][k]);
        crossing_points(curves[CROSSING][k], 1);
        crossing_points(curves[STEEP][k], 0);
    }
    for (int k = 0; k < CURVES; k++)
        random_points(strip_curves[k], 4, STRIP_SIDE, 2 + random_below(STRIP_SIDE - 1));
    for (int k = 0; k < PATCHES; k++)
        random_patch(strip_patches[k], STRIP_SIDE, 8);
    make_solids();
    make_polygons();
}
