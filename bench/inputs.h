/* Seeded inputs, the same in every run. */
#ifndef INPUTS_H
#define INPUTS_H

#include <stddef.h>
#include <stdint.h>

enum {
    SIDE = 64,
    CELLS = SIDE * SIDE * SIDE,
    STRIP_SIDE = 17,
    STRIP_CELLS = STRIP_SIDE * STRIP_SIDE * STRIP_SIDE,
    STEPS = 512,
    STRIP_STEPS = 64,
    CURVES = 512,
    PATCHES = 32,
    SOLID_STEPS = 32,
    SOLIDS = 16,
    SMALL_SOLIDS = 64,
    SHEET_SIDE = 40,
    SHEET_CELLS = 64000,
    SHEET_LINES = 200,
    SHEET_BYTES = 6 + 71 * SHEET_LINES,
    SHEETS = 8,
    CUBES = 4,
    POLYGONS = 512
};

/* Sets of curves, side 64. */
enum {
    BOXED,    /* in boxes 8 to 64 wide */
    CLOSE,    /* the largest gap between consecutive points is 1 */
    CROSSING, /* points 1 and 2 at opposite ends of each axis, a gap of 63 */
    STEEP,    /* points 0 and 1 so */
    CURVE_SETS
};

extern uint8_t curves[CURVE_SETS][CURVES][12];

/* A set with a step count, and what a check of each of its curves answers. */
enum { BOXED_512, CLOSE_1, CLOSE_2, CLOSE_3, CLOSE_512, CROSSING_188, CROSSING_189, STEEP_64, STROKES };

extern const struct strokes {
    int set;
    uint32_t steps;
    int check;
} strokes[STROKES];

/* Points whose step count is chosen. */
enum {
    SMALL,   /* anywhere in a cube of side 8 */
    LARGE,   /* anywhere in one of side 64 */
    SLOWEST, /* a polygon whose search takes longest, by what `laws slowest` finds */
    POLYGON_SETS
};

extern uint8_t polygons[POLYGON_SETS][POLYGONS][12];

/* The side and the number of polygons of a set. */
extern const struct polygon_set {
    uint32_t side;
    int count;
} polygons_of[POLYGON_SETS];

/* Accepted patches, side 64: set 0 with 64 × 64 steps, set 1 with 256 × 256. */
extern uint8_t patches[2][PATCHES][48];

/* Solids, side 64: bent ones, accepted with 32 × 32 × 32 steps; such whose points lie in a box two wide, accepted with any
   counts; and such whose first step along t is too long on every axis, with 32 × 32 × 32 steps. */
extern uint8_t solids[SOLIDS][192], close_solids[SMALL_SOLIDS][192], steep_solids[SMALL_SOLIDS][192];

/* Curves and patches for the strip, side 17: curves in boxes 2 to 17 wide, and bent patches. With 64 steps all are accepted,
   and for each curve the step test quits. */
extern uint8_t strip_curves[CURVES][12], strip_patches[PATCHES][48];

/* Six numbers for each pair of swatches. Of colours and greys, channels: set 0 bright, uniform in 0 to 1; set 1 dark, nine
   of ten below 1/128. Of hues, hue, saturation and value: set 2, uniform. */
enum { BRIGHT, DARK, HUES };

extern float (*channels[3])[6];
extern size_t swatches;

/* Accepted sheets of 200 curve lines, side 40: set 0 short strokes, set 1 long ones. For each stroke the step test
   quits. */
extern uint8_t sheets[2][SHEETS][SHEET_BYTES];

/* Cubes of side 64 that hold any bytes. */
extern uint8_t full_cubes[CUBES][CELLS];

void make_inputs(size_t swatch_count);

/* The polygons alone, the same as make_inputs makes. */
void make_polygons(void);

/* What random calls are made of. */
void seed(uint64_t s);
uint64_t random_bits(void);
uint32_t random_below(uint32_t n);
float random_channel(int dark);
float random_hue(void);

/* Coordinates of so many points in a box of the given width, somewhere in a cube. */
void random_points(uint8_t *points, int count, uint32_t side, uint32_t width);

/* A bent solid. Neighbouring points differ by at most most on each axis, so that 3 × most steps are enough. */
void random_solid(uint8_t points[192], int side, int most);

void random_sheet(uint8_t text[SHEET_BYTES], int dense);

#endif
