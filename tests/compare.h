/* Buffers lent to the library and to the reference alike, counts of what the cases met, and failures printed. */
#ifndef COMPARE_H
#define COMPARE_H

#include "reference.h"

#include <stddef.h>
#include <stdint.h>

/* A buffer twice, for the library and for the reference, each between guard bytes. */
struct lent {
    const char *name;
    uint8_t *got, *want;
    size_t len, room, shift; /* got and want begin so many bytes, from 0 to 15, past a multiple of 16 */
};

/* Lends random bytes, given ones, or those of a random cube, from an address of any alignment on. */
void lend(struct lent *lent, size_t len);
void lend_bytes(struct lent *lent, const uint8_t *bytes, size_t len);
void lend_cube(struct lent *lent, size_t len);

/* Lends one uint32_t, aligned as one, that holds a random value from 2^31 on, which is no count of cells, side or line, or
   a given one. */
void lend_number(struct lent *lent);
void lend_this_number(struct lent *lent, uint32_t number);

/* A lent number, of the library (got) or of the reference (want). */
uint32_t *number_at(uint8_t *bytes);

/* Whether both hold the same, guard bytes included. */
int same(const struct lent *lent);

/* The refusal numbers; 0 stands for an accepted call. */
enum { NUMBERS = 22 };

extern const int NUMBER[NUMBERS];
int index_of(int number);

struct counts {
    uint64_t answered[NUMBERS], over[NUMBERS][NUMBERS]; /* over: answered while another applied as well */
    uint64_t new_cells, left; /* counts of new cells compared: of accepted drawings, and left by refused ones */
    uint64_t quit, walked;    /* accepted checks of curves */
};

void count_order(struct counts *counts, const struct order *order);

/* What a whole run must meet. Entries of drawings over are followed by as many of the same drawings under. The entries of
   one gap are in the order of its place, 3 x its axis + its first point; those of a step that is too long are in the order
   of axes, and of each axis first, inside, last. Entries of a solid's parameters are in the order t, u, v. */
#define MET(X)                                                                                                         \
    X(CURVE_HALF_RISING, "curve samples on a half, above the sample before")                                           \
    X(CURVE_HALF_FALLING, "curve samples on a half, below the sample before")                                          \
    X(PATCH_HALF_RISING, "patch samples on a half, above the sample before")                                           \
    X(PATCH_HALF_FALLING, "patch samples on a half, below the sample before")                                          \
    X(CURVE_NEAR_HALF, "curve samples as near to a half as their scale allows")                                        \
    X(PATCH_NEAR_HALF, "patch samples as near to a half as their scale allows")                                        \
    X(CURVE_STEP_ONE, "accepted curves with a step of exactly one cell")                                               \
    X(PATCH_STEP_ONE, "accepted patches with a step of exactly one cell")                                              \
    X(NEIGHBOURS_T, "neighbours along t of accepted patches, their cells compared")                                    \
    X(NEIGHBOURS_U, "neighbours along u of accepted patches, their cells compared")                                    \
    X(NEIGHBOURS_HALVES, "of these neighbours, those exactly one cell apart and on halves")                            \
    X(STEP_BELOW_ONE, "accepted objects with a longest step from 0.98 to below 1")                                     \
    X(STEP_ABOVE_ONE, "15 for a longest step above 1 and below 1.02")                                                  \
    X(SIDE_1, "objects of side 1")                                                                                     \
    X(SIDE_2, "accepted objects of side 2")                                                                            \
    X(SIDE_64, "accepted objects of side 64")                                                                          \
    X(SIDE_65, "objects of side 65")                                                                                   \
    X(COUNT_0, "objects with a step count 0")                                                                          \
    X(COUNT_1, "accepted objects with a step count 1")                                                                 \
    X(CURVE_512, "accepted curves of 512 steps")                                                                       \
    X(CURVE_513, "curves of 513 steps")                                                                                \
    X(PATCH_256_T, "accepted patches of 256 steps along t")                                                            \
    X(PATCH_256_U, "accepted patches of 256 steps along u")                                                            \
    X(PATCH_256_256, "accepted patches of 256 x 256 steps")                                                            \
    X(PATCH_257, "patches of 257 steps")                                                                               \
    X(COORDINATE_LAST, "accepted objects with a coordinate side - 1")                                                  \
    X(COORDINATE_SIDE, "14 with a coordinate equal to the side")                                                       \
    X(LIST_EXACT, "accepted lists of exactly 3 (n + 1) bytes")                                                         \
    X(LIST_SHORT, "22 for a list one byte short")                                                                      \
    X(CHECK_QUIT, "checks of curves that quit")                                                                        \
    X(CHECK_WALKED, "checks of curves accepted after a walk")                                                          \
    X(QUIT_EXACT, "checks that quit with n = 3 x the largest gap")                                                     \
    X(QUIT_ABOVE, "checks that quit with n one above 3 x the largest gap")                                             \
    X(WALKED_BELOW, "checks accepted after a walk with n one below 3 x the largest gap")                               \
    X(LONG_BELOW, "15 for a curve with n one below 3 x the largest gap")                                               \
    X(QUIT_X_0, "checks that quit with n = 3 x the gap of points 0 and 1 on x, the largest alone")                     \
    X(QUIT_X_1, "checks that quit with n = 3 x the gap of points 1 and 2 on x, the largest alone")                     \
    X(QUIT_X_2, "checks that quit with n = 3 x the gap of points 2 and 3 on x, the largest alone")                     \
    X(QUIT_Y_0, "checks that quit with n = 3 x the gap of points 0 and 1 on y, the largest alone")                     \
    X(QUIT_Y_1, "checks that quit with n = 3 x the gap of points 1 and 2 on y, the largest alone")                     \
    X(QUIT_Y_2, "checks that quit with n = 3 x the gap of points 2 and 3 on y, the largest alone")                     \
    X(QUIT_Z_0, "checks that quit with n = 3 x the gap of points 0 and 1 on z, the largest alone")                     \
    X(QUIT_Z_1, "checks that quit with n = 3 x the gap of points 1 and 2 on z, the largest alone")                     \
    X(QUIT_Z_2, "checks that quit with n = 3 x the gap of points 2 and 3 on z, the largest alone")                     \
    X(WALKED_X_0, "checks after a walk with n one below 3 x that of points 0 and 1 on x, the largest alone")           \
    X(WALKED_X_1, "checks after a walk with n one below 3 x that of points 1 and 2 on x, the largest alone")           \
    X(WALKED_X_2, "checks after a walk with n one below 3 x that of points 2 and 3 on x, the largest alone")           \
    X(WALKED_Y_0, "checks after a walk with n one below 3 x that of points 0 and 1 on y, the largest alone")           \
    X(WALKED_Y_1, "checks after a walk with n one below 3 x that of points 1 and 2 on y, the largest alone")           \
    X(WALKED_Y_2, "checks after a walk with n one below 3 x that of points 2 and 3 on y, the largest alone")           \
    X(WALKED_Z_0, "checks after a walk with n one below 3 x that of points 0 and 1 on z, the largest alone")           \
    X(WALKED_Z_1, "checks after a walk with n one below 3 x that of points 1 and 2 on z, the largest alone")           \
    X(WALKED_Z_2, "checks after a walk with n one below 3 x that of points 2 and 3 on z, the largest alone")           \
    X(QUIT_EQUAL, "checks of equal points that quit with n = 1")                                                       \
    X(QUIT_189, "checks that quit with a gap of 63 and n = 189")                                                       \
    X(WALKED_188, "checks accepted after a walk with a gap of 63 and n = 188")                                         \
    X(QUIT_512, "checks that quit with n = 512")                                                                       \
    X(WALKED_ENDS, "checks after a walk where 3 x the gap of points 0 and 3, on every axis, is at most n")             \
    X(QUIT_LIST, "accepted lists of curves whose test quits")                                                          \
    X(WALKED_LIST, "accepted lists of curves whose test walks")                                                        \
    X(QUIT_DRAW, "curves drawn whose test quits")                                                                      \
    X(WALKED_DRAW, "curves drawn whose test walks")                                                                    \
    X(QUIT_51, "51 for a curve that would quit by its first 12 bytes")                                                 \
    X(QUIT_55, "55 for a curve that would quit")                                                                       \
    X(QUIT_11, "11 for a curve that would quit")                                                                       \
    X(QUIT_21, "21 for a curve that would quit")                                                                       \
    X(QUIT_12, "12 for a curve that would quit")                                                                       \
    X(QUIT_13, "13 for a curve that would quit")                                                                       \
    X(QUIT_13_0, "13 for equal points with n = 0")                                                                     \
    X(QUIT_22, "22 for a curve that would quit")                                                                       \
    X(QUIT_14, "14 for a curve that would quit")                                                                       \
    X(CHOSEN_EQUAL, "chosen counts of 1, all points equal")                                                            \
    X(CHOSEN_1, "chosen counts of 1, a gap of 2 or more")                                                              \
    X(CHOSEN_ENOUGH, "chosen counts of 3 x the largest gap, which is 2 or more")                                       \
    X(CHOSEN_BELOW, "chosen counts one below 3 x the largest gap, which is 2 or more")                                 \
    X(CHOSEN_HALF, "chosen counts above 1, at most a half of 3 x the largest gap")                                     \
    X(CHOSEN_ENDS, "chosen counts above 1 that are the distance of points 0 and 3 on an axis")                         \
    X(CHOSEN_STEP_ONE, "chosen counts with a step of exactly one cell")                                                \
    X(CHOSEN_188, "chosen counts of 188")                                                                              \
    X(CHOSEN_X_FIRST, "chosen counts where for one less the first step on x is too long, and no other")                \
    X(CHOSEN_X_INSIDE, "chosen counts where for one less steps on x are too long, not the first or last")              \
    X(CHOSEN_X_LAST, "chosen counts where for one less the last step on x is too long, and no other")                  \
    X(CHOSEN_Y_FIRST, "chosen counts where for one less the first step on y is too long, and no other")                \
    X(CHOSEN_Y_INSIDE, "chosen counts where for one less steps on y are too long, not the first or last")              \
    X(CHOSEN_Y_LAST, "chosen counts where for one less the last step on y is too long, and no other")                  \
    X(CHOSEN_Z_FIRST, "chosen counts where for one less the first step on z is too long, and no other")                \
    X(CHOSEN_Z_INSIDE, "chosen counts where for one less steps on z are too long, not the first or last")              \
    X(CHOSEN_Z_LAST, "chosen counts where for one less the last step on z is too long, and no other")                  \
    X(CHOSEN_ABOVE_AXES, "chosen counts above that of each axis alone")                                                \
    X(CHOSEN_1_REFUSED, "chosen counts of 1 with a larger count refused")                                              \
    X(CHOSEN_REFUSED, "chosen counts above 1 with a larger count refused")                                             \
    X(CHECKED_BELOW, "15 from a check with a count below the chosen one")                                              \
    X(CHECKED_CHOSEN, "checks accepted with the chosen count")                                                         \
    X(CHOSEN_TURNED, "chosen counts compared with those on other axes")                                                \
    X(CHOSEN_OR_PASSED, "drawings with the chosen count compared with those with that count passed")                   \
    X(CHOSEN_SIDE_1, "calls that choose a count, of side 1")                                                           \
    X(CHOSEN_SIDE_2, "accepted calls that choose a count, of side 2")                                                  \
    X(CHOSEN_SIDE_64, "accepted calls that choose a count, of side 64")                                                \
    X(CHOSEN_SIDE_65, "calls that choose a count, of side 65")                                                         \
    X(CHOSEN_COORDINATE_LAST, "accepted calls that choose a count, with a coordinate side - 1")                        \
    X(CHOSEN_COORDINATE_SIDE, "14 for a call that chooses a count, with a coordinate equal to the side")               \
    X(CHOSEN_GRID_SHORT, "21 for a drawing with a chosen count, a grid one byte short")                                \
    X(CHOSEN_GRID_LONG, "21 for a drawing with a chosen count, a grid one byte long")                                  \
    X(CHOSEN_CHOICE_2, "55 for a drawing with a chosen count, the choice 2")                                           \
    X(CHOSEN_CHOICE_256, "55 for a drawing with a chosen count, the choice 256")                                       \
    X(PATH_LIST_EXACT, "accepted lists of a path, of exactly 3 x its cells, below 3 (3 n + 1)")                        \
    X(PATH_LIST_SHORT, "22 for a path, a list one byte short")                                                         \
    X(PATH_SHORT_CELL, "22 for a path, a list three bytes short")                                                      \
    X(PATH_LIST_SAMPLES, "accepted lists of a path, of 3 (n + 1) bytes and more than its cells take")                  \
    X(PATH_SHORT_SAMPLES, "22 for a path, a list of 3 (n + 1) bytes or more")                                          \
    X(PATH_LIST_BELOW_SAMPLES, "accepted lists of a path, of fewer than 3 (n + 1) bytes")                              \
    X(PATH_LIST_BELOW_MOST, "accepted lists of a path, of one byte fewer than 3 (3 n + 1)")                            \
    X(PATH_LIST_MOST, "accepted lists of a path, of exactly 3 (3 n + 1) bytes, not all of them written")               \
    X(PATH_LIST_FULL, "accepted lists of a path of 3 n + 1 cells, n above 1, of exactly that many")                    \
    X(PATH_SHORT_FULL, "22 for a path of 3 n + 1 cells, n above 1, a list one byte short")                             \
    X(PATH_ONE_CELL, "paths of one cell")                                                                              \
    X(PATH_LONG, "paths of more than 200 cells")                                                                       \
    X(PATH_COMES_BACK, "paths that come to a cell again")                                                              \
    X(PATH_HALF_RISING, "samples of paths on a half, above the sample before")                                         \
    X(PATH_HALF_FALLING, "samples of paths on a half, below the sample before")                                        \
    X(PATH_NEAR_HALF, "samples of paths as near to a half as their scale allows")                                      \
    X(PATH_STEP_ONE, "accepted paths with a step of exactly one cell")                                                 \
    X(PATH_SIDE_1, "11 for a path of side 1")                                                                          \
    X(PATH_SIDE_2, "accepted paths of side 2")                                                                         \
    X(PATH_SIDE_64, "accepted paths of side 64")                                                                       \
    X(PATH_SIDE_65, "11 for a path of side 65")                                                                        \
    X(PATH_COUNT_0, "13 for a path of 0 steps")                                                                        \
    X(PATH_COUNT_1, "accepted paths of 1 step")                                                                        \
    X(PATH_512, "accepted paths of 512 steps")                                                                         \
    X(PATH_513, "13 for a path of 513 steps")                                                                          \
    X(PATH_QUIT, "accepted paths whose test quits")                                                                    \
    X(PATH_WALKED, "accepted paths whose test walks")                                                                  \
    X(PATH_COORDINATE_LAST, "accepted paths with a coordinate side - 1")                                               \
    X(PATH_COORDINATE_SIDE, "14 for a path with a coordinate equal to the side")                                       \
    X(PATH_LONG_STEP, "15 for a path, a list of 3 (3 n + 1) bytes or more")                                            \
    X(PATH_GRID_SHORT, "21 for a path, a grid one byte short")                                                         \
    X(PATH_GRID_LONG, "21 for a path, a grid one byte long")                                                           \
    X(PATH_CHOICE_2, "55 for a path, the choice 2")                                                                    \
    X(PATH_CHOICE_256, "55 for a path, the choice 256")                                                                \
    X(PATH_BY_SAMPLES, "paths compared with those made from the library's lists of samples")                           \
    X(PATH_BETWEEN_NEW, "paths drawn with new cells that no sample has")                                               \
    X(PATH_BETWEEN_KEPT, "paths drawn under marked cells that no sample has")                                          \
    X(PATH_FLIP_OTHER, "paths of a curve and of its flip that do not have the same cells")                             \
    X(STRIP_AS_MAIN_CURVE, "curves accepted on the strip, compared with those of the main path")                       \
    X(STRIP_AS_MAIN_PATCH, "patches accepted on the strip, compared with those of the main path")                      \
    X(STRIP_REFUSED_AS_MAIN, "calls refused on the strip and on the main path with the same number")                   \
    X(STRIP_23_DRAWN, "23 on the strip for what the main path draws")                                                  \
    X(STRIP_24_DRAWN_CURVE, "24 on the strip for a curve that the main path draws")                                    \
    X(STRIP_24_DRAWN_PATCH, "24 on the strip for a patch that the main path draws")                                    \
    X(STRIP_23_REFUSED, "23 on the strip for what the main path refuses")                                              \
    X(STRIP_24_REFUSED, "24 on the strip for what the main path refuses")                                              \
    X(STRIP_SIDE_1, "11 on the strip for side 1")                                                                      \
    X(STRIP_SIDE_2, "accepted on the strip, side 2")                                                                   \
    X(STRIP_SIDE_17, "accepted on the strip, side 17")                                                                 \
    X(STRIP_SIDE_18, "23 for side 18")                                                                                 \
    X(STRIP_SIDE_64, "23 for side 64")                                                                                 \
    X(STRIP_SIDE_65, "11 on the strip for side 65")                                                                    \
    X(STRIP_COUNT_0, "13 on the strip for a step count 0")                                                             \
    X(STRIP_COUNT_1, "accepted on the strip with a step count 1")                                                      \
    X(STRIP_CURVE_64, "accepted curves of 64 steps on the strip")                                                      \
    X(STRIP_CURVE_65, "24 for a curve of 65 steps")                                                                    \
    X(STRIP_CURVE_512, "24 for a curve of 512 steps")                                                                  \
    X(STRIP_CURVE_513, "13 on the strip for a curve of 513 steps")                                                     \
    X(STRIP_PATCH_64_T, "accepted patches of 64 steps along t on the strip")                                           \
    X(STRIP_PATCH_64_U, "accepted patches of 64 steps along u on the strip")                                           \
    X(STRIP_PATCH_64_64, "accepted patches of 64 x 64 steps on the strip")                                             \
    X(STRIP_PATCH_65_T, "24 for a patch of 65 steps along t and at most 64 along u")                                   \
    X(STRIP_PATCH_65_U, "24 for a patch of 65 steps along u and at most 64 along t")                                   \
    X(STRIP_PATCH_256, "24 for a patch of 256 steps along t or along u")                                               \
    X(STRIP_PATCH_257, "13 on the strip for a patch of 257 steps along t or along u")                                  \
    X(STRIP_13_T, "13 on the strip for a patch of 0 or more than 256 steps along t and 65 to 256 along u")             \
    X(STRIP_13_U, "13 on the strip for a patch of 0 or more than 256 steps along u and 65 to 256 along t")             \
    X(STRIP_STEP_ONE, "accepted on the strip with a step of exactly one cell")                                         \
    X(STRIP_STEP_LONG, "15 on the strip")                                                                              \
    X(STRIP_COORDINATE_LAST, "accepted on the strip with a coordinate side - 1")                                       \
    X(STRIP_COORDINATE_SIDE, "14 on the strip with a coordinate equal to the side")                                    \
    X(STRIP_GRID_SHORT, "21 on the strip for a grid one byte short")                                                   \
    X(STRIP_GRID_LONG, "21 on the strip for a grid one byte long")                                                     \
    X(STRIP_GRID_EMPTY, "21 on the strip for an empty grid")                                                           \
    X(STRIP_CHOICE_2, "55 on the strip for the choice 2")                                                              \
    X(STRIP_CHOICE_256, "55 on the strip for the choice 256")                                                          \
    X(SOLID_HALF_RISING, "solid samples on a half, above the sample before")                                           \
    X(SOLID_HALF_FALLING, "solid samples on a half, below the sample before")                                          \
    X(SOLID_NEAR_HALF, "solid samples as near to a half as their scale allows")                                        \
    X(SOLID_NEIGHBOURS_T, "neighbours along t of accepted solids, their cells compared")                               \
    X(SOLID_NEIGHBOURS_U, "neighbours along u of accepted solids, their cells compared")                               \
    X(SOLID_NEIGHBOURS_V, "neighbours along v of accepted solids, their cells compared")                               \
    X(SOLID_NEIGHBOURS_HALVES, "of these neighbours, those exactly one cell apart and on halves")                      \
    X(SOLID_STEP_ONE_T, "accepted solids with a step of exactly one cell along t, and no other")                       \
    X(SOLID_STEP_ONE_U, "accepted solids with a step of exactly one cell along u, and no other")                       \
    X(SOLID_STEP_ONE_V, "accepted solids with a step of exactly one cell along v, and no other")                       \
    X(SOLID_STEP_BELOW_ONE, "accepted solids with a longest step from 0.98 to below 1")                                \
    X(SOLID_STEP_ABOVE_ONE, "15 for a solid with a longest step above 1 and below 1.02")                               \
    X(SOLID_LONG_T, "15 for a solid with long steps along t alone")                                                    \
    X(SOLID_LONG_T_INSIDE, "the same, all of them inside: neither first nor last along the two others")                \
    X(SOLID_LONG_T_FIRST, "the same, each the first of three or more along t")                                         \
    X(SOLID_LONG_T_LAST, "the same, each the last of three or more along t")                                           \
    X(SOLID_LONG_U, "15 for a solid with long steps along u alone")                                                    \
    X(SOLID_LONG_U_INSIDE, "the same, all of them inside: neither first nor last along the two others")                \
    X(SOLID_LONG_U_FIRST, "the same, each the first of three or more along u")                                         \
    X(SOLID_LONG_U_LAST, "the same, each the last of three or more along u")                                           \
    X(SOLID_LONG_V, "15 for a solid with long steps along v alone")                                                    \
    X(SOLID_LONG_V_INSIDE, "the same, all of them inside: neither first nor last along the two others")                \
    X(SOLID_LONG_V_FIRST, "the same, each the first of three or more along v")                                         \
    X(SOLID_LONG_V_LAST, "the same, each the last of three or more along v")                                           \
    X(SOLID_LONG_X, "15 for a solid with long steps on x alone")                                                       \
    X(SOLID_LONG_Y, "15 for a solid with long steps on y alone")                                                       \
    X(SOLID_LONG_Z, "15 for a solid with long steps on z alone")                                                       \
    X(SOLID_SIDE_1, "11 for a solid of side 1")                                                                        \
    X(SOLID_SIDE_2, "accepted solids of side 2")                                                                       \
    X(SOLID_SIDE_64, "accepted solids of side 64")                                                                     \
    X(SOLID_SIDE_65, "11 for a solid of side 65")                                                                      \
    X(SOLID_COUNT_0_T, "13 for a solid of 0 steps along t alone, the others good")                                     \
    X(SOLID_COUNT_0_U, "13 for a solid of 0 steps along u alone, the others good")                                     \
    X(SOLID_COUNT_0_V, "13 for a solid of 0 steps along v alone, the others good")                                     \
    X(SOLID_33_T, "13 for a solid of 33 steps along t alone, the others good")                                         \
    X(SOLID_33_U, "13 for a solid of 33 steps along u alone, the others good")                                         \
    X(SOLID_33_V, "13 for a solid of 33 steps along v alone, the others good")                                         \
    X(SOLID_32_T, "accepted solids of 32 steps along t")                                                               \
    X(SOLID_32_U, "accepted solids of 32 steps along u")                                                               \
    X(SOLID_32_V, "accepted solids of 32 steps along v")                                                               \
    X(SOLID_32, "accepted solids of 32 x 32 x 32 steps")                                                               \
    X(SOLID_1, "accepted solids of 1 x 1 x 1 steps")                                                                   \
    X(SOLID_SAME, "accepted solids with three counts alike, above 1")                                                  \
    X(SOLID_DIFFERENT, "accepted solids with three different counts")                                                  \
    X(SOLID_COORDINATE_LAST, "accepted solids with a coordinate side - 1")                                             \
    X(SOLID_COORDINATE_SIDE, "14 for a solid with a coordinate equal to the side")                                     \
    X(SOLID_LAST_POINT, "14 for a solid with its last coordinate alone not below the side")                            \
    X(SOLID_FILLS, "solids drawn that leave no cell unmarked, some new")                                               \
    X(SOLID_ALL_NEW, "solids drawn with a new cell for every sample")                                                  \
    X(SOLID_WIDE, "accepted solids that come to 20 or more coordinates on each axis")                                  \
    X(SOLID_GRID_SHORT, "21 for a solid, a grid one byte short")                                                       \
    X(SOLID_GRID_LONG, "21 for a solid, a grid one byte long")                                                         \
    X(SOLID_GRID_EMPTY, "21 for a solid, an empty grid")                                                               \
    X(SOLID_CHOICE_2, "55 for a solid, the choice 2")                                                                  \
    X(SOLID_CHOICE_256, "55 for a solid, the choice 256")                                                              \
    X(SOLID_191, "51 for a solid with points of 191 bytes")                                                            \
    X(SOLID_193, "51 for a solid with points of 193 bytes")                                                            \
    X(SOLID_48, "51 for a solid with the points of a patch")                                                           \
    X(SOLID_AS_CURVE_T, "solids that are a curve along t, beside the curve drawn")                                     \
    X(SOLID_AS_CURVE_U, "solids that are a curve along u, beside the curve drawn")                                     \
    X(SOLID_AS_CURVE_V, "solids that are a curve along v, beside the curve drawn")                                     \
    X(SOLID_AS_PATCH_TU, "solids that are a patch along t and u, beside the patch drawn")                              \
    X(SOLID_AS_PATCH_UV, "the same along u and v")                                                                     \
    X(SOLID_AS_PATCH_VT, "the same along v and t")                                                                     \
    X(SOLID_AS_PATCH_UT, "the same along u and t")                                                                     \
    X(SOLID_AS_PATCH_VU, "the same along v and u")                                                                     \
    X(SOLID_AS_PATCH_TV, "the same along t and v")                                                                     \
    X(SOLID_TURNED, "solids with their parameters in another order, three different counts, beside them as they are")  \
    X(SOLID_13_DRAWN, "13 for a solid of more than 32 steps that is a curve or a patch that is drawn")                 \
    X(SOLID_15_BOTH, "15 for a solid that is a curve or a patch, and for that as well")                                \
    X(CURVE_OVER_UNMARKED, "curves drawn over, into an unmarked grid")                                                 \
    X(CURVE_OVER_HALF, "curves drawn over, 2 to 3 fifths of the grid marked, some cells new and some not")             \
    X(CURVE_OVER_MARKED, "curves drawn over, into a grid without an unmarked cell")                                    \
    X(CURVE_UNDER_UNMARKED, "curves drawn under, into an unmarked grid")                                               \
    X(CURVE_UNDER_HALF, "curves drawn under, 2 to 3 fifths of the grid marked, some cells new and some not")           \
    X(CURVE_UNDER_MARKED, "curves drawn under, into a grid without an unmarked cell")                                  \
    X(PATCH_OVER_UNMARKED, "patches drawn over, into an unmarked grid")                                                \
    X(PATCH_OVER_HALF, "patches drawn over, 2 to 3 fifths of the grid marked, some cells new and some not")            \
    X(PATCH_OVER_MARKED, "patches drawn over, into a grid without an unmarked cell")                                   \
    X(PATCH_UNDER_UNMARKED, "patches drawn under, into an unmarked grid")                                              \
    X(PATCH_UNDER_HALF, "patches drawn under, 2 to 3 fifths of the grid marked, some cells new and some not")          \
    X(PATCH_UNDER_MARKED, "patches drawn under, into a grid without an unmarked cell")                                 \
    X(CHOSEN_OVER_UNMARKED, "curves drawn over with a chosen count, into an unmarked grid")                            \
    X(CHOSEN_OVER_HALF, "the same, 2 to 3 fifths of the grid marked, some cells new and some not")                     \
    X(CHOSEN_OVER_MARKED, "the same, into a grid without an unmarked cell")                                            \
    X(CHOSEN_UNDER_UNMARKED, "curves drawn under with a chosen count, into an unmarked grid")                          \
    X(CHOSEN_UNDER_HALF, "the same, 2 to 3 fifths of the grid marked, some cells new and some not")                    \
    X(CHOSEN_UNDER_MARKED, "the same, into a grid without an unmarked cell")                                           \
    X(PATH_OVER_UNMARKED, "paths drawn over, into an unmarked grid")                                                   \
    X(PATH_OVER_HALF, "the same, 2 to 3 fifths of the grid marked, some cells new and some not")                       \
    X(PATH_OVER_MARKED, "the same, into a grid without an unmarked cell")                                              \
    X(PATH_UNDER_UNMARKED, "paths drawn under, into an unmarked grid")                                                 \
    X(PATH_UNDER_HALF, "the same, 2 to 3 fifths of the grid marked, some cells new and some not")                      \
    X(PATH_UNDER_MARKED, "the same, into a grid without an unmarked cell")                                             \
    X(STRIP_CURVE_OVER_UNMARKED, "curves drawn over on the strip, into an unmarked grid")                              \
    X(STRIP_CURVE_OVER_HALF, "the same, 2 to 3 fifths of the grid marked, some cells new and some not")                \
    X(STRIP_CURVE_OVER_MARKED, "the same, into a grid without an unmarked cell")                                       \
    X(STRIP_CURVE_UNDER_UNMARKED, "curves drawn under on the strip, into an unmarked grid")                            \
    X(STRIP_CURVE_UNDER_HALF, "the same, 2 to 3 fifths of the grid marked, some cells new and some not")               \
    X(STRIP_CURVE_UNDER_MARKED, "the same, into a grid without an unmarked cell")                                      \
    X(STRIP_PATCH_OVER_UNMARKED, "patches drawn over on the strip, into an unmarked grid")                             \
    X(STRIP_PATCH_OVER_HALF, "the same, 2 to 3 fifths of the grid marked, some cells new and some not")                \
    X(STRIP_PATCH_OVER_MARKED, "the same, into a grid without an unmarked cell")                                       \
    X(STRIP_PATCH_UNDER_UNMARKED, "patches drawn under on the strip, into an unmarked grid")                           \
    X(STRIP_PATCH_UNDER_HALF, "the same, 2 to 3 fifths of the grid marked, some cells new and some not")               \
    X(STRIP_PATCH_UNDER_MARKED, "the same, into a grid without an unmarked cell")                                      \
    X(SOLID_OVER_UNMARKED, "solids drawn over, into an unmarked grid")                                                 \
    X(SOLID_OVER_HALF, "the same, 2 to 3 fifths of the grid marked, some cells new and some not")                      \
    X(SOLID_OVER_MARKED, "the same, into a grid without an unmarked cell")                                             \
    X(SOLID_UNDER_UNMARKED, "solids drawn under, into an unmarked grid")                                               \
    X(SOLID_UNDER_HALF, "the same, 2 to 3 fifths of the grid marked, some cells new and some not")                     \
    X(SOLID_UNDER_MARKED, "the same, into a grid without an unmarked cell")                                            \
    X(ALL_SAMPLES_NEW, "drawings with a new cell for every sample")                                                    \
    X(GRID_FILLED, "drawings that leave no cell unmarked, some new")                                                   \
    X(ONE_CELL_NEW, "curves with all samples in one cell, a new one")                                                  \
    X(ONE_CELL_MARKED, "curves with all samples in one cell, a marked one")                                            \
    X(OVER_COMES_BACK, "curves drawn over that come back to a new cell")                                               \
    X(UNDER_COMES_BACK, "curves drawn under that come back to a new cell")                                             \
    X(CURVE_OVER_ITSELF, "curves drawn over themselves with their mark: no new cell")                                  \
    X(CURVE_OVER_ITSELF_OTHER, "curves drawn over themselves with another mark: no new cell")                          \
    X(PATCH_OVER_ITSELF, "patches drawn over themselves: no new cell")                                                 \
    X(SOLID_OVER_ITSELF, "solids drawn over themselves: no new cell")                                                  \
    X(CURVE_UNDER_ITSELF, "curves drawn under themselves with their mark: nothing written")                            \
    X(CURVE_UNDER_ITSELF_OTHER, "curves drawn under themselves with another mark: nothing written")                    \
    X(PATCH_UNDER_ITSELF, "patches drawn under themselves: nothing written")                                           \
    X(SOLID_UNDER_ITSELF, "solids drawn under themselves: nothing written")                                            \
    X(CURVE_OVER_CURVE, "curves over part of another, with new cells and a half or less of their cells on it")         \
    X(CURVE_OVER_PATCH, "curves over part of a patch, with new cells")                                                 \
    X(PATCH_OVER_CURVE, "patches over part of a curve, with new cells")                                                \
    X(SOLID_OVER_OTHER, "solids over part of a curve or a patch, with new cells")                                      \
    X(OTHER_OVER_SOLID, "curves and patches over part of a solid, with new cells")                                     \
    X(CURVE_UNDER_CURVE, "curves under part of another, with new cells and a half or less of their cells on it")       \
    X(CURVE_UNDER_PATCH, "curves under part of a patch, with new cells")                                               \
    X(PATCH_UNDER_CURVE, "patches under part of a curve, with new cells")                                              \
    X(SOLID_UNDER_OTHER, "solids under part of a curve or a patch, with new cells")                                    \
    X(OTHER_UNDER_SOLID, "curves and patches under part of a solid, with new cells")                                   \
    X(OVER_ON_UNDER, "drawings over part of one that was drawn under, with new cells")                                 \
    X(UNDER_NOTHING, "drawings under marked cells alone, in a grid with unmarked ones: nothing written")               \
    X(UNDER_OWN_MARK, "drawings under cells of which some held their own mark")                                        \
    X(UNDER_GAP, "curves drawn under that fill unmarked cells between marked ones")                                    \
    X(CHOICE_2, "55 for the choice 2")                                                                                 \
    X(CHOICE_255, "55 for the choice 255")                                                                             \
    X(CHOICE_256, "55 for the choice 256")                                                                             \
    X(CHOICE_HIGH, "55 for the choice 2^31")                                                                           \
    X(CHOICE_LAST, "55 for the choice 2^32 - 1")                                                                       \
    X(GRID_SHORT, "21 for a grid one byte short")                                                                      \
    X(GRID_LONG, "21 for a grid one byte long")                                                                        \
    X(CURVE_FLIPPED_TWICE, "curves flipped twice: the curve")                                                          \
    X(PATCH_FLIPPED_TWICE, "patches flipped twice, n and m not the same: the patch")                                   \
    X(FLIP_COUNT_0, "patches flipped with a step count 0")                                                             \
    X(FLIP_COUNT_LAST, "patches flipped with a step count 2^32 - 1")                                                   \
    X(FLIP_SHORT, "52 for a flip one byte short of its record")                                                        \
    X(FLIP_LONG, "52 for a flip one byte longer than its record")                                                      \
    X(FLIP_QUIT, "checks that quit of a curve and of its flip, another curve")                                         \
    X(FLIP_WALKED, "checks that walk of a curve and of its flip, another curve")                                       \
    X(FLIP_LIST_HALF, "lists of a curve and of its flip, another curve, with a sample on a half")                      \
    X(FLIP_LIST_REST, "lists of a curve and of its flip, another curve, with bytes that are left")                     \
    X(FLIP_CURVE_OVER, "a curve and its flip, another curve, drawn over, some cells new and some not")                 \
    X(FLIP_CHOSEN_OVER, "the same with a chosen count")                                                                \
    X(FLIP_STRIP_CURVE_OVER, "the same on the strip")                                                                  \
    X(FLIP_CURVE_UNDER, "a curve and its flip, another curve, drawn under, some cells new and some not")               \
    X(FLIP_CHOSEN_UNDER, "the same with a chosen count")                                                               \
    X(FLIP_STRIP_CURVE_UNDER, "the same on the strip")                                                                 \
    X(FLIP_CHOSEN, "chosen counts above 1 of a curve and of its flip, another curve")                                  \
    X(FLIP_PATCH_CHECK, "accepted checks of a patch and of its flip, n and m not the same")                            \
    X(FLIP_PATCH_HALF, "a patch and its flip drawn, n and m not the same, with a sample on a half")                    \
    X(FLIP_PATCH_OVER, "a patch and its flip drawn over, n and m not the same, some cells new and some not")           \
    X(FLIP_STRIP_PATCH_OVER, "the same on the strip")                                                                  \
    X(FLIP_PATCH_UNDER, "a patch and its flip drawn under, n and m not the same, some cells new and some not")         \
    X(FLIP_STRIP_PATCH_UNDER, "the same on the strip")                                                                 \
    X(FLIP_STRIP_STEPS, "24 for a patch, n and m not the same, and for its flip")                                      \
    X(FLIP_LONG_STEP, "15 for a patch, n and m not the same, and for its flip")                                        \
    X(CHANNEL_HALF, "accepted swatches with a channel on a half")                                                      \
    X(CHANNEL_MINUS_ZERO, "accepted swatches with a minus zero")                                                       \
    X(CHANNEL_SUBNORMAL, "accepted swatches with a subnormal channel")                                                 \
    X(CHANNEL_DARK, "accepted swatches with a channel below 1/128")                                                    \
    X(CHANNEL_ABOVE_1, "32 for a channel one above 1")                                                                 \
    X(SUM_ROUNDED, "half-way swatches with a rounded sum")                                                             \
    X(HUE_0, "accepted hues with the whole part 0")                                                                    \
    X(HUE_1, "accepted hues with the whole part 1")                                                                    \
    X(HUE_2, "accepted hues with the whole part 2")                                                                    \
    X(HUE_3, "accepted hues with the whole part 3")                                                                    \
    X(HUE_4, "accepted hues with the whole part 4")                                                                    \
    X(HUE_5, "accepted hues with the whole part 5")                                                                    \
    X(HUE_WHOLE, "accepted hues with f = 0")                                                                           \
    X(HUE_MINUS_ZERO, "accepted hues of minus zero")                                                                   \
    X(HUE_SUBNORMAL, "accepted hues that are subnormal")                                                               \
    X(HUE_BELOW_WHOLE, "accepted hues one below a whole number from 1 to 5")                                           \
    X(HUE_BELOW_6, "accepted hues one below 6")                                                                        \
    X(HUE_6, "33 for a hue of 6")                                                                                      \
    X(HUE_BELOW_0, "33 for the hue nearest below 0")                                                                   \
    X(SATURATION_0, "accepted hues with the saturation 0")                                                             \
    X(SATURATION_MINUS_ZERO, "accepted hues with the saturation minus zero")                                           \
    X(SATURATION_1, "accepted hues with the saturation 1")                                                             \
    X(VALUE_0, "accepted hues with the value 0")                                                                       \
    X(VALUE_MINUS_ZERO, "accepted hues with the value minus zero")                                                     \
    X(VALUE_1, "accepted hues with the value 1")                                                                       \
    X(HUE_HALF, "accepted hues with a channel on a half")                                                              \
    X(HUE_TO_SUBNORMAL, "accepted hues with a normal value and a subnormal channel")                                   \
    X(HUE_TO_ZERO, "accepted hues with a product rounded to 0")                                                        \
    X(COLOUR_COLOUR, "half-way of two colours")                                                                        \
    X(COLOUR_GREY, "half-way of a colour and a grey")                                                                  \
    X(COLOUR_HUE, "half-way of a colour and a hue")                                                                    \
    X(GREY_COLOUR, "half-way of a grey and a colour")                                                                  \
    X(GREY_GREY, "half-way of two greys")                                                                              \
    X(GREY_HUE, "half-way of a grey and a hue")                                                                        \
    X(HUE_COLOUR, "half-way of a hue and a colour")                                                                    \
    X(HUE_GREY, "half-way of a hue and a grey")                                                                        \
    X(HUE_HUE, "half-way of two hues")                                                                                 \
    X(MIX_MINUS_ZERO, "half-way channels of minus zero, one swatch a hue")                                             \
    X(SHEET_200, "accepted sheets of 200 curve lines")                                                                 \
    X(SHEET_SIDE_40, "accepted sheets of side 40")                                                                     \
    X(SHEET_NO_CURVE, "accepted sheets without a curve line: no new cell")                                             \
    X(SHEET_APART, "accepted sheets of two curve lines or more without a cell of two")                                 \
    X(SHEET_OVERLAPS, "accepted sheets with cells of two curve lines or more")                                         \
    X(SHEET_COVERED, "accepted sheets with a curve line that has no new cell")                                         \
    X(SHEET_QUITS, "accepted sheets with lines that quit and lines that walk")                                         \
    X(PART_HEADING, "parts that begin with the heading")                                                               \
    X(PART_PAST, "parts that begin past the cube")                                                                     \
    X(TOTALS_SIDE_2, "totals of side 2")                                                                               \
    X(TOTALS_SIDE_64, "totals of side 64")                                                                             \
    X(TOTALS_NO_MARK, "totals of unmarked cells alone")                                                                \
    X(TOTALS_ONE_MARK, "totals of side 64 with one mark in every cell")                                                \
    X(TOTALS_FULL, "totals of several marks and no unmarked cell")                                                     \
    X(TOTALS_EVERY_MARK, "totals of all 256 marks, each of some cell")                                                 \
    X(TOTALS_EXACT, "totals in a text of exactly 13056 bytes")                                                         \
    X(TOTALS_SHORT, "22 for a text one byte short of 13056")                                                           \
    X(TOTALS_SHEET, "totals of a sheet of two curve lines or more")                                                    \
    X(LINE_99999, "refusal lines with 99999")                                                                          \
    X(LINE_100000, "54 for 100000")                                                                                    \
    X(NULL_POINTS, "NULL for points of length 0")                                                                      \
    X(NULL_GRID, "NULL for a grid of length 0")                                                                        \
    X(NULL_LIST, "NULL for a list of length 0")                                                                        \
    X(NULL_FLIP, "NULL for a flip of length 0")                                                                        \
    X(NULL_CELL, "NULL for a cell of length 0")                                                                        \
    X(NULL_CHANNELS, "NULL for channels of length 0")                                                                  \
    X(NULL_INPUT, "NULL for an input of length 0")                                                                     \
    X(NULL_BUFFER, "NULL for a sheet's buffer of length 0")                                                            \
    X(NULL_CUBE, "NULL for a cube of length 0")                                                                        \
    X(NULL_TEXT, "NULL for a text of length 0")                                                                        \
    X(LIST_OF_THREE, "lists with three accepted calls or more")                                                        \
    X(LIST_OF_BOTH, "lists with accepted calls of both choices")                                                       \
    X(LIST_OF_CHOSEN, "lists with accepted curves of both kinds, their counts passed and chosen")                      \
    X(LIST_OF_PATHS, "lists with accepted paths and others")                                                           \
    X(LIST_OF_STRIP, "lists with accepted drawings on the strip and others")                                           \
    X(LIST_OF_SOLIDS, "lists with accepted solids and others")

#define MET_NAME(name, words) name,
enum met { MET(MET_NAME) METS };

extern const char *const MET_WORDS[METS];
extern uint64_t met[METS];

void meet(enum met what, int holds);

/* What the library is passed for a buffer. Of length 0, in every second case NULL, which is met. */
uint8_t *passed(const struct lent *lent, enum met null);

/* The case that runs. */
struct running {
    uint64_t seed, number;
    const char *name; /* of its kind */
    struct counts *counts;
};

extern struct running running;

void print_failure(int64_t want, int64_t got);
void print_difference(const struct lent *lent);
void print_number(const struct lent *lent);
void print_bytes(const char *name, const uint8_t *bytes, size_t len);

/* Shows the bytes that are not 0, at most 200. */
void print_cube(const uint8_t *bytes, size_t len);

/* Other bytes than blanks, digits and line feeds as \hex. */
void print_text(const uint8_t *bytes, size_t len);

#endif
