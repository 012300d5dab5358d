/* An exact reference for the C interface, written from documents 01 and 02 alone: every sample is summed from its
   Bernstein weights in 128-bit integers, without differences and remainders, and every f32 is taken as its bit pattern. */
#ifndef REFERENCE_H
#define REFERENCE_H

#include <stddef.h>
#include <stdint.h>

__extension__ typedef __int128 wide;

/* The numbers of a call in the order in which they are tried, and which of them apply. */
struct order {
    int length;
    struct {
        int number, applies;
    } step[16];
};

void order_add(struct order *order, int number, int applies);

/* The first number that applies, or 0. */
int order_first(const struct order *order);

/* A call that checks or draws a curve, a patch or a solid, or lists a curve, or chooses the step count of a curve, or draws
   a curve with that count, or lists or draws the path of a curve, or draws a curve or a patch on the strip. A drawing goes
   over what is marked, or under it. */
enum service { CHECK, LIST, DRAW, CHOOSE, DRAW_CHOSEN, LIST_PATH, DRAW_PATH, DRAW_STRIP, SERVICES };
enum choice { OVER, UNDER };

/* A curve has the parameter t, a patch t and u, a solid t, u and v. */
enum form { CURVE, PATCH, SOLID };

struct object_call {
    enum service service;
    enum form form;
    uint32_t side, n, m, l; /* along t, u and v, as many as there are; a call that chooses the count has no n */
    uint8_t mark;
    uint32_t choice; /* of a drawing; above UNDER it is refused */
    const uint8_t *points;
    size_t points_len;
    uint8_t *lent; /* the list or the grid */
    size_t lent_len;
    uint32_t *new_cells; /* of a drawing */
};

/* Whether the call lists, whether it draws, whether it chooses its count, whether it is of a path, and whether it is on the
   strip. */
int lists(const struct object_call *call);
int draws(const struct object_call *call);
int chooses(const struct object_call *call);
int of_path(const struct object_call *call);
int on_strip(const struct object_call *call);

/* The bytes of the points: 12, 48 or 192. */
size_t record_bytes(enum form form);

/* The step count along t (0), u (1) or v (2). */
uint32_t count_along(const struct object_call *call, int parameter);

/* The exact values of an object, times scale, and its cells: sample i along t, j along u and k along v is at
   ((m + 1) k + j) (n + 1) + i. */
enum { SAMPLES = 257 * 257 };

struct samples {
    size_t many, number[3]; /* in all, and along t, u and v: 1 along a parameter that the object has not */
    wide scale;
    wide value[3][SAMPLES];
    int32_t cell[3][SAMPLES];
};

/* The values alone; all points and counts of the call must be there. */
void exact_values(const struct object_call *call, struct samples *samples);

/* The largest distance of two neighbours on an axis, times scale: of neighbours along one parameter, and of all. */
wide longest_step_along(const struct samples *samples, int parameter);
wide longest_step(const struct samples *samples);

/* Whether the step test of a curve quits: three times the largest gap between consecutive points, on every axis, is at
   most n. Points of 12 bytes or more must be there; no other number of the call is looked at. */
int test_quits(const struct object_call *call);

/* The smallest step count of a curve from 1 on with which no two neighbouring samples lie more than one cell apart on an
   axis, tried in turn. Of the call the points alone are looked at, 12 bytes or more. */
uint32_t smallest_count(const struct object_call *call);

/* Adds the numbers of samples that lie on a half on some axis, above the sample before them or below it, and of those so
   near to a half that no value of their scale, above 8, lies between. The sample before is that along t, along u where a
   row begins, and along v where a slice begins. */
void count_ties(const struct samples *samples, uint64_t *rising, uint64_t *falling, uint64_t *beside);

/* The number of cells of a curve's path: 1 and, for each step, how far the cell moves on each axis. Points of 12 bytes and
   from 1 to 800 steps must be there; the steps may be too long. */
size_t path_length(const struct object_call *call);

/* An accepted call leaves the object's values and cells in samples, those of the chosen count where the call chooses it,
   and the cells of a path, without values, in path, as if each were a sample's. A check of a curve answers 1 where the test
   quits and 0 where not; 15 is found from the exact samples in any case. The new cells of a drawing are the unmarked cells
   of the whole grid before it minus those after it. Behind another number, 22 of a path is a list without room for one
   cell. 24 is a step count above 64 that is not above those that 13 lets pass. */
int64_t reference_object(const struct object_call *call, struct order *order, struct samples *samples,
                         struct samples *path);

/* The points of a curve's flip, in reverse order, and of a patch's flip, its i and j exchanged, with its counts. */
int64_t reference_flip_curve(const uint8_t *points, size_t points_len, uint8_t *flipped, size_t flipped_len,
                             struct order *order);
int64_t reference_flip_patch(const uint8_t *points, size_t points_len, uint32_t *n, uint32_t *m, uint8_t *flipped,
                             size_t flipped_len, struct order *order);

/* The bytes 0 of a grid. */
size_t unmarked_cells(const uint8_t *grid, size_t len);

/* Draws the samples of an accepted object in turn, or the last one first. Over writes the mark in the cell of each; under
   writes it if the cell is unmarked at that moment. */
void mark_cells(const struct samples *samples, uint32_t side, uint8_t mark, enum choice choice, uint8_t *grid);
void mark_backwards(const struct samples *samples, uint32_t side, uint8_t mark, enum choice choice, uint8_t *grid);

/* The cells of an accepted object: how many different ones, and how many turns to a cell from another one, the first
   included; a curve that comes back to a cell has more turns than cells. */
size_t different_cells(const struct samples *samples, uint32_t side);
size_t turns(const struct samples *samples);

/* Whether some cell of an accepted object holds the mark, and whether a curve comes from a marked cell by an unmarked one
   to a marked one. */
int meets_mark(const struct samples *samples, uint32_t side, uint8_t mark, const uint8_t *grid);
int meets_gap(const struct samples *samples, uint32_t side, const uint8_t *grid);

/* Pairs of neighbouring samples along t, u and v, everywhere; of all, those that lie exactly one cell apart and on halves
   on some axis, and those whose cells differ by more than one on some axis. */
struct neighbours {
    uint64_t along[3], on_halves, apart;
};

/* Adds the pairs of an accepted object. */
void count_neighbours(const struct samples *samples, struct neighbours *neighbours);

/* Demand 3, second sentence, by the grid before an accepted drawing and the one after it: every sample's cell is within
   half a cell, and those of neighbours differ by at most one. Over, the cell holds the mark; under, it is marked: it holds
   the mark if it was unmarked, and else what it held. */
int samples_hold(const struct samples *samples, const struct object_call *call, const uint8_t *before,
                 const uint8_t *after);

/* The same of each cell of a path, and whether the path is face to face: it begins in the cell of sample 0, neighbours
   differ by one on one axis, it comes to the cells of the samples in turn and ends with the last, and each cell between is
   within one and a half of the sample before it on every axis. */
int path_holds(const struct samples *path, const struct object_call *call, const uint8_t *before, const uint8_t *after);
int path_leads(const struct samples *samples, const struct samples *path);

/* Whether no cell has changed but those of samples, and whether each marked cell holds what it held. */
int others_kept(const struct samples *samples, const struct object_call *call, const uint8_t *before,
                const uint8_t *after);
int marks_kept(const uint8_t *before, const uint8_t *after, size_t len);

/* Demand 3, first sentence: sets explained at each place that holds the mark within half a cell of a sample, or for a path
   within one and a half. */
void explain(const struct samples *samples, const struct object_call *call, const uint8_t *grid, uint8_t *explained);

/* A swatch: kind 0 has red, green, blue, kind 1 a grey in number[0], kind 2 hue, saturation, value; the numbers are bit
   patterns. */
struct swatch {
    uint32_t kind, number[3];
};

/* Red, green and blue of an accepted swatch. */
void channels_of(const struct swatch *swatch, uint32_t channel[3]);

/* The whole part of an accepted hue. */
uint32_t whole_part_of_hue(uint32_t h);

int64_t reference_to_cell(uint32_t side, const struct swatch *swatch, uint8_t *cell, size_t cell_len,
                          struct order *order);

/* How many channels of an accepted swatch lie exactly half-way between two coordinates. */
int channels_on_half(uint32_t side, const struct swatch *swatch);

int64_t reference_half_way(const struct swatch *first, const struct swatch *second, uint8_t *channels,
                           size_t channels_len, struct order *order);

/* The curve lines of an accepted sheet: the different cells of each, added up, how many lines have no new cell, and of how
   many the step test quits. */
struct strokes {
    uint64_t cells, without_new, quit;
};

/* The new cells are those of each curve line in turn, added up; they are compared with the marked bytes of the cube. */
int64_t reference_draw_sheet(const uint8_t *input, size_t input_len, uint8_t *buffer, size_t buffer_len,
                             uint32_t *detail, uint32_t *new_cells, struct order *order, struct strokes *strokes);

int64_t reference_list_part(uint32_t side, const uint8_t *cube, size_t cube_len, size_t first, size_t count,
                            uint8_t *text, size_t text_len, struct order *order);

int64_t reference_totals(uint32_t side, const uint8_t *cube, size_t cube_len, uint8_t *text, size_t text_len,
                         struct order *order);

int64_t reference_refusal_line(uint32_t number, uint32_t line, uint8_t *text, size_t text_len, struct order *order);

#endif
