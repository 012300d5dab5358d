/* The key box for C. Link with libexports.a, which `bash tests/library.sh` writes to target/staticlib/.

   Every function answers one signed number: 0 or more where the call is accepted, or minus the number of the first
   refusal that applies. What an accepted call answers, mostly a count, is said at each function.
   A refused call changes nothing that is lent to it, but for the line that a refused sheet writes into *detail.
   Nothing is kept between calls, no heap is taken, and of other functions only memset and memcpy are called.

   What the caller must keep:
     - x86-64 with the System V calling convention, the alignment of the stack included.
     - Each buffer's pointer is valid for the length beside it. new_cells, detail and, where they are pointers, n and m
       have no length: each points at one uint32_t, aligned as one, and is never NULL, whatever the call answers. What is
       written is not also read or written elsewhere during the call, and nothing that one call is lent overlaps: n and m
       point at two numbers.
     - Where a function says "Environment: default", the default floating-point environment: round to nearest,
       subnormals kept (in MXCSR neither flush-to-zero nor denormals-are-zero; a program linked with -ffast-math may begin
       with both), every exception masked. Under another one gidzkhalu_to_cell and gidzkhalu_half_way may accept what is
       to be refused, write other bytes or end in a signal. Where a function says "Environment: any", its answers and
       bytes do not depend on it. `bash tests/environment.sh` shows both.
     - The stack that a function states. Some calls write below the stack pointer (the red zone): an interrupt on the
       same stack must leave 128 bytes there.
   What the caller need not keep:
     - Any length, side, count, mark, choice, coordinate, kind or f32 may be passed; what is wrong is refused.
     - NULL may be passed with the length 0, for every buffer: nothing is read or written through it.
     - No buffer needs an alignment.
     - *new_cells, *detail, *n and *m may hold anything before a call.
     - Any number of threads may call at once, each with its own of all that is written; what is only read may be shared.

   Stack: the most bytes that a call takes, as `bash tests/stack.sh` measures them on a painted stack. The return address
   is counted; arguments that the caller passes on the stack and what memset and memcpy take themselves are not.
   Instructions: those of the longest call, as `bash tests/longest.sh` counts them over inputs that are chosen to take
   long: a measure, not a proof. What memset and memcpy execute themselves is not counted; the functions that call them say
   for how many bytes. */
#ifndef GIDZKHALU_H
#define GIDZKHALU_H

#include <stddef.h>
#include <stdint.h>

#ifdef __cplusplus
extern "C" {
#endif

/* The refusal numbers, as the documents have them. An answer is minus one of them. */
enum {
    GIDZKHALU_REFUSED_SIDE = 11,            /* the side is outside 2 to 64 */
    GIDZKHALU_REFUSED_MARK = 12,            /* the mark is 0, or in a sheet above 255 */
    GIDZKHALU_REFUSED_STEPS = 13,           /* a step count outside 1 to 512 (curve), 1 to 256 (patch) or 1 to 32 (solid) */
    GIDZKHALU_REFUSED_COORDINATE = 14,      /* a coordinate is not below the side */
    GIDZKHALU_REFUSED_LONG_STEP = 15,       /* two neighbouring samples lie more than one cell apart on some axis */
    GIDZKHALU_REFUSED_LENGTH = 21,          /* the grid or cube is not side^3 bytes, or a sheet's buffer not 64000 */
    GIDZKHALU_REFUSED_SHORT = 22,           /* the list or the text is too short */
    GIDZKHALU_REFUSED_STRIP_SIDE = 23,      /* on the strip: a side of 18 to 64 */
    GIDZKHALU_REFUSED_STRIP_STEPS = 24,     /* on the strip: a step count above 64 that 13 lets pass */
    GIDZKHALU_REFUSED_NOT_FINITE = 31,      /* a channel, hue, saturation or value is infinite or no number */
    GIDZKHALU_REFUSED_CHANNEL = 32,         /* a channel, saturation or value is below 0 or above 1 */
    GIDZKHALU_REFUSED_HUE = 33,             /* a hue is below 0, or 6 or above */
    GIDZKHALU_REFUSED_LINE = 41,            /* a line of wrong length, a missing line feed, or no line 1 */
    GIDZKHALU_REFUSED_FIELD = 42,           /* a bad field */
    GIDZKHALU_REFUSED_SHEET_SIDE = 43,      /* a sheet's side of 41 to 64 */
    GIDZKHALU_REFUSED_PAST_LAST_LINE = 44,  /* a byte after the 200th curve line */
    /* Of this interface alone, tried before all others, 51 before 55 and 52, and 53 before 52. */
    GIDZKHALU_REFUSED_RECORD_LENGTH = 51,   /* a curve's points are not 12 bytes, a patch's not 48, a solid's not 192 */
    GIDZKHALU_REFUSED_OUT_LENGTH = 52,      /* a cell is not 3 bytes, channels not 12, a flip not as long as its record */
    GIDZKHALU_REFUSED_KIND = 53,            /* a kind of swatch that does not exist, above 2 */
    GIDZKHALU_REFUSED_CHOICE = 55,          /* a choice of a drawing that does not exist, above 1 */
    /* Of the refusal line, here and in Rattle. */
    GIDZKHALU_REFUSED_NUMBER = 54           /* a number or a line that five columns do not hold, above 99999 */
};

/* Limits. */
enum {
    GIDZKHALU_SIDE_LEAST = 2,
    GIDZKHALU_SIDE_MOST = 64,
    GIDZKHALU_SHEET_SIDE_MOST = 40,
    GIDZKHALU_CURVE_STEPS_MOST = 512,
    GIDZKHALU_CHOSEN_STEPS_MOST = 189,      /* of a step count that the box chooses */
    GIDZKHALU_PATCH_STEPS_MOST = 256,       /* along each parameter */
    GIDZKHALU_SOLID_STEPS_MOST = 32,        /* along each parameter */
    GIDZKHALU_STRIP_SIDE_MOST = 17,
    GIDZKHALU_STRIP_STEPS_MOST = 64,        /* along each parameter */
    GIDZKHALU_SHEET_CURVES_MOST = 200,
    GIDZKHALU_REFUSAL_NUMBER_MOST = 99999   /* of a refusal line's number and line */
};

/* Answers of an accepted gidzkhalu_check_curve: the step test walked, or it quit. */
enum { GIDZKHALU_WALKED = 0, GIDZKHALU_QUIT = 1 };

/* Choices of a drawing. */
enum { GIDZKHALU_OVER = 0, GIDZKHALU_UNDER = 1 };

/* Kinds of swatches. */
enum { GIDZKHALU_COLOUR = 0, GIDZKHALU_GREY = 1, GIDZKHALU_HUE = 2 };

/* Lengths in bytes. */
enum {
    GIDZKHALU_CURVE_BYTES = 12,             /* points of a curve, exactly */
    GIDZKHALU_PATCH_BYTES = 48,             /* points of a patch, exactly */
    GIDZKHALU_SOLID_BYTES = 192,            /* points of a solid, exactly */
    GIDZKHALU_CELL_BYTES = 3,               /* a cell, exactly */
    GIDZKHALU_CHANNELS_BYTES = 12,          /* three f32, exactly */
    GIDZKHALU_SHEET_BUFFER_BYTES = 64000,   /* a sheet's buffer, exactly */
    GIDZKHALU_LISTING_LINE_BYTES = 21,      /* the heading, and each line of a listing */
    GIDZKHALU_TOTALS_LINE_BYTES = 51,       /* each line of totals */
    GIDZKHALU_TOTALS_BYTES = 13056,         /* a text for totals, at least: 256 lines */
    GIDZKHALU_REFUSAL_LINE_BYTES = 18       /* a text for a refusal line, at least */
};

/* Lengths in bytes by a side, a step count or a count of places, each within its limits: a grid or cube, exactly; a
   curve's list, at least; a path's list that is long enough whatever the points are; a text for a part of a listing, at
   least. */
#define GIDZKHALU_CUBE_BYTES(side) ((size_t)(side) * (size_t)(side) * (size_t)(side))
#define GIDZKHALU_LIST_BYTES(steps) (GIDZKHALU_CELL_BYTES * ((size_t)(steps) + 1))
#define GIDZKHALU_PATH_LIST_BYTES(steps) (GIDZKHALU_CELL_BYTES * (3 * (size_t)(steps) + 1))
#define GIDZKHALU_PART_BYTES(count) (GIDZKHALU_LISTING_LINE_BYTES * ((size_t)(count) + 1))

/* At each function, "Answer" is that of an accepted call, and "Refusals" are the numbers that it can answer minus, in the
   order in which they are tried. */

/* Drawings: a cell whose byte is 0 is unmarked. With the choice 0 a drawing goes over: it writes its mark in the cell of
   each sample, or in each cell of a path. With the choice 1 it goes under: it writes its mark only where that cell is
   unmarked, and a marked cell keeps what it holds. An accepted drawing writes into *new_cells how many cells it turned
   from unmarked to marked: a cell is counted once, however often the drawing comes to it, and a mark written over another
   mark is not new. Over and under turn the same cells of a grid to marked; under writes no others. A refused drawing
   leaves *new_cells as it was. */

/* Curves: points has x y z of points 0 to 3, 12 bytes. A cell (x, y, z) stands at byte x + side y + side side z. The cell
   of a sample has on each axis the whole number c with c - 1/2 < value <= c + 1/2. The cells of neighbouring samples, of a
   patch those along t and along u, of a solid those along t, u and v, differ by at most one on each axis. */

/* Whether a curve can be drawn. Answer: 1 (GIDZKHALU_QUIT) where three times the largest gap between consecutive points,
   on every axis, is at most steps: no step is too long there, and the step test ends without a walk. Otherwise 0
   (GIDZKHALU_WALKED): the test has walked along all steps. Listing, drawing and sheets use the same test.
   Refusals: 51, 11, 13, 14, 15.
   Stack: 72 bytes. Instructions: 4709. Environment: any. */
int64_t gidzkhalu_check_curve(uint32_t side, const uint8_t *points, size_t points_len, uint32_t steps);

/* Writes x y z of the cell of samples 0 to steps from the front of the list and leaves the rest. Answer:
   steps + 1.
   Refusals: 51, 11, 13, 22 (the list is shorter than 3 (steps + 1) bytes), 14, 15.
   Stack: 248 bytes. Instructions: 18682. Environment: any. */
int64_t gidzkhalu_list_curve(uint32_t side, const uint8_t *points, size_t points_len, uint32_t steps,
                             uint8_t *list, size_t list_len);

/* Draws a curve, over or under, and writes the count of new cells, from 0 to steps + 1, into *new_cells. Answer:
   steps + 1.
   Refusals: 51, 55, 11, 21, 12, 13, 14, 15.
   Stack: 488 bytes. Instructions: 23999. Environment: any. */
int64_t gidzkhalu_draw_curve(uint32_t side, const uint8_t *points, size_t points_len, uint32_t steps, uint8_t mark,
                             uint32_t choice, uint8_t *grid, size_t grid_len, uint32_t *new_cells);

/* Chooses the step count of a curve: the smallest from 1 on with which no step is too long. Answer: that count. It is at
   most three times the largest gap between consecutive points on an axis, or 1 if all points agree, so never above 189.
   Some counts above it may be refused all the same: for the x 0 0 3 0, y and z all equal, it is 1, and 2 to 6 are refused.
   Refusals: 51, 11, 14.
   Stack: 132 bytes. Instructions: 20692. Environment: any. */
int64_t gidzkhalu_choose_steps(uint32_t side, const uint8_t *points, size_t points_len);

/* Draws a curve, over or under, with the step count that gidzkhalu_choose_steps answers, and writes the count of new cells,
   from 0 to the number of samples, into *new_cells: all is as gidzkhalu_draw_curve leaves it with that count. Answer: the
   number of samples, which is the count + 1.
   Refusals: 51, 55, 11, 21, 12, 14.
   Stack: 488 bytes. Instructions: 30016. Environment: any. */
int64_t gidzkhalu_draw_chosen(uint32_t side, const uint8_t *points, size_t points_len, uint8_t mark, uint32_t choice,
                              uint8_t *grid, size_t grid_len, uint32_t *new_cells);

/* Writes the points of the curve's flip, its own in reverse order, 12 bytes; its steps, mark and choice are the curve's.
   At any side, from lists of the same length and grids of the same bytes, a curve and its flip are accepted or refused with
   the same number. They list the same cells, the flip in reverse order, and in all else, but for paths, have the same
   answers, new cells and grids. The flip of the flip is the curve. Nothing is asked of the coordinates. Answer: 0.
   Refusals: 51, 52.
   Stack: 8 bytes. Instructions: 34. Environment: any. */
int64_t gidzkhalu_flip_curve(const uint8_t *points, size_t points_len, uint8_t *flipped, size_t flipped_len);

/* Paths: a curve's cells face to face. The path begins with the cell of sample 0. From the cell of each sample it leads to
   that of the next: x moves first, then y, then z, each by one cell or not at all, and each move adds the cell that it
   comes to. So neighbouring cells of a path differ by one on one axis, a sample whose cell is that of the one before adds
   none, and a cell can come more than once. The number of cells is 1 and the moves of all steps, at most 3 steps + 1. The
   cell of a sample lies within half a cell of it on each axis, a cell between within one and a half of the sample before
   it. The path of a curve's flip can have other cells. */

/* Writes x y z of the cells of the curve's path from the front of the list and leaves the rest. Answer: the number of
   cells.
   Refusals: 51, 11, 13, 14, 15, 22 (the list is shorter than 3 bytes for each cell of the path).
   With a list of GIDZKHALU_PATH_LIST_BYTES(steps) or more nothing is counted; with a shorter one the cells are counted
   first, by a walk of its own.
   Stack: 312 bytes. Instructions: 37615. Environment: any. */
int64_t gidzkhalu_list_path(uint32_t side, const uint8_t *points, size_t points_len, uint32_t steps,
                            uint8_t *list, size_t list_len);

/* Draws the curve's path, over or under, and writes the count of new cells, from 0 to the number of cells, into
   *new_cells. Answer: the number of cells.
   Refusals: 51, 55, 11, 21, 12, 13, 14, 15.
   Stack: 280 bytes. Instructions: 20705. Environment: any. */
int64_t gidzkhalu_draw_path(uint32_t side, const uint8_t *points, size_t points_len, uint32_t steps, uint8_t mark,
                            uint32_t choice, uint8_t *grid, size_t grid_len, uint32_t *new_cells);

/* Patches: points has x y z of points 0 to 15, 48 bytes; g(i, j), i along t and j along u, is point 4 i + j. n steps
   along t, m along u. */

/* Whether a patch can be drawn. Answer: 0.
   Refusals: 51, 11, 13, 14, 15.
   Stack: 512 bytes. Instructions: 3381311. Environment: any. */
int64_t gidzkhalu_check_patch(uint32_t side, const uint8_t *points, size_t points_len, uint32_t n, uint32_t m);

/* Draws a patch, over or under, and writes the count of new cells, from 0 to (n + 1) (m + 1), into *new_cells. Answer:
   (n + 1) (m + 1).
   Refusals: 51, 55, 11, 21, 12, 13, 14, 15.
   Stack: 2024 bytes. Instructions: 6443858. Environment: any. */
int64_t gidzkhalu_draw_patch(uint32_t side, const uint8_t *points, size_t points_len, uint32_t n, uint32_t m,
                             uint8_t mark, uint32_t choice, uint8_t *grid, size_t grid_len, uint32_t *new_cells);

/* Writes the points of the patch's flip, 48 bytes: in the place of g(i, j) stands g(j, i). Exchanges *n and *m, which are
   then the flip's; its mark and choice are the patch's. At any side, from grids of the same bytes, a patch and its flip are
   accepted or refused with the same number and have the same answers, new cells and grids. The flip of the flip is the
   patch. Nothing is asked of the coordinates, *n and *m. Answer: 0.
   Refusals: 51, 52.
   Stack: 24 bytes. Instructions: 90. Environment: any. */
int64_t gidzkhalu_flip_patch(const uint8_t *points, size_t points_len, uint32_t *n, uint32_t *m, uint8_t *flipped,
                             size_t flipped_len);

/* Solids: points has x y z of points 0 to 63, 192 bytes; g(i, j, k), i along t, j along u and k along v, is point
   16 i + 4 j + k. n steps along t, m along u, l along v. */

/* Whether a solid can be drawn. Answer: 0.
   Refusals: 51, 11, 13, 14, 15.
   memcpy is called for 192 bytes, at most three times.
   Stack: 2808 bytes. Instructions: 2958444. Environment: any. */
int64_t gidzkhalu_check_solid(uint32_t side, const uint8_t *points, size_t points_len, uint32_t n, uint32_t m, uint32_t l);

/* Draws a solid, over or under, and writes the count of new cells, from 0 to (n + 1) (m + 1) (l + 1), into *new_cells.
   Answer: (n + 1) (m + 1) (l + 1).
   Refusals: 51, 55, 11, 21, 12, 13, 14, 15.
   memcpy is called for 192 bytes, at most four times.
   Stack: 6168 bytes. Instructions: 5125975. Environment: any. */
int64_t gidzkhalu_draw_solid(uint32_t side, const uint8_t *points, size_t points_len, uint32_t n, uint32_t m, uint32_t l,
                             uint8_t mark, uint32_t choice, uint8_t *grid, size_t grid_len, uint32_t *new_cells);

/* The strip: a curve or a patch as gidzkhalu_draw_curve and gidzkhalu_draw_patch draw it, with a side of 2 to 17 and at most
   64 steps along each parameter. What is accepted here is accepted there, with the same answer, new cells and grid. A call
   that is refused there is refused here, and one with a side above 17 or a step count above 64 is refused here in any case. */

/* Draws a curve on the strip, over or under, and writes the count of new cells, from 0 to steps + 1, into *new_cells. Answer:
   steps + 1.
   Refusals: 51, 55, 11, 23, 21, 12, 13, 24, 14, 15.
   Stack: 520 bytes. Instructions: 3964. Environment: any. */
int64_t gidzkhalu_draw_strip_curve(uint32_t side, const uint8_t *points, size_t points_len, uint32_t steps, uint8_t mark,
                                   uint32_t choice, uint8_t *grid, size_t grid_len, uint32_t *new_cells);

/* Draws a patch on the strip, over or under, and writes the count of new cells, from 0 to (n + 1) (m + 1), into *new_cells.
   Answer: (n + 1) (m + 1).
   Refusals: 51, 55, 11, 23, 21, 12, 13, 24, 14, 15.
   Stack: 2072 bytes. Instructions: 427264. Environment: any. */
int64_t gidzkhalu_draw_strip_patch(uint32_t side, const uint8_t *points, size_t points_len, uint32_t n, uint32_t m,
                                   uint8_t mark, uint32_t choice, uint8_t *grid, size_t grid_len, uint32_t *new_cells);

/* Swatches: kind 0 is a colour, kind 1 a grey, kind 2 a hue with its saturation and value. A swatch's refusals, in the
   order in which they are tried:
     0  a, b, c are red, green and blue: 31, 32 of a; 31, 32 of b; 31, 32 of c
     1  a is the grey: 31, 32 of a; b and c are not looked at
     2  a is the hue, from 0 to below 6, b the saturation, c the value: 31, 33 of a; 31, 32 of b; 31, 32 of c
   With k the whole part of a and f = a - k, kind 2 stands for the red, green and blue
     (c, r, p), (q, c, p), (p, c, r), (p, q, c), (r, p, c), (c, p, q) for k from 0 to 5, where
     p = c (1 - b), q = c (1 - b f), r = c (1 - b (1 - f)), inner operations first, each of f32 and rounded once. */

/* Writes x y z of the swatch's cell, 3 bytes. Answer: 0.
   Refusals: 53, 52, 11, then the swatch's.
   Stack: 8 bytes. Instructions: 116. Environment: default. */
int64_t gidzkhalu_to_cell(uint32_t side, uint32_t kind, float a, float b, float c, uint8_t *cell, size_t cell_len);

/* Writes red, green and blue of the swatch half-way between two, 12 bytes: the bit pattern of each f32, the low byte
   first. Answer: 0.
   Refusals: 53 (of either kind), 52, then the first swatch's, then the second's.
   Stack: 8 bytes. Instructions: 123. Environment: default. */
int64_t gidzkhalu_half_way(uint32_t kind, float a, float b, float c, uint32_t kind2, float a2, float b2, float c2,
                           uint8_t *channels, size_t channels_len);

/* Sheets. */

/* Draws a sheet into the first side x side x side bytes of the buffer, cleared first; the rest keeps what it held. Its
   curve lines go over one another in turn. Writes the side into *detail, and the new cells of its curve lines added up,
   which are the marked cells of its cube, into *new_cells. A refused sheet writes its line (0 for 21) into *detail and
   leaves *new_cells. Answer: the number of curve lines.
   Refusals: 21; then of line 1: 41, 42, 11, 43; then of each later line in turn: 44, 41, 42, 12, 13, 14, 15.
   memset is called for at most 64000 bytes. An input that goes on after 200 curve lines takes no longer.
   Stack: 600 bytes. Instructions: 4308941. Environment: any. */
int64_t gidzkhalu_draw_sheet(const uint8_t *input, size_t input_len, uint8_t *buffer, size_t buffer_len,
                             uint32_t *detail, uint32_t *new_cells);

/* Writes the part of a cube's listing for count places from byte first on from the front of the text and leaves the
   rest; the part from byte 0 begins with the heading. Parts in turn, the first not empty, are the whole listing. Places
   past the cube are none: a count that reaches past it lists up to its end, and a first at its end or past it lists
   nothing and answers 0. Answer: the number of bytes.
   Refusals: 11, 21, 22 (the text is shorter than 21 (count + 1) bytes, wherever the part begins and ends).
   Stack: 141 bytes. Instructions: 21127260. Environment: any. */
int64_t gidzkhalu_list_part(uint32_t side, const uint8_t *cube, size_t cube_len, size_t first, size_t count,
                            uint8_t *text, size_t text_len);

/* Writes the totals of a cube from the front of the text and leaves the rest: a line of 51 bytes for each of the marks 1
   to 255 that some cell holds, in rising order, and one for mark 0, the unmarked cells, whether there are any or not. In
   a line are the mark, the count of its cells and the sums of their x, y and z, each in 10 columns, and a line feed.
   Answer: the number of bytes.
   Refusals: 11, 21, 22 (the text is shorter than 256 lines, 13056 bytes).
   memset is called for 8192 bytes.
   Stack: 8312 bytes. Instructions: 2405656. Environment: any. */
int64_t gidzkhalu_totals(uint32_t side, const uint8_t *cube, size_t cube_len, uint8_t *text, size_t text_len);

/* Writes the line of a refused sheet from the front of the text and leaves the rest: REFUSED, number and line in 5
   columns each, a line feed. Answer: 18.
   Refusals: 54 (number or line is above 99999), 22 (the text is shorter than 18 bytes).
   Stack: 8 bytes. Instructions: 129. Environment: any. */
int64_t gidzkhalu_refusal_line(uint32_t number, uint32_t line, uint8_t *text, size_t text_len);

#ifdef __cplusplus
}
#endif

#endif
