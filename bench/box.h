/* The key box's interface, for the library and for the programs that it is compared with: the same functions under
   five prefixes. */
#ifndef BOX_H
#define BOX_H

#include <stddef.h>
#include <stdint.h>

/* A count, or minus a refusal's number. */
typedef int64_t answer;

/* Choices of a drawing. */
enum { OVER, UNDER };

/* What a check of a curve answers, if it is accepted: after a walk along all steps, or without one. */
enum { WALKED, QUIT };

typedef answer check_curve_fn(uint32_t side, const uint8_t *points, size_t points_len, uint32_t steps);
typedef answer list_curve_fn(uint32_t side, const uint8_t *points, size_t points_len, uint32_t steps, uint8_t *list,
                             size_t list_len);
typedef answer draw_curve_fn(uint32_t side, const uint8_t *points, size_t points_len, uint32_t steps, uint8_t mark,
                             uint32_t choice, uint8_t *grid, size_t grid_len, uint32_t *new_cells);
typedef answer choose_steps_fn(uint32_t side, const uint8_t *points, size_t points_len);
typedef answer draw_chosen_fn(uint32_t side, const uint8_t *points, size_t points_len, uint8_t mark, uint32_t choice,
                              uint8_t *grid, size_t grid_len, uint32_t *new_cells);
typedef answer flip_curve_fn(const uint8_t *points, size_t points_len, uint8_t *flipped, size_t flipped_len);
typedef list_curve_fn list_path_fn;
typedef draw_curve_fn draw_path_fn;
typedef answer check_patch_fn(uint32_t side, const uint8_t *points, size_t points_len, uint32_t n, uint32_t m);
typedef answer draw_patch_fn(uint32_t side, const uint8_t *points, size_t points_len, uint32_t n, uint32_t m,
                             uint8_t mark, uint32_t choice, uint8_t *grid, size_t grid_len, uint32_t *new_cells);
typedef answer flip_patch_fn(const uint8_t *points, size_t points_len, uint32_t *n, uint32_t *m, uint8_t *flipped,
                             size_t flipped_len);
typedef answer check_solid_fn(uint32_t side, const uint8_t *points, size_t points_len, uint32_t n, uint32_t m,
                              uint32_t l);
typedef answer draw_solid_fn(uint32_t side, const uint8_t *points, size_t points_len, uint32_t n, uint32_t m, uint32_t l,
                             uint8_t mark, uint32_t choice, uint8_t *grid, size_t grid_len, uint32_t *new_cells);
typedef draw_curve_fn draw_strip_curve_fn;
typedef draw_patch_fn draw_strip_patch_fn;
typedef answer to_cell_fn(uint32_t side, uint32_t kind, float a, float b, float c, uint8_t *cell, size_t cell_len);
typedef answer half_way_fn(uint32_t kind, float a, float b, float c, uint32_t kind2, float a2, float b2, float c2,
                           uint8_t *channels, size_t channels_len);
typedef answer draw_sheet_fn(const uint8_t *input, size_t input_len, uint8_t *buffer, size_t buffer_len,
                             uint32_t *detail, uint32_t *new_cells);
typedef answer list_part_fn(uint32_t side, const uint8_t *cube, size_t cube_len, size_t first, size_t count,
                            uint8_t *text, size_t text_len);
typedef answer totals_fn(uint32_t side, const uint8_t *cube, size_t cube_len, uint8_t *text, size_t text_len);
typedef answer refusal_line_fn(uint32_t number, uint32_t line, uint8_t *text, size_t text_len);

struct box {
    const char *prefix;
    check_curve_fn *check_curve;
    list_curve_fn *list_curve;
    draw_curve_fn *draw_curve;
    choose_steps_fn *choose_steps;
    draw_chosen_fn *draw_chosen;
    flip_curve_fn *flip_curve;
    list_path_fn *list_path;
    draw_path_fn *draw_path;
    check_patch_fn *check_patch;
    draw_patch_fn *draw_patch;
    flip_patch_fn *flip_patch;
    check_solid_fn *check_solid;
    draw_solid_fn *draw_solid;
    draw_strip_curve_fn *draw_strip_curve;
    draw_strip_patch_fn *draw_strip_patch;
    to_cell_fn *to_cell;
    half_way_fn *half_way;
    draw_sheet_fn *draw_sheet;
    list_part_fn *list_part;
    totals_fn *totals;
    refusal_line_fn *refusal_line;
};

#define DECLARE_BOX(prefix)                        \
    check_curve_fn prefix##_check_curve;           \
    list_curve_fn prefix##_list_curve;             \
    draw_curve_fn prefix##_draw_curve;             \
    choose_steps_fn prefix##_choose_steps;         \
    draw_chosen_fn prefix##_draw_chosen;           \
    flip_curve_fn prefix##_flip_curve;             \
    list_path_fn prefix##_list_path;               \
    draw_path_fn prefix##_draw_path;               \
    check_patch_fn prefix##_check_patch;           \
    draw_patch_fn prefix##_draw_patch;             \
    flip_patch_fn prefix##_flip_patch;             \
    check_solid_fn prefix##_check_solid;           \
    draw_solid_fn prefix##_draw_solid;             \
    draw_strip_curve_fn prefix##_draw_strip_curve; \
    draw_strip_patch_fn prefix##_draw_strip_patch; \
    to_cell_fn prefix##_to_cell;                   \
    half_way_fn prefix##_half_way;                 \
    draw_sheet_fn prefix##_draw_sheet;             \
    list_part_fn prefix##_list_part;               \
    totals_fn prefix##_totals;                     \
    refusal_line_fn prefix##_refusal_line

#define BOX(prefix)                                                                                           \
    {                                                                                                         \
        #prefix, prefix##_check_curve, prefix##_list_curve, prefix##_draw_curve, prefix##_choose_steps,       \
            prefix##_draw_chosen, prefix##_flip_curve, prefix##_list_path, prefix##_draw_path,                \
            prefix##_check_patch, prefix##_draw_patch, prefix##_flip_patch, prefix##_check_solid,             \
            prefix##_draw_solid, prefix##_draw_strip_curve, prefix##_draw_strip_patch, prefix##_to_cell,      \
            prefix##_half_way, prefix##_draw_sheet, prefix##_list_part, prefix##_totals,                      \
            prefix##_refusal_line                                                                             \
    }

DECLARE_BOX(gidzkhalu);
DECLARE_BOX(same);
DECLARE_BOX(direct);
DECLARE_BOX(usual);
DECLARE_BOX(before); /* another build of the library */

/* What that build may lack: its rows then have no ratio to it. */
#if defined(BEFORE)
#pragma weak before_choose_steps
#pragma weak before_draw_chosen
#pragma weak before_flip_curve
#pragma weak before_list_path
#pragma weak before_draw_path
#pragma weak before_flip_patch
#pragma weak before_check_solid
#pragma weak before_draw_solid
#pragma weak before_draw_strip_curve
#pragma weak before_draw_strip_patch
#endif

#endif
