/* Draws K12's patch, x of g(i, j) = i + j with n = m = 4, over what the grid holds. y and z are chosen so that its row 2 has
   a line of the cube of its own: y of g(i, j) = j, z = 2 for j = 2 and 0 otherwise; the line is y = 1, z = 1. The patch's
   flip goes over it with another mark: on the same cells, so none is new. A curve along the whole line is checked, with 9
   steps, three times its largest gap, so that the step test quits. Then it goes under: it marks the cells that row 2 has
   left, and row 2 keeps its marks. Last it goes over, with as few steps as can be, which the box chooses. After each
   drawing the number of its samples, how many cells are new, and what the line holds are printed. */
#include "gidzkhalu.h"
#include <stdio.h>

enum { SIDE = 8, STEPS = 9 };

static int print_refused(const char *name, int64_t answer) {
    if (answer == -GIDZKHALU_REFUSED_LONG_STEP) {
        printf("%s: refused, too few steps\n", name);
    } else {
        printf("%s: refused, %d\n", name, (int)-answer);
    }
    return 1;
}

static int print_check(int64_t answer) {
    if (answer < 0) {
        return print_refused("curve", answer);
    }
    printf("curve: can be drawn, the step test %s\n", answer == GIDZKHALU_QUIT ? "quit" : "walked");
    return 0;
}

static int print_drawing(const char *name, int64_t answer, uint32_t new_cells, const uint8_t *line) {
    if (answer < 0) {
        return print_refused(name, answer);
    }
    printf("%s: %d samples, %d new cells; the line holds", name, (int)answer, (int)new_cells);
    for (int x = 0; x < SIDE; x++) {
        printf(" %d", line[x]);
    }
    printf("\n");
    return 0;
}

int main(void) {
    static const uint8_t along[GIDZKHALU_CURVE_BYTES] = {0, 1, 1, 2, 1, 1, 5, 1, 1, 7, 1, 1};
    static uint8_t grid[GIDZKHALU_CUBE_BYTES(SIDE)];
    const uint8_t *line = grid + SIDE * 1 + SIDE * SIDE * 1;
    uint8_t points[GIDZKHALU_PATCH_BYTES], flipped[GIDZKHALU_PATCH_BYTES];
    for (int i = 0; i < 4; i++) {
        for (int j = 0; j < 4; j++) {
            uint8_t *p = points + 3 * (4 * i + j);
            p[0] = (uint8_t)(i + j);
            p[1] = (uint8_t)j;
            p[2] = j == 2 ? 2 : 0;
        }
    }
    uint32_t n = 4, m = 4, new_cells = 0;
    int64_t answer =
        gidzkhalu_draw_patch(SIDE, points, sizeof points, n, m, 7, GIDZKHALU_OVER, grid, sizeof grid, &new_cells);
    if (print_drawing("patch over", answer, new_cells, line) != 0) {
        return 1;
    }
    /* The lengths are right, so this is accepted. */
    gidzkhalu_flip_patch(points, sizeof points, &n, &m, flipped, sizeof flipped);
    answer =
        gidzkhalu_draw_patch(SIDE, flipped, sizeof flipped, n, m, 6, GIDZKHALU_OVER, grid, sizeof grid, &new_cells);
    if (print_drawing("its flip over", answer, new_cells, line) != 0) {
        return 1;
    }
    if (print_check(gidzkhalu_check_curve(SIDE, along, sizeof along, STEPS)) != 0) {
        return 1;
    }
    answer = gidzkhalu_draw_curve(SIDE, along, sizeof along, STEPS, 8, GIDZKHALU_UNDER, grid, sizeof grid, &new_cells);
    if (print_drawing("curve under", answer, new_cells, line) != 0) {
        return 1;
    }
    answer = gidzkhalu_draw_chosen(SIDE, along, sizeof along, 9, GIDZKHALU_OVER, grid, sizeof grid, &new_cells);
    return print_drawing("curve over, steps chosen", answer, new_cells, line);
}
