/* Makes, for one function of the C interface, the calls that take longest: those at its limits, each with several inputs,
   of which tests/longest.sh takes the one with the most instructions. Usage: longest FUNCTION

   Each call is made once and printed as a line: its answer and its input. What takes longest is said at each function.
   The functions follow one path for all samples, cells and lines but for a few branches, and where these add up, their
   inputs are all combinations of the ways in which a branch can go most often. */
#include "gidzkhalu.h"

#include <inttypes.h>
#include <stdio.h>
#include <string.h>

/* The memset that the library calls: a name that is left out of the count. The function counted executes four
   instructions and a memset of 100 bytes, by which the count is tried. */
void counted(void);
uint8_t filled[100];

__asm__(".text\n"
        ".globl counted, memset\n"
        ".type counted, @function\n"
        ".type memset, @function\n"
        "counted:\n"
        "    leaq filled(%rip), %rdi\n"
        "    movl $100, %edx\n"
        "    call memset\n"
        "    ret\n"
        ".size counted, . - counted\n"
        "memset:\n"
        "    movq %rdi, %r8\n"
        "    movl %esi, %eax\n"
        "    movq %rdx, %rcx\n"
        "    rep stosb\n"
        "    movq %r8, %rax\n"
        "    ret\n"
        ".size memset, . - memset\n");

enum { SIDE = GIDZKHALU_SIDE_MOST, CELLS = SIDE * SIDE * SIDE };

static uint8_t grid[CELLS], text[GIDZKHALU_PART_BYTES(CELLS)];
static uint32_t new_cells, detail;

static void fill_grid(uint8_t byte) {
    for (size_t p = 0; p < CELLS; p++)
        grid[p] = byte;
}

#define SIZE(table) (sizeof(table) / sizeof *(table))

/* Curves: the largest side. The step test walks along all steps of all axes where three times the largest gap is above
   the steps and no step is too long. No gap is above 63, so the longest walk has 188 steps, and a check takes longest
   there. Listing and drawing go through all samples as well, and take longest with 512 steps, though the test quits
   there. A sample takes longer where its cell moves, down more than up. Of all curves of one axis FALLS has the most
   moves down; UP_AND_DOWN and DOWN_AND_UP have the most where a move down takes twice as much more as a move up. Each
   is drawn over and under, into an unmarked grid, where its cells are new, and into a marked one. Under, a sample takes
   longer where its cell is new: a curve and a patch that wind through many cells are there as well. */
enum pattern { FALLS, UP_AND_DOWN, DOWN_AND_UP, RISES, STAYS, PATTERNS };

static const char *const PATTERN[PATTERNS] = {"falls", "up and down", "down and up", "rises", "stays"};

/* The coordinate of point k of four. */
static uint8_t patterned(enum pattern pattern, int k, uint8_t last) {
    const uint8_t points[PATTERNS][4] = {{last, 0, 0, 0},
                                         {2, last, last, 0},
                                         {last, 0, 0, (uint8_t)(last - 2)},
                                         {0, last, last, last},
                                         {last, last, last, last}};
    return points[pattern][k];
}

struct axes {
    enum pattern x, y, z;
};

static struct axes axes_of(int number) {
    struct axes axes = {(enum pattern)(number % PATTERNS), (enum pattern)(number / PATTERNS % PATTERNS),
                        (enum pattern)(number / PATTERNS / PATTERNS)};
    return axes;
}

enum { COMBINATIONS = PATTERNS * PATTERNS * PATTERNS };

static void put_point(uint8_t *point, struct axes axes, int k, uint8_t last) {
    point[0] = patterned(axes.x, k, last);
    point[1] = patterned(axes.y, k, last);
    point[2] = patterned(axes.z, k, last);
}

static void print_axes(struct axes axes) {
    printf("x %s, y %s, z %s\n", PATTERN[axes.x], PATTERN[axes.y], PATTERN[axes.z]);
}

/* How an object is drawn: by its choice, into a grid that holds one byte. */
struct drawing {
    uint32_t choice;
    uint8_t held;
};

static const struct drawing DRAWINGS[] = {
    {GIDZKHALU_OVER, 0}, {GIDZKHALU_OVER, 1}, {GIDZKHALU_UNDER, 0}, {GIDZKHALU_UNDER, 1}};

static void print_drawing(struct drawing drawing) {
    printf("%s, cells %s, ", drawing.choice == GIDZKHALU_OVER ? "over" : "under",
           drawing.held == 0 ? "unmarked" : "marked");
}

enum service { CHECK, LIST, DRAW, LIST_PATH, DRAW_PATH };

static int draws(enum service service) { return service == DRAW || service == DRAW_PATH; }

/* A path's list has one byte fewer than the longest path of so many steps takes, so that its cells are counted. */
static void curve_of(enum service service, uint32_t steps, const uint8_t points[GIDZKHALU_CURVE_BYTES],
                     struct drawing drawing) {
    size_t len = GIDZKHALU_CURVE_BYTES;
    int64_t answer;
    fill_grid(drawing.held);
    if (service == CHECK)
        answer = gidzkhalu_check_curve(SIDE, points, len, steps);
    else if (service == LIST)
        answer = gidzkhalu_list_curve(SIDE, points, len, steps, text, GIDZKHALU_LIST_BYTES(steps));
    else if (service == LIST_PATH)
        answer = gidzkhalu_list_path(SIDE, points, len, steps, text, GIDZKHALU_PATH_LIST_BYTES(steps) - 1);
    else if (service == DRAW_PATH)
        answer = gidzkhalu_draw_path(SIDE, points, len, steps, 255, drawing.choice, grid, sizeof grid, &new_cells);
    else
        answer = gidzkhalu_draw_curve(SIDE, points, len, steps, 255, drawing.choice, grid, sizeof grid, &new_cells);
    printf("%" PRId64 ": side %d, %" PRIu32 " steps, ", answer, SIDE, steps);
    if (draws(service))
        print_drawing(drawing);
}

static void curve(enum service service, uint32_t steps, struct axes axes, struct drawing drawing) {
    uint8_t points[GIDZKHALU_CURVE_BYTES];
    for (int k = 0; k < 4; k++)
        put_point(points + 3 * k, axes, k, SIDE - 1);
    curve_of(service, steps, points, drawing);
    print_axes(axes);
}

/* 242 different cells. */
static void winding_curve(struct drawing drawing) {
    static const uint8_t points[GIDZKHALU_CURVE_BYTES] = {63, 63, 63, 3, 2, 0, 0, 0, 4, 62, 61, 63};
    curve_of(DRAW, GIDZKHALU_CURVE_STEPS_MOST, points, drawing);
    printf("winds through many cells\n");
}

enum { WALKED_MOST = 3 * (SIDE - 1) - 1 };

/* The latest long step that there is: the last of 187, on z. */
static void late_curve(enum service service) {
    static const uint8_t points[GIDZKHALU_CURVE_BYTES] = {0, 0, 0, 0, 0, 0, 0, 0, 0, 0, 0, SIDE - 1};
    curve_of(service, WALKED_MOST - 1, points, DRAWINGS[0]);
    printf("the last step on z is too long\n");
}

/* With the steps at which a call takes longest all combinations, with the others those of one pattern. */
static void curves(enum service service) {
    static const uint32_t steps[] = {WALKED_MOST, GIDZKHALU_CURVE_STEPS_MOST};
    for (int number = 0; number < COMBINATIONS; number++) {
        struct axes axes = axes_of(number);
        for (int most = 0; most < 2; most++)
            for (size_t k = 0; k < (draws(service) ? SIZE(DRAWINGS) : 1); k++)
                if (most == (service != CHECK) || (axes.x == axes.y && axes.x == axes.z))
                    curve(service, steps[most], axes, DRAWINGS[k]);
    }
    late_curve(service);
}

static void check_curves(void) { curves(CHECK); }
static void list_curves(void) { curves(LIST); }

static void draw_curves(void) {
    curves(DRAW);
    for (size_t k = 0; k < SIZE(DRAWINGS); k++)
        winding_curve(DRAWINGS[k]);
}

/* Paths: as curves, with 512 steps, where the step test quits. Each move of a path takes longer, by the writing of a cell;
   no curve of one axis has more than 94, and UP_AND_DOWN and DOWN_AND_UP have so many. A list that has not room for every
   path is counted first, by a walk of its own. Under, a cell takes longer where it is new. In WINDING are paths that have
   many moves and many different cells: 283 cells, 268 of them different, and 281 with 277, most of their moves down or up. */
static const uint8_t WINDING[][GIDZKHALU_CURVE_BYTES] = {{63, 61, 63, 0, 0, 0, 2, 0, 0, 63, 63, 61},
                                                         {4, 63, 63, 63, 0, 0, 63, 0, 0, 0, 61, 61},
                                                         {61, 61, 0, 0, 0, 63, 0, 0, 63, 63, 63, 4}};

static void winding_paths(enum service service, struct drawing drawing) {
    for (size_t k = 0; k < SIZE(WINDING); k++) {
        curve_of(service, GIDZKHALU_CURVE_STEPS_MOST, WINDING[k], drawing);
        printf("winds through many cells, %zu\n", k);
    }
}

static void list_paths(void) {
    curves(LIST_PATH);
    winding_paths(LIST_PATH, DRAWINGS[0]);
}

static void draw_paths(void) {
    curves(DRAW_PATH);
    for (size_t k = 0; k < SIZE(DRAWINGS); k++)
        winding_paths(DRAW_PATH, DRAWINGS[k]);
}

/* Chosen counts: counts are tried upwards from the distance of the ends. The axes are asked in turn, each from the count
   on to which the one before it came. An axis refuses a count after a walk up to its first step that is too long, and
   without a walk where the last step is; it accepts one after a walk along all steps. So a call takes longest where many
   counts are refused, late in a walk, and a large one is accepted by all axes. No axis refuses all counts late: in RELAYS
   one does up to where the next goes on, and the last goes up to 187, by its first step or its last, so that 188 is
   chosen, the most that there is. A search came to them that gave one axis after another those coordinates, of all that
   there are, with which the call has the most instructions, until no axis changed. The first has the most that was found
   for a count alone, the second for a drawing; in the third x alone refuses late. Each is there with its axes in any
   order, from both ends, and with 63 less each coordinate. The patterns of curves are there as well; of those that fall
   or rise every count from 63 to 187 is refused, at once. */
static const uint8_t RELAYS[][3][4] = {{{39, 53, 12, 0}, {40, 63, 22, 0}, {63, 0, 6, 28}},
                                       {{39, 53, 12, 0}, {40, 63, 22, 0}, {63, 0, 5, 32}},
                                       {{46, 63, 0, 0}, {62, 0, 4, 30}, {63, 0, 1, 56}}};

/* drawing: NULL for the count alone. */
static void chosen_curve(const uint8_t points[GIDZKHALU_CURVE_BYTES], const struct drawing *drawing) {
    size_t len = GIDZKHALU_CURVE_BYTES;
    int64_t answer;
    if (drawing == NULL) {
        answer = gidzkhalu_choose_steps(SIDE, points, len);
    } else {
        fill_grid(drawing->held);
        answer = gidzkhalu_draw_chosen(SIDE, points, len, 255, drawing->choice, grid, sizeof grid, &new_cells);
    }
    printf("%" PRId64 ": side %d, ", answer, SIDE);
    if (drawing != NULL)
        print_drawing(*drawing);
}

/* turn: from 0 to 23, 4 x the order of the axes + 2 for 63 less each coordinate + 1 for the other end. */
static void relay(size_t number, int turn, const struct drawing *drawing) {
    uint8_t points[GIDZKHALU_CURVE_BYTES];
    int order = turn / 4;
    for (int at = 0; at < GIDZKHALU_CURVE_BYTES; at++) {
        const uint8_t *axis = RELAYS[number][(order < 3 ? at % 3 + order : order - at % 3) % 3];
        uint8_t coordinate = axis[turn % 2 ? 3 - at / 3 : at / 3];
        points[at] = turn % 4 < 2 ? coordinate : (uint8_t)(SIDE - 1 - coordinate);
    }
    chosen_curve(points, drawing);
    printf("one axis after another is refused:");
    for (int at = 0; at < GIDZKHALU_CURVE_BYTES; at++)
        printf(" %d", points[at]);
    printf("\n");
}

static void chosen_curves(const struct drawing *drawing) {
    for (int number = 0; number < COMBINATIONS; number++) {
        struct axes axes = axes_of(number);
        uint8_t points[GIDZKHALU_CURVE_BYTES];
        for (int k = 0; k < 4; k++)
            put_point(points + 3 * k, axes, k, SIDE - 1);
        chosen_curve(points, drawing);
        print_axes(axes);
    }
    for (size_t number = 0; number < SIZE(RELAYS); number++)
        for (int turn = 0; turn < 24; turn++)
            relay(number, turn, drawing);
}

static void choose_steps(void) { chosen_curves(NULL); }

static void draw_chosen(void) {
    for (size_t k = 0; k < SIZE(DRAWINGS); k++)
        chosen_curves(&DRAWINGS[k]);
}

/* Patches: 256 x 256 steps at the largest side, so that no step is long and the step test walks along all. Samples are as
   those of curves, and every row is the same along t. Along u there is one walk, through the rows' first cells, so moves
   there count for little: some patches have them, and stay along t. */
static void draw_patch(const uint8_t points[GIDZKHALU_PATCH_BYTES], struct drawing drawing) {
    uint32_t most = GIDZKHALU_PATCH_STEPS_MOST;
    int64_t answer;
    fill_grid(drawing.held);
    answer = gidzkhalu_draw_patch(SIDE, points, GIDZKHALU_PATCH_BYTES, most, most, 255, drawing.choice, grid,
                                  sizeof grid, &new_cells);
    printf("%" PRId64 ": side %d, %" PRIu32 " x %" PRIu32 " steps, ", answer, SIDE, most, most);
    print_drawing(drawing);
}

static void check_patch(const uint8_t points[GIDZKHALU_PATCH_BYTES]) {
    uint32_t most = GIDZKHALU_PATCH_STEPS_MOST;
    printf("%" PRId64 ": side %d, %" PRIu32 " x %" PRIu32 " steps, ",
           gidzkhalu_check_patch(SIDE, points, GIDZKHALU_PATCH_BYTES, most, most), SIDE, most, most);
}

/* drawing: NULL for a check. */
static void patch(int along_u, struct axes axes, const struct drawing *drawing) {
    uint8_t points[GIDZKHALU_PATCH_BYTES];
    for (int k = 0; k < 16; k++)
        put_point(points + 3 * k, axes, along_u ? k % 4 : k / 4, SIDE - 1);
    if (drawing != NULL)
        draw_patch(points, *drawing);
    else
        check_patch(points);
    printf("along %s ", along_u ? "u" : "t");
    print_axes(axes);
}

/* z of a patch most rows of which turn back once as they fall: 64 moves down and one up, where FALLS has 63 down. */
static void turning_patch(struct axes axes, struct drawing drawing) {
    static const uint8_t z[16] = {63, 62, 63, 63, 0, 0, 0, 0, 63, 63, 63, 63, 0, 1, 0, 0};
    uint8_t points[GIDZKHALU_PATCH_BYTES];
    for (int k = 0; k < 16; k++) {
        put_point(points + 3 * k, axes, k / 4, SIDE - 1);
        points[3 * k + 2] = z[k];
    }
    draw_patch(points, drawing);
    printf("along t x %s, y %s, z falls and turns back once\n", PATTERN[axes.x], PATTERN[axes.y]);
}

/* 14520 different cells. x falls and rises along t, y rises and falls; z rises and falls along u. */
static void winding_patch(struct drawing drawing) {
    static const uint8_t points[GIDZKHALU_PATCH_BYTES] = {63, 1,  0,  63, 2,  63, 62, 0,  63, 63, 63, 63, 3,  63, 1, 0,
                                                          63, 63, 0,  63, 63, 0,  63, 1,  0,  63, 0,  1,  63, 63, 0, 63,
                                                          63, 0,  63, 1,  60, 0,  0,  63, 1,  63, 63, 0,  61, 0,  0, 0};
    draw_patch(points, drawing);
    printf("winds through many cells\n");
}

/* A check has no cells, and its step test takes all samples of an accepted patch alike. */
static void check_patches(void) {
    for (int pattern = 0; pattern < PATTERNS; pattern++) {
        struct axes axes = {(enum pattern)pattern, (enum pattern)pattern, (enum pattern)pattern};
        patch(0, axes, NULL);
        patch(1, axes, NULL);
    }
}

static void draw_patches_as(struct drawing drawing) {
    for (int number = 0; number < COMBINATIONS; number++) {
        struct axes axes = axes_of(number);
        if (axes.x != STAYS && axes.y != STAYS && axes.z != STAYS)
            patch(0, axes, &drawing);
    }
    for (int pattern = 0; pattern < PATTERNS; pattern++) {
        struct axes axes = {(enum pattern)pattern, (enum pattern)pattern, (enum pattern)pattern};
        patch(1, axes, &drawing);
        turning_patch(axes, drawing);
    }
    winding_patch(drawing);
}

static void draw_patches(void) {
    for (size_t k = 0; k < SIZE(DRAWINGS); k++)
        draw_patches_as(DRAWINGS[k]);
}

/* Solids: 32 x 32 x 32 steps at the largest side, and no step too long, so that the step test walks along all. Slices are
   drawn row by row along t, as those of a patch are, and samples are as those of curves; moves along u and v count for
   little. In 32 steps a curve of one axis rises or falls by 31 cells at most, as ROW does, with 31 moves. SOLID_AXES has one
   axis of solids in which most rows have 32: a search changed ROW along t, and for the last two the sum of ROW along t and
   along u, by one or a few points at a time. They have 34694, 34734, 34434 and 34423 moves in 34848 steps along t. With the
   first two alone the rows have few different cells; with one of them on x, one of the others on y, and one on z, u and v
   exchanged, most samples have a cell of their own. Each axis rises or falls. */
enum { SOLID_STEPS = GIDZKHALU_SOLID_STEPS_MOST, SOLID_POINTS = GIDZKHALU_SOLID_BYTES / 3 };

static const uint8_t ROW[4] = {0, 10, 21, 31};

static const uint8_t SOLID_AXES[4][SOLID_POINTS] = {
    {16, 16, 15, 16, 15, 12, 15, 15, 15, 16, 14, 15, 16, 15, 15, 16,
     26, 26, 26, 26, 24, 25, 25, 25, 26, 26, 24, 26, 26, 25, 26, 26,
     37, 36, 37, 37, 36, 36, 34, 36, 36, 35, 38, 36, 37, 37, 35, 37,
     47, 46, 48, 47, 46, 47, 45, 47, 47, 46, 48, 46, 47, 47, 46, 47},
    {47, 46, 47, 47, 47, 46, 47, 46, 46, 47, 46, 47, 47, 46, 47, 47,
     37, 35, 38, 37, 36, 36, 35, 35, 36, 37, 35, 37, 37, 35, 37, 37,
     26, 24, 27, 26, 25, 28, 23, 25, 26, 22, 27, 26, 26, 25, 26, 26,
     16, 14, 16, 16, 15, 15, 13, 15, 15, 15, 15, 15, 16, 15, 15, 16},
    {1, 0, 0, 0, 9, 10, 9, 10, 21, 20, 21, 21, 31, 31, 31, 31,
     11, 10, 11, 10, 19, 22, 19, 20, 32, 30, 32, 31, 41, 42, 41, 41,
     22, 21, 21, 21, 31, 32, 29, 32, 41, 42, 43, 41, 52, 53, 51, 52,
     32, 32, 31, 31, 41, 42, 41, 41, 52, 53, 53, 52, 62, 63, 62, 62},
    {31, 33, 31, 31, 41, 41, 42, 41, 52, 53, 53, 52, 62, 63, 62, 62,
     22, 21, 21, 21, 31, 32, 30, 31, 41, 42, 42, 42, 52, 52, 52, 52,
     10, 12, 9, 10, 21, 17, 24, 19, 31, 33, 30, 31, 41, 41, 41, 41,
     1, 0, 0, 0, 9, 10, 9, 10, 21, 20, 21, 21, 31, 31, 31, 31}};

/* drawing: NULL for a check. */
static void solid(const uint8_t points[GIDZKHALU_SOLID_BYTES], const struct drawing *drawing) {
    uint32_t most = SOLID_STEPS;
    int64_t answer;
    if (drawing == NULL) {
        answer = gidzkhalu_check_solid(SIDE, points, GIDZKHALU_SOLID_BYTES, most, most, most);
    } else {
        fill_grid(drawing->held);
        answer = gidzkhalu_draw_solid(SIDE, points, GIDZKHALU_SOLID_BYTES, most, most, most, 255, drawing->choice, grid,
                                      sizeof grid, &new_cells);
    }
    printf("%" PRId64 ": side %d, %d x %d x %d steps, ", answer, SIDE, SOLID_STEPS, SOLID_STEPS, SOLID_STEPS);
    if (drawing != NULL)
        print_drawing(*drawing);
}

/* falls: a bit for each axis. */
static void moving_solid(unsigned falls, int many_cells, const struct drawing *drawing) {
    uint8_t points[GIDZKHALU_SOLID_BYTES];
    for (int at = 0; at < GIDZKHALU_SOLID_BYTES; at++) {
        int axis = at % 3, k = at / 3, exchanged = k / 16 * 16 + k % 4 * 4 + k / 4 % 4;
        const uint8_t *of = SOLID_AXES[(falls >> axis & 1) + (many_cells && axis > 0 ? 2 : 0)];
        points[at] = of[axis == 2 ? exchanged : k];
    }
    solid(points, drawing);
    printf("along t");
    for (int axis = 0; axis < 3; axis++)
        printf(" %c %s,", "xyz"[axis], falls >> axis & 1 ? "falls" : "rises");
    printf(" %s cells\n", many_cells ? "many" : "few");
}

/* x, y and z go along a parameter each as ROW does, or stay where it is 3. */
static void straight_solid(const int along[3], const struct drawing *drawing) {
    static const char *const way[] = {"along t", "along u", "along v", "stays"};
    uint8_t points[GIDZKHALU_SOLID_BYTES];
    for (int at = 0; at < GIDZKHALU_SOLID_BYTES; at++) {
        const int number[4] = {at / 48, at / 12 % 4, at / 3 % 4, 0};
        points[at] = ROW[number[along[at % 3]]];
    }
    solid(points, drawing);
    for (int axis = 0; axis < 3; axis++)
        printf("%c %s%s", "xyz"[axis], way[along[axis]], axis < 2 ? ", " : "\n");
}

static void solids(const struct drawing *drawing) {
    static const int along[][3] = {{0, 0, 0}, {1, 1, 1}, {2, 2, 2}, {0, 1, 2}, {2, 1, 0}, {3, 3, 3}};
    for (unsigned falls = 0; falls < 8; falls++) {
        moving_solid(falls, 0, drawing);
        moving_solid(falls, 1, drawing);
    }
    for (size_t k = 0; k < SIZE(along); k++)
        straight_solid(along[k], drawing);
}

static void check_solids(void) { solids(NULL); }

static void draw_solids(void) {
    for (size_t k = 0; k < SIZE(DRAWINGS); k++)
        solids(&DRAWINGS[k]);
}

/* The strip: curves and patches at its largest side, 17. A curve is drawn with 64 steps, where the step test quits, and with
   47, the most with which it walks. STRIP_AXES are the curves of one axis of which no other has as many moves down and as
   many up: 16 down, 13 down and 9 up, 12 of each, and 16 up, and the second 12 of each the other way round. Every
   combination of them is drawn, over and under, into an unmarked grid and a marked one; of a patch, which has 64 x 64
   steps, every row is such a curve along t. The number of instructions is that of a curve or a patch that stays in one
   marked cell and so many more for each move, by its axis and direction, and under for each new cell. By these numbers a
   search came to the curves and patches that wind. */
enum {
    STRIP_SIDE = GIDZKHALU_STRIP_SIDE_MOST,
    STRIP_STEPS = GIDZKHALU_STRIP_STEPS_MOST,
    STRIP_WALKED_MOST = 3 * (STRIP_SIDE - 1) - 1
};

static const uint8_t STRIP_AXES[][4] = {{16, 0, 0, 0}, {4, 16, 16, 0}, {0, 15, 16, 0}, {16, 1, 0, 16}, {0, 16, 16, 16}};

enum { STRIP_COMBINATIONS = SIZE(STRIP_AXES) * SIZE(STRIP_AXES) * SIZE(STRIP_AXES) };

/* The axes of a combination, of point k along t or u. */
static void put_strip_point(uint8_t *point, size_t number, int k) {
    for (int axis = 0; axis < 3; axis++) {
        point[axis] = STRIP_AXES[number % SIZE(STRIP_AXES)][k];
        number /= SIZE(STRIP_AXES);
    }
}

static void print_points(const uint8_t *points, size_t len) {
    printf("points");
    for (size_t k = 0; k < len; k++)
        printf(" %d", points[k]);
    printf("\n");
}

static void strip_curve(uint32_t steps, const uint8_t points[GIDZKHALU_CURVE_BYTES], struct drawing drawing) {
    int64_t answer;
    fill_grid(drawing.held);
    answer = gidzkhalu_draw_strip_curve(STRIP_SIDE, points, GIDZKHALU_CURVE_BYTES, steps, 255, drawing.choice, grid,
                                        GIDZKHALU_CUBE_BYTES(STRIP_SIDE), &new_cells);
    printf("%" PRId64 ": side %d, %" PRIu32 " steps, ", answer, STRIP_SIDE, steps);
    print_drawing(drawing);
    print_points(points, GIDZKHALU_CURVE_BYTES);
}

static void strip_patch(const uint8_t points[GIDZKHALU_PATCH_BYTES], struct drawing drawing) {
    int64_t answer;
    fill_grid(drawing.held);
    answer = gidzkhalu_draw_strip_patch(STRIP_SIDE, points, GIDZKHALU_PATCH_BYTES, STRIP_STEPS, STRIP_STEPS, 255,
                                        drawing.choice, grid, GIDZKHALU_CUBE_BYTES(STRIP_SIDE), &new_cells);
    printf("%" PRId64 ": side %d, %d x %d steps, ", answer, STRIP_SIDE, STRIP_STEPS, STRIP_STEPS);
    print_drawing(drawing);
    print_points(points, GIDZKHALU_PATCH_BYTES);
}

/* 47 different cells with 47 steps, and 52 with 64. */
static const uint8_t STRIP_WINDING[][GIDZKHALU_CURVE_BYTES] = {{16, 16, 16, 13, 0, 15, 1, 0, 3, 0, 16, 0},
                                                               {1, 16, 16, 16, 0, 8, 16, 1, 7, 0, 16, 0}};

static void strip_curves_as(uint32_t steps, struct drawing drawing) {
    for (size_t number = 0; number < STRIP_COMBINATIONS; number++) {
        uint8_t points[GIDZKHALU_CURVE_BYTES];
        for (int k = 0; k < 4; k++)
            put_strip_point(points + 3 * k, number, k);
        strip_curve(steps, points, drawing);
    }
    for (size_t k = 0; k < SIZE(STRIP_WINDING); k++)
        strip_curve(steps, STRIP_WINDING[k], drawing);
}

/* The last has the latest long step that there is: the last of 46, on z. */
static void strip_curves(void) {
    static const uint8_t late[GIDZKHALU_CURVE_BYTES] = {0, 0, 0, 0, 0, 0, 0, 0, 0, 0, 0, STRIP_SIDE - 1};
    for (size_t k = 0; k < SIZE(DRAWINGS); k++) {
        strip_curves_as(STRIP_STEPS, DRAWINGS[k]);
        strip_curves_as(STRIP_WALKED_MOST, DRAWINGS[k]);
    }
    strip_curve(STRIP_WALKED_MOST - 1, late, DRAWINGS[0]);
}

/* 1002 and 995 different cells. */
static const uint8_t STRIP_WINDING_PATCHES[][GIDZKHALU_PATCH_BYTES] = {
    {16, 16, 16, 15, 0,  16, 16, 0,  16, 16, 0,  0, 0,  16, 0, 0,  16, 16, 0, 16, 16, 13, 16, 0,
     1,  16, 0,  0,  16, 16, 0,  15, 15, 0,  16, 0, 15, 0,  0, 16, 1,  16, 2, 0,  16, 0,  0,  0},
    {16, 16, 15, 0,  16, 16, 1,  16, 16, 2,  16, 0, 16, 0, 0, 16, 0,  16, 16, 2,  16, 16, 1,  1,
     16, 0,  0,  16, 0,  16, 16, 0,  15, 14, 0,  0, 0,  0, 0, 0,  13, 15, 0,  16, 16, 0,  16, 0}};

static void strip_patches(void) {
    for (size_t k = 0; k < SIZE(DRAWINGS); k++) {
        for (size_t number = 0; number < STRIP_COMBINATIONS; number++) {
            uint8_t points[GIDZKHALU_PATCH_BYTES];
            for (int p = 0; p < 16; p++)
                put_strip_point(points + 3 * p, number, p / 4);
            strip_patch(points, DRAWINGS[k]);
        }
        for (size_t p = 0; p < SIZE(STRIP_WINDING_PATCHES); p++)
            strip_patch(STRIP_WINDING_PATCHES[p], DRAWINGS[k]);
    }
}

/* Flips: every point is copied once, whatever the bytes and the counts are; a wrong length is told before. */
static void flips(int patch) {
    size_t right = patch ? GIDZKHALU_PATCH_BYTES : GIDZKHALU_CURVE_BYTES;
    static uint8_t points[64];
    for (int kind = 0; kind < 5; kind++) {
        size_t points_len = kind == 3 ? right + 1 : right, flipped_len = kind == 4 ? right + 1 : right;
        uint32_t n = kind == 0 ? 0 : GIDZKHALU_PATCH_STEPS_MOST, m = kind == 1 ? UINT32_MAX : 1;
        int64_t answer;
        for (size_t k = 0; k < sizeof points; k++)
            points[k] = kind == 0 ? 0 : kind == 1 ? 255 : (uint8_t)k;
        if (patch)
            answer = gidzkhalu_flip_patch(points, points_len, &n, &m, text, flipped_len);
        else
            answer = gidzkhalu_flip_curve(points, points_len, text, flipped_len);
        printf("%" PRId64 ": points of %zu bytes, %s, a flip of %zu\n", answer, points_len,
               kind == 0 ? "all 0" : kind == 1 ? "all 255" : "in a row", flipped_len);
    }
}

static void flip_curves(void) { flips(0); }
static void flip_patches(void) { flips(1); }

/* Swatches: no loops. A hue is compared with the whole numbers in turn, and each row of channels has a path of its own; a
   colour and a grey are shorter, and so is what is refused, the last value at the latest. */
static const struct swatch {
    uint32_t kind;
    float a, b, c;
} SWATCHES[] = {
    {GIDZKHALU_HUE, 0.5f, 0.5f, 0.5f},  {GIDZKHALU_HUE, 1.5f, 0.5f, 0.5f},    {GIDZKHALU_HUE, 2.5f, 0.5f, 0.5f},
    {GIDZKHALU_HUE, 3.5f, 0.5f, 0.5f},  {GIDZKHALU_HUE, 4.5f, 0.5f, 0.5f},    {GIDZKHALU_HUE, 5.5f, 0.5f, 0.5f},
    {GIDZKHALU_HUE, 0.5f, 0.5f, 1e-3f}, {GIDZKHALU_HUE, 5.5f, 0.5f, 2.0f},    {GIDZKHALU_HUE, 7.0f, 0.5f, 0.5f},
    {GIDZKHALU_GREY, 0.5f, 0.5f, 0.5f}, {GIDZKHALU_COLOUR, 0.5f, 0.5f, 0.5f}, {GIDZKHALU_COLOUR, 0.5f, 0.5f, 2.0f}};

static void print_swatch(const struct swatch *s) {
    printf(" kind %" PRIu32 ", %g %g %g", s->kind, (double)s->a, (double)s->b, (double)s->c);
}

static void cells(void) {
    for (size_t k = 0; k < SIZE(SWATCHES); k++) {
        const struct swatch *s = &SWATCHES[k];
        printf("%" PRId64 ": side %d,", gidzkhalu_to_cell(SIDE, s->kind, s->a, s->b, s->c, text, GIDZKHALU_CELL_BYTES),
               SIDE);
        print_swatch(s);
        printf("\n");
    }
}

static void half_ways(void) {
    for (size_t k = 0; k < SIZE(SWATCHES) * SIZE(SWATCHES); k++) {
        const struct swatch *s = &SWATCHES[k / SIZE(SWATCHES)], *t = &SWATCHES[k % SIZE(SWATCHES)];
        printf("%" PRId64 ":", gidzkhalu_half_way(s->kind, s->a, s->b, s->c, t->kind, t->a, t->b, t->c, text,
                                                  GIDZKHALU_CHANNELS_BYTES));
        print_swatch(s);
        printf(" and");
        print_swatch(t);
        printf("\n");
    }
}

/* Sheets: 200 lines of 512 steps at side 40, each read, checked and drawn. The step test of these lines quits; no gap
   is above 39, so the longest walk has 116 steps, and some sheets have lines with that. A field takes longer with more
   digits, so the least coordinate is 0 or 10. A sheet that is refused draws nothing: the last ones are refused for the
   bytes after their 200 lines, one or many. */
enum { SIDE_LINE = 6, LINE = 71, LINES = GIDZKHALU_SHEET_CURVES_MOST, WHOLE = SIDE_LINE + LINES * LINE, TAIL = 100000 };

static uint8_t sheet[WHOLE + TAIL], buffer[GIDZKHALU_SHEET_BUFFER_BYTES];

static void put_field(uint8_t *to, unsigned number) {
    char field[16];
    snprintf(field, sizeof field, "%5u", number);
    memcpy(to, field, 5);
}

static void put_line(uint8_t *line, unsigned steps, struct axes axes, uint8_t least) {
    put_field(line, 255);
    put_field(line + 5, steps);
    for (int k = 0; k < 4; k++) {
        uint8_t point[3];
        put_point(point, axes, k, GIDZKHALU_SHEET_SIDE_MOST - 1);
        for (int axis = 0; axis < 3; axis++)
            put_field(line + 10 + 15 * k + 5 * axis, point[axis] < least ? least : point[axis]);
    }
    line[LINE - 1] = '\n';
}

static void sheet_of(unsigned steps, struct axes axes, uint8_t least, size_t more) {
    int64_t answer;
    put_field(sheet, GIDZKHALU_SHEET_SIDE_MOST);
    sheet[SIDE_LINE - 1] = '\n';
    for (int line = 0; line < LINES; line++)
        put_line(sheet + SIDE_LINE + LINE * line, steps, axes, least);
    answer = gidzkhalu_draw_sheet(sheet, WHOLE + more, buffer, sizeof buffer, &detail, &new_cells);
    printf("%" PRId64 ": side %d, %d lines of %u steps, coordinates from %d, ", answer, GIDZKHALU_SHEET_SIDE_MOST, LINES,
           steps, least);
    print_axes(axes);
}

static void sheets(void) {
    unsigned most = GIDZKHALU_CURVE_STEPS_MOST, walked = 3 * (GIDZKHALU_SHEET_SIDE_MOST - 1) - 1;
    struct axes falls = {FALLS, FALLS, FALLS};
    for (int number = 0; number < COMBINATIONS; number++) {
        struct axes axes = axes_of(number);
        if (axes.x == axes.y && axes.x != STAYS && axes.z != STAYS) {
            sheet_of(most, axes, 0, 0);
            sheet_of(most, axes, 10, 0);
            if (axes.x == axes.z)
                sheet_of(walked, axes, 0, 0);
        }
    }
    sheet_of(most, falls, 0, 1);
    sheet_of(most, falls, 0, TAIL);
}

/* Listings: the whole cube of side 64 with every cell marked; a number takes longer with more digits. */
static void parts(void) {
    static const uint8_t marks[] = {0, 1, 9, 10, 99, 100, 255};
    for (size_t k = 0; k < SIZE(marks); k++)
        for (size_t first = 0; first < 2; first++) {
            fill_grid(marks[k]);
            printf("%" PRId64 ": side %d, from byte %zu, each cell marked %d\n",
                   gidzkhalu_list_part(SIDE, grid, CELLS, first, CELLS, text, sizeof text), SIDE, first, marks[k]);
        }
}

/* Totals: side 64, every mark held, so that there are 256 lines; a number takes longer with more digits. Each mark has
   1024 cells, or 1000 and two or three marks have the rest; or one mark has all cells. Where the marks in turn are moved
   by one from 256 cells to the next, no mark has small coordinates alone. */
static uint8_t mark_of(int kind, size_t p) {
    size_t moved = p % 256 + p / 256;
    switch (kind) {
    case 0:
        return (uint8_t)p;
    case 1:
        return (uint8_t)(p / 1024);
    case 2:
        return (uint8_t)moved;
    case 3:
        return (uint8_t)(p < 256 * 1000 ? moved : p % 2);
    case 4:
        return (uint8_t)(p < 256 * 1000 ? moved : p % 3);
    default:
        return 255;
    }
}

static void totals(void) {
    static const char *const kinds[] = {"in turn", "in blocks", "moved", "moved, then two", "moved, then three", "255"};
    for (int kind = 0; kind < (int)SIZE(kinds); kind++) {
        for (size_t p = 0; p < CELLS; p++)
            grid[p] = mark_of(kind, p);
        printf("%" PRId64 ": side %d, marks %s\n",
               gidzkhalu_totals(SIDE, grid, CELLS, text, GIDZKHALU_TOTALS_BYTES), SIDE, kinds[kind]);
    }
}

/* Refusal lines: a number takes longer with more digits. */
static void refusal_lines(void) {
    static const uint32_t numbers[] = {0, 9, 10, 99, 100, 999, 1000, 9999, 10000, GIDZKHALU_REFUSAL_NUMBER_MOST};
    for (size_t k = 0; k < SIZE(numbers) * SIZE(numbers); k++) {
        uint32_t number = numbers[k / SIZE(numbers)], line = numbers[k % SIZE(numbers)];
        printf("%" PRId64 ": number %" PRIu32 ", line %" PRIu32 "\n",
               gidzkhalu_refusal_line(number, line, text, GIDZKHALU_REFUSAL_LINE_BYTES), number, line);
    }
}

static void known(void) {
    counted();
    printf("a known count\n");
}

static const struct {
    const char *name;
    void (*run)(void);
} FUNCTIONS[] = {{"counted", known},
                 {"gidzkhalu_check_curve", check_curves},
                 {"gidzkhalu_list_curve", list_curves},
                 {"gidzkhalu_draw_curve", draw_curves},
                 {"gidzkhalu_choose_steps", choose_steps},
                 {"gidzkhalu_draw_chosen", draw_chosen},
                 {"gidzkhalu_flip_curve", flip_curves},
                 {"gidzkhalu_list_path", list_paths},
                 {"gidzkhalu_draw_path", draw_paths},
                 {"gidzkhalu_check_patch", check_patches},
                 {"gidzkhalu_draw_patch", draw_patches},
                 {"gidzkhalu_flip_patch", flip_patches},
                 {"gidzkhalu_check_solid", check_solids},
                 {"gidzkhalu_draw_solid", draw_solids},
                 {"gidzkhalu_draw_strip_curve", strip_curves},
                 {"gidzkhalu_draw_strip_patch", strip_patches},
                 {"gidzkhalu_to_cell", cells},
                 {"gidzkhalu_half_way", half_ways},
                 {"gidzkhalu_draw_sheet", sheets},
                 {"gidzkhalu_list_part", parts},
                 {"gidzkhalu_totals", totals},
                 {"gidzkhalu_refusal_line", refusal_lines}};

int main(int argc, char **argv) {
    for (size_t k = 0; argc == 2 && k < SIZE(FUNCTIONS); k++)
        if (strcmp(argv[1], FUNCTIONS[k].name) == 0) {
            FUNCTIONS[k].run();
            return 0;
        }
    fprintf(stderr, "usage: longest FUNCTION\n");
    return 2;
}
