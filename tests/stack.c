/* Measures the stack that each function of the C interface takes at most, over chosen and seeded random calls, and
   compares it with the figures that include/gidzkhalu.h states. Usage: stack NAME=FIGURE ..

   A call is made on a stack of its own, painted before, twice with different paints: a byte that is written with the
   value of one paint shows with the other. Counted are the bytes from the stack pointer just before the call
   instruction down to the lowest byte that changed: the return address, the frame, the callees, and what is written
   below the stack pointer. Room that is reserved below that byte and never written does not show. Not counted are the
   arguments that the caller puts on the stack, which lie above: 8 bytes for list_part, 16 for draw_chosen, 24 for
   draw_curve, draw_path and draw_strip_curve, 32 for draw_patch and draw_strip_patch, 40 for draw_solid. Of memset
   and memcpy, which are all that the library takes from outside, the return address is counted: those of this file take no
   more. A call that needs more than the painted room ends the run by a signal. For x86-64 and Linux alone. */
#define _DEFAULT_SOURCE
#include "cases.h"
#include "gidzkhalu.h"
#include "reference.h"

#include <inttypes.h>
#include <stdarg.h>
#include <stdio.h>
#include <stdlib.h>
#include <string.h>
#include <sys/mman.h>

/* Calls on the painted stack */

/* Words 0 to 5 go in registers, 6 to 10 on the stack; the reals are bit patterns of f32. */
struct call {
    uint64_t function, word[11], real[6];
};

/* Makes the call with the stack pointer at top, above which are six words of room: the five words and the caller's
   stack pointer. The registers that the callee has to keep are 0 meanwhile, so that none of them holds a paint. */
int64_t call_at(const struct call *call, uint8_t *top);

/* Writes the first paint 100 bytes below its return address. */
void write_below(void);

/* The stack pointer with which memset was entered last. */
uint8_t *memset_entered;

__asm__(".text\n"
        ".globl call_at, write_below, memset, memcpy\n"
        "call_at:\n"
        "    pushq %rbx\n"
        "    pushq %rbp\n"
        "    pushq %r12\n"
        "    pushq %r13\n"
        "    pushq %r14\n"
        "    pushq %r15\n"
        "    movq %rdi, %rax\n"
        "    movq 56(%rax), %rcx\n"
        "    movq 64(%rax), %rdx\n"
        "    movq 72(%rax), %r8\n"
        "    movq 80(%rax), %r9\n"
        "    movq 88(%rax), %r10\n"
        "    movq %rcx, 0(%rsi)\n"
        "    movq %rdx, 8(%rsi)\n"
        "    movq %r8, 16(%rsi)\n"
        "    movq %r9, 24(%rsi)\n"
        "    movq %r10, 32(%rsi)\n"
        "    movq %rsp, 40(%rsi)\n"
        "    movq %rsi, %rsp\n"
        "    movq 8(%rax), %rdi\n"
        "    movq 16(%rax), %rsi\n"
        "    movq 24(%rax), %rdx\n"
        "    movq 32(%rax), %rcx\n"
        "    movq 40(%rax), %r8\n"
        "    movq 48(%rax), %r9\n"
        "    movss 96(%rax), %xmm0\n"
        "    movss 104(%rax), %xmm1\n"
        "    movss 112(%rax), %xmm2\n"
        "    movss 120(%rax), %xmm3\n"
        "    movss 128(%rax), %xmm4\n"
        "    movss 136(%rax), %xmm5\n"
        "    xorl %ebx, %ebx\n"
        "    xorl %ebp, %ebp\n"
        "    xorl %r12d, %r12d\n"
        "    xorl %r13d, %r13d\n"
        "    xorl %r14d, %r14d\n"
        "    xorl %r15d, %r15d\n"
        "    call *(%rax)\n"
        "    movq 40(%rsp), %rsp\n"
        "    popq %r15\n"
        "    popq %r14\n"
        "    popq %r13\n"
        "    popq %r12\n"
        "    popq %rbp\n"
        "    popq %rbx\n"
        "    ret\n"
        "write_below:\n"
        "    movb $0x5A, -100(%rsp)\n"
        "    ret\n"
        "memset:\n"
        "    movq %rsp, memset_entered(%rip)\n"
        "    movq %rdi, %r8\n"
        "    movl %esi, %eax\n"
        "    movq %rdx, %rcx\n"
        "    rep stosb\n"
        "    movq %r8, %rax\n"
        "    ret\n"
        "memcpy:\n"
        "    movq %rdi, %rax\n"
        "    movq %rdx, %rcx\n"
        "    rep movsb\n"
        "    ret\n");

enum { PAGE = 4096, ROOM = 4 * PAGE };

static const uint8_t PAINT[] = {0x5A, 0xA5};
static uint8_t *painted; /* the lowest byte of the room */

/* A page that must not be touched, the room, and a page whose first bytes are what lies above the call. */
static void prepare_room(void) {
    uint8_t *pages = mmap(NULL, ROOM + 2 * PAGE, PROT_READ | PROT_WRITE, MAP_PRIVATE | MAP_ANONYMOUS, -1, 0);
    if (pages == MAP_FAILED || mprotect(pages, PAGE, PROT_NONE) != 0) {
        fprintf(stderr, "no memory\n");
        exit(2);
    }
    painted = pages + PAGE;
}

/* The bytes that the call takes, and how many of them when it enters memset, or 0. */
struct taken {
    size_t bytes, at_memset;
};

static struct taken taken_by(const struct call *call, uint8_t paint, int64_t *answer) {
    struct taken taken = {0, 0};
    uint8_t *top = painted + ROOM;
    size_t untouched = 0;
    memset(painted, paint, ROOM);
    memset_entered = NULL;
    *answer = call_at(call, top);
    if (memset_entered != NULL)
        taken.at_memset = (size_t)(top - memset_entered);
    while (untouched < ROOM && painted[untouched] == paint)
        untouched++;
    taken.bytes = ROOM - untouched;
    return taken;
}

/* Functions and their figures */

enum function {
    CHECK_CURVE,
    LIST_CURVE,
    DRAW_CURVE,
    CHOOSE_STEPS,
    DRAW_WITH_CHOSEN,
    FLIP_CURVE,
    LISTED_PATH,
    DRAWN_PATH,
    CHECK_PATCH,
    DRAW_PATCH,
    FLIP_PATCH,
    CHECK_SOLID,
    DRAW_SOLID,
    DRAWN_STRIP_CURVE,
    DRAWN_STRIP_PATCH,
    TO_CELL,
    HALF_WAY,
    DRAW_SHEET,
    LIST_PART,
    TOTALS,
    REFUSAL_LINE,
    FUNCTIONS
};

enum { NUMBERS = 56, WORDS = 100 };

static struct figure {
    const char *name;
    int number[12]; /* what it can answer: 0 for an accepted call, 1 for a check that quit, the refusal numbers, 0 */
    long stated;    /* -1 if none is */
    size_t most, at_memset, most_of[NUMBERS];
    int64_t answer; /* to the first call that took the most */
    char input[WORDS];
} figures[FUNCTIONS] = {
    {"check_curve", {0, GIDZKHALU_QUIT, 51, 11, 13, 14, 15}, -1, 0, 0, {0}, 0, ""},
    {"list_curve", {0, 51, 11, 13, 22, 14, 15}, -1, 0, 0, {0}, 0, ""},
    {"draw_curve", {0, 51, 55, 11, 21, 12, 13, 14, 15}, -1, 0, 0, {0}, 0, ""},
    {"choose_steps", {0, 51, 11, 14}, -1, 0, 0, {0}, 0, ""},
    {"draw_chosen", {0, 51, 55, 11, 21, 12, 14}, -1, 0, 0, {0}, 0, ""},
    {"flip_curve", {0, 51, 52}, -1, 0, 0, {0}, 0, ""},
    {"list_path", {0, 51, 11, 13, 14, 15, 22}, -1, 0, 0, {0}, 0, ""},
    {"draw_path", {0, 51, 55, 11, 21, 12, 13, 14, 15}, -1, 0, 0, {0}, 0, ""},
    {"check_patch", {0, 51, 11, 13, 14, 15}, -1, 0, 0, {0}, 0, ""},
    {"draw_patch", {0, 51, 55, 11, 21, 12, 13, 14, 15}, -1, 0, 0, {0}, 0, ""},
    {"flip_patch", {0, 51, 52}, -1, 0, 0, {0}, 0, ""},
    {"check_solid", {0, 51, 11, 13, 14, 15}, -1, 0, 0, {0}, 0, ""},
    {"draw_solid", {0, 51, 55, 11, 21, 12, 13, 14, 15}, -1, 0, 0, {0}, 0, ""},
    {"draw_strip_curve", {0, 51, 55, 11, 23, 21, 12, 13, 24, 14, 15}, -1, 0, 0, {0}, 0, ""},
    {"draw_strip_patch", {0, 51, 55, 11, 23, 21, 12, 13, 24, 14, 15}, -1, 0, 0, {0}, 0, ""},
    {"to_cell", {0, 53, 52, 11, 31, 33, 32}, -1, 0, 0, {0}, 0, ""},
    {"half_way", {0, 53, 52, 31, 33, 32}, -1, 0, 0, {0}, 0, ""},
    {"draw_sheet", {0, 21, 41, 42, 11, 43, 44, 12, 13, 14, 15}, -1, 0, 0, {0}, 0, ""},
    {"list_part", {0, 11, 21, 22}, -1, 0, 0, {0}, 0, ""},
    {"totals", {0, 11, 21, 22}, -1, 0, 0, {0}, 0, ""},
    {"refusal_line", {0, 54, 22}, -1, 0, 0, {0}, 0, ""},
};

static uint64_t calls_made;

/* What is counted as one answer: accepted calls are, but for those of a check of a curve, which quit or walked. */
static size_t number_of(const struct figure *figure, int64_t answer) {
    if (answer < 0)
        return (size_t)-answer;
    return figure == &figures[CHECK_CURVE] ? (size_t)answer : 0;
}

static void record(struct figure *figure, int64_t answer, struct taken taken, const char words[WORDS]) {
    size_t number = number_of(figure, answer);
    if (number >= NUMBERS) {
        printf("FAILED: %s answered %" PRId64 "\n", figure->name, answer);
        exit(1);
    }
    if (taken.bytes > figure->most_of[number])
        figure->most_of[number] = taken.bytes;
    if (taken.at_memset > figure->at_memset)
        figure->at_memset = taken.at_memset;
    if (taken.bytes > figure->most) {
        figure->most = taken.bytes;
        figure->answer = answer;
        memcpy(figure->input, words, WORDS);
    }
}

/* Makes a call with each paint; its answer must be the one that the same call from C gave. The form says the input. */
static void measure(enum function function, int64_t answer, const struct call *call, const char *form, ...) {
    char words[WORDS];
    int64_t came;
    va_list rest;
    va_start(rest, form);
    vsnprintf(words, WORDS, form, rest);
    va_end(rest);
    for (int k = 0; k < 2; k++) {
        struct taken taken = taken_by(call, PAINT[k], &came);
        if (came != answer) {
            printf("FAILED: %s, %s: %" PRId64 " from C, then %" PRId64 "\n", figures[function].name, words, answer,
                   came);
            exit(1);
        }
        record(&figures[function], answer, taken, words);
    }
    calls_made++;
}

/* A byte that is written as the first paint shows with the second, and nothing of the call's making is counted. */
static int calibrated(void) {
    struct call call = {(uint64_t)write_below, {0}, {0}};
    int64_t answer;
    return taken_by(&call, PAINT[0], &answer).bytes == 8 && taken_by(&call, PAINT[1], &answer).bytes == 8 + 100;
}

#define PLACE(pointer) ((uint64_t)(uintptr_t)(pointer))
#define SIZE(table) (sizeof(table) / sizeof *(table))

/* Curves, patches and solids */

enum { CELLS = GIDZKHALU_CUBE_BYTES(GIDZKHALU_SIDE_MOST), GRID = 300001 };

static uint8_t grid[GRID]; /* the grid or the list */
static uint32_t new_cells, detail;

/* A number of 32 bits in a word: above it a caller may leave anything. */
static uint64_t half_word(uint32_t number) { return UINT64_C(0x3C3C3C3C00000000) | number; }

/* Whether drawings of curves and patches are made on the strip. */
static int asks_strip;

static void measure_on_strip(const struct object_call *c) {
    uint64_t p = PLACE(c->points), len = c->points_len, g = PLACE(c->lent), g_len = c->lent_len;
    uint64_t side = half_word(c->side), n = half_word(c->n), m = half_word(c->m), choice = half_word(c->choice);
    if (c->form == CURVE) {
        struct call call = {(uint64_t)gidzkhalu_draw_strip_curve,
                            {side, p, len, n, c->mark, choice, g, g_len, PLACE(&new_cells)},
                            {0}};
        int64_t answer = gidzkhalu_draw_strip_curve(c->side, c->points, len, c->n, c->mark, c->choice, c->lent, g_len,
                                                    &new_cells);
        measure(DRAWN_STRIP_CURVE, answer, &call, "side %" PRIu32 ", n %" PRIu32 ", mark %d, choice %" PRIu32, c->side,
                c->n, c->mark, c->choice);
    } else {
        struct call call = {(uint64_t)gidzkhalu_draw_strip_patch,
                            {side, p, len, n, m, c->mark, choice, g, g_len, PLACE(&new_cells)},
                            {0}};
        int64_t answer = gidzkhalu_draw_strip_patch(c->side, c->points, len, c->n, c->m, c->mark, c->choice, c->lent,
                                                    g_len, &new_cells);
        measure(DRAWN_STRIP_PATCH, answer, &call,
                "side %" PRIu32 ", n %" PRIu32 ", m %" PRIu32 ", mark %d, choice %" PRIu32, c->side, c->n, c->m, c->mark,
                c->choice);
    }
}

static void measure_solid(const struct object_call *c) {
    uint64_t p = PLACE(c->points), len = c->points_len, g = PLACE(c->lent), g_len = c->lent_len;
    uint64_t side = half_word(c->side), n = half_word(c->n), m = half_word(c->m), l = half_word(c->l);
    if (c->service == CHECK) {
        struct call call = {(uint64_t)gidzkhalu_check_solid, {side, p, len, n, m, l}, {0}};
        measure(CHECK_SOLID, gidzkhalu_check_solid(c->side, c->points, len, c->n, c->m, c->l), &call,
                "side %" PRIu32 ", n %" PRIu32 ", m %" PRIu32 ", l %" PRIu32, c->side, c->n, c->m, c->l);
    } else {
        struct call call = {(uint64_t)gidzkhalu_draw_solid,
                            {side, p, len, n, m, l, c->mark, half_word(c->choice), g, g_len, PLACE(&new_cells)},
                            {0}};
        int64_t answer = gidzkhalu_draw_solid(c->side, c->points, len, c->n, c->m, c->l, c->mark, c->choice, c->lent,
                                              g_len, &new_cells);
        measure(DRAW_SOLID, answer, &call,
                "side %" PRIu32 ", n %" PRIu32 ", m %" PRIu32 ", l %" PRIu32 ", mark %d, choice %" PRIu32, c->side, c->n,
                c->m, c->l, c->mark, c->choice);
    }
}

static void measure_object(const struct object_call *c) {
    uint64_t p = PLACE(c->points), len = c->points_len, g = PLACE(c->lent), g_len = c->lent_len;
    uint64_t side = half_word(c->side), n = half_word(c->n), m = half_word(c->m), choice = half_word(c->choice);
    if (asks_strip) {
        measure_on_strip(c);
    } else if (c->form == SOLID) {
        measure_solid(c);
    } else if (c->form == CURVE && c->service == CHECK) {
        struct call call = {(uint64_t)gidzkhalu_check_curve, {side, p, len, n}, {0}};
        measure(CHECK_CURVE, gidzkhalu_check_curve(c->side, c->points, len, c->n), &call,
                "side %" PRIu32 ", n %" PRIu32, c->side, c->n);
    } else if (c->form == CURVE && c->service == LIST) {
        struct call call = {(uint64_t)gidzkhalu_list_curve, {side, p, len, n, g, g_len}, {0}};
        measure(LIST_CURVE, gidzkhalu_list_curve(c->side, c->points, len, c->n, c->lent, g_len), &call,
                "side %" PRIu32 ", n %" PRIu32, c->side, c->n);
    } else if (c->service == LIST_PATH) {
        struct call call = {(uint64_t)gidzkhalu_list_path, {side, p, len, n, g, g_len}, {0}};
        measure(LISTED_PATH, gidzkhalu_list_path(c->side, c->points, len, c->n, c->lent, g_len), &call,
                "side %" PRIu32 ", n %" PRIu32 ", list of %zu bytes", c->side, c->n, c->lent_len);
    } else if (c->service == DRAW_PATH) {
        struct call call = {(uint64_t)gidzkhalu_draw_path,
                            {side, p, len, n, c->mark, choice, g, g_len, PLACE(&new_cells)},
                            {0}};
        measure(DRAWN_PATH,
                gidzkhalu_draw_path(c->side, c->points, len, c->n, c->mark, c->choice, c->lent, g_len, &new_cells),
                &call, "side %" PRIu32 ", n %" PRIu32 ", mark %d, choice %" PRIu32, c->side, c->n, c->mark, c->choice);
    } else if (c->service == CHOOSE) {
        struct call call = {(uint64_t)gidzkhalu_choose_steps, {side, p, len}, {0}};
        int64_t answer = gidzkhalu_choose_steps(c->side, c->points, len);
        measure(CHOOSE_STEPS, answer, &call, "side %" PRIu32 ", count %" PRId64, c->side, answer);
    } else if (c->service == DRAW_CHOSEN) {
        struct call call = {(uint64_t)gidzkhalu_draw_chosen,
                            {side, p, len, c->mark, choice, g, g_len, PLACE(&new_cells)},
                            {0}};
        int64_t answer =
            gidzkhalu_draw_chosen(c->side, c->points, len, c->mark, c->choice, c->lent, g_len, &new_cells);
        measure(DRAW_WITH_CHOSEN, answer, &call, "side %" PRIu32 ", mark %d, choice %" PRIu32 ", %" PRId64 " samples",
                c->side, c->mark, c->choice, answer);
    } else if (c->form == CURVE) {
        struct call call = {(uint64_t)gidzkhalu_draw_curve,
                            {side, p, len, n, c->mark, choice, g, g_len, PLACE(&new_cells)},
                            {0}};
        measure(DRAW_CURVE,
                gidzkhalu_draw_curve(c->side, c->points, len, c->n, c->mark, c->choice, c->lent, g_len, &new_cells),
                &call, "side %" PRIu32 ", n %" PRIu32 ", mark %d, choice %" PRIu32, c->side, c->n, c->mark, c->choice);
    } else if (c->service == CHECK) {
        struct call call = {(uint64_t)gidzkhalu_check_patch, {side, p, len, n, m}, {0}};
        measure(CHECK_PATCH, gidzkhalu_check_patch(c->side, c->points, len, c->n, c->m), &call,
                "side %" PRIu32 ", n %" PRIu32 ", m %" PRIu32, c->side, c->n, c->m);
    } else {
        struct call call = {(uint64_t)gidzkhalu_draw_patch,
                            {side, p, len, n, m, c->mark, choice, g, g_len, PLACE(&new_cells)},
                            {0}};
        int64_t answer = gidzkhalu_draw_patch(c->side, c->points, len, c->n, c->m, c->mark, c->choice, c->lent, g_len,
                                              &new_cells);
        measure(DRAW_PATCH, answer, &call,
                "side %" PRIu32 ", n %" PRIu32 ", m %" PRIu32 ", mark %d, choice %" PRIu32, c->side, c->n, c->m, c->mark,
                c->choice);
    }
}

/* A table of numbers. */
struct numbers {
    const uint32_t *at;
    size_t many;
};

#define NUMBERS_OF(table) ((struct numbers){table, SIZE(table)})

/* The least and the greatest, with the first and the last that are refused. */
static const uint32_t SIDES[] = {0, 1, 2, 3, 40, 41, 64, 65, 0xFFFFFFFF};

/* With side 64 and 187 steps, the one long step of a curve whose first or last point lies alone is beside it. With 188
   steps there is none, and the step test walks; with 189 it quits. */
static const uint32_t CURVE_COUNTS[] = {0, 1, 2, 3, 187, 188, 189, 511, 512, 513, 0xFFFFFFFF};
static const uint32_t PATCH_COUNTS[] = {0, 1, 2, 187, 256, 257};
static const uint32_t SOLID_COUNTS[] = {0, 1, 2, 32, 33};

/* The same on the strip, where 46, 47 and 48 steps are to side 17 what 187, 188 and 189 are to side 64. */
static const uint32_t STRIP_SIDES[] = {0, 1, 2, 3, 17, 18, 64, 65, 0xFFFFFFFF};
static const uint32_t STRIP_CURVE_COUNTS[] = {0, 1, 2, 3, 46, 47, 48, 63, 64, 65, 512, 513, 0xFFFFFFFF};
static const uint32_t STRIP_PATCH_COUNTS[] = {0, 1, 46, 64, 65, 256, 257};

/* Coordinates of the points, the same on the three axes; out is the least that is refused. Where the box chooses the
   count, the patterns have counts from 1 to 188 at side 64. */
enum pattern { ALL_LEAST, ALL_GREATEST, IN_TURN, IN_A_ROW, FIRST_ALONE, LAST_ALONE, FIRST_OUT, LAST_OUT, PATTERNS };

static uint8_t patterned(enum pattern pattern, size_t k, size_t count, uint32_t side) {
    uint8_t out = side < 255 ? (uint8_t)side : 255, greatest = out == 0 ? 0 : (uint8_t)(out - 1);
    switch (pattern) {
    case ALL_LEAST:
        return 0;
    case ALL_GREATEST:
        return greatest;
    case IN_TURN:
        return k % 2 == 0 ? 0 : greatest;
    case IN_A_ROW:
        return (uint8_t)(greatest * k / (count - 1));
    case FIRST_ALONE:
        return k == 0 ? greatest : 0;
    case LAST_ALONE:
        return k == count - 1 ? greatest : 0;
    case FIRST_OUT:
        return k == 0 ? out : 0;
    default:
        return k == count - 1 ? out : 0;
    }
}

/* The call as it is, a drawing over and under, and with each wrong choice, mark, length of the record and length of the
   list or grid. */
static void measure_with_faults(const struct object_call *right) {
    static const uint32_t choices[] = {UNDER, 2, 0xFFFFFFFF};
    static const size_t lengths[] = {0, 11, 12, 13, 47, 48, 49, 191, 192, 193};
    struct object_call c = *right;
    measure_object(&c);
    for (size_t k = 0; k < SIZE(choices) && draws(&c); k++) {
        c.choice = choices[k];
        measure_object(&c);
    }
    c.choice = right->choice;
    c.mark = 0;
    measure_object(&c);
    c.mark = 255;
    for (size_t k = 0; k < SIZE(lengths); k++) {
        c.points_len = lengths[k];
        measure_object(&c);
    }
    c.points_len = right->points_len;
    c.lent_len = 0;
    measure_object(&c);
    c.lent_len = right->lent_len + 1;
    measure_object(&c);
    c.lent_len = right->lent_len > 0 ? right->lent_len - 1 : 0;
    measure_object(&c);
}

static void chosen_object(struct object_call *c, uint8_t *points, enum pattern pattern) {
    size_t count = record_bytes(c->form) / 3;
    c->mark = 1;
    c->points = points;
    c->points_len = 3 * count;
    for (size_t k = 0; k < 3 * count; k++)
        points[k] = patterned(pattern, k / 3, count, c->side);
    c->lent = grid;
    if (c->service == LIST)
        c->lent_len = GIDZKHALU_LIST_BYTES(c->n > 512 ? 512 : c->n);
    else if (c->service == LIST_PATH)
        c->lent_len = GIDZKHALU_PATH_LIST_BYTES(c->n > 512 ? 512 : c->n);
    else
        c->lent_len = c->side > 64 ? CELLS : (size_t)c->side * c->side * c->side;
    measure_with_faults(c);
    if (c->service == LIST_PATH && 1 <= c->n && c->n <= 512) { /* and a list that its cells fill */
        c->lent_len = GIDZKHALU_CELL_BYTES * path_length(c);
        measure_with_faults(c);
    }
}

static void objects_of(enum service service, enum form form, struct numbers sides, struct numbers counts) {
    uint8_t points[RECORD_ROOM] = {0};
    for (size_t s = 0; s < sides.many; s++)
        for (size_t n = 0; n < counts.many; n++)
            for (size_t m = 0; m < (form == CURVE ? 1 : counts.many); m++)
                for (size_t l = 0; l < (form == SOLID ? counts.many : 1); l++)
                    for (int pattern = 0; pattern < PATTERNS; pattern++) {
                        struct object_call c = {service, form, sides.at[s], 0, 0, 0, 0, OVER, NULL, 0, NULL, 0, NULL};
                        c.n = counts.at[n];
                        c.m = counts.at[m];
                        c.l = counts.at[l];
                        chosen_object(&c, points, (enum pattern)pattern);
                    }
}

/* A call that chooses its count is made once for all counts. */
static void chosen_objects(enum service service, enum form form) {
    struct numbers counts = NUMBERS_OF(CURVE_COUNTS);
    if (form != CURVE)
        counts = form == PATCH ? NUMBERS_OF(PATCH_COUNTS) : NUMBERS_OF(SOLID_COUNTS);
    if (service == CHOOSE || service == DRAW_CHOSEN)
        counts.many = 1;
    objects_of(service, form, NUMBERS_OF(SIDES), counts);
}

static void chosen_strip_objects(enum form form) {
    asks_strip = 1;
    objects_of(DRAW, form, NUMBERS_OF(STRIP_SIDES),
               form == PATCH ? NUMBERS_OF(STRIP_PATCH_COUNTS) : NUMBERS_OF(STRIP_CURVE_COUNTS));
    asks_strip = 0;
}

static void random_object_call(enum service service, enum form form) {
    struct object_call c = {service, form, 0, 0, 0, 0, 0, OVER, NULL, 0, grid, 0, NULL};
    uint8_t points[RECORD_ROOM];
    int large = one_in(16);
    c.side = large ? 33 + below(32) : random_side();
    random_object(&c, points, large, random_faults(ALL_FAULTS));
    measure_object(&c);
}

/* Mostly of a side that the strip takes; now and then with more steps than it does. */
static void random_strip_call(enum form form) {
    struct object_call c = {DRAW, form, 0, 0, 0, 0, 0, OVER, NULL, 0, grid, 0, NULL};
    uint8_t points[RECORD_ROOM];
    c.side = one_in(8) ? random_side() : 2 + below(16);
    random_object(&c, points, 0, random_faults(ALL_FAULTS));
    if (one_in(8))
        *(form == PATCH && one_in(2) ? &c.m : &c.n) = 65 + below(form == PATCH ? 192 : 448);
    asks_strip = 1;
    measure_object(&c);
    asks_strip = 0;
}

/* The calls that choose the count: those of chosen_objects, and of every side from 2 to 64 each axis alone in each of the
   patterns. */
static void chosen_choices(enum service service) {
    uint8_t points[RECORD_ROOM] = {0};
    chosen_objects(service, CURVE);
    for (uint32_t side = 2; side <= 64; side++)
        for (int pattern = 0; pattern < PATTERNS; pattern++)
            for (size_t axis = 0; axis < 3; axis++) {
                struct object_call c = {service, CURVE, side, 0, 0, 0, 255, UNDER, points, 12, grid, 0, NULL};
                c.lent_len = GIDZKHALU_CUBE_BYTES(side);
                for (size_t k = 0; k < 12; k++)
                    points[k] = k % 3 == axis ? patterned((enum pattern)pattern, k / 3, 4, side) : 0;
                measure_object(&c);
            }
}

/* Points that make the choice hard, and any. */
static void random_choice_call(enum service service) {
    struct object_call c = {service, CURVE, 0, 0, 0, 0, 0, OVER, NULL, 0, grid, 0, NULL};
    uint8_t points[RECORD_ROOM];
    int large = one_in(16);
    c.side = large ? 33 + below(32) : random_side();
    if (one_in(4))
        random_object(&c, points, large, random_faults(ALL_FAULTS));
    else
        random_chosen(&c, points, large, random_faults(CHOSEN_FAULTS));
    measure_object(&c);
}

static void chosen_check_curves(void) { chosen_objects(CHECK, CURVE); }
static void chosen_list_curves(void) { chosen_objects(LIST, CURVE); }
static void chosen_draw_curves(void) { chosen_objects(DRAW, CURVE); }
static void chosen_choose_steps(void) { chosen_choices(CHOOSE); }
static void chosen_draws_with_chosen(void) { chosen_choices(DRAW_CHOSEN); }
static void chosen_list_paths(void) { chosen_objects(LIST_PATH, CURVE); }
static void chosen_draw_paths(void) { chosen_objects(DRAW_PATH, CURVE); }
static void chosen_check_patches(void) { chosen_objects(CHECK, PATCH); }
static void chosen_draw_patches(void) { chosen_objects(DRAW, PATCH); }
static void chosen_check_solids(void) { chosen_objects(CHECK, SOLID); }
static void chosen_draw_solids(void) { chosen_objects(DRAW, SOLID); }
static void chosen_strip_curves(void) { chosen_strip_objects(CURVE); }
static void chosen_strip_patches(void) { chosen_strip_objects(PATCH); }

static void random_check_curve(void) { random_object_call(CHECK, CURVE); }
static void random_list_curve(void) { random_object_call(LIST, CURVE); }
static void random_draw_curve(void) { random_object_call(DRAW, CURVE); }
static void random_choose_steps(void) { random_choice_call(CHOOSE); }
static void random_draw_with_chosen(void) { random_choice_call(DRAW_CHOSEN); }
static void random_list_path(void) { random_object_call(LIST_PATH, CURVE); }
static void random_draw_path(void) { random_object_call(DRAW_PATH, CURVE); }
static void random_check_patch(void) { random_object_call(CHECK, PATCH); }
static void random_draw_patch(void) { random_object_call(DRAW, PATCH); }
static void random_check_solid(void) { random_object_call(CHECK, SOLID); }
static void random_draw_solid(void) { random_object_call(DRAW, SOLID); }
static void random_strip_curve(void) { random_strip_call(CURVE); }
static void random_strip_patch(void) { random_strip_call(PATCH); }

/* Flips */

static uint8_t record_points[64], flipped[64];

/* A patch's counts stand exchanged after each call. */
static void measure_flip(int patch, uint32_t n, uint32_t m, size_t points_len, size_t flipped_len) {
    uint64_t p = PLACE(record_points), to = PLACE(flipped);
    if (patch) {
        struct call call = {
            (uint64_t)gidzkhalu_flip_patch, {p, points_len, PLACE(&n), PLACE(&m), to, flipped_len}, {0}};
        measure(FLIP_PATCH, gidzkhalu_flip_patch(record_points, points_len, &n, &m, flipped, flipped_len), &call,
                "points of %zu bytes, flip of %zu, n %" PRIu32 ", m %" PRIu32, points_len, flipped_len, n, m);
    } else {
        struct call call = {(uint64_t)gidzkhalu_flip_curve, {p, points_len, to, flipped_len}, {0}};
        measure(FLIP_CURVE, gidzkhalu_flip_curve(record_points, points_len, flipped, flipped_len), &call,
                "points of %zu bytes, flip of %zu", points_len, flipped_len);
    }
}

/* Every two lengths, with the least and the greatest bytes and with bytes in a row, and with the ends of the counts. */
static void chosen_flips(int patch) {
    static const size_t lengths[] = {0, 1, 11, 12, 13, 47, 48, 49, 64};
    static const uint32_t counts[] = {0, 1, 256, 257, 0xFFFFFFFF};
    for (int bytes = 0; bytes < 3; bytes++) {
        for (size_t k = 0; k < sizeof record_points; k++)
            record_points[k] = bytes == 0 ? 0 : bytes == 1 ? 255 : (uint8_t)k;
        for (size_t p = 0; p < SIZE(lengths); p++)
            for (size_t f = 0; f < SIZE(lengths); f++)
                for (size_t n = 0; n < (patch ? SIZE(counts) : 1); n++)
                    for (size_t m = 0; m < (patch ? SIZE(counts) : 1); m++)
                        measure_flip(patch, counts[n], counts[m], lengths[p], lengths[f]);
    }
}

static void random_flip(int patch) {
    size_t right = patch ? GIDZKHALU_PATCH_BYTES : GIDZKHALU_CURVE_BYTES;
    size_t points_len = one_in(8) ? below(65) : right, flipped_len = one_in(8) ? below(65) : right;
    random_bytes(record_points, sizeof record_points);
    measure_flip(patch, random_word(), random_word(), points_len, flipped_len);
}

static void chosen_flip_curves(void) { chosen_flips(0); }
static void chosen_flip_patches(void) { chosen_flips(1); }
static void random_flip_curve(void) { random_flip(0); }
static void random_flip_patch(void) { random_flip(1); }

/* Swatches */

static void measure_to_cell(uint32_t side, const struct swatch *s, size_t cell_len) {
    uint8_t cell[16];
    const uint32_t *v = s->number;
    struct call call = {(uint64_t)gidzkhalu_to_cell, {side, s->kind, PLACE(cell), cell_len}, {v[0], v[1], v[2]}};
    measure(TO_CELL, gidzkhalu_to_cell(side, s->kind, float_of(v[0]), float_of(v[1]), float_of(v[2]), cell, cell_len),
            &call, "side %" PRIu32 ", kind %" PRIu32 ", %08" PRIX32 " %08" PRIX32 " %08" PRIX32, side, s->kind, v[0],
            v[1], v[2]);
}

static void measure_half_way(const struct swatch *first, const struct swatch *second, size_t channels_len) {
    uint8_t channels[16];
    const uint32_t *v = first->number, *w = second->number;
    struct call call = {(uint64_t)gidzkhalu_half_way,
                        {first->kind, second->kind, PLACE(channels), channels_len},
                        {v[0], v[1], v[2], w[0], w[1], w[2]}};
    int64_t answer = gidzkhalu_half_way(first->kind, float_of(v[0]), float_of(v[1]), float_of(v[2]), second->kind,
                                        float_of(w[0]), float_of(w[1]), float_of(w[2]), channels, channels_len);
    measure(HALF_WAY, answer, &call,
            "kinds %" PRIu32 " %" PRIu32 ", %08" PRIX32 " %08" PRIX32 " %08" PRIX32 ", %08" PRIX32 " %08" PRIX32
            " %08" PRIX32,
            first->kind, second->kind, v[0], v[1], v[2], w[0], w[1], w[2]);
}

static const uint32_t KINDS[] = {0, 1, 2, 3, 0xFFFFFFFF};
static const size_t LENGTHS[] = {0, 1, 2, 3, 4, 11, 12, 13, 16};

/* 0 and minus 0, the ends of subnormal and normal numbers, a half, 1 and the next, a hue between each two whole numbers
   from 1 to 6, the last below 6, and 6, below 0, infinite, no number. */
static const uint32_t REALS[] = {0x00000000, 0x80000000, 0x00000001, 0x007FFFFF, 0x00800000, 0x3F000000, 0x3F800000,
                                 0x3F800001, 0x3FC00000, 0x40200000, 0x40600000, 0x40900000, 0x40B00000, 0x40BFFFFF,
                                 0x40C00000, 0x80000001, 0xBF800000, 0x7F7FFFFF, 0x7F800000, 0xFF800000, 0x7FC00000};

enum { HALF = 0x3F000000 };

/* One number is chosen, the others are a half. */
static struct swatch chosen_swatch(uint32_t kind, size_t place, uint32_t number) {
    struct swatch s = {kind, {HALF, HALF, HALF}};
    s.number[place] = number;
    return s;
}

static void chosen_cells(uint32_t kind, size_t place, uint32_t number) {
    struct swatch s = chosen_swatch(kind, place, number);
    for (size_t side = 0; side < SIZE(SIDES); side++)
        for (size_t len = 0; len < SIZE(LENGTHS); len++)
            measure_to_cell(SIDES[side], &s, LENGTHS[len]);
}

static void chosen_to_cells(void) {
    for (size_t k = 0; k < SIZE(KINDS); k++)
        for (size_t place = 0; place < 3; place++)
            for (size_t v = 0; v < SIZE(REALS); v++)
                chosen_cells(KINDS[k], place, REALS[v]);
}

static void chosen_halves(uint32_t kind, uint32_t kind2, size_t place) {
    for (size_t v = 0; v < SIZE(REALS); v++)
        for (size_t w = 0; w < SIZE(REALS); w++) {
            struct swatch first = chosen_swatch(kind, place, REALS[v]);
            struct swatch second = chosen_swatch(kind2, place, REALS[w]);
            measure_half_way(&first, &second, GIDZKHALU_CHANNELS_BYTES);
            measure_half_way(&first, &second, LENGTHS[v % SIZE(LENGTHS)]);
        }
}

static void chosen_half_ways(void) {
    for (size_t k = 0; k < SIZE(KINDS); k++)
        for (size_t k2 = 0; k2 < SIZE(KINDS); k2++)
            for (size_t place = 0; place < 3; place++)
                chosen_halves(KINDS[k], KINDS[k2], place);
}

static size_t random_length(size_t right) { return one_in(16) ? LENGTHS[below(SIZE(LENGTHS))] : right; }

static void random_to_cell(void) {
    uint32_t side = one_in(8) ? bad_side() : 2 + below(63);
    struct swatch s;
    random_swatch(&s, below(KINDS_OF_SWATCH), side);
    if (one_in(16))
        s.kind = bad_kind();
    measure_to_cell(side, &s, random_length(GIDZKHALU_CELL_BYTES));
}

static void random_half_way(void) {
    struct swatch first, second;
    random_swatch(&first, below(KINDS_OF_SWATCH), random_side());
    random_second(&second, &first);
    if (one_in(16))
        first.kind = bad_kind();
    if (one_in(16))
        second.kind = bad_kind();
    measure_half_way(&first, &second, random_length(GIDZKHALU_CHANNELS_BYTES));
}

/* Sheets: line 1 is 6 bytes, each curve line 71 */

enum { BUFFER = GIDZKHALU_SHEET_BUFFER_BYTES, SIDE_LINE = 6, LINE = 71, LINES = GIDZKHALU_SHEET_CURVES_MOST };

static uint8_t input[SHEET_ROOM], buffer[BUFFER + 1];

static void measure_sheet(size_t input_len, size_t buffer_len) {
    struct call call = {(uint64_t)gidzkhalu_draw_sheet,
                        {PLACE(input), input_len, PLACE(buffer), buffer_len, PLACE(&detail), PLACE(&new_cells)},
                        {0}};
    measure(DRAW_SHEET, gidzkhalu_draw_sheet(input, input_len, buffer, buffer_len, &detail, &new_cells), &call,
            "a sheet of %zu bytes", input_len);
}

static void put_field(uint8_t *to, unsigned number) {
    char field[16];
    snprintf(field, sizeof field, "%5u", number);
    memcpy(to, field, 5);
}

static uint8_t *field_of(size_t line, size_t field) { return input + SIDE_LINE + (line - 1) * LINE + 5 * field; }

/* Lines from one corner of the cube to the other; answers the length. */
static size_t put_sheet(unsigned side, size_t lines, unsigned mark, unsigned steps) {
    put_field(input, side);
    input[5] = '\n';
    for (size_t line = 1; line <= lines; line++) {
        put_field(field_of(line, 0), mark);
        put_field(field_of(line, 1), steps);
        for (size_t k = 0; k < 12; k++)
            put_field(field_of(line, 2 + k), k < 6 ? 0 : side - 1);
        field_of(line, 14)[0] = '\n';
    }
    return SIDE_LINE + LINE * lines;
}

/* A line with other steps and another number in one of its fields, for side 40: 12, 13, 14 and 15. */
static const struct {
    unsigned steps, number;
    size_t field;
} BAD_FIELDS[] = {{512, 0, 0},  {512, 256, 0}, {512, 99999, 0},  {0, 1, 0},   {513, 1, 0},
                  {512, 40, 2}, {512, 40, 13}, {512, 99999, 13}, {1, 39, 13}, {3, 39, 13}};

static void bad_lines(size_t lines, size_t line) {
    size_t len;
    for (size_t k = 0; k < SIZE(BAD_FIELDS); k++) {
        len = put_sheet(40, lines, 255, 512);
        put_field(field_of(line, 1), BAD_FIELDS[k].steps);
        put_field(field_of(line, BAD_FIELDS[k].field), BAD_FIELDS[k].number);
        measure_sheet(len, BUFFER);
    }
    for (size_t field = 0; field <= 14; field++) { /* 42, and 41 for the line feed */
        len = put_sheet(40, lines, 255, 512);
        field_of(line, field)[field < 14 ? 4 : 0] = 'x';
        measure_sheet(len, BUFFER);
    }
}

/* A sheet as it is, cut short by a byte, in wrong buffers, and with a byte too many. */
static void whole_sheets(unsigned side, size_t lines, unsigned steps) {
    static const uint8_t more[] = {'\n', ' ', '1'};
    size_t len = put_sheet(side, lines, 1, steps);
    measure_sheet(len, BUFFER);
    measure_sheet(len - 1, BUFFER);
    measure_sheet(len, BUFFER - 1);
    measure_sheet(len, BUFFER + 1);
    measure_sheet(len, 0);
    for (size_t k = 0; k < SIZE(more); k++) {
        input[len] = more[k];
        measure_sheet(len + 1, BUFFER);
    }
}

/* At side 40 the step test of a line walks with 116 steps and quits with 117. */
static void chosen_sheets(void) {
    static const unsigned sides[] = {0, 1, 2, 3, 39, 40, 41, 64, 65, 99999}, steps[] = {0, 1, 3, 116, 117, 512, 513};
    static const size_t lines[] = {0, 1, 2, LINES - 1, LINES, LINES + 1};
    measure_sheet(0, BUFFER);
    for (size_t s = 0; s < SIZE(sides); s++)
        for (size_t k = 0; k < SIZE(lines); k++)
            for (size_t n = 0; n < SIZE(steps); n++)
                whole_sheets(sides[s], lines[k], steps[n]);
    for (size_t k = 1; k < SIZE(lines) - 1; k++) {
        bad_lines(lines[k], 1);
        bad_lines(lines[k], lines[k]);
    }
}

static void random_draw_sheet(void) {
    size_t len = random_sheet(input, one_in(8));
    measure_sheet(len, one_in(32) ? below(BUFFER + 2) : BUFFER);
}

/* Listings and totals */

enum { TOTALS_TEXT = GIDZKHALU_TOTALS_BYTES };

static uint8_t text[GIDZKHALU_PART_BYTES(CELLS + 1)];

/* Each side with unmarked cells, with the least and the greatest mark, with other ends, and with all marks in turn. */
static void chosen_cubes(void (*measure_cube)(uint32_t side, size_t len)) {
    static const uint8_t marks[] = {0, 1, 255};
    for (size_t s = 0; s < SIZE(SIDES); s++) {
        size_t len = SIDES[s] > 64 ? CELLS : (size_t)SIDES[s] * SIDES[s] * SIDES[s];
        for (size_t k = 0; k < SIZE(marks); k++) {
            memset(grid, marks[k], CELLS);
            measure_cube(SIDES[s], len);
            grid[0] = (uint8_t)(255 - marks[k]);
            grid[len > 0 ? len - 1 : 0] = (uint8_t)(255 - marks[k]);
            measure_cube(SIDES[s], len);
        }
        for (size_t k = 0; k < CELLS; k++)
            grid[k] = (uint8_t)k;
        measure_cube(SIDES[s], len);
    }
}

/* A cube in the grid: its length, now and then a wrong one, and its side, now and then a bad one. */
static size_t random_cube_of(uint32_t *side) {
    uint32_t right = one_in(16) ? 2 + below(63) : 2 + below(8);
    size_t len = (size_t)right * right * right;
    random_cube(grid, len);
    *side = one_in(16) ? bad_side() : right;
    return one_in(16) ? below((uint32_t)len + 2) : len;
}

static void measure_part(uint32_t side, size_t cube_len, size_t first, size_t count, size_t text_len) {
    struct call call = {
        (uint64_t)gidzkhalu_list_part, {side, PLACE(grid), cube_len, first, count, PLACE(text), text_len}, {0}};
    measure(LIST_PART, gidzkhalu_list_part(side, grid, cube_len, first, count, text, text_len), &call,
            "side %" PRIu32 ", first %zu, count %zu", side, first, count);
}

/* Parts that are empty, of one place and whole, from the front, the end and past it, with text enough and too short. */
static void chosen_parts_of(uint32_t side, size_t len) {
    size_t firsts[] = {0, 1, len - 1, len, SIZE_MAX}, counts[] = {0, 1, len, len + 1, SIZE_MAX};
    for (size_t f = 0; f < SIZE(firsts); f++)
        for (size_t k = 0; k < SIZE(counts); k++) {
            size_t enough = counts[k] > CELLS ? sizeof text : GIDZKHALU_PART_BYTES(counts[k]);
            measure_part(side, len, firsts[f], counts[k], enough);
            measure_part(side, len, firsts[f], counts[k], enough - 1);
            measure_part(side, len, firsts[f], counts[k], 0);
            measure_part(side, len + 1, firsts[f], counts[k], enough);
        }
}

static void chosen_parts(void) { chosen_cubes(chosen_parts_of); }

static void random_list_part(void) {
    uint32_t side;
    size_t len = random_cube_of(&side), first = one_in(3) ? 0 : below((uint32_t)len + 2);
    size_t count = one_in(3) ? len : below((uint32_t)len + 1), enough = GIDZKHALU_PART_BYTES(count);
    measure_part(side, len, first, count, one_in(8) ? below((uint32_t)enough) : enough);
}

static void measure_totals(uint32_t side, size_t cube_len, size_t text_len) {
    struct call call = {(uint64_t)gidzkhalu_totals, {side, PLACE(grid), cube_len, PLACE(text), text_len}, {0}};
    measure(TOTALS, gidzkhalu_totals(side, grid, cube_len, text, text_len), &call,
            "side %" PRIu32 ", cube of %zu bytes, text of %zu bytes", side, cube_len, text_len);
}

static void chosen_totals_of(uint32_t side, size_t len) {
    static const size_t lengths[] = {0, TOTALS_TEXT - 1, TOTALS_TEXT, TOTALS_TEXT + 1};
    for (size_t k = 0; k < SIZE(lengths); k++) {
        measure_totals(side, len, lengths[k]);
        measure_totals(side, len + 1, lengths[k]);
        measure_totals(side, 0, lengths[k]);
    }
}

static void chosen_totals(void) { chosen_cubes(chosen_totals_of); }

static void random_totals(void) {
    uint32_t side;
    size_t len = random_cube_of(&side);
    measure_totals(side, len, one_in(8) ? below(TOTALS_TEXT) : TOTALS_TEXT);
}

static void measure_line(uint32_t number, uint32_t line, size_t text_len) {
    struct call call = {(uint64_t)gidzkhalu_refusal_line, {number, line, PLACE(text), text_len}, {0}};
    measure(REFUSAL_LINE, gidzkhalu_refusal_line(number, line, text, text_len), &call,
            "number %" PRIu32 ", line %" PRIu32 ", text of %zu bytes", number, line, text_len);
}

static void chosen_lines(void) {
    static const uint32_t numbers[] = {0,   1,    9,    10,    44,    99,     100,       201,
                                       999, 1000, 9999, 10000, 99999, 100000, 0xFFFFFFFF};
    static const size_t lengths[] = {0, 1, 17, 18, 19, 1000};
    for (size_t k = 0; k < SIZE(numbers); k++)
        for (size_t line = 0; line < SIZE(numbers); line++)
            for (size_t len = 0; len < SIZE(lengths); len++)
                measure_line(numbers[k], numbers[line], lengths[len]);
}

static void random_refusal_line(void) {
    uint32_t number = one_in(2) ? below(100) : random_word(), line = one_in(2) ? below(203) : random_word();
    measure_line(number, line, one_in(4) ? below(18) : 18 + below(8));
}

/* The run */

enum { RANDOM_CALLS = 5000 };

static void (*const CHOSEN[FUNCTIONS])(void) = {
    chosen_check_curves, chosen_list_curves,  chosen_draw_curves,   chosen_choose_steps,  chosen_draws_with_chosen,
    chosen_flip_curves,  chosen_list_paths,   chosen_draw_paths,    chosen_check_patches, chosen_draw_patches,
    chosen_flip_patches, chosen_check_solids, chosen_draw_solids,   chosen_strip_curves,  chosen_strip_patches,
    chosen_to_cells,     chosen_half_ways,    chosen_sheets,        chosen_parts,         chosen_totals,
    chosen_lines};

static void (*const RANDOM[FUNCTIONS])(void) = {
    random_check_curve, random_list_curve,  random_draw_curve,  random_choose_steps, random_draw_with_chosen,
    random_flip_curve,  random_list_path,   random_draw_path,   random_check_patch,  random_draw_patch,
    random_flip_patch,  random_check_solid, random_draw_solid,  random_strip_curve,  random_strip_patch,
    random_to_cell,     random_half_way,    random_draw_sheet,  random_list_part,    random_totals,
    random_refusal_line};

static void run(void) {
    start_run(1);
    for (int k = 0; k < FUNCTIONS; k++) {
        CHOSEN[k]();
        for (uint64_t number = 0; number < RANDOM_CALLS; number++) {
            start_case((uint64_t)k, number);
            RANDOM[k]();
        }
    }
}

/* Takes NAME=FIGURE from the command line; an empty figure is none. */
static int take_stated(const char *word) {
    const char *number = strchr(word, '=');
    for (int k = 0; k < FUNCTIONS && number != NULL; k++) {
        size_t len = strlen(figures[k].name);
        if (strncmp(word, figures[k].name, len) == 0 && word + len == number) {
            figures[k].stated = number[1] == 0 ? -1 : strtol(number + 1, NULL, 10);
            return 1;
        }
    }
    printf("FAILED: %s is stated, and no such function measured\n", word);
    return 0;
}

static void print_figures(void) {
    printf("%-16s %5s %7s  %s\n", "function", "bytes", "stated", "first reached by");
    for (int k = 0; k < FUNCTIONS; k++) {
        const struct figure *f = &figures[k];
        printf("%-16s %5zu ", f->name, f->most);
        if (f->stated < 0)
            printf("%7s  ", "none");
        else
            printf("%7ld  ", f->stated);
        if (f->answer < 0)
            printf("refused %" PRId64 ": %s\n", -f->answer, f->input);
        else
            printf("accepted: %s\n", f->input);
    }
}

/* The most for each answer; answers whether every one was met. */
static int print_by_answer(void) {
    int all = 1;
    printf("\nby answer:\n");
    for (int k = 0; k < FUNCTIONS; k++) {
        const struct figure *f = &figures[k];
        printf("%-16s accepted %zu", f->name, f->most_of[0]);
        for (size_t n = 0; n < SIZE(f->number) && (n == 0 || f->number[n] != 0); n++) {
            all &= f->most_of[f->number[n]] > 0;
            if (f->number[n] == GIDZKHALU_QUIT)
                printf(" after a walk, %zu without", f->most_of[f->number[n]]);
            else if (n > 0)
                printf(", %d: %zu", f->number[n], f->most_of[f->number[n]]);
        }
        printf("\n");
    }
    return all;
}

static void print_memset(void) {
    printf("\n");
    for (int k = 0; k < FUNCTIONS; k++)
        if (figures[k].at_memset > 0)
            printf("%s enters memset with %zu bytes taken: %zu are left to it\n", figures[k].name,
                   figures[k].at_memset, figures[k].most - figures[k].at_memset);
}

/* Says which figures differ from what is stated; answers how many are above it or not stated. */
static int count_above(void) {
    int above = 0;
    for (int k = 0; k < FUNCTIONS; k++) {
        const struct figure *f = &figures[k];
        if (f->stated < 0)
            printf("NOT STATED: %s takes %zu bytes\n", f->name, f->most);
        else if (f->most != (size_t)f->stated)
            printf("%s: %s takes %zu bytes, %ld are stated\n", f->most > (size_t)f->stated ? "ABOVE" : "below", f->name,
                   f->most, f->stated);
        above += f->stated < 0 || f->most > (size_t)f->stated;
    }
    return above;
}

int main(int argc, char **argv) {
    int all, above;
    for (int k = 1; k < argc; k++)
        if (!take_stated(argv[k]))
            return 1;
    prepare_room();
    if (!calibrated()) {
        printf("FAILED: a known depth is not measured as it is\n");
        return 1;
    }
    run();
    print_figures();
    all = print_by_answer();
    print_memset();
    above = count_above();
    printf("%" PRIu64 " calls: ", calls_made);
    if (above > 0)
        printf("%d figures of %d are above what is stated, or not stated\n", above, FUNCTIONS);
    else if (!all)
        printf("no figure is above what is stated, but not every answer was met\n");
    else
        printf("no figure is above what is stated\n");
    return above > 0 || !all;
}
