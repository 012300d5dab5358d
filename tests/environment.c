/* Calls every function of the C interface with the same inputs under the floating-point environment with which a C
   program begins and under others, and compares answers and bytes. Usage: environment NAME=default NAME=any ..

   Of a function that is stated to take any environment, every answer and every byte must be the same. Of one that needs
   the default one, some call must differ under each environment that can change it, so that the statement stays true.
   For x86-64 alone. */
#define _POSIX_C_SOURCE 200809L
#include "cases.h"
#include "gidzkhalu.h"
#include "reference.h"

#include <fenv.h>
#include <inttypes.h>
#include <setjmp.h>
#include <signal.h>
#include <stdio.h>
#include <stdlib.h>
#include <string.h>
#include <xmmintrin.h>

/* Environments */

enum environment { DEFAULT, FLUSH, DENORMALS, BOTH, DOWN, UP, TO_ZERO, UNMASKED, ENVIRONMENTS };

static const char *const ENVIRONMENT[ENVIRONMENTS] = {"default",
                                                      "flush-to-zero",
                                                      "denormals-are-zero",
                                                      "flush-to-zero and denormals-are-zero",
                                                      "rounding down",
                                                      "rounding up",
                                                      "rounding towards 0",
                                                      "exceptions unmasked"};

/* Bits of MXCSR. */
enum { FLUSH_TO_ZERO = 0x8000, DENORMALS_ARE_ZERO = 0x0040, MASKS = 0x1F80 };

static void enter(enum environment environment) {
    static const unsigned bits[] = {0, FLUSH_TO_ZERO, DENORMALS_ARE_ZERO, FLUSH_TO_ZERO | DENORMALS_ARE_ZERO};
    static const int rounding[] = {FE_DOWNWARD, FE_UPWARD, FE_TOWARDZERO};
    if (environment == UNMASKED)
        _mm_setcsr(0);
    else if (environment >= DOWN)
        fesetround(rounding[environment - DOWN]);
    else
        _mm_setcsr(MASKS | bits[environment]);
}

static void leave(void) {
    fesetround(FE_TONEAREST);
    _mm_setcsr(MASKS);
}

static sigjmp_buf before;

static void trapped(int number) { siglongjmp(before, number); }

/* A number that no function answers, for a call that an exception ends. */
enum { TRAPPED = -1000 };

/* The call's answer under the environment; no arithmetic on floats is done meanwhile but the library's. */
#define UNDER(environment, answer, call)                                                                               \
    do {                                                                                                               \
        if (sigsetjmp(before, 1) == 0) {                                                                               \
            enter(environment);                                                                                        \
            *(answer) = (call);                                                                                        \
        } else {                                                                                                       \
            *(answer) = TRAPPED;                                                                                       \
        }                                                                                                              \
        leave();                                                                                                       \
    } while (0)

/* Lent buffers: what a call wrote is kept in now, what it wrote under the default environment in plain */

enum { CELLS = 64 * 64 * 64, ROOM = GIDZKHALU_PART_BYTES(CELLS) + 72, WORDS = 120, SENTENCE = 200 };

static uint8_t now[ROOM], plain[ROOM], record[RECORD_ROOM], input[SHEET_ROOM], cube[300001];
static size_t lent_len; /* of now, the bytes that are compared */
static uint32_t new_cells, detail, flip_n, flip_m;
static char words[WORDS];

/* Lends so many random bytes, and 64 behind them that are not lent. The numbers hold what no call writes. */
static void lend(size_t len) {
    lent_len = len + 64;
    random_bytes(now, lent_len);
    new_cells = detail = UINT32_MAX;
}

/* Puts two numbers behind the bytes that are compared. */
static void keep_numbers(uint32_t first, uint32_t second) {
    const uint32_t left[2] = {first, second};
    memcpy(now + lent_len, left, sizeof left);
    lent_len += sizeof left;
}

/* Each function: inputs from the case, the call under the environment, the inputs in words */

static int64_t object(enum environment e, enum service service, enum form form) {
    struct object_call c = {service, form, 0, 0, 0, 0, 0, OVER, record, 0, NULL, 0, NULL};
    int large = one_in(64);
    volatile int64_t answer;
    c.side = large ? 33 + below(32) : random_side();
    if (chooses(&c))
        random_chosen(&c, record, large, one_in(2) ? random_faults(CHOSEN_FAULTS) : 0);
    else
        random_object(&c, record, large, one_in(2) ? random_faults(ALL_FAULTS) : 0);
    lend(lists(&c) || draws(&c) ? c.lent_len : 0);
    if (draws(&c))
        random_cube(now, c.lent_len);
    if (form == SOLID && service == CHECK)
        UNDER(e, &answer, gidzkhalu_check_solid(c.side, record, c.points_len, c.n, c.m, c.l));
    else if (form == SOLID)
        UNDER(e, &answer,
              gidzkhalu_draw_solid(c.side, record, c.points_len, c.n, c.m, c.l, c.mark, c.choice, now, c.lent_len,
                                   &new_cells));
    else if (form == PATCH && service == CHECK)
        UNDER(e, &answer, gidzkhalu_check_patch(c.side, record, c.points_len, c.n, c.m));
    else if (form == PATCH)
        UNDER(e, &answer,
              gidzkhalu_draw_patch(c.side, record, c.points_len, c.n, c.m, c.mark, c.choice, now, c.lent_len,
                                   &new_cells));
    else if (service == CHECK)
        UNDER(e, &answer, gidzkhalu_check_curve(c.side, record, c.points_len, c.n));
    else if (service == CHOOSE)
        UNDER(e, &answer, gidzkhalu_choose_steps(c.side, record, c.points_len));
    else if (service == DRAW_CHOSEN)
        UNDER(e, &answer,
              gidzkhalu_draw_chosen(c.side, record, c.points_len, c.mark, c.choice, now, c.lent_len, &new_cells));
    else if (service == LIST)
        UNDER(e, &answer, gidzkhalu_list_curve(c.side, record, c.points_len, c.n, now, c.lent_len));
    else if (service == LIST_PATH)
        UNDER(e, &answer, gidzkhalu_list_path(c.side, record, c.points_len, c.n, now, c.lent_len));
    else if (service == DRAW_PATH)
        UNDER(e, &answer,
              gidzkhalu_draw_path(c.side, record, c.points_len, c.n, c.mark, c.choice, now, c.lent_len, &new_cells));
    else
        UNDER(e, &answer,
              gidzkhalu_draw_curve(c.side, record, c.points_len, c.n, c.mark, c.choice, now, c.lent_len, &new_cells));
    keep_numbers(new_cells, detail);
    snprintf(words, WORDS, "side %" PRIu32 ", n %" PRIu32 ", m %" PRIu32 ", l %" PRIu32 ", mark %d, choice %" PRIu32,
             c.side, c.n, c.m, c.l, c.mark, c.choice);
    return answer;
}

static int64_t check_curve(enum environment e, uint64_t number) {
    (void)number;
    return object(e, CHECK, CURVE);
}

static int64_t list_curve(enum environment e, uint64_t number) {
    (void)number;
    return object(e, LIST, CURVE);
}

static int64_t draw_curve(enum environment e, uint64_t number) {
    (void)number;
    return object(e, DRAW, CURVE);
}

static int64_t choose_steps(enum environment e, uint64_t number) {
    (void)number;
    return object(e, CHOOSE, CURVE);
}

static int64_t draw_chosen(enum environment e, uint64_t number) {
    (void)number;
    return object(e, DRAW_CHOSEN, CURVE);
}

static int64_t list_path(enum environment e, uint64_t number) {
    (void)number;
    return object(e, LIST_PATH, CURVE);
}

static int64_t draw_path(enum environment e, uint64_t number) {
    (void)number;
    return object(e, DRAW_PATH, CURVE);
}

static int64_t check_patch(enum environment e, uint64_t number) {
    (void)number;
    return object(e, CHECK, PATCH);
}

static int64_t draw_patch(enum environment e, uint64_t number) {
    (void)number;
    return object(e, DRAW, PATCH);
}

static int64_t check_solid(enum environment e, uint64_t number) {
    (void)number;
    return object(e, CHECK, SOLID);
}

static int64_t draw_solid(enum environment e, uint64_t number) {
    (void)number;
    return object(e, DRAW, SOLID);
}

/* Mostly of a side that the strip takes; now and then with more steps than it does. */
static int64_t drawn_on_strip(enum environment e, enum form form) {
    struct object_call c = {DRAW, form, 0, 0, 0, 0, 0, OVER, record, 0, NULL, 0, NULL};
    volatile int64_t answer;
    c.side = one_in(8) ? random_side() : 2 + below(16);
    random_object(&c, record, 0, one_in(2) ? random_faults(ALL_FAULTS) : 0);
    if (one_in(8))
        *(form == PATCH && one_in(2) ? &c.m : &c.n) = 65 + below(form == PATCH ? 192 : 448);
    lend(c.lent_len);
    random_cube(now, c.lent_len);
    if (form == PATCH)
        UNDER(e, &answer,
              gidzkhalu_draw_strip_patch(c.side, record, c.points_len, c.n, c.m, c.mark, c.choice, now, c.lent_len,
                                         &new_cells));
    else
        UNDER(e, &answer,
              gidzkhalu_draw_strip_curve(c.side, record, c.points_len, c.n, c.mark, c.choice, now, c.lent_len,
                                         &new_cells));
    keep_numbers(new_cells, detail);
    snprintf(words, WORDS, "side %" PRIu32 ", n %" PRIu32 ", m %" PRIu32 ", mark %d, choice %" PRIu32, c.side, c.n, c.m,
             c.mark, c.choice);
    return answer;
}

static int64_t draw_strip_curve(enum environment e, uint64_t number) {
    (void)number;
    return drawn_on_strip(e, CURVE);
}

static int64_t draw_strip_patch(enum environment e, uint64_t number) {
    (void)number;
    return drawn_on_strip(e, PATCH);
}

/* Any bytes, now and then of a wrong length. */
static int64_t flip(enum environment e, int patch) {
    size_t right = patch ? GIDZKHALU_PATCH_BYTES : GIDZKHALU_CURVE_BYTES;
    size_t len = one_in(16) ? below(65) : right, flipped_len = one_in(16) ? below(65) : right;
    volatile int64_t answer;
    random_bytes(record, sizeof record);
    lend(flipped_len);
    flip_n = random_word();
    flip_m = random_word();
    snprintf(words, WORDS, "points of %zu bytes, flip of %zu, n %" PRIu32 ", m %" PRIu32, len, flipped_len, flip_n,
             flip_m);
    if (patch)
        UNDER(e, &answer, gidzkhalu_flip_patch(record, len, &flip_n, &flip_m, now, flipped_len));
    else
        UNDER(e, &answer, gidzkhalu_flip_curve(record, len, now, flipped_len));
    keep_numbers(flip_n, flip_m);
    return answer;
}

static int64_t flip_curve(enum environment e, uint64_t number) {
    (void)number;
    return flip(e, 0);
}

static int64_t flip_patch(enum environment e, uint64_t number) {
    (void)number;
    return flip(e, 1);
}

/* Swatches. Chosen ones come first: the number nearest below 0, the least normal number, whose half is subnormal, and 1
   with numbers that lie half-way between two f32 above it. */

static const struct swatch CHOSEN[][2] = {{{GIDZKHALU_COLOUR, {0x80000001, 0, 0}}, {GIDZKHALU_GREY, {0, 0, 0}}},
                                          {{GIDZKHALU_GREY, {0x00800000, 0, 0}}, {GIDZKHALU_GREY, {0, 0, 0}}},
                                          {{GIDZKHALU_GREY, {0x3F800000, 0, 0}}, {GIDZKHALU_GREY, {0x33800000, 0, 0}}},
                                          {{GIDZKHALU_GREY, {0x3F800000, 0, 0}}, {GIDZKHALU_GREY, {0x34400000, 0, 0}}}};

enum { CHOSEN_SWATCHES = sizeof CHOSEN / sizeof *CHOSEN };

static int64_t to_cell(enum environment e, uint64_t number) {
    uint32_t side = one_in(8) ? bad_side() : 2 + below(63);
    size_t len = one_in(32) ? below(16) : GIDZKHALU_CELL_BYTES;
    struct swatch s;
    const uint32_t *v = s.number;
    volatile int64_t answer;
    random_swatch(&s, below(KINDS_OF_SWATCH), side);
    if (number < CHOSEN_SWATCHES) {
        s = CHOSEN[number][0];
        side = GIDZKHALU_SIDE_MOST;
        len = GIDZKHALU_CELL_BYTES;
    }
    lend(len);
    UNDER(e, &answer, gidzkhalu_to_cell(side, s.kind, float_of(v[0]), float_of(v[1]), float_of(v[2]), now, len));
    snprintf(words, WORDS, "side %" PRIu32 ", kind %" PRIu32 ", %08" PRIX32 " %08" PRIX32 " %08" PRIX32, side, s.kind,
             v[0], v[1], v[2]);
    return answer;
}

static int64_t half_way(enum environment e, uint64_t number) {
    size_t len = one_in(32) ? below(16) : GIDZKHALU_CHANNELS_BYTES;
    struct swatch s, t;
    const uint32_t *v = s.number, *w = t.number;
    volatile int64_t answer;
    random_swatch(&s, below(KINDS_OF_SWATCH), random_side());
    random_second(&t, &s);
    if (number < CHOSEN_SWATCHES) {
        s = CHOSEN[number][0];
        t = CHOSEN[number][1];
        len = GIDZKHALU_CHANNELS_BYTES;
    }
    lend(len);
    UNDER(e, &answer,
          gidzkhalu_half_way(s.kind, float_of(v[0]), float_of(v[1]), float_of(v[2]), t.kind, float_of(w[0]),
                             float_of(w[1]), float_of(w[2]), now, len));
    snprintf(words, WORDS,
             "kinds %" PRIu32 " %" PRIu32 ", %08" PRIX32 " %08" PRIX32 " %08" PRIX32 ", %08" PRIX32 " %08" PRIX32
             " %08" PRIX32,
             s.kind, t.kind, v[0], v[1], v[2], w[0], w[1], w[2]);
    return answer;
}

static int64_t draw_sheet(enum environment e, uint64_t number) {
    size_t len = random_sheet(input, one_in(32)), buffer_len = GIDZKHALU_SHEET_BUFFER_BYTES;
    volatile int64_t answer;
    (void)number;
    if (one_in(32))
        buffer_len = below(GIDZKHALU_SHEET_BUFFER_BYTES + 2);
    lend(buffer_len);
    UNDER(e, &answer, gidzkhalu_draw_sheet(input, len, now, buffer_len, &detail, &new_cells));
    keep_numbers(new_cells, detail);
    snprintf(words, WORDS, "a sheet of %zu bytes", len);
    return answer;
}

/* A cube: its length, now and then a wrong one, and its side, now and then a bad one. */
static size_t cube_of(uint32_t *side) {
    uint32_t right = one_in(64) ? 2 + below(63) : 2 + below(8);
    size_t len = GIDZKHALU_CUBE_BYTES(right);
    random_cube(cube, len);
    *side = one_in(16) ? bad_side() : right;
    return one_in(16) ? below((uint32_t)len + 2) : len;
}

static int64_t list_part(enum environment e, uint64_t number) {
    uint32_t side;
    size_t len = cube_of(&side), first = one_in(3) ? 0 : below((uint32_t)len + 2);
    size_t count = one_in(3) ? len : below((uint32_t)len + 1), text_len = GIDZKHALU_PART_BYTES(count);
    volatile int64_t answer;
    (void)number;
    if (one_in(16))
        text_len = below((uint32_t)text_len);
    lend(text_len);
    UNDER(e, &answer, gidzkhalu_list_part(side, cube, len, first, count, now, text_len));
    snprintf(words, WORDS, "side %" PRIu32 ", first %zu, count %zu", side, first, count);
    return answer;
}

static int64_t totals(enum environment e, uint64_t number) {
    uint32_t side;
    size_t len = cube_of(&side), text_len = one_in(16) ? below(GIDZKHALU_TOTALS_BYTES) : GIDZKHALU_TOTALS_BYTES;
    volatile int64_t answer;
    (void)number;
    lend(text_len);
    UNDER(e, &answer, gidzkhalu_totals(side, cube, len, now, text_len));
    snprintf(words, WORDS, "side %" PRIu32 ", cube of %zu bytes", side, len);
    return answer;
}

static int64_t refusal_line(enum environment e, uint64_t number) {
    uint32_t of = one_in(2) ? below(100) : random_word(), line = one_in(2) ? below(203) : random_word();
    size_t text_len = one_in(8) ? below(GIDZKHALU_REFUSAL_LINE_BYTES) : GIDZKHALU_REFUSAL_LINE_BYTES;
    volatile int64_t answer;
    (void)number;
    lend(text_len);
    UNDER(e, &answer, gidzkhalu_refusal_line(of, line, now, text_len));
    snprintf(words, WORDS, "number %" PRIu32 ", line %" PRIu32, of, line);
    return answer;
}

/* The run */

static struct function {
    const char *name;
    int64_t (*call)(enum environment e, uint64_t number);
    uint64_t cases;
    int can_change[ENVIRONMENTS]; /* where the default environment is needed: those that change some call */
    int stated;                   /* 'd' for the default environment, 'a' for any, 0 if nothing is stated */
    uint64_t accepted, quit, differ[ENVIRONMENTS]; /* quit: of the accepted checks of curves */
    char first[ENVIRONMENTS][SENTENCE]; /* the first input that differs */
} functions[] = {
    {"check_curve", check_curve, 50000, {0}, 0, 0, 0, {0}, {{0}}},
    {"list_curve", list_curve, 50000, {0}, 0, 0, 0, {0}, {{0}}},
    {"draw_curve", draw_curve, 50000, {0}, 0, 0, 0, {0}, {{0}}},
    {"choose_steps", choose_steps, 50000, {0}, 0, 0, 0, {0}, {{0}}},
    {"draw_chosen", draw_chosen, 50000, {0}, 0, 0, 0, {0}, {{0}}},
    {"flip_curve", flip_curve, 20000, {0}, 0, 0, 0, {0}, {{0}}},
    {"list_path", list_path, 50000, {0}, 0, 0, 0, {0}, {{0}}},
    {"draw_path", draw_path, 50000, {0}, 0, 0, 0, {0}, {{0}}},
    {"check_patch", check_patch, 20000, {0}, 0, 0, 0, {0}, {{0}}},
    {"draw_patch", draw_patch, 20000, {0}, 0, 0, 0, {0}, {{0}}},
    {"flip_patch", flip_patch, 20000, {0}, 0, 0, 0, {0}, {{0}}},
    {"check_solid", check_solid, 20000, {0}, 0, 0, 0, {0}, {{0}}},
    {"draw_solid", draw_solid, 20000, {0}, 0, 0, 0, {0}, {{0}}},
    {"draw_strip_curve", draw_strip_curve, 50000, {0}, 0, 0, 0, {0}, {{0}}},
    {"draw_strip_patch", draw_strip_patch, 20000, {0}, 0, 0, 0, {0}, {{0}}},
    /* A channel up to 1/128 has the coordinate 0, so a result that is flushed to 0 changes no cell. */
    {"to_cell", to_cell, 200000, {0, 0, 1, 1, 1, 1, 1, 1}, 0, 0, 0, {0}, {{0}}},
    {"half_way", half_way, 200000, {0, 1, 1, 1, 1, 1, 1, 1}, 0, 0, 0, {0}, {{0}}},
    {"draw_sheet", draw_sheet, 10000, {0}, 0, 0, 0, {0}, {{0}}},
    {"list_part", list_part, 50000, {0}, 0, 0, 0, {0}, {{0}}},
    {"totals", totals, 20000, {0}, 0, 0, 0, {0}, {{0}}},
    {"refusal_line", refusal_line, 50000, {0}, 0, 0, 0, {0}, {{0}}},
};

enum { FUNCTIONS = sizeof functions / sizeof *functions };

static uint64_t calls_made;

static int64_t answer_of(int k, uint64_t number, enum environment e) {
    calls_made++;
    start_case((uint64_t)k, number);
    return functions[k].call(e, number);
}

static void put_answer(char *to, size_t room, int64_t answer) {
    if (answer == TRAPPED)
        snprintf(to, room, "an exception");
    else
        snprintf(to, room, "%" PRId64, answer);
}

/* The answers, or where they are the same the first byte that differs. */
static void keep_first(char first[SENTENCE], int64_t want, int64_t got) {
    char before_it[24], after[24];
    size_t at = 0;
    put_answer(before_it, sizeof before_it, want);
    put_answer(after, sizeof after, got);
    while (want == got && now[at] == plain[at])
        at++;
    if (want != got)
        snprintf(first, SENTENCE, "%s: %s, then %s", words, before_it, after);
    else
        snprintf(first, SENTENCE, "%s: byte %zu is %d, then %d", words, at, plain[at], now[at]);
}

static void run_case(int k, uint64_t number) {
    int64_t want = answer_of(k, number, DEFAULT), got;
    size_t len = lent_len;
    memcpy(plain, now, len);
    functions[k].accepted += want >= 0;
    functions[k].quit += functions[k].call == check_curve && want == GIDZKHALU_QUIT;
    for (int e = DEFAULT + 1; e < ENVIRONMENTS; e++) {
        got = answer_of(k, number, (enum environment)e);
        if (got == want && memcmp(now, plain, len) == 0)
            continue;
        if (functions[k].differ[e]++ == 0)
            keep_first(functions[k].first[e], want, got);
    }
}

/* Whether a function differs under an environment only as it is stated to. */
static int as_stated(const struct function *f, int e) {
    int differs = f->differ[e] > 0;
    if (f->stated == 'd' ? differs == f->can_change[e] : f->stated == 'a' && !differs)
        return 1;
    printf("FAILED: %s %s under %s; stated is '%s'\n", f->name, differs ? "differs" : "does not differ", ENVIRONMENT[e],
           f->stated == 'd' ? "Environment: default" : f->stated == 'a' ? "Environment: any" : "nothing");
    return 0;
}

static int run_function(int k) {
    struct function *f = &functions[k];
    int good = 1, same = 1;
    for (uint64_t number = 0; number < f->cases; number++)
        run_case(k, number);
    for (int e = DEFAULT + 1; e < ENVIRONMENTS; e++)
        same &= f->differ[e] == 0;
    printf("%-16s %6" PRIu64 " inputs, %6" PRIu64 " accepted", f->name, f->cases, f->accepted);
    if (f->call == check_curve)
        printf(", %" PRIu64 " of them without a walk", f->quit);
    printf("%s\n", same ? ": the same under all" : "");
    for (int e = DEFAULT + 1; e < ENVIRONMENTS && !same; e++)
        printf("    %s: %" PRIu64 " differ%s%s\n", ENVIRONMENT[e], f->differ[e], f->differ[e] > 0 ? ", first " : "",
               f->first[e]);
    for (int e = DEFAULT + 1; e < ENVIRONMENTS; e++)
        good &= as_stated(f, e);
    if (f->stated == 'd' && same) {
        printf("FAILED: %s takes any environment; stated is 'Environment: default'\n", f->name);
        good = 0;
    }
    if (f->call == check_curve && (f->quit == 0 || f->quit == f->accepted)) {
        printf("FAILED: %s has not both quit and walked\n", f->name);
        good = 0;
    }
    if (f->accepted > 0 && f->accepted < f->cases)
        return good;
    printf("FAILED: %s was not both accepted and refused\n", f->name);
    return 0;
}

/* Takes NAME=default or NAME=any from the command line. */
static int take_stated(const char *word) {
    const char *stated = strchr(word, '=');
    for (int k = 0; k < FUNCTIONS && stated != NULL; k++) {
        size_t len = strlen(functions[k].name);
        if (strncmp(word, functions[k].name, len) == 0 && word + len == stated) {
            functions[k].stated = stated[1];
            return 1;
        }
    }
    printf("FAILED: %s is stated, and no such function called\n", word);
    return 0;
}

int main(int argc, char **argv) {
    struct sigaction action = {0};
    int good = 1;
    for (int k = 1; k < argc; k++)
        if (!take_stated(argv[k]))
            return 1;
    action.sa_handler = trapped;
    sigaction(SIGFPE, &action, NULL);
    start_run(1);
    leave();
    for (int k = 0; k < FUNCTIONS; k++)
        good &= run_function(k);
    printf("%" PRIu64 " calls: %s\n", calls_made,
           good ? "each function depends on the environment as stated" : "not each function is as stated");
    return !good;
}
