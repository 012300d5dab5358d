/* The buffers, counts and failures of compare.h. */
#include "compare.h"
#include "cases.h"
#include "gidzkhalu.h"

#include <inttypes.h>
#include <stdio.h>
#include <stdlib.h>
#include <string.h>

enum { GUARD = 64, SHIFTS = 16 };

/* Room for len bytes between guards and a shift before them; inner is the old one, shifted, or NULL. */
static uint8_t *renewed(uint8_t *inner, size_t shift, size_t len) {
    uint8_t *whole = realloc(inner == NULL ? NULL : inner - GUARD - shift, len + 2 * GUARD + SHIFTS);
    if (whole == NULL) {
        fprintf(stderr, "no memory\n");
        exit(2);
    }
    return whole + GUARD + shift;
}

static void lend_shifted(struct lent *l, size_t len, size_t shift) {
    if (l->got == NULL || l->room < len) {
        l->got = renewed(l->got, l->shift, len);
        l->want = renewed(l->want, l->shift, len);
        l->room = len;
    }
    l->got = l->got - l->shift + shift;
    l->want = l->want - l->shift + shift;
    l->shift = shift;
    l->len = len;
    random_bytes(l->want - GUARD, len + 2 * GUARD);
    memcpy(l->got - GUARD, l->want - GUARD, len + 2 * GUARD);
}

void lend(struct lent *l, size_t len) { lend_shifted(l, len, below(SHIFTS)); }

void lend_bytes(struct lent *l, const uint8_t *bytes, size_t len) {
    lend(l, len);
    memcpy(l->want, bytes, len);
    memcpy(l->got, bytes, len);
}

void lend_cube(struct lent *l, size_t len) {
    lend(l, len);
    random_cube(l->want, len);
    memcpy(l->got, l->want, len);
}

void lend_number(struct lent *l) { lend_this_number(l, 0x80000000 | random_word()); }

void lend_this_number(struct lent *l, uint32_t number) {
    lend_shifted(l, sizeof number, sizeof number * below(SHIFTS / sizeof number));
    *number_at(l->got) = *number_at(l->want) = number;
}

uint32_t *number_at(uint8_t *bytes) { return (uint32_t *)(void *)bytes; }

int same(const struct lent *l) { return memcmp(l->got - GUARD, l->want - GUARD, l->len + 2 * GUARD) == 0; }

/* Counts */

/* As the header has them; the reference and the orders have the documents' own. */
const int NUMBER[NUMBERS] = {0,
                             GIDZKHALU_REFUSED_SIDE,
                             GIDZKHALU_REFUSED_MARK,
                             GIDZKHALU_REFUSED_STEPS,
                             GIDZKHALU_REFUSED_COORDINATE,
                             GIDZKHALU_REFUSED_LONG_STEP,
                             GIDZKHALU_REFUSED_LENGTH,
                             GIDZKHALU_REFUSED_SHORT,
                             GIDZKHALU_REFUSED_STRIP_SIDE,
                             GIDZKHALU_REFUSED_STRIP_STEPS,
                             GIDZKHALU_REFUSED_NOT_FINITE,
                             GIDZKHALU_REFUSED_CHANNEL,
                             GIDZKHALU_REFUSED_HUE,
                             GIDZKHALU_REFUSED_LINE,
                             GIDZKHALU_REFUSED_FIELD,
                             GIDZKHALU_REFUSED_SHEET_SIDE,
                             GIDZKHALU_REFUSED_PAST_LAST_LINE,
                             GIDZKHALU_REFUSED_RECORD_LENGTH,
                             GIDZKHALU_REFUSED_OUT_LENGTH,
                             GIDZKHALU_REFUSED_KIND,
                             GIDZKHALU_REFUSED_NUMBER,
                             GIDZKHALU_REFUSED_CHOICE};

int index_of(int number) {
    for (int k = 0; k < NUMBERS; k++)
        if (NUMBER[k] == number)
            return k;
    return 0;
}

void count_order(struct counts *c, const struct order *order) {
    int answer = 0;
    for (int k = 0; k < order->length; k++) {
        int number = index_of(order->step[k].number);
        if (!order->step[k].applies)
            continue;
        if (answer != 0)
            c->over[answer][number]++;
        else
            answer = number;
    }
    c->answered[answer]++;
}

#define MET_TEXT(name, words) words,
const char *const MET_WORDS[METS] = {MET(MET_TEXT)};
uint64_t met[METS];

void meet(enum met what, int holds) { met[what] += holds != 0; }

uint8_t *passed(const struct lent *l, enum met null) {
    int is_null = l->len == 0 && one_in(2);
    meet(null, is_null);
    return is_null ? NULL : l->got;
}

/* Failures */

struct running running;

void print_failure(int64_t want, int64_t got) {
    printf("FAILED: %s, case %" PRIu64 ", seed %" PRIu64 "\n", running.name, running.number, running.seed);
    printf("  again: target/differential %" PRIu64 " 1 '%s' %" PRIu64 "\n", running.seed, running.name, running.number);
    printf("  answer: expected %" PRId64 ", came %" PRId64 "\n", want, got);
}

void print_difference(const struct lent *l) {
    const uint8_t *got = l->got - GUARD, *want = l->want - GUARD;
    size_t at = 0;
    if (same(l))
        return;
    while (got[at] == want[at])
        at++;
    printf("  %s of %zu bytes: byte %ld", l->name, l->len, (long)at - GUARD);
    if (at < GUARD || at >= GUARD + l->len)
        printf(" (a guard byte)");
    printf(": expected %d, came %d\n", want[at], got[at]);
}

void print_number(const struct lent *l) {
    printf("  %s: expected %" PRIu32 ", came %" PRIu32 "\n", l->name, *number_at(l->want), *number_at(l->got));
    print_difference(l);
}

void print_bytes(const char *name, const uint8_t *bytes, size_t len) {
    printf("  %s, %zu bytes:", name, len);
    for (size_t k = 0; k < len; k++)
        printf(" %d", bytes[k]);
    printf("\n");
}

void print_cube(const uint8_t *bytes, size_t len) {
    size_t shown = 0;
    printf("  cube of %zu bytes, byte=value where it is not 0:", len);
    for (size_t k = 0; k < len && shown < 200; k++)
        if (bytes[k] != 0) {
            printf(" %zu=%d", k, bytes[k]);
            shown++;
        }
    printf("%s\n", shown == 200 ? " ..." : "");
}

void print_text(const uint8_t *bytes, size_t len) {
    printf("  input of %zu bytes, between dashes:\n----\n", len);
    for (size_t k = 0; k < len; k++)
        if (bytes[k] == ' ' || bytes[k] == 10 || ('0' <= bytes[k] && bytes[k] <= '9'))
            putchar(bytes[k]);
        else
            printf("\\%02X", bytes[k]);
    printf("----\n");
}
