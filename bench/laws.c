/* What the search for a step count does, counted, and what each law that it rests on saves.

     laws table         for random points and for the slowest polygon, with one law more in each line, the means of the
                        tries, of the cubics that are set up for them and of the steps that are walked
     laws slowest N     the polygon, of N that are looked at, whose search takes longest by those counts */
#include <stdbool.h>
#include <stdint.h>
#include <stdio.h>
#include <stdlib.h>
#include <string.h>

#include "gaps.h"
#include "inputs.h"

/* A try asks all axes in turn, or with AXES one, whether they accept a count. */
struct counts {
    uint64_t tries, cubics, steps;
};

enum {
    ENDS = 1, /* no count below the distance from the first point to the last is accepted */
    MOST = 2, /* three times the largest gap, or 1, always is */
    AXES = 4, /* each axis climbs from the count that the one before it came to */
    LAST = 8, /* the last step is tested before the walk */
    ONCE = 16 /* no axis is asked twice about a count: where all three stay, it is accepted, whichever is the last */
};

static struct counts counted;

static bool is_long(int64_t n, int64_t d1)
{
    return llabs(d1) > 2 * n * n * n;
}

/* The first difference of the doubled cubic through four coordinates. */
static int64_t first_step(int64_t n, int64_t g0, int64_t g1, int64_t g2, int64_t g3)
{
    int64_t a3 = g3 - 3 * g2 + 3 * g1 - g0, a2 = 3 * (g2 - 2 * g1 + g0), a1 = 3 * (g1 - g0);
    return 2 * (a3 + n * (a2 + n * a1));
}

static bool walk_refuses(const uint8_t *p, int64_t n)
{
    int64_t a3 = p[9] - 3 * p[6] + 3 * p[3] - p[0], a2 = 3 * (p[6] - 2 * p[3] + p[0]);
    int64_t d1 = first_step(n, p[0], p[3], p[6], p[9]), d2 = 12 * a3 + n * 4 * a2, d3 = 12 * a3;
    counted.cubics++;
    for (int64_t i = 0; i < n; i++) {
        counted.steps++;
        if (is_long(n, d1))
            return true;
        d1 += d2;
        d2 += d3;
    }
    return false;
}

static bool axis_refuses(const uint8_t *p, uint32_t n, int laws)
{
    if (laws & LAST) {
        counted.cubics++;
        if (is_long(n, first_step(n, p[9], p[6], p[3], p[0])))
            return true;
    }
    return walk_refuses(p, n);
}

static uint32_t climb(const uint8_t *p, uint32_t n, uint32_t most, int laws)
{
    while (n < most) {
        counted.tries++;
        if (!axis_refuses(p, n, laws))
            break;
        n++;
    }
    return n;
}

static uint32_t largest(uint32_t a, uint32_t b)
{
    return a < b ? b : a;
}

static uint32_t ends_apart(const uint8_t *p)
{
    uint32_t most = 0;
    for (int a = 0; a < 3; a++)
        most = largest(most, (uint32_t)abs(p[9 + a] - p[a]));
    return most;
}

/* The axes in turn, x after z. Without ONCE the search ends after z alone. */
static uint32_t in_turn(const uint8_t *p, uint32_t n, uint32_t most, int laws)
{
    int agreed = 0;
    for (int a = 0;; a = a == 2 ? 0 : a + 1) {
        uint32_t m = climb(p + a, n, most, laws);
        agreed = m == n ? agreed + 1 : 1;
        n = m;
        if (agreed >= 3 && (laws & ONCE || a == 2))
            return n;
    }
}

static uint32_t smallest(const uint8_t *p, int laws)
{
    uint32_t n = laws & ENDS ? largest(1, ends_apart(p)) : 1;
    uint32_t most = laws & MOST ? largest(1, 3 * largest_gap(p)) : UINT32_MAX;
    if (laws & AXES)
        return in_turn(p, n, most, laws);
    for (; n < most; n++) {
        counted.tries++;
        if (!axis_refuses(p, n, laws) && !axis_refuses(p + 1, n, laws) && !axis_refuses(p + 2, n, laws))
            break;
    }
    return n;
}

/* Instructions, about: a try takes as many as two steps. */
static uint64_t cost_of(const uint8_t *p)
{
    memset(&counted, 0, sizeof counted);
    smallest(p, ENDS | MOST | AXES | LAST | ONCE);
    return 2 * counted.tries + counted.steps;
}

static void print_polygon(const uint8_t *p)
{
    for (int i = 0; i < 12; i++)
        printf("%s%d", i == 0 ? "" : i % 3 == 0 ? "  " : " ", p[i]);
}

/* One coordinate or two of an axis anew, or one moved by one. */
static void change(uint8_t *p)
{
    uint32_t at = random_below(12), way = random_below(4);
    if (way < 2) {
        int v = p[at] + (way == 0 ? 1 : -1);
        if (v >= 0 && v < SIDE)
            p[at] = (uint8_t)v;
        return;
    }
    p[at] = (uint8_t)random_below(SIDE);
    if (way == 3)
        p[3 * random_below(4) + at % 3] = (uint8_t)random_below(SIDE);
}

/* From random polygons on: a change that takes no less stays, and after so many that do not the next one begins. */
static void find_slowest(uint64_t count)
{
    enum { PATIENCE = 4000 };
    uint8_t best[12] = {0}, p[12], q[12];
    uint64_t most = 0;
    seed(6);
    while (count > 0) {
        random_points(p, 4, SIDE, SIDE);
        uint64_t cost = cost_of(p);
        count--;
        for (int idle = 0; idle < PATIENCE && count > 0; idle++, count--) {
            memcpy(q, p, sizeof q);
            change(q);
            uint64_t changed = cost_of(q);
            if (changed > cost)
                idle = 0;
            if (changed >= cost) {
                cost = changed;
                memcpy(p, q, sizeof p);
            }
        }
        if (cost > most) {
            most = cost;
            memcpy(best, p, sizeof best);
        }
    }
    cost_of(best);
    print_polygon(best);
    printf(": %u steps; %llu tries, %llu cubics, %llu steps walked\n", smallest(best, ENDS | MOST),
           (unsigned long long)counted.tries, (unsigned long long)counted.cubics, (unsigned long long)counted.steps);
}

static const struct {
    const char *name;
    int laws;
} lines[] = {
    {"one count after the other, from 1", 0},
    {"from the distance from the first point to the last", ENDS},
    {"three times the largest gap unexamined", ENDS | MOST},
    {"each axis on its own", ENDS | MOST | AXES},
    {"the last step before the walk", ENDS | MOST | AXES | LAST},
    {"no axis asked twice about a count", ENDS | MOST | AXES | LAST | ONCE},
};

/* The means of a line over the polygons of a set. */
static void print_means(int set, int laws)
{
    memset(&counted, 0, sizeof counted);
    for (int k = 0; k < polygons_of[set].count; k++)
        smallest(polygons[set][k], laws);
    double n = polygons_of[set].count;
    printf(" %.1f | %.1f | %.1f |", (double)counted.tries / n, (double)counted.cubics / n, (double)counted.steps / n);
}

static void print_table(void)
{
    printf("| with | side 8: tries | cubics | steps | side 64: tries | cubics | steps | slowest: tries | cubics | steps "
           "|\n|---|---|---|---|---|---|---|---|---|---|\n");
    for (size_t k = 0; k < sizeof lines / sizeof *lines; k++) {
        printf("| %s |", lines[k].name);
        for (int set = 0; set < POLYGON_SETS; set++)
            print_means(set, lines[k].laws);
        printf("\n");
    }
}

int main(int argc, char **argv)
{
    const char *mode = argc > 1 ? argv[1] : "";
    make_polygons();
    if (strcmp(mode, "table") == 0)
        print_table();
    else if (strcmp(mode, "slowest") == 0 && argc == 3)
        find_slowest(strtoull(argv[2], NULL, 10));
    else
        return 2;
    return 0;
}
