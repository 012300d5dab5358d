/* Seeded random inputs for the differential test. A case depends on its seed, kind and number alone. */
#ifndef CASES_H
#define CASES_H

#include "reference.h"

#include <stddef.h>
#include <stdint.h>

void start_run(uint64_t seed);
void start_case(uint64_t kind, uint64_t number);

/* A number from 0 to n - 1. */
uint32_t below(uint32_t n);
int one_in(uint32_t n);
uint32_t random_word(void);
void random_bytes(uint8_t *to, size_t len);

enum fault {
    BAD_RECORD = 1,
    BAD_SIDE = 2,
    BAD_LENGTH = 4,
    BAD_MARK = 8,
    BAD_COUNT = 16,
    BAD_COORDINATE = 32,
    LONG_STEP = 64,
    BAD_CHOICE = 128,
    ALL_FAULTS = 255,
    STRIP_SIDE = 256,  /* 18 to 64 */
    STRIP_COUNT = 512, /* above 64, and good elsewhere */
    STRIP_FAULTS = 1023
};

/* None, one or two of the faults. */
unsigned random_faults(unsigned possible);

uint32_t random_side(void);
uint32_t bad_side(void);

/* 2 to 17. */
uint32_t strip_side(void);

/* Room for the points of every object, of a wrong length as well. */
enum { RECORD_ROOM = 256 };

/* Fills in all of a call but its service, form, side and lent buffer; points is room for RECORD_ROOM bytes. The side is a
   good one, and changed only by BAD_SIDE and STRIP_SIDE. On the strip counts are 64 or less mostly, and often near that. A
   solid that is not large has at most 600 samples mostly. Both choices are as likely. */
void random_object(struct object_call *call, uint8_t *points, int large, unsigned faults);

/* The same for a curve whose step count is near three times its largest gap of consecutive points, and without a length of
   the lent buffer. Of the faults it takes those in RECORD_FAULTS. */
enum { RECORD_FAULTS = BAD_RECORD | BAD_SIDE | BAD_COUNT | BAD_COORDINATE };

void random_gaps(struct object_call *call, uint8_t *points, unsigned faults);

/* The same for a curve whose step count is chosen, at points that make the choice hard. Of the faults it takes those in
   CHOSEN_FAULTS. */
enum { CHOSEN_FAULTS = BAD_RECORD | BAD_SIDE | BAD_LENGTH | BAD_MARK | BAD_COORDINATE | BAD_CHOICE };

void random_chosen(struct object_call *call, uint8_t *points, int large, unsigned faults);

/* A grid of side^3 bytes, or a list of 3 (n + 1) bytes and a few more, or for a path a list of 3 x its cells, up to
   3 (3 n + 1) and a few more. A cube that is too large gets its 32-bit length. */
size_t right_length(const struct object_call *call);

/* The f32 of a bit pattern. */
float float_of(uint32_t bits);

enum { KINDS_OF_SWATCH = 3 };

void random_swatch(struct swatch *swatch, uint32_t kind, uint32_t side);
uint32_t bad_kind(void);

/* A swatch of any kind, some of its numbers next to those of another. */
void random_second(struct swatch *second, const struct swatch *first);

enum { SHEET_ROOM = 16000 };

/* Writes a sheet, often with one or two faults; answers its length. */
size_t random_sheet(uint8_t *text, int large);

/* The bytes of a cube: any, none, few or many marks, half of its cells, one everywhere, each in turn, or no cell
   unmarked. */
void random_cube(uint8_t *cube, size_t len);

#endif
