/* Library, (a) and (b) must give the same answers, write the same numbers and leave the same bytes. */
#ifndef AGREE_H
#define AGREE_H

/* Each ends the program with a message at the first call on which some two differ. */
void agree_on_inputs(void);
void agree_on_random_calls(void);

/* Prints how many cells of the inputs (c) gets wrong, and how many lines of totals. */
void count_wrong_cells(void);

#endif
