/* Makes the calls of a round over a set: check of every module, load and run, with buffers of any length. */
#ifndef SET_ROUND_H
#define SET_ROUND_H

#include "input.h"
#include "set_input.h"

void try_set_input(const struct input *input, const struct set_input *set);

/* Tell how many rounds had a set that was accepted, runs of it that were followed to an end, and of these those that ended in a
 * library. */
unsigned long accepted_sets(void);
unsigned long accepted_set_runs(void);
unsigned long ends_in_libraries(void);

#endif
