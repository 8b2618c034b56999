/* Makes the calls of a round: every function on one input, with buffers of any length. */
#ifndef ROUND_H
#define ROUND_H

#include "call.h"
#include "input.h"

/* Gives a length that is right, or near it, or any. */
size_t some_len(enum role role, size_t right);

bool is_code_trap(uint32_t end);
bool is_end(uint32_t end);

/* Says whether a number is 17 or 18. */
bool is_linkage(uint32_t number);

/* Holds the workspace to what the header says after an answer of 0 or of 10 to 15. */
void hold_workspace(const struct call *call, uint32_t answer, size_t used);

void try_input(const struct input *input);

/* Tell how many rounds had a record that was accepted, and runs of it that were followed to an end. */
unsigned long accepted_records(void);
unsigned long accepted_runs(void);

#endif
