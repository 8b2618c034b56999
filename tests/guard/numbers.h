/* Counts how often each number was handed back, by function, and each end of a run. */
#ifndef NUMBERS_H
#define NUMBERS_H

#include "call.h"

/* Puts the ends of runs behind the functions. */
enum { ENDS = FUNCTIONS, NUMBERED };

void note_number(unsigned of, uint32_t number);

/* Prints the counts. Answers of how many every number arose that docs/NUMBERS.md gives them; of all of them where few will do. */
unsigned print_numbers(bool few);

#endif
