/* What is behind a refusal, as far as the console can tell. */
#ifndef REFUSAL_H
#define REFUSAL_H

#include "linkage.h"

/* Writes what is behind a number that refuses a run file by itself: the rule that the file breaks (16), every cause of the load's 8 that
 * holds, the first instruction that breaks the rule of 12, 13 or 14, the import behind 17, the place behind 18. For other numbers the
 * reason is empty. */
void find_reason(uint32_t number, struct bytes file, char reason[REASON_MAX]);

/* Writes the same for a set of modules, which are run files, and answers the module that is to blame: how many there are where no
 * single one is. refused is the module whose check gave the number. */
size_t find_set_reason(uint32_t number, struct modules set, size_t refused, char reason[REASON_MAX]);

#endif
