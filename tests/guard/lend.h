/* Lends buffers between pages that cannot be touched. Each role has two: one begins right behind such a page, the other ends right before
 * one. What is lent as const cannot be written. */
#ifndef LEND_H
#define LEND_H

#include "icode.h"

#include <stdbool.h>
#include <stddef.h>
#include <stdint.h>

enum role {
    RECORD, RESULTS, PARAMETERS, STILL_STACK, CODE, RUN_FILE, RECORDS, ALL_RESULTS, DIRECTORY, STILL_COPY, /* const */
    SPAN, OUT, PLACES, COUNTS, WORKSPACE, MEMORY, STACK, STATE, OUTCOME, DECODED, COPY,
    ROLES
};

enum layout { FRONT, BACK, LAYOUTS };

/* Limit the const inputs to some more elements than the library takes. */
enum { RECORD_MAX = ICODE_MEND_MAX + 100, RESULTS_MAX = 300, PARAMETERS_MAX = 300, RUN_FILE_MAX = ICODE_RUN_FILE_MAX + 8 };

/* And sets, to some modules more than are taken. */
enum { MODULES_MAX = ICODE_MODULES_MAX + 4, RECORDS_MAX = 4 * RECORD_MAX, ALL_RESULTS_MAX = MODULES_MAX * RESULTS_MAX,
       DIRECTORY_MAX = MODULES_MAX * ICODE_ROW_WORDS + 3, COPY_MAX = ICODE_COPY_MAX + 100 };

/* And a state, which goes from call to call. */
enum { STATE_MAX = ICODE_SET_STATE_WORDS + 8 };

enum { PAGE = 4096 };

/* Maps the buffers, all 0 but for the pattern around an empty one. */
void make_rooms(void);

const char *role_name(enum role role);
size_t role_size(enum role role); /* bytes of an element */
size_t role_max(enum role role);  /* elements that can be lent */

/* Gives the buffer of so many elements. */
void *lend(enum role role, enum layout layout, size_t len);

/* Fills the buffer, and the rest of its page with a pattern; a const one can then only be read. */
void fill(enum role role, enum layout layout, const void *contents, size_t len);

/* Says whether the pattern around the buffer is as fill left it. */
bool surroundings_kept(enum role role, enum layout layout, size_t len);

/* Says what is at an address: a guard page of a role, or the role itself. Answers the role's name, or NULL. */
const char *place_name(const void *address, const char **part);

/* Maps so many bytes behind a page that cannot be touched. */
uint8_t *map_behind_guard(size_t bytes);

#endif
