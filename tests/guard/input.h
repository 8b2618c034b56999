/* Makes the inputs of a round: a stored one, as it is or damaged at random, lent as const in both layouts. */
#ifndef INPUT_H
#define INPUT_H

#include "lend.h"

struct input {
    size_t record_len;
    size_t results_len;
    size_t parameters_len;
    size_t code_len; /* of what is decoded: the record's code, or noise */
    size_t file_len;
    /* As the record's header has them; 0 where it has none. */
    uint32_t imports;
    uint32_t relocation;
    uint32_t code_size;
    uint32_t globals;
    uint32_t constants;
};

/* Fills the const rooms with one of so many stored inputs. */
void make_input(size_t stored_count, struct input *input);

/* Damages bytes at random, a few times. Answers the new length. */
size_t damage_often(uint8_t *bytes, size_t len, size_t max);

/* Fills a const room in both layouts. */
void lend_both(enum role role, const void *contents, size_t len);

#endif
