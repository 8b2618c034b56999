/* Makes the sets of a round: a stored one, as it is or damaged at random, lent as const in both layouts. */
#ifndef SET_INPUT_H
#define SET_INPUT_H

#include "lend.h"

/* Has a module as the directory gives it, with the sizes of its header, 0 where it has none. */
struct set_module {
    uint32_t number; /* that refuses its record, or 0 */
    uint32_t code_size;
    uint32_t globals;
    uint32_t constants;
};

struct set_input {
    size_t records_len;
    size_t results_len;
    size_t directory_len;
    size_t parameters_len;
    size_t count; /* modules: whole rows of the directory */
    struct set_module modules[MODULES_MAX];
};

/* Fills the const rooms with one of the stored sets. */
void make_set_input(struct set_input *set);

/* The lowest number of all records; 1 where there is no module. */
uint32_t record_number_of(const struct set_input *set);

/* The bytes of all code, and the words of all data frames, of a set whose records are sound. */
size_t copy_bytes_of(const struct set_input *set);
size_t frame_words_of(const struct set_input *set);

#endif
