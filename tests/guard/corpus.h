/* Reads the stored inputs: run files, and the records of the case lines (tests/vectors/FORMAT.md). */
#ifndef CORPUS_H
#define CORPUS_H

#include <stddef.h>
#include <stdint.h>

/* Has one input, taken apart. */
struct stored {
    const uint8_t *file; /* a run file as stored, or NULL for a record alone */
    size_t file_len;
    const uint8_t *record;
    size_t record_len;
    const uint8_t *results;
    size_t results_len;
    const uint8_t *parameters; /* four bytes for each word */
    size_t parameters_len;     /* words */
};

/* Reads every .run and .cases file of a folder. Answers how many inputs there are now; leaves the program where one cannot be read. */
size_t read_folder(const char *folder);

const struct stored *stored_input(size_t index);

/* Has a module of a stored set. */
struct stored_module {
    uint32_t sid;
    struct stored parts;
};

/* Has the modules of a case line over a set, the main one first. */
struct stored_set {
    size_t count;
    struct stored_module *modules;
};

size_t stored_set_count(void);
const struct stored_set *stored_set(size_t index);

#endif
