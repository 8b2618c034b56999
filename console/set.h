/* A page whose modules are the record of a run file and libraries that are lent with it. */
#ifndef SET_H
#define SET_H

#include "icode.h"
#include "module.h"

/* Libraries as they are asked for, and the slices in which they are lent behind a main module. */
struct set {
    struct module *modules; /* the main one first */
    size_t count;
    uint8_t *files; /* of the libraries, with room for each */
    uint8_t *records;
    uint8_t *results;
    uint32_t *directory;
    size_t records_len;
    size_t results_len;
};

/* What became of a set. */
struct set_run {
    uint32_t number; /* that refuses it, else 0 */
    size_t refused;  /* the module whose check gave it */
    uint32_t line;
    uint32_t state[ICODE_SET_STATE_WORDS];
    uint32_t outcome[ICODE_SET_OUTCOME_WORDS];
    uint32_t memory[ICODE_RUN_FILE_MEMORY_MAX];
    uint32_t stack[UINT16_MAX]; /* as many as a run file may ask for: the load says which are too many */
};

/* Takes SID=FILE apart. Answers NULL, or what is wrong with it. */
const char *split_library(const char *text, struct module *library);

/* Makes a set of the main module alone, with room for so many libraries. Answers false where there is none. */
bool make_set(size_t libraries, struct set *set);
void drop_set(struct set *set);

/* Reads the files of the libraries. Answers false, with a message, where one cannot be read or is no run file. */
bool read_libraries(const char *program, struct set *set);

/* Lends the parts of a run file as the main module, and the libraries behind it. */
void lend(const char *name, const struct run_file *parts, struct set *set);

/* Checks every module in order, up to the first that is refused. */
void check_set(const struct set *set, struct set_run *run);

/* The same, then loads and runs. */
void run_set(const struct set *set, struct set_run *run);

/* Prints the page. */
void print_set_page(const struct set *set, const struct set_run *run);

#endif
