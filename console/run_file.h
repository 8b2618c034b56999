/* Run files: reading one, and taking its head apart (01, "The page printer and the console"). */
#ifndef RUN_FILE_H
#define RUN_FILE_H

#include <stdbool.h>
#include <stddef.h>
#include <stdint.h>

/* Part of a buffer. */
struct bytes {
    const uint8_t *at;
    size_t len;
};

struct run_file {
    struct bytes results;    /* one byte for each procedure */
    struct bytes parameters; /* four bytes for each word */
    uint32_t budget;
    uint32_t memory_words;
    uint32_t stack_words;
    struct bytes record;
};

/* Numbers have their highest byte first. */
uint32_t halfword_at(const uint8_t *at);
uint32_t word_at(const uint8_t *at);

/* Takes a run file apart. Answers NULL, or what makes it malformed or too long (number 16). */
const char *split_run_file(struct bytes file, struct run_file *parts);

/* Reads a file, or standard input where the name is "-", but no more than max bytes of it. Answers false, with errno set, where it
 * cannot be read. */
bool read_input(const char *name, uint8_t *buffer, size_t max, size_t *len);

#endif
