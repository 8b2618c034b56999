#include "sizes.h"

#include "icode.h"

#include <stdbool.h>
#include <stdint.h>
#include <stdio.h>
#include <string.h>

enum { IMPORTS, CODE_SIZE, GLOBALS, CONSTANTS, RELOCATION, VERSIONS, SOURCES, PARTS };

static unsigned holding, failing;
static uint8_t record[ICODE_MEND_MAX + 1];
static uint16_t workspace[ICODE_WORKSPACE_MAX];
static uint32_t memory[ICODE_MEMORY_MAX + 1], stack[ICODE_STACK_MAX + 1], state[ICODE_STATE_WORDS];

static void expect(bool holds, const char *what)
{
    holding += holds;
    failing += !holds;
    if (!holds)
        printf("FAILED: %s\n", what);
}

static void put_word(uint8_t *at, uint32_t word)
{
    for (int i = 0; i < 4; i++)
        at[i] = (uint8_t)(word >> (24 - 8 * i));
}

/* Makes a record with these sizes: procedures of one RTN behind their entries, every version word " 3/-", a pair at every second offset.
 * Answers its length. */
static size_t make_record(const uint32_t sizes[PARTS], uint32_t procedures)
{
    uint8_t *at = record;
    memset(record, 0, sizeof record);
    for (int i = 0; i < PARTS; i++, at += 4)
        put_word(at, sizes[i]);
    at += 4 * sizes[IMPORTS];
    memset(at + 2 * procedures, 0xe9, sizes[CODE_SIZE] - 2 * procedures); /* RTN */
    for (uint32_t i = 0; i < procedures; i++) {
        uint32_t entry = 2 * procedures + (i + procedures - 1) % procedures; /* 1, 2, .. and then 0 */
        at[2 * i] = (uint8_t)(entry >> 8);
        at[2 * i + 1] = (uint8_t)entry;
    }
    at += sizes[CODE_SIZE] + 4 * sizes[CONSTANTS] + 4 * sizes[RELOCATION];
    for (uint32_t i = 0; i < sizes[VERSIONS]; i++, at += 4)
        memcpy(at, " 3/-", 4);
    for (uint32_t i = 0; i < sizes[SOURCES] / 2; i++, at += 8)
        put_word(at, 2 * i);
    return (size_t)(at - record);
}

static void try_record_sizes(void)
{
    const uint32_t all[PARTS] = {16, ICODE_CODE_MAX, ICODE_GLOBALS_MAX, 1024, 4096, 16, 2048};
    static uint8_t out[ICODE_MEND_MAX];
    static uint32_t places[ICODE_PLACES_MAX], counts[ICODE_COUNT_WORDS];
    for (int part = 0; part < PARTS; part++) {
        uint32_t more[PARTS];
        memcpy(more, all, sizeof more);
        more[part]++;
        for (int i = 0; i < PARTS; i++)
            put_word(record + 4 * i, more[i]);
        expect(icode_record_number(record, ICODE_MEND_MAX) == ICODE_SIZE_ABOVE, "a size above its maximum");
    }
    size_t len = make_record(all, 1);
    expect(len == ICODE_RECORD_MAX && icode_record_number(record, len) == 0, "ICODE_RECORD_MAX");
    expect(len == ICODE_MEND_MAX, "ICODE_MEND_MAX");
    memset(record + len - 4 * ICODE_PLACES_MAX, 0xff, 4 * ICODE_PLACES_MAX); /* both tables */
    expect(icode_mend(record, len, out, ICODE_MEND_MAX, places, ICODE_PLACES_MAX, counts, ICODE_COUNT_WORDS) == 0 &&
               counts[ICODE_DROPPED_WORDS] == ICODE_PLACES_MAX, "ICODE_PLACES_MAX");
}

static void try_load_sizes(void)
{
    const uint32_t sizes[PARTS] = {0, 3, ICODE_GLOBALS_MAX, 0, 0, 0, 0};
    static const uint32_t parameters[ICODE_GLOBALS_MAX + 1];
    size_t len = make_record(sizes, 1);
#define LOAD(p, m, s) icode_bench_load(record, len, parameters, p, memory, m, stack, s, state, ICODE_STATE_WORDS)
    expect(LOAD(ICODE_GLOBALS_MAX, ICODE_MEMORY_MAX, ICODE_STACK_MAX) == 0, "the largest machine");
    expect(LOAD(ICODE_GLOBALS_MAX + 1, ICODE_MEMORY_MAX, ICODE_STACK_MAX) == ICODE_ROOM_WRONG, "ICODE_GLOBALS_MAX");
    expect(LOAD(0, ICODE_MEMORY_MAX + 1, ICODE_STACK_MAX) == ICODE_ROOM_WRONG, "ICODE_MEMORY_MAX");
    expect(LOAD(0, ICODE_MEMORY_MAX, ICODE_STACK_MAX + 1) == ICODE_ROOM_WRONG, "ICODE_STACK_MAX");
#undef LOAD
}

static void try_check_sizes(void)
{
    const uint32_t many[PARTS] = {0, 3 * ICODE_RESULTS_MAX, 0, 0, 0, 0, 0}, largest[PARTS] = {0, ICODE_CODE_MAX, 0, 0, 0, 0, 0};
    static const uint8_t results[ICODE_RESULTS_MAX];
    size_t len = make_record(many, ICODE_RESULTS_MAX);
    expect(icode_check(record, len, results, ICODE_RESULTS_MAX, workspace, ICODE_WORKSPACE_MAX) == ICODE_ENTER_WRONG &&
               icode_check(record, len, results, ICODE_RESULTS_MAX - 1, workspace, ICODE_WORKSPACE_MAX) == ICODE_RESULTS_WRONG,
           "ICODE_RESULTS_MAX");
    len = make_record(largest, 1);
    expect(icode_check(record, len, results, 1, workspace, ICODE_WORKSPACE_MAX) == 0 &&
               icode_check(record, len, results, 1, workspace, ICODE_WORKSPACE_MAX - 1) == ICODE_ROOM_WRONG, "ICODE_WORKSPACE_MAX");
    expect(icode_check(record, len, record, 1, workspace, ICODE_WORKSPACE_MAX) == 0, "a results list inside the record");
}

/* Loads so many modules of the largest code into a copy of so many bytes. */
static uint32_t load_set(size_t count, size_t copy_len)
{
    const uint32_t sizes[PARTS] = {0, ICODE_CODE_MAX, 0, 0, 0, 0, 0};
    static uint8_t records[(ICODE_MODULES_MAX + 1) * (ICODE_HEADER_BYTES + ICODE_CODE_MAX)], copy[ICODE_COPY_MAX + 1];
    uint32_t directory[(ICODE_MODULES_MAX + 1) * ICODE_ROW_WORDS], set_state[ICODE_SET_STATE_WORDS];
    size_t len = make_record(sizes, 1);
    for (size_t i = 0; i < count; i++) {
        const uint32_t row[ICODE_ROW_WORDS] = {(uint32_t)i, (uint32_t)len, 0, 0};
        memcpy(records + i * len, record, len);
        memcpy(directory + i * ICODE_ROW_WORDS, row, sizeof row);
    }
    return icode_bench_set_load(records, count * len, directory, count * ICODE_ROW_WORDS, memory, 0, copy, copy_len, memory,
                                ICODE_MEMORY_MAX, stack, ICODE_STACK_MAX, set_state, ICODE_SET_STATE_WORDS);
}

static void try_set_sizes(void)
{
    expect(load_set(ICODE_MODULES_MAX, ICODE_COPY_MAX) == 0 && load_set(ICODE_MODULES_MAX, ICODE_COPY_MAX + 1) == 0 &&
               load_set(ICODE_MODULES_MAX, ICODE_COPY_MAX - 1) == ICODE_ROOM_WRONG, "ICODE_COPY_MAX");
    expect(load_set(ICODE_MODULES_MAX + 1, ICODE_COPY_MAX) == ICODE_IMPORTS_WRONG, "ICODE_MODULES_MAX");
}

/* Reports a run file of so many bytes that asks for so much memory. Answers the number of its check. */
static unsigned reported(size_t len, uint32_t memory_words)
{
    static uint8_t file[ICODE_RUN_FILE_MAX + 1] = "TRK\0\1\1\0\0\0\0\0\1";
    char text[ICODE_REPORT_MAX] = "";
    unsigned number = 99;
    put_word(file + 12, memory_words << 16);
    memcpy(file + 16, record, sizeof file - 16);
    (void)icode_report(file, len, (uint8_t *)text, sizeof text);
    (void)sscanf(text, "check %u", &number);
    return number;
}

static void try_run_file_sizes(void)
{
    uint32_t sizes[PARTS] = {0, 3, 0, 0, 0, 0, 0};
    size_t len = 16 + make_record(sizes, 1);
    expect(reported(len, ICODE_RUN_FILE_MEMORY_MAX) == 0 && reported(len, ICODE_RUN_FILE_MEMORY_MAX + 1) == ICODE_RUN_FILE_WRONG,
           "ICODE_RUN_FILE_MEMORY_MAX");
    sizes[CODE_SIZE] = ICODE_CODE_MAX;
    sizes[CONSTANTS] = (ICODE_RUN_FILE_MAX - 16 - ICODE_HEADER_BYTES - ICODE_CODE_MAX) / 4;
    len = 16 + make_record(sizes, 1);
    expect(len == ICODE_RUN_FILE_MAX && reported(len, ICODE_RUN_FILE_MEMORY_MAX) == 0 &&
               reported(len + 1, ICODE_RUN_FILE_MEMORY_MAX) == ICODE_RUN_FILE_WRONG, "ICODE_RUN_FILE_MAX");
}

unsigned try_sizes(unsigned *others)
{
    expect(icode_record_number(record, ICODE_HEADER_BYTES - 1) == ICODE_RECORD_SHORT &&
               icode_record_number(record, ICODE_HEADER_BYTES) != ICODE_RECORD_SHORT, "ICODE_HEADER_BYTES");
    try_record_sizes();
    try_load_sizes();
    try_check_sizes();
    try_set_sizes();
    try_run_file_sizes();
    *others = failing;
    return holding;
}
