#include "set.h"

#include "messages.h"

#include <inttypes.h>
#include <stdio.h>
#include <stdlib.h>
#include <string.h>

/* A number in decimal, or in hex behind 0x, of at most 32 bits; false for anything else. */
static bool read_sid(const char *text, size_t len, uint32_t *sid)
{
    bool hex = len > 2 && text[0] == '0' && text[1] == 'x';
    uint64_t base = hex ? 16 : 10, number = 0;
    for (size_t i = hex ? 2 : 0; i < len; i++) {
        static const char digits[] = "0123456789abcdef0123456789ABCDEF";
        const char *found = text[i] != '\0' ? strchr(digits, text[i]) : NULL;
        uint64_t digit = found != NULL ? (uint64_t)(found - digits) % 16 : base;
        number = number * base + digit;
        if (digit >= base || number > UINT32_MAX)
            return false;
    }
    *sid = (uint32_t)number;
    return len > 0;
}

const char *split_library(const char *text, struct module *library)
{
    const char *equals = strchr(text, '=');
    if (equals == NULL)
        return "is not SID=FILE";
    if (!read_sid(text, (size_t)(equals - text), &library->sid))
        return "has no SID before the =: it is a number from 0 to 4294967295, decimal or hex with 0x";
    if (equals[1] == '\0')
        return "has no FILE behind the =";
    library->name = equals + 1;
    return NULL;
}

enum { FILE_ROOM = ICODE_RUN_FILE_MAX + 1 }; /* one byte more shows that a file is too long */

bool make_set(size_t libraries, struct set *set)
{
    size_t count = libraries + 1;
    *set = (struct set){.count = 1};
    set->modules = calloc(count, sizeof *set->modules);
    set->files = malloc(count * FILE_ROOM);
    set->records = malloc(count * ICODE_RUN_FILE_MAX);
    set->results = malloc(count * ICODE_RESULTS_MAX);
    set->directory = calloc(count, ICODE_ROW_WORDS * sizeof *set->directory);
    return set->modules != NULL && set->files != NULL && set->records != NULL && set->results != NULL && set->directory != NULL;
}

void drop_set(struct set *set)
{
    free(set->modules);
    free(set->files);
    free(set->records);
    free(set->results);
    free(set->directory);
}

static bool read_library(const char *program, struct module *library, uint8_t *buffer)
{
    struct bytes file = {buffer, 0};
    if (!read_input(library->name, buffer, FILE_ROOM, &file.len)) {
        explain_unreadable(program, library->name);
        return false;
    }
    const char *broken = split_run_file(file, &library->parts);
    if (broken != NULL)
        fprintf(stderr, "%s: library %s is no run file: %s\n", program, shown_name(library->name), broken);
    return broken == NULL;
}

bool read_libraries(const char *program, struct set *set)
{
    bool all = true;
    for (size_t i = 1; i < set->count; i++)
        all &= read_library(program, &set->modules[i], set->files + i * FILE_ROOM);
    return all;
}

/* Puts a module's bytes behind those of the modules before it, and notes how many there are. */
static void append(struct set *set, size_t module)
{
    const struct run_file *parts = &set->modules[module].parts;
    uint32_t *row = set->directory + module * ICODE_ROW_WORDS;
    memcpy(set->records + set->records_len, parts->record.at, parts->record.len);
    memcpy(set->results + set->results_len, parts->results.at, parts->results.len);
    set->records_len += parts->record.len;
    set->results_len += parts->results.len;
    row[ICODE_SID] = set->modules[module].sid;
    row[ICODE_RECORD_BYTES] = (uint32_t)parts->record.len;
    row[ICODE_RESULTS_BYTES] = (uint32_t)parts->results.len;
    row[ICODE_WORKSPACE_HALFWORDS] = ICODE_WORKSPACE_MAX;
}

void lend(const char *name, const struct run_file *parts, struct set *set)
{
    set->modules[0] = (struct module){.name = name, .parts = *parts};
    set->records_len = 0;
    set->results_len = 0;
    for (size_t i = 0; i < set->count; i++)
        append(set, i);
}

void check_set(const struct set *set, struct set_run *run)
{
    uint16_t workspace[ICODE_WORKSPACE_MAX];
    size_t module = 0;
    do {
        run->refused = module;
        run->number = icode_set_check(set->records, set->records_len, set->results, set->results_len, set->directory,
                                      set->count * ICODE_ROW_WORDS, (uint32_t)module, workspace, ICODE_WORKSPACE_MAX);
    } while (run->number == 0 && ++module < set->count);
}

static uint32_t load(const struct set *set, uint8_t copy[ICODE_COPY_MAX], struct set_run *run)
{
    const struct run_file *parts = &set->modules[0].parts;
    uint32_t parameters[UINT8_MAX];
    size_t count = parts->parameters.len / 4;
    for (size_t i = 0; i < count; i++)
        parameters[i] = word_at(parts->parameters.at + 4 * i);
    return icode_bench_set_load(set->records, set->records_len, set->directory, set->count * ICODE_ROW_WORDS, parameters, count, copy,
                                ICODE_COPY_MAX, run->memory, parts->memory_words, run->stack, parts->stack_words, run->state,
                                ICODE_SET_STATE_WORDS);
}

/* Looks the line of the place up in its module. */
static uint32_t line_of(const struct set *set, const uint32_t outcome[ICODE_SET_OUTCOME_WORDS])
{
    struct bytes record = set->modules[outcome[ICODE_PLACE_MODULE]].parts.record;
    return (uint32_t)icode_line(record.at, record.len, outcome[ICODE_PLACE]);
}

void run_set(const struct set *set, struct set_run *run)
{
    static uint8_t copy[ICODE_COPY_MAX];
    const struct run_file *parts = &set->modules[0].parts;
    check_set(set, run);
    if (run->number == 0)
        run->number = load(set, copy, run);
    if (run->number == 0)
        run->number = icode_bench_set_run(set->records, set->records_len, set->directory, set->count * ICODE_ROW_WORDS, parts->budget,
                                          copy, ICODE_COPY_MAX, run->memory, parts->memory_words, run->stack, parts->stack_words,
                                          run->state, ICODE_SET_STATE_WORDS, run->outcome, ICODE_SET_OUTCOME_WORDS);
    if (run->number == 0)
        run->line = line_of(set, run->outcome);
}

/* Prints a name, words with a space before each, and a newline. */
static void print_words(const char *name, const uint32_t *words, size_t count)
{
    fputs(name, stdout);
    for (size_t i = 0; i < count; i++)
        printf(" %" PRIu32, words[i]);
    putchar('\n');
}

void print_set_page(const struct set *set, const struct set_run *run)
{
    enum { HEADER_WORDS = 3 }; /* before the main module's globals */
    const uint32_t *outcome = run->outcome;
    printf("check %" PRIu32 "\n", run->number);
    if (run->number != 0)
        return;
    printf("end %" PRIu32 " at %" PRIu32 " line %" PRIu32 " steps %" PRIu32 " module %" PRIu32 "\n", outcome[ICODE_END],
           outcome[ICODE_PLACE], run->line, outcome[ICODE_STEPS], outcome[ICODE_PLACE_MODULE]);
    print_words("s", run->stack, run->state[ICODE_HEIGHT]);
    print_words("g", run->memory + HEADER_WORDS, word_at(set->modules[0].parts.record.at + 8));
}
