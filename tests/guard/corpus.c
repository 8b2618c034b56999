#define _DEFAULT_SOURCE
#include "corpus.h"

#include "../../console/run_file.h"
#include "lend.h"

#include <dirent.h>
#include <errno.h>
#include <stdbool.h>
#include <stdio.h>
#include <stdlib.h>
#include <string.h>

enum { CORPUS_MAX = 5000, SETS_MAX = 1000, SET_MODULES_MAX = 32 };

static struct stored inputs[CORPUS_MAX];
static size_t input_count;
static struct stored_set sets[SETS_MAX];
static size_t set_count;
static const uint8_t no_results[RESULTS_MAX]; /* for records that are stored without a list */

static void leave(const char *what, const char *name)
{
    fprintf(stderr, "guard: %s '%s': %s\n", what, name, strerror(errno));
    exit(2);
}

/* Keeps a copy for as long as the program runs. */
static uint8_t *keep(const uint8_t *bytes, size_t len)
{
    uint8_t *kept = malloc(len + 1);
    if (kept == NULL)
        leave("cannot keep", "an input");
    memcpy(kept, bytes, len);
    return kept;
}

static struct stored *add_input(void)
{
    if (input_count == CORPUS_MAX) {
        fprintf(stderr, "guard: more than %d inputs\n", CORPUS_MAX);
        exit(2);
    }
    return &inputs[input_count++];
}

/* Takes a run file apart; one that is malformed also serves whole as a record. */
static void add_run_file(const char *name)
{
    static uint8_t buffer[RUN_FILE_MAX];
    struct stored *input = add_input();
    struct run_file parts = {0};
    if (!read_input(name, buffer, sizeof buffer, &input->file_len))
        leave("cannot read", name);
    input->file = keep(buffer, input->file_len);
    struct bytes file = {input->file, input->file_len};
    if (split_run_file(file, &parts) != NULL)
        parts = (struct run_file){.record = file, .results = {no_results, 1}, .parameters = {no_results, 0}};
    input->record = parts.record.at;
    input->record_len = parts.record.len;
    input->results = parts.results.at;
    input->results_len = parts.results.len;
    input->parameters = parts.parameters.at;
    input->parameters_len = parts.parameters.len / 4;
}

static int hex_digit(char digit)
{
    static const char digits[] = "0123456789abcdef";
    const char *at = digit == '\0' ? NULL : strchr(digits, digit);
    return at == NULL ? -1 : (int)(at - digits);
}

/* Reads bytes in hex; "-" is none. */
static size_t from_hex(const char *text, uint8_t *bytes, size_t max)
{
    size_t len = 0;
    for (; len < max && hex_digit(text[0]) >= 0 && hex_digit(text[1]) >= 0; text += 2)
        bytes[len++] = (uint8_t)(hex_digit(text[0]) * 16 + hex_digit(text[1]));
    return len;
}

/* Counts the procedures of a record: entry 1 is where the list of entries ends, and one procedure has no entry 1. */
static size_t procedures_of(const struct stored *input)
{
    size_t before = ICODE_HEADER_BYTES;
    if (input->record_len >= before)
        before += 4 * (size_t)word_at(input->record); /* the import list */
    const uint8_t *code = input->record + before;
    if (input->record_len < before + 4 || halfword_at(code) == 2)
        return 1;
    size_t count = halfword_at(code + 2) / 2;
    return count > ICODE_RESULTS_MAX ? ICODE_RESULTS_MAX : count;
}

/* Takes a record in hex, with a results list of zeros. */
static void take_record(const char *record, struct stored *input)
{
    static uint8_t bytes[RECORD_MAX];
    input->record_len = from_hex(record, bytes, sizeof bytes);
    input->record = keep(bytes, input->record_len);
    input->results_len = procedures_of(input);
    input->results = no_results;
    input->parameters = no_results;
}

static void take_results(const char *results, struct stored *input)
{
    uint8_t bytes[RESULTS_MAX];
    input->results_len = from_hex(results, bytes, RESULTS_MAX);
    input->results = keep(bytes, input->results_len);
}

static char *next_token(void)
{
    return strtok(NULL, " \n");
}

static void add_single(bool check)
{
    char *record = next_token(), *results = next_token();
    if (record == NULL)
        return;
    struct stored *input = add_input();
    take_record(record, input);
    if (check && results != NULL)
        take_results(results, input);
}

/* Takes the modules of a case line over a set, from their number on, and their results lists where it is a check's. */
static void add_set(bool check)
{
    static struct stored_module modules[SET_MODULES_MAX];
    char *count_text = next_token(), *sid, *text;
    size_t count = count_text == NULL ? 0 : strtoul(count_text, NULL, 10), i;
    if (count > SET_MODULES_MAX || set_count == SETS_MAX)
        leave("cannot keep", "a set");
    for (i = 0; i < count && (sid = next_token()) != NULL && (text = next_token()) != NULL; i++) {
        modules[i] = (struct stored_module){.sid = (uint32_t)strtoul(sid, NULL, 10)};
        take_record(text, &modules[i].parts);
    }
    for (i = 0; check && i < count && (text = next_token()) != NULL; i++)
        take_results(text, &modules[i].parts);
    struct stored_module *kept = (struct stored_module *)(void *)keep((const uint8_t *)modules, count * sizeof modules[0]);
    sets[set_count++] = (struct stored_set){count, kept};
}

/* Takes the record of a case line, and the results list where it is a check's; or the modules of one over a set. */
static void add_case(char *line)
{
    char *call = strtok(line, " \n");
    if (call == NULL)
        return;
    if (strcmp(call, "mcheck") == 0 && next_token() != NULL)
        add_set(true);
    else if (strcmp(call, "mload") == 0 || strcmp(call, "mrun") == 0)
        add_set(false);
    else
        add_single(strcmp(call, "check") == 0);
}

static void add_cases(const char *name)
{
    char *line = NULL;
    size_t room = 0;
    FILE *file = fopen(name, "r");
    if (file == NULL)
        leave("cannot read", name);
    while (getline(&line, &room, file) >= 0)
        add_case(line);
    free(line);
    fclose(file);
}

static int wanted(const struct dirent *entry)
{
    const char *ending = strrchr(entry->d_name, '.');
    return ending != NULL && (strcmp(ending, ".run") == 0 || strcmp(ending, ".cases") == 0);
}

size_t stored_set_count(void)
{
    return set_count;
}

const struct stored_set *stored_set(size_t index)
{
    return &sets[index];
}

size_t read_folder(const char *folder)
{
    struct dirent **names;
    char path[4096];
    int count = scandir(folder, &names, wanted, alphasort); /* sorted, so that a seed means the same everywhere */
    if (count < 0)
        leave("cannot list", folder);
    for (int i = 0; i < count; i++) {
        (void)snprintf(path, sizeof path, "%s/%s", folder, names[i]->d_name);
        if (strcmp(strrchr(path, '.'), ".run") == 0)
            add_run_file(path);
        else
            add_cases(path);
        free(names[i]);
    }
    free(names);
    return input_count;
}

const struct stored *stored_input(size_t index)
{
    return &inputs[index];
}
