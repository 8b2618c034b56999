#include "input.h"

#include "../../console/run_file.h"
#include "corpus.h"
#include "lend.h"
#include "random.h"

#include <string.h>

enum { BUDGET_MAX = 2000 }; /* steps of a damaged run file: a loop must not hold the test up */

static uint8_t record[RECORD_MAX], results[RESULTS_MAX], run_file[RUN_FILE_MAX];
static uint32_t parameters[PARAMETERS_MAX];

static void put_word(uint8_t *at, uint32_t word)
{
    for (int i = 0; i < 4; i++)
        at[i] = (uint8_t)(word >> (24 - 8 * i));
}

/* Gives a word that rules are likely to turn on. */
static uint32_t edge_word(void)
{
    static const uint32_t edges[] = {0, 1, 2, 3, 4, 6, 7, 16, 17, 255, 256, 512, 1024, 1025, 2048, 2049, 4096, 4097, 16384, 65535,
                                     0x7fffffff, 0x80000000, 0xffffffff};
    return edges[random_below(sizeof edges / sizeof edges[0])];
}

/* Changes bytes, or takes some from the end or adds some there. Answers the new length. */
static size_t damage(uint8_t *bytes, size_t len, size_t max)
{
    size_t at = len == 0 ? 0 : random_below((uint32_t)(once_in(3) && len > 40 ? 40 : len));
    size_t count = 1 + random_below(8);
    switch (len == 0 ? 5 : random_below(7)) {
    case 0:
        bytes[at] ^= (uint8_t)(1 << random_below(8));
        return len;
    case 1:
        bytes[at] = (uint8_t)random_word();
        return len;
    case 2:
        if (at + 4 <= len)
            put_word(bytes + at / 4 * 4, edge_word());
        return len;
    case 3:
        memmove(bytes + at, bytes + random_below((uint32_t)len), 1);
        return len;
    case 4:
        return once_in(8) ? 0 : once_in(4) ? at : len - (count < len ? count : len);
    default:
        while (count-- > 0 && len < max)
            bytes[len++] = (uint8_t)random_word();
        return len;
    }
}

size_t damage_often(uint8_t *bytes, size_t len, size_t max)
{
    for (uint32_t times = 1 + random_below(3); times > 0; times--)
        len = damage(bytes, len, max);
    return len;
}

static size_t make_noise(uint8_t *bytes, size_t max)
{
    size_t len = random_below(once_in(4) ? (uint32_t)max + 1 : 64);
    for (size_t i = 0; i < len; i++)
        bytes[i] = (uint8_t)random_word();
    return len;
}

/* Keeps a run of the report short, whatever the damage made of the budget. */
static void limit_budget(size_t len)
{
    struct run_file parts;
    struct bytes whole = {run_file, len};
    if (split_run_file(whole, &parts) == NULL && parts.budget > BUDGET_MAX)
        put_word(run_file + (parts.record.at - 8 - run_file), random_below(BUDGET_MAX));
}

/* Writes the head of a run file and the record behind it. */
static size_t build_run_file(const struct input *input)
{
    size_t list = input->results_len < 255 ? input->results_len : 255, words = input->parameters_len < 255 ? input->parameters_len : 255;
    size_t head = 5 + 1 + list + 1 + 4 * words + 8, rest = sizeof run_file - head;
    uint8_t *at = run_file;
    memcpy(at, "TRK\0\1", 5);
    at[5] = (uint8_t)list;
    memcpy(at + 6, results, list);
    at += 6 + list;
    *at++ = (uint8_t)words;
    for (size_t i = 0; i < words; i++, at += 4)
        put_word(at, parameters[i]);
    put_word(at, random_below(BUDGET_MAX));
    put_word(at + 4, (3 + input->globals + input->constants + random_below(40)) << 16 | random_below(40));
    if (rest > input->record_len)
        rest = input->record_len;
    memcpy(at + 8, record, rest);
    return head + rest;
}

void lend_both(enum role role, const void *contents, size_t len)
{
    fill(role, FRONT, contents, len);
    fill(role, BACK, contents, len);
}

static void make_run_file(const struct stored *stored, struct input *input)
{
    if (stored->file != NULL && once_in(2)) {
        memcpy(run_file, stored->file, stored->file_len);
        input->file_len = stored->file_len;
    } else {
        input->file_len = build_run_file(input);
    }
    if (once_in(3))
        input->file_len = damage_often(run_file, input->file_len, sizeof run_file);
    limit_budget(input->file_len);
    lend_both(RUN_FILE, run_file, input->file_len);
}

/* Takes the record's code, as far as it is there, or noise. */
static void make_code(struct input *input)
{
    static uint8_t noise[ICODE_CODE_MAX + 8];
    const uint8_t *code = noise;
    input->code_len = 0;
    if (once_in(3)) {
        input->code_len = make_noise(noise, sizeof noise);
    } else if (input->record_len > ICODE_HEADER_BYTES) {
        code = record + ICODE_HEADER_BYTES;
        input->code_len = input->record_len - ICODE_HEADER_BYTES;
        if (input->code_len > role_max(CODE))
            input->code_len = role_max(CODE);
    }
    lend_both(CODE, code, input->code_len);
}

static void make_lists(const struct stored *stored, struct input *input)
{
    memcpy(results, stored->results, stored->results_len);
    input->results_len = once_in(8) ? damage(results, stored->results_len, sizeof results) : stored->results_len;
    input->parameters_len = stored->parameters_len;
    for (size_t i = 0; i < stored->parameters_len; i++)
        parameters[i] = word_at(stored->parameters + 4 * i);
    if (once_in(4) || (stored->file == NULL && once_in(2))) {
        input->parameters_len = random_below(once_in(10) ? PARAMETERS_MAX : 8);
        for (size_t i = 0; i < input->parameters_len; i++)
            parameters[i] = once_in(2) ? edge_word() : (uint32_t)random_word();
    }
    lend_both(RESULTS, results, input->results_len);
    lend_both(PARAMETERS, parameters, input->parameters_len);
}

/* Takes run files as often as records alone, of which more are stored but fewer accepted. */
static const struct stored *choose(size_t stored_count)
{
    const struct stored *stored = stored_input(random_below((uint32_t)stored_count));
    if (once_in(2))
        for (int tries = 0; tries < 20 && stored->file == NULL; tries++)
            stored = stored_input(random_below((uint32_t)stored_count));
    return stored;
}

void make_input(size_t stored_count, struct input *input)
{
    const struct stored *stored = choose(stored_count);
    memcpy(record, stored->record, stored->record_len);
    input->record_len = stored->record_len;
    if (once_in(2))
        input->record_len = damage_often(record, input->record_len, sizeof record);
    else if (once_in(30))
        input->record_len = make_noise(record, sizeof record);
    bool sized = input->record_len >= ICODE_HEADER_BYTES;
    input->imports = sized ? word_at(record) : 0;
    input->relocation = sized ? word_at(record + 16) : 0;
    input->code_size = sized ? word_at(record + 4) : 0;
    input->globals = sized ? word_at(record + 8) : 0;
    input->constants = sized ? word_at(record + 12) : 0;
    lend_both(RECORD, record, input->record_len);
    make_lists(stored, input);
    make_code(input);
    make_run_file(stored, input);
}
