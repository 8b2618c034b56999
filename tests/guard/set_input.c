#include "set_input.h"

#include "../../console/run_file.h"
#include "corpus.h"
#include "input.h"
#include "random.h"

#include <string.h>

static uint8_t records[RECORDS_MAX], results[ALL_RESULTS_MAX];
static uint32_t directory[DIRECTORY_MAX], parameters[16];

/* Puts a stored module behind the others, damaged now and then. Answers false where there is no more room. */
static bool append(const struct stored_module *module, uint32_t damaged, struct set_input *set)
{
    const struct stored *parts = &module->parts;
    if (set->directory_len + ICODE_ROW_WORDS > MODULES_MAX * ICODE_ROW_WORDS || set->records_len + parts->record_len + 64 > RECORDS_MAX ||
        set->results_len + RESULTS_MAX > ALL_RESULTS_MAX)
        return false;
    uint32_t *row = directory + set->directory_len;
    uint8_t *record = records + set->records_len, *list = results + set->results_len;
    memcpy(record, parts->record, parts->record_len);
    memcpy(list, parts->results, parts->results_len);
    size_t record_len = parts->record_len, list_len = parts->results_len;
    if (damaged > 0 && once_in(damaged))
        record_len = damage_often(record, record_len, record_len + 64);
    if (damaged > 0 && once_in(4 * damaged))
        list_len = damage_often(list, list_len, RESULTS_MAX);
    row[ICODE_SID] = module->sid;
    row[ICODE_RECORD_BYTES] = (uint32_t)record_len;
    row[ICODE_RESULTS_BYTES] = (uint32_t)list_len;
    row[ICODE_WORKSPACE_HALFWORDS] = once_in(2) ? ICODE_WORKSPACE_MAX : (uint32_t)random_word();
    set->records_len += record_len;
    set->results_len += list_len;
    set->directory_len += ICODE_ROW_WORDS;
    return true;
}

/* Changes a word of a directory, loses some from the end or adds some there that are no whole row. */
static void damage_directory(struct set_input *set)
{
    size_t at = random_below((uint32_t)set->directory_len + 1);
    switch (random_below(4)) {
    case 0:
        directory[at] += random_below(9) - 4;
        break;
    case 1:
        directory[at] = once_in(2) ? directory[random_below(DIRECTORY_MAX)] : (uint32_t)random_word();
        break;
    case 2:
        set->directory_len -= random_below(once_in(10) ? (uint32_t)set->directory_len + 1 : set->directory_len < 6 ? 1 : 6);
        break;
    default:
        for (uint32_t more = random_below(4); more > 0; more--)
            directory[set->directory_len++] = (uint32_t)random_word();
    }
}

static size_t share(size_t *rest, uint32_t wanted)
{
    size_t taken = wanted < *rest ? wanted : *rest;
    *rest -= taken;
    return taken;
}

/* Takes the records apart as the directory says. */
static void view_modules(struct set_input *set)
{
    size_t rest = set->records_len;
    const uint8_t *record = records;
    set->count = set->directory_len / ICODE_ROW_WORDS;
    for (size_t i = 0; i < set->count; i++) {
        size_t len = share(&rest, directory[i * ICODE_ROW_WORDS + ICODE_RECORD_BYTES]);
        bool sized = len >= ICODE_HEADER_BYTES;
        set->modules[i] = (struct set_module){icode_record_number(record, len), sized ? word_at(record + 4) : 0,
                                              sized ? word_at(record + 8) : 0, sized ? word_at(record + 12) : 0};
        record += len;
    }
}

void make_set_input(struct set_input *set)
{
    const struct stored_set *stored = stored_set(random_below((uint32_t)stored_set_count()));
    uint32_t damaged = once_in(2) ? 0 : 1 + random_below(6);
    *set = (struct set_input){0};
    for (size_t i = 0; i < stored->count && append(&stored->modules[i], damaged, set); i++)
        ;
    if (once_in(12))
        while (append(&stored->modules[random_below((uint32_t)stored->count)], 0, set) && !once_in(8))
            ;
    if (once_in(6))
        damage_directory(set);
    if (once_in(20))
        set->records_len -= random_below(set->records_len < 50 ? 1 : 50);
    view_modules(set);
    set->parameters_len = random_below(once_in(2) ? 3 : set->modules[0].globals % 9 + 2);
    for (size_t i = 0; i < set->parameters_len; i++)
        parameters[i] = (uint32_t)random_word();
    lend_both(PARAMETERS, parameters, set->parameters_len);
    lend_both(RECORDS, records, set->records_len);
    lend_both(ALL_RESULTS, results, set->results_len);
    lend_both(DIRECTORY, directory, set->directory_len);
}

uint32_t record_number_of(const struct set_input *set)
{
    uint32_t lowest = set->count == 0 ? ICODE_RECORD_SHORT : 0;
    for (size_t i = 0; i < set->count; i++)
        if (set->modules[i].number != 0 && (lowest == 0 || set->modules[i].number < lowest))
            lowest = set->modules[i].number;
    return lowest;
}

size_t copy_bytes_of(const struct set_input *set)
{
    size_t bytes = 0;
    for (size_t i = 0; i < set->count; i++)
        bytes += set->modules[i].code_size;
    return bytes;
}

size_t frame_words_of(const struct set_input *set)
{
    size_t words = 0;
    for (size_t i = 0; i < set->count; i++)
        words += 3 + (size_t)set->modules[i].globals + set->modules[i].constants;
    return words;
}
