#include "run_file.h"

#include "icode.h"

#include <errno.h>
#include <stdio.h>
#include <string.h>

uint32_t halfword_at(const uint8_t *at)
{
    return (uint32_t)at[0] << 8 | at[1];
}

uint32_t word_at(const uint8_t *at)
{
    return halfword_at(at) << 16 | halfword_at(at + 2);
}

/* Takes count bytes off the front; false where there are fewer. */
static bool take(struct bytes *rest, size_t count, struct bytes *taken)
{
    if (rest->len < count)
        return false;
    *taken = (struct bytes){rest->at, count};
    *rest = (struct bytes){rest->at + count, rest->len - count};
    return true;
}

/* Takes a count byte and that many items. */
static bool take_list(struct bytes *rest, size_t item_size, struct bytes *items)
{
    struct bytes count;
    return take(rest, 1, &count) && take(rest, count.at[0] * item_size, items);
}

const char *split_run_file(struct bytes file, struct run_file *parts)
{
    static const uint8_t beginning[] = {'T', 'R', 'K', 0, 1};
    struct bytes rest = file, begins, sizes;

    if (file.len > ICODE_RUN_FILE_MAX)
        return "it is longer than 8,192 bytes";
    if (!take(&rest, sizeof beginning, &begins) || memcmp(begins.at, beginning, sizeof beginning) != 0)
        return "it does not begin with TRK and version 1";
    if (!take_list(&rest, 1, &parts->results) || !take_list(&rest, 4, &parts->parameters) || !take(&rest, 8, &sizes))
        return "it ends inside its head";
    parts->budget = word_at(sizes.at);
    parts->memory_words = halfword_at(sizes.at + 4);
    parts->stack_words = halfword_at(sizes.at + 6);
    parts->record = rest;
    if (parts->memory_words > ICODE_RUN_FILE_MEMORY_MAX)
        return "it asks for more than 4,096 words of memory";
    return NULL;
}

bool read_input(const char *name, uint8_t *buffer, size_t max, size_t *len)
{
    bool standard = strcmp(name, "-") == 0;
    FILE *file = standard ? stdin : fopen(name, "rb");
    if (file == NULL)
        return false;
    *len = fread(buffer, 1, max, file);
    bool failed = ferror(file) != 0;
    int reason = errno; /* fclose may set it anew */
    if (!standard)
        (void)fclose(file);
    errno = reason;
    return !failed;
}
