#include "code.h"

#include "messages.h"

#include <inttypes.h>
#include <stdio.h>

/* The sizes at the front of a record, by their places there. */
enum { IMPORTS, CODE, GLOBALS, CONSTANTS, RELOCATION };

static uint32_t size_of(struct bytes record, uint32_t part)
{
    return word_at(record.at + 4 * part);
}

struct bytes import_list(struct bytes record)
{
    return (struct bytes){record.at + ICODE_HEADER_BYTES, 4 * (size_t)size_of(record, IMPORTS)};
}

struct bytes relocation_table(struct bytes record)
{
    struct bytes imports = import_list(record);
    size_t before = size_of(record, CODE) + 4 * (size_t)size_of(record, CONSTANTS);
    return (struct bytes){imports.at + imports.len + before, 4 * (size_t)size_of(record, RELOCATION)};
}

struct code code_of(struct bytes record)
{
    struct bytes imports = import_list(record);
    struct code code = {.at = imports.at + imports.len, .len = size_of(record, CODE)};
    code.procedures = entry(&code, 0) == 2 ? 1 : entry(&code, 1) / 2;
    return code;
}

uint32_t entry(const struct code *code, uint32_t procedure)
{
    return halfword_at(code->at + 2 * procedure);
}

/* Code stands in the order of the procedures 1, 2, .. and then 0. */
static uint32_t region_end(const struct code *code, uint32_t procedure)
{
    return procedure == 0 ? code->len : entry(code, (procedure + 1) % code->procedures);
}

static struct instruction decode(const struct code *code, uint32_t procedure, uint32_t at)
{
    uint32_t out[ICODE_DECODED_WORDS] = {0};
    (void)icode_bench_decode(code->at, code->len, region_end(code, procedure), at, out, ICODE_DECODED_WORDS);
    return (struct instruction){.at = at, .len = out[ICODE_BYTES], .mnemonic = out[ICODE_MNEMONIC], .operand = out[ICODE_OPERAND],
                                .second = out[ICODE_SECOND], .procedure = procedure};
}

struct instruction first_of(const struct code *code, uint32_t procedure)
{
    return decode(code, procedure, entry(code, procedure));
}

struct instruction next_of(const struct code *code, const struct instruction *instruction)
{
    return decode(code, instruction->procedure, instruction->at + instruction->len);
}

bool ends_region(const struct code *code, const struct instruction *instruction)
{
    return instruction->at + instruction->len == region_end(code, instruction->procedure);
}

void write_at(struct bytes record, const struct instruction *instruction, const char *fault, char reason[REASON_MAX])
{
    char line[LINE_TEXT_MAX];
    (void)line_text((uint32_t)icode_line(record.at, record.len, instruction->at), line);
    (void)snprintf(reason, REASON_MAX, "at offset %" PRIu32 ", %s: %.99s", instruction->at, line, fault);
}
