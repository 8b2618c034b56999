#include "refusal.h"

#include <inttypes.h>
#include <stdio.h>

/* The table of a switch: the distances of exit and ELSE, then its rows. */
enum { SWITCH_EXIT = 3, SWITCH_ROWS = 7, SWITCH_ROW_BYTES = 2, RANGE_BYTES = 8 };

static struct instruction first_instruction(const struct code *code)
{
    return first_of(code, 1 % code->procedures);
}

/* The next one in the order of the code, which may be the first of the next procedure. */
static struct instruction next_instruction(const struct code *code, const struct instruction *instruction)
{
    bool last = ends_region(code, instruction);
    if (last && instruction->procedure == 0)
        return (struct instruction){0};
    return last ? first_of(code, (instruction->procedure + 1) % code->procedures) : next_of(code, instruction);
}

/* Whether a place is no start in the instruction's region; notes where it leads then. */
static bool leads_astray(const struct code *code, const struct instruction *instruction, uint32_t target, char reason[REASON_MAX])
{
    if (target < code->len && code->owner[target] == instruction->procedure + 1)
        return false;
    (void)snprintf(reason, REASON_MAX, "it leads to %" PRId32 ", where no instruction of procedure %" PRIu32 " begins", (int32_t)target,
                   instruction->procedure);
    return true;
}

static bool switch_leads_astray(const struct code *code, const struct instruction *instruction, char reason[REASON_MAX])
{
    bool ranges = instruction->mnemonic == SWITCH_X;
    uint32_t row = instruction->at + SWITCH_EXIT, end = instruction->at + instruction->len;
    while (row < end) {
        bool range = ranges && row >= instruction->at + SWITCH_ROWS;
        uint32_t distance = halfword_at(code->at + row + (range ? RANGE_BYTES : 0));
        /* The distance 0 of a range stands for ELSE, which has a row of its own. */
        if (!(range && distance == 0) && leads_astray(code, instruction, instruction->at + distance, reason))
            return true;
        row += SWITCH_ROW_BYTES + (range ? RANGE_BYTES : 0);
    }
    return false;
}

static bool breaks_successors(const struct code *code, const struct instruction *instruction, char reason[REASON_MAX])
{
    uint32_t mnemonic = instruction->mnemonic, next = instruction->at + instruction->len;
    if (mnemonic == SWITCH || mnemonic == SWITCH_X)
        return switch_leads_astray(code, instruction, reason);
    bool jumps = (mnemonic >= JUMP && mnemonic <= JUMP_F) || mnemonic == ITER;
    if (jumps && leads_astray(code, instruction, instruction->at + instruction->operand, reason))
        return true;
    bool stays = mnemonic == JUMP || mnemonic == LEAVE || mnemonic == RTN;
    return !stays && leads_astray(code, instruction, next, reason);
}

static bool breaks_enter(const struct code *code, const struct instruction *instruction, char reason[REASON_MAX])
{
    const char *fault = NULL;
    bool first = instruction->at == entry(code, instruction->procedure);
    if (instruction->mnemonic != ENTER)
        fault = first && instruction->procedure > 0 ? "does not begin with ENTER" : NULL;
    else if (!first)
        fault = "has an ENTER inside";
    else if (instruction->procedure == 0 && instruction->operand > 0)
        fault = "has an ENTER with parameters";
    if (fault != NULL)
        (void)snprintf(reason, REASON_MAX, "procedure %" PRIu32 " %s", instruction->procedure, fault);
    return fault != NULL;
}

static bool breaks_callee(const struct code *code, const struct instruction *instruction, char reason[REASON_MAX])
{
    bool breaks = instruction->mnemonic == CALL && (instruction->operand == 0 || instruction->operand >= code->procedures);
    if (breaks)
        (void)snprintf(reason, REASON_MAX, "it calls procedure %" PRIu32 " of %" PRIu32, instruction->operand, code->procedures);
    return breaks;
}

static bool breaks(uint32_t number, const struct code *code, const struct instruction *instruction, char reason[REASON_MAX])
{
    switch (number) {
    case ICODE_NO_START:
        return breaks_successors(code, instruction, reason);
    case ICODE_ENTER_WRONG:
        return breaks_enter(code, instruction, reason);
    default:
        return breaks_callee(code, instruction, reason);
    }
}

/* The first instruction behind 12, 13 or 14, with its place before what it breaks; false where the record has none. */
static bool find_in_code(uint32_t number, struct bytes record, char reason[REASON_MAX])
{
    struct code code = code_of(record);
    char fault[REASON_MAX];
    struct instruction found = first_instruction(&code);
    for (; found.len != 0; found = next_instruction(&code, &found))
        code.owner[found.at] = (uint16_t)(found.procedure + 1);
    found = first_instruction(&code);
    while (found.len != 0 && !breaks(number, &code, &found, fault))
        found = next_instruction(&code, &found);
    if (found.len == 0)
        return false;
    write_at(record, &found, fault, reason);
    return true;
}

/* The first module with an instruction behind 12, 13 or 14; a 14 may also be that of a call into a library. */
static size_t find_in_modules(uint32_t number, struct modules set, char reason[REASON_MAX])
{
    size_t i = 0;
    while (i < set.count && !find_in_code(number, set.at[i].parts.record, reason))
        i++;
    return i == set.count && number == ICODE_CALLEE_WRONG ? find_external_callee_fault(set, reason) : i;
}

/* The words that the modules take in memory before anything is called: 3+g+c of each. */
static uint32_t least_memory(struct modules set)
{
    uint32_t least = 0;
    for (size_t i = 0; i < set.count; i++) {
        const uint8_t *header = set.at[i].parts.record.at;
        least += 3 + word_at(header + 8) + word_at(header + 12);
    }
    return least;
}

/* Every cause of the load's 8 that holds. */
static void find_load_causes(struct modules set, char reason[REASON_MAX])
{
    const struct run_file *parts = &set.at[0].parts;
    uint32_t globals = word_at(parts->record.at + 8), least = least_memory(set);
    uint32_t parameters = (uint32_t)(parts->parameters.len / 4);
    const char *of_all = set.count > 1 ? " of all modules" : "";
    size_t len = 0;
    if (parameters > globals)
        len += (size_t)snprintf(reason, REASON_MAX, "parameters %" PRIu32 ", globals %" PRIu32, parameters, globals);
    if (parts->memory_words < least)
        len += (size_t)snprintf(reason + len, REASON_MAX - len, "%smemory %" PRIu32 ", 3+g+c%s is %" PRIu32, len > 0 ? ", " : "",
                                parts->memory_words, of_all, least);
    if (parts->stack_words > ICODE_STACK_MAX)
        (void)snprintf(reason + len, REASON_MAX - len, "%sstack %" PRIu32, len > 0 ? ", " : "", parts->stack_words);
}

/* The first module whose record has a number. */
static size_t with_record_number(uint32_t number, struct modules set)
{
    size_t i = 0;
    while (i < set.count && icode_record_number(set.at[i].parts.record.at, set.at[i].parts.record.len) != number)
        i++;
    return i;
}

/* Whether a results list has a wrong length or content. */
static bool results_are_wrong(const struct run_file *parts)
{
    struct code code = code_of(parts->record);
    if (parts->results.len != code.procedures || parts->results.at[0] != 0)
        return true;
    for (size_t i = 0; i < parts->results.len; i++)
        if (parts->results.at[i] > 2)
            return true;
    return false;
}

/* Whether some instruction cannot be decoded: it is the last that is found. */
static bool is_cut_short(const struct run_file *parts)
{
    struct code code = code_of(parts->record);
    struct instruction found = first_instruction(&code), last = found;
    for (; found.len != 0; found = next_instruction(&code, &found))
        last = found;
    return last.procedure != 0 || !ends_region(&code, &last);
}

static size_t first_module(struct modules set, bool (*is_behind)(const struct run_file *))
{
    size_t i = 0;
    while (i < set.count && !is_behind(&set.at[i].parts))
        i++;
    return i;
}

size_t find_set_reason(uint32_t number, struct modules set, size_t refused, char reason[REASON_MAX])
{
    reason[0] = '\0';
    switch (number) {
    case ICODE_ROOM_WRONG:
        find_load_causes(set, reason);
        return set.count;
    case ICODE_NO_START:
    case ICODE_ENTER_WRONG:
    case ICODE_CALLEE_WRONG:
        return find_in_modules(number, set, reason);
    case ICODE_NO_PICTURE:
        return refused;
    case ICODE_IMPORTS_WRONG:
        return find_import_fault(set, reason);
    case ICODE_RELOCATION_WRONG:
        return find_relocation_fault(set, reason);
    case ICODE_RESULTS_WRONG:
        return first_module(set, results_are_wrong);
    case ICODE_CODE_UNSERVED:
    case ICODE_CODE_PAST:
        return first_module(set, is_cut_short);
    default:
        return with_record_number(number, set);
    }
}

void find_reason(uint32_t number, struct bytes file, char reason[REASON_MAX])
{
    struct module alone = {0};
    const char *broken = split_run_file(file, &alone.parts);
    if (broken != NULL)
        (void)snprintf(reason, REASON_MAX, "%s", broken);
    else
        (void)find_set_reason(number, (struct modules){&alone, 1}, 0, reason);
}
