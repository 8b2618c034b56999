#include "linkage.h"


#include <inttypes.h>
#include <stdio.h>

/* The number of the library lent under a SID; 0 where there is none. */
static size_t library_under(struct modules set, uint32_t sid)
{
    for (size_t i = 1; i < set.count; i++)
        if (set.at[i].sid == sid)
            return i;
    return 0;
}

/* Whether a module imports what is not lent. */
static bool imports_unlent(struct modules set, size_t module, char reason[REASON_MAX])
{
    struct bytes imports = import_list(set.at[module].parts.record);
    for (size_t i = 0; i < imports.len / 4; i++) {
        uint32_t sid = word_at(imports.at + 4 * i);
        if (library_under(set, sid) == 0) {
            (void)snprintf(reason, REASON_MAX, "import %zu is SID %" PRIu32 ", which no --library lends", i + 1, sid);
            return true;
        }
    }
    return false;
}

static bool is_lent_twice(struct modules set, char reason[REASON_MAX])
{
    size_t i = 1;
    while (i < set.count && library_under(set, set.at[i].sid) == i)
        i++;
    if (i >= set.count)
        return false;
    (void)snprintf(reason, REASON_MAX, "SID %" PRIu32 " is lent twice", set.at[i].sid);
    return true;
}

/* Over 16 modules, else two libraries under one SID, else an import that is not lent. */
size_t find_import_fault(struct modules set, char reason[REASON_MAX])
{
    reason[0] = '\0';
    if (set.count > ICODE_MODULES_MAX) {
        (void)snprintf(reason, REASON_MAX, "there are %zu modules, the main one with them", set.count);
        return set.count;
    }
    if (is_lent_twice(set, reason))
        return set.count;
    size_t i = 0;
    while (i < set.count && !imports_unlent(set, i, reason))
        i++;
    return i;
}

static bool is_external(const struct instruction *instruction)
{
    return instruction->mnemonic >= LOAD_E && instruction->mnemonic <= CALL_E;
}

static bool has_entry(struct bytes table, uint32_t place)
{
    for (size_t i = 0; i < table.len; i += 4)
        if (word_at(table.at + i) == place)
            return true;
    return false;
}

/* Whether the library byte of an external instruction names no import, or has no entry. */
static bool is_unlinked(struct bytes record, const struct instruction *instruction, char reason[REASON_MAX])
{
    char fault[REASON_MAX];
    size_t imports = import_list(record).len / 4;
    if (instruction->operand == 0 || instruction->operand > imports)
        (void)snprintf(fault, REASON_MAX, "it names library %" PRIu32 " of %zu imports", instruction->operand, imports);
    else if (!has_entry(relocation_table(record), instruction->at + 1))
        (void)snprintf(fault, REASON_MAX, "its library byte has no relocation entry");
    else
        return false;
    write_at(record, instruction, fault, reason);
    return true;
}

/* Looks through the instructions of a region that are cut, and marks the library bytes. */
static bool region_is_unlinked(struct bytes record, const struct code *code, uint32_t procedure, bool marks[ICODE_CODE_MAX],
                               char reason[REASON_MAX])
{
    struct instruction found = first_of(code, procedure);
    while (found.len != 0) {
        if (is_external(&found) && is_unlinked(record, &found, reason))
            return true;
        if (is_external(&found))
            marks[found.at + 1] = true;
        found = ends_region(code, &found) ? (struct instruction){0} : next_of(code, &found);
    }
    return false;
}

static bool has_stray_entry(struct bytes record, const bool marks[ICODE_CODE_MAX], char reason[REASON_MAX])
{
    struct bytes table = relocation_table(record);
    for (size_t i = 0; i < table.len / 4; i++) {
        uint32_t place = word_at(table.at + 4 * i);
        if (place >= ICODE_CODE_MAX || !marks[place]) {
            (void)snprintf(reason, REASON_MAX,
                           "relocation entry %zu is %" PRIu32 ", where no external instruction has its library byte", i + 1, place);
            return true;
        }
    }
    return false;
}

static bool relocation_is_wrong(struct bytes record, char reason[REASON_MAX])
{
    struct code code = code_of(record);
    bool marks[ICODE_CODE_MAX] = {false};
    for (uint32_t procedure = 0; procedure < code.procedures; procedure++)
        if (region_is_unlinked(record, &code, (procedure + 1) % code.procedures, marks, reason))
            return true;
    return has_stray_entry(record, marks, reason);
}

size_t find_relocation_fault(struct modules set, char reason[REASON_MAX])
{
    reason[0] = '\0';
    size_t i = 0;
    while (i < set.count && !relocation_is_wrong(set.at[i].parts.record, reason))
        i++;
    return i;
}

/* Whether CALL_E names procedure 0, or one that its library does not have. */
static bool lacks_external_callee(struct modules set, struct bytes record, const struct instruction *instruction, char reason[REASON_MAX])
{
    char fault[REASON_MAX];
    if (instruction->mnemonic != CALL_E)
        return false;
    uint32_t sid = word_at(import_list(record).at + 4 * (instruction->operand - 1));
    struct code callee = code_of(set.at[library_under(set, sid)].parts.record);
    if (instruction->second > 0 && instruction->second < callee.procedures)
        return false;
    (void)snprintf(fault, REASON_MAX, "it calls procedure %" PRIu32 " of %" PRIu32 " in library %" PRIu32 ", SID %" PRIu32,
                   instruction->second, callee.procedures, instruction->operand, sid);
    write_at(record, instruction, fault, reason);
    return true;
}

static bool region_lacks_callee(struct modules set, struct bytes record, const struct code *code, uint32_t procedure,
                                char reason[REASON_MAX])
{
    struct instruction found = first_of(code, procedure);
    while (found.len != 0 && !lacks_external_callee(set, record, &found, reason))
        found = ends_region(code, &found) ? (struct instruction){0} : next_of(code, &found);
    return found.len != 0;
}

static bool module_lacks_callee(struct modules set, size_t module, char reason[REASON_MAX])
{
    struct bytes record = set.at[module].parts.record;
    struct code code = code_of(record);
    for (uint32_t procedure = 0; procedure < code.procedures; procedure++)
        if (region_lacks_callee(set, record, &code, (procedure + 1) % code.procedures, reason))
            return true;
    return false;
}

size_t find_external_callee_fault(struct modules set, char reason[REASON_MAX])
{
    reason[0] = '\0';
    size_t i = 0;
    while (i < set.count && !module_lacks_callee(set, i, reason))
        i++;
    return i;
}
