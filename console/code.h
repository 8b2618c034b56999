/* The code of a sound record, cut into instructions by the library. */
#ifndef CODE_H
#define CODE_H

#include "icode.h"
#include "run_file.h"

/* Mnemonics as the library numbers them (crates/mnemonic/specs/Mnemonic.antt). */
enum {
    JUMP = 13, JUMP_F = 16, CALL = 17, ITER = 51, SWITCH = 53, SWITCH_X = 54, LEAVE = 55, ENTER = 56, RTN = 57,
    LOAD_E = 58, LOAD_A_E = 59, STOR_E = 60, CALL_E = 61
};

struct instruction {
    uint32_t at;
    uint32_t len; /* 0 where there is none */
    uint32_t mnemonic;
    uint32_t operand; /* the library number of an external one */
    uint32_t second;
    uint32_t procedure;
};

struct code {
    const uint8_t *at;
    uint32_t len;
    uint32_t procedures;
    uint16_t owner[ICODE_CODE_MAX]; /* by offset: 1 more than the procedure of the instruction that begins there, 0 where none does */
};

/* The words of a sound record's import list and of its relocation table, each of four bytes. */
struct bytes import_list(struct bytes record);
struct bytes relocation_table(struct bytes record);

/* The code of a sound record, without owners. */
struct code code_of(struct bytes record);

/* Where a procedure begins. */
uint32_t entry(const struct code *code, uint32_t procedure);

/* The first instruction of a procedure, and the one behind another in the same procedure. */
struct instruction first_of(const struct code *code, uint32_t procedure);
struct instruction next_of(const struct code *code, const struct instruction *instruction);

/* Whether the instruction is the last of its procedure. */
bool ends_region(const struct code *code, const struct instruction *instruction);

enum { REASON_MAX = 160 }; /* bytes of a reason with its end, and more than any has */

/* Writes as the reason the place of an instruction, then what is wrong with it. */
void write_at(struct bytes record, const struct instruction *instruction, const char *fault, char reason[REASON_MAX]);

#endif
