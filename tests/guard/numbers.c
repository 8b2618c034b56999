#include "numbers.h"

#include <inttypes.h>
#include <stdio.h>

enum { NUMBER_MAX = ICODE_TRAP_FREE, WITHDRAWN = 4 };

static uint64_t counts[NUMBERED][NUMBER_MAX + 1];

void note_number(unsigned of, uint32_t number)
{
    counts[of][number <= NUMBER_MAX ? number : NUMBER_MAX]++;
}

/* Says whether a number is one that is handed back there. */
static bool belongs(unsigned of, uint32_t number)
{
    bool linkage = number == ICODE_IMPORTS_WRONG || number == ICODE_RELOCATION_WRONG;
    if (number == WITHDRAWN)
        return false;
    switch (of) {
    case RECORD_NUMBER:
    case LINE: return number <= ICODE_ENTRIES_MALFORMED;
    case LINE_SPAN: return number <= ICODE_ROOM_WRONG;
    case BENCH_LOAD:
    case BENCH_SET_LOAD: return number <= ICODE_ROOM_WRONG || linkage;
    case MEND: return number <= ICODE_LENGTH_WRONG || number == ICODE_ROOM_WRONG;
    case CHECK:
    case SET_CHECK: return number <= ICODE_NO_PICTURE || linkage;
    case REPORT: return number <= ICODE_RUN_FILE_WRONG || linkage;
    case BENCH_DECODE: return number == 0 || number == ICODE_ROOM_WRONG || number == ICODE_CODE_UNSERVED || number == ICODE_CODE_PAST;
    case BENCH_RUN:
    case BENCH_RUN_BY:
    case BENCH_SET_RUN:
    case BENCH_SET_RUN_BY: return number <= ICODE_ENTRIES_MALFORMED || number == ICODE_STATE_WRONG || linkage;
    default:
        return number <= ICODE_SPENT || (number >= ICODE_TRAP_UNSERVED && number <= ICODE_TRAP_CALLEE) || number >= ICODE_TRAP_ZERO_DIVISOR;
    }
}

unsigned print_numbers(bool few)
{
    unsigned whole = 0;
    for (unsigned of = 0; of < NUMBERED; of++) {
        bool all = true;
        printf("%s:", of == ENDS ? "ends of runs" : function_name(of));
        for (uint32_t number = 0; number <= NUMBER_MAX; number++) {
            if (belongs(of, number) || counts[of][number] > 0)
                printf(" %" PRIu32 " %" PRIu64 "x", number, counts[of][number]);
            all = all && belongs(of, number) == (counts[of][number] > 0);
        }
        printf("%s\n", all || few ? "" : "; FAILED: some number did not arise, or another one did");
        whole += all || few;
    }
    return whole;
}
