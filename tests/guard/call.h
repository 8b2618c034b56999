/* Calls the library, each time on a stack of the size that the header tells, between guard pages. */
#ifndef CALL_H
#define CALL_H

#include "lend.h"

enum function { RECORD_NUMBER, LINE, LINE_SPAN, MEND, CHECK, REPORT, BENCH_DECODE, BENCH_LOAD, BENCH_RUN,
                BENCH_RUN_BY, SET_CHECK, BENCH_SET_LOAD, BENCH_SET_RUN, BENCH_SET_RUN_BY, FUNCTIONS };

/* Name ways to call wrongly, to see that the test fails then. */
enum wrong { RIGHT, WRONG_SHORT_READ, WRONG_SHORT_WRITE, WRONG_CONST, WRONG_CONST_STACK, WRONG_AROUND, WRONG_PAST, WRONG_REFUSAL,
             WRONG_ANSWER, WRONG_TRAP, WRONG_STACK, WRONGS };

struct call {
    enum function function;
    size_t len[ROLES];           /* elements lent, for the roles of the function */
    const void *contents[ROLES]; /* of what it may write, as lent */
    uint32_t offset;             /* of line and line_span */
    uint32_t budget;             /* of run and run_by */
    uint32_t at_once;            /* of run_by */
    size_t limit, at;            /* of decode */
    uint32_t own;                /* of set_check */
};

const char *function_name(enum function function);

/* Lists the roles that a function is lent; what it may write are those from SPAN on. The list ends with ROLES. */
const enum role *function_roles(enum function function);

/* Maps the stacks, and calls wrongly from now on unless it is RIGHT. */
void make_stacks(enum wrong wrong);

/* Makes a call, and answers what the function answers. */
uint64_t perform(const struct call *call, enum layout layout);

/* Says which call is under way, and where. Answers NULL where there is none. */
const struct call *call_under_way(enum layout *layout);

/* Tells the bytes of its stack that calls of a function took, at most, and how many it has. */
size_t stack_taken(enum function function);
size_t stack_bytes(enum function function);

/* Says whether an address is in the guard page of a function's stack. */
bool stack_overrun(enum function function, const void *address);

#endif
