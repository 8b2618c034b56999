#define _DEFAULT_SOURCE
#include "call.h"

#include "random.h"

#include <stdlib.h>
#include <string.h>
#include <ucontext.h>

enum { PAINT = 0x5a };

static const struct {
    const char *name;
    enum role roles[8];
} functions[FUNCTIONS] = {
    [RECORD_NUMBER] = {"icode_record_number", {RECORD, ROLES}},
    [LINE] = {"icode_line", {RECORD, ROLES}},
    [LINE_SPAN] = {"icode_line_span", {RECORD, SPAN, ROLES}},
    [MEND] = {"icode_mend", {RECORD, OUT, PLACES, COUNTS, ROLES}},
    [CHECK] = {"icode_check", {RECORD, RESULTS, WORKSPACE, ROLES}},
    [REPORT] = {"icode_report", {RUN_FILE, OUT, ROLES}},
    [BENCH_DECODE] = {"icode_bench_decode", {CODE, DECODED, ROLES}},
    [BENCH_LOAD] = {"icode_bench_load", {RECORD, PARAMETERS, STILL_STACK, MEMORY, STATE, ROLES}},
    [BENCH_RUN] = {"icode_bench_run", {RECORD, MEMORY, STACK, STATE, OUTCOME, ROLES}},
    [BENCH_RUN_BY] = {"icode_bench_run_by", {RECORD, MEMORY, STACK, STATE, OUTCOME, ROLES}},
    [SET_CHECK] = {"icode_set_check", {RECORDS, ALL_RESULTS, DIRECTORY, WORKSPACE, ROLES}},
    [BENCH_SET_LOAD] = {"icode_bench_set_load", {RECORDS, DIRECTORY, PARAMETERS, STILL_STACK, COPY, MEMORY, STATE, ROLES}},
    [BENCH_SET_RUN] = {"icode_bench_set_run", {RECORDS, DIRECTORY, STILL_COPY, MEMORY, STACK, STATE, OUTCOME, ROLES}},
    [BENCH_SET_RUN_BY] = {"icode_bench_set_run_by", {RECORDS, DIRECTORY, STILL_COPY, MEMORY, STACK, STATE, OUTCOME, ROLES}},
};

static struct {
    const struct call *call; /* NULL while none is under way */
    enum layout layout;
    uint64_t answer;
} now;

static uint8_t *stacks[FUNCTIONS];
static ucontext_t harness;
static enum wrong wrong;

const char *function_name(enum function function)
{
    return functions[function].name;
}

const enum role *function_roles(enum function function)
{
    return functions[function].roles;
}

size_t stack_bytes(enum function function)
{
    switch (function) {
    case REPORT: return ICODE_THREAD_STACK_REPORT;
    case SET_CHECK: return ICODE_THREAD_STACK_SET_CHECK;
    default: return ICODE_THREAD_STACK;
    }
}

void make_stacks(enum wrong how)
{
    wrong = how;
    for (int function = 0; function < FUNCTIONS; function++) {
        stacks[function] = map_behind_guard(stack_bytes(function));
        memset(stacks[function], PAINT, stack_bytes(function));
    }
}

size_t stack_taken(enum function function)
{
    size_t free = 0;
    while (free < stack_bytes(function) && stacks[function][free] == PAINT)
        free++;
    return stack_bytes(function) - free;
}

bool stack_overrun(enum function function, const void *address)
{
    const uint8_t *at = address;
    return at < stacks[function] && at >= stacks[function] - PAGE;
}

/* Tells the length of a role; wrongly, that it is one longer. */
static size_t told(enum role role)
{
    bool more = (wrong == WRONG_SHORT_READ && role == RECORD) || (wrong == WRONG_SHORT_WRITE && role == WORKSPACE);
    return now.call->len[role] + more;
}

static void *lent(enum role role)
{
    return lend(role, now.layout, now.call->len[role]);
}

/* Spares the calls below from saying each role twice. */
#define SLICE(role) lent(role), told(role)

/* Spares them from saying again what a run over a set is lent behind its budget. */
#define RUN_SLICES SLICE(STILL_COPY), SLICE(MEMORY), SLICE(STACK), SLICE(STATE), SLICE(OUTCOME)

static uint64_t dispatch_set(const struct call *call)
{
    switch (call->function) {
    case SET_CHECK:
        return icode_set_check(SLICE(RECORDS), SLICE(ALL_RESULTS), SLICE(DIRECTORY), call->own, SLICE(WORKSPACE));
    case BENCH_SET_LOAD:
        return icode_bench_set_load(SLICE(RECORDS), SLICE(DIRECTORY), SLICE(PARAMETERS), SLICE(COPY), SLICE(MEMORY), SLICE(STILL_STACK),
                                    SLICE(STATE));
    case BENCH_SET_RUN:
        return icode_bench_set_run(SLICE(RECORDS), SLICE(DIRECTORY), call->budget, RUN_SLICES);
    default:
        return icode_bench_set_run_by(call->at_once, SLICE(RECORDS), SLICE(DIRECTORY), call->budget, RUN_SLICES);
    }
}

static uint64_t dispatch(const struct call *call)
{
    switch (call->function) {
    case RECORD_NUMBER:
        return icode_record_number(SLICE(RECORD));
    case LINE:
        return icode_line(SLICE(RECORD), call->offset);
    case LINE_SPAN:
        return icode_line_span(SLICE(RECORD), call->offset, SLICE(SPAN));
    case MEND:
        return icode_mend(SLICE(RECORD), SLICE(OUT), SLICE(PLACES), SLICE(COUNTS));
    case CHECK:
        return icode_check(SLICE(RECORD), SLICE(RESULTS), SLICE(WORKSPACE));
    case REPORT:
        return icode_report(SLICE(RUN_FILE), SLICE(OUT));
    case BENCH_DECODE:
        return icode_bench_decode(SLICE(CODE), call->limit, call->at, SLICE(DECODED));
    case BENCH_LOAD:
        return icode_bench_load(SLICE(RECORD), SLICE(PARAMETERS), SLICE(MEMORY), SLICE(STILL_STACK), SLICE(STATE));
    case BENCH_RUN:
        return icode_bench_run(SLICE(RECORD), call->budget, SLICE(MEMORY), SLICE(STACK), SLICE(STATE), SLICE(OUTCOME));
    case BENCH_RUN_BY:
        return icode_bench_run_by(call->at_once, SLICE(RECORD), call->budget, SLICE(MEMORY), SLICE(STACK), SLICE(STATE), SLICE(OUTCOME));
    default:
        return dispatch_set(call);
    }
}

/* Takes more of the stack than the header tells. */
static void overrun_stack(void)
{
    volatile uint8_t bytes[ICODE_THREAD_STACK];
    for (size_t i = sizeof bytes; i-- > 0;)
        bytes[i] = 1;
}

/* Does what a faulty library might have done. */
static void spoil(const struct call *call)
{
    uint8_t *written = call->len[OUT] > 0 ? lent(OUT) : NULL;
    if (wrong == WRONG_CONST && call->len[RECORD] > 0)
        ((uint8_t *)lent(RECORD))[0] = 1;
    if (wrong == WRONG_CONST_STACK && call->len[STILL_STACK] > 0)
        ((uint32_t *)lent(STILL_STACK))[0] = 1;
    if (wrong == WRONG_AROUND && call->function == LINE_SPAN && now.layout == FRONT)
        ((uint32_t *)lent(SPAN))[call->len[SPAN]] = 1;
    if (wrong == WRONG_PAST && call->function == REPORT && written != NULL && now.answer < call->len[OUT])
        written[now.answer] ^= 1;
    if (wrong == WRONG_REFUSAL && call->function == BENCH_RUN && now.answer != 0 && call->len[STATE] > 0)
        ((uint32_t *)lent(STATE))[0]++;
    if (wrong == WRONG_ANSWER && now.layout == BACK && once_in(100))
        now.answer++;
    if (wrong == WRONG_TRAP && call->function == BENCH_RUN && now.answer == 0)
        ((uint32_t *)lent(OUTCOME))[ICODE_END] = ICODE_TRAP_UNSERVED;
    if (wrong == WRONG_STACK)
        overrun_stack();
}

static void on_own_stack(void)
{
    now.answer = dispatch(now.call);
    if (wrong != RIGHT)
        spoil(now.call);
}

uint64_t perform(const struct call *call, enum layout layout)
{
    ucontext_t callee;
    now.call = call;
    now.layout = layout;
    if (getcontext(&callee) != 0)
        abort();
    callee.uc_stack.ss_sp = stacks[call->function];
    callee.uc_stack.ss_size = stack_bytes(call->function);
    callee.uc_link = &harness;
    makecontext(&callee, on_own_stack, 0);
    if (swapcontext(&harness, &callee) != 0)
        abort();
    now.call = NULL;
    return now.answer;
}

const struct call *call_under_way(enum layout *layout)
{
    *layout = now.layout;
    return now.call;
}
