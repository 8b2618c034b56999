#include "set_round.h"

#include "numbers.h"
#include "promise.h"
#include "random.h"
#include "round.h"

#include <string.h>

enum { BUDGET_MAX = 2000, LOADS = 2 };

static unsigned long accepted, followed, in_libraries;

unsigned long accepted_sets(void)
{
    return accepted;
}

unsigned long accepted_set_runs(void)
{
    return followed;
}

unsigned long ends_in_libraries(void)
{
    return in_libraries;
}

/* Sets up a call over the set; nothing of it is the input's. */
static struct call new_set_call(enum function function, const struct input *input, const struct set_input *set)
{
    struct call call = new_call(function, input);
    call.len[PARAMETERS] = set->parameters_len;
    call.len[RECORDS] = set->records_len;
    call.len[ALL_RESULTS] = set->results_len;
    call.len[DIRECTORY] = set->directory_len;
    return call;
}

/* Checks a module with a workspace of some length. Answers the number. */
static uint32_t try_set_check(const struct input *input, const struct set_input *set, uint32_t own, bool enough)
{
    struct call call = new_set_call(SET_CHECK, input, set);
    uint32_t number = record_number_of(set);
    bool there = own < set->count;
    size_t used = number == 0 && there ? ICODE_WORKSPACE((size_t)set->modules[own].code_size) : 0;
    call.own = own;
    call.len[WORKSPACE] = enough ? used : some_len(WORKSPACE, used);
    uint32_t answer = (uint32_t)call_both(&call);
    note_number(SET_CHECK, answer);
    if (number != 0)
        promise(&call, answer == number, "another number than the lowest of the records");
    else if (!is_linkage(answer) && (!there || call.len[WORKSPACE] < used))
        promise(&call, answer == ICODE_ROOM_WRONG, "no such module, or a short workspace, is taken");
    else
        promise(&call, answer == 0 || (answer >= ICODE_RESULTS_WRONG && answer <= ICODE_NO_PICTURE) || is_linkage(answer),
                "a number out of place");
    if (answer != 0 && (answer <= ICODE_RESULTS_WRONG || is_linkage(answer)))
        promise(&call, all_kept(&call), "a refusal wrote");
    else
        hold_workspace(&call, answer, used);
    return answer;
}

/* Checks every module, and now and then one that is not there. Answers the first number other than 0. */
static uint32_t try_set_checks(const struct input *input, const struct set_input *set)
{
    uint32_t first = set->count == 0 ? try_set_check(input, set, 0, true) : 0;
    for (uint32_t own = 0; own < set->count; own++) {
        uint32_t answer = try_set_check(input, set, own, true);
        first = first == 0 ? answer : first;
    }
    (void)try_set_check(input, set, once_in(3) ? (uint32_t)random_word() : random_below((uint32_t)set->count + 2), false);
    return first;
}

/* Keeps a machine over a set between calls. */
struct machine {
    uint32_t memory[ICODE_MEMORY_MAX], stack[ICODE_STACK_MAX];
    uint32_t state[STATE_MAX];
    uint8_t copy[COPY_MAX];
    size_t memory_len, stack_len, copy_len;
    bool fits;  /* its state is one that load or run left */
    bool sound; /* and all its steps were those of accepted code */
};

/* Gives sizes to load with that are mostly taken. */
static void choose_sizes(struct call *call, const struct set_input *set)
{
    size_t least = frame_words_of(set) % 20000, copy = copy_bytes_of(set) % COPY_MAX;
    call->len[MEMORY] = once_in(5) ? some_len(MEMORY, least) : least + random_below(200);
    if (call->len[MEMORY] > ICODE_MEMORY_MAX + 1)
        call->len[MEMORY] = ICODE_MEMORY_MAX + random_below(2);
    call->len[STILL_STACK] = once_in(30) ? ICODE_STACK_MAX + random_below(2) : random_below(60);
    call->len[COPY] = once_in(3) ? some_len(COPY, copy) : copy;
    if (once_in(10))
        call->len[STATE] = some_len(STATE, ICODE_SET_STATE_WORDS);
}

/* Loads with sizes that are taken or not. Answers whether there is a machine now. */
static bool try_set_load(const struct input *input, const struct set_input *set, uint32_t number, struct machine *machine)
{
    struct call call = new_set_call(BENCH_SET_LOAD, input, set);
    choose_sizes(&call, set);
    bool taken = call.len[PARAMETERS] <= set->modules[0].globals && call.len[MEMORY] >= frame_words_of(set) &&
                 call.len[MEMORY] <= ICODE_MEMORY_MAX && call.len[STILL_STACK] <= ICODE_STACK_MAX &&
                 call.len[COPY] >= copy_bytes_of(set) && call.len[STATE] == ICODE_SET_STATE_WORDS;
    uint32_t answer = (uint32_t)call_both(&call);
    note_number(BENCH_SET_LOAD, answer);
    promise(&call, answer == (number != 0 ? number : taken ? 0 : ICODE_ROOM_WRONG), "not the first number that holds");
    if (answer != 0) {
        promise(&call, all_kept(&call), "a refusal wrote");
        return false;
    }
    promise(&call, kept_from(&call, COPY, copy_bytes_of(set)), "bytes past the copy were written");
    machine->memory_len = call.len[MEMORY];
    machine->stack_len = call.len[STILL_STACK];
    machine->copy_len = call.len[COPY];
    memcpy(machine->memory, after(&call, MEMORY), machine->memory_len * sizeof machine->memory[0]);
    memcpy(machine->state, after(&call, STATE), ICODE_SET_STATE_WORDS * sizeof machine->state[0]);
    memcpy(machine->copy, after(&call, COPY), machine->copy_len);
    return true;
}

/* Takes any machine, for a run that need not have been loaded. */
static void make_machine(struct machine *machine)
{
    machine->memory_len = random_below(100);
    machine->stack_len = random_below(20);
    machine->copy_len = random_below(once_in(4) ? 1 : 100);
    for (size_t i = 0; i < ICODE_SET_STATE_WORDS; i++)
        machine->state[i] = once_in(4) ? (uint32_t)random_word() : random_below(20);
}

/* Damages a state or the copy, or leaves the copy as it is but for what counts for nothing. */
static void damage_machine(const struct set_input *set, struct machine *machine)
{
    size_t used = copy_bytes_of(set);
    if (once_in(8)) {
        machine->state[random_below(ICODE_SET_STATE_WORDS)] += random_below(9) - 4;
        machine->fits = machine->sound = false;
    }
    if (once_in(10) && machine->copy_len > 0) {
        size_t at = random_below((uint32_t)machine->copy_len);
        machine->copy[at]++;
        machine->fits = machine->fits && at >= used;
        machine->sound = machine->sound && at >= used;
    }
}

static struct call new_set_run(const struct input *input, const struct set_input *set, struct machine *machine)
{
    struct call call = new_set_call(once_in(3) ? BENCH_SET_RUN_BY : BENCH_SET_RUN, input, set);
    damage_machine(set, machine);
    call.len[MEMORY] = machine->memory_len;
    call.len[STACK] = machine->stack_len;
    call.len[STILL_COPY] = machine->copy_len;
    lend_both(STILL_COPY, machine->copy, machine->copy_len);
    call.contents[MEMORY] = machine->memory;
    call.contents[STACK] = machine->stack;
    call.contents[STATE] = machine->state;
    call.budget = random_below(once_in(3) ? BUDGET_MAX : 40);
    call.at_once = once_in(2) ? 0 : random_below(5);
    if (once_in(10))
        call.len[OUTCOME] = some_len(OUTCOME, ICODE_SET_OUTCOME_WORDS);
    if (once_in(10))
        call.len[STATE] = some_len(STATE, ICODE_SET_STATE_WORDS);
    return call;
}

/* Holds a run that was made to its outcome, and keeps what it left for the next one. */
static void hold_run(const struct call *call, const struct set_input *set, struct machine *machine)
{
    const uint32_t *outcome = after(call, OUTCOME);
    uint32_t end = outcome[ICODE_END];
    note_number(ENDS, end);
    promise(call, is_end(end) && outcome[ICODE_STEPS] <= call->budget, "no such end, or steps over the budget");
    promise(call, outcome[ICODE_PLACE_MODULE] < set->count, "a place in no module");
    promise(call, kept_from(call, OUTCOME, ICODE_SET_OUTCOME_WORDS), "words past the outcome were written");
    promise(call, !(machine->sound && is_code_trap(end)), "an accepted set ended in a code trap");
    bool ended = machine->sound && end != ICODE_SPENT;
    followed += ended;
    in_libraries += ended && outcome[ICODE_PLACE_MODULE] > 0;
    memcpy(machine->memory, after(call, MEMORY), machine->memory_len * sizeof machine->memory[0]);
    memcpy(machine->stack, after(call, STACK), machine->stack_len * sizeof machine->stack[0]);
    memcpy(machine->state, after(call, STATE), ICODE_SET_STATE_WORDS * sizeof machine->state[0]);
    machine->fits = true;
    machine->sound = machine->sound && end == ICODE_SPENT; /* a machine that has ended is not run on */
}

static void try_set_run(const struct input *input, const struct set_input *set, uint32_t number, struct machine *machine)
{
    struct call call = new_set_run(input, set, machine);
    bool lengths = call.len[STATE] == ICODE_SET_STATE_WORDS && call.len[OUTCOME] >= ICODE_SET_OUTCOME_WORDS;
    uint32_t answer = (uint32_t)call_both(&call);
    note_number(call.function, answer);
    promise(&call, number != 0 ? answer == number : answer == 0 || answer == ICODE_STATE_WRONG, "a number out of place");
    promise(&call, answer != 0 || (lengths && call.len[STILL_COPY] >= copy_bytes_of(set)), "a wrong length is taken");
    promise(&call, number != 0 || !machine->fits || !lengths || answer == 0, "a state of load or of run does not fit");
    if (answer == 0)
        hold_run(&call, set, machine);
    else
        promise(&call, all_kept(&call), "a refusal wrote");
}

void try_set_input(const struct input *input, const struct set_input *set)
{
    static struct machine machine;
    uint32_t number = record_number_of(set), checked = try_set_checks(input, set);
    accepted += checked == 0;
    if (number == 0 && is_linkage(checked))
        number = checked;
    for (int i = 0; i < LOADS; i++) {
        machine.fits = try_set_load(input, set, number, &machine);
        machine.sound = machine.fits && checked == 0;
        if (!machine.fits)
            make_machine(&machine);
        for (size_t word = 0; word < machine.stack_len; word++)
            machine.stack[word] = (uint32_t)random_word();
        try_set_run(input, set, number, &machine);
        try_set_run(input, set, number, &machine);
    }
}
