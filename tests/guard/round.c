#include "round.h"

#include "numbers.h"
#include "promise.h"
#include "random.h"

#include <stdio.h>
#include <string.h>

enum { NEAR_MAX = 12, LINES = 3, DECODINGS = 8, LOADS = 2, BUDGET_MAX = 2000 };

static unsigned long accepted, followed;

unsigned long accepted_records(void)
{
    return accepted;
}

bool is_linkage(uint32_t number)
{
    return number == ICODE_IMPORTS_WRONG || number == ICODE_RELOCATION_WRONG;
}

unsigned long accepted_runs(void)
{
    return followed;
}

size_t some_len(enum role role, size_t right)
{
    size_t max = role_max(role), len = right;
    switch (random_below(6)) {
    case 0: len = right + 1; break;
    case 1: len = right > 0 ? right - 1 : 0; break;
    case 2: len = right + random_below(NEAR_MAX); break;
    case 3: len = random_below(once_in(20) ? (uint32_t)max + 1 : NEAR_MAX); break;
    default: break;
    }
    return len < max ? len : max;
}

bool is_code_trap(uint32_t end)
{
    return end >= ICODE_TRAP_UNSERVED && end <= ICODE_TRAP_CALLEE;
}

bool is_end(uint32_t end)
{
    return end <= ICODE_SPENT || is_code_trap(end) || (end >= ICODE_TRAP_ZERO_DIVISOR && end <= ICODE_TRAP_FREE);
}

static uint32_t try_number(const struct input *input)
{
    struct call call = new_call(RECORD_NUMBER, input);
    uint32_t number = (uint32_t)call_both(&call);
    promise(&call, number <= ICODE_ENTRIES_MALFORMED && number != 4, "a number above 7, or 4");
    note_number(RECORD_NUMBER, number);
    return number;
}

/* Looks a code offset up, its line alone and its span. */
static void try_line(const struct input *input, uint32_t number)
{
    struct call line = new_call(LINE, input), call = new_call(LINE_SPAN, input);
    line.offset = call.offset = once_in(8) ? (uint32_t)random_word() : random_below(input->code_size % 5000 + 2);
    call.len[SPAN] = some_len(SPAN, ICODE_SPAN_WORDS);
    uint64_t found = call_both(&line);
    note_number(LINE, (uint32_t)(found >> 32));
    promise(&line, found >> 32 == number && (number == 0 || (uint32_t)found == 0), "another number, or a line of a refused record");
    uint32_t answer = (uint32_t)call_both(&call);
    note_number(LINE_SPAN, answer);
    uint32_t expected = number != 0 ? number : call.len[SPAN] < ICODE_SPAN_WORDS ? ICODE_ROOM_WRONG : 0;
    if (!promise(&call, answer == expected, "not the first number that holds"))
        return;
    const uint32_t *span = after(&call, SPAN);
    if (answer != 0) {
        promise(&call, all_kept(&call), "a refusal wrote");
        return;
    }
    bool outside = call.offset >= input->code_size;
    bool holds = outside ? span[ICODE_FIRST] == 0 && span[ICODE_LAST] == 0
                         : span[ICODE_FIRST] <= call.offset && call.offset <= span[ICODE_LAST] && span[ICODE_LAST] < input->code_size;
    promise(&call, span[ICODE_OUTSIDE] == outside && holds && span[ICODE_LINE] == (uint32_t)found, "a span that does not hold its offset");
    promise(&call, kept_from(&call, SPAN, ICODE_SPAN_WORDS), "words past the span were written");
}

/* Holds a mended record to what the header says of it. */
static void hold_mended(const struct call *call, uint32_t number)
{
    const uint32_t *counts = after(call, COUNTS);
    size_t bytes = counts[ICODE_MENDED_BYTES], dropped = counts[ICODE_DROPPED_WORDS];
    if (!promise(call, bytes <= call->len[OUT] && bytes <= call->len[RECORD] && dropped <= call->len[PLACES], "counts above the lengths"))
        return;
    promise(call, kept_from(call, OUT, bytes) && kept_from(call, PLACES, dropped) && kept_from(call, COUNTS, ICODE_COUNT_WORDS),
            "something past the new record, the places or the counts was written");
    uint32_t mended = icode_record_number(after(call, OUT), bytes);
    promise(call, mended != ICODE_VERSION_MALFORMED && mended != ICODE_SOURCE_MALFORMED, "still 5 or 6");
    if (number == 0)
        promise(call, dropped == 0 && bytes == call->len[RECORD] && memcmp(after(call, OUT), lend(RECORD, FRONT, bytes), bytes) == 0,
                "a sound record was changed");
}

/* Mends with room for all, then with room that is just enough or a little short. */
static void try_mend(const struct input *input, uint32_t number)
{
    struct call call = new_call(MEND, input);
    call.len[OUT] = input->record_len;
    call.len[PLACES] = ICODE_PLACES_MAX;
    uint32_t answer = (uint32_t)call_both(&call), counts[ICODE_COUNT_WORDS] = {0};
    uint32_t expected = number >= ICODE_RECORD_SHORT && number <= ICODE_LENGTH_WRONG ? number : 0;
    promise(&call, answer == expected, "a record that can be read is not mended, or another number");
    if (answer == 0) {
        hold_mended(&call, number);
        memcpy(counts, after(&call, COUNTS), sizeof counts);
    } else {
        promise(&call, all_kept(&call), "a refusal wrote");
    }
    for (int i = 0; i < 2; i++) {
        call.len[OUT] = some_len(OUT, counts[ICODE_MENDED_BYTES]);
        call.len[PLACES] = some_len(PLACES, counts[ICODE_DROPPED_WORDS]);
        call.len[COUNTS] = once_in(4) ? random_below(4) : ICODE_COUNT_WORDS;
        bool room = call.len[OUT] >= counts[ICODE_MENDED_BYTES] && call.len[PLACES] >= counts[ICODE_DROPPED_WORDS] &&
                    call.len[COUNTS] >= ICODE_COUNT_WORDS;
        answer = (uint32_t)call_both(&call);
        note_number(MEND, answer);
        promise(&call, answer == (expected != 0 ? expected : room ? 0 : ICODE_ROOM_WRONG), "not the first number that holds");
        if (answer == 0)
            hold_mended(&call, number);
        else
            promise(&call, all_kept(&call), "a refusal wrote");
    }
}

void hold_workspace(const struct call *call, uint32_t answer, size_t used)
{
    const uint16_t *workspace = after(call, WORKSPACE);
    bool in_form = true;
    for (size_t i = 0; i < used; i++)
        in_form = in_form && (workspace[i] == 0 || (answer == 0 && i % 4 < 2));
    promise(call, in_form, "a workspace of another form");
    promise(call, kept_from(call, WORKSPACE, used), "halfwords past the workspace in use were written");
}

/* Checks with a workspace of some length. Answers the number. */
static uint32_t try_check(const struct input *input, uint32_t number, bool enough)
{
    struct call call = new_call(CHECK, input);
    size_t used = number == 0 ? ICODE_WORKSPACE((size_t)input->code_size) : 0;
    call.len[WORKSPACE] = enough ? used : some_len(WORKSPACE, used);
    uint32_t answer = (uint32_t)call_both(&call);
    note_number(CHECK, answer);
    if (number != 0)
        promise(&call, answer == number, "another number than the record's");
    else if (input->imports > 0 || input->relocation > 0)
        promise(&call, answer == (input->imports > 0 ? ICODE_IMPORTS_WRONG : ICODE_RELOCATION_WRONG), "imports or relocation are taken");
    else if (answer != ICODE_RELOCATION_WRONG && call.len[WORKSPACE] < used)
        promise(&call, answer == ICODE_ROOM_WRONG, "a short workspace is taken");
    else
        promise(&call, answer == 0 || (answer >= ICODE_RESULTS_WRONG && answer <= ICODE_NO_PICTURE) || answer == ICODE_RELOCATION_WRONG,
                "a number out of place");
    if (answer != 0 && (answer <= ICODE_RESULTS_WRONG || is_linkage(answer)))
        promise(&call, all_kept(&call), "a refusal wrote");
    else
        hold_workspace(&call, answer, used);
    return answer;
}

static void try_decode(const struct input *input)
{
    struct call call = new_call(BENCH_DECODE, input);
    if (once_in(6))
        call.len[DECODED] = some_len(DECODED, ICODE_DECODED_WORDS);
    call.at = once_in(50) ? (size_t)random_word() : random_below((uint32_t)input->code_len + 3);
    call.limit = once_in(4) ? call.at + random_below(NEAR_MAX) : once_in(50) ? SIZE_MAX - random_below(2) : input->code_len;
    uint32_t answer = (uint32_t)call_both(&call);
    note_number(BENCH_DECODE, answer);
    if (call.len[DECODED] != ICODE_DECODED_WORDS)
        promise(&call, answer == ICODE_ROOM_WRONG, "a wrong length is taken");
    else
        promise(&call, answer == 0 || answer == ICODE_CODE_UNSERVED || answer == ICODE_CODE_PAST, "a number out of place");
    if (answer != 0) {
        promise(&call, all_kept(&call), "a refusal wrote");
        return;
    }
    const uint32_t *decoded = after(&call, DECODED);
    promise(&call, decoded[ICODE_MNEMONIC] <= 61 && decoded[ICODE_DOUBLE] <= 1, "no such mnemonic or mode");
    promise(&call, call.at < call.limit && decoded[ICODE_BYTES] >= 1 && decoded[ICODE_BYTES] <= call.limit - call.at, "past the limit");
}

/* Keeps a machine between calls. */
struct machine {
    uint32_t memory[ICODE_MEMORY_MAX], stack[ICODE_STACK_MAX];
    uint32_t state[STATE_MAX]; /* more words than a state has, for runs that are lent as many */
    size_t memory_len, stack_len;
    bool fits;  /* its state is one that load or run left */
    bool sound; /* and all its steps were those of accepted code */
};

/* Gives sizes to load with that are mostly taken. */
static void choose_sizes(struct call *call, const struct input *input)
{
    size_t least = 3 + (size_t)input->globals % 2000 + input->constants % 2000;
    call->len[MEMORY] = once_in(3) ? some_len(MEMORY, least) : least + random_below(200);
    call->len[STILL_STACK] = once_in(3) ? some_len(STILL_STACK, 16) : random_below(60);
    if (once_in(60))
        call->len[MEMORY] = ICODE_MEMORY_MAX + random_below(2);
    if (once_in(30))
        call->len[STILL_STACK] = ICODE_STACK_MAX + random_below(2);
    if (once_in(10))
        call->len[STATE] = some_len(STATE, ICODE_STATE_WORDS);
}

/* Loads with sizes that are taken or not. Answers whether there is a machine now. */
static bool try_load(const struct input *input, uint32_t number, struct machine *machine)
{
    struct call call = new_call(BENCH_LOAD, input);
    choose_sizes(&call, input);
    size_t least = 3 + (size_t)input->globals + input->constants;
    bool taken = input->parameters_len <= input->globals && call.len[MEMORY] >= least && call.len[MEMORY] <= ICODE_MEMORY_MAX &&
                 call.len[STILL_STACK] <= ICODE_STACK_MAX && call.len[STATE] == ICODE_STATE_WORDS;
    uint32_t answer = (uint32_t)call_both(&call);
    note_number(BENCH_LOAD, answer);
    promise(&call, answer == (number != 0 ? number : taken ? 0 : ICODE_ROOM_WRONG), "not the first number that holds");
    if (answer != 0) {
        promise(&call, all_kept(&call), "a refusal wrote");
        return false;
    }
    machine->memory_len = call.len[MEMORY];
    machine->stack_len = call.len[STILL_STACK];
    memcpy(machine->memory, after(&call, MEMORY), machine->memory_len * sizeof machine->memory[0]);
    memcpy(machine->state, after(&call, STATE), ICODE_STATE_WORDS * sizeof machine->state[0]);
    return true;
}

/* Takes any machine, for a run that need not have been loaded. */
static void make_machine(struct machine *machine)
{
    machine->memory_len = random_below(100);
    machine->stack_len = random_below(20);
    for (size_t i = 0; i < ICODE_STATE_WORDS; i++)
        machine->state[i] = once_in(4) ? (uint32_t)random_word() : random_below(20);
}

/* Sets up a run, with a state that may be damaged before. */
static struct call new_run(const struct input *input, struct machine *machine)
{
    struct call call = new_call(once_in(3) ? BENCH_RUN_BY : BENCH_RUN, input);
    if (once_in(6)) {
        machine->state[random_below(ICODE_STATE_WORDS)] += random_below(9) - 4;
        machine->fits = machine->sound = false;
    }
    call.len[MEMORY] = machine->memory_len;
    call.len[STACK] = machine->stack_len;
    call.contents[MEMORY] = machine->memory;
    call.contents[STACK] = machine->stack;
    call.contents[STATE] = machine->state;
    call.budget = random_below(once_in(3) ? BUDGET_MAX : 40);
    call.at_once = once_in(2) ? 0 : random_below(5);
    if (once_in(10))
        call.len[OUTCOME] = some_len(OUTCOME, ICODE_OUTCOME_WORDS);
    if (once_in(10))
        call.len[STATE] = some_len(STATE, ICODE_STATE_WORDS);
    return call;
}

/* Holds a run that was made to its outcome, and keeps what it left for the next one. */
static void hold_run(const struct call *call, struct machine *machine)
{
    const uint32_t *outcome = after(call, OUTCOME);
    uint32_t end = outcome[ICODE_END];
    note_number(ENDS, end);
    promise(call, is_end(end) && outcome[ICODE_STEPS] <= call->budget, "no such end, or steps over the budget");
    promise(call, !(machine->sound && is_code_trap(end)), "an accepted record ended in a code trap");
    followed += machine->sound && end != ICODE_SPENT;
    memcpy(machine->memory, after(call, MEMORY), machine->memory_len * sizeof machine->memory[0]);
    memcpy(machine->stack, after(call, STACK), machine->stack_len * sizeof machine->stack[0]);
    memcpy(machine->state, after(call, STATE), ICODE_STATE_WORDS * sizeof machine->state[0]);
    machine->fits = true;
    machine->sound = machine->sound && end == ICODE_SPENT; /* a machine that has ended is not run on */
}

static void try_run(const struct input *input, uint32_t number, struct machine *machine)
{
    struct call call = new_run(input, machine);
    bool lengths = call.len[STATE] == ICODE_STATE_WORDS && call.len[OUTCOME] == ICODE_OUTCOME_WORDS;
    uint32_t answer = (uint32_t)call_both(&call);
    note_number(call.function, answer);
    promise(&call, number != 0 ? answer == number : answer == 0 || answer == ICODE_STATE_WRONG, "a number out of place");
    promise(&call, answer != 0 || lengths, "a wrong length is taken");
    promise(&call, number != 0 || !machine->fits || !lengths || answer == 0, "a state of load or of run does not fit");
    if (answer == 0)
        hold_run(&call, machine);
    else
        promise(&call, all_kept(&call), "a refusal wrote");
}

/* Reports into a long buffer, then into one that is just enough or short. */
static void try_report(const struct input *input)
{
    struct call call = new_call(REPORT, input);
    char text[80] = "";
    unsigned number = 99, end = 99;
    call.len[OUT] = ICODE_REPORT_MAX;
    size_t len = (size_t)call_both(&call);
    if (!promise(&call, len > 0 && len <= ICODE_REPORT_MAX, "no report, or a long one"))
        return;
    promise(&call, kept_from(&call, OUT, len), "bytes past the report were written");
    memcpy(text, after(&call, OUT), len < sizeof text - 1 ? len : sizeof text - 1);
    int numbers = sscanf(text, "check %u end %u", &number, &end);
    promise(&call, number == 0 ? numbers == 2 && is_end(end) && !is_code_trap(end) : numbers == 1 && number <= ICODE_RELOCATION_WRONG,
            "a report of another form, or a code trap in it");
    note_number(REPORT, number);
    call.len[OUT] = some_len(OUT, len);
    size_t again = (size_t)call_both(&call);
    promise(&call, again == (call.len[OUT] >= len ? len : 0), "another length in another buffer");
    promise(&call, kept_from(&call, OUT, again), "bytes past the report, or a short buffer, were written");
}

static void try_machine(const struct input *input, uint32_t number, bool sound)
{
    static struct machine machine;
    for (int i = 0; i < LOADS; i++) {
        machine.fits = try_load(input, number, &machine);
        machine.sound = machine.fits && sound;
        if (!machine.fits)
            make_machine(&machine);
        for (size_t word = 0; word < machine.stack_len; word++)
            machine.stack[word] = (uint32_t)random_word();
        try_run(input, number, &machine);
        try_run(input, number, &machine);
    }
}

void try_input(const struct input *input)
{
    uint32_t number = try_number(input);
    for (int i = 0; i < LINES; i++)
        try_line(input, number);
    try_mend(input, number);
    uint32_t checked = try_check(input, number, true);
    accepted += checked == 0;
    (void)try_check(input, number, false);
    for (int i = 0; i < DECODINGS; i++)
        try_decode(input);
    try_machine(input, is_linkage(checked) ? checked : number, checked == 0);
    try_report(input);
}
