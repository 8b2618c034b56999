#include "promise.h"

#include "random.h"

#include <inttypes.h>
#include <stdio.h>
#include <string.h>

enum { POOL = 1 << 18, PRINTED_MAX = 10 };

static uint32_t pool[POOL / 4];
static uint64_t rounds, made[FUNCTIONS], broken[FUNCTIONS], none[ROLES];

uint64_t rounds_begun(void)
{
    return rounds;
}

void begin_round(void)
{
    rounds++;
}

uint64_t calls_made(enum function function)
{
    return made[function];
}

uint64_t promises_broken(enum function function)
{
    return broken[function];
}

uint64_t calls_with_none(enum role role)
{
    return none[role];
}

void make_noise_pool(void)
{
    for (size_t i = 0; i < POOL / 4; i++)
        pool[i] = (uint32_t)random_word();
}

/* Says what a role has elements for, where the function takes just so many. */
static size_t usual_len(enum role role, const struct input *input, bool set)
{
    switch (role) {
    case RECORD: return input->record_len;
    case RESULTS: return input->results_len;
    case PARAMETERS: return input->parameters_len;
    case CODE: return input->code_len;
    case RUN_FILE: return input->file_len;
    case SPAN: return ICODE_SPAN_WORDS;
    case COUNTS: return ICODE_COUNT_WORDS;
    case STATE: return set ? ICODE_SET_STATE_WORDS : ICODE_STATE_WORDS;
    case OUTCOME: return set ? ICODE_SET_OUTCOME_WORDS : ICODE_OUTCOME_WORDS;
    case DECODED: return ICODE_DECODED_WORDS;
    default: return 0;
    }
}

struct call new_call(enum function function, const struct input *input)
{
    struct call call = {.function = function};
    for (const enum role *role = function_roles(function); *role != ROLES; role++) {
        call.len[*role] = usual_len(*role, input, function >= SET_CHECK);
        call.contents[*role] = pool + random_below(POOL / 8); /* the other half is enough for any buffer */
    }
    return call;
}

const void *after(const struct call *call, enum role role)
{
    return lend(role, FRONT, call->len[role]);
}

bool kept_from(const struct call *call, enum role role, size_t from)
{
    const uint8_t *is = after(call, role), *was = call->contents[role];
    size_t skipped = from * role_size(role), all = call->len[role] * role_size(role);
    return skipped >= all || memcmp(is + skipped, was + skipped, all - skipped) == 0;
}

bool all_kept(const struct call *call)
{
    bool kept = true;
    for (const enum role *role = function_roles(call->function); *role != ROLES; role++)
        kept = kept && (*role < SPAN || kept_from(call, *role, 0));
    return kept;
}

void print_call(const struct call *call, enum layout layout)
{
    printf("  round %" PRIu64 ", %s, right %s guard pages:", rounds, function_name(call->function), layout == FRONT ? "behind" : "before");
    for (const enum role *role = function_roles(call->function); *role != ROLES; role++)
        printf(" %s %zu", role_name(*role), call->len[*role]);
    printf("; offset %" PRIu32 ", budget %" PRIu32 ", limit %zu, at %zu\n", call->offset, call->budget, call->limit, call->at);
}

bool promise(const struct call *call, bool holds, const char *what)
{
    static int printed;
    if (holds)
        return true;
    broken[call->function]++;
    if (printed++ < PRINTED_MAX) {
        printf("FAILED: %s\n", what);
        print_call(call, FRONT);
    }
    return false;
}

/* Calls in one layout; what lies around the buffers must stay. */
static uint64_t call_once(const struct call *call, enum layout layout)
{
    const enum role *roles = function_roles(call->function), *role;
    for (role = roles; *role != ROLES; role++)
        if (*role >= SPAN)
            fill(*role, layout, call->contents[*role], call->len[*role]);
    uint64_t answer = perform(call, layout);
    made[call->function]++;
    for (role = roles; *role != ROLES; role++) {
        none[*role] += call->len[*role] == 0;
        promise(call, *role < SPAN || surroundings_kept(*role, layout, call->len[*role]), "bytes around a buffer were written");
    }
    return answer;
}

uint64_t call_both(const struct call *call)
{
    uint64_t answer = call_once(call, FRONT), again = call_once(call, BACK);
    promise(call, answer == again, "the same input gave another answer");
    for (const enum role *role = function_roles(call->function); *role != ROLES; role++)
        if (*role >= SPAN)
            promise(call, memcmp(after(call, *role), lend(*role, BACK, call->len[*role]), call->len[*role] * role_size(*role)) == 0,
                    "the same input wrote something else");
    return answer;
}
