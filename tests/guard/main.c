/* Tries the compiled library between guard pages: a million calls on stored inputs, as they are and damaged at random, with every buffer
 * right behind and right before a page that cannot be touched. Prints counts by function; the last line is 'N passed, M failed'. */
#define _DEFAULT_SOURCE
#include "corpus.h"
#include "numbers.h"
#include "promise.h"
#include "random.h"
#include "round.h"
#include "set_input.h"
#include "set_round.h"
#include "sizes.h"

#include <inttypes.h>
#include <signal.h>
#include <stdio.h>
#include <stdlib.h>
#include <string.h>
#include <unistd.h>

enum { USUAL_COUNT = 1000000 };

static const char *const wrong_names[WRONGS] = {
    [WRONG_SHORT_READ] = "short-read",   [WRONG_SHORT_WRITE] = "short-write", [WRONG_CONST] = "const",
    [WRONG_CONST_STACK] = "const-stack", [WRONG_AROUND] = "around",           [WRONG_PAST] = "past",
    [WRONG_REFUSAL] = "refusal",         [WRONG_ANSWER] = "answer",           [WRONG_TRAP] = "trap",
    [WRONG_STACK] = "stack",
};

static uint64_t seed = 1, wanted = USUAL_COUNT;
static enum wrong wrong = RIGHT;

static uint64_t all_calls(void)
{
    uint64_t calls = 0;
    for (int function = 0; function < FUNCTIONS; function++)
        calls += calls_made(function);
    return calls;
}

/* Prints the call that touched what it may not, and ends the program. The fault is in the library, so that printf can be called here. */
static void report_fault(int number, siginfo_t *info, void *context)
{
    enum layout layout;
    const char *part = "", *name = place_name(info->si_addr, &part);
    const struct call *call = call_under_way(&layout);
    (void)context;
    printf("FAILED: signal %d at %p", number, info->si_addr);
    if (call != NULL && stack_overrun(call->function, info->si_addr))
        printf(", below a stack of %zu bytes", stack_bytes(call->function));
    else if (name != NULL)
        printf(", %s the buffer %s", part, name);
    printf("; seed %" PRIu64 "\n", seed);
    if (call != NULL)
        print_call(call, layout);
    printf("0 passed, 1 failed\n");
    (void)fflush(stdout);
    _exit(1);
}

static void catch_faults(void)
{
    static uint8_t stack[65536];
    stack_t other = {.ss_sp = stack, .ss_size = sizeof stack};
    struct sigaction action = {.sa_sigaction = report_fault, .sa_flags = SA_SIGINFO | SA_ONSTACK};
    if (sigaltstack(&other, NULL) != 0 || sigaction(SIGSEGV, &action, NULL) != 0 || sigaction(SIGBUS, &action, NULL) != 0) {
        perror("guard: signals");
        exit(2);
    }
}

/* Prints the counts. Answers how many functions kept all promises and stayed on their stack. */
static unsigned print_counts(void)
{
    unsigned kept = 0;
    printf("%-22s %9s %7s %12s %10s\n", "function", "calls", "broken", "stack taken", "of bytes");
    for (int function = 0; function < FUNCTIONS; function++) {
        printf("%-22s %9" PRIu64 " %7" PRIu64 " %12zu %10zu\n", function_name(function), calls_made(function), promises_broken(function),
               stack_taken(function), stack_bytes(function));
        kept += promises_broken(function) == 0 && calls_made(function) > 0;
    }
    printf("%" PRIu64 " calls in %" PRIu64 " rounds, seed %" PRIu64 "; %lu accepted records, %lu runs of them to an end\n", all_calls(),
           rounds_begun(), seed, accepted_records(), accepted_runs());
    printf("%zu stored sets of modules; %lu accepted, %lu runs of them to an end, %lu of these in a library\n", stored_set_count(),
           accepted_sets(), accepted_set_runs(), ends_in_libraries());
    return kept;
}

/* Prints how often each buffer was lent with the length 0. Answers of how many that happened; of all of them where few will do. */
static unsigned print_empty(bool few)
{
    unsigned lent = 0;
    printf("lent with length 0:");
    for (int role = 0; role < ROLES; role++) {
        printf("%s %s %" PRIu64 "x", role == 0 ? "" : ",", role_name(role), calls_with_none(role));
        lent += few || calls_with_none(role) > 0;
    }
    printf("%s\n", lent == ROLES ? "" : "; FAILED: some never was");
    return lent;
}

static enum wrong wrong_named(const char *name)
{
    for (int i = RIGHT + 1; i < WRONGS; i++)
        if (strcmp(name, wrong_names[i]) == 0)
            return i;
    fprintf(stderr, "guard: there is no --wrong %s\n", name);
    exit(2);
}

/* Reads the options, then the folders of stored inputs. Answers how many inputs there are. */
static size_t read_arguments(int argc, char **argv)
{
    size_t stored = 0;
    for (int i = 1; i < argc; i++) {
        if (i + 1 < argc && strcmp(argv[i], "--seed") == 0)
            seed = strtoull(argv[++i], NULL, 10);
        else if (i + 1 < argc && strcmp(argv[i], "--count") == 0)
            wanted = strtoull(argv[++i], NULL, 10);
        else if (i + 1 < argc && strcmp(argv[i], "--wrong") == 0)
            wrong = wrong_named(argv[++i]);
        else
            stored = read_folder(argv[i]);
    }
    if (stored == 0 || stored_set_count() == 0) {
        fprintf(stderr, "usage: guard [--seed N] [--count N] [--wrong NAME] FOLDER..\n");
        exit(2);
    }
    return stored;
}

int main(int argc, char **argv)
{
    struct input input;
    static struct set_input set;
    unsigned kept, arisen, empty, sizes, failing;
    size_t stored = read_arguments(argc, argv);
    seed_random(seed);
    make_noise_pool();
    make_rooms();
    make_stacks(wrong);
    catch_faults();
    printf("%zu stored inputs, seed %" PRIu64 "\n", stored, seed);
    while (all_calls() < wanted) {
        begin_round();
        make_input(stored, &input);
        try_input(&input);
        make_set_input(&set);
        try_set_input(&input, &set);
    }
    kept = print_counts();
    arisen = print_numbers(wanted < USUAL_COUNT);
    empty = print_empty(wanted < USUAL_COUNT);
    sizes = try_sizes(&failing);
    failing += FUNCTIONS - kept + NUMBERED - arisen + ROLES - empty;
    printf("%u passed, %u failed\n", kept + arisen + empty + sizes, failing);
    return failing == 0 ? 0 : 1;
}
