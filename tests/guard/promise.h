/* Makes a call in both layouts, and counts what is not as the header promises. */
#ifndef PROMISE_H
#define PROMISE_H

#include "call.h"
#include "input.h"

/* Sets up a call on the round's input: every role is lent with the length that the function takes. */
struct call new_call(enum function function, const struct input *input);

/* Calls in both layouts and compares them: answer, buffers, and what is around these. Answers what the function answered. */
uint64_t call_both(const struct call *call);

/* Gives what a role has after the call. */
const void *after(const struct call *call, enum role role);

/* Say whether the elements from one on are as they were lent, of a role or of all that the function may write. */
bool kept_from(const struct call *call, enum role role, size_t from);
bool all_kept(const struct call *call);

/* Counts a broken promise of a call and, for the first ones, prints it. Answers what holds. */
bool promise(const struct call *call, bool holds, const char *what);

/* Prints what a call is lent, and in which round. */
void print_call(const struct call *call, enum layout layout);

/* Tell what was counted: rounds, calls of a function, in each layout for itself, and promises that it broke. */
uint64_t rounds_begun(void);
uint64_t calls_made(enum function function);
uint64_t promises_broken(enum function function);

/* Tells in how many calls a role was lent with the length 0. */
uint64_t calls_with_none(enum role role);

/* Fills the noise that buffers are lent with. */
void make_noise_pool(void);

void begin_round(void);

#endif
