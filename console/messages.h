/* What the programs say to people, on standard error. */
#ifndef MESSAGES_H
#define MESSAGES_H

#include <stdbool.h>
#include <stdint.h>

/* The meaning of a refusal or a trap, in the words of 01's table ("Numbers handed back"). */
const char *meaning_of(uint32_t number);

enum { LINE_TEXT_MAX = 32 };

/* How messages call a source line; 0 is none. Answers the text. */
const char *line_text(uint32_t line, char text[LINE_TEXT_MAX]);

/* How messages call a file: by its name, or "standard input" for "-". */
const char *shown_name(const char *name);

/* Says that a file cannot be read, and why (errno). */
void explain_unreadable(const char *program, const char *name);

/* A write to a closed pipe then fails like any other, so that it can be told in the exit status. */
void ignore_broken_pipes(void);

/* Writes out what standard output has buffered, so that it stands before the next message. Answers false, with a message, where some
 * of the output was lost. */
bool flush_output(const char *program);

#endif
