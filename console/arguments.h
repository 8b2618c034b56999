/* What the arguments ask for, and the texts about them. */
#ifndef ARGUMENTS_H
#define ARGUMENTS_H

#include "set.h"

#include <stdio.h>

#define PROGRAM "console"
#define PROGRAM_VERSION "1.1"

struct request {
    bool help;
    bool version;
    bool check_only;
    bool standard_input; /* among the files and libraries */
    char **files;
    int file_count;
    struct set set; /* the libraries; without any its count is 1 */
};

void print_usage(FILE *to);
void print_help(void);

/* Notes the options and moves the files' names to the front; answers false, with a message, for arguments that cannot be followed. The
 * request has room for as many libraries as there are arguments. */
bool parse_arguments(int argc, char **argv, struct request *request);

#endif
