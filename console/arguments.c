#include "arguments.h"

#include <string.h>

void print_usage(FILE *to)
{
    fputs("usage: console [--check-only] [--library SID=FILE]... FILE...\n"
          "       console --help | --version\n", to);
}

void print_help(void)
{
    print_usage(stdout);
    fputs("\n"
          "Checks, loads and runs run files, and prints the report of each; with several files, each file's name\n"
          "before its report. The file - is standard input, and after -- every argument is a file.\n"
          "\n"
          "  --check-only        check without a run, and print the line of the check alone\n"
          "  --library SID=FILE  lend the record and the results list of a run file as the library SID, decimal or\n"
          "                      hex with 0x; at most 15, for every FILE\n"
          "  --help              print this text\n"
          "  --version           print the program's version\n"
          "\n"
          "With libraries the line of the end also has the number of the module that it is in: 0 for FILE, 1, 2, ..\n"
          "for the libraries as they are given.\n"
          "\n"
          "A refusal, a trap or a spent run is explained on standard error.\n"
          "\n"
          "Exit status: 0 when every file ran to a finish (with --check-only: was accepted), 1 when some was\n"
          "refused, trapped or spent, 2 for errors of usage, reading or writing.\n", stdout);
}

static bool parse_option(const char *option, struct request *request)
{
    if (strcmp(option, "--check-only") == 0)
        request->check_only = true;
    else if (strcmp(option, "--help") == 0)
        request->help = true;
    else if (strcmp(option, "--version") == 0)
        request->version = true;
    else
        return false;
    return true;
}

/* Whether a file can be read: standard input only once. */
static bool note_file(const char *name, struct request *request)
{
    bool standard_input = strcmp(name, "-") == 0;
    if (standard_input && request->standard_input)
        fputs(PROGRAM ": standard input can be read only once\n", stderr);
    bool can = !standard_input || !request->standard_input;
    request->standard_input |= standard_input;
    return can;
}

/* Notes a library, by what stands behind --library. */
static bool parse_library(const char *text, struct request *request)
{
    struct module *library = &request->set.modules[request->set.count];
    const char *fault = text != NULL ? split_library(text, library) : NULL;
    if (text == NULL)
        fputs(PROGRAM ": --library needs SID=FILE behind it\n", stderr);
    else if (fault != NULL)
        fprintf(stderr, PROGRAM ": --library '%s' %s\n", text, fault);
    if (text == NULL || fault != NULL || !note_file(library->name, request))
        return false;
    request->set.count++;
    return true;
}

/* After the last argument there is a NULL. */
bool parse_arguments(int argc, char **argv, struct request *request)
{
    bool options_ended = false, good = true;
    for (int i = 1; i < argc && good; i++) {
        if (options_ended || strcmp(argv[i], "-") == 0 || argv[i][0] != '-') {
            good = note_file(argv[i], request);
            request->files[request->file_count++] = argv[i];
        } else if (strcmp(argv[i], "--") == 0) {
            options_ended = true;
        } else if (strcmp(argv[i], "--library") == 0) {
            good = parse_library(argv[++i], request);
        } else if (!parse_option(argv[i], request)) {
            fprintf(stderr, PROGRAM ": unknown option '%s'\n", argv[i]);
            good = false;
        }
    }
    return good;
}
