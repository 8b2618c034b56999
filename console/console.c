/* The console: checks, loads and runs run files, and prints the report of each, the text that the page printer prints. Standard output
 * has the reports alone; what is meant for people goes to standard error. */
#include "arguments.h"
#include "messages.h"
#include "refusal.h"

#include <inttypes.h>
#include <stdio.h>

/* The worst one of all files is the program's. */
enum status { STATUS_DONE = 0, STATUS_NOT_DONE = 1, STATUS_TROUBLE = 2 };

enum { MODULE_TEXT_MAX = 512 }; /* bytes of how a message names a library, with its end; a longer name is cut off */

/* The numbers in a report's first two lines. */
struct outcome {
    uint32_t check;
    uint32_t end;
    uint32_t at;
    uint32_t line;
    uint32_t steps;
};

/* The number of a refusal, its meaning, the library that is to blame where one is, and what is behind it. */
static void print_refusal(const char *name, uint32_t number, const char *in, const char *reason)
{
    fprintf(stderr, PROGRAM ": %s: refused with %" PRIu32 ": %s%s%s%s%s\n", shown_name(name), number, meaning_of(number),
            in[0] != '\0' ? "; " : "", in, reason[0] != '\0' ? "; " : "", reason);
}

static void explain_refusal(const char *name, uint32_t number, struct bytes file)
{
    char reason[REASON_MAX];
    find_reason(number, file, reason);
    print_refusal(name, number, "", reason);
}

/* For a run that did not finish: how it ended, and where; in which library where it was in one. */
static void explain_end(const char *name, const struct outcome *outcome, const char *in)
{
    char line[LINE_TEXT_MAX];
    fprintf(stderr, PROGRAM ": %s: ", shown_name(name));
    if (outcome->end == ICODE_SPENT)
        fprintf(stderr, "spent after %" PRIu32 " steps; next is", outcome->steps);
    else
        fprintf(stderr, "trap %" PRIu32 ": %s; at", outcome->end, meaning_of(outcome->end));
    fprintf(stderr, " offset %" PRIu32 ", %s%s%s\n", outcome->at, line_text(outcome->line, line), in[0] != '\0' ? ", " : "", in);
}

/* Reads the numbers from a report's text: the check's alone for a refusal, else all five. */
static bool read_outcome(const char *report, struct outcome *outcome)
{
    *outcome = (struct outcome){0};
    int numbers = sscanf(report, "check %" SCNu32 " end %" SCNu32 " at %" SCNu32 " line %" SCNu32 " steps %" SCNu32,
                         &outcome->check, &outcome->end, &outcome->at, &outcome->line, &outcome->steps);
    return outcome->check != 0 ? numbers == 1 : numbers == 5;
}

/* Checks, loads and runs. */
static enum status report_file(const char *name, struct bytes file)
{
    uint8_t report[ICODE_REPORT_MAX + 1];
    struct outcome outcome;
    size_t len = icode_report(file.at, file.len, report, ICODE_REPORT_MAX);
    report[len] = '\0';
    if (!read_outcome((const char *)report, &outcome)) {
        fprintf(stderr, PROGRAM ": %s: the library gave no report\n", shown_name(name));
        return STATUS_TROUBLE;
    }
    (void)fwrite(report, 1, len, stdout);
    if (!flush_output(PROGRAM))
        return STATUS_TROUBLE;
    if (outcome.check == 0 && outcome.end == ICODE_FINISHED)
        return STATUS_DONE;
    if (outcome.check != 0)
        explain_refusal(name, outcome.check, file);
    else
        explain_end(name, &outcome, "");
    return STATUS_NOT_DONE;
}

/* Checks alone; the line is the one that a report begins with. */
static enum status check_file(const char *name, struct bytes file)
{
    uint16_t workspace[ICODE_WORKSPACE_MAX];
    struct run_file parts;
    uint32_t number = ICODE_RUN_FILE_WRONG;
    if (split_run_file(file, &parts) == NULL)
        number = icode_check(parts.record.at, parts.record.len, parts.results.at, parts.results.len, workspace, ICODE_WORKSPACE_MAX);
    printf("check %" PRIu32 "\n", number);
    if (!flush_output(PROGRAM))
        return STATUS_TROUBLE;
    if (number == 0)
        return STATUS_DONE;
    explain_refusal(name, number, file);
    return STATUS_NOT_DONE;
}

/* How messages go on where a library is to blame: with its file and SID. */
static const char *of_library(const struct set *set, size_t module, char text[MODULE_TEXT_MAX])
{
    const struct module *library = &set->modules[module < set->count ? module : 0];
    text[0] = '\0';
    if (library != set->modules)
        (void)snprintf(text, MODULE_TEXT_MAX, "in library %" PRIu32 ", %s", library->sid, shown_name(library->name));
    return text;
}

static void explain_set_refusal(const struct set *set, const struct set_run *run)
{
    char reason[REASON_MAX], text[MODULE_TEXT_MAX];
    size_t module = find_set_reason(run->number, (struct modules){set->modules, set->count}, run->refused, reason);
    print_refusal(set->modules[0].name, run->number, of_library(set, module, text), reason);
}

static void explain_set_end(const struct set *set, const struct set_run *run)
{
    char text[MODULE_TEXT_MAX];
    const uint32_t *outcome = run->outcome;
    struct outcome end = {.end = outcome[ICODE_END], .at = outcome[ICODE_PLACE], .line = run->line, .steps = outcome[ICODE_STEPS]};
    explain_end(set->modules[0].name, &end, of_library(set, outcome[ICODE_PLACE_MODULE], text));
}

/* Checks, loads and runs with libraries; or checks alone. */
static enum status do_set(const char *name, struct bytes file, struct set *set, bool check_only)
{
    static struct set_run run;
    struct run_file parts;
    if (split_run_file(file, &parts) != NULL)
        return check_only ? check_file(name, file) : report_file(name, file);
    lend(name, &parts, set);
    if (check_only) {
        check_set(set, &run);
        printf("check %" PRIu32 "\n", run.number);
    } else {
        run_set(set, &run);
        print_set_page(set, &run);
    }
    if (!flush_output(PROGRAM))
        return STATUS_TROUBLE;
    if (run.number == 0 && (check_only || run.outcome[ICODE_END] == ICODE_FINISHED))
        return STATUS_DONE;
    if (run.number != 0)
        explain_set_refusal(set, &run);
    else
        explain_set_end(set, &run);
    return STATUS_NOT_DONE;
}

static enum status do_file(const char *name, struct request *request)
{
    uint8_t buffer[ICODE_RUN_FILE_MAX + 1]; /* one byte more shows that a file is too long */
    struct bytes file = {buffer, 0};
    if (!read_input(name, buffer, sizeof buffer, &file.len)) {
        explain_unreadable(PROGRAM, name);
        return STATUS_TROUBLE;
    }
    if (request->file_count > 1)
        printf("%s\n", name);
    if (request->set.count > 1)
        return do_set(name, file, &request->set, request->check_only);
    return request->check_only ? check_file(name, file) : report_file(name, file);
}

static enum status do_files(struct request *request)
{
    enum status worst = STATUS_DONE;
    if (!read_libraries(PROGRAM, &request->set))
        return STATUS_TROUBLE;
    for (int i = 0; i < request->file_count && !ferror(stdout); i++) {
        enum status status = do_file(request->files[i], request);
        if (status > worst)
            worst = status;
    }
    return worst;
}

/* Does what the arguments ask for. */
static enum status follow(struct request *request)
{
    if (request->help || request->version) {
        if (request->help)
            print_help();
        else
            puts(PROGRAM " " PROGRAM_VERSION);
        return flush_output(PROGRAM) ? STATUS_DONE : STATUS_TROUBLE;
    }
    if (request->file_count == 0) {
        fputs(PROGRAM ": no file is given\n", stderr);
        print_usage(stderr);
        return STATUS_TROUBLE;
    }
    return do_files(request);
}

int main(int argc, char **argv)
{
    struct request request = {.files = argv};
    enum status status = STATUS_TROUBLE;
    ignore_broken_pipes();
    if (!make_set((size_t)argc, &request.set)) {
        fputs(PROGRAM ": no memory\n", stderr);
    } else if (parse_arguments(argc, argv, &request)) {
        status = follow(&request);
    } else {
        print_usage(stderr);
    }
    drop_set(&request.set);
    return status;
}
