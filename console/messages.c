#include "messages.h"

#include "icode.h"

#include <errno.h>
#include <inttypes.h>
#include <signal.h>
#include <stddef.h>
#include <stdio.h>
#include <string.h>

/* 6 and 7 say what 01's "as above" stands for; 8 is the load's, as the programs lend check enough workspace. */
const char *meaning_of(uint32_t number)
{
    static const char *const meanings[] = {
        [ICODE_RECORD_SHORT] = "record under 28 bytes",
        [ICODE_SIZE_ABOVE] = "a size above its maximum",
        [ICODE_LENGTH_WRONG] = "length not that of the parts",
        [ICODE_VERSION_MALFORMED] = "version word malformed",
        [ICODE_SOURCE_MALFORMED] = "source table odd, or its offsets not strictly rising and below the code size",
        [ICODE_ENTRIES_MALFORMED] = "entries not strictly rising and below the code size, or entry 1 not even, at least 4 and at most 512",
        [ICODE_ROOM_WRONG] = "load: more parameters than globals, memory under 3+g+c or over 16,384, stack over 1,024",
        [ICODE_RESULTS_WRONG] = "results list of wrong length or content",
        [ICODE_CODE_UNSERVED] = "unserved instruction, or prefix before one without that mode",
        [ICODE_CODE_PAST] = "instruction runs past its region",
        [ICODE_NO_START] = "a successor or switch label is no start in its region",
        [ICODE_ENTER_WRONG] = "procedures 1 and up do not begin with ENTER, ENTER elsewhere, or procedure 0's has parameters",
        [ICODE_CALLEE_WRONG] = "callee 0 or not in the entries",
        [ICODE_NO_PICTURE] = "some region has no picture",
        [ICODE_RUN_FILE_WRONG] = "run file malformed or too long",
        [ICODE_IMPORTS_WRONG] = "an import not among the lent libraries, two libraries under one SID, or over 16 modules",
        [ICODE_RELOCATION_WRONG] =
            "relocation entries not just the library bytes of the cut external instructions, or such a byte 0 or past the imports",
        [ICODE_TRAP_UNSERVED] = "unserved",
        [ICODE_TRAP_OUTSIDE] = "offset or bytes outside the code",
        [ICODE_TRAP_TOO_FEW] = "too few stack words",
        [ICODE_TRAP_CALLEE] = "no such callee or library, 0 included",
        [ICODE_STATE_WRONG] = "run: a state that does not fit",
        [ICODE_TRAP_ZERO_DIVISOR] = "zero divisor",
        [ICODE_TRAP_RANGE] = "number does not fit",
        [ICODE_TRAP_NOT_LIVE] = "not live",
        [ICODE_TRAP_PROTECTED] = "protected",
        [ICODE_TRAP_NOT_BOOLEAN] = "not a boolean",
        [ICODE_TRAP_MEMORY_FULL] = "memory full",
        [ICODE_TRAP_STACK_FULL] = "stack full",
        [ICODE_TRAP_CALLS] = "64 calls",
        [ICODE_TRAP_FREE] = "FREE below FP",
    };
    const char *meaning = number < sizeof meanings / sizeof meanings[0] ? meanings[number] : NULL;
    return meaning != NULL ? meaning : "a number without a meaning";
}

const char *line_text(uint32_t line, char text[LINE_TEXT_MAX])
{
    if (line == 0)
        (void)snprintf(text, LINE_TEXT_MAX, "no source line");
    else
        (void)snprintf(text, LINE_TEXT_MAX, "source line %" PRIu32, line);
    return text;
}

const char *shown_name(const char *name)
{
    return strcmp(name, "-") == 0 ? "standard input" : name;
}

void explain_unreadable(const char *program, const char *name)
{
    fprintf(stderr, "%s: cannot read '%s': %s\n", program, shown_name(name), strerror(errno));
}

void ignore_broken_pipes(void)
{
#ifdef SIGPIPE
    (void)signal(SIGPIPE, SIG_IGN);
#endif
}

bool flush_output(const char *program)
{
    /* An earlier write may have failed too; errno is then still that one's. */
    if (fflush(stdout) == 0 && !ferror(stdout))
        return true;
    fprintf(stderr, "%s: cannot write to standard output: %s\n", program, strerror(errno));
    return false;
}
