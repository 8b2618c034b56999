/* Prints what became of a run file, through the library. Exit status: 0 finished, 1 refused, trapped or spent, 2 not read. */
#include "icode.h"

#include <stdio.h>

int main(int argc, char **argv)
{
    static uint8_t file[ICODE_RUN_FILE_MAX + 1]; /* one byte more, so that a longer file is refused and not cut */
    static uint8_t page[ICODE_REPORT_MAX + 1];   /* room for any page, and a NUL */
    unsigned check = 0, end = 0, at = 0, line = 0;

    FILE *input = argc == 2 ? fopen(argv[1], "rb") : NULL;
    size_t file_len = input != NULL ? fread(file, 1, sizeof file, input) : 0;
    if (input == NULL || ferror(input)) { /* a read that fails is no end of the file */
        fprintf(stderr, "usage: embed RUN_FILE, a file that can be read\n");
        return 2;
    }
    fclose(input);

    size_t page_len = icode_report(file, file_len, page, ICODE_REPORT_MAX); /* checks, loads and runs */
    page[page_len] = '\0';
    sscanf((char *)page, "check %u end %u at %u line %u", &check, &end, &at, &line); /* a refusal has the first alone */

    if (check == ICODE_VERSION_MALFORMED || check == ICODE_SOURCE_MALFORMED)
        printf("refused with %u: a table is damaged, and icode_mend can mend it\n", check);
    else if (check != 0)
        printf("refused with %u\n", check);
    else if (end == ICODE_FINISHED)
        printf("finished:\n%s", (char *)page);
    else if (end == ICODE_SPENT)
        printf("spent its budget before offset %u, line %u\n", at, line);
    else
        printf("trap %u at offset %u, line %u\n", end, at, line);
    return check == 0 && end == ICODE_FINISHED ? 0 : 1;
}
