/* The proved I-code library, for C and C++ on x86-64 Linux: target/staticlib/libicode.a, which takes memset alone from the C library.
 *
 * Buffers. A buffer is a pointer and a length, counted in elements. The pointer is valid for its length, aligned for its type (2 for
 * uint16_t, 4 for uint32_t) and not NULL, not even where the length is 0; a pointer to the end of an array will do there. What is const
 * is left as it is. What a call writes overlaps nothing else that it is lent; what it only reads may overlap. Nothing else is asked:
 * any bytes, words and lengths have an answer, and each call returns.
 *
 * Threads. Nothing is kept between calls, nothing is allocated, and the library has no data of its own that is written. So threads may
 * call at once, as long as no call writes what another one is lent.
 *
 * Stack. A call needs at most ICODE_THREAD_STACK bytes of its thread's stack, icode_set_check ICODE_THREAD_STACK_SET_CHECK, icode_report
 * ICODE_THREAD_STACK_REPORT. No proof speaks of it; the gate makes its calls on stacks of that size, and tests/guard prints what they
 * took. */
#ifndef ICODE_H
#define ICODE_H

#include <stddef.h>
#include <stdint.h>

/* The version of this interface: MAJOR is another one where a program that uses it may have to change, MINOR where something is added. */
#define ICODE_VERSION_MAJOR 2
#define ICODE_VERSION_MINOR 0

/* The numbers handed back; docs/NUMBERS.md says which calls give which. 0 is no refusal. 4 is withdrawn: no call gives it. */
enum icode_number {
    /* Refusals. */
    ICODE_RECORD_SHORT = 1,      /* record under 28 bytes */
    ICODE_SIZE_ABOVE = 2,        /* a size above its maximum */
    ICODE_LENGTH_WRONG = 3,      /* length not that of the parts */
    ICODE_VERSION_MALFORMED = 5, /* version word malformed */
    ICODE_SOURCE_MALFORMED = 6,  /* source table odd, or its offsets not strictly rising and below the code size */
    ICODE_ENTRIES_MALFORMED = 7, /* entries not strictly rising and below the code size, or entry 1 not even, at least 4 and at
                                  * most 512 */
    ICODE_ROOM_WRONG = 8,        /* load: more parameters than globals, memory under 3+g+c or over 16,384, stack over 1,024; check:
                                  * workspace under four halfwords per code byte; set: memory under the 3+g+c of all modules together,
                                  * copy under all their code, or no such module to check; mend: the new record or the list of
                                  * dropped words does not fit */
    ICODE_RESULTS_WRONG = 9,     /* results list of wrong length or content */
    ICODE_CODE_UNSERVED = 10,    /* unserved instruction, or prefix before one without that mode */
    ICODE_CODE_PAST = 11,        /* instruction runs past its region */
    ICODE_NO_START = 12,         /* a successor or switch label is no start in its region */
    ICODE_ENTER_WRONG = 13,      /* procedures 1 and up do not begin with ENTER, ENTER elsewhere, or procedure 0's has parameters */
    ICODE_CALLEE_WRONG = 14,     /* callee 0 or not in the entries */
    ICODE_NO_PICTURE = 15,       /* some region has no picture */
    ICODE_RUN_FILE_WRONG = 16,   /* run file malformed or too long */
    ICODE_IMPORTS_WRONG = 17,    /* an import not among the lent libraries, two libraries under one SID, or over 16 modules */
    ICODE_RELOCATION_WRONG = 18, /* relocation entries not just the library bytes of the cut external instructions, or such a
                                  * byte 0 or past the imports */
    /* Code traps, in which no run of an accepted record ends. */
    ICODE_TRAP_UNSERVED = 20, /* unserved */
    ICODE_TRAP_OUTSIDE = 21,  /* offset or bytes outside the code */
    ICODE_TRAP_TOO_FEW = 22,  /* too few stack words */
    ICODE_TRAP_CALLEE = 23,   /* no such callee or library, 0 included */
    /* A refusal again. */
    ICODE_STATE_WRONG = 24, /* run: a state that does not fit */
    /* Data traps. Where the first version word names an issue before 3/-, unsigned add, subtract and multiply give no 31: they
     * wrap. */
    ICODE_TRAP_ZERO_DIVISOR = 30, /* zero divisor */
    ICODE_TRAP_RANGE = 31,        /* number does not fit */
    ICODE_TRAP_NOT_LIVE = 32,     /* not live */
    ICODE_TRAP_PROTECTED = 33,    /* protected */
    ICODE_TRAP_NOT_BOOLEAN = 34,  /* not a boolean */
    ICODE_TRAP_MEMORY_FULL = 35,  /* memory full */
    ICODE_TRAP_STACK_FULL = 36,   /* stack full */
    ICODE_TRAP_CALLS = 37,        /* 64 calls */
    ICODE_TRAP_FREE = 38          /* FREE below FP */
};

/* Ends of a run; the others are the traps. */
enum icode_end { ICODE_FINISHED = 0, ICODE_SPENT = 1 };

/* Words of a state, of an outcome, of a span, of the counts of a mending, of a decoded instruction, and of a row of a set's directory,
 * each by its place; last comes how many there are. A set's state and outcome have a word more: the number of a module. */
enum { ICODE_PC, ICODE_FP, ICODE_MP, ICODE_GP, ICODE_HEIGHT, ICODE_CALLS, ICODE_STATE_WORDS };
enum { ICODE_MODULE = ICODE_STATE_WORDS, ICODE_SET_STATE_WORDS };
enum { ICODE_END, ICODE_PLACE, ICODE_STEPS, ICODE_OUTCOME_WORDS };
enum { ICODE_PLACE_MODULE = ICODE_OUTCOME_WORDS, ICODE_SET_OUTCOME_WORDS };
enum { ICODE_OUTSIDE, ICODE_FIRST, ICODE_LAST, ICODE_LINE, ICODE_SPAN_WORDS };
enum { ICODE_MENDED_BYTES, ICODE_DROPPED_WORDS, ICODE_COUNT_WORDS };
enum { ICODE_MNEMONIC, ICODE_DOUBLE, ICODE_OPERAND, ICODE_SECOND, ICODE_BYTES, ICODE_DECODED_WORDS };
enum { ICODE_SID, ICODE_RECORD_BYTES, ICODE_RESULTS_BYTES, ICODE_WORKSPACE_HALFWORDS, ICODE_ROW_WORDS };

/* Halfwords of workspace that icode_check needs for code of so many bytes. */
#define ICODE_WORKSPACE(code_bytes) (4 * (code_bytes))

enum {
    ICODE_HEADER_BYTES = 28,              /* the sizes that a record begins with */
    ICODE_CODE_MAX = 4096,                /* bytes of code */
    ICODE_RESULTS_MAX = 256,              /* procedures, and so bytes of a results list */
    ICODE_RECORD_MAX = 32924,             /* bytes of a sound record */
    ICODE_MEND_MAX = 32924,               /* bytes of a record that icode_mend takes, and so of the new one */
    ICODE_PLACES_MAX = 2064,              /* words that it may drop */
    ICODE_WORKSPACE_MAX = ICODE_WORKSPACE(ICODE_CODE_MAX),
    ICODE_GLOBALS_MAX = 1024,             /* words, and so parameters */
    ICODE_MODULES_MAX = 16,               /* modules of a set, the main one with them */
    ICODE_COPY_MAX = 65536,               /* bytes of copy that are enough for any set */
    ICODE_MEMORY_MAX = 16384,             /* words */
    ICODE_STACK_MAX = 1024,               /* words */
    ICODE_RUN_FILE_MAX = 8192,            /* bytes of a run file */
    ICODE_RUN_FILE_MEMORY_MAX = 4096,     /* words of memory that it may ask for */
    ICODE_REPORT_MAX = 32768,             /* bytes of out that are enough for any run file */
    ICODE_THREAD_STACK = 24576,           /* bytes of its thread's stack that a call needs at most .. */
    ICODE_THREAD_STACK_SET_CHECK = 65536, /* .. and icode_set_check .. */
    ICODE_THREAD_STACK_REPORT = 98304     /* .. and icode_report */
};

#ifdef __cplusplus
extern "C" {
#endif

/* 0 for a sound record, else the number that refuses it: 1 to 3 or 5 to 7, called 1 to 7 below. Imports and relocation are not looked
 * at. */
uint32_t icode_record_number(const uint8_t *record, size_t record_len);

/* The source line of a code offset, as number * 2^32 + line. The number is that of icode_record_number; where it is not 0 the line is
 * 0. The line is also 0 before the first pair of the source table and outside the code. */
uint64_t icode_line(const uint8_t *record, size_t record_len, uint32_t offset);

/* The whole source line of a code offset. Answers the first of these that holds:
 *   1 to 7  as icode_record_number,
 *   8       span_len is under 4,
 *   0       the offset is looked up.
 * Only 0 writes, and then just four words; what lies past them is not written:
 *   span[0]  1 where the offset is outside the code, else 0,
 *   span[1]  the first code offset of the line: that of its pair in the source table,
 *   span[2]  the last one: that before the next pair, or of the last code byte where there is none,
 *   span[3]  the number of the line, as icode_line gives it.
 * Before the first pair the line is 0 and begins at offset 0. Outside the code the last three words are 0. */
uint32_t icode_line_span(const uint8_t *record, size_t record_len, uint32_t offset, uint32_t *span, size_t span_len);

/* Mends what keeps a record from being sound with 5 or 6. A malformed version word empties the version table. A source table of odd size
 * loses its last word; then, from the front, a pair is kept exactly if its offset is below the code size and above the last kept one.
 * Answers the first of these that holds:
 *   1 to 3  as icode_record_number gives them,
 *   8       out is shorter than the new record, places has fewer words than are dropped, or counts_len is under 2,
 *   0       the record is mended; icode_record_number never gives 5 or 6 for the new one.
 * Only 0 writes, and then just this; what lies past it in each buffer is not written:
 *   out        the new record, with the sizes of both tables as they are now and all else as it was,
 *   places     the byte place in the old record of each dropped word, rising,
 *   counts[0]  the bytes of the new record, never more than record_len,
 *   counts[1]  the words dropped, 0 for a sound record, which comes out as it was. */
uint32_t icode_mend(const uint8_t *record, size_t record_len, uint8_t *out, size_t out_len, uint32_t *places, size_t places_len,
                    uint32_t *counts, size_t counts_len);

/* Checks a record before it runs, by itself, without libraries. results has one byte for each procedure, from 0 on: how many result
 * words it leaves, 0 to 2, and 0 for procedure 0. Answers 0 where the record is accepted, else the first number that refuses it:
 *   1 to 7    as above,
 *   17        it has imports,
 *   18        it has a relocation entry, or an external instruction cut before its region's first bad one,
 *   8         the workspace has under four halfwords for each code byte,
 *   9         the results list has a wrong length or content,
 *   10 to 14  the code is not cut into served instructions that are in order,
 *   15        some procedure has no stack picture.
 * Up to 9, and for 17 and 18, the workspace stays as it was. Else its first four halfwords for each code byte are written: all 0
 * for 10 to 15; for 0, at byte i, workspace[4 * i] is the height of the procedure's share of the stack there plus 1 (0 where the
 * picture has nothing), workspace[4 * i + 1] is 1 plus the offset of the ITER or SWITCH that pushed its topmost label (0 where
 * there is no label), and the other two are 0. What lies past that is not written. */
uint32_t icode_check(const uint8_t *record, size_t record_len, const uint8_t *results, size_t results_len, uint16_t *workspace,
                     size_t workspace_len);

/* A set of modules is lent as slices. The main module is number 0, the libraries are 1, 2, .. in the order in which they are lent.
 *   records    the modules' records, one after another, the main one first,
 *   results    their results lists likewise,
 *   directory  a row of four words for each module: its SID (the main one's counts for nothing), the bytes of its record, the bytes of
 *              its results list, and the halfwords of its workspace, which the calls below do not look at.
 * Words of the directory past the last whole row do not count. A share that its slice does not hold is cut off at the slice's end, and
 * what lies past the last share is not looked at.
 *
 * Every call over a set first makes these tests over all modules, and answers the first of them that fails:
 *   1 to 7  as icode_record_number, the lowest number of all modules; 1 where there is no module,
 *   17      an import is not the SID of a lent library, two libraries have one SID, or there are over 16 modules,
 *   18      a relocation entry does not point at the library byte of an external instruction cut before its region's first bad one,
 *           or such a byte has no entry, is 0 or is past its import list.
 * What holds of a set holds of these modules in this order with these SIDs: check, load and run are lent the same ones, and every check
 * the same results lists. */

/* Checks one module of a set, by its number. Every module is to be accepted before the set runs. Answers 0 where it is accepted, else
 * the first number that refuses it:
 *   1 to 7, 17, 18  as above,
 *   8         there is no module own, or the workspace has under four halfwords for each byte of its code,
 *   9         some module's results list has a wrong length or content,
 *   10 to 14  some module's code is not cut into served instructions that are in order; 10 or 11 is that of the first such module,
 *   15        some procedure of this module has no stack picture.
 * A callee's parameters and results are those of its own module. The workspace is written as icode_check writes it, for the code of this
 * module: it stays as it was up to 9 and for 17 and 18. */
uint32_t icode_set_check(const uint8_t *records, size_t records_len, const uint8_t *results, size_t results_len,
                         const uint32_t *directory, size_t directory_len, uint32_t own, uint16_t *workspace, size_t workspace_len);

/* Checks, loads and runs a run file, in memory and a stack of its own, and writes the report's text into out:
 *   check 0
 *   end E at A line L steps N     E: 0 finished, 1 spent, or the trap; A: offset of the finishing RTN, of the next instruction
 *                                 when spent, or of the trapped one; L: its source line; N: the completed steps
 *   s W ..                        the words on the stack, bottom first
 *   g W ..                        the globals
 * or, where the file is refused, the one line "check" and its number: 16 for a run file that is malformed or too long, else that of
 * icode_check, else 8 of the load; so a record with imports is 17. Each line ends with one newline, numbers are unsigned decimals,
 * and no NUL follows. Answers the bytes written; what lies past them is not written. Answers 0 for an out that is too short, which
 * stays as it was; 32,768 bytes are enough for any run file. */
size_t icode_report(const uint8_t *run_file, size_t run_file_len, uint8_t *out, size_t out_len);

/* For tests: decodes the instruction at a place of the code, which has to end at or before the limit. Bytes past code_len count as 0.
 * Answers the first of these that holds:
 *   8   out_len is not 5,
 *   11  its code byte, or a prefix before it, does not stand below the limit,
 *   10  it is not served, or not in its mode,
 *   11  its operands run past the limit,
 *   0   it is decoded.
 * Only 0 writes, and then all five words:
 *   out[0]  the number of the mnemonic, 0 to 61, as crates/mnemonic/specs/Mnemonic.antt lists them,
 *   out[1]  1 where DOUBLE stands before it, else 0,
 *   out[2]  the operand as a word, 0 where there is none,
 *   out[3]  the second operand (of ENTER and the external instructions) as a word, 0 where there is none,
 *   out[4]  the length in bytes, a prefix counted in. */
uint32_t icode_bench_decode(const uint8_t *code, size_t code_len, size_t limit, size_t at, uint32_t *out, size_t out_len);

/* For the bench, where code that was not checked may be loaded and run. A state is six words: PC, FP, MP, GP, the height of the stack
 * and the number of active calls. Numbers 1 to 7, 17 and 18 come first, as in icode_check. */

/* Loads a record: 0, or 1 to 7, 17 or 18, or 8 where there are more parameters than globals, memory or stack have a size that is
 * not taken, or state_len is not 6. Only 0 writes: all of memory, and the state. The stack is not written. */
uint32_t icode_bench_load(const uint8_t *record, size_t record_len, const uint32_t *parameters, size_t parameters_len,
                          uint32_t *memory, size_t memory_len, const uint32_t *stack, size_t stack_len, uint32_t *state,
                          size_t state_len);

/* Runs from a state for at most budget steps: 0, or 1 to 7, 17 or 18, or 24 where the state does not fit, state_len is not 6 or
 * outcome_len is not 3. Only 0 writes: memory, stack and state as the steps leave them, and outcome[0] the end (0 finished, 1
 * spent, or the trap), outcome[1] the place, outcome[2] the completed steps. */
uint32_t icode_bench_run(const uint8_t *record, size_t record_len, uint32_t budget, uint32_t *memory, size_t memory_len,
                         uint32_t *stack, size_t stack_len, uint32_t *state, size_t state_len, uint32_t *outcome,
                         size_t outcome_len);

/* For tests: the same, for every at_once. At most at_once steps go through the fast loop before each one that goes through the general
 * step; with 0 all go through that. icode_bench_run sets no such limit. */
uint32_t icode_bench_run_by(uint32_t at_once, const uint8_t *record, size_t record_len, uint32_t budget, uint32_t *memory,
                            size_t memory_len, uint32_t *stack, size_t stack_len, uint32_t *state, size_t state_len,
                            uint32_t *outcome, size_t outcome_len);

/* The same for a set of modules. A state is seven words: the six above, then the number of the module that runs. Numbers 1 to 7, 17
 * and 18 come first, as above. The results lists are not lent. */

/* Loads a set: 0, or 1 to 7, 17 or 18, or 8 where there are more parameters than the main module has globals, memory does not hold the
 * 3+g+c words of all modules or has over 16,384, the stack has over 1,024, the copy is shorter than the code of all modules, or
 * state_len is not 7. Only 0 writes:
 *   copy    each module's code, from its entry table on, one after another, with the library numbers rewritten to module numbers; what
 *           lies past it is not written,
 *   memory  all of it: in module order three header words (0, the module's number, where its constants begin), globals and constants;
 *           the parameters are the main module's first globals, and all else is 0,
 *   state   all of it.
 * The stack is not written. */
uint32_t icode_bench_set_load(const uint8_t *records, size_t records_len, const uint32_t *directory, size_t directory_len,
                              const uint32_t *parameters, size_t parameters_len, uint8_t *copy, size_t copy_len, uint32_t *memory,
                              size_t memory_len, const uint32_t *stack, size_t stack_len, uint32_t *state, size_t state_len);

/* Runs a set from a state for at most budget steps: 0, or 1 to 7, 17 or 18, or 24 where the state does not fit, the copy is not as the
 * load writes it (what lies past that counts for nothing), state_len is not 7 or outcome_len is under 4. Only 0 writes: memory, stack
 * and state as the steps leave them, and outcome[0] the end, outcome[1] the place, outcome[2] the completed steps, outcome[3] the number of
 * the module that the place is in; what lies past that is not written. icode_line has the source line, from that module's record. */
uint32_t icode_bench_set_run(const uint8_t *records, size_t records_len, const uint32_t *directory, size_t directory_len,
                             uint32_t budget, const uint8_t *copy, size_t copy_len, uint32_t *memory, size_t memory_len,
                             uint32_t *stack, size_t stack_len, uint32_t *state, size_t state_len, uint32_t *outcome,
                             size_t outcome_len);

/* For tests: the same, for every at_once, as icode_bench_run_by. */
uint32_t icode_bench_set_run_by(uint32_t at_once, const uint8_t *records, size_t records_len, const uint32_t *directory,
                                size_t directory_len, uint32_t budget, const uint8_t *copy, size_t copy_len, uint32_t *memory,
                                size_t memory_len, uint32_t *stack, size_t stack_len, uint32_t *state, size_t state_len,
                                uint32_t *outcome, size_t outcome_len);

#ifdef __cplusplus
}
#endif

#endif
