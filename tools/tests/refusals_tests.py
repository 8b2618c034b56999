"""What stands behind a refusal: the reason and the marked instructions of list, and the same reason from page and trace."""

import re
from harness import *

RTN = bytes([0xE9])
SOUND = bytes([0, 2, 0xE9])
TWO = bytes([0, 8, 0, 4, 0xE8, 0, 0, 0xE9])  # procedure 1 is ENTER and RTN; procedure 0 begins at 8
SWITCH = bytes([0, 2, 0x00, 0xE2, 0, 0, 0, 10, 0, 9, 0, 9, 0xE4, 0xE9])  # SWITCH at 3, LEAVE at 12, RTN at 13
# Five procedures: 1 leaves no result, 2 returns, 3 pops too much and 4 too; 0 calls 1 and 2, and leaves a word.
FIVE = bytes([0, 32, 0, 10, 0, 15, 0, 20, 0, 26]) + bytes([0xE8, 0, 0, 0xFF, 0xE9]) + bytes([0xE8, 0, 0, 0xFF, 0xE9]) + \
    bytes([0xE8, 0, 0, 0x9E, 1, 0xE9]) + bytes([0xE8, 1, 0, 0x9E, 1, 0xE9]) + bytes([0x71, 0x72, 0xE9])

# Records: name, number, reason, marked rows, record, results.
RECORDS = [
    ("short", 1, "it has 27 bytes", "", record_of(SOUND)[:27], "0"),
    ("large", 2, "imports 17, at most 16 words", "", record_of(b"", sizes=[17] + [0] * 6), "0"),
    ("longer", 3, "its parts come to 31 bytes, it has 32", "", record_of(SOUND) + b"\0", "0"),
    ("import", 17, "import 1 is SID 7, which no --library lends", "", record_of(SOUND, imports=[7, 8]), "0"),
    ("no imports", 18, "offset 2: LOAD_E 1, 0 has library number 1 of 0 imports; and 1 more", "!2 !5",
     record_of(bytes([0, 2, 0x89, 1, 0, 0x98, 0, 9, 0xE9])), "0"),
    ("stray entry", 18, "relocation entry 1 is 2, where no external instruction has its library byte", "",
     record_of(SOUND, relocation=[2, 4294967295]), "0"),
    ("external behind a bad one", 10, "offset 2: code 9b, which is not served", "!2", record_of(bytes([0, 2, 0x9B, 0x89, 1, 0])), "0"),
    ("version", 5, 'it is "3/- ", and should be such as " 3/-" or "12/B"', "", record_of(SOUND, b"3/- "), "0"),
    ("odd source", 6, "it has 1 word, and every pair has two", "", record_of(SOUND, source=bytes(4)), "0"),
    ("source outside", 6, "pair 1: offset 3 is not below 3", "", record_of(SOUND, source=word_bytes([2, 1, 3, 1])), "0"),
    ("source falls", 6, "pair 1: offset 2 is not above 2", "", record_of(SOUND, source=word_bytes([2, 1, 2, 1])), "0"),
    ("no entry", 7, "the code has 1 byte", "", record_of(b"\0"), "0"),
    ("entry behind", 7, "entry 0 is 2, not below 2", "", record_of(b"\0\2"), "0"),
    ("entry 1", 7, "entry 1 is 5", "", record_of(bytes([0, 6, 0, 5]) + bytes(8)), "0"),
    ("entries cut off", 7, "entry 1 is 6, not below 5", "", record_of(bytes([0, 9, 0, 6, 0])), "0"),
    ("entries fall", 7, "entry 0 is 4, not above 4", "", record_of(bytes([0, 4, 0, 4]) + bytes(8)), "0"),
    ("results", 9, "2 numbers for 1 procedure", "", record_of(SOUND), "00"),
    ("results of 0", 9, "procedure 0 has 1, and leaves none", "", record_of(SOUND), "1"),
    ("results of 1", 9, "procedure 1 has 3, at most 2", "", record_of(TWO + RTN), "03"),
    ("unserved", 10, "offset 2: code 9b, which is not served", "!2", record_of(bytes([0, 2, 0x9B, 0xE9])), "0"),
    ("prefixed", 10, "offset 3: DOUBLE before ADD_I, which has no such mode", "!3", record_of(bytes([0, 2, 0xFF, 0xF5, 0xA0])), "0"),
    ("prefixed twice", 10, "offset 2: DOUBLE before code f5, which is not served", "!2", record_of(bytes([0, 2, 0xF5, 0xF5, 0x20])), "0"),
    ("prefix at the end", 11, "offset 3: DOUBLE is the last byte of procedure 0", "!3", record_of(bytes([0, 2, 0xE9, 0xF5])), "0"),
    ("past its region", 11, "offset 7: LOAD_C.w is longer than the 1 byte left of procedure 1", "!7",
     record_of(bytes([0, 8, 0, 4, 0xE8, 0, 0, 0x84, 0, 0, 0, 0, 0xE9])), "00"),
    ("the first decides", 11, "offset 2: SWITCH is longer than the 4 bytes left of procedure 0", "!2",
     record_of(bytes([0, 2, 0xE2, 0, 9, 0x9B])), "0"),
    ("jump", 12, "offset 2, source line 7: JUMP.b leads to offset 3, where no instruction of procedure 0 begins", "!2",
     record_of(bytes([0, 2, 0xDA, 1, 0xE9]), source=word_bytes([2, 7])), "0"),
    ("jump before the code", 12, "offset 2: JUMP.b leads to offset -1, where no instruction of procedure 0 begins", "!2",
     record_of(bytes([0, 2, 0xDA, 0xFD, 0xE9])), "0"),
    ("two jumps", 12, "offset 2: JUMP.b leads to offset 3, where no instruction of procedure 0 begins; and 1 more", "!2 !4",
     record_of(bytes([0, 2, 0xDA, 1, 0xDA, 1, 0xE9])), "0"),
    ("jump to another procedure", 12, "offset 8: JUMP.b leads to offset 4, where no instruction of procedure 0 begins", "!8",
     record_of(TWO + bytes([0xDA, 0xFC, 0xE9])), "00"),
    ("falls out", 12, "offset 2: NOP is the last of procedure 0, and goes on behind it", "!2", record_of(bytes([0, 2, 0xFF])), "0"),
    ("exit of a switch", 12, "offset 3: SWITCH, exit leads to offset 14, where no instruction of procedure 0 begins", "!3 !6",
     record_of(SWITCH.replace(bytes([0, 10, 0, 9]), bytes([0, 11, 0, 9]))), "0"),
    ("no ENTER", 13, "offset 4: procedure 1 begins with NOP", "!4", record_of(TWO.replace(b"\xE8\0\0", b"\xFF\xFF\xFF") + RTN), "00"),
    ("ENTER inside", 13, "offset 3: ENTER 0, 0 inside procedure 0", "!3", record_of(bytes([0, 2, 0xFF, 0xE8, 0, 0, 0xE9])), "0"),
    ("parameters of 0", 13, "offset 2: ENTER 1, 0 gives procedure 0 parameters", "!2", record_of(bytes([0, 2, 0xE8, 1, 0, 0xE9])), "0"),
    ("callee", 14, "offset 8: CALL.2, and there are only the procedures 0 to 1", "!8", record_of(TWO + bytes([0x72, 0xE9])), "00"),
    ("callee 0", 14, "offset 8: CALL.b 0 calls procedure 0", "!8", record_of(TWO + bytes([0xE5, 0, 0xE9])), "00"),
    ("picture", 15, "procedure 0, from offset 2 to 3", "!2 !3", record_of(bytes([0, 2, 0xA1, 0xE9])), "0"),
    ("pictures", 15, "procedure 1, from offset 10 to 14; and 3 more", "!10 !13 !14 !20 !23 !25 !26 !29 !31 !32 !33 !34",
     record_of(FIVE), "01000"),
    ("pictures but for callers", 15, "procedure 3, from offset 20 to 25; and 1 more", "!20 !23 !25 !26 !29 !31", record_of(FIVE), "00000"),
    ("four bytes", 15, "procedure 1, from offset 4 to 7", "!4 !7", record_of(TWO + bytes([0x71, 0x9E, 1, 0xE9])), "01"),
]

# Run files whose record is accepted: number, reason, file.
RUN_FILES = [
    (8, "3 parameters for 2 globals", run_file_of(record_of(SOUND, globals_=2), parameters=[1, 2, 3])),
    (8, "memory 5 words, under 3+2+1 = 6", run_file_of(record_of(SOUND, globals_=2, constants=bytes(4)), memory=5)),
    (8, "stack 1025 words, over 1,024", run_file_of(record_of(SOUND), stack=1025)),
    (8, "1 parameter for 0 globals; memory 0 words, under 3+0+0 = 3; stack 65535 words, over 1,024",
     run_file_of(record_of(SOUND), parameters=[0], memory=0, stack=65535)),
    (16, "it does not begin with TRK and version 1", b"TRK"), (16, "it does not begin with TRK and version 1", b"TRK\0\2" + bytes(20)),
    (16, "it ends inside its head", b"TRK\0\1\1"), (16, "it ends inside its head", run_file_of(b"")[:-1]),
    (16, "it asks for more than 4,096 words of memory", run_file_of(record_of(SOUND), memory=4097)),
    (16, "it is longer than 8,192 bytes", run_file_of(record_of(SOUND)).ljust(8193, b"\0")),
]


def test_everywhere(tests, name, number, reason, file):
    """A run file is refused by page and trace with the same words."""
    status, out, err = tests.run("page", "-", input=file)
    words = f": refused with {number}: "
    good = (status, out) == (1, f"check {number}\n") and words in err and err.endswith(f": {reason}\n")
    tests.expect(f"page, {name}", good, (status, out, err))
    status, out, trace = tests.run("trace", "-", input=file)
    tests.expect(f"trace, {name}", (status, out, trace) == (1, "", err), (status, out, trace))


def test(tests):
    for name, number, reason, rows, record, digits in RECORDS:
        status, out, err = tests.list(record, "--results", digits)
        good = status == 1 and re.search(rf"\ncheck {number}: .*\n  {re.escape(reason)}\n", out) and marked(out) == rows and err == ""
        tests.expect(f"list, {name}", good, (status, out, err))
        file = run_file_of(record, results=bytes(map(int, digits)))
        status, out, err = tests.list(file)
        good = status == 1 and re.search(rf"\ncheck {number}: .*\n  {re.escape(reason)}\n", out) and marked(out) == rows and err == ""
        tests.expect(f"list of a run file, {name}", good, (status, out, err))
        test_everywhere(tests, name, number, reason, file)
    for number, reason, file in RUN_FILES:
        status, out, err = tests.list(file)
        where = out if number == 8 else err
        good = status == 1 and re.search(rf"{number}: .*\W{re.escape(reason)}\n", where, re.DOTALL) and "accepted" not in out
        tests.expect(f"list, {reason}", good and (out == "") == (number == 16), (status, out, err))
        test_everywhere(tests, reason, number, reason, file)
    tests.expect_run("too long for a record", ("list", "-"), 1, "longer than any record or run file", input=bytes(40_000))
