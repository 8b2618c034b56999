#!/usr/bin/env python3
"""Writes the example run files, byte by byte.

    examples/make.py            writes the run files beside this script
    examples/make.py --check    compares them with what it would write, and changes nothing

Pages eleven and twelve have the same record. It takes two catalogue positions as parameters, stores their separation and divides
by it. On page eleven the positions differ; on page twelve a star is listed twice. page-twelve-damaged.run is page twelve from a tape
that has damaged both tables of the record, page-twelve-mended.run the same without what request K12 (02) drops of it.
page-azimuths.run has a loop that runs to the last number there is (request K3), page-timestamps.run a record of an old issue, whose
unsigned results run round (request K11). page-twelve-library.run has the separation of page twelve from a procedure of the library
separation.run (request K1); page-twelve-library.libraries says under which SID that is lent.
"""

import sys
from pathlib import Path

FOLDER = Path(__file__).resolve().parent
sys.path.append(str(FOLDER.parent / "tests"))
from stored import halfword, main, word

CODE = bytes([
    # offset                     source
    0x00, 0x02,        #  0  entry of procedure 0: offset 2, so there is one procedure
    0x20,              #  2  LOAD_G.0    line 11: separation := first - second
    0x21,              #  3  LOAD_G.1
    0xA1,              #  4  SUB_I
    0x52,              #  5  STOR_G.2
    0x83, 0x03, 0xE8,  #  6  LOAD_C.h    line 12: figure := 1000 / separation
    0x22,              #  9  LOAD_G.2
    0xA3,              # 10  DIV_I
    0x53,              # 11  STOR_G.3
    0xE9,              # 12  RTN         line 13: end
])

AZIMUTHS = bytes([
    0x00, 0x02,                    #  0  entry of procedure 0
    0x8E, 0x02,                    #  2  LOAD_A_G.b 2    line 21: for azimuth from first to 2,147,483,647 by step
    0x20,                          #  4  LOAD_G.0
    0x84, 0x7F, 0xFF, 0xFF, 0xFF,  #  5  LOAD_C.w
    0x21,                          # 10  LOAD_G.1
    0xE0, 0x00, 0x08,              # 11  ITER            past the loop to offset 19
    0x23,                          # 14  LOAD_G.3        line 22: turns := turns + 1
    0x01,                          # 15  LOAD_C.1
    0xA0,                          # 16  ADD_I
    0x53,                          # 17  STOR_G.3
    0xE1,                          # 18  NEXT            line 23: next azimuth
    0xE9,                          # 19  RTN             line 24: end
])

TIMESTAMPS = bytes([
    0x00, 0x02,  #  0  entry of procedure 0
    0x21,        #  2  LOAD_G.1    line 31: elapsed := second - first
    0x20,        #  3  LOAD_G.0
    0xA9,        #  4  SUB_U
    0x52,        #  5  STOR_G.2
    0x20,        #  6  LOAD_G.0    line 32: due := first + 3 * elapsed
    0x03,        #  7  LOAD_C.3
    0x22,        #  8  LOAD_G.2
    0xAA,        #  9  MUL_U
    0xA8,        # 10  ADD_U
    0x53,        # 11  STOR_G.3
    0xE9,        # 12  RTN         line 33: end
])

LIBRARY_SID = 1207

CALLS_LIBRARY = bytes([
    0x00, 0x02,        #  0  entry of procedure 0
    0x20,              #  2  LOAD_G.0    line 11: separation := SEPARATION (first, second)
    0x21,              #  3  LOAD_G.1
    0xE6, 0x01, 0x01,  #  4  CALL_E      of import 1, its procedure 1
    0x52,              #  7  STOR_G.2
    0x83, 0x03, 0xE8,  #  8  LOAD_C.h    line 12: figure := 1000 / separation
    0x22,              # 11  LOAD_G.2
    0xA3,              # 12  DIV_I
    0x53,              # 13  STOR_G.3
    0xE9,              # 14  RTN         line 13: end
])

SEPARATION = bytes([
    0x00, 0x0B,        #  0  entry of procedure 0
    0x00, 0x04,        #  2  entry of procedure 1
    0xE8, 0x02, 0x00,  #  4  ENTER       line 41: procedure SEPARATION (first, second)
    0x10,              #  7  LOAD_L.0    line 42: return first - second
    0x11,              #  8  LOAD_L.1
    0xA1,              #  9  SUB_I
    0xE9,              # 10  RTN
    0xE9,              # 11  RTN         line 44: the library's own body, which does nothing
])

VERSION = b" 3/-"  # one word: issue 3, revision -

OLD_VERSION = b" 2/A"  # an issue before 3/-

SOURCE_PAIRS = [(2, 11), (6, 12), (12, 13)]  # offset in the code, source line

AZIMUTH_PAIRS = [(2, 21), (14, 22), (18, 23), (19, 24)]

TIMESTAMP_PAIRS = [(2, 31), (6, 32), (12, 33)]

CALLS_LIBRARY_PAIRS = [(2, 11), (8, 12), (14, 13)]

SEPARATION_PAIRS = [(4, 41), (7, 42), (11, 44)]

GLOBALS = 4  # first position, second position, separation, figure; or those that the text of a page names

DAMAGED_VERSION = b"!3/-"  # a bit of the first byte has turned, so that it is neither a digit nor a space

DAMAGED_SOURCE = [
    2, 11,
    6, 12,
    6, 12,          # the tape was read twice here: the offset does not rise
    0x4000000C, 13, # a bit of the offset has turned: it is not below the code size
    14,             # the first half of a pair
]

MENDED_SOURCE = [2, 11, 6, 12]


def pairs(source):
    return [number for pair in source for number in pair]


def record(code, version, source, imports=(), relocation=(), global_words=GLOBALS):
    """A record with this code, these bytes in the version table and these words in the other tables."""
    source, imports, relocation = (b"".join(map(word, words)) for words in (source, imports, relocation))
    header = [
        word(len(imports) // 4),     # import list, in words
        word(len(code)),             # code, in bytes
        word(global_words),          # globals, in words; they have no part in the record
        word(0),                     # constants, in words
        word(len(relocation) // 4),  # relocation, in words
        word(len(version) // 4),     # version table, in words
        word(len(source) // 4),      # source table, in words: two for each pair
    ]
    return b"".join(header) + imports + code + relocation + version + source


def run_file(first, second, code=CODE, version=VERSION, source=pairs(SOURCE_PAIRS), **tables):
    return b"".join([
        b"TRK",        # every run file begins so
        halfword(1),   # version of the run file's format
        bytes([1]),    # results list: one procedure ..
        bytes([0]),    # .. and it leaves no result words
        bytes([2]),    # two parameters, which fill the first globals
        word(first),   # first catalogue position, azimuth or stamp
        word(second),  # second catalogue position, the step, or the second stamp
        word(100),     # budget, in steps
        halfword(64),  # memory, in words
        halfword(16),  # stack, in words
        record(code, version, source, **tables),
    ])


def library_file(results, code, source):
    """A run file that is lent as a library: only its results list and its record are looked at."""
    return b"".join([
        b"TRK",
        halfword(1),
        bytes([len(results), *results]),
        bytes([0]),    # no parameters
        word(100),
        halfword(64),
        halfword(16),
        record(code, VERSION, source, global_words=0),
    ])


PAGES = {
    "page-eleven.run": run_file(7216, 7196),
    "page-twelve.run": run_file(7216, 7216),
    "page-twelve-damaged.run": run_file(7216, 7216, version=DAMAGED_VERSION, source=DAMAGED_SOURCE),
    "page-twelve-mended.run": run_file(7216, 7216, version=b"", source=MENDED_SOURCE),
    "page-azimuths.run": run_file(2147483644, 1, code=AZIMUTHS, source=pairs(AZIMUTH_PAIRS)),
    "page-timestamps.run": run_file(4294967046, 250, code=TIMESTAMPS, version=OLD_VERSION, source=pairs(TIMESTAMP_PAIRS)),
    "page-twelve-library.run": run_file(7216, 7216, code=CALLS_LIBRARY, source=pairs(CALLS_LIBRARY_PAIRS), imports=[LIBRARY_SID],
                                        relocation=[5]),  # the offset of CALL_E's library byte
    "page-twelve-library.libraries": b"%d=separation.run\n" % LIBRARY_SID,
    "separation.run": library_file([0, 1], SEPARATION, pairs(SEPARATION_PAIRS)),
}


if __name__ == "__main__":
    sys.exit(main(FOLDER, PAGES))
