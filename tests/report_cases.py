#!/usr/bin/env python3
"""Writes what the programs `printer` and `report_cases` are run on, and the pages that they must print.

    tests/report_cases.py            writes crates/printer/stdin, stdout and crates/report_cases/stdin, stdout
    tests/report_cases.py --check    compares them with what it would write, and changes nothing

The pages are 01's: its sample, its twelve plates, and a run file for each number that refuses one.
"""

import sys
from pathlib import Path

from stored import halfword, main, word

FOLDER = Path(__file__).resolve().parent.parent / "crates"


def record(code, globals_=0, source=(), version=b"", imports=0, tail=b""):
    code = bytes.fromhex(code)
    table = b"".join(word(number) for number in source)
    sizes = [imports, len(code), globals_, 0, 0, len(version) // 4, len(source)]
    return b"".join(word(size) for size in sizes) + bytes(4 * imports) + code + version + table + tail


def run_file(record, parameters=(), results=(0,), budget=1000, memory=64, stack=16, name=b"TRK", version=1):
    head = name + halfword(version) + bytes([len(results), *results, len(parameters)])
    return head + b"".join(word(n) for n in parameters) + word(budget) + halfword(memory) + halfword(stack) + record


def ended(end, at, steps, stack=(), globals_=(), line=0):
    lists = ["".join([letter, *(f" {n}" for n in words)]) for letter, words in (("s", stack), ("g", globals_))]
    return f"check 0\nend {end} at {at} line {line} steps {steps}\n{lists[0]}\n{lists[1]}\n"


SUBTRACT = "00 02 20 21 A1 52 E9"
MODULUS = "00 02 20 21 A5 52 E9"
LOOP = "00 02 8E 00 01 03 01 E0 00 08 21 20 A1 51 E1 E9"
SKIPPED = "00 02 8E 00 03 01 01 E0 00 08 21 20 A1 51 E1 E9"
RECURSION = "00 09 00 04 E8 00 00 71 E9 71 E9"
RETURN = "00 02 E9"

# "Case 3 below, with source pair (2, 12), memory 64, stack 16, budget 100, prints exactly":
SAMPLE = (
    run_file(record(MODULUS, globals_=3, source=(2, 12)), (7, 0), budget=100),
    "check 0\nend 30 at 4 line 12 steps 2\ns 7 0\ng 7 0 0\n",
)

PLATES = [
    (run_file(record(RETURN)), ended(0, 2, 1)),
    (run_file(record(SUBTRACT, 3), (9, 9)), ended(0, 6, 5, (), (9, 9, 0))),
    (run_file(record(MODULUS, 3), (7, 0)), ended(30, 4, 2, (7, 0), (7, 0, 0))),
    (run_file(record(MODULUS, 3), (7, 3)), ended(0, 6, 5, (), (7, 3, 1))),
    (run_file(record(LOOP, 2)), ended(0, 15, 21, (), (4, 2**32 - 6))),
    (run_file(record(SKIPPED, 2)), ended(0, 15, 6, (), (0, 0))),
    (run_file(record("00 02 A1 E9")), "check 15\n"),
    (run_file(record("00 02 DA 01 E9")), "check 12\n"),
    (run_file(record("00 02 01 E9")), "check 15\n"),
    (run_file(record("00 02")), "check 7\n"),
    (run_file(record(RECURSION), results=(0, 0), memory=131), ended(37, 7, 128)),
    (run_file(record(RECURSION), results=(0, 0), memory=10), ended(35, 7, 6)),
]

REFUSED = [
    (1, run_file(b"")),
    (1, run_file(record(RETURN)[:27])),
    (2, run_file(record(RETURN, globals_=1025))),
    (3, run_file(record(RETURN, tail=b"\0"))),
    (5, run_file(record(RETURN, version=b"3/- "))),
    (6, run_file(record(RETURN, source=(2,)))),
    (6, run_file(record(RETURN, source=(2, 1, 2, 2)))),
    (7, run_file(record("00 03 E9"))),
    # A page has no libraries.
    (17, run_file(record(RETURN, imports=1))),
    (18, run_file(record("00 02 E6 01 01 E9"))),
    (8, run_file(record(RETURN), parameters=(1,))),
    (8, run_file(record(RETURN), memory=2)),
    (8, run_file(record(RETURN), stack=1025)),
    (9, run_file(record(RETURN), results=(1,))),
    (9, run_file(record(RETURN), results=(0, 0))),
    (10, run_file(record("00 02 F5 FF E9"))),
    (11, run_file(record("00 02 E9 83 01"))),
    (12, run_file(record("00 02 DB 00 04 E9"))),
    (13, run_file(record("00 02 E8 01 00 E9"))),
    (14, run_file(record("00 02 E5 00 E9"))),
    (15, run_file(record("00 02 9E 01 E9"))),
    # Check before load: both refuse.
    (15, run_file(record("00 02 9E 01 E9"), stack=1025)),
    (16, b""),
    (16, run_file(record(RETURN), name=b"TRX")),
    (16, run_file(record(RETURN), version=2)),
    (16, run_file(b"")[:-1]),
    (16, run_file(record(RETURN), memory=4097)),
    (16, run_file(record(RETURN)).ljust(8193, b"\0")),
    # The longest run file is read: here its bytes after the record are too many.
    (3, run_file(record(RETURN)).ljust(8192, b"\0")),
]


def files():
    cases = [SAMPLE, *PLATES, *((file, f"check {number}\n") for number, file in REFUSED)]
    return {
        "printer/stdin": SAMPLE[0],
        "printer/stdout": SAMPLE[1].encode(),
        "report_cases/stdin": b"".join(halfword(len(file)) + file for file, _ in cases),
        "report_cases/stdout": "".join(page for _, page in cases).encode(),
    }


if __name__ == "__main__":
    sys.exit(main(FOLDER, files()))
