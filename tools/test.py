#!/usr/bin/env python3
"""Tests the program icode from outside.

    tools/test.py ICODE [PART ..]

The parts are the files of tools/tests that end in _tests.py; without any, all of them are run. Prints what fails, and exits with 1 then.
"""

import importlib
import sys
from pathlib import Path

FOLDER = Path(__file__).resolve().parent / "tests"
sys.path.insert(0, str(FOLDER))
from harness import Tests  # noqa: E402


def main():
    if len(sys.argv) < 2:
        print("usage: tools/test.py ICODE [PART ..]", file=sys.stderr)
        return 2
    program, parts = sys.argv[1], sys.argv[2:] or sorted(path.stem.removesuffix("_tests") for path in FOLDER.glob("*_tests.py"))
    failed = 0
    for part in parts:
        tests = Tests(program)
        importlib.import_module(f"{part}_tests").test(tests)
        print(f"{part}: {tests.passed} passed, {tests.failed} failed")
        failed += tests.failed
    return 1 if failed else 0


if __name__ == "__main__":
    sys.exit(main())
