#!/usr/bin/env python3
"""Tests the page printer from outside.

    tests/printer.py PRINTER FOLDER...

Each FOLDER has run files NAME.run with the pages NAME.out that are expected of them, byte for byte. The printer lends no libraries: where
there is NAME.libraries too, the page is that of an import which is not lent. Prints what fails, and exits with 1 then.
"""

import os
import subprocess
import sys
from pathlib import Path

MALFORMED = b"check 16\n"
NOT_LENT = b"check 17\n"


def printed(printer, file, **more):
    done = subprocess.run([printer], input=file, stdout=subprocess.PIPE, stderr=subprocess.PIPE, timeout=60, check=False, **more)
    return done.returncode, done.stdout, done.stderr


def page_of(page):
    return NOT_LENT if page.with_suffix(".libraries").exists() else page.with_suffix(".out").read_bytes()


def in_pieces(printer, file, size):
    """The input arrives a few bytes at a time: the printer reads it to its end."""
    with subprocess.Popen([printer], stdin=subprocess.PIPE, stdout=subprocess.PIPE) as child:
        for start in range(0, len(file), size):
            child.stdin.write(file[start : start + size])
            child.stdin.flush()
        child.stdin.close()
        return child.stdout.read()


def with_output(printer, file, **output):
    """The exit status and the message where standard output cannot be written."""
    done = subprocess.run([printer], input=file, stderr=subprocess.PIPE, timeout=60, check=False, **output)
    return done.returncode, done.stderr


def outside(printer, page, report):
    """What surrounds a page: short reads, inputs that are no run file or cannot be read, outputs that cannot be written."""
    file = page.read_bytes()
    yield "a byte at a time", in_pieces(printer, file, 1), report
    yield "an empty input", printed(printer, b"")[1], MALFORMED
    yield "8,192 bytes", printed(printer, file.ljust(8192, b"\0"))[1], b"check 3\n"
    yield "8,193 bytes", printed(printer, file.ljust(8193, b"\0"))[1], MALFORMED
    yield "a long input in pieces", in_pieces(printer, file.ljust(8193, b"\0"), 1000), MALFORMED
    message = b"printer: the page could not be written\n"
    with open("/dev/full", "wb") as full:
        yield "a full output", with_output(printer, file, stdout=full), (0, message)
    yield "a closed output", with_output(printer, file, stdout=None, preexec_fn=lambda: os.close(1)), (0, message)
    unread = (0, b"", b"printer: the input could not be read\n")
    folder = os.open(page.parent, os.O_RDONLY)
    yield "a folder as input", printed(printer, None, stdin=folder), unread
    os.close(folder)
    yield "a closed input", printed(printer, None, stdin=None, preexec_fn=lambda: os.close(0)), unread


def main():
    if len(sys.argv) < 3:
        print("usage: tests/printer.py PRINTER FOLDER...", file=sys.stderr)
        return 2
    printer = os.path.abspath(sys.argv[1])
    pages = sorted(page for folder in sys.argv[2:] for page in Path(folder).glob("*.run"))
    if not pages:
        print("no pages", file=sys.stderr)
        return 2
    cases = [(page, printed(printer, page.read_bytes()), (0, page_of(page), b"")) for page in pages]
    cases += outside(printer, pages[0], pages[0].with_suffix(".out").read_bytes())
    failed = 0
    for name, found, expected in cases:
        if found != expected:
            failed += 1
            print(f"FAILED: {name}: {found}")
    print(f"printer: {len(pages)} pages; {len(cases) - failed} passed, {failed} failed")
    return 1 if failed else 0


if __name__ == "__main__":
    sys.exit(main())
