#!/usr/bin/env python3
"""Tests the console from outside.

    console/test.py CONSOLE FOLDER...

Each FOLDER has run files NAME.run with the reports NAME.out that are expected of them, byte for byte. Where there is NAME.libraries too,
the report is that with these libraries: SID=FILE, one in a line, each FILE beside it. Prints what fails, and exits with 1 then.
"""

import os
import re
import subprocess
import sys
import tempfile
from pathlib import Path

FINISHED = re.compile(rb"check 0\nend 0 ")
ENDED = re.compile(rb"check 0\nend (\d+) at (\d+) line (\d+) steps (\d+)(?: module \d+)?\n")
MEANINGS = {1: "record under 28 bytes", 8: "load: more parameters than globals", 15: "some region has no picture",
            16: "run file malformed or too long",
            17: "an import not among the lent libraries, two libraries under one SID, or over 16 modules",
            18: "relocation entries not just the library bytes of the cut external instructions, or such a byte 0 or past the imports"}
TRAPS = {30: "zero divisor", 31: "number does not fit", 32: "not live", 33: "protected", 34: "not a boolean", 35: "memory full",
         36: "stack full", 37: "64 calls", 38: "FREE below FP"}


class Tests:
    def __init__(self, console):
        self.console = console
        self.passed = 0
        self.failures = []

    def run(self, *arguments, **more):
        more.setdefault("stdin", subprocess.DEVNULL)
        if "input" in more:
            del more["stdin"]
        more.setdefault("stdout", subprocess.PIPE)
        done = subprocess.run([self.console, *arguments], stderr=subprocess.PIPE, timeout=60, **more)
        return done.returncode, done.stdout, done.stderr.decode()

    def expect(self, name, holds, seen=None):
        if holds:
            self.passed += 1
        else:
            self.failures.append(name)
            print(f"FAILED: {name}: {seen}")

    def expect_usage_error(self, name, *arguments, words):
        status, out, err = self.run(*arguments)
        good = status == 2 and out == b"" and words in err and "usage: console" in err
        self.expect(name, good, (status, out, err))


def explained(report, err):
    """Whether the message is the one that belongs to the report: none for a finish, else one line with the number and the place."""
    if FINISHED.match(report):
        return err == ""
    if err.count("\n") != 1:
        return False
    ended = ENDED.match(report)
    if not ended:
        number = int(report.split()[1])
        return f": refused with {number}: {MEANINGS.get(number, '')}" in err
    end, at, line, steps = map(int, ended.groups())
    source = f"source line {line}" if line else "no source line"
    if end == 1:
        return f": spent after {steps} steps; next is offset {at}, {source}\n" in err
    return f": trap {end}: {TRAPS[end]}; at offset {at}, {source}\n" in err


def check_line(report):
    """What --check-only prints: 8 is the load's, so check accepted."""
    number = int(report.split()[1])
    return 0 if number == 8 else number


def libraries_of(page):
    """The options that lend a page its libraries; none for most."""
    listed = page.with_suffix(".libraries")
    rows = [line.split("=", 1) for line in listed.read_text().splitlines()] if listed.exists() else []
    return [word for sid, name in rows for word in ("--library", f"{sid}={page.parent / name}")]


def test_page(tests, page):
    report = page.with_suffix(".out").read_bytes()
    expected = 0 if FINISHED.match(report) else 1
    libraries = libraries_of(page)
    status, out, err = tests.run(*libraries, page)
    tests.expect(page, (status, out) == (expected, report) and explained(report, err), (status, out, err))
    status, out, err = tests.run(*libraries, "-", input=page.read_bytes())
    named = err == "" or err.startswith("console: standard input: ")
    tests.expect(f"{page} from standard input", (status, out) == (expected, report) and named, (status, out, err))
    number = check_line(report)
    status, out, err = tests.run("--check-only", page, *libraries)
    good = (status, out) == (min(number, 1), b"check %d\n" % number) and err.count("\n") == min(number, 1)
    tests.expect(f"--check-only {page}", good, (status, out, err))


def test_all_pages(tests, pages):
    reports = [page.with_suffix(".out").read_bytes() for page in pages]
    status, out, err = tests.run(*pages)
    expected = b"".join(bytes(page) + b"\n" + report for page, report in zip(pages, reports))
    unfinished = sum(not FINISHED.match(report) for report in reports)
    tests.expect("all pages at once", (status, out) == (min(unfinished, 1), expected), (status, len(out)))
    tests.expect("a message for each page that did not finish", err.count("\n") == unfinished, err)
    expected = b"".join(b"%s\ncheck %d\n" % (bytes(page), check_line(report)) for page, report in zip(pages, reports))
    status, out, err = tests.run("--check-only", *pages)
    tests.expect("--check-only, all pages at once", out == expected, out)


def test_usage(tests, page, report):
    tests.expect_usage_error("no arguments", words="no file is given")
    tests.expect_usage_error("no file", "--check-only", words="no file is given")
    tests.expect_usage_error("no file after --", "--", words="no file is given")
    tests.expect_usage_error("unknown option", "--fast", page, words="unknown option '--fast'")
    tests.expect_usage_error("short option", "-c", page, words="unknown option '-c'")
    tests.expect_usage_error("standard input twice", "-", "-", words="only once")
    for option, begins in (("--help", b"usage: console"), ("--version", b"console ")):
        status, out, err = tests.run(option)
        tests.expect(option, status == 0 and out.startswith(begins) and err == "", (status, out, err))
    for arguments in ((page, "--check-only"), ("--check-only", "--", page), ("--check-only", "--check-only", page)):
        status, out, err = tests.run(*arguments)
        tests.expect(f"{arguments}", (status, out) == (0, b"check 0\n"), (status, out, err))
    status, out, err = tests.run(page, page)
    expected = (bytes(page) + b"\n" + report) * 2
    tests.expect("the same file twice", out == expected, out)


def test_inputs(tests, page, report, folder):
    (folder / "empty").write_bytes(b"")
    (folder / "-named").write_bytes(page.read_bytes())
    (folder / "long").write_bytes(page.read_bytes().ljust(100_000, b"\0"))
    (folder / "full").write_bytes(page.read_bytes().ljust(8_192, b"\0"))
    for name, number in (("empty", 16), ("long", 16), ("full", 3)):
        for option in ((), ("--check-only",)):
            status, out, err = tests.run(*option, folder / name)
            good = (status, out) == (1, b"check %d\n" % number) and f"refused with {number}: " in err
            tests.expect(f"{name} file {option}", good, (status, out, err))
    status, out, err = tests.run("--", "-named", cwd=folder)
    tests.expect("a file named -named", out == report, (status, out, err))
    for name, reason in ((folder / "missing", "No such file or directory"), (folder, "Is a directory"),
                         ("", "No such file or directory"), (folder / "empty" / "x", "Not a directory")):
        status, out, err = tests.run(name)
        good = (status, out) == (2, b"") and err == f"console: cannot read '{name}': {reason}\n"
        tests.expect(f"'{name}'", good, (status, out, err))
        status, out, err = tests.run(page, name, page)
        good = status == 2 and out == (bytes(page) + b"\n" + report) * 2 and f"'{name}': {reason}" in err
        tests.expect(f"the others are done beside '{name}'", good, (status, out, err))
    status, out, err = tests.run("-", stdin=None, preexec_fn=lambda: os.close(0))
    good = (status, out) == (2, b"") and "cannot read 'standard input': Bad file descriptor" in err
    tests.expect("closed standard input", good, (status, out, err))
    status, out, err = tests.run("-", page, input=page.read_bytes())
    tests.expect("standard input and a file", out == b"-\n" + report + bytes(page) + b"\n" + report, out)


def test_slow_pipe(tests, page, report):
    """Input that arrives a byte at a time is read to its end."""
    read, write = os.pipe()
    child = subprocess.Popen([tests.console, "-"], stdin=read, stdout=subprocess.PIPE, stderr=subprocess.DEVNULL)
    os.close(read)
    for byte in page.read_bytes():
        os.write(write, bytes([byte]))
    os.close(write)
    out = child.communicate(timeout=60)[0]
    tests.expect("input a byte at a time", out == report, out)


def largest_page():
    """A run file whose report has 1,024 globals and 1,024 stack words, all of ten digits; and that report."""
    fill = bytes([0x8D, 0, 0x00, 0x83, 3, 0xFF, 0x01,            # LOAD_A_L.b 0, LOAD_C.0, LOAD_C.h 1023, LOAD_C.1
                  0xE0, 0, 11, 0x8E, 0, 0x10, 0xA8, 0x82, 0xFF,  # ITER, LOAD_A_G.b 0, LOAD_L.0, ADD_U, LOAD_C.b -1
                  0x60, 0xE1])                                   # STOR_F.0, NEXT
    recursive = bytes([0xE8, 0, 0]) + 125 * bytes([0xF5, 0x20]) + bytes([0x71, 0x9E, 250, 0xE9])  # ENTER, pushes, CALL.1, POP, RTN
    main = 4 + len(recursive)
    code = main.to_bytes(2, "big") + bytes([0, 4]) + recursive + bytes([0xE8, 0, 1]) + fill + bytes([0x71, 0xE9])
    line = 4_294_967_295
    header = [0, len(code), 1024, 0, 0, 0, 2]
    record = b"".join(n.to_bytes(4, "big") for n in header) + code + (0).to_bytes(4, "big") + line.to_bytes(4, "big")
    head = b"TRK\0\1\2\0\0\0" + (1_000_000).to_bytes(4, "big") + (4096).to_bytes(2, "big") + (1024).to_bytes(2, "big")
    # main: ENTER, four loads, ITER, 1,024 rounds of six, CALL; then four levels of ENTER, 125 pushes and CALL; then ENTER and 12 pushes
    steps = 1 + 4 + 1 + 1024 * 6 + 1 + 4 * 127 + 1 + 12
    words = b" 4294967295" * 1024
    report = b"check 0\nend 36 at %d line %d steps %d\ns%s\ng%s\n" % (4 + 3 + 2 * 12, line, steps, words, words)
    return head + record, report


def test_largest(tests):
    file, report = largest_page()
    status, out, err = tests.run("-", input=file)
    tests.expect("largest report", (status, out) == (1, report) and "trap 36: stack full" in err, (status, out[:80], err))


def small_file(code, results=b"\0", parameters=0, memory=64, stack=16, pairs=(), imports=(), relocation=()):
    """A run file with two globals and a constant, and any code."""
    words = lambda numbers: b"".join(number.to_bytes(4, "big") for number in numbers)
    source, imports, relocation = words(number for pair in pairs for number in pair), words(imports), words(relocation)
    header = words((len(imports) // 4, len(code), 2, 1, len(relocation) // 4, 0, len(source) // 4))
    lists = bytes([len(results)]) + results + bytes([parameters]) + bytes(4 * parameters)
    sizes = (100).to_bytes(4, "big") + memory.to_bytes(2, "big") + stack.to_bytes(2, "big")
    return b"TRK\0\1" + lists + sizes + header + imports + code + bytes(4) + relocation + source


def test_reasons(tests):
    """What is behind a refusal: the rule of the run file, the causes of the load, the first instruction with its place."""
    sound = bytes([0, 2, 0xE9])
    two = bytes([0, 8, 0, 4, 0xE8, 0, 0, 0xE9])  # procedure 1 is ENTER and RTN; procedure 0 begins at 8
    switch = bytes([0, 2, 0x00, 0xE2, 0, 0, 0, 10, 0, 9, 0, 9, 0xE4, 0xE9])  # SWITCH at 3, LEAVE at 12, RTN at 13
    search = bytes([0, 2, 0x00, 0xE3, 0, 1, 0, 18, 0, 17]) + bytes(8) + bytes([0, 0, 0xE4, 0xE9])  # SWITCH_X with ELSE as its range
    cases = [
        (16, b"", "it does not begin with TRK and version 1"), (16, b"TRK\0\2" + bytes(60), "it does not begin with TRK and version 1"),
        (16, b"TRK\0\1\1", "it ends inside its head"), (16, b"TRK\0\1" + bytes(8188), "it is longer than 8,192 bytes"),
        (16, small_file(sound, memory=4097), "it asks for more than 4,096 words of memory"),
        (8, small_file(sound, parameters=3), "parameters 3, globals 2"), (8, small_file(sound, memory=5), "memory 5, 3+g+c is 6"),
        (8, small_file(sound, stack=1025), "stack 1025"),
        (8, small_file(sound, parameters=3, memory=0, stack=65535), "parameters 3, globals 2, memory 0, 3+g+c is 6, stack 65535"),
        (12, small_file(bytes([0, 2, 0xDA, 1, 0xE9]), pairs=[(2, 7)]), "at offset 2, source line 7: it leads to 3"),
        (12, small_file(bytes([0, 2, 0xDA, 0xFD, 0xE9])), "at offset 2, no source line: it leads to -1"),
        (12, small_file(bytes([0, 2, 0xFF])), "at offset 2, no source line: it leads to 3"),
        (12, small_file(two + bytes([0xDA, 0xFC, 0xE9]), b"\0\0"),
         "at offset 8, no source line: it leads to 4, where no instruction of procedure 0 begins"),
        (12, small_file(switch.replace(bytes([0, 10, 0, 9]), bytes([0, 11, 0, 9]))), "at offset 3, no source line: it leads to 14"),
        (12, small_file(search.replace(bytes([0, 18, 0, 17]), bytes([0, 18, 0, 16]))), "at offset 3, no source line: it leads to 19"),
        (13, small_file(two.replace(b"\xE8\0\0", b"\xFF\xFF\xFF") + b"\xE9", b"\0\0"),
         "at offset 4, no source line: procedure 1 does not begin with ENTER"),
        (13, small_file(bytes([0, 2, 0xFF, 0xE8, 0, 0, 0xE9])), "at offset 3, no source line: procedure 0 has an ENTER inside"),
        (13, small_file(bytes([0, 2, 0xE8, 1, 0, 0xE9])), "at offset 2, no source line: procedure 0 has an ENTER with parameters"),
        (14, small_file(two + bytes([0x72, 0xE9]), b"\0\0"), "at offset 8, no source line: it calls procedure 2 of 2"),
        (14, small_file(two + bytes([0xE5, 0, 0xE9]), b"\0\0"), "at offset 8, no source line: it calls procedure 0 of 2"),
    ]
    for number, file, words in cases:
        status, out, err = tests.run("-", input=file)
        good = (status, out) == (1, b"check %d\n" % number) and err.count("\n") == 1
        good = good and f": refused with {number}: " in err and f"; {words}" in err
        tests.expect(f"reason for {number}: {words}", good, (status, out, err))
    for code, results in ((switch, b"\0"), (search, b"\0"), (two + b"\xE9", b"\0\0")):
        status, out, err = tests.run("-", input=small_file(code, results))
        tests.expect(f"accepted: {code.hex()}", (status, err) == (0, ""), (status, out, err))


# Procedure 1 divides its parameter by global 0, then procedure 0 returns; and main modules that use it.
DIVIDES = bytes([0, 11, 0, 4, 0xE8, 1, 0, 0x10, 0x20, 0xA3, 0xE9, 0xE9])
LIBRARY = small_file(DIVIDES, b"\0\1", pairs=[(4, 7), (9, 8)])
CALLS = bytes([0, 2, 0x06, 0xE6, 1, 1, 0x50, 0xE9])                     # LOAD_C.6, CALL_E 1, 1, STOR_G.0, RTN
STORES = bytes([0, 2, 0x03, 0x98, 1, 0]) + CALLS[2:7] + bytes([0x89, 1, 0, 0x51, 0xE9])  # and STOR_E, LOAD_E of its global 0
TRAPPED = b"check 0\nend 30 at 9 line 8 steps 5 module 1\ns 6 0\ng 0 0\n"
FILLED = b"check 0\nend 0 at 15 line 0 steps 13 module 0\ns\ng 2 3\n"


class Modules:
    """Files of a main module and of libraries, in a folder."""

    def __init__(self, tests, folder):
        self.tests, self.folder = tests, folder

    def run(self, main, libraries, *options):
        """Runs a main module with libraries, each a SID and bytes; its file is named like the SID."""
        (self.folder / "main").write_bytes(main)
        for at, (sid, content) in enumerate(libraries):
            (self.folder / f"{at}-{sid}").write_bytes(content)
        lent = [word for at, (sid, _) in enumerate(libraries) for word in ("--library", f"{sid}={at}-{sid}")]
        return self.tests.run(*lent, "main", *options, cwd=self.folder)

    def expect(self, name, main, libraries, status, page, words):
        found = self.run(main, libraries)
        good = found[:2] == (status, page) and found[2].count("\n") == (words != "") and words in found[2]
        self.tests.expect(name, good, found)


def test_libraries(tests, folder):
    """Pages with libraries: values through CALL_E, STOR_E and LOAD_E, the module and the line of the end."""
    modules = Modules(tests, folder)
    main = small_file(CALLS, imports=[7], relocation=[4])
    place = "console: main: trap 30: zero divisor; at offset 9, source line 8, in library"
    modules.expect("trap in a library", main, [(7, LIBRARY)], 1, TRAPPED, f"{place} 7, 0-7\n")
    modules.expect("SID in hex", main, [("0x7", LIBRARY)], 1, TRAPPED, f"{place} 7, 0-0x7\n")
    second = TRAPPED.replace(b"module 1", b"module 2")
    modules.expect("second library", main, [(9, LIBRARY), (7, LIBRARY)], 1, second, f"{place} 7, 1-7\n")
    stores = small_file(STORES, imports=[7], relocation=[4, 8, 12])
    modules.expect("globals of a library", stores, [(7, LIBRARY)], 0, FILLED, "")
    modules.expect("SID 4294967295", small_file(CALLS, imports=[2**32 - 1], relocation=[4]), [("0xFFFFffff", LIBRARY)], 1, TRAPPED,
                   f"{place} 4294967295, 0-0xFFFFffff\n")
    spent = small_file(CALLS, imports=[7], relocation=[4]).replace((100).to_bytes(4, "big"), (4).to_bytes(4, "big"))
    modules.expect("spent in a library", spent, [(7, LIBRARY)], 1, b"check 0\nend 1 at 8 line 7 steps 4 module 1\ns 6\ng 0 0\n",
                   "spent after 4 steps; next is offset 8, source line 7, in library 7, 0-7\n")
    unused = small_file(bytes([0, 2, 0xE9]), memory=96)
    finished = b"check 0\nend 0 at 2 line 0 steps 1 module 0\ns\ng 0 0\n"
    modules.expect("15 libraries that nobody imports", unused, [(sid, unused) for sid in range(15)], 0, finished, "")
    status, out, err = modules.run(main, [(7, LIBRARY)], "--check-only")
    tests.expect("--check-only with a library", (status, out, err) == (0, b"check 0\n", ""), (status, out, err))
    status, out, err = modules.run(main, [(7, LIBRARY)], "main")
    tests.expect("two files with a library", (status, out) == (1, (b"main\n" + TRAPPED) * 2), (status, out, err))
    status, out, err = tests.run("main", "--library", "7=-", cwd=folder, input=LIBRARY)
    tests.expect("library from standard input", out == TRAPPED and "in library 7, standard input\n" in err, (status, out, err))
    status, out, err = tests.run("--library", "7=0-7", folder / "none", "main", cwd=folder)
    tests.expect("a page beside a missing one", status == 2 and out == b"main\n" + TRAPPED and "No such file" in err, (status, out, err))
    modules.expect("main module that is no run file", b"TRK", [(7, LIBRARY)], 1, b"check 16\n", "does not begin with TRK and version 1\n")


def test_library_refusals(tests, folder):
    """The number, and the module that is to blame."""
    modules = Modules(tests, folder)
    main = small_file(CALLS, imports=[7], relocation=[4])
    body = bytes([0, 2, 0xE9])
    plain = small_file(body, memory=96)
    cases = [
        (17, main, [], "import 1 is SID 7, which no --library lends"), (17, main, [(8, LIBRARY)], "import 1 is SID 7, which no"),
        (17, main, [(7, small_file(body, imports=[7, 5]))], "in library 7, 0-7; import 2 is SID 5, which no"),
        (17, main, [(7, LIBRARY), (7, plain)], "SID 7 is lent twice"),
        (17, main, [(sid, LIBRARY) for sid in range(16)], "there are 17 modules, the main one with them"),
        (18, small_file(CALLS, imports=[7]), [(7, LIBRARY)], "at offset 3, no source line: its library byte has no"),
        (18, small_file(CALLS, imports=[7], relocation=[4, 5]), [(7, LIBRARY)], "relocation entry 2 is 5, where no external instruction"),
        (18, small_file(CALLS, relocation=[4]), [(7, LIBRARY)], "at offset 3, no source line: it names library 1 of 0 imports"),
        (18, main, [(7, small_file(body, relocation=[2**32 - 1]))], "in library 7, 0-7; relocation entry 1 is 4294967295, where no"),
        (18, small_file(CALLS), [], "it names library 1 of 0 imports"),
        (1, main, [(7, LIBRARY), (8, plain[:40])], "in library 8, 1-8\n"), (3, main, [(7, plain[:-1])], "in library 7, 0-7\n"),
        (9, main, [(7, small_file(DIVIDES, b"\0"))], "in library 7, 0-7\n"),
        (10, main, [(7, small_file(bytes([0, 2, 0xFE])))], "in library 7, 0-7\n"),
        (11, main, [(7, small_file(bytes([0, 2, 0x83])))], "in library 7, 0-7\n"),
        (12, main, [(7, small_file(bytes([0, 2, 0xFF])))], "in library 7, 0-7; at offset 2, no source line: it leads to 3"),
        (14, main, [(7, plain)], "at offset 3, no source line: it calls procedure 1 of 1 in library 1, SID 7\n"),
        (15, plain, [(7, LIBRARY), (8, small_file(DIVIDES, b"\0\2"))], "in library 8, 1-8\n"),
        (15, main, [(7, small_file(DIVIDES, b"\0\2"))], "main: refused with 15: some region has no picture\n"),
        (8, small_file(CALLS, imports=[7], relocation=[4], memory=11), [(7, LIBRARY)], "memory 11, 3+g+c of all modules is 12\n"),
        (8, small_file(CALLS, imports=[7], relocation=[4], stack=65535), [(7, LIBRARY)], "stack 65535\n"),
    ]
    for number, content, libraries, words in cases:
        modules.expect(f"{number} with libraries: {words}", content, libraries, 1, b"check %d\n" % number, words)
        found = modules.run(content, libraries)[2]
        tests.expect(f"{number}: {found}", f"main: refused with {number}: {MEANINGS.get(number, '')}" in found, found)


def test_library_usage(tests, page, folder):
    (folder / "library").write_bytes(LIBRARY)
    (folder / "long").write_bytes(LIBRARY.ljust(8193, b"\0"))
    (folder / "record").write_bytes(LIBRARY[16:])
    for text, words in (("7", "is not SID=FILE"), ("", "is not SID=FILE"), ("7=", "has no FILE behind the ="), ("=library", "has no SID"),
                        ("x=library", "has no SID"), ("-1=library", "has no SID"), ("4294967296=library", "from 0 to 4294967295"),
                        ("0x=library", "has no SID"), ("0x1g=library", "has no SID"), ("7 =library", "has no SID"),
                        ("1a=library", "has no SID"), ("18446744073709551617=library", "has no SID")):
        tests.expect_usage_error(f"--library '{text}'", "--library", text, page, words=words)
    tests.expect_usage_error("--library at the end", page, "--library", words="--library needs SID=FILE behind it")
    tests.expect_usage_error("--library with =", "--library=7=library", page, words="unknown option '--library=7=library'")
    tests.expect_usage_error("no file beside a library", "--library", f"7={folder / 'library'}", words="no file is given")
    tests.expect_usage_error("standard input twice, in a library", "--library", "7=-", "-", words="only once")
    for name, words in (("missing", "cannot read 'missing': No such file or directory"), (".", "cannot read '.': Is a directory"),
                        ("long", "library long is no run file: it is longer than 8,192 bytes"),
                        ("record", "library record is no run file: it does not begin with TRK and version 1")):
        status, out, err = tests.run("--library", f"7={name}", page, cwd=folder)
        tests.expect(f"library {name}", (status, out, err) == (2, b"", f"console: {words}\n"), (status, out, err))


def test_outputs(tests, page):
    read, write = os.pipe()
    os.close(read)
    lent = ("--library", f"7={page}")
    for arguments in ((page,), (page, page), ("--check-only", page), ("--help",), ("--version",), (*lent, page), (*lent, page, page),
                      ("--check-only", page, *lent)):
        with open("/dev/full", "wb") as full:
            outputs = [("full", "No space left on device", {"stdout": full}), ("closed pipe", "Broken pipe", {"stdout": write}),
                       ("closed", "Bad file descriptor", {"stdout": None, "preexec_fn": lambda: os.close(1)})]
            for name, reason, output in outputs:
                status, _, err = tests.run(*arguments, **output)
                good = status == 2 and err == f"console: cannot write to standard output: {reason}\n"
                tests.expect(f"{arguments} to {name} output", good, (status, err))
    os.close(write)


def main():
    if len(sys.argv) < 3:
        print("usage: console/test.py CONSOLE FOLDER...", file=sys.stderr)
        return 2
    tests = Tests(os.path.abspath(sys.argv[1]))
    pages = sorted(page.resolve() for folder in sys.argv[2:] for page in Path(folder).glob("*.run"))
    finished = [page for page in pages if FINISHED.match(page.with_suffix(".out").read_bytes())]
    if not finished:
        print("no page that finishes", file=sys.stderr)
        return 2
    for page in pages:
        test_page(tests, page)
    test_all_pages(tests, [page for page in pages if not libraries_of(page)])
    page, report = finished[0], finished[0].with_suffix(".out").read_bytes()
    test_usage(tests, page, report)
    with tempfile.TemporaryDirectory() as folder:
        test_inputs(tests, page, report, Path(folder))
        test_libraries(tests, Path(folder))
        test_library_refusals(tests, Path(folder))
        test_library_usage(tests, page, Path(folder))
    test_slow_pipe(tests, page, report)
    test_largest(tests)
    test_reasons(tests)
    test_outputs(tests, page)
    print(f"console: {len(pages)} pages; {tests.passed} passed, {len(tests.failures)} failed")
    return 1 if tests.failures else 0


if __name__ == "__main__":
    sys.exit(main())
