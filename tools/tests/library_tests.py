"""Libraries: the stored checks of sets, pages, traces and listings with libraries, refusals by the module behind them, and the texts."""

import random
import re
import tempfile
from pathlib import Path
from harness import *
from mutants_tests import damage

# Procedure 1 divides its parameter by global 0; procedure 0 returns.
DIVIDES = bytes([0, 11, 0, 4, 0xE8, 1, 0, 0x10, 0x20, 0xA3, 0xE9, 0xE9])
LIBRARY = run_file_of(record_of(DIVIDES, source=word_bytes([4, 7, 9, 8]), globals_=1), results=b"\0\1")
CALLS = bytes([0, 2, 0x06, 0xE6, 1, 1, 0x50, 0xE9])  # LOAD_C.6, CALL_E 1, 1, STOR_G.0, RTN
SOUND = bytes([0, 2, 0xE9])
LONGEST = 8192  # bytes of a run file
SEED = 7
DAMAGED = 300  # pairs of modules


def main_file(code=CALLS, imports=(7,), relocation=(4,), **head):
    return run_file_of(record_of(code, globals_=1, imports=imports, relocation=relocation), **head)


class Folder:
    """A main module and libraries in a folder."""

    def __init__(self, tests, folder):
        self.tests, self.folder = tests, folder

    def run(self, command, main, *libraries):
        """Runs a command on a main module with libraries, each a SID and bytes."""
        (self.folder / "main").write_bytes(main)
        for at, (_, content) in enumerate(libraries):
            (self.folder / f"lent{at}").write_bytes(content)
        options = [word for at, (sid, _) in enumerate(libraries) for word in ("--library", f"{sid}=lent{at}")]
        return self.tests.run(*command, *options, "main", cwd=self.folder)


def test_pages(tests, folder):
    for path in sorted(EXAMPLES.glob("*.libraries")):
        page = path.with_suffix(".run")
        status, out, err = tests.run("page", *libraries_of(page), page)
        tests.expect(page.name, out == page.with_suffix(".out").read_text() and err.count("\n") == 1, (status, out, err))
    lent = Folder(tests, folder)
    status, out, err = lent.run(("page",), main_file(), (7, LIBRARY))
    good = (status, out) == (1, "check 0\nend 30 at 9 line 8 steps 5 module 1\ns 6 0\ng 0\n")
    sentence = "icode: main: trap 30: zero divisor at source line 8 of library 7, lent0: DIV_I found 6 and 0\n"
    tests.expect("trap in a library", good and err == sentence, (status, out, err))
    status, out, err = lent.run(("page", "--signed"), main_file(budget=2), ("0x09", LIBRARY), (7, LIBRARY))
    sentence = "icode: main: spent after 2 steps; next is ENTER 1, 0 at source line 7 of library 7, lent1\n"
    good = (status, out) == (1, "check 0\nend 1 at 4 line 7 steps 2 module 2\ns 6\ng 0\n") and err == sentence
    tests.expect("spent in the second library", good, (status, out, err))
    status, out, err = lent.run(("page",), main_file(budget=1), (7, LIBRARY))
    tests.expect("next is a call", "next is CALL_E 1, 1 -> SID 7, procedure 1 at offset 3\n" in err, (status, out, err))
    status, out, err = lent.run(("page",), b"TRK", (7, LIBRARY))
    tests.expect("main module that is no run file", (status, out) == (1, "check 16\n") and "refused with 16: " in err, (status, out, err))


def test_trace_and_list(tests, folder):
    lent = Folder(tests, folder)
    stores = bytes([0, 2, 0x03, 0x98, 1, 0]) + CALLS[2:7] + bytes([0x91, 1, 0, 0x9E, 1, 0x89, 1, 0, 0x50, 0xE9])
    status, out, err = lent.run(("trace",), main_file(stores, relocation=(4, 8, 12, 17)), (7, LIBRARY))
    rows = ("     2     0      0      3  0 (0 to 20)        STOR_E 1, 0                -\n       memory 7, global 0 of module 1: 0 -> 3\n",
            "       memory 8, link: 0 -> 3\n       memory 9, link: 0 -> 8\n       memory 10, link: 0 -> 4294967286\n",
            "     5     1      1      4  7 (4 to 8)         ENTER 1, 0                 -\n       memory 11, local 0: 0 -> 6\n",
            "     8     1      1      9  8 (9 to 11)        DIV_I                      2\n",
            "    11     0      0     11  0 (0 to 20)        LOAD_A_E 1, 0              7\n", "\nend 0 at 20 line 0 steps 15 module 0\n")
    tests.expect("trace", status == 0 and all(row in out for row in rows), (status, out, err))
    status, out, err = lent.run(("list",), main_file(), (7, LIBRARY))
    rows = ("\n  import     1: SID 7, lent0\n  relocation offset 4: CALL_E 1, 1 at 3\n",
            "\ncheck 0: accepted\ntrap 30 at 9, in line 8 from 9 to 11 of library 7, lent0: zero divisor\n",
            "\n     3          0      1      -  CALL_E 1, 1 -> SID 7, procedure 1  e6 01 01\n")
    tests.expect("list", status == 1 and all(row in out for row in rows) and marked(out) == "", (status, out, err))
    status, out, err = tests.list(main_file(relocation=(4, 9)))
    rows = ("\n  import     1: SID 7, not lent\n  relocation offset 4: CALL_E 1, 1 at 3\n  relocation offset 9: stray, at no library byte\n",
            "\ncheck 17: ")
    tests.expect("list without the library", status == 1 and all(row in out for row in rows), (status, out, err))


def test_refusals(tests, folder):
    """The number and the reason, from list, page, trace and mend alike; a library is named where it is to blame."""
    library = lambda code, results=b"\0", **parts: run_file_of(record_of(code, **parts), results=results)
    cases = [
        (17, "import 1 is SID 7, which no --library lends", main_file(), [(8, LIBRARY)]),
        (17, "library 7, lent0: import 2 is SID 5, which no --library lends", main_file(), [(7, library(SOUND, imports=[7, 5]))]),
        (17, "SID 7 is lent twice", main_file(), [(7, LIBRARY), (7, LIBRARY)]),
        (17, "17 modules, at most 16", main_file(), [(sid, LIBRARY) for sid in range(16)]),
        (18, "offset 3: CALL_E 1, 1 has no relocation entry for its library byte at 4", main_file(relocation=()), [(7, LIBRARY)]),
        (18, "library 7, lent0: relocation entry 1 is 2, where no external instruction has its library byte", main_file(),
         [(7, library(SOUND, relocation=[2]))]),
        (1, "library 8, lent1: it has 3 bytes", main_file(), [(7, LIBRARY), (8, run_file_of(SOUND))]),
        (7, "library 7, lent0: the code has 1 byte", main_file(), [(7, library(b"\0"))]),
        (9, "library 7, lent0: 1 number for 2 procedures", main_file(), [(7, library(DIVIDES))]),
        (10, "library 7, lent0: offset 2: code 9b, which is not served", main_file(), [(7, library(bytes([0, 2, 0x9B])))]),
        (12, "library 7, lent0: offset 2: NOP is the last of procedure 0, and goes on behind it", main_file(),
         [(7, library(bytes([0, 2, 0xFF])))]),
        (14, "offset 3: CALL_E 1, 1 -> SID 7, procedure 1, and there are only the procedures 0 to 0", main_file(), [(7, library(SOUND))]),
        (14, "offset 3: CALL_E 1, 0 -> SID 7, procedure 0, which cannot be called", main_file(CALLS[:5] + b"\0" + CALLS[6:]), [(7, LIBRARY)]),
        (15, "library 8, lent1: procedure 1, from offset 4 to 10", main_file(), [(7, LIBRARY), (8, library(DIVIDES, b"\0\2", globals_=1))]),
        (15, "procedure 0, from offset 2 to 7", main_file(), [(7, library(DIVIDES, b"\0\0", globals_=1))]),
        (8, "memory 7 words, under 8, the 3+g+c of all modules", main_file(memory=7), [(7, LIBRARY)]),
    ]
    lent = Folder(tests, folder)
    for number, reason, main, libraries in cases:
        status, out, err = lent.run(("page",), main, *libraries)
        good = (status, out) == (1, f"check {number}\n") and f"main: refused with {number}: " in err and err.endswith(f": {reason}\n")
        tests.expect(f"page, {number}: {reason}", good, (status, out, err))
        tests.expect(f"trace, {number}: {reason}", lent.run(("trace",), main, *libraries) == (1, "", err))
        status, out, _ = lent.run(("list",), main, *libraries)
        tests.expect(f"list, {number}: {reason}", status == 1 and f"\ncheck {number}: " in out and f"\n  {reason}\n" in out, out)
        _, out, _ = lent.run(("mend", "--dry-run"), main, *libraries)
        tests.expect(f"mend, {number}: {reason}", mend_numbers(out) == [number, number] and reason in out, out)


def test_checks(tests, folder):
    """The stored checks of main modules in sets: where one is refused, list refuses the set with the same number; else it accepts, or has
    the 15 of a library."""
    lent, seen = Folder(tests, folder), set()
    for case, answer in cases():
        if case[0] != "mcheck" or case[1] != "0" or answer[1] == "8":
            continue
        modules = modules_of(case)
        results = [from_hex(text) for text in case[3 + 2 * len(modules):][:len(modules)]]
        if not modules or max(map(len, results)) > 255:
            continue
        files = [run_file_of(record, results=part) for (_, record), part in zip(modules, results)]
        if max(map(len, files)) > LONGEST:
            continue
        libraries = [(sid, file) for (sid, _), file in zip(modules[1:], files[1:])]
        _, out, err = lent.run(("list",), files[0], *libraries)
        found = re.search(r"^check (\d+): ", out, re.MULTILINE)
        number = found and found[1]
        refused_later = answer[1] == "0" and number in ("15", "8")
        tests.expect(f"mcheck {case[2]} modules", number == answer[1] or refused_later, (answer[1], number, out[-300:], err))
        seen.add(answer[1])
    tests.expect("numbers of the stored checks", seen >= {"0", "1", "7", "9", "10", "12", "15", "17", "18"}, seen)


def test_texts(tests, folder):
    """Imports and relocation in a text, and the library that it is checked with."""
    text = ".import 7 0x8\n.import -1\n.globals 1\n.procedure 0\nLOAD_C.6\nCALL_E 1, 1\nSTOR_G.0\nRTN\n"
    record = record_of(CALLS, globals_=1, imports=[7, 8, 2**32 - 1], relocation=[4])
    found = tests.run_bytes("asm", "--no-check", "-", input=text.encode())
    tests.expect("imports", found == (0, record, ""), found)
    for line, relocation in ((".relocation", []), (".relocation 9 4\n.relocation 4", [9, 4, 4])):
        found = tests.run_bytes("asm", "--no-check", "-", input=f"{line}\n{text}".encode())
        record = record_of(CALLS, globals_=1, imports=[7, 8, 2**32 - 1], relocation=relocation)
        tests.expect(f"{line}", found == (0, record, ""), found)
        status, back, _ = tests.list(record, "--asm")
        found = tests.run_bytes("asm", "--no-check", "-", input=back.encode())
        tests.expect(f"{line}, there and back", (status, found) == (1, (0, record, "")), (back, found))
    (folder / "library").write_bytes(LIBRARY)
    (folder / "text").write_text(text.replace(".import 7 0x8\n.import -1", ".import 7"))
    record = record_of(CALLS, globals_=1, imports=[7], relocation=[4])
    found = tests.run_bytes("asm", "text", "--library", "7=library", cwd=folder)
    tests.expect("checked with the library", found == (0, record, ""), found)
    tests.expect_run("without the library", ("asm", "text"), 1, "text: refused with 17: ", cwd=folder)
    (folder / "text").write_text(text.replace(".import 7 0x8\n.import -1", ".import 7").replace("1, 1", "1, 2"))
    words = "text:5: refused with 14: callee 0 or not in the entries: offset 3: CALL_E 1, 2 -> SID 7, procedure 2, and there"
    tests.expect_run("line of an external callee", ("asm", "text", "--library", "7=library"), 1, words, cwd=folder)


def test_damaged(tests, folder):
    """Damaged modules: each command answers, and they agree on the number."""
    random_, lent = random.Random(SEED), Folder(tests, folder)
    for at in range(DAMAGED):
        main, library = damage(random_, main_file()), damage(random_, LIBRARY)
        status, page, err = lent.run(("page",), main, (7, library))
        if "lent0: refused with 16: " in err:  # no library, so that there is no page
            tests.expect(f"damaged library {at}", (status, page) == (1, ""), (page, err))
            continue
        good = status in (0, 1) and err.count("\n") == 1 and "panicked" not in err and "no page" not in err
        traced = lent.run(("trace", "--steps", "200"), main, (7, library))
        good = good and traced[0] in (0, 1) and "panicked" not in traced[2] and (traced[1] == "") == (page.split()[1] != "0")
        listed = lent.run(("list",), main, (7, library))
        good = good and listed[0] in (0, 1) and "panicked" not in listed[2]
        good = good and (f"\ncheck {page.split()[1]}: " in listed[1] or "refused with 16" in listed[2] or not main.startswith(b"TRK"))
        tests.expect(f"damaged modules {at}", good, (page, err, traced, listed, main.hex(), library.hex()))


def test(tests):
    with tempfile.TemporaryDirectory() as name:
        for part in (test_pages, test_trace_and_list, test_refusals, test_checks, test_texts, test_damaged):
            part(tests, Path(name))
