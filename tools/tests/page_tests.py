"""icode page: the stored pages byte for byte, several files, signed words, and the sentence for people."""

import os
import re
import tempfile
from pathlib import Path
from harness import *

MEANINGS = {30: "zero divisor", 31: "number does not fit", 32: "not live", 33: "protected", 34: "not a boolean", 35: "memory full",
            36: "stack full", 37: "64 calls", 38: "FREE below FP"}


def sentence_holds(report, err):
    """One line, with how the run ended, at which line, and for a trap with the words on top of the stack."""
    end = END.match(report)
    if err.count("\n") != 1 or not err.startswith("icode: "):
        return False
    if not end:
        return f": refused with {report.split()[1]}: " in err
    place = f"source line {end[3]}" if end[3] != "0" else f"offset {end[2]}"
    steps = "1 step" if end[4] == "1" else f"{end[4]} steps"
    if end[1] == "0":
        return err.endswith(f": finished at {place} after {steps}\n")
    if end[1] == "1":
        return f": spent after {steps}; next is " in err and err.endswith(f" at {place}\n")
    found = re.search(r" found (.*?)(;.*)?\n", err)
    words = re.split(", | and ", found[1]) if found else []
    on_top = report.splitlines()[2].endswith("".join(f" {word}" for word in words))
    return f": trap {end[1]}: {MEANINGS[int(end[1])]} at {place}: " in err and on_top


def test_stored(tests):
    for page, report in pages():
        status, out, err = tests.run("page", page)
        good = (status, out) == (0 if END.match(report) and report.split()[3] == "0" else 1, report)
        tests.expect(page.name, good and sentence_holds(report, err), (status, out, err))


def run(code, **head):
    return run_file_of(record_of(bytes([0, 2]) + bytes(code), globals_=2, source=word_bytes([2, 12])), **head)


def test_sentences(tests):
    """What each trap found, with and without words on the stack."""
    deep = bytes([0, 9, 0, 4, 0xE8, 0, 0, 0x71, 0xE9, 0x71, 0xE9])  # 01's plates 11 and 12
    cases = [
        (run([0x83, 3, 0xE8, 0x00, 0xA3, 0x50, 0xE9]), "trap 30: zero divisor at source line 12: DIV_I found 1000 and 0"),
        (run([0x84, 0x7F, 0xFF, 0xFF, 0xFF, 0x01, 0xA0, 0x50, 0xE9]),
         "trap 31: number does not fit at source line 12: ADD_I found 2147483647 and 1"),
        (run([0x00, 0x01, 0xA9, 0x50, 0xE9]), "trap 31: number does not fit at source line 12: SUB_U found 0 and 1"),
        (run([0x82, 100, 0x30, 0x50, 0xE9]), "trap 32: not live at source line 12: LOAD_F.0 found 100"),
        (run([0x86, 200, 0x50, 0xE9]), "trap 32: not live at source line 12: LOAD_G.b 200"),
        (run([0x00, 0x07, 0x60, 0xE9]), "trap 33: protected at source line 12: STOR_F.0 found 0 and 7"),
        (run([0x02, 0xD7, 0x50, 0xE9]), "trap 34: not a boolean at source line 12: NEG found 2"),
        (run([0x82, 100, 0xD8, 0x50, 0xE9]), "trap 35: memory full at source line 12: ALLOC found 100; memory has 64 words"),
        (run([0x01, 0x01, 0x01, 0x9E, 3, 0xE9], stack=2), "trap 36: stack full at source line 12: LOAD_C.1; the stack has 2 words"),
        (run_file_of(record_of(deep), 1000, b"\0\0", memory=131), "trap 37: 64 calls at offset 7: CALL.1"),
        (run_file_of(record_of(deep), 1000, b"\0\0", memory=10), "trap 35: memory full at offset 7: CALL.1; memory has 10 words"),
        (run([0x01, 0xD9, 0xE9]), "trap 38: FREE below FP at source line 12: FREE found 1"),
        (run([0xDA, 0]), "spent after 100 steps; next is JUMP.b +0 -> 2 at source line 12"),
        (run([0xE9]), "finished at source line 12 after 1 step"),
        (run([0xE9], budget=0), "spent after 0 steps; next is RTN at source line 12"),
    ]
    for file, sentence in cases:
        status, out, err = tests.run("page", "-", input=file)
        tests.expect(sentence, err == f"icode: standard input: {sentence}\n", (status, out, err))
    # NEXT finds five words: LOAD_C.1, ALLOC, LOAD_C.1, LOAD_C.2, LOAD_C.1, ITER, then LOAD_C.1, FREE of the variable, NEXT
    status, out, err = tests.run("page", "-", input=run([0x01, 0xD8, 0x01, 0x02, 0x01, 0xE0, 0, 6, 0x01, 0xD9, 0xE1, 0xE9]))
    tests.expect("NEXT", "trap 32: not live at source line 12: NEXT found 5, 1, 2, 1 and 10\n" in err, (status, out, err))
    # At the end of the range it leaves: LOAD_A_G.b 0, LOAD_C.w the last number, that again, LOAD_C.1, ITER, NEXT (02, K3)
    last = [0x84, 0x7F, 0xFF, 0xFF, 0xFF]
    status, out, err = tests.run("page", "-", input=run([0x8E, 0, *last, *last, 0x01, 0xE0, 0, 4, 0xE1, 0xE9]))
    tests.expect("last NEXT", (status, out) == (0, "check 0\nend 0 at 19 line 12 steps 7\ns\ng 2147483647 0\n"), (status, out, err))
    # Before issue 3/- a result runs round: LOAD_C.0, LOAD_C.1, SUB_U, STOR_G.0 (02, K11)
    record = record_of(bytes([0, 2, 0x00, 0x01, 0xA9, 0x50, 0xE9]), b" 2/A", globals_=1)
    status, out, err = tests.run("page", "-", input=run_file_of(record))
    tests.expect("wrapped", (status, out) == (0, "check 0\nend 0 at 6 line 0 steps 5\ns\ng 4294967295\n"), (status, out, err))


def test_signed(tests):
    """LOAD_C.b -6, LOAD_C.b -1, STOR_G.0, then a division by 0."""
    file = run([0x82, 0xFA, 0x82, 0xFF, 0x50, 0x00, 0xA3, 0x50, 0xE9])
    for option, stack, globals_, words in (((), "s 4294967290 0", "g 4294967295 0", "4294967290 and 0"),
                                           (("--signed",), "s -6 0", "g -1 0", "-6 and 0")):
        status, out, err = tests.run("page", *option, "-", input=file)
        good = (status, out) == (1, f"check 0\nend 30 at 8 line 12 steps 4\n{stack}\n{globals_}\n") and f"DIV_I found {words}\n" in err
        tests.expect(f"page {option}", good, (status, out, err))


def test_several(tests, folder):
    """Each page has a line of its own before it, in which no name can look like a page."""
    eleven, twelve = ((EXAMPLES / f"page-{name}.run") for name in ("eleven", "twelve"))
    names = ["check 0\nend 0 at 2 line 0 steps 1\ns\ng", "\x1b[2Jx", "-", "plain", "caf\u00e9"]
    for name in names:
        (folder / name).write_bytes(eleven.read_bytes())
    (folder / "twelve").write_bytes(twelve.read_bytes())
    raw = os.fsdecode(b"\xff\n")
    (folder / raw).write_bytes(twelve.read_bytes())
    shown = [r"check 0\nend 0 at 2 line 0 steps 1\ns\ng", r"\u{1b}[2Jx", "./-", "plain", "caf\u00e9", "twelve", r"\xFF\n"]
    files = [names[0], names[1], "./-", "plain", "caf\u00e9", "twelve", raw]
    status, out, err = tests.run("page", *files, cwd=folder)
    reports = [(eleven if at < 5 else twelve).with_suffix(".out").read_text() for at in range(7)]
    expected = "".join(f"==> {name} <==\n{report}" for name, report in zip(shown, reports))
    good = (status, out) == (1, expected) and [line.split(": ")[1] for line in err.splitlines()] == shown
    tests.expect("several files", good, (status, out, err))
    status, out, err = tests.run("page", "plain", "missing", "plain", cwd=folder)
    good = status == 2 and out == f"==> plain <==\n{reports[0]}" * 2 and "cannot read 'missing': No such file" in err
    tests.expect("the others are printed beside one that is missing", good, (status, out, err))
    status, out, err = tests.run("page", "-", "plain", cwd=folder, input=twelve.read_bytes())
    tests.expect("standard input and a file", out == f"==> standard input <==\n{reports[6]}==> plain <==\n{reports[0]}", (status, out, err))
    status, out, err = tests.run("page", "--", "-named", cwd=folder)
    tests.expect("a file named -named", status == 2 and "cannot read '-named'" in err, (status, out, err))


def test(tests):
    test_stored(tests)
    test_sentences(tests)
    test_signed(tests)
    with tempfile.TemporaryDirectory() as folder:
        test_several(tests, Path(folder))
