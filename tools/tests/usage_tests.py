"""Options and files of every command, inputs that cannot be read, outputs that cannot be written, exit statuses."""

import os
import pty
import tempfile
from pathlib import Path
from harness import *

COMMANDS = ("list", "asm", "trace", "page", "mend")
PAGE = EXAMPLES / "page-eleven.run"
TEXT = "; nothing but a RTN\n.procedure 0\n    RTN\n"


def test_usage(tests):
    tests.expect_run("no command", (), 2, "no command is given\nusage: icode COMMAND")
    tests.expect_run("unknown command", ("lst", PAGE), 2, "unknown command 'lst'; there are list, asm, trace, page, mend\nusage: icode COMMAND")
    tests.expect_run("option before the command", ("--signed", "page", PAGE), 2, "unknown command '--signed'")
    for command in COMMANDS:
        usage = f"\nusage: icode {command} "
        tests.expect_run(f"{command}: no file", (command,), 2, f"no file is given{usage}")
        tests.expect_run(f"{command}: no file after --", (command, "--"), 2, f"no file is given{usage}")
        tests.expect_run(f"{command}: unknown option", (command, "--fast\x1b", PAGE), 2, "unknown option '--fast\\u{1b}'" + usage)
        tests.expect_run(f"{command}: short option", (command, "-x", PAGE), 2, f"unknown option '-x'{usage}")
        if command != "page":
            tests.expect_run(f"{command}: two files", (command, PAGE, PAGE), 2, f"one file at a time{usage}")
        for option in ("--help", "-h"):
            status, out, err = tests.run(command, option, "--unknown")
            good = status == 0 and out.startswith(f"usage: icode {command} ") and "Exit status: 0 " in out and err == ""
            tests.expect(f"{command} {option}", good, (status, out, err))
    tests.expect_run("standard input twice", ("page", "-", "-"), 2, "standard input can be read only once\nusage: icode page")
    for command in COMMANDS:
        arguments = (command, "--dry-run") if command == "mend" else (command,)
        tests.expect_run(f"{command}: standard input as library too", (*arguments, "--library", "7=-", "-"), 2,
                         f"standard input can be read only once\nusage: icode {command}")
        for text, words in (("7", "is not SID=FILE"), ("7=", "has no FILE behind the ="), ("=x", "has no SID before the ="),
                            ("-1=x", "has no SID"), ("+1=x", "has no SID"), ("4294967296=x", "has no SID"),
                            ("0x=x", "has no SID"), ("a=x", "has no SID"), ("0x1g=x", "has no SID")):
            tests.expect_run(f"{command}: --library {text}", (*arguments, "--library", text, PAGE), 2, f"--library '{text}' {words}")
        tests.expect_run(f"{command}: no library", (*arguments, PAGE, "--library"), 2, "--library needs SID=FILE behind it")
        tests.expect_run(f"{command}: missing library", (*arguments, "--library=7=missing", PAGE), 2, "cannot read 'missing': No such file")
        tests.expect_run(f"{command}: library that is no run file", (*arguments, "--library", f"7={__file__}", PAGE), 1,
                         "refused with 16: run file malformed or too long: it ")


def test_values(tests):
    for arguments, words in ((("list", "--results"), "--results needs DIGITS behind it"),
                             (("asm", PAGE, "-o"), "-o needs OUT behind it"),
                             (("list", "--asm=1", PAGE), "--asm takes no value"),
                             (("trace", "--from", "-1", PAGE), "--from takes a number from 0 to 4294967295, not '-1'"),
                             (("trace", "--steps=x", PAGE), "--steps takes a number from 0 to 4294967295, not 'x'"),
                             (("trace", "--from", "4294967296", PAGE), "--from takes a number from 0 to 4294967295"),
                             (("trace", "--signed", "--both", PAGE), "--signed and --both exclude each other")):
        tests.expect_run(f"{arguments}", arguments, 2, words)
    for digits in ("x", "0 1", "0" * 257, "\u0660"):
        tests.expect_run(f"--results {digits}", ("list", "--results", digits, PAGE), 2, "no list of digits")
    for digits, number in (("0", 0), ("", 9), ("00", 9), ("1", 9)):
        for option in (("--results", digits), (f"--results={digits}",), ("--results", "7", "--results", digits)):
            status, out, err = tests.run("list", *option, PAGE)
            tests.expect(f"list {option}", status == min(number, 1) and f"check {number}: " in out, (status, out, err))
    for arguments in (("list", "--", PAGE), ("list", PAGE, "--asm"), ("trace", "--from", "0", PAGE), ("page", PAGE, "--signed")):
        status, out, err = tests.run(*arguments)
        tests.expect(f"{arguments}", status == 0 and out != "", (status, out, err))


def test_inputs(tests, folder):
    (folder / "empty").write_bytes(b"")
    for command in COMMANDS:
        for name, reason in (("missing", "No such file or directory"), (folder, "Is a directory"), ("", "No such file or directory"),
                             (folder / "empty" / "x", "Not a directory"), ("a\nb", "No such file or directory")):
            shown = str(name).replace("\n", "\\n")
            tests.expect_run(f"{command} '{shown}'", (command, name), 2, f"icode: cannot read '{shown}': {reason}\n", cwd=folder)
        closed = {"stdin": None, "preexec_fn": lambda: os.close(0)}
        words = "icode: cannot read 'standard input': Bad file descriptor\n"
        arguments = (command, "--dry-run", "-") if command == "mend" else (command, "-")
        tests.expect_run(f"{command}, closed input", arguments, 2, words, **closed)
        with open("/dev/zero", "rb") as endless:
            status, _, err = tests.run(*arguments, stdin=endless)
        tests.expect(f"{command}, input without an end", status == 1 and "longer than" in err, (status, err))


def outputs(write):
    """Outputs that take nothing, with the reason that belongs to each."""
    yield "full", "No space left on device", {"stdout": open("/dev/full", "wb")}
    yield "closed pipe", "Broken pipe", {"stdout": write}
    yield "closed", "Bad file descriptor", {"stdout": None, "preexec_fn": lambda: os.close(1)}


def test_outputs(tests, folder):
    text = folder / "text"
    text.write_text(TEXT)
    read, write = os.pipe()
    os.close(read)
    helps = [(command, "--help") for command in COMMANDS]
    for arguments in (("list", PAGE), ("list", "--asm", PAGE), ("trace", PAGE), ("page", PAGE), ("page", PAGE, PAGE), ("asm", text),
                      ("mend", PAGE), ("mend", PAGE, "-o", "-"), ("mend", PAGE, "-o", folder / "unsaid"), ("--help",), ("--version",), *helps):
        for name, reason, output in outputs(write):
            status, _, err = tests.run(*arguments, **output)
            report, message, rest = err.partition(f"icode: cannot write to standard output: {reason}\n")
            good = status == 2 and message and rest == "" and (report == "" or "-" in arguments)
            tests.expect(f"{arguments} to {name} output", good, (status, err))
    os.close(write)
    for out, reason in (("/dev/full", "No space left on device"), (folder, "Is a directory"),
                        (folder / "a\n" / "b", "No such file or directory")):
        shown = str(out).replace("\n", "\\n")
        tests.expect_run(f"-o {shown}", ("asm", text, "-o", out), 2, f"icode: cannot write '{shown}': {reason}\n")
    made = folder / "made"
    status, _, err = tests.run("asm", text, "-o", made, stdout=None, preexec_fn=lambda: os.close(1))
    good = (status, err) == (0, "") and made.read_bytes() == record_of(b"\0\2\xe9")
    tests.expect("-o needs no standard output", good, (status, err))
    tests.expect_run("-o over the text", ("asm", text, "-o", folder / "." / "text"), 2, "OUT is the text itself")
    with open(text, "ab") as stdout:
        tests.expect_run("behind the text", ("asm", text), 2, "OUT is the text itself", stdout=stdout)
    made.write_bytes(b"before")
    tests.expect_run("no room", ("asm", text, "-o", made), 2, f"icode: cannot write '{made}': File too large\n", preexec_fn=short_files)
    left = sorted(path.name for path in folder.iterdir())
    tests.expect("an old file is as it was", made.read_bytes() == b"before" and left == ["empty", "made", "text"], left)
    tests.expect("the text is as it was", text.read_text() == TEXT)


def test_written(tests, folder):
    """Nothing is written where the text is refused; -o - is standard output; a terminal gets no bytes."""
    text, made = folder / "text", folder / "made"
    for content, status in ((".procedure 0\n    FROB\n", 1), (".procedure 0\n    ADD_I\n    RTN\n", 1), (TEXT, 0)):
        text.write_text(content)
        made.write_bytes(b"before")
        found, out, err = tests.run("asm", text, "-o", made)
        good = (found, out) == (status, "") and (made.read_bytes() == b"before") == (status == 1) and (err == "") == (status == 0)
        tests.expect(f"asm {content}", good, (found, out, err))
    found, out, err = tests.run_bytes("asm", text, "-o", "-")
    tests.expect("-o -", (found, out, err) == (0, record_of(b"\0\2\xe9"), ""), (found, out, err))
    master, terminal = pty.openpty()
    for arguments in (("asm", text), ("mend", PAGE, "-o", "-")):
        tests.expect_run(f"{arguments} to a terminal", arguments, 2, "standard output is a terminal; -o OUT names a file", stdout=terminal)
    os.close(master)
    os.close(terminal)
    with open("/dev/null", "wb") as null:
        status, _, err = tests.run("page", PAGE, stdout=null)
    tests.expect("to /dev/null", status == 0, (status, err))


def test(tests):
    test_usage(tests)
    test_values(tests)
    with tempfile.TemporaryDirectory() as folder:
        test_inputs(tests, Path(folder))
        test_outputs(tests, Path(folder))
        test_written(tests, Path(folder))
