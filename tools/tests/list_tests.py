"""icode list: names and lengths, heights and labels, lines, switches, marks, and the numbers of check and load."""

import re
from harness import *

ROOM = 16  # code bytes behind a tried instruction, enough for the longest
DIVISION = bytes([0, 2, 0x83, 0, 7, 0x00, 0xA3, 0x9E, 1, 0xE9])  # LOAD_C.h, LOAD_C.0, DIV_I at 6, POP, RTN


def try_code(tests, prefix, code, name, length):
    """A code is shown under its name, and the next instruction stands behind its bytes. There is no name for what is not served."""
    instruction = bytes(prefix) + bytes([code])
    _, out, err = tests.list(record_of(b"\x00\x02" + instruction + bytes(ROOM)))
    rows = rows_of(out)
    if name is None:
        good = rows == [] and "\n!    2  10: unserved instruction" in out
    else:
        shown = re.escape(("DOUBLE " if prefix else "") + name)
        good = len(rows) > 1 and re.fullmatch(f"{shown}( .*)?", rows[0][4]) and int(rows[1][0]) == 2 + len(prefix) + length
    tests.expect(f"code {instruction.hex()}", good and err == "", (out, err))


def test_codes(tests):
    for row in OPCODE_TABLE.read_text().splitlines():
        fields = row.split()
        code, name = int(fields[0], 16), fields[1]
        if name in ("-", "DOUBLE"):
            try_code(tests, [], code, None, 0)
            continue
        length = int(fields[2].split("+")[0])
        try_code(tests, [], code, name, length)
        try_code(tests, [0xF5], code, name if "double" in fields[3:] else None, length)


def words_of(tokens):
    """A list of words as the vectors write it: its length, then words or k*w."""
    words = []
    for token in tokens[1:]:
        times, _, word = token.rpartition("*")
        words += [int(word)] * int(times or 1)
    assert len(words) == int(tokens[0])
    return words


def shows(rows, workspace):
    """Whether the rows have the heights and labels of a workspace, and all of them."""
    def number(shown):
        return 0 if shown == "-" else int(shown) + 1
    cells = {int(row[0]): [number(row[2]), number(row[3]), 0, 0] for row in rows}
    return all(workspace[4 * at:4 * at + 4] == cells.get(at, [0] * 4) for at in range(len(workspace) // 4))


def test_workspaces(tests):
    """The number of every stored check, with the workspace that it leaves; 10 to 15 mark a place, 18 may, and no other number does."""
    for case, answer in cases():
        results = from_hex(case[2]) if case[0] == "check" else b""
        digits = digits_of(results) if case[0] == "check" else None
        number = int(answer[1]) if digits is not None else 8
        if number == 8:  # the workspace lent there was too short; the listing's never is
            continue
        content = from_hex(case[1])
        status, out, err = tests.list(content, "--results", digits)
        good = f"check {number}: " in out and status == min(number, 1) and err == ""
        if number == 0 or number >= 9:
            cells = 4 * int.from_bytes(content[4:8], "big")
            workspace = words_of(answer[2:])[:cells] if number == 0 else [0] * cells
            good = good and shows(rows_of(out), workspace) and (number == 18 or ("!" in marked(out)) == (10 <= number <= 15))
        tests.expect(f"check case {case[1][:80]}", good, (status, out, err))


def test_lines(tests):
    source = word_bytes([3, 7, 4, 4294967295])
    _, out, _ = tests.list(record_of(bytes([0, 2, 0xFF, 0xFF, 0xFF, 0xE9]), b" 3/-", source))
    tests.expect("lines", [row[1] for row in rows_of(out)] == ["0", "7", "4294967295", "4294967295"], out)
    tests.expect("version", '" 3/-"  20 33 2f 2d' in out, out)
    tests.expect("source pairs", "offset 3 line 7\n" in out and "offset 4 line 4294967295\n" in out, out)


def issue_line(name, wraps):
    return f"\n  issue      {name}: unsigned add, subtract and multiply {'wrap' if wraps else 'do not wrap'}\n"


def test_issues(tests):
    """Unsigned results wrap before issue 3/-, by the first version word alone (02, K11). A record that is refused for something else
    has an issue too."""
    words = [tens + units + "/" + revision for tens in " 0123456789" for units in "0123456789" for revision in "-AZ"]
    code, behind = bytes([0, 2, 0xE9]), {True: b" 3/-", False: b" 2/Z"}
    for word in words:
        wraps = word[0] in " 0" and word[1] in "012"
        name = word[1:] if word[0] in " 0" else word
        _, out, _ = tests.list(record_of(code, word.encode() + behind[wraps]))
        tests.expect(f"issue {word}", issue_line(name, wraps) in out, out)
    _, out, _ = tests.list(record_of(code))
    tests.expect("no issue", issue_line("none", False) in out, out)
    _, out, _ = tests.list(record_of(code, b" 2/a"))
    tests.expect("malformed issue", "\n  issue" not in out, out)
    _, out, _ = tests.list(record_of(bytes([0, 2]), b"02/Z"))
    tests.expect("issue of a refused record", issue_line("2/Z", True) in out and "\ncheck 7: " in out, out)


def test_switches(tests):
    """Targets count from the switch's own first byte; a range's distance 0 is ELSE, a branch's is the switch itself."""
    switch = bytes([0, 2, 0x00, 0xE2, 0, 1, 0, 12, 0, 11, 0, 0, 0, 11, 0xE4, 0xE9])
    _, out, _ = tests.list(record_of(switch))
    shown = [" ".join(line[1:].split()[1:4]) for line in out.splitlines() if "->" in line]
    tests.expect("SWITCH", shown == ["exit -> 15", "else -> 14", "0 -> 3", "1 -> 14"], out)
    ranges = bytes([0xFF, 0xFF, 0xFF, 0xFE, 0, 0, 0, 5, 0, 0]) + bytes([0, 0, 0, 6, 0x7F, 0xFF, 0xFF, 0xFF, 0, 28])
    search = bytes([0, 2, 0x00, 0xE3, 0, 2, 0, 28, 0, 27]) + ranges + bytes([0xE4, 0xE9])
    _, out, _ = tests.list(record_of(search))
    shown = [" ".join(line[1:].split()[1:-2]) for line in out.splitlines() if ".." in line and "->" in line]
    good = any(line.startswith("-2 .. 5 -> else") for line in shown) and any("6 .. 2147483647 -> 31" in line for line in shown)
    tests.expect("SWITCH_X", good and "exit -> 31" in out and "else -> 30" in out, out)


def test_trap_marks(tests):
    """The source line of a trap has a mark before each row that begins in it, and a star at the trap. One pair is one line, whatever its
    number; it may begin inside an instruction."""
    for pairs, line, rows in (([], "0 from 0 to 9", ">2 >5 *6 >7 >9"), ([7, 5], "0 from 0 to 6", ">2 >5 *6"),
                              ([3, 4], "4 from 3 to 9", ">5 *6 >7 >9"), ([2, 1, 6, 2, 7, 3], "2 from 6 to 6", "*6"),
                              ([2, 1, 5, 1, 8, 1], "1 from 5 to 7", ">5 *6 >7")):
        record = record_of(DIVISION, source=word_bytes(pairs))
        status, out, err = tests.list(run_file_of(record))
        good = status == 1 and f"\ncheck 0: accepted\ntrap 30 at 6, in line {line}: zero divisor\n" in out and marked(out) == rows
        tests.expect(f"line of {pairs}", good, (status, out, err))
        status, out, err = tests.list(record)
        tests.expect(f"no run of {pairs}", status == 0 and "trap" not in out and marked(out) == "", (status, out, err))
        status, out, err = tests.list(run_file_of(record, budget=2))
        good = status == 1 and "\ncheck 0: accepted\nspent at 6, in line " in out and ": the budget of 2 steps\n" in out
        tests.expect(f"spent of {pairs}", good and marked(out) == "", (status, out, err))
    switch = bytes([0, 2, 0x00, 0xE2, 0, 0, 0, 15, 0, 9, 0, 9])  # LOAD_C.0, SWITCH at 3 with its table from 6 on
    branch = bytes([0x00, 0x00, 0xA3, 0x9E, 1, 0xE4, 0xE9])  # LOAD_C.0 twice, DIV_I at 14, POP, LEAVE, RTN
    status, out, err = tests.list(run_file_of(record_of(switch + branch, source=word_bytes([3, 5, 15, 6]))))
    tests.expect("line with a switch", marked(out) == ">3 >6 >8 >10 >12 >13 *14", (status, out, err))
    status, out, err = tests.list(run_file_of(record_of(DIVISION)), "--results", "1")
    good = status == 1 and "check 9: " in out and marked(out) == ">2 >5 *6 >7 >9"
    tests.expect("run as the file stands", good, (status, out, err))


def line_marks(record, at, offsets):
    """The marks of a trap at an offset of the code, and the first and last offset of its line."""
    sizes = words_in(record[:28])
    starts = words_in(record[len(record) - 4 * sizes[6]:])[::2]
    first = max((start for start in starts if start <= at), default=0)
    last = min((start for start in starts if start > at), default=sizes[1]) - 1
    marks = {offset: "*" if offset == at else ">" if first <= offset <= last else " " for offset in offsets}
    return marks, first, last


def without_run(text):
    """A listing without the end of the run and its marks."""
    text = re.sub("^(trap|spent) .*\n", "", text, flags=re.MULTILINE)
    return re.sub("^[>*]", " ", text, flags=re.MULTILINE)


def test_page(tests, page, report):
    """Behind its head, a run file is listed as its record alone, but for the load's number and the end of the run. The number is the
    page's."""
    status, out, err = tests.run("list", page)
    if not page.read_bytes().startswith(b"TRK"):  # taken as a record
        tests.expect(page.name, status == 1 and "no run file: it does not begin with TRK" in out, (status, out, err))
        return
    if report == "check 16\n":  # not taken apart
        tests.expect(page.name, (status, out) == (1, "") and "refused with 16: " in err, (status, out, err))
        return
    results, _, _, record = split_run_file(page.read_bytes())
    # A list that no digits give is refused with 9, as an empty one is.
    _, alone, _ = tests.list(record, "--results", digits_of(results) or "")
    alone = alone.replace("  it is no run file: it does not begin with TRK\n", "")
    number, end = report.split()[1], END.match(report)
    good = f"\ncheck {number}: " in out and status == (0 if end and end[1] == "0" else 1) and err == ""
    if end and int(end[1]) >= 20:
        marks, first, last = line_marks(record, int(end[2]), marks_of(alone))
        trap = f"\ntrap {end[1]} at {end[2]}, in line {end[3]} from {first} to {last}: "
        good = good and trap in out and marks_of(out) == marks and "without a meaning" not in out
    if number == "8":
        out = re.sub("check 8: .*\n .*\n", "check 0: accepted\n", out)
    same = without_run(out).endswith(alone) or digits_of(results) is None
    tests.expect(page.name, good and same, (status, out, err))


def test(tests):
    test_codes(tests)
    test_workspaces(tests)
    test_lines(tests)
    test_issues(tests)
    test_switches(tests)
    test_trap_marks(tests)
    for page, report in pages():
        test_page(tests, page, report)
