"""icode trace: every step of the stored pages, followed beside the page; parts of a trace; words in other forms."""

import re
from harness import *

STEP = re.compile(r" *(\d+|\*) +(\d+) +(\d+)  (\d+) \((\d+) to (\d+)\) +(\S.*?) {2,}(\S.*)$")
# Where an instruction fills its column.
SHORT_STEP = re.compile(r" *(\d+|\*) +(\d+) +(\d+)  (\d+) \((\d+) to (\d+)\) +(\S.*) (-|[\d ]+)$")
CHANGE = re.compile(r" +memory (\d+)(?:, (?:global|local) \d+|, link)?: (\d+) -> (\d+)$")
MAX_STEPS = 2000  # of a page that is followed
END_LINE = re.compile(r"end (\d+) at (\d+) line (\d+) steps (\d+)")


def follow(tests, page, report):
    """The steps are counted up, each at a place in its line; the changed words, from the loaded memory on, come to the page's globals;
    stack and end are the page's."""
    _, parameters, _, record = split_run_file(page.read_bytes())
    sizes = words_in(record[:28])
    memory = dict(zip(range(3, 3 + sizes[2]), parameters + [0] * sizes[2]))
    memory.update(zip(range(3 + sizes[2], 3 + sizes[2] + sizes[3]), words_in(record[28 + sizes[1]:][:4 * sizes[3]])))
    status, out, err = tests.run("trace", page)
    lines = out.splitlines()
    steps, stack, good = 0, "-", lines[0].startswith("  step calls offset")
    for line in lines[1:-1]:
        step, change = STEP.match(line) or SHORT_STEP.match(line), CHANGE.match(line)
        if change:
            at, old, new = map(int, change.groups())
            good = good and memory.get(at, 0) == old != new
            memory[at] = new
        else:
            good = good and step is not None and int(step[5]) <= int(step[3]) <= int(step[6]) and int(step[3]) < sizes[1]
            steps += step[1] != "*"
            good = good and step[1] in ("*", str(steps))
            stack = step[8]
    end = END.match(report)
    good = good and lines[-1] == report.splitlines()[1] and steps == int(end[4]) and (end[1] == "0") == (status == 0)
    good = good and report.splitlines()[2] == ("s" if stack == "-" else f"s {stack}")
    globals_ = "".join(f" {memory[at]}" for at in range(3, 3 + sizes[2]))
    good = good and report.splitlines()[3] == f"g{globals_}" and err.count("\n") == 1
    tests.expect(f"trace of {page.name}", good, (status, out[-2000:], err))


def step_rows(out):
    """The rows of a trace without its head and end; a row has the changes of its step."""
    rows = []
    for line in out.splitlines()[1:]:
        if CHANGE.match(line):
            rows[-1] += "\n" + line
        elif not line.startswith(("end ", "stopped ", "stack before ")):
            rows.append(line)
    return rows


def test_parts(tests, page):
    """--from and --steps show a part of the whole trace, with the stack before it."""
    _, whole, _ = tests.run("trace", page)
    rows = step_rows(whole)
    steps = int(END_LINE.search(whole)[4])
    for first, count in ((1, 1), (1, 5), (3, 4), (steps, 1), (steps - 1, 50), (steps + 1, 1)):
        status, out, _ = tests.run("trace", "--from", str(first), f"--steps={count}", page)
        good = step_rows(out) == rows[first - 1:first - 1 + count]
        ended = first + count - 1 >= len(rows)
        good = good and (out.splitlines()[-1] == whole.splitlines()[-1]) == ended
        good = good and (ended or f"stopped after step {first + count - 1}, as --steps asks\n" in out and status == 0)
        if 1 < first <= len(rows):
            before = rows[first - 2].splitlines()[0].split("  ")[-1].strip()
            good = good and out.splitlines()[1] == f"stack before step {first}: {before}"
        tests.expect(f"{page.name} from {first}, {count} steps", good, (status, out))
    status, out, err = tests.run("trace", "--from", "4000000000", page)
    good = step_rows(out) == [] and out.splitlines()[-1] == whole.splitlines()[-1]
    tests.expect(f"{page.name} from behind its end", good, (status, out, err))
    status, out, _ = tests.run("trace", "--steps", "0", page)
    tests.expect("no steps", status == 0 and out.splitlines()[1:] == ["stopped after step 0, as --steps asks"], (status, out))


def test_long_run(tests):
    """A run of four thousand million steps is stopped by --steps, and skipped fast by --from."""
    loop = run_file_of(record_of(bytes([0, 2, 0xFF, 0xDA, 0xFF])), budget=4294967295)  # NOP, JUMP.b -1
    for first in (1, 20_000_000):
        status, out, err = tests.run("trace", "--from", str(first), "--steps", "2", "-", input=loop)
        good = status == 0 and err == "" and len(step_rows(out)) == 2 and f"stopped after step {first + 1}, " in out
        tests.expect(f"a long run from {first}", good, (status, out, err))


def test_forms(tests):
    """LOAD_C.b -6, STOR_G.0, then a RTN: words unsigned, signed, and both."""
    file = run_file_of(record_of(bytes([0, 2, 0x82, 0xFA, 0x50, 0xE9]), globals_=1))
    for option, word in (((), "4294967290"), (("--signed",), "-6"), (("--both",), "4294967290/-6")):
        status, out, err = tests.run("trace", *option, "-", input=file)
        good = status == 0 and f"LOAD_C.b -6                {word}\n" in out and f"memory 3, global 0: 0 -> {word}\n" in out
        tests.expect(f"words {option}", good, (status, out, err))


def test_refused(tests):
    """A file that is refused has no trace, but a reason."""
    cases = [(b"", 16, "it does not begin with TRK"), (record_of(bytes([0, 2, 0xE9])), 16, "it is a record alone"),
             (run_file_of(record_of(bytes([0, 2, 0xE9])), memory=2), 8, "memory 2 words, under 3+0+0 = 3"),
             (run_file_of(record_of(bytes([0, 2, 0xA1, 0xE9]))), 15, "procedure 0, from offset 2 to 3")]
    for content, number, words in cases:
        tests.expect_run(f"trace of {content[:20]}", ("trace", "-"), 1, f"standard input: refused with {number}: ", input=content)
        tests.expect_run(f"trace of {content[:20]}, reason", ("trace", "-"), 1, f": {words}", input=content)


def test(tests):
    longest = (0, None)
    for page, report in pages():
        end = END.match(report)
        if end and int(end[4]) <= MAX_STEPS:
            follow(tests, page, report)
            longest = max(longest, (int(end[4]), page))
    test_parts(tests, longest[1])
    test_parts(tests, EXAMPLES / "page-eleven.run")
    test_long_run(tests)
    test_forms(tests)
    test_refused(tests)
