"""icode list --asm and icode asm: every record that is accepted, and every other sound one, comes back byte for byte."""

from harness import *


MIN_ACCEPTED = 600  # files among the stored ones


def round_trip(tests, name, content, options=(), accepted=None):
    """The text of a file makes the same file. Where it is refused, asm says so with the same number, and takes it with --no-check. Answers
    whether it is accepted."""
    status, text, err = tests.list(content, "--asm", *options)
    if err:  # not sound, so that it has no text
        tests.expect(f"{name}: no text", (status, text) == (1, "") and "refused with " in err and not accepted, (status, text, err))
        return False
    if accepted is None:
        accepted = status == 0
    made, out, err = tests.run_bytes("asm", "-", input=text.encode())
    if status == 0:
        good = (made, out, err) == (0, content, "")
    else:
        number = text.split(":")[0].removeprefix("; check ")
        good = (status, made, out) == (1, 1, b"") and f"refused with {number}: " in err
        good = good and tests.run_bytes("asm", "--no-check", "-", input=text.encode()) == (0, content, "")
    tests.expect(f"{name}: {content[:40].hex()}", good and accepted == (status == 0), (status, made, out.hex(), content.hex(), err, text))
    return status == 0


def test(tests):
    seen, accepted = set(), 0
    for record in {record for case, _ in cases() for _, record in modules_of(case)}:
        round_trip(tests, "module of a set", record)
    for case, answer in cases():
        if modules_of(case):
            continue
        record, results = case[1], from_hex(case[2]) if case[0] == "check" else None
        digits = digits_of(results) if results is not None else None
        if (record, digits) in seen:
            continue
        seen.add((record, digits))
        options = ("--results", digits) if digits is not None else ()
        number = int(answer[1]) if digits is not None else 8
        accepted += round_trip(tests, case[0], from_hex(record), options, None if number == 8 else number == 0)
    for page, report in pages():
        accepted += round_trip(tests, page.name, page.read_bytes(), (), report.startswith("check 0\n"))
    tests.expect("enough of them are accepted", accepted >= MIN_ACCEPTED, accepted)
    for text in sorted(EXAMPLES.glob("*.icode")):
        page = text.with_suffix(".run")
        made, out, err = tests.run_bytes("asm", *libraries_of(page), text)
        tests.expect(f"text of {page.name}", (made, out, err) == (0, page.read_bytes(), ""), (made, out, err))
