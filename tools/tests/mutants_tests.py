"""Damaged files and texts through every command: each is answered, none with a panic, and the commands agree on its number."""

import random
import re
import tempfile
from pathlib import Path
from harness import *

SEED = 22
FILES = 700  # damaged run files and records, and as many texts
MAX_BUDGET = 300  # steps, for a damaged budget may ask for thousands of millions
BATCH = 50  # files for one call of page
NUMBER = re.compile(r"^check (\d+)", re.MULTILINE)


def damage(random_, content):
    """A few bytes changed, lost, added, moved or doubled."""
    content = bytearray(content)
    for _ in range(random_.choice((1, 1, 2, 3, 8))):
        at, length = random_.randrange(len(content) + 1), random_.choice((1, 1, 2, 4, 16))
        part = content[at:at + length]
        kind = random_.randrange(6)
        if kind == 0:
            content[at:at + 1] = bytes([random_.randrange(256)])
        elif kind == 1:
            content[at:at + 1] = bytes([random_.choice((0, 1, 2, 0x7F, 0x80, 0xFF, 0x0A, 0x20, 0xE2, 0xE3, 0xF5))])
        elif kind == 2:
            del content[at:at + length]
        elif kind == 3:
            content[at:at] = part
        elif kind == 4:
            content[at:at + length] = part[::-1]
        else:
            content = content[:at] if random_.randrange(4) == 0 else content
    return bytes(content)


def with_small_budget(content):
    """A run file whose budget is as far as it can be found a small one."""
    if not content.startswith(b"TRK\0\1") or len(content) < 7:
        return content
    _, _, at, _ = split_run_file(content.ljust(2048, b"\0"))
    budget = int.from_bytes(content[at:at + 4], "big")
    return content if budget <= MAX_BUDGET else content[:at] + (budget % MAX_BUDGET).to_bytes(4, "big") + content[at + 4:]


def answered(tests, name, content, *arguments):
    """Runs a command on a file. Answers its status and outputs."""
    status, out, err = tests.run_bytes(*arguments, "-", input=content)
    good = status in (0, 1) and "panicked" not in err and (err == "" or err.endswith("\n"))
    tests.expect(f"{name} {arguments}", good, (status, err, content.hex()))
    return status, out, err


def number_of(out, err):
    """The number that a command gives, 0 where it accepts."""
    found = NUMBER.search(out.decode()) or re.search(r"refused with (\d+): ", err)
    return int(found[1]) if found else 0


def damaged_file(tests, name, content):
    """Through list, list --asm, trace and mend. Answers the number of list where the file is taken as a run file."""
    _, out, err = answered(tests, name, content, "list")
    listed = number_of(out, err)
    tests.expect(f"{name}: marks", listed == 18 or ("!" in marked(out.decode())) == (10 <= listed <= 15), (out, content.hex()))
    traced, _, err = answered(tests, name, content, "trace", "--steps", "40")
    run_file = content.startswith(b"TRK")
    if run_file:
        tests.expect(f"{name}: trace and list", number_of(b"", err) == listed, (listed, err, content.hex()))
    else:
        tests.expect(f"{name}: trace", traced == 1 and "refused with 16: " in err, (traced, err, content.hex()))
    status, text, err = answered(tests, name, content, "list", "--asm")
    if err == "":
        made, out, err = answered(tests, name, text, "asm", "--no-check")
        tests.expect(f"{name}: round trip", (made, out) == (0, content), (made, out, err, content.hex()))
    answered(tests, name, content, "asm")
    mended_file(tests, name, content, listed)
    return listed if run_file else 16


def mended_file(tests, name, content, listed):
    """Through mend, which refuses what list refuses with 1, 2, 3 or 16. What it writes is refused by neither 5 nor 6, and stays as it is
    when it is mended again; a file with nothing to mend comes out as it was."""
    status, new, err = answered(tests, name, content, "mend", "-o", "-")
    if listed in (1, 2, 3, 16):
        tests.expect(f"{name}: not mended", (status, new, number_of(b"", err)) == (1, b"", listed), (status, new, err, content.hex()))
        return
    before, after = mend_numbers(err)
    _, out, _ = tests.list(new)
    good = (before, after, status) == (listed, number_of(out.encode(), ""), min(after, 1)) and after not in (5, 6)
    tests.expect(f"{name}: mended", good and (new == content or listed in (5, 6)), (status, new.hex(), err, content.hex()))
    _, again, err = answered(tests, name, new, "mend", "-o", "-")
    tests.expect(f"{name}: mended again", again == new and "\nnothing is dropped\n" in err, (again.hex(), err, content.hex()))


def batch_of_pages(tests, folder, batch):
    """The pages of several files at once, with the numbers that list gives."""
    for at, (content, _) in enumerate(batch):
        (folder / f"{at}").write_bytes(content)
    status, out, err = tests.run("page", *(f"{at}" for at in range(len(batch))), cwd=folder)
    found = [int(number) for number in NUMBER.findall(out)]
    good = status in (0, 1) and "panicked" not in err and err.count("\n") == len(batch)
    tests.expect("pages", good and found == [number for _, number in batch], (status, err, batch))


def test(tests):
    random_ = random.Random(SEED)
    files = [path.read_bytes() for path, _ in pages()]
    files += [from_hex(case[1]) for case, _ in cases() if case[0] == "check"]
    numbered = []
    for at in range(FILES):
        content = with_small_budget(damage(random_, random_.choice(files)))
        numbered.append((content, damaged_file(tests, f"file {at}", content)))
    with tempfile.TemporaryDirectory() as folder:
        for at in range(0, FILES, BATCH):
            batch_of_pages(tests, Path(folder), numbered[at:at + BATCH])
    texts = [text.encode() for status, text, _ in (tests.list(file, "--asm") for file in random_.sample(files, 60)) if status == 0]
    texts += [path.read_bytes() for path in Path(__file__).parent.glob("stored/*.icode")]
    for at in range(FILES):
        answered(tests, f"text {at}", damage(random_, random_.choice(texts)), "asm")
