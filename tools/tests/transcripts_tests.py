"""Documents and stored outputs: each command in them prints what stands there; the examples' README has the bytes of page twelve."""

import re
from pathlib import Path
from harness import *
from transcripts import count, run_transcript

STORED = Path(__file__).parent / "stored"
DOCUMENTS = {ROOT / "README.md": 1, ROOT / "docs" / "USING.md": 15, EXAMPLES / "README.md": 14}  # with the commands that they have at least


def difference(found, expected):
    """The first line that differs, both ways."""
    pairs = zip(found.splitlines() + [None], expected.splitlines() + [None])
    return next((pair for pair in pairs if pair[0] != pair[1]), None)


def byte_rows(text):
    """The rows of a README's table of bytes: place and content of each."""
    rows = re.findall(r"^\| (\d+) \| (`[^|]*) \|", text, re.MULTILINE)
    return [(int(at), bytes.fromhex(cell.replace("`", ""))) for at, cell in rows]


def test_example_bytes(tests, readme):
    """The README has every byte of page twelve, at its place; and those of the damaged tape that are other than on page twelve."""
    whole, _, damaged = readme.partition("\n## A damaged tape\n")
    twelve, tape = ((EXAMPLES / f"{name}.run").read_bytes() for name in ("page-twelve", "page-twelve-damaged"))
    tests.expect("README, page twelve", places_hold(byte_rows(whole), twelve) and b"".join(row for _, row in byte_rows(whole)) == twelve)
    tests.expect("README, damaged tape", places_hold(byte_rows(damaged), tape))
    for at, content in byte_rows(damaged):
        twelve = twelve[:at] + content + twelve[at + len(content):]
    tests.expect("README, all of the damage", twelve == tape, twelve)


def places_hold(rows, file):
    return all(file[at:at + len(content)] == content for at, content in rows)


def test(tests):
    for path in (*DOCUMENTS, *sorted(STORED.glob("*.txt"))):
        found, written = run_transcript(tests.program, path), path.read_text()
        tests.expect(f"{path.name}: commands", count(path) >= DOCUMENTS.get(path, 1), count(path))
        tests.expect(path.name, found == written, difference(found, written))
    readme = (EXAMPLES / "README.md").read_text()
    test_example_bytes(tests, readme)
    for page, _ in pages(EXAMPLES):
        tests.expect(f"{page.name}: its page in the README", page.with_suffix(".out").read_text() in readme)
