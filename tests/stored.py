"""What the scripts share that write stored files: examples/make.py and report_cases.py."""

import sys
from pathlib import Path


def word(number):
    """A number in 32 bits, highest byte first."""
    return number.to_bytes(4, "big")


def halfword(number):
    """A number in 16 bits, highest byte first."""
    return number.to_bytes(2, "big")


def holds(path, content):
    return path.is_file() and path.read_bytes() == content


def main(folder, files):
    """The script: writes into the folder each name's content, or with --check compares it. Answers the exit status."""
    script = Path(sys.argv[0])
    if sys.argv[1:] == ["--check"]:
        differing = [name for name, content in files.items() if not holds(folder / name, content)]
        for name in differing:
            print(f"{folder.name}/{name} is not what {script.name} writes", file=sys.stderr)
        return 1 if differing else 0
    if len(sys.argv) > 1:
        print(f"usage: {script} [--check]", file=sys.stderr)
        return 2
    for name, content in files.items():
        (folder / name).write_bytes(content)
    return 0
