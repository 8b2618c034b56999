"""What the tests of the program share: running it, counting, and building records and run files."""

import os
import re
import resource
import subprocess
from pathlib import Path

ROOT = Path(__file__).resolve().parent.parent.parent
VECTORS = ROOT / "tests" / "vectors"
EXAMPLES = ROOT / "examples"
OPCODE_TABLE = ROOT / "crates" / "opcode_table" / "stdout"

# The instructions of a listing: mark, offset, line, height, label, instruction, bytes.
ROW = re.compile(r"([ >*!]) *(\d+) +(\d+) +(\d+|-) +(\d+|-)  (\S.*?) {2,}([0-9a-f ]+)$")
CODE_ROW = re.compile(r"([ >*!]) *(\d+) ")  # of an instruction or of a switch's table
END = re.compile(r"check 0\nend (\d+) at (\d+) line (\d+) steps (\d+)\n")


class Tests:
    def __init__(self, program):
        self.program = os.path.abspath(program)
        self.passed = 0
        self.failed = 0

    def run_bytes(self, *arguments, **more):
        """Exit status, standard output as bytes, standard error as text."""
        more.setdefault("stdin", subprocess.DEVNULL)
        if "input" in more:
            del more["stdin"]
        more.setdefault("stdout", subprocess.PIPE)
        more.setdefault("stderr", subprocess.PIPE)
        done = subprocess.run([self.program, *arguments], timeout=60, check=False, **more)
        return done.returncode, done.stdout or b"", (done.stderr or b"").decode()

    def run(self, *arguments, **more):
        status, out, err = self.run_bytes(*arguments, **more)
        return status, out.decode(), err

    def list(self, content, *options):
        return self.run("list", *options, "-", input=content)

    def expect(self, name, holds, seen=None):
        if holds:
            self.passed += 1
        else:
            self.failed += 1
            print(f"FAILED: {name}: {seen}")

    def expect_run(self, name, arguments, status, words, **more):
        """The exit status, nothing on standard output, and words of the message."""
        found, out, err = self.run_bytes(*arguments, **more)
        self.expect(name, (found, out) == (status, b"") and words in err, (found, out, err))


def short_files():
    """Lets a file have no more than ten bytes, as on a disk that is almost full."""
    resource.setrlimit(resource.RLIMIT_FSIZE, (10, 10))


def word_bytes(numbers):
    return b"".join(number.to_bytes(4, "big") for number in numbers)


def words_in(content):
    return [int.from_bytes(content[at:at + 4], "big") for at in range(0, len(content), 4)]


def record_of(code, version=b"", source=b"", sizes=None, globals_=0, constants=b"", imports=(), relocation=()):
    imported, behind = [len(imports), len(code), globals_], [len(relocation), len(version) // 4, len(source) // 4]
    sizes = sizes or imported + [len(constants) // 4] + behind
    return word_bytes(sizes) + word_bytes(imports) + code + constants + word_bytes(relocation) + version + source


def run_file_of(record, budget=100, results=b"\0", parameters=(), memory=64, stack=16):
    lists = bytes([len(results)]) + results + bytes([len(parameters)]) + word_bytes(parameters)
    return b"TRK\0\1" + lists + word_bytes([budget, memory << 16 | stack]) + record


def split_run_file(file):
    """The results list, the parameters, the place of the budget and the record of a run file that is one."""
    results = file[6:6 + file[5]]
    at = 6 + len(results)
    budget = at + 1 + 4 * file[at]
    return results, words_in(file[at + 1:budget]), budget, file[budget + 8:]


def digits_of(results):
    """A results list as the digits that --results takes; none where it has other numbers or is too long."""
    return "".join(map(str, results)) if len(results) <= 256 and all(number < 10 for number in results) else None


def rows_of(text):
    """The instructions of a listing, without their marks."""
    return [match.groups()[1:] for match in map(ROW.match, text.splitlines()) if match]


def marks_of(text):
    """The marks of a listing: the offset of each row of code, with the mark of the first row there."""
    code = text.split("\noffset ", 1)[-1]
    marks = {}
    for match in filter(None, map(CODE_ROW.match, code.splitlines())):
        marks.setdefault(int(match[2]), match[1])
    return marks


def marked(text):
    """The rows that have a mark, in one line."""
    return " ".join(f"{mark}{at}" for at, mark in marks_of(text).items() if mark != " ")


def mend_numbers(report):
    """The numbers that mend gives before and after, 0 where the file is accepted."""
    return [int(number or 0) for number in re.findall(r"^  (?:refused with (\d+): |accepted)", report, re.MULTILINE)]


def pages(*folders):
    """The stored run files, each with its page; where it has libraries, with that of an import which is not lent."""
    for folder in folders or (VECTORS / "pages", EXAMPLES):
        for path in sorted(folder.glob("*.run")):
            yield path, "check 17\n" if libraries_of(path) else path.with_suffix(".out").read_text()


def libraries_of(path):
    """The options that lend a stored file its libraries: NAME.libraries has SID=FILE in each line. None for most."""
    listed = path.with_suffix(".libraries")
    rows = [line.split("=", 1) for line in listed.read_text().splitlines()] if listed.exists() else []
    return [word for sid, name in rows for word in ("--library", f"{sid}={path.parent / name}")]


def cases():
    """The stored calls with their answers, as lists of words."""
    for path in sorted(VECTORS.glob("*.cases")):
        answers = path.with_suffix(".answers").read_text().splitlines()
        for case, answer in zip(path.read_text().splitlines(), answers):
            yield case.split(), answer.split()


def modules_of(case):
    """The SID and the record of each module of a call over a set; none of another call."""
    at = {"mcheck": 2, "mload": 1, "mrun": 1}.get(case[0])
    if at is None:
        return []
    words = case[at + 1:at + 1 + 2 * int(case[at])]
    return [(int(sid), from_hex(record)) for sid, record in zip(words[::2], words[1::2])]


def from_hex(text):
    return bytes.fromhex(text.replace("-", ""))
