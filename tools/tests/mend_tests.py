"""icode mend: the stored calls, what it says of each dropped word, run files with their heads, that it writes only where it may, and that
nothing is lost where it cannot write."""

import os
import re
import stat
import subprocess
import tempfile
import threading
from pathlib import Path
from harness import *

SOUND = bytes([0, 2, 0xE9])
ROW = re.compile(r"^ *(\d+)  (\d+)  (.*)$", re.MULTILINE)
COLUMNS = "dropped (byte in the record, number that refuses it, what it was):\n"
MIN_MENDED = 150  # among the stored calls
MIN_WITH_RESULTS = 10  # among the stored calls
LONGEST = 8_192  # bytes of a run file
NOBODY = 65_534  # has no rights but those of everybody


def mended(tests, content, *options):
    """Exit status, the mended file, the dropped words with their places and numbers, and the numbers before and after."""
    status, new, report = tests.run_bytes("mend", "-o", "-", *options, "-", input=content)
    rows = [(int(at), int(number), text) for at, number, text in ROW.findall(report)]
    return status, new, rows, mend_numbers(report)


def source_at(record):
    """The byte of a record at which its source table begins."""
    return len(record) - 4 * words_in(record[:28])[6]


def test_stored(tests):
    """The stored calls with room enough: the record and the places of each."""
    count = 0
    for case, answer in cases():
        if case[0] != "mend" or answer[1] == "8":
            continue
        record, (number, length) = from_hex(case[1]), map(int, answer[1:3])
        if number:
            tests.expect_run(f"mend {number}", ("mend", "-o", "-", "-"), 1, f"refused with {number}: ", input=record)
            continue
        count += 1
        _, new, rows, (before, after) = mended(tests, record)
        listed = [word for text in answer[6:] for word in [int(text.split("*")[-1])] * int(text.split("*")[0] if "*" in text else 1)]
        places = [at for at, _, _ in rows]
        numbered = all(refusing == (6 if at >= source_at(record) else 5) for at, refusing, _ in rows)
        good = numbered and new == from_hex(answer[4])[:length] and places == listed[:int(answer[3])] and after not in (5, 6)
        tests.expect(f"mend {case[1]}", good and (before in (5, 6) or before == 4 or (places, new) == ([], record)), (new.hex(), rows))
    tests.expect("enough of them are mended", count >= MIN_MENDED, count)


# Records: name, numbers before and after, what is said of each dropped word, record.
RECORDS = [
    ("sound", [0, 0], [], record_of(SOUND, b" 3/-AAAA", word_bytes([0, 1, 2, 2]))),
    ("version", [5, 0], [(31, 5, 'version word 0, "3/- " (33 2f 2d 20): malformed')], record_of(SOUND, b"3/- ")),
    ("versions", [5, 0], [(31, 5, 'version word 0, ".3/-" (80 33 2f 2d): malformed'),
                          (35, 5, 'version word 1, " 3/-" (20 33 2f 2d): behind a malformed one')], record_of(SOUND, b"\x803/- 3/-")),
    ("odd", [6, 0], [(31, 6, "the only source word, 7: of no pair")], record_of(SOUND, source=word_bytes([7]))),
    ("odd behind a pair", [6, 0], [(39, 6, "the last of 3 source words, 2: of no pair")], record_of(SOUND, source=word_bytes([1, 9, 2]))),
    ("at the code size", [6, 0], [(31, 6, "pair 0, offset 3: not below 3, the code size"), (35, 6, "pair 0, line 9")],
     record_of(SOUND, source=word_bytes([3, 9, 2, 1]))),
    ("beyond", [6, 0], [(39, 6, "pair 1, offset 4294967295: not below 3, the code size"), (43, 6, "pair 1, line 9")],
     record_of(SOUND, source=word_bytes([0, 1, 0xFFFFFFFF, 9]))),
    ("equal", [6, 0], [(39, 6, "pair 1, offset 1: not above 1, that of pair 0"), (43, 6, "pair 1, line 9")],
     record_of(SOUND, source=word_bytes([1, 1, 1, 9, 2, 2]))),
    ("the last kept one", [6, 0], [(39, 6, "pair 1, offset 5: not below 3, the code size"), (43, 6, "pair 1, line 9"),
                                   (47, 6, "pair 2, offset 0: not above 1, that of pair 0"), (51, 6, "pair 2, line 8")],
     record_of(SOUND, source=word_bytes([1, 1, 5, 9, 0, 8, 2, 2]))),
    ("imports", [5, 17], [(35, 5, 'version word 0, "xxxx" (78 78 78 78): malformed')],
     word_bytes([1, 3, 0, 0, 0, 1, 0, 0]) + SOUND + b"xxxx"),
    ("relocation, and both tables", [5, 18], [(35, 5, 'version word 0, "xxxx" (78 78 78 78): malformed'),
                                             (47, 6, "pair 1, offset 3: not below 3, the code size"), (51, 6, "pair 1, line 9")],
     word_bytes([0, 3, 0, 0, 1, 1, 4]) + SOUND + bytes(4) + b"xxxx" + word_bytes([1, 1, 3, 9])),
    ("both tables", [5, 0], [(31, 5, 'version word 0, "xxxx" (78 78 78 78): malformed'), (35, 6, "the only source word, 7: of no pair")],
     record_of(SOUND, b"xxxx", word_bytes([7]))),
    ("entries", [6, 7], [(29, 6, "the only source word, 7: of no pair")], record_of(b"\0", source=word_bytes([7]))),
    ("instructions", [6, 10], [(32, 6, "the only source word, 7: of no pair")],
     record_of(bytes([0, 2, 0x9B, 0xE9]), source=word_bytes([7]))),
    ("globals", [6, 0], [(35, 6, "the only source word, 7: of no pair")],
     record_of(SOUND, source=word_bytes([7]), sizes=[0, 3, 5, 1, 0, 0, 1], constants=bytes(4))),
]


def without(record, rows):
    """A record without these words, and its sizes of both tables."""
    kept, sizes = record, words_in(record[:28])
    for at, _, text in reversed(rows):
        kept = kept[:at] + kept[at + 4:]
        sizes[5 if text.startswith("version") else 6] -= 1
    return word_bytes(sizes) + kept[28:]


def test_records(tests):
    """What is said and written of each kind of damage, in a record and in a run file; mended once more nothing is dropped."""
    head = run_file_of(b"", parameters=[], memory=40)
    for name, numbers, rows, record in RECORDS:
        expected = without(record, rows)
        for before, after in ((record, expected), (head + record, head + expected)):
            found = mended(tests, before)
            tests.expect(f"{name}", found == (min(numbers[1], 1), after, rows, numbers), found)
            found = mended(tests, after)
            tests.expect(f"{name}, again", found == (min(numbers[1], 1), after, [], numbers[1:] * 2), found)


def test_run_files(tests):
    """The head stays, and decides what is said afterwards; a mended file lists and runs."""
    source = word_bytes([2, 12, 1, 7])
    code = bytes([0, 2, 0x83, 3, 0xE8, 0x00, 0xA3, 0x50, 0xE9])
    damaged, sound = record_of(code, b"12/b", source, globals_=1), record_of(code, b"", source[:8], globals_=1)
    for head, number in (({}, 0), ({"parameters": [5]}, 0), ({"parameters": [5, 6]}, 8), ({"results": b"\0\0"}, 9), ({"stack": 1025}, 8)):
        status, new, rows, numbers = mended(tests, run_file_of(damaged, **head))
        good = new == run_file_of(sound, **head) and (status, len(rows), numbers) == (min(number, 1), 3, [5, number])
        tests.expect(f"head {head}", good, (status, new, rows, numbers))
        status, out, err = tests.list(new)
        tests.expect(f"head {head}, listed", f"\ncheck {number}: " in out and "offset 2 line 12\n" in out, (out, err))
        status, out, err = tests.run("page", "-", input=new)
        expected = "check 0\nend 30 at 6 line 12 steps 2\n" if number == 0 else f"check {number}\n"
        tests.expect(f"head {head}, run", status == 1 and out.startswith(expected), (out, err))


def test_limit(tests):
    """A run file of 8,192 bytes is mended; one of more is 16, though its record alone is mended."""
    head = run_file_of(b"", results=b"\0\0\0")
    code = bytes([0, 2]) + b"\xFF" * (LONGEST - len(head) - 28 - 4096 - 3) + b"\xE9"
    record = record_of(code, source=word_bytes([0, 1] * 512))
    status, new, rows, numbers = mended(tests, head + record)
    good = len(head + record) == LONGEST and new == head + record_of(code, source=word_bytes([0, 1]))
    tests.expect("the longest run file", good and (status, len(rows), numbers) == (1, 1022, [6, 9]), (status, len(new), numbers))
    longer = record_of(code + b"\xE9", source=word_bytes([0, 1] * 512))
    tests.expect_run("a longer run file", ("mend", "-o", "-", "-"), 1, "refused with 16: ", input=head + longer)
    status, new, rows, numbers = mended(tests, longer)
    tests.expect("its record", (status, len(rows), numbers) == (0, 1022, [6, 0]), (status, numbers))
    longest = record_of(bytes(4096), b"x" * 64, word_bytes([9, 9] * 1024), sizes=[0, 4096, 0, 1024, 0, 16, 2048], constants=bytes(4096))
    status, new, rows, numbers = mended(tests, longest)
    good = len(new) == 28 + 4096 + 4096 + 8 and (status, len(rows), numbers) == (1, 16 + 2046, [5, 7])
    tests.expect("a record with the largest tables", good, (status, len(new), len(rows), numbers))
    source = word_bytes(word for pair in range(1023) for word in (4 * pair, pair)) + word_bytes([4092, 1])
    longest = word_bytes([16, 4096, 0, 1024, 4096, 16, 2048]) + bytes(64 + 4096 + 4096 + 16384) + b"12/B" * 16
    status, new, rows, numbers = mended(tests, longest + source[:-8] + word_bytes([4096, 1]))
    dropped = [(32916, 6, "pair 1023, offset 4096: not below 4096, the code size"), (32920, 6, "pair 1023, line 1")]
    good = new == longest[:24] + word_bytes([2046]) + longest[28:] + source[:-8] and (status, rows, numbers) == (1, dropped, [6, 7])
    tests.expect("the longest record", good, (status, len(new), rows, numbers))


def test_results(tests):
    """A record whose procedures leave results is judged with those that --results gives, and with all 0 without it."""
    count = 0
    for case, answer in cases():
        results = from_hex(case[2]) if case[0] == "check" else b""
        if not any(results) or answer[1] != "0":
            continue
        count += 1
        record = from_hex(case[1])
        damaged = record[:24] + word_bytes([words_in(record[:28])[6] + 1]) + record[28:] + bytes(4)
        found = mended(tests, damaged, "--results", digits_of(results))
        tests.expect(f"results {case[1][:80]}", found[:2] == (0, record) and found[3] == [6, 0], found)
        _, said, _ = tests.run("mend", "--dry-run", "-", input=damaged)
        named = re.findall(r"(?:accepted|refused with (?:9|1[0-5]): .*) \(all results taken as 0; --results gives others\)$", said, re.MULTILINE)
        tests.expect(f"no results {case[1][:80]}", len(named) == 1, said)
    tests.expect("enough records have results", count >= MIN_WITH_RESULTS, count)
    status, _, _, numbers = mended(tests, run_file_of(record_of(SOUND)), "--results", "00")
    tests.expect("--results goes before a run file's list", (status, numbers) == (1, [9, 9]), numbers)
    for digits in ("x", "0 1", "0" * 257):
        found = [tests.run(command, "--results", digits, "x")[2].splitlines()[0] for command in ("list", "mend")]
        tests.expect(f"--results {digits}", "no list of digits" in found[0] and found[0] == found[1], found)


DAMAGED = record_of(SOUND, b"3/- ")
MENDED = record_of(SOUND)
STILL_REFUSED = record_of(bytes([0, 2, 0x9B]), b"3/- ")  # with 10


def holds(folder, **files):
    """Whether a folder has just these files, by name and content."""
    return {path.name: path.read_bytes() for path in folder.iterdir()} == {name.replace("_", "."): content for name, content in files.items()}


def test_beside(tests, folder):
    """Without -o a file FILE.mended is made, where something is dropped; none is written over."""
    file, beside = folder / "file", folder / "file.mended"
    file.write_bytes(DAMAGED)
    status, dry, err = tests.run("mend", "--dry-run", file)
    good = (status, err) == (0, "") and COLUMNS in dry and dry.endswith("\nnothing is written, as --dry-run asks\n")
    tests.expect("--dry-run", good and holds(folder, file=DAMAGED), (status, dry, err))
    status, said, err = tests.run("mend", file)
    good = (status, err) == (0, "") and said.endswith(f"\nwritten to {beside}\n") and said.splitlines()[:-1] == dry.splitlines()[:-1]
    tests.expect("FILE.mended", good and holds(folder, file=DAMAGED, file_mended=MENDED), (status, said, err))
    beside.write_bytes(b"before")
    there = f"icode: cannot write '{beside}': it exists; -o OUT names another file, and --in-place writes over FILE\n"
    tests.expect_run("FILE.mended is there", ("mend", file), 2, there)
    tests.expect("FILE.mended is as it was", holds(folder, file=DAMAGED, file_mended=b"before"))
    beside.unlink()
    beside.symlink_to("nowhere")
    tests.expect_run("FILE.mended is a link", ("mend", file), 2, there)
    tests.expect("nothing is made behind the link", sorted(folder.iterdir()) == [file, beside])
    file.write_bytes(MENDED)
    status, said, err = tests.run("mend", file)
    good = (status, err) == (0, "") and said.endswith("\nnothing is written, since nothing is dropped\n")
    tests.expect("nothing is dropped", good and sorted(folder.iterdir()) == [file, beside], (status, said, err))
    beside.unlink()
    file.write_bytes(STILL_REFUSED)
    status, said, err = tests.run("mend", "file", cwd=folder)
    good = (status, err) == (1, "") and said.endswith("\nwritten to file.mended\n") and "refused with 10: " in said
    tests.expect("still refused", good and holds(folder, file=STILL_REFUSED, file_mended=record_of(bytes([0, 2, 0x9B]))), (status, said, err))


def test_out(tests, folder):
    """OUT is written over, but not where it is FILE by any of its names."""
    file, out = folder / "file", folder / "out"
    file.write_bytes(DAMAGED)
    for content, words in ((DAMAGED, "refused with 5: "), (MENDED, "\nnothing is dropped\n")):
        file.write_bytes(content)
        out.write_bytes(b"before")
        status, said, err = tests.run("mend", file, "-o", out)
        good = (status, err) == (0, "") and said.endswith(f"\nwritten to {out}\n") and words in said
        tests.expect("-o", good and holds(folder, file=content, out=MENDED), (status, said, err))
    (folder / "link").symlink_to(file)
    os.link(file, folder / "name")
    for name in ("file", "./file", "link", "name"):
        words = "OUT is FILE itself; --in-place writes over it\nusage: icode mend"
        tests.expect_run(f"-o {name}", ("mend", "file", "-o", name), 2, words, cwd=folder)
        with open(file, "rb") as stdin:
            tests.expect_run(f"- -o {name}", ("mend", "-", "-o", name), 2, words, cwd=folder, stdin=stdin)
    tests.expect("FILE is as it was", file.read_bytes() == MENDED)
    for target, reason in (("/dev/full", "No space left on device"), (folder, "Is a directory")):
        status, said, err = tests.run("mend", file, "-o", target)
        good = status == 2 and err == f"icode: cannot write '{target}': {reason}\n" and "written to" not in said
        tests.expect(f"-o {target}", good, (status, said, err))
    with open("/dev/null", "rb") as null:
        tests.expect_run("-o /dev/null from itself", ("mend", "-", "-o", "/dev/null"), 1, "refused with 1: ", stdin=null)


def test_replaced(tests, folder):
    """OUT keeps its owner and permissions; a link stays one, also to what is not there yet; another name of OUT keeps the old bytes."""
    within = folder / "within"
    within.mkdir()
    file, out, name = folder / "file", within / "out", folder / "name"
    file.write_bytes(DAMAGED)
    for link, target in (("link", "within/out"), ("second", "link"), ("third", out)):
        (folder / link).symlink_to(target)
    owner = (NOBODY, NOBODY) if os.geteuid() == 0 else (os.geteuid(), os.getegid())
    for target, mode in ((out, 0o640), (folder / "link", 0o604), (folder / "second", 0o600)):
        out.write_bytes(b"before")
        os.chown(out, *owner)
        out.chmod(mode)
        os.link(out, name)
        status, said, err = tests.run("mend", file, "-o", target)
        found = out.stat()
        good = (status, err) == (0, "") and said.endswith(f"\nwritten to {target}\n") and name.read_bytes() == b"before"
        good = good and (stat.S_IMODE(found.st_mode), found.st_uid, found.st_gid) == (mode, *owner) and holds(within, out=MENDED)
        tests.expect(f"-o {target}, over a file", good and (folder / "link").is_symlink(), (status, said, err, found))
        name.unlink()
        out.unlink()
    for target in (folder / "second", folder / "third", out):
        status, said, err = tests.run("mend", file, "-o", target, umask=0o027)
        good = (status, err) == (0, "") and holds(within, out=MENDED) and stat.S_IMODE(out.stat().st_mode) == 0o640
        good = good and all((folder / link).is_symlink() for link in ("link", "second", "third"))
        tests.expect(f"-o {target}, a new file", good, (status, err))
        out.unlink()


def test_direct(tests, folder):
    """A device, a pipe and an open file are no files that could be replaced: they take the bytes as they come."""
    file, pipe, opened = folder / "file", folder / "pipe", folder / "opened"
    file.write_bytes(DAMAGED)
    os.mkfifo(pipe)
    for output in (subprocess.PIPE, subprocess.DEVNULL):
        status, _, err = tests.run("mend", file, "-o", "/dev/null", stdout=output)
        tests.expect("-o /dev/null", (status, err) == (0, "") and Path("/dev/null").is_char_device(), (status, err))
    got = []
    reader = threading.Thread(target=lambda: got.append(pipe.read_bytes()))
    reader.start()
    status, said, err = tests.run("mend", file, "-o", pipe)
    reader.join()
    good = (status, err, got) == (0, "", [MENDED]) and said.endswith(f"\nwritten to {pipe}\n") and pipe.is_fifo()
    tests.expect("-o to a pipe", good, (status, said, err, got))
    (folder / "link").symlink_to("/dev/fd")
    for removed in (False, True):
        with open(opened, "w+b") as stream:
            stream.write(b"before")
            stream.flush()
            if removed:
                opened.unlink()
            for name in (f"/dev/fd/{stream.fileno()}", folder / "link" / str(stream.fileno())):
                status, _, err = tests.run("mend", file, "-o", name, pass_fds=[stream.fileno()])
                stream.seek(0)
                got = stream.read()
                tests.expect(f"-o {name}, removed {removed}", (status, err, got) == (0, "", MENDED), (status, err, got))
    tests.expect("nothing else is made", sorted(path.name for path in folder.iterdir()) == ["file", "link", "pipe"])


def test_apart(tests, folder):
    """What is dropped is printed neither into FILE nor among the bytes of the mended file, by whatever name; that is seen before anything is
    written."""
    file, out, name = folder / "file", folder / "out", folder / "name"
    ways = {">": os.O_WRONLY | os.O_TRUNC, ">>": os.O_WRONLY | os.O_APPEND, "1<>": os.O_RDWR}
    printed = "itself, and what is dropped would be printed there\nusage: icode mend"
    out.write_bytes(b"before")
    os.link(out, name)
    (folder / "link").symlink_to(out)

    def refused(call, arguments, way, path, words, **more):
        file.write_bytes(DAMAGED)
        out.write_bytes(b"before")
        stream = os.open(path, ways[way])
        before = path.read_bytes()
        status, _, err = tests.run("mend", *arguments, cwd=folder, stdout=stream, **more)
        os.close(stream)
        good = status == 2 and err.startswith(f"icode: {words}") and path.read_bytes() == before and file.read_bytes() == DAMAGED
        tests.expect(f"mend {call}", good and len(list(folder.iterdir())) == 4, (status, err, path.read_bytes()))

    for way in ways:
        for target in ("out", "name", "link", "/dev/stdout", "/dev/fd/1", "/proc/self/fd/1"):
            refused(f"-o {target} file {way} out", ("-o", target, "file"), way, out, f"standard output is the mended file {printed}")
    for way in (">>", "1<>"):
        refused(f"-o - file {way} file", ("-o", "-", "file"), way, file, "OUT is FILE itself; --in-place writes over it\nusage: icode mend")
        for option in ((), ("--in-place",), ("--dry-run",), ("-o", "other")):
            refused(f"{option} file {way} file", (*option, "file"), way, file, f"standard output is FILE {printed}")
        for option, words in (("-o", "-"), "OUT is FILE itself; "), (("-o", "other"), f"standard output is FILE {printed}"):
            file.write_bytes(DAMAGED)
            with open(file, "rb") as stdin:
                refused(f"{option} - < file {way} file", (*option, "-"), way, file, words, stdin=stdin)
    file.write_bytes(DAMAGED)
    for arguments in (("-o", "/dev/stdout", "file"), ("-o", "/dev/fd/1", "file")):
        tests.expect_run(f"{arguments}, a pipe", ("mend", *arguments), 2, f"standard output is the mended file {printed}", cwd=folder)
    with open(out, "ab") as appended:
        for stdout in (subprocess.PIPE, appended):
            status, said, _ = tests.run_bytes("mend", "-o", "-", "file", cwd=folder, stdout=stdout, stderr=subprocess.STDOUT)
            said = said or out.read_bytes()
            words = f"icode: standard error is the mended file {printed}"
            tests.expect("-o -, both to one", status == 2 and words.encode() in said and COLUMNS.encode() not in said, (status, said))
    beside = folder / "file.mended"
    with open(beside, "wb") as stdout:
        status, _, err = tests.run("mend", "file", cwd=folder, stdout=stdout)
    good = status == 2 and err.startswith(f"icode: standard output is the mended file {printed}") and beside.read_bytes() == b""
    tests.expect("file > file.mended", good and file.read_bytes() == DAMAGED, (status, err))


def test_in_place(tests, folder):
    """FILE is written over, through a link, with its owner and permissions; another name of it keeps the old bytes. Where nothing is dropped
    FILE is left alone."""
    within = folder / "within"
    within.mkdir()
    file, link, name = within / "file", folder / "link", folder / "name"
    link.symlink_to("within/file")
    owner = (NOBODY, NOBODY) if os.geteuid() == 0 else (os.geteuid(), os.getegid())
    for target, mode in ((file, 0o640), (link, 0o604), (file, 0o4755)):
        file.write_bytes(DAMAGED)
        os.chown(file, *owner)
        file.chmod(mode)
        os.link(file, name)
        status, said, err = tests.run("mend", "--in-place", target)
        good = (status, err) == (0, "") and said.endswith(f"\nwritten to {target}\n") and name.read_bytes() == DAMAGED
        found = file.stat()
        good = good and (stat.S_IMODE(found.st_mode), found.st_uid, found.st_gid) == (mode, *owner) and link.is_symlink()
        tests.expect(f"--in-place {target}", good and holds(within, file=MENDED), (status, said, err, found))
        name.unlink()
        file.unlink()
    file.write_bytes(MENDED)
    before = file.stat()
    status, said, err = tests.run("mend", "--in-place", file)
    good = (status, err) == (0, "") and said.endswith("\nnothing is written, since nothing is dropped\n")
    found = file.stat()
    good = good and (found.st_ino, found.st_mtime_ns) == (before.st_ino, before.st_mtime_ns)
    tests.expect("--in-place, nothing is dropped", good and holds(within, file=MENDED), (status, said, err, found))
    file.write_bytes(DAMAGED)
    leave = {"preexec_fn": lambda: Path(f".icode-{os.getpid()}-0").write_text("left")}
    status, said, err = tests.run("mend", "--in-place", "file", cwd=within, **leave)
    left = sorted(path.read_bytes() for path in within.iterdir())
    tests.expect("a temporary file that was left", (status, left) == (0, sorted([MENDED, b"left"])), (status, left, err))


def test_no_regular_file(tests, folder):
    """What is no regular file, or is meant as an open one, is not replaced by one; nothing is read from a pipe before it is refused."""
    pipe, file = folder / "pipe", folder / "file"
    os.mkfifo(pipe)
    file.write_bytes(DAMAGED)
    words = "icode: FILE is no regular file under a name of its own, and cannot be written in place\nusage: icode mend"
    for name in (pipe, folder, "/dev/null", "/dev/stdin"):
        with open(file, "rb") as stdin:
            tests.expect_run(f"--in-place {name}", ("mend", "--in-place", name), 2, words, stdin=stdin)
    read, write = os.pipe()
    os.write(write, DAMAGED)
    os.close(write)
    tests.expect_run("--in-place <(cat file)", ("mend", "--in-place", f"/dev/fd/{read}"), 2, words, pass_fds=[read])
    tests.expect("nothing is read", os.read(read, 100) == DAMAGED)
    os.close(read)
    tests.expect("all is as it was", pipe.is_fifo() and file.read_bytes() == DAMAGED and sorted(folder.iterdir()) == [file, pipe])


def lost(stream, descriptor, full, unwritable):
    """Outputs that take nothing, by name."""
    closed = {stream: None, "preexec_fn": lambda: os.close(descriptor)}
    return {"closed": closed, "full": {stream: full}, "not for writing": {stream: unwritable}}


def test_unsaid(tests, folder):
    """Nothing is written where it cannot be said what is dropped."""
    file, out = folder / "file", folder / "out"
    file.write_bytes(DAMAGED)
    with open("/dev/full", "wb") as full, open("/dev/null", "rb") as unwritable:
        for option in ((), ("--in-place",), ("-o", out)):
            for name, output in lost("stdout", 1, full, unwritable).items():
                status, _, err = tests.run("mend", file, *option, **output)
                good = status == 2 and "icode: cannot write to standard output: " in err and holds(folder, file=DAMAGED)
                tests.expect(f"{option}, output {name}", good, (status, err))
        for name, errors in lost("stderr", 2, full, unwritable).items():
            status, new, _ = tests.run_bytes("mend", file, "-o", "-", **errors)
            tests.expect(f"-o -, standard error {name}", (status, new) == (2, b""), (status, new))
        status, _, err = tests.run("mend", file, "-o", "-", stdout=full)
        good = status == 2 and COLUMNS in err and err.endswith("\nicode: cannot write to standard output: No space left on device\n")
        tests.expect("-o -, what is dropped is said first", good, (status, err))


def test_no_room(tests, folder):
    """FILE and OUT stay as they are where there is no room for the new one, and nothing is left beside them; what is dropped is said all the
    same."""
    file, out, new = folder / "file", folder / "out", folder / "new"
    file.write_bytes(DAMAGED)
    out.write_bytes(b"before")
    for option, target in (((), folder / "file.mended"), (("--in-place",), file), (("-o", out), out), (("-o", new), new)):
        status, said, err = tests.run("mend", file, *option, preexec_fn=short_files)
        good = (status, err) == (2, f"icode: cannot write '{target}': File too large\n") and COLUMNS in said and "written to" not in said
        tests.expect(f"{option}, no room", good and holds(folder, file=DAMAGED, out=b"before"), (status, said, err))


def test_protected(tests, folder):
    """A folder that takes no new file, a file that may not be written, and one of another user that may, for one who is not root."""
    open_, locked, shared = folder / "open", folder / "locked", folder / "shared"
    for within, mode, file_mode in ((open_, 0o777, 0o444), (locked, 0o555, 0o666), (shared, 0o777, 0o666)):
        within.mkdir()
        (within / "file").write_bytes(DAMAGED)
        (within / "file").chmod(file_mode)
        within.chmod(mode)
    folder.chmod(0o755)
    user = {"user": NOBODY, "group": NOBODY, "extra_groups": []} if os.geteuid() == 0 else {}
    try:
        tests.run("--version", **user)
    except (PermissionError, subprocess.SubprocessError) as error:
        print(f"skipped: mend in folders and over files that are protected: root may write all, and nobody cannot run the program: {error}")
        return
    denied, owned = "Permission denied", "it belongs to another user or group, and no file of yours can take its place"
    example = EXAMPLES / "page-twelve-damaged.run"
    over = (("--in-place", "file"), ("-o", "file", "-"))
    calls = [(locked, ("file",), "file.mended", denied)]
    calls += [(within, arguments, "file", denied) for within in (locked, open_) for arguments in over]
    calls += [(shared, arguments, "file", owned) for arguments in over if user]
    for within, arguments, target, reason in calls:
        with open(example, "rb") as stdin:
            status, said, err = tests.run("mend", *arguments, cwd=within, stdin=stdin, **user)
        good = (status, err) == (2, f"icode: cannot write '{target}': {reason}\n") and COLUMNS in said
        tests.expect(f"{arguments} in {within.name}", good and holds(within, file=DAMAGED), (status, said, err))
    locked.chmod(0o755)


def test_refused(tests, folder):
    """What cannot be mended is not written."""
    file, out = folder / "file", folder / "out"
    out.write_bytes(b"before")
    for content in (b"", MENDED + b"\0", run_file_of(b"")[:-1], run_file_of(MENDED[:-1])):
        file.write_bytes(content)
        for option in ((), ("-o", out), ("--in-place",), ("--dry-run",)):
            tests.expect_run(f"{option}, refused", ("mend", file, *option), 1, "refused with ")
        tests.expect("nothing is written", holds(folder, file=content, out=b"before"))


def test_options(tests):
    exclude = "-o, --in-place and --dry-run exclude each other"
    for arguments, words in ((("mend", "-o", "x", "--in-place", "y"), exclude),
                             (("mend", "-o", "x", "--dry-run", "y"), exclude),
                             (("mend", "--dry-run", "--in-place", "y"), exclude),
                             (("mend", "--in-place", "-"), "standard input cannot be written in place"),
                             (("mend", "-"), "standard input has no name to add .mended to; it needs -o OUT or --dry-run"),
                             (("mend", "x", "-o"), "-o needs OUT behind it"),
                             (("mend", "--results"), "--results needs DIGITS behind it"),
                             (("mend", "--dry-run=x", "x"), "--dry-run takes no value"),
                             (("mend", "--in-place=x", "x"), "--in-place takes no value")):
        tests.expect_run(f"{arguments}", arguments, 2, f"{words}\nusage: icode mend ")


def test_example(tests):
    """The stored mended form is what comes out of the damaged one."""
    damaged, stored = ((EXAMPLES / f"page-twelve-{name}.run").read_bytes() for name in ("damaged", "mended"))
    status, new, rows, numbers = mended(tests, damaged)
    tests.expect("example", (status, new, numbers) == (0, stored, [5, 0]), (status, new, rows, numbers))


def test(tests):
    test_stored(tests)
    test_records(tests)
    test_run_files(tests)
    test_limit(tests)
    test_results(tests)
    test_options(tests)
    test_example(tests)
    for part in (test_beside, test_out, test_replaced, test_direct, test_apart, test_in_place, test_no_regular_file, test_unsaid, test_no_room,
                 test_protected, test_refused):
        with tempfile.TemporaryDirectory() as folder:
            part(tests, Path(folder))
