#!/usr/bin/env python3
"""lists.py: lists that stand in two places say the same. Prints what differs, and exits with 1 where anything does.

  docs/OPCODES.md         what the program opcode_table prints, from the table of lengths, and the mnemonics beside its entries
  docs/NUMBERS.md         the names of include/icode.h, the messages of the console and of icode list
  docs/ARCHITECTURE.md    the crates of crates.txt, in its order and layers
  crates.txt              the crates that each crate's files name
  docs/PROMISES.md        the public functions of each crate, which of them have a `requires`, and the theorems that its specs/ state
  docs/RULES.md, README   names of functions, definitions and laws that there are
  include/icode.h, .rs    the exported functions
"""

import re
import sys
from pathlib import Path

import edits

ROOT = Path(__file__).resolve().parent.parent


def text(name):
    return (ROOT / name).read_text()


def rows(name, heading=None):
    """The rows of the tables of a document, or of one chapter of it, as lists of cells."""
    body = text(name)
    if heading:
        body = body.split(f"\n## {heading}\n", 1)[1].split("\n## ", 1)[0]
    found = [[cell.strip() for cell in line.strip().strip("|").split("|")] for line in body.splitlines() if line.startswith("|")]
    return [row for at, row in enumerate(found) if set(row[0]) != {"-"} and (at + 1 == len(found) or set(found[at + 1][0]) != {"-"})]


def differences(what, one, other):
    """Says where two lists differ, each a name for its place."""
    for key in sorted({*one, *other}):
        if one.get(key) != other.get(key):
            yield f"{what}: {key}: {one.get(key, 'missing')} / {other.get(key, 'missing')}"


def opcodes():
    """Code, mnemonic, length and marks, of all 256; an unserved code has no length, and the sheet no mnemonic for it."""
    written = {}
    for code, mnemonic, _, length, marks, *_ in rows("docs/OPCODES.md"):
        unserved = (length, marks) == ("-", "unserved")
        written[code] = "- unserved" if unserved else f"{mnemonic} {length} {marks}"
    printed = dict(line.split(" ", 1) for line in text("crates/opcode_table/stdout").splitlines())
    if list(printed) != [f"{code:02X}" for code in range(256)]:
        yield "crates/opcode_table/stdout: not the 256 codes in their order"
    yield from differences("docs/OPCODES.md / opcode_table", written, printed)


def sheet():
    """The codes and mnemonics that stand beside the entries of the table of lengths."""
    written = {code: mnemonic.strip("-") for code, mnemonic, *_ in rows("docs/OPCODES.md")}
    entries = re.findall(r"^ +0x\w+, // (\w\w)(?: (\S+))?$", text("crates/opcode/src/format.rt"), re.M)
    if [code for code, _ in entries] != [f"{code:02X}" for code in range(256)]:
        yield "crates/opcode/src/format.rt: not the 256 codes in their order"
    yield from differences("docs/OPCODES.md / format.rt", written, dict(entries))


def header_numbers():
    """What include/icode.h says of each name of a number, and the numbers by name."""
    listed_there = text("include/icode.h").split("enum icode_number", 1)[1].split("};", 1)[0]
    found = re.findall(r"(ICODE_\w+) = (\d+),?\s*/\*(.*?)\*/", listed_there, re.S)
    words = {int(number): re.sub(r"\s*\n\s*\* | +", " ", meaning).strip() for _, number, meaning in found}
    return words, {name: int(number) for name, number, _ in found}


def console_messages():
    names = header_numbers()[1]
    return {names.get(name, name): words for name, words in re.findall(r'\[(\w+)\] =\s+"(.*)",', text("console/messages.c"))}


def listing_messages():
    found = re.findall(r'(\d+) => \{?\s*"((?:[^"\\]|\\\s*)*)"', text("tools/src/meaning.rs"))
    return {int(number): re.sub(r"\\\s*", "", words) for number, words in found}


def numbers():
    """A message is a row of its number; the console has one for every number, and the header a name that says all its rows."""
    meanings = {}
    for number, meaning, *_ in rows("docs/NUMBERS.md"):
        meanings.setdefault(int(number), []).append(meaning)
    for name, messages in (("console", console_messages()), ("listing", listing_messages())):
        if not messages:
            yield f"docs/NUMBERS.md: no message of the {name} was found"
        for number, words in messages.items():
            if words not in meanings.get(number, []):
                yield f"docs/NUMBERS.md: {number}: the {name} says: {words}"
    for number in sorted({*meanings} - {*console_messages()}):
        yield f"docs/NUMBERS.md: {number}: the console has no message"
    rows_of = {number: "; ".join(found) for number, found in meanings.items()}
    yield from differences("docs/NUMBERS.md / include/icode.h", rows_of, header_numbers()[0])


def listed():
    """The crates of crates.txt with their layers, and what each depends on."""
    layers, depends, layer = {}, {}, ""
    for line in text("crates.txt").splitlines():
        if line.startswith("# ") and line.endswith("."):
            continue
        if line.startswith("# "):
            layer = line[2:].split(":")[0]
        elif line.strip():
            name, _, others = line.partition(":")
            name = name.split()[0]  # `staticlib` may stand behind it
            layers[name], depends[name] = layer, others.split()
    return layers, depends


def architecture():
    layers, _ = listed()
    named = {row[0].strip("`"): row[1] for row in rows("docs/ARCHITECTURE.md", "The crates")}
    yield from differences("docs/ARCHITECTURE.md / crates.txt", named, layers)
    if not named.keys() ^ layers.keys() and list(named) != list(layers):
        yield "docs/ARCHITECTURE.md / crates.txt: the crates stand in another order"


def names_in(crate, others):
    """The crates that the files of a crate name."""
    found = set()
    for path in (ROOT / "crates" / crate).rglob("*"):
        if path.suffix == ".antt":
            found |= set(re.findall(r"\bRattle\.(\w+)\.", path.read_text()))
        elif path.suffix == ".rt":
            code = re.sub(r"//.*", "", path.read_text())
            found |= set(re.findall(r"\bRattle\.(\w+)\.", code)) | {name for name in re.findall(r"(?<![:\w])(\w+)::", code) if name in others}
    return found - {crate, "std"}


def dependencies():
    _, depends = listed()
    known = {*depends, *(name for others in depends.values() for name in others)}
    for crate, others in depends.items():
        named = names_in(crate, known)
        for name in sorted(named ^ set(others)):
            yield f"crates.txt: {crate}: {name} is {'named, not listed' if name in named else 'listed, not named'}"


def promises():
    """A row for each public function and for each theorem that is stated in specs/."""
    named, crate = set(), ""
    for line in text("docs/PROMISES.md").splitlines():
        crate = line[3:].strip() if line.startswith("## ") else crate
        row = re.match(r"\| `([\w:.-]+)` \|", line)
        if row:
            named.add((crate, row.group(1)))
    public = {(crate, name) for crate, name, is_public, *_ in edits.functions() if is_public}
    stated = {name for _, name in edits.statements()}
    proved = {theorem for statement, theorem in edits.theorems().items() if statement in stated}
    for crate, name in sorted((public | proved) - named):
        yield f"docs/PROMISES.md: {crate}: {name} has no row"
    laws = {(path.parent.parent.name, f"{path.stem}.{law}") for path in ROOT.glob("crates/*/proofs/*.antt") for law in declared(path)}
    for crate, name in sorted(named - public - laws):
        yield f"docs/PROMISES.md: {crate}: there is no {name}"


def internal():
    """A public function has a `requires` just where its row says Internal; what C calls has none."""
    said, crate = {}, ""
    for line in text("docs/PROMISES.md").splitlines():
        crate = line[3:].strip() if line.startswith("## ") else crate
        row = re.match(r"\| `([\w:.-]+)` \| ([^|]*)", line)
        if row:
            said[crate, row.group(1)] = "Internal" in row.group(2)
    for crate, name, is_public, file, begin, _ in edits.functions():
        code = text(f"crates/{crate}/{file}")
        head = [found.start() for found in re.finditer(rf"fn {name.split('::')[-1]}\b", code) if found.start() < begin][-1]
        required = re.search(r"^\s*requires\b", code[head:begin], re.M) is not None
        if is_public and required != said.get((crate, name), False):
            yield f"docs/PROMISES.md: {crate}: {name} {'has a requires, and is not said to be' if required else 'has no requires, and is said to be'} Internal"


def declared(path):
    return re.findall(r"^\s*(?:pub )?([\w'-]+) :", path.read_text(), re.M)


def known_words():
    """All words of the code, and the names of files."""
    found = set()
    for path in [*ROOT.glob("crates/**/*.rt"), *ROOT.glob("crates/**/*.antt"), *ROOT.glob("tests/src/**/*.rs"), *ROOT.glob("include/*")]:
        found |= set(re.findall(r"[\w'-]+", path.read_text())) | {path.stem, path.name}
    files = [path for folder in ("crates", "tests", "console", "tools", "docs", "examples") for path in (ROOT / folder).rglob("*")]
    return found | {path.name for path in files} | {path.stem for path in files}


def names_in_documents():
    """What a document sets in code type, by its parts, is a word of the code or a file."""
    known = known_words() | {"00-letter.md", "01-scope.md", "02-change-requests.md"}
    for document in ("docs/RULES.md", "docs/PROMISES.md"):
        for quoted in sorted(set(re.findall(r"`([\w:.'-]+)`", text(document)))):
            parts = [part for part in re.split(r"::|\.(?=[a-zA-Z])", quoted) if part]
            if quoted not in known and not all(part in known for part in parts):
                yield f"{document}: nothing is named {quoted}"


def defined(path):
    """The names that a file of definitions declares, its fields and constructors too."""
    heads = re.findall(r"^\s*(?:abbrev |unfoldable )?(?:pub )?(?:record |data )?([\w' ]+?)(?: [({].*)? :", path.read_text(), re.M)
    return {name for head in heads for name in head.split()}


def definitions():
    """What docs/RULES.md names behind `File:` is declared in a file of that name under specs/."""
    files = {}
    for path in ROOT.glob("crates/*/specs/*.antt"):
        files.setdefault(path.stem, set()).update(defined(path))
    for _, cell, *_ in rows("docs/RULES.md"):
        for file, names in re.findall(r"\b([A-Z]\w+)[:,] ((?:`[\w'-]+`(?: \([^)]*\))?(?:, )?)+)", cell):
            for name in re.findall(r"`([\w'-]+)`", re.sub(r"\([^)]*\)", "", names)):
                if name not in files.get(file, ()):
                    yield f"docs/RULES.md: {file} has no {name}"


def exports():
    """The functions that C calls, as the crate exports and both declarations name them."""
    exported = {name.split("::")[-1] for crate, name, *_ in edits.functions() if name.split("::")[-1].startswith("icode_")}
    for file in ("include/icode.h", "include/icode.rs"):
        there = set(re.findall(r"\bicode_\w+(?=\()", re.sub(r"/\*.*?\*/", "", text(file), flags=re.S)))
        for name in sorted(exported ^ there):
            yield f"{file}: {name} is {'not declared' if name in exported else 'not exported'}"


CHECKS = (opcodes, sheet, numbers, architecture, dependencies, promises, internal, names_in_documents, definitions, exports)


def main():
    faults = [fault for check in CHECKS for fault in check()]
    print(*faults, sep="\n", end="\n" if faults else "")
    return 1 if faults else 0


if __name__ == "__main__":
    sys.exit(main())
