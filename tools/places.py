#!/usr/bin/env python3
"""places.py [--list] [FOLDER]: counts the places in src/ that are written in an older form, point by point; --list names them.

Run at the top of the repository, or on a checkout of another commit (FOLDER). docs/DESIGN-PASS.md says what became of each place.
"""

import re
import sys
from collections import defaultdict
from pathlib import Path

FUNCTION = re.compile(r"^( *)(?:pub )?(?:extern \"C\" )?fn (\w+)", re.M)


def sources(root):
    return [(path, path.read_text()) for path in sorted(root.glob("crates/*/src/**/*.rt"))]


def functions(root):
    """(place, name, head, body) of each function: the head has parameters and clauses."""
    for path, text in sources(root):
        for found in FUNCTION.finditer(text):
            indent = found.group(1)
            opens = re.compile(rf"^{indent}\{{$|\{{$", re.M)
            start, at = found.start(), found.end()
            end = text.find(f"\n{indent}}}\n", at)
            head_end = re.search(rf"\n{indent}\{{\n|[^\n]\{{\n", text[at:end])
            if end < 0 or not head_end:
                continue
            cut = at + head_end.start()
            place = f"{path.relative_to(root)}:{text.count(chr(10), 0, start) + 1}"
            yield place, found.group(2), text[start:cut], text[cut:end]


def matches(root, pattern, flags=re.M):
    for path, text in sources(root):
        for found in re.finditer(pattern, text, flags):
            yield f"{path.relative_to(root)}:{text.count(chr(10), 0, found.start()) + 1}", " ".join(found.group(0).split())


def shaped(root):
    """1: enums of two or three cases of which one or two carry a value; structs with a flag."""
    for place, text in matches(root, r"^(?:pub )?enum \w+ \{\n[^}]*\}"):
        cases = re.findall(r"\b([A-Z]\w*)(\([^)]*\))?,", re.sub(r"//[^,]*", "", text))
        carrying = sum(1 for _, value in cases if value)
        if len(cases) in (2, 3) and carrying in (1, 2):
            yield place, text
    yield from ((p, t) for p, t in matches(root, r"^(?:pub )?struct \w+(?:<[^>]*>)? \{\n[^}]*\}") if ": bool" in t)


def numbered(root):
    """1: numbers written for a refusal or a trap, and tests of one."""
    yield from matches(root, r"return [1-9][0-9]?;|\b(?:Trap|Trapped|Refused|trapped|Err)\([1-9][0-9]?\)")
    yield from matches(root, r"if (?:number|bad|fault) != 0 \{|if number == 0 \{")


def twins(root):
    """2: functions of three lines or more that differ in names and numbers alone."""
    groups = defaultdict(list)
    for place, name, _, body in functions(root):
        if body.count("\n") >= 4:
            names = {}
            shape = re.sub(r"[A-Za-z_]\w*(?:::\w+)*|0x[0-9A-Fa-f_]+|[0-9]+", lambda m: names.setdefault(m.group(0), f"n{len(names)}"), body)
            groups[shape].append((place, name))
    for group in groups.values():
        if len(group) > 1:
            yield from group


def loops(root):
    """3: loops over a range whose body indexes by the counter or steps another place, and while loops."""
    for place, name, _, body in functions(root):
        for found in re.finditer(r"^( *)(?:let \w+ = )?(?:for (\w+) in [^{\n]*\.\.[^{\n]*|while [^{\n]*|loop) \{\n((?:.*\n)*?)\1\}", body, re.M):
            counter = found.group(2)
            block = found.group(3)
            indexed = counter and counter != "_" and re.search(rf"\b{counter}\b", block)
            stepped = re.search(r"\w+ \+= \d|\w+ -= \d|\w+ = \w+ \+", block)
            if counter is None or indexed or stepped:
                yield place, f"{name}: {found.group(0).strip().splitlines()[0]}"


def converted(root):
    """4: conversions and tests by cases or arithmetic."""
    yield from matches(root, r"[*/%] (?:256|65536|16777216|0x1_0000_0000)\b")
    yield from matches(root, r"if \w+ \{\n *return 1;\n *\}\n *0|if \w+ < \w+ \{ \w+ \} else \{ \w+ \}|0xFFFF_FFFF - \(?\w+")
    for place, name, _, body in functions(root):
        arms = re.findall(r"=> ([^,{]+),", body)
        if len(arms) > 2 and (set(arms) <= {"true", "false"} or all(re.fullmatch(r"[0-9]+", arm) for arm in arms)):
            yield place, f"{name}: {len(arms)} arms"


def facts(root):
    """5: a `requires` of the same words at three or more functions."""
    found = defaultdict(list)
    for place, name, head, _ in functions(root):
        for fact in re.findall(r"requires (?:\w+ )?\{(.*?)\}(?=\n)", head, re.S):
            found[" ".join(fact.split())].append((place, name))
    for fact, where in found.items():
        if len(where) > 2:
            yield from ((place, f"{name}: {fact}") for place, name in where)


def together(root):
    """5: three parameters or more that stand together, name and type, at five or more functions."""
    found = defaultdict(list)
    for place, name, head, _ in functions(root):
        parameters = re.findall(r"\b(\w+): (&(?:'\w+ )?(?:mut )?\[\w+\]|&mut \w+)", head.split("ensures")[0].split("requires")[0])
        for at in range(len(parameters) - 2):
            found[tuple(parameters[at : at + 3])].append((place, name))
    seen = {}
    for group, where in found.items():
        if len(where) > 4:
            for place, name in where:
                seen.setdefault((place, name), ", ".join(name for name, _ in group))
    yield from ((place, f"{name}: {group}") for (place, name), group in seen.items())


def buffers(root):
    """6: fixed buffers, and slices cut to a length that stands beside them."""
    yield from matches(root, r"let (?:mut )?\w+ = \[0u?\w*; \d+\]|\[\.\.\w+\]|\[\.\.\d+ \* \w+\]")


def switches(root):
    """7: functions of four arms or tests on a code byte that pass the same arguments on."""
    for place, name, _, body in functions(root):
        arms = len(re.findall(r"^ *0x[0-9A-F]+ => |^ *\d => \w+(?:::\w+)?\(|if b == 0x", body, re.M))
        if arms > 3:
            yield place, f"{name}: {arms} arms"


POINTS = [
    ("1 enums and flags", shaped), ("1 numbers", numbered), ("2 twins", twins), ("3 loops", loops), ("4 conversions", converted),
    ("5 facts", facts), ("5 parameters", together), ("6 buffers", buffers), ("7 switches", switches),
]


def main():
    arguments = [word for word in sys.argv[1:] if word != "--list"]
    root = Path(arguments[0] if arguments else ".")
    for name, find in POINTS:
        places = sorted(set(find(root)))
        print(f"{len(places):4} {name}: {find.__doc__.split(': ', 1)[1]}")
        if "--list" in sys.argv:
            for place, what in places:
                print(f"       {place}  {what[:150]}")


if __name__ == "__main__":
    main()
