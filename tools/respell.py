#!/usr/bin/env python3
"""Turns the names of this repository's definitions and lemmas to the spelling of today's Rattle: `wordAt` is `word_at`.

usage: tools/respell.py [--dry] [ROOT]

A name that specs/ or proofs/ declare and that begins with a small letter gets underscores in place of inner capitals; a name that specs/
declare, also in place of dashes, since there a dash joins the words of one name. A dash in a lemma's name stays: it joins two names, as in
std's `length-drop`. It turns .rt, .antt and .edit files of crates/ and the names in docs/, README.md and tools/. Types, functions of
src/, exported names, strings and outputs keep theirs. It says which new names stood in a file already, where two things may fall together.
"""

import re
import sys
from pathlib import Path

NAME = r"[A-Za-z_][\w']*(?:-[\w']+)*"
HEAD = re.compile(rf"^\s*(?:(?:abbrev|unfoldable|pub)\s+)*((?:{NAME}\s+)*{NAME})(?:\s+[({{].*)?\s+:(?:\s|$)")
# Lemmas and fields that would have the name of the definition that they are about get `_lem`, as in std; a field gets a verb.
APART = {
    "crates/icode/proofs/Values.antt": {"line_code": "line_code_lem"},
    "crates/icode/proofs/icode_line/Proof.antt": {"line_code": "line_code_lem"},
    "crates/mend/proofs/Restoring.antt": {"source_sound": "source_sound_lem"},
    "crates/operate/proofs/Traps.antt": {"signed_word": "signed_word_lem"},
    "crates/safety/proofs/Carrying.antt": {"calls_by": "calls_by_lem"},
    "crates/verifier/proofs/Agreement.antt": {"in_order": "in_order_lem"},
    "crates/verifier/specs/Exact.antt": {"lists-sound": "lists_are_sound"},
    "crates/verifier/proofs/Exactly.antt": {"lists-sound": "lists_are_sound"},
    "crates/verifier/proofs/Ruling.antt": {"lists-sound": "lists_are_sound"},
}
WORDS = {"record", "data", "use", "module", "open", "let", "infix", "where", "mod"}


def snake(name):
    parts = []
    for part in name.split("-"):
        if part[:1].islower():
            part = re.sub(r"(?<=[a-z0-9])(?=[A-Z])|(?<=[A-Z])(?=[A-Z][a-z])", "_", part).lower()
        parts.append(part)
    return "-".join(parts)


def declared(path):
    """The names that a file declares: definitions, lemmas, fields and constructors."""
    for line in path.read_text().splitlines():
        if line.lstrip().startswith("--"):
            continue
        found = HEAD.match(line)
        if found:
            names = found.group(1).split()
            if names[0] not in WORDS:
                yield from names


def renamed(root):
    names = {}
    for path in sorted(root.glob("crates/*/specs/**/*.antt")) + sorted(root.glob("crates/*/proofs/**/*.antt")):
        in_specs = path.relative_to(root).parts[2] == "specs"
        for name in declared(path):
            new = snake(name)
            if in_specs and name[:1].islower():
                new = new.replace("-", "_")
            if new != name:
                names.setdefault(name, new)
                if in_specs:
                    names[name] = new
    return names


def files(root):
    for pattern in ("crates/*/src/**/*.rt", "crates/*/specs/**/*.antt", "crates/*/proofs/**/*.antt", "crates/*/must-fail/*.edit",
                    "docs/**/*.md", "README.md", "tools/README.md"):
        yield from sorted(root.glob(pattern))


def main(words):
    dry = "--dry" in words
    words = [word for word in words if word != "--dry"]
    root = Path(words[0]) if words else Path(__file__).resolve().parent.parent
    names = renamed(root)
    token = re.compile(NAME)
    for path, apart in APART.items():
        text = (root / path).read_text()
        if not dry:
            (root / path).write_text(token.sub(lambda found: apart.get(found.group(), found.group()), text))
    news = set(names.values())
    for path in files(root):
        text = path.read_text()
        stood = sorted({new for new in news if new in set(token.findall(text))}) if path.suffix in (".antt", ".rt") else []
        for new in stood:
            olds = [old for old, to in names.items() if to == new and re.search(rf"(?<![\w'-]){re.escape(old)}(?![\w'-])", text)]
            if olds:
                print(f"look: {path.relative_to(root)}: {', '.join(olds)} becomes {new}, which the file has already")
        kept = re.compile(r"(^\s*(?:edit|function|theorem|clause): .*$)", re.M) if path.suffix == ".edit" else None

        def turn(part):
            return token.sub(lambda found: names.get(found.group(), found.group()), part)

        turned = turn(text) if not kept else "".join(p if kept.match(p) and p.lstrip().startswith("edit:") else turn(p) for p in kept.split(text))
        if turned != text and not dry:
            path.write_text(turned)
    twice = {}
    for old, new in names.items():
        twice.setdefault(new, []).append(old)
    for new, olds in sorted(twice.items()):
        if len(olds) > 1:
            print(f"look: {', '.join(olds)} all become {new}")
    print(f"{len(names)} names")


if __name__ == "__main__":
    main(sys.argv[1:])
