#!/usr/bin/env python3
"""The must-fail edits: wrong edits of code and definitions that the checker has to refuse, each for the fact that it spoils.

  edits.py lint               before a check: every batch applies, every public function has two edits of its body, every statement one
                              that falsifies it, and docs/PROMISES.md names just these edits
  edits.py said FILE          after `rt ci`, of which FILE has the output: every batch was refused, and not for a text that cannot be read,
                              a proof file that no longer fits or a limit of the checker
  edits.py logs [--keep]      after `rt ci`: each function or theorem that an edit names is refused for a fact of its own. Checks each
                              batch that tests/edits.read does not name as it now is; --keep writes there which were read
  edits.py try CRATE [BATCH]  the same for the batches of one crate, after `rt check`, whatever was read before
  edits.py each CRATE BATCH   tries each edit of a batch by itself: is it this edit that breaks what it names?

A batch is a file crates/CRATE/must-fail/BATCH.edit; `rt` applies all of it to a copy of the crate. An edit in it is

  edit: NAME
  function: MODULE::FUNCTION      or   theorem: FILE.NAME, of proofs/FILE.antt
  clause: NAME                    the goal of the function's proof that fails, or the clause of its `ensures`, or the field of a theorem
                                  that is a record; only where the batch has other edits of this function or theorem
  file: src/lib.rt
  old: text that stands there once
  new: text in its place

with one or more pairs of old and new. A batch changes the bodies of functions, or contracts, or definitions, and only one of these: what
is changed in a contract or a definition may break more than the edit names. It breaks a function or a theorem once or, where each of
its edits names a clause of its own, once a clause.
"""

import hashlib
import os
import re
import sys
from collections import Counter
from concurrent.futures import ThreadPoolExecutor
from dataclasses import dataclass, field, replace
from pathlib import Path

import edit_checks

ROOT = Path(__file__).resolve().parent.parent
EDITS_OF_A_FUNCTION = 2


class Fault(Exception):
    """Something that is wrong with the edits, in words."""


@dataclass
class Edit:
    name: str
    kind: str = ""  # function or theorem
    breaks: str = ""
    clause: str = ""  # the clause of the proof that is refused; any, where none is named
    pairs: list = field(default_factory=list)  # (file, old, new)


@dataclass
class Batch:
    crate: str
    label: str
    edits: list

    @property
    def name(self):
        return f"{self.crate}/{self.label}"


def parse(crate, label, text):
    """Reads a batch as `rt` reads it: a file holds for the pairs after it."""
    edits, file, old = [], "", None
    for line in text.splitlines():
        word, _, rest = line.partition(": ")
        if line.startswith("#") or not line.strip():
            continue
        if word == "edit":
            edits.append(Edit(rest))
        elif not edits:
            raise Fault(f"{crate}/{label}: a line before the first edit: {line}")
        elif word in ("function", "theorem"):
            edits[-1].kind, edits[-1].breaks = word, rest
        elif word == "clause":
            edits[-1].clause = rest
        elif word == "file":
            file = rest
        elif word == "old":
            old = rest
        elif line.startswith("new:"):
            edits[-1].pairs.append((file, old, line[4:].removeprefix(" ")))
            old = None
        else:
            raise Fault(f"{crate}/{label}: a line that is no part of an edit: {line}")
    return Batch(crate, label, edits)


def batches(root=ROOT):
    for path in sorted(root.glob("crates/*/must-fail/*.edit")):
        yield parse(path.parent.parent.name, path.stem, path.read_text())


# ---- before the check


def functions(root=ROOT):
    """The functions of the library crates: (crate, name, whether it is public, file, where its body begins and ends)."""
    for path in sorted(root.glob("crates/*/src/**/*.rt")):
        crate = path.relative_to(root / "crates").parts[0]
        file = path.relative_to(root / "crates" / crate).as_posix()
        module = "::".join(Path(file).with_suffix("").parts[1:])
        if module == "main":
            continue
        text, owner = path.read_text(), ""
        for line in re.finditer(
            r"^(impl)\b(?:<[^>\n]*>)? (\w+)(?:<([^>\n]*)>)?(?: for (\w+))?|^( *)(#\[.*\] )?(pub )?(const )?(extern \"C\" )?fn (\w+)", text, re.M
        ):
            if line.group(1):
                # An impl of a trait goes by the type, the trait and what stands in its brackets, as the checker names it.
                trait = line.group(2) + re.sub(r"\W", "", re.sub(r"'\w+", "", line.group(3) or ""))
                owner = line.group(4) + trait if line.group(4) else line.group(2)
                continue
            indent = line.group(5)
            begin = re.compile(r"\{$", re.M).search(text, line.end()).start()
            end = text.index(f"\n{indent}}}", begin)
            parts = [module if module != "lib" else "", owner if indent else "", line.group(10)]
            yield crate, "::".join(part for part in parts if part), line.group(7) is not None, file, begin, end


def bodies(root=ROOT):
    """Where the bodies of functions stand, with the tables that they name: (crate, file) -> (begin, end, function)."""
    found = {}
    for crate, name, _, file, begin, end in functions(root):
        text = (root / "crates" / crate / file).read_text()
        tables = re.finditer(r"^const (\w+): \[.*?\] = (\[.*?\]);$", text, re.M | re.S)
        named = [table for table in tables if re.search(rf"\b{table.group(1)}\b", text[begin:end])]
        found.setdefault((crate, file), []).append((begin, end, name))
        found[crate, file] += [(*table.span(2), name) for table in named]
    return found


def place(crate, pair, root, found):
    """What a pair changes: a definition, the body of a function, or a contract; and the function."""
    file, old, _ = pair
    if not file.startswith("src/"):
        return file.split("/")[0], ""
    at = (root / "crates" / crate / file).read_text().find(old)
    inside = [name for begin, end, name in found.get((crate, file), []) if begin <= at and at + len(old) <= end]
    return ("bodies", inside[0]) if inside else ("contracts", "")


def applied(batch, root=ROOT):
    """Says what keeps a batch from being applied: each old text stands once in its file when its turn comes."""
    texts = {}
    for edit in batch.edits:
        for file, old, new in edit.pairs:
            path = root / "crates" / batch.crate / file
            if not path.is_file():
                yield f"{batch.name}: {edit.name}: there is no {file}"
                continue
            text = texts.get(file) or path.read_text()
            if not old or text.count(old) != 1:
                yield f"{batch.name}: {edit.name}: its old text stands {text.count(old or ' ')} times in {file}: {old}"
                continue
            if old.split() == new.split():
                yield f"{batch.name}: {edit.name}: its new text is the old one"
            texts[file] = text.replace(old, new)


def well_formed(batch, root, found):
    if not batch.edits:
        yield f"{batch.name}: it has no edit"
    for edit in batch.edits:
        if not edit.pairs or not edit.breaks:
            yield f"{batch.name}: {edit.name}: it has no pair, or names neither a function nor a theorem"
        if any(not file.startswith(("src/", "specs/")) for file, _, _ in edit.pairs):
            yield f"{batch.name}: {edit.name}: it changes neither code nor a definition"
        if edit.kind == "theorem" and any(not file.startswith("specs/") for file, _, _ in edit.pairs):
            yield f"{batch.name}: {edit.name}: it names a theorem and does not change a definition"
    faults = list(applied(batch, root))
    yield from faults
    changed = set() if faults else {place(batch.crate, pair, root, found)[0] for edit in batch.edits for pair in edit.pairs}
    if len(changed) > 1:
        yield f"{batch.name}: it changes {' and '.join(sorted(changed))}: make a batch of each"
    for breaks, times in Counter(edit.breaks for edit in batch.edits).items():
        clauses = {edit.clause for edit in batch.edits if edit.breaks == breaks and edit.clause}
        if times > 1 and len(clauses) < times:
            yield f"{batch.name}: {breaks} is broken {times} times in one batch, and not each time in a clause of its own"


def edits_of_code(root=ROOT):
    """How many different edits change the body of each function and name it as what they break."""
    found, seen = bodies(root), {}
    for batch in batches(root):
        for edit in batch.edits:
            if edit.kind == "function" and all(place(batch.crate, pair, root, found)[1] == edit.breaks for pair in edit.pairs):
                seen.setdefault((batch.crate, edit.breaks), set()).add(tuple(edit.pairs))
    return Counter({key: len(pairs) for key, pairs in seen.items()})


def statements(root=ROOT):
    """The statements in specs/: abbreviations of type `Type 0` without parameters. (crate, name)"""
    for path in sorted(root.glob("crates/*/specs/*.antt")):
        for name in re.findall(r"^abbrev pub ([\w-]+) : Type 0$", path.read_text(), re.M):
            yield path.parent.parent.name, name


def theorems(root=ROOT):
    """The theorems that are proofs of a statement: statement -> (crate, FILE.NAME)."""
    found = {}
    for path in sorted(root.glob("crates/*/proofs/*.antt")):
        for name, statement in re.findall(r"^pub ([\w-]+) : ([A-Z]\w*)$", path.read_text(), re.M):
            found[statement] = (path.parent.parent.name, f"{path.stem}.{name}")
    return found


def used_as_type(name, root=ROOT):
    """Whether a definition or a contract speaks of values of this type."""
    word = re.compile(rf"(: |→ |\(|λ .*){name}\b(?! =)")
    sources = [*root.glob("crates/*/specs/*.antt"), *root.glob("crates/*/src/*.rt")]
    return any(word.search(line) for path in sources for line in path.read_text().splitlines() if not line.startswith("--"))


def uncovered(root=ROOT):
    counts = edits_of_code(root)
    for crate, name, public, *_ in functions(root):
        if public and counts[crate, name] < EDITS_OF_A_FUNCTION:
            yield f"{crate}: {name} has {counts[crate, name]} edits of its body, not {EDITS_OF_A_FUNCTION}"
    falsified = {(batch.crate, edit.breaks) for batch in batches(root) for edit in batch.edits if edit.kind == "theorem"}
    proved = theorems(root)
    for crate, statement in statements(root):
        if statement in proved and proved[statement] not in falsified:
            yield f"{crate}: no edit falsifies {statement} ({proved[statement][1]})"
        if statement not in proved and not used_as_type(statement, root):
            yield f"{crate}: nothing proves the statement {statement}"


def promised(text):
    """The edits that docs/PROMISES.md names, in the last column of its tables: crate -> names."""
    named, crate = {}, ""
    for line in text.splitlines():
        if line.startswith("## "):
            crate = line[3:].strip()
        elif line.startswith("| ") and "must-fail edits" not in line:
            cell = line.strip().strip("|").split("|")[-1]
            named.setdefault(crate, []).extend(name.strip() for name in cell.split(",") if name.strip())
    return named


def unpromised(root=ROOT):
    named = promised((root / "docs/PROMISES.md").read_text())
    held = {}
    for batch in batches(root):
        held.setdefault(batch.crate, []).extend(edit.name for edit in batch.edits)
    for crate in sorted({*named, *held}):
        there, said = Counter(held.get(crate, [])), set(named.get(crate, []))
        for name in sorted({*there} - said):
            yield f"docs/PROMISES.md does not name the edit {name} of {crate}"
        for name in sorted(said - {*there}):
            yield f"docs/PROMISES.md names an edit of {crate} that is not there: {name}"
        for name, times in there.items():
            if times > 1:
                yield f"{crate}: {times} edits are named {name}"


def lint(root=ROOT):
    found = bodies(root)
    faults = [fault for batch in batches(root) for fault in well_formed(batch, root, found)]
    return faults + list(uncovered(root)) + list(unpromised(root))


# ---- after the check

# What the checker says of an answer that does not hold: a goal that is another one than what was proved, or that nothing proves.
FACT = re.compile(
    r"the two (types|values|indices)|^computed as a goal is, one side reads|^expected type|does not follow|no proof of|give a proof of that"
    r"|no occurrence of the path's"
)
# What it says where a proof file does not fit the code, or rests on something that is not proved. Whatever is in neither list is no fact.
UNFIT = re.compile(r"was not admitted|can be named from here|has no field|`: module|on the face `κs = 1`|not in scope")
PROOF_FILES = ("Answers.antt", "Invariants.antt", "Proof.antt")


def errors_in(log, file):
    """The errors in a proof file: (line, declaration, message)."""
    for line in log.splitlines():
        found = re.match(r"(\S+?):(\d+):\d+: error:? ?(.*)", line)
        if found and found.group(1).endswith("/" + file):
            named = re.match(r"`([^`]+)`: (.*)", found.group(3))
            yield int(found.group(2)), *(named.groups() if named else ("", found.group(3)))


def field_at(path, line):
    """The field of a record that a line of a proof file stands in."""
    for text in reversed(path.read_text().splitlines()[:line]):
        found = re.match(r" +([\w-]+) =( |$)", text)
        if found or not text.startswith(" "):
            return found.group(1) if found else ""
    return ""


def unproved(verdict):
    """The goals of a function that the search does not prove, of those that no proof file answers."""
    return re.findall(r"`([^`]+)`", verdict.partition("`search` did not prove ")[2].partition(";")[0])


def is_of(clause, goal):
    """Whether a goal is the one that an edit names, or shows the clause that it names; any is, where it names none."""
    return clause in ("", goal) or goal.endswith(f"-clause-{clause}")


# What the checker adds where it knows values for which a goal does not hold. Goals are named by the tests of the code: where an edit changes
# a test, a proof file may name a goal that is no more, and this alone shows that the new one is false.
FALSE = re.compile(r"^note: (src/\S+?):(\d+):\d+: .*\(`([^`]+)`\).*the facts known there allow values at which this goal is false")


def false_goals(crate, name, log, root=ROOT):
    """The goals of a function that do not hold for values which the checker knows. An edit leaves the number of lines as it was."""
    spans = {}
    for one, function, _, file, begin, end in functions(root):
        if (one, function) == (crate, name):
            text = (root / "crates" / crate / file).read_text()
            head = text.rfind(f"fn {name.split('::')[-1]}", 0, begin)
            spans[file] = text.count("\n", 0, head) + 1, text.count("\n", 0, end) + 2
    for line in log.splitlines():
        found = FALSE.match(line)
        if found and found.group(1) in spans and spans[found.group(1)][0] <= int(found.group(2)) <= spans[found.group(1)][1]:
            yield found.group(3)


def refusal(edit, crate, log, root=ROOT):
    """Says why a log does not show that what the edit names is refused for a fact of its own; nothing where it does."""
    if edit.kind == "theorem":
        file, _, name = edit.breaks.partition(".")
        path = root / "crates" / crate / f"proofs/{file}.antt"
        found = [(line, message) for line, declared, message in errors_in(log, f"proofs/{file}.antt") if declared == name]
        own = [message for line, message in found if not edit.clause or edit.clause == field_at(path, line)]
        verdict = "not proved"
    else:
        files = [f"proofs/{edit.breaks.replace('::', '/')}/{name}" for name in PROOF_FILES]
        own = [message for file in files for _, declared, message in errors_in(log, file) if is_of(edit.clause, declared)]
        said = re.search(rf"^fn {re.escape(crate)}::{re.escape(edit.breaks)}: (.*)$", log, re.M)
        verdict = said.group(1) if said else "no verdict"
        if any(is_of(edit.clause, goal) for goal in [*unproved(verdict), *false_goals(crate, edit.breaks, log, root)]):
            return ""
    if verdict.startswith("proved"):
        return "it is still proved"
    if any(FACT.search(message) and not UNFIT.search(message) for message in own):
        return ""
    if own:
        return f"it is refused for no fact of its own: {own[0][:120]}"
    return f"it has no error of its own ({verdict[:120]})"


def read_logs(found, logs, root=ROOT):
    """Goes through every edit of some batches, whose logs are given by (crate, label): (batch/edit, what is wrong or nothing)."""
    for batch in found:
        for edit in batch.edits:
            log = logs.get((batch.crate, batch.label))
            wrong = "there is no log" if log is None else refusal(edit, batch.crate, log, root)
            yield f"{batch.name}: {edit.name}: {edit.breaks}", wrong


# What `rt ci` says of a batch that the checker refuses, but not for what the code or a definition says.
NO_FACT = re.compile(r"BAD EDIT|NOT TRIED|NOT REFUSED|only because a proof file|only by a limit")


def read_said(output, root=ROOT):
    """Goes through every batch by what `rt ci` printed of it: (batch, what is wrong or nothing)."""
    said = dict(re.findall(r"^rt: must-fail (\S+)\.edit: (.*)$", output, re.M))
    for batch in batches(root):
        line = said.get(batch.name, "rt ci says nothing of it")
        yield batch.name, "" if line.startswith("refused") and not NO_FACT.search(line) else line


def tell(results):
    results = list(results)
    for name, wrong in results:
        if wrong:
            print(f"{name}: {wrong}")
    bad = sum(bool(wrong) for _, wrong in results)
    print(f"{len(results) - bad} passed, {bad} failed")
    return bad == 0 and bool(results)


# ---- the checks for it

# A name, or names with dots between them, as `c.if-x-lt128.true`.
PATH = re.compile(r"\.?[\w'′◌-]+(?:\.[\w'′◌-]+)*")


def alike(now, then):
    """Whether two lists are as long, and have no name in different places: what is one more, one fewer or exchanged cannot be paired."""
    return len(now) == len(then) and all(one == other or not (one in then or other in now) for one, other in zip(now, then))


def pairs_of(now, then, all_alike):
    """What the goals, places and loops of a function are called, as it stands and with an edit; and its steps, which stand after a dot. Where an
    edit makes others or takes some away, those that have one number in both are one: for who asks for it, since that may be wrong."""
    numbered = [[[by_number for by_number, *_ in lists[kind]] for kind in ("needs", "places")] for lists in (now, then)]
    if len(now["loops"]) != len(then["loops"]):
        return [], []
    goals = list(zip(now["needs"], then["needs"]))
    places = list(zip(zip(now["places"], now["places_by_name"]), zip(then["places"], then["places_by_name"])))
    if not all(map(alike, *numbered)):
        if all_alike:
            return [], []
        goals = [(one, other) for one in now["needs"] for other in then["needs"] if one[0] == other[0]]
        there = list(zip(then["places"], then["places_by_name"]))
        places = [(one, other) for one in zip(now["places"], now["places_by_name"]) for other in there if one[0][0] == other[0][0]]
    whole = [(one, other) for (_, one), (_, other) in goals]
    for (_, one), (_, other) in places:
        whole += [(one, other), (one[0].lower() + one[1:], other[0].lower() + other[1:])]  # the place, and a case of that name
    for ((_, one), _), ((_, other), _) in zip(now["loops"], then["loops"]):
        whole += [(f"{word}-{one}", f"{word}-{other}") for word in ("invariant", "decreases")]
    return whole, [(one[2][1], other[2][1]) for (one, _), (other, _) in places]


def single(pairs):
    """The pairs as a table, without the names that would become several."""
    others = {}
    for one, other in pairs:
        others.setdefault(one, set()).add(other)
    return {one: other.pop() for one, other in others.items() if len(other) == 1}


def renamed(text, whole, steps):
    """A text with other names, all at once. The names of modules stay, and the ends of names that tell a clause, or a field's own facts."""
    steps = whole | steps

    def named(name, table):
        stem, end = re.fullmatch(r"(.+?)(-clause-.+|-own)?|", name).groups("")
        return table.get(name) or table.get(stem, stem) + end

    def path(found):
        head, *rest = found.group().split(".")
        return ".".join([named(head, whole), *(named(name, steps) for name in rest)]) if head != "Rattle" else found.group()

    return PATH.sub(path, text)


def texts_of(batch, root=ROOT):
    """The texts of the files that a batch changes."""
    faults = list(applied(batch, root))
    if faults:
        raise Fault("\n".join(faults))
    texts = {}
    for edit in batch.edits:
        for file, old, new in edit.pairs:
            text = texts.get(file) or (root / "crates" / batch.crate / file).read_text()
            texts[file] = text.replace(old, new)
    return texts


def followed(batch, now, root=ROOT, all_alike=True):
    """A batch and the texts of the files that it changes, where the proof files of the functions that it names, and its clauses, call goals
    and steps as these are called with its edits. They are called after the code: `returns-then-b-lt128` is `returns-then-b-lt129` where the
    test is `b < 129`. Else a file would not fit, and nothing else could be seen. `now` has how the crate calls them as it stands."""
    texts, edits = texts_of(batch, root), []
    then = edit_checks.names(batch.crate, root, texts) if any(edit.kind == "function" for edit in batch.edits) else {}
    for edit in batch.edits:
        key = f"Rattle-{batch.crate}-proofs.{edit.breaks.replace('::', '.')}.Lts"
        if edit.kind == "function" and key in now and key in then:
            tables = [single(pairs) for pairs in pairs_of(now[key], then[key], all_alike)]
            crate = root / "crates" / batch.crate
            for path in sorted((crate / "proofs" / edit.breaks.replace("::", "/")).glob("*.antt")):
                texts[path.relative_to(crate).as_posix()] = renamed(path.read_text(), *tables)
            edit = replace(edit, clause=renamed(edit.clause, *tables))
        edits.append(edit)
    return Batch(batch.crate, batch.label, edits), texts


def logs_of(found, root=ROOT, all_alike=True):
    """Some batches, with their clauses as these are called, and what the checker says of each, which is kept in target/must-fail too."""
    with ThreadPoolExecutor(os.cpu_count()) as pool:
        now = {crate: pool.submit(edit_checks.names, crate, root, {}) for crate in {batch.crate for batch in found}}
        changed = list(pool.map(lambda batch: followed(batch, now[batch.crate].result(), root, all_alike), found))
    logs = edit_checks.checked_all({(batch.crate, batch.label): texts for batch, texts in changed}, root)
    for (crate, label), log in logs.items():
        path = root / "target/must-fail" / crate / f"{label}.log"
        path.parent.mkdir(parents=True, exist_ok=True)
        path.write_text(log)
    return [batch for batch, _ in changed], logs


def alone(batch, edit):
    """A batch of one edit of a batch."""
    return Batch(batch.crate, f"{batch.label}.{edit.name}", [edit])


def checked_and_read(found, root=ROOT):
    """Checks some batches and goes through their edits. One that is not seen to be refused for a fact, for example as the checker tries no goal
    of a function while another edit breaks what that calls, is checked by itself; if need be once more, with names by their numbers alone."""
    results = list(read_logs(*logs_of(found, root), root))
    edits = [(batch, edit) for batch in found for edit in batch.edits]
    for all_alike in (True, False):
        again = [alone(*pair) for pair, (_, wrong) in zip(edits, results) if wrong]
        if not again:
            break
        wrong_alone = dict(read_logs(*logs_of(again, root, all_alike), root))
        for number, (batch, edit) in enumerate(edits):
            name = f"{alone(batch, edit).name}: {edit.name}: {edit.breaks}"
            if name in wrong_alone:
                results[number] = results[number][0], wrong_alone[name]
    return results


def tried(found):
    """Checks some batches and reads what is said."""
    return tell(checked_and_read(list(found)))


def of_crate(crate, labels=()):
    """Some batches of a crate, or all."""
    found = [batch for batch in batches() if batch.crate == crate and (not labels or batch.label in labels)]
    if not found or {*labels} - {batch.label for batch in found}:
        raise Fault(f"{crate} has no such batch: {' '.join(labels) or 'none at all'}")
    return found


# ---- which batches were read

READ = "tests/edits.read"


def sum_of(batch, root=ROOT):
    """A sum of what the reading of a batch rests on: the kit, the crate's own files and those of the crates below, the batch, these scripts."""
    found = hashlib.sha256((edit_checks.kit() / "KIT-ID").read_bytes())
    crates = [batch.crate, *sorted(edit_checks.below(batch.crate, edit_checks.listed(root)))]
    folders = [root / "crates" / crate / part for crate in crates for part in edit_checks.PARTS]
    files = [path for folder in folders for path in sorted(folder.rglob("*")) if path.is_file()]
    for path in [*files, root / "crates" / batch.crate / "must-fail" / f"{batch.label}.edit"]:
        found.update(repr((path.relative_to(root).as_posix(), path.read_bytes())).encode())
    for script in (__file__, edit_checks.__file__):
        found.update(Path(script).read_bytes())
    return found.hexdigest()[:32]


def read_before(root=ROOT):
    """The batches that were read, with their sums."""
    path = root / READ
    return dict(line.split() for line in path.read_text().splitlines()) if path.is_file() else {}


def read_new(keep):
    """Checks and reads each batch that was not read as it now is."""
    found, known = list(batches()), read_before()
    sums = {batch.name: sum_of(batch) for batch in found}
    new = [batch for batch in found if known.get(batch.name) != sums[batch.name]]
    results = checked_and_read(new)
    print(f"{len(new)} of {len(found)} batches were checked; the others are as they were when they were read ({READ})")
    if keep:
        failed = {name.split(":")[0] for name, wrong in results if wrong}
        lines = [f"{name} {value}\n" for name, value in sums.items() if name not in failed]
        (ROOT / READ).write_text("".join(lines))
    before = [(f"{batch.name}: {edit.name}", "") for batch in found if batch not in new for edit in batch.edits]
    return tell(before + results)


def main(words):
    match words:
        case ["lint"]:
            faults = lint()
            print(*faults, sep="\n", end="\n" if faults else "")
            return not faults
        case ["said", file]:
            return tell(read_said(Path(file).read_text(errors="replace")))
        case ["logs"] | ["logs", "--keep"]:
            return read_new("--keep" in words)
        case ["try", crate, *labels]:
            return tried(of_crate(crate, labels))
        case ["each", crate, label]:
            (batch,) = of_crate(crate, [label])
            return tried(alone(batch, edit) for edit in batch.edits)
        case _:
            print(__doc__, file=sys.stderr)
            return False


if __name__ == "__main__":
    try:
        sys.exit(0 if main(sys.argv[1:]) else 1)
    except Fault as fault:
        sys.exit(str(fault))
