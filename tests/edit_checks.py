"""Checks crates with batches of edits applied, and gives what the checker says of each.

`rt ci` tries the batches too, but keeps and prints the first line alone of what it hears. Here each is checked once more, as `rt ci` does
it: over what a check of the crate as it stands proved (the seed), which a batch takes by links and does not change. The libraries below
are those in crates/*/out/rlib, as `rt ci` or `rt check` left them.
"""

import json
import os
import shutil
import subprocess
import tempfile
from concurrent.futures import ThreadPoolExecutor
from contextlib import contextmanager
from functools import cache
from pathlib import Path

PARTS = ("src", "specs", "proofs")


@cache
def kit():
    """The folder of the Rattle kit."""
    return Path(subprocess.run(["rt", "doc"], capture_output=True, text=True, check=True).stdout.strip()).parent


def listed(root):
    """The crates of crates.txt: name -> (kind, the crates that it names)."""
    found = {}
    for line in (root / "crates.txt").read_text().splitlines():
        name, _, others = line.partition("#")[0].partition(":")
        if name.strip():
            found[name.split()[0]] = (name.split()[1:], others.split())
    return found


def below(crate, crates):
    """The crates below a crate, each once."""
    found = {}
    for name in crates[crate][1]:
        found |= {name: None} | dict.fromkeys(below(name, crates))
    return list(found)


def command(crate, root):
    """The words of a check of a crate, in a folder that has its files."""
    crates = listed(root)
    kind, named = crates[crate]
    rlibs = {name: root / "crates" / name / "out/rlib" for name in below(crate, crates)}
    main = "main" if (root / "crates" / crate / "src/main.rt").is_file() else "lib"
    words = [kit() / "bin/rattle", "check", "--crate-name", crate, f"src/{main}.rt"]
    words += ["--extern", f"std={kit()}/rlibs/std.rlib", "-L", f"dependency={kit()}/rlibs"]
    words += [word for name in named for word in ("--extern", f"{name}={rlibs[name]}/{name}.rlib")]
    words += [word for name in rlibs for word in ("-L", f"dependency={rlibs[name]}")]
    words += ["--antt-project", f"{kit()}/rattle/logic/antt-project.json", "--logic-built", f"{kit()}/logic_built"]
    return words + ["--links", f"{crate}=", "--jobs", "1", *(["--crate-type", "staticlib"] if "staticlib" in kind else [])]


@contextmanager
def copied(crate, root, texts):
    """A folder that has the files of a crate, some of them replaced."""
    with tempfile.TemporaryDirectory(prefix="edits.") as folder:
        for part in PARTS:
            if (root / "crates" / crate / part).is_dir():
                shutil.copytree(root / "crates" / crate / part, Path(folder, part))
        for file, text in texts.items():
            Path(folder, file).write_text(text)
        yield folder


def checked(crate, root, texts, kept):
    """Checks a crate with some of its files replaced, over the folder `kept`: whether it is proved, and what the checker said."""
    with copied(crate, root, texts) as folder:
        words = [*command(crate, root), "--incremental", kept]
        run = subprocess.run(words, cwd=folder, stdin=subprocess.DEVNULL, stdout=subprocess.PIPE, stderr=subprocess.STDOUT, check=False)
    return run.returncode == 0, run.stdout.decode(errors="replace")


def names(crate, root, texts):
    """What the goals, places and steps of each function are called with some of a crate's files replaced; nothing where it is no code."""
    with copied(crate, root, texts) as folder:
        words = [*command(crate, root), "--generated", f"{folder}/names", "--old-names"]
        subprocess.run(words, cwd=folder, stdin=subprocess.DEVNULL, capture_output=True, check=False)
        path = Path(folder, "names/names.json")
        return json.loads(path.read_text()) if path.is_file() else {}


def link(source, target):
    """Gives a file that was proved a second name: a check replaces such a file, and never writes into it."""
    return os.link(source, target) if str(source).endswith(".oantt") else shutil.copy2(source, target)


def checked_over(seed, crate, root, texts):
    with tempfile.TemporaryDirectory(prefix="edits.") as folder:
        shutil.copytree(seed, Path(folder, "kept"), copy_function=link)
        return checked(crate, root, texts, Path(folder, "kept"))[1]


def checked_all(changes, root):
    """Checks crates with batches applied, as many at a time as there are processors: batch -> log. `changes` has the texts of the files that
    each batch, (crate, label), changes. A crate that is not proved as it stands, or whose libraries are not there, has that as its log."""
    with tempfile.TemporaryDirectory(prefix="edits.") as folder, ThreadPoolExecutor(os.cpu_count()) as pool:
        seeds = {crate: Path(folder, crate) for crate, _ in changes}
        for seed in seeds.values():
            seed.mkdir()
        proved = {crate: pool.submit(checked, crate, root, {}, seed) for crate, seed in seeds.items()}
        for crate in proved:
            good, log = proved[crate].result()
            if not good:
                raise SystemExit(f"{crate} is not proved as it stands, so its edits show nothing:\n{log[-2000:]}")
        logs = {(crate, label): pool.submit(checked_over, seeds[crate], crate, root, texts) for (crate, label), texts in changes.items()}
        return {batch: log.result() for batch, log in logs.items()}
