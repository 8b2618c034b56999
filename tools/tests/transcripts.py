#!/usr/bin/env python3
"""Transcripts: lines "$ COMMAND", each with what it prints behind it, standard output and standard error together.

    tools/tests/transcripts.py ICODE FILE..    writes what the commands print now into the files

In a document (.md) these stand in blocks between lines ```; a block that does not begin with a command is left alone. A text file is one
block. The commands run in a folder of their own, which has examples/ and the files that stand beside a text file.
"""

import os
import re
import shutil
import subprocess
import sys
import tempfile
from pathlib import Path

EXAMPLES = Path(__file__).resolve().parent.parent.parent / "examples"
BLOCK = re.compile(r"(?<=^```\n)\$ .*?(?=^```$)", re.MULTILINE | re.DOTALL)


def printed(program, command, folder):
    """What a command prints, in a folder and with the program on the path."""
    path = f"{Path(program).resolve().parent}:{os.environ['PATH']}"
    done = subprocess.run(["bash", "-c", command], cwd=folder, env={**os.environ, "PATH": path}, stdin=subprocess.DEVNULL,
                          stdout=subprocess.PIPE, stderr=subprocess.STDOUT, timeout=60, check=False)
    return done.stdout.decode(errors="replace")


def run_block(program, block, folder):
    """A block with what its commands print now."""
    text = ""
    for line in block.splitlines():
        if line.startswith("$ "):
            text += f"{line}\n{printed(program, line[2:], folder)}"
    return text


def run_transcript(program, path):
    """The whole of a transcript as it should be; its commands run in turn in one folder."""
    written = path.read_text()
    with tempfile.TemporaryDirectory() as folder:
        shutil.copytree(EXAMPLES, Path(folder) / "examples")
        if path.suffix == ".md":
            return BLOCK.sub(lambda block: run_block(program, block[0], folder), written)
        for beside in path.parent.iterdir():
            shutil.copy(beside, folder)
        return run_block(program, written, folder)


def count(path):
    """How many commands a transcript has."""
    written = path.read_text()
    parts = BLOCK.findall(written) if path.suffix == ".md" else [written]
    return sum(line.startswith("$ ") for part in parts for line in part.splitlines())


if __name__ == "__main__":
    for name in sys.argv[2:]:
        Path(name).write_text(run_transcript(sys.argv[1], Path(name)))
