#!/usr/bin/env python3
"""Draws docs/filter.svg and docs/spawn.svg by Graphviz' `dot`: the graph of examples/filter.bpf, as `bpfrun --graph` tells it, and the
tree of the tasks of examples/spawn.json, as `bpfjobs run --tree` does.

    docs/draw.py BPFRUN BPFJOBS [FOLDER]     the built programs; the drawings go to docs, or FOLDER
"""

import subprocess
import sys
import tempfile
from pathlib import Path

HERE = Path(__file__).resolve().parent
PROGRAM = HERE.parent / "examples/filter.bpf"
JOB = HERE.parent / "examples/spawn.json"
DRAWN = HERE / "filter.svg"
DRAWN_TREE = HERE / "spawn.svg"


def graph(bpfrun, program=PROGRAM, need="40"):
    """The graph of a program, in the language DOT."""
    words = [bpfrun, str(program), "--need", need, "--graph"]
    return subprocess.run(words, capture_output=True, text=True, check=False, timeout=60).stdout


def tree(bpfjobs, job=JOB):
    """The tree of a job's tasks, in that language."""
    with tempfile.TemporaryDirectory() as room:
        file = Path(room) / "tree"
        subprocess.run([bpfjobs, "run", "--tree", str(file)], input=job.read_bytes(), capture_output=True, check=True, timeout=60)
        return file.read_text(encoding="utf-8")


def drawing(text):
    """What `dot` makes of it."""
    return subprocess.run(["dot", "-Tsvg"], input=text, capture_output=True, text=True, check=True, timeout=60).stdout


def main(bpfrun, bpfjobs, folder=HERE):
    for drawn, text in ((DRAWN, graph(bpfrun)), (DRAWN_TREE, tree(bpfjobs))):
        (Path(folder) / drawn.name).write_text(drawing(text), encoding="utf-8")


if __name__ == "__main__":
    main(*sys.argv[1:])
