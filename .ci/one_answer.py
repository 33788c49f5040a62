#!/usr/bin/env python3
"""Runs pseudo-random jobs by `bpfjobs run`, refuses memory at random, and compares each answer with the model's.

    .ci/one_answer.py [--trees N] [--first N] [--seed N] [--seconds N] [--at-once N]
    folder=$(./try kept bpfjobs library); BPFJOBS=$folder/bpfjobs TELGOVAN_LIB=$folder TELGOVAN_UNPROVED=1 .ci/one_answer.py

Each of N trees (10,000; `tests/trees.py`) runs with 1, 2, 4 and 16 workers, in a process each. In half of the runs a preloaded shim
(`tests/refusing_malloc.c`, which a C compiler makes) refuses one request for memory in 10 to 300, from a pseudo-random one on: never those of
the command's words.

A run has to give the answer of the model (`tests/jobs.py`): the buffer, the credit that was spent and returned, and of each task its program,
R0, and the credit that it spent and returned. Where a request was refused, it may also tell 99, or nothing with status 3, where there was no
memory for the input or for the text of the answer. Trees of a seed are the same in each call, and --first tells the number of the first one.

So many processes work --at-once: as many as there are processors less two, unless it is said. After so many --seconds no further tree is taken.
A line for each number of workers tells what its runs came to. Status: 0 where no run was wrong. Else it is 1, each wrong run is told, and the
smallest job among them is kept in out/one_answer.
"""

import argparse
import collections
import multiprocessing
import os
import sys
import tempfile
import time

TOP = os.path.dirname(os.path.dirname(os.path.abspath(__file__)))
sys.path.insert(0, os.path.join(TOP, "tests"))
from programs import job_text  # noqa: E402  (the module stands in the folder that was just added)
from whole_runs import ANSWERED, SILENT, TOLD_99, WORKERS, WRONG, Runs, make_shim  # noqa: E402

KEPT = os.path.join(TOP, "out/one_answer")

# After so many trees a line tells how far it is.
A_LINE = 1000

# The runs of a process that looks at trees, once it has begun.
RUNS = []


def words():
    parser = argparse.ArgumentParser(description="Compares runs of pseudo-random jobs with the model, while memory is refused.")
    parser.add_argument("--trees", type=int, default=10_000)
    parser.add_argument("--first", type=int, default=0)
    parser.add_argument("--seed", type=int, default=1)
    parser.add_argument("--seconds", type=float, default=float("inf"))
    parser.add_argument("--at-once", type=int, default=max(1, len(os.sched_getaffinity(0)) - 2))
    return parser.parse_args()


def begin(*given):
    """Begins a process that looks at trees."""
    RUNS.append(Runs(*given))


def look(number):
    return number, RUNS[0].look(number)


class Sums:
    """The ends of runs, by workers."""

    def __init__(self):
        self.trees, self.ends, self.wrong = 0, collections.Counter(), []

    def add(self, number, ended):
        self.trees += 1
        for run in ended:
            self.ends[run.workers, run.refused > 0, run.end] += 1
            if run.end == WRONG:
                self.wrong.append(number)
                print(f"one_answer: tree {number}, {run.workers} workers, {run.refused} refused: {run.told[:1000]}", flush=True)

    def count(self, *wanted):
        """The count of runs with these workers, with or without a refused request, and with this end: any where it is None."""
        return sum(count for kind, count in self.ends.items()
                   if all(one is None or one == other for one, other in zip(wanted, kind)))

    def line(self, workers):
        ends = [self.count(workers, True, end) for end in (ANSWERED, TOLD_99, SILENT)]
        return (f"{self.count(workers)} runs; {self.count(workers, False)} without a refused request: {self.count(workers, False, ANSWERED)} answered;"
                f" {self.count(workers, True)} with some: {ends[0]} answered, {ends[1]} told 99, {ends[2]} told nothing;"
                f" {self.count(workers, None, WRONG)} wrong")

    def tell(self):
        for workers in WORKERS:
            print(f"one_answer: {workers:2} worker{'s' * (workers > 1)}: {self.line(workers)}")
        print(f"one_answer: {self.trees} trees: {self.line(None)}", flush=True)


def keep_smallest(given, numbers, room):
    """Keeps the smallest of the jobs that went wrong, and tells where."""
    trees = ((number, Runs(*given, room).tree(number)) for number in set(numbers))
    texts = [(job_text(tree.programs, tree.credit, tree.buffer), number) for number, tree in trees]
    text, number = min(texts, key=lambda it: (len(it[0]), it))
    os.makedirs(KEPT, exist_ok=True)
    path = os.path.join(KEPT, f"{number}.json")
    with open(path, "w", encoding="utf-8") as file:
        file.write(text)
    print(f"one_answer: the smallest job that went wrong is tree {number}: {path}")


def main():
    said, sums = words(), Sums()
    until = time.monotonic() + said.seconds
    numbers = range(said.first, said.first + said.trees)
    with tempfile.TemporaryDirectory(prefix="one-answer-") as room:
        given = said.seed, make_shim(room)
        with multiprocessing.Pool(said.at_once, begin, (*given, room)) as pool:
            for number, ended in pool.imap_unordered(look, numbers):
                sums.add(number, ended)
                if sums.trees % A_LINE == 0:
                    print(f"one_answer: {sums.trees} trees, {len(sums.wrong)} runs wrong", flush=True)
                if time.monotonic() > until:
                    break
        sums.tell()
        if sums.wrong:
            keep_smallest(given, sums.wrong, room)
    sys.exit(1 if sums.wrong or not sums.trees else 0)


if __name__ == "__main__":
    main()
