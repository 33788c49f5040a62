#!/usr/bin/env python3
"""Times `bpfjobs run` over trees of several shapes with 1, 2, 4 and 16 workers, of several builds in turn.

    TELGOVAN_LIB=FOLDER .ci/tree_times.py BPFJOBS .. [--rounds N] [--seconds N] [--shapes NAME,..]

Each BPFJOBS is a program. A round runs each shape with each number of workers by each program, in turn. A time is that of the whole process
with its start, the job's verdict and the printing of the report, which nobody reads. The first round is left out. After so many --seconds no
further round begins. The shapes:

    wide     a root and its 800 children of 2,000 steps, which get 5,000 of credit each
    deep     a binary tree of 8,191 tasks in 13 levels, 100 steps each; a task gives each child half of what it doesn't need
    chain    20,000 tasks of 12 steps, each of which gives the next one all that it doesn't need
    many     a root, its 100 children and 100 children of each, 10,101 tasks of 1,000 steps; the last ones get 1,000 of credit each
    small    a root, its 316 children and 316 children of each, 100,173 tasks; the last ones have 10 steps and so much credit
    long     a root, its 20 children and 20 children of each, 421 tasks of 4,000 steps; the last ones get 5,000 of credit each

A line tells the load averages, at the start and after each round. Then come two tables of milliseconds by program, of the clock's time and of
the time of all processors: the least one, and the one that a tenth of the rounds is below.
"""

import argparse
import json
import os
import subprocess
import sys
import tempfile
import time

TOP = os.path.dirname(os.path.dirname(os.path.abspath(__file__)))
sys.path.insert(0, os.path.join(TOP, "tests"))
from programs import assemble, job_text  # noqa: E402  (the module stands in the folder that was just added)

WORKERS = 1, 2, 4, 16
SPAWN = "mov64 r1, {program}\nmov64 r2, {share}\nmov64 r3, 0\nmov64 r4, 0\ncall 1\n"
# It spawns itself with a part of the credit that it is given, as often as that is enough.
SPAWN_ITSELF = "mov64 r1, 0\nmov64 r2, r6\nmov64 r3, 0\nmov64 r4, 0\ncall 1\n"


def task(steps, spawns="", price=0):
    """A program of so many steps, these spawns first, and its cost with what their price is over a step's each."""
    lines = spawns.splitlines()
    moves = ["mov64 r7, 0"] * (steps - len(lines) - 2)
    return (0, assemble("\n".join([*lines, *moves, "mov64 r0, 0", "exit"]))), steps + price


def levels(count, steps, leaf_steps, leaf_share):
    """A root, so many children, and as many children of each, all with enough credit."""
    leaf, _ = task(leaf_steps)
    inner_spawns = SPAWN.format(program=2, share=leaf_share) * count
    inner, cost = task(max(steps, 5 * count + 2), inner_spawns, 15 * count)
    share = cost + count * leaf_share
    root, cost = task(max(steps, 5 * count + 2), SPAWN.format(program=1, share=share) * count, 15 * count)
    return [root, inner, leaf], cost + count * share


def wide():
    count, share = 800, 5000
    root, cost = task(5 * count + 2, SPAWN.format(program=1, share=share) * count, 15 * count)
    return [root, task(2000)[0]], cost + count * share


def recursive(steps, children, depth):
    """A program that shares what it doesn't need between so many children of its own program."""
    cost = steps + 1 + 15 * children
    # what is left is told behind the price of this call, 2
    share = f"call 2\nsub64 r0, {cost - 2}\ndiv64 r0, {children}\nmov64 r6, r0\n"
    program, _ = task(steps, share + SPAWN_ITSELF * children)
    return [program], cost * sum(children**level for level in range(depth))


SHAPES = {
    "wide": (801, wide),
    "deep": (8191, lambda: recursive(100, 2, 13)),
    "chain": (20_000, lambda: recursive(12, 1, 20_000)),
    "many": (10_101, lambda: levels(100, 1000, 1000, 1000)),
    "small": (100_173, lambda: levels(316, 0, 10, 10)),
    "long": (421, lambda: levels(20, 4000, 4000, 5000)),
}


def run(program, workers, path):
    """The milliseconds of a run: of the clock, and of all processors."""
    with open(path, "rb") as given:
        began = time.perf_counter()
        process = subprocess.Popen([program, "run", "--workers", str(workers)], stdin=given, stdout=subprocess.DEVNULL)
        _, status, used = os.wait4(process.pid, 0)
        took = time.perf_counter() - began
    process.returncode = os.waitstatus_to_exitcode(status)
    if process.returncode:
        sys.exit(f"tree_times: {program} ends with {process.returncode}")
    return took * 1000, (used.ru_utime + used.ru_stime) * 1000


def write_jobs(names, room):
    """The paths of the jobs, by shape."""
    paths = {}
    for name in names:
        paths[name] = os.path.join(room, f"{name}.json")
        programs, credit = SHAPES[name][1]()
        with open(paths[name], "w", encoding="utf-8") as file:
            file.write(job_text(programs, credit, b""))
    return paths


def try_jobs(programs, paths):
    """Looks whether each program runs each job to its end, as often as it has tasks."""
    for program in programs:
        for name, path in paths.items():
            told = subprocess.run([program, "run", "--workers", "4", path], capture_output=True, check=True).stdout
            report = json.loads(told)
            ran = sum(end["ran"] for end in report["tasks"])
            if ran != SHAPES[name][0]:
                sys.exit(f"tree_times: {program} runs {ran} tasks of {name}")
            print(f"tree_times: {name}: {ran} tasks spend {report['spent']}, {report['returned']} is left", flush=True)


def parts(times):
    """The least and the tenth part of times, as a text."""
    times = sorted(times)
    return f"{times[0]:.1f} {times[len(times) // 10]:.1f}"


def tell(times, names, programs, which):
    """Prints a table of the times of the clock or of all processors."""
    print(f"| {which} | " + " | ".join(programs) + " |")
    print("|---|" + "---|" * len(programs))
    for name in names:
        for workers in WORKERS:
            cells = [parts([one[which == "processors"] for one in times[name, workers, program]]) for program in programs]
            print(f"| {name}, {workers} worker{'s' * (workers > 1)} | " + " | ".join(cells) + " |")


def measure(said, paths):
    """The times of each shape, number of workers and program."""
    times = {(name, workers, program): [] for name in paths for workers in WORKERS for program in said.programs}
    until, loads = time.monotonic() + said.seconds, [os.getloadavg()[0]]
    for number in range(said.rounds + 1):
        for (name, workers, program), found in times.items():
            one = run(program, workers, paths[name])
            if number:
                found.append(one)
        loads.append(os.getloadavg()[0])
        if time.monotonic() > until:
            break
    print(f"tree_times: {number} rounds; load averages from {min(loads):.1f} to {max(loads):.1f}")
    return times


def main():
    parser = argparse.ArgumentParser(description="Times bpfjobs run over trees of several shapes.")
    parser.add_argument("programs", nargs="+")
    parser.add_argument("--rounds", type=int, default=20)
    parser.add_argument("--seconds", type=float, default=float("inf"))
    parser.add_argument("--shapes", default=",".join(SHAPES))
    said = parser.parse_args()
    names = said.shapes.split(",")
    with tempfile.TemporaryDirectory(prefix="tree-times-") as room:
        paths = write_jobs(names, room)
        try_jobs(said.programs, paths)
        times = measure(said, paths)
    for which in ("clock", "processors"):
        tell(times, names, said.programs, which)


if __name__ == "__main__":
    main()
