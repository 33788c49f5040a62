"""Microseconds of a verdict: a program is verified, held, and let go of, by the library, by DPDK and by the
kernel, which also compile it. Beside it stands how long clang takes from the source in C to the bytes."""

import subprocess
import time

import filters
import scenarios
from machines import HERE, TOP, compiled, dpdk, dpdk_environment, for_kernel, found, lacks, library, machine
from machines import of_clang, say, table
from steps import ENDLESS

OVER_VERDICTS = '-DMAIN="verdicts.h"'
TRIES = 5


def programs(room):
    """Each program: its name, its bytes, the length of its memory, and its source in C, where there is one."""
    for step in (scenarios.arithmetic, scenarios.memory, scenarios.ladder, scenarios.comb):
        yield step.__name__, scenarios.written(step), 8, None
    if not lacks("the filter's verdict", "clang", "llvm-objcopy"):
        with open(of_clang(room, "filter", filters.SOURCE), "rb") as file:
            yield "filter", file.read(), filters.SHORTEST, filters.SOURCE
    for name in scenarios.compiled():
        lent = len(scenarios.MEMORIES.get(name, b"")) or scenarios.LONGEST_FRAME
        yield name, scenarios.bytes_of(f"clang/{name}.bin"), lent, f"{TOP}/examples/clang/{name}.c"


def given_kernel(room, all_programs):
    """What the kernel is given: the four programs as they stand, and those in C with a head of its own."""
    for name, code, lent, source in all_programs:
        if source is None:
            yield name, code, lent
        elif not lacks(f"{name} for the kernel", "clang", "llvm-objcopy"):
            with open(for_kernel(room, name, source, lent, scenarios.ARGUMENT), "rb") as file:
                yield name, file.read(), lent


def told(words, given):
    """Microseconds of each program that isn't refused."""
    text = "".join(f"{name} {code.hex()} {lent}\n" for name, code, lent in given)
    where = dpdk_environment() if words[0].endswith("dpdk") else None
    done = subprocess.run(words, input=text, capture_output=True, text=True, env=where, check=True)
    rows = (line.split() for line in done.stdout.splitlines())
    return {name: int(value) / 1000 for name, value in rows if value != "refused"}


def compile_time(room, source):
    """Milliseconds of the clock of the quickest of several calls, from the source to the bytes."""
    if source is None or lacks("clang's time", "clang", "llvm-objcopy"):
        return None
    quickest = float("inf")
    for _ in range(TRIES):
        start = time.perf_counter()
        of_clang(room, "timed", source)
        quickest = min(quickest, time.perf_counter() - start)
    return 1000 * quickest


def machines(room, all_programs):
    """Each machine that is to be had here, and what it is given."""
    plain = [(name, code, lent) for name, code, lent, _ in all_programs]
    yield "telgovan", compiled(room, "telgovan", f"{HERE}/telgovan.c", OVER_VERDICTS, library()), plain
    words = dpdk(room, "dpdk", OVER_VERDICTS)
    if words:
        yield "DPDK", words, [row for row in plain if ("dpdk", row[0]) not in ENDLESS]
    words = found("the kernel", room, "kernel", f"{HERE}/kernel.c", OVER_VERDICTS)
    if words:
        yield "kernel", words, list(given_kernel(room, all_programs))


def in_turn(all_machines, rounds):
    """The quickest of each machine for each program."""
    quickest = {}
    for _ in range(rounds):
        for name, words, given in all_machines:
            for program, value in told(words, given).items():
                known = quickest.setdefault(program, {}).get(name, value)
                quickest[program][name] = min(known, value)
    return quickest


def measure(room, rounds):
    """The lines of the table, and what is drawn: a group of bars a program."""
    before, all_programs = machine(), list(programs(room))
    all_machines = list(machines(room, all_programs))
    quickest = in_turn(all_machines, rounds)
    names = [name for name, _, _ in all_machines]
    if not any("kernel" in times for times in quickest.values()):
        say("the kernel's verdicts are left out: it loads no program for this user")
    rows = []
    for name, code, _, source in all_programs:
        times, spent = quickest.get(name, {}), compile_time(room, source)
        cells = [f"{times[who]:,.1f}" if who in times else None for who in names]
        rows.append([name, f"{len(code) // 8:,}", *cells, f"{spent:.0f} ms" if spent else None])
    head = f"{before}; the quickest of {rounds} turns; microseconds a program that is verified, held and let go of."
    return [head, "", *table(["Program", "slots", *names, "from C to bytes"], rows)], ("µs a verdict", quickest)
