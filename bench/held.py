"""What a tenant's program costs that is held and idle: bytes and microseconds each, and how many fit a
gigabyte. Many are loaded at once, and what the process then has is divided by their number."""

import subprocess

import scenarios
from filters import SOURCE, SHORTEST, lua, object_of, wasm
from machines import HERE, compiled, dpdk, dpdk_environment, for_kernel, found, lacks, library, machine
from machines import of_clang, say, table, written

OVER_HELD = '-DMAIN="held.h"'
GIGABYTE = 1 << 30
BY_CLOCK = "-DCLOCK=CLOCK_MONOTONIC"
LINE = f"{scenarios.TOP}/examples/clang/request_line.bin"


def own(room):
    """The library, with programs of several lengths."""
    words = compiled(room, "telgovan", f"{HERE}/telgovan.c", OVER_HELD, library())
    with open(f"{room}/arithmetic", "wb") as file:
        file.write(scenarios.written(scenarios.arithmetic))
    yield "telgovan, the filter", [*words, of_clang(room, "filter", SOURCE), str(SHORTEST), "10000"]
    yield "telgovan, 686 slots", [*words, LINE, str(len(scenarios.MEMORIES["request_line"])), "1000"]
    yield "telgovan, 4,096 slots", [*words, f"{room}/arithmetic", "8", "100"]


def others(room):
    """Other machines that hold the filter."""
    code = of_clang(room, "filter", SOURCE)
    made = dpdk(room, "dpdk", OVER_HELD)
    yield "DPDK", [*made, code, str(SHORTEST), "10000"] if made else None
    made = found("the kernel", room, "kernel", f"{HERE}/kernel.c", OVER_HELD)
    yield "kernel", [*made, for_kernel(room, "filter", SOURCE, SHORTEST, 0), "0", "500"] if made else None
    made = lua(room, "lua", OVER_HELD)
    yield "lua, a state each", [*made, "0", "2000"] if made else None
    made = wasm(room)
    yield "wasm, an instance each", [*made, "1000", "held"] if made else None


def of_system(room):
    """A thread and a process each, which wait."""
    how = [OVER_HELD, BY_CLOCK, "-DHOLDS", object_of(room), "-pthread"]
    made = found("threads and processes", room, "processes", f"{HERE}/processes.c", *how)
    for name, way, count in (("thread", "thread", "500"), ("process", "fork", "200")):
        yield f"a {name} each", [*made, written(room, way, way), "0", count] if made else None


def told(words):
    """Kilobytes given out by malloc and resident, and microseconds, of each; or None where it can't be had."""
    where = dpdk_environment() if words[0].endswith("dpdk") else None
    done = subprocess.run(words, capture_output=True, text=True, env=where, check=False)
    if done.returncode != 0:
        return None
    given_out, resident, nanoseconds = map(float, done.stdout.split())
    return given_out / 1024, resident / 1024, nanoseconds / 1000


def measure(room, rounds):
    """The lines of the table, and what is drawn."""
    if lacks("what is held", "clang", "llvm-objcopy"):
        return None
    before, rows, drawn = machine(), [], {}
    for name, words in [*own(room), *others(room), *of_system(room)]:
        tried = [told(words) for _ in range(rounds)] if words else [None]
        if None in tried:
            say(f"{name} is left out: it can't be held here")
            continue
        given_out, resident, time = (min(values) for values in zip(*tried))
        drawn[name] = max(given_out, resident)
        kilobytes = [f"{given_out:,.1f}" if given_out >= 0.1 else None, f"{resident:,.1f}"]
        rows.append([name, *kilobytes, f"{time:,.1f}", f"{GIGABYTE / 1024 / drawn[name]:,.0f}"])
    head = f"{before}; the least of {rounds} turns; kilobytes (of 1,024 bytes) and microseconds each."
    columns = ["Held and idle", "kB by malloc", "kB in all", "µs until it is held", "fit a gigabyte"]
    return [head, "", *table(columns, rows)], ("kB held", {"held": drawn})
