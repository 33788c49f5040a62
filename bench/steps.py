"""Nanoseconds of a processor for each instruction that runs, of ten programs."""

import subprocess
import sys

import scenarios
from machines import HERE, TOP, compiled, dpdk, dpdk_environment, flat, library, machine, table, written

# DPDK's validator walks each path: on these it takes longer than anybody waits
ENDLESS = {("dpdk", "ladder"), ("dpdk", "comb")}


def native(room):
    names = scenarios.compiled()
    included = [f'#define filter {name}\n#include "{TOP}/examples/clang/{name}.c"\n#undef filter\n' for name in names]
    listed = ", ".join(f'{{"{name}", (unsigned long (*)()){name}}}' for name in names)
    written(room, "functions.h", f"{''.join(included)}#define FUNCTIONS {listed}\n")
    return compiled(room, "native", f"{HERE}/native.c", f"-I{room}")


def measured(name, words):
    """What a machine tells of each program: R0, how many steps, and nanoseconds."""
    text = "".join(line for line in scenarios.lines() if (name, line.split()[0]) not in ENDLESS)
    ran = subprocess.run(words, input=text, capture_output=True, text=True, env=dpdk_environment(), check=True)
    rows = (line.split() for line in ran.stdout.splitlines())
    return {row[0]: (int(row[1]), int(row[2]), float(row[3])) for row in rows if len(row) == 4}


def in_turn(machines, rounds):
    """The quickest of each machine for each program, and how many steps a run has."""
    quickest, steps = {}, {}
    for _ in range(rounds):
        for name, words in machines.items():
            for program, (r0, ran, nanoseconds) in measured(name, words).items():
                if name == "telgovan":
                    steps[program] = (r0, ran)
                elif (r0 ^ steps[program][0]) & 0xFFFFFFFFFFFFFFFF:
                    sys.exit(f"bench: {name} answers {r0} to {program}, telgovan {steps[program][0]}")
                known = quickest.setdefault(program, {}).get(name, nanoseconds)
                quickest[program][name] = min(known, nanoseconds)
    return quickest, steps


def measure(room, rounds):
    """The lines of the table, and what is drawn: a group of bars a program."""
    before = machine()
    machines = {
        "telgovan": compiled(room, "telgovan", f"{HERE}/telgovan.c", library()),
        "switch": flat(room, "switch"),
        "threaded": flat(room, "threaded"),
        "dpdk": dpdk(room, "dpdk"),
        "native": native(room),
    }
    machines = {name: words for name, words in machines.items() if words}
    quickest, steps = in_turn(machines, rounds)
    each = {
        program: {name: time / max(steps[program][1], 1) for name, time in times.items()}
        for program, times in quickest.items()
    }
    rows = [
        [program, f"{steps[program][1]:,}", *(f"{times[name]:.2f}" if name in times else None for name in machines)]
        for program, times in each.items()
    ]
    head = f"{before}; the quickest of {rounds} turns; nanoseconds a step."
    return [head, "", *table(["Program", "steps", *machines], rows)], ("ns a step", each)
