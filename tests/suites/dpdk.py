"""DPDK's app/test/test_bpf.c: each program that the profile takes leaves what DPDK's own check wants."""

import ctypes
import tempfile

import sources
from outcomes import Tally, loaded

SOURCE = "dpdk-22.11"
SLOT = 8
SLICES = {
    "bpf_definitions.slice.h": ("lib/bpf/bpf_def.h", r"#ifndef _RTE_BPF_DEF_H_", None),
    "bpf_library.slice.h": ("lib/bpf/rte_bpf.h", r"#ifndef _RTE_BPF_H_", None),
    "dpdk_table.slice.c": ("app/test/test_bpf.c", r"struct dummy_offset \{", r"static int\nrun_test"),
}
# A program that differs in R0 alone: ours, DPDK's, and the sentence of RFC 9669 by which it does.
BY_ZERO = (
    "DPDK ends a program that divides by zero. RFC 9669, section 4.1: If BPF program execution would "
    "result in division by zero, the destination register is instead set to zero"
)
NAMED = {"test_div1": (1, 0, BY_ZERO)}


def shim(folder, room):
    """The table, as functions of C."""
    slices = ((name, sources.sliced(folder / file, first, end)) for name, (file, first, end) in SLICES.items())
    made = ctypes.CDLL(str(sources.compiled(room, "dpdk_table.c", slices)))
    made.suite_name.restype = ctypes.c_char_p
    made.suite_check.argtypes = [ctypes.c_int, ctypes.c_uint64, ctypes.c_void_p]
    return made


def program_of(table, at):
    code = ctypes.c_void_p()
    slots = table.suite_program(at, ctypes.byref(code))
    return ctypes.string_at(code, slots * SLOT)


def is_named(table, at, name, r0, memory):
    """Whether a program differs as it is known to, and leaves what DPDK's check wants."""
    ours, theirs, _ = NAMED.get(name, (None, None, None))
    return r0 == ours and table.suite_check(at, theirs, memory) == 0


def compare(tally, table, at):
    """Counts a program: it is refused, or DPDK's check takes what it answers and leaves."""
    name, size = table.suite_name(at).decode(), table.suite_memory(at)
    program, number = loaded(size, program_of(table, at))
    if program is None:
        tally.refused[number] += 1
        return
    memory = ctypes.create_string_buffer(size)
    table.suite_prepare(at, memory)
    with program:
        r0 = program.execute(memory).r0
    if table.suite_check(at, r0, memory) == 0:
        tally.agree += 1
    elif is_named(table, at, name, r0, memory):
        tally.named.append((name, NAMED[name][2]))
    else:
        tally.differences.append(f"{name}: R0 is {r0:#x}")


def suite():
    folder = sources.provide(SOURCE)
    tally = Tally("`app/test/test_bpf.c`", SOURCE.replace("dpdk-", "DPDK "))
    with tempfile.TemporaryDirectory(prefix="telgovan-") as room:
        table = shim(folder, room)
        for at in range(table.suite_count()):
            if table.suite_loads_packets(at):
                tally.left_out["it loads from a packet"] += 1
            elif table.suite_calls_back(at):
                tally.left_out["it calls functions of DPDK's test"] += 1
            else:
                compare(tally, table, at)
    return [tally]
