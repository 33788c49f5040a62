"""The programs that `bench/run` measures, as bytes: the scenarios of `benchmark`, and what clang made
of the C functions in `examples/clang`."""

import os
import struct

TOP = os.path.dirname(os.path.dirname(os.path.abspath(__file__)))
SLOTS = 4096


def insn(opcode, dst=0, src=0, offset=0, imm=0):
    return struct.pack("<BBhi", opcode, src << 4 | dst, offset, imm)


def arithmetic(place):
    """Sums, products, shifts and bit operations of both widths."""
    return [
        insn(0x07, 0, imm=7),
        insn(0xAF, 4, 0),
        insn(0x24, 5, imm=3),
        insn(0x1F, 0, 5),
        insn(0x77, 4, imm=3),
        insn(0x0C, 4, 5),
        insn(0x47, 5, imm=1),
        insn(0x57, 0, imm=0xFFFF),
    ][place % 8]


def memory(place):
    """Half loads and stores of the stack and the part, half arithmetic."""
    accesses = {
        0: insn(0x7B, 10, 0, -8),
        2: insn(0x61, 4, 10, -8),
        4: insn(0x73, 1, 4, 3),
        6: insn(0x69, 5, 1, 2),
    }
    return accesses.get(place % 8) or arithmetic(place)


def ladder(place):
    """Jumps to the next slot but one, half of them taken."""
    return [insn(0x45, 0, offset=1, imm=1), insn(0x07, 0, imm=2), insn(0x07, 0, imm=1)][place % 3]


def comb(place):
    """Jumps to the last slots, none of them taken."""
    left = max(0, SLOTS - 5 - place - 1)
    if place % 2 == 0:
        return insn(0x25, 0, offset=min(left, 0x7FFF), imm=0x7FFFFFFF)
    return insn(0x07, 0, imm=1)


def written(step):
    """A program of 4,096 slots that does this over and over."""
    head = [insn(0xB7, 0, imm=1), insn(0xB7, 4, imm=2), insn(0xB7, 5, imm=3)]
    body = [step(place) for place in range(SLOTS - 5)]
    return b"".join([*head, *body, insn(0x07, 0), insn(0x95)])


# the memories that the filters in C are run on; the others get a DNS query
MEMORIES = {
    "median": struct.pack("<5I", 9, 2, 7, 4, 5),
    "request_line": b"GET /docs/benchmarks.md HTTP/1.1\r\nHost: example.com\r\n",
}
LONGEST_FRAME = 78  # what the filters of frames need at most
ARGUMENT = 53


def compiled():
    """The names of the filters in C."""
    folder = f"{TOP}/examples/clang"
    return sorted(name[:-4] for name in os.listdir(folder) if name.endswith(".bin"))


def bytes_of(path):
    with open(f"{TOP}/examples/{path}", "rb") as file:
        return file.read()


def programs():
    """Each program: its name, its bytes and the memory that it is run on."""
    for step in (arithmetic, memory, ladder, comb):
        yield step.__name__, written(step), bytes(8)
    for name in compiled():
        yield name, bytes_of(f"clang/{name}.bin"), MEMORIES.get(name) or bytes_of("query.bin").ljust(LONGEST_FRAME, b"\0")


def lines():
    """What each machine is told of them."""
    for name, code, lent in programs():
        yield f"{name} {code.hex()} {lent.hex() or '-'} {ARGUMENT}\n"
