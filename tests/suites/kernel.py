"""The kernel's lib/test_bpf.c: each program that the profile takes comes to what the kernel says."""

import ctypes
import errno
import struct
import tempfile

import sources
from outcomes import TOO_LONG, Tally, loaded

CLASSIC = 1 << 6
EXPECTED_TO_FAIL = 1 << 1
SOURCE = "linux-6.12"
SLOT = 8
# A piece has room for the instructions in front of it and behind it.
MOST_SLOTS, ROOM = 4096, 8

# The slices of the kernel's sources that the shim includes: the file, and where it begins and ends.
SLICES = {
    "filter_macros.slice.h": ("include/linux/filter.h", r"#define BPF_REG_ARG1", r"#define BPF_LDST_BYTES"),
    "random_seed.slice.c": ("include/linux/prandom.h", r"static inline u32 __seed", r"/\* Pseudo random|#endif"),
    "random_number.slice.c": ("lib/random32.c", r"u32 prandom_u32_state", r"EXPORT_SYMBOL"),
    "convert_filter.slice.c": ("net/core/filter.c", r"static bool convert_bpf_ext", r"/\* Security:"),
    "test_table.slice.c": ("lib/test_bpf.c", r"#define MAX_SUBTESTS", r"static struct net_device dev"),
}


def shim(folder, room):
    """The table, as functions of C."""
    slices = ((name, sources.sliced(folder / file, first, end)) for name, (file, first, end) in SLICES.items())
    made = ctypes.CDLL(str(sources.compiled(room, "kernel_table.c", slices, [folder / "include/uapi"])))
    made.suite_name.restype = ctypes.c_char_p
    return made


def program_of(table, at):
    """The bytes of a test's program, or the error by which there is none."""
    code = ctypes.c_void_p()
    slots = table.suite_program(at, ctypes.byref(code))
    if slots < 0:
        return None, errno.errorcode.get(-slots, str(-slots))
    return ctypes.string_at(code, slots * SLOT), None


def runs_of(table, at):
    """The runs of a test: what each comes to, and its memory."""
    result, memory, size = ctypes.c_uint32(), ctypes.c_void_p(), ctypes.c_int()
    place = 0
    while table.suite_run(at, place, *map(ctypes.byref, (result, memory, size))):
        given = ctypes.string_at(memory, size.value) if memory.value else bytes(size.value)
        yield result.value, given
        place += 1


class Refused(Exception):
    """The number that a program is refused by."""


class Unclear(Exception):
    """What a piece leaves that it shouldn't."""


def run(code, memory):
    """What a program comes to."""
    program, number = loaded(len(memory), code)
    if program is None:
        raise Refused(number)
    with program:
        return program.execute(bytearray(memory)).r0


# ---- programs that are too long, in pieces

EXIT = bytes.fromhex("9500000000000000")
XOR_BY_R1 = bytes.fromhex("af10000000000000")
# What is mixed into R0 at a piece's end. R0 has 32 bits otherwise, so this tells whether it was reached.
MARK = 0x5A17_C0DE_0000_0000


def lddw(register, number):
    low, high = number % 2**32, number >> 32
    return struct.pack("<BBhIII", 0x18, register, 0, low, 0, high)


def pieces_of(table, code):
    """The pieces that a program is cut into, or none."""
    slots = len(code) // SLOT
    ends = (ctypes.c_int * slots)()
    count = table.suite_pieces(code, slots, MOST_SLOTS - ROOM, ends)
    bounds = [0, *ends[:count]]
    return [code[start * SLOT : end * SLOT] for start, end in zip(bounds, bounds[1:])]


def run_pieces(pieces, memory):
    """What a program comes to whose pieces run one behind the other. Each begins with R0 as the one
    ahead of it left it."""
    r0 = 0
    for piece in pieces[:-1]:
        left = run(lddw(0, r0) + piece + lddw(1, MARK) + XOR_BY_R1 + EXIT, memory)
        if left < 2**32:
            return left
        r0 = left ^ MARK
        if r0 >= 2**32:
            raise Unclear(f"a piece leaves {left:#x}")
    return run(lddw(0, r0) + pieces[-1], memory)


def compare(tally, table, name, code, runs):
    """Counts a program: it is refused, or each of its runs comes to what the table says."""
    pieces = pieces_of(table, code) if len(code) > MOST_SLOTS * SLOT else []
    try:
        told = [(wanted, run_pieces(pieces, memory) if pieces else run(code, memory)) for wanted, memory in runs]
    except Refused as refusal:
        tally.refused[TOO_LONG if pieces else refusal.args[0]] += 1
        return
    except Unclear as error:
        tally.differences.append(f"{name}: {error}")
        return
    tally.in_pieces += bool(pieces)
    wrong = [f"{r0 % 2**32:#x} and not {wanted:#x}" for wanted, r0 in told if r0 % 2**32 != wanted]
    tally.runs += len(told)
    if wrong:
        tally.differences.append(f"{name}: {', '.join(wrong)}")
    else:
        tally.agree += 1


def suite(title, is_classic):
    """The tests of classic BPF, or the others."""
    folder = sources.provide(SOURCE)
    tally = Tally(title, SOURCE.replace("linux-", "Linux "))
    with tempfile.TemporaryDirectory(prefix="telgovan-") as room:
        table = shim(folder, room)
        for at in range(table.suite_count()):
            flags = table.suite_flags(at)
            if bool(flags & CLASSIC) != is_classic:
                continue
            if flags & EXPECTED_TO_FAIL:
                tally.left_out["the kernel refuses it ahead of its conversion"] += 1
                continue
            code, error = program_of(table, at)
            if code is None:
                tally.left_out[f"the kernel's conversion gives {error}"] += 1
            else:
                compare(tally, table, table.suite_name(at).decode(), code, list(runs_of(table, at)))
    return [tally]


def suite_of_ebpf():
    return suite("`lib/test_bpf.c`", False)


def suite_of_classic():
    return suite("`lib/test_bpf.c`, classic", True)
