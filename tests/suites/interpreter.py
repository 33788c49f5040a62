"""The kernel's interpreter, kernel/bpf/core.c, beside ours: each operation and comparison on many
numbers, and the programs that clang made on pseudo-random memories.

What the kernel's verifier refuses, or writes as other instructions, isn't asked: shifts by a constant
of more than the bits, divisions by zero, and signed ones by -1.
"""

import ctypes
import random
import tempfile

import clang_programs
import kernel
import sources
from outcomes import Tally, loaded, telgovan

MEMORIES, LENGTH = 5, 64
SLICES = {
    "filter_macros.slice.h": kernel.SLICES["filter_macros.slice.h"],
    "registers.slice.h": ("kernel/bpf/core.c", r"#define BPF_R0", r"struct bpf_mem_alloc"),
    "opcodes.slice.c": ("kernel/bpf/core.c", r"#define BPF_INSN_MAP", r"bool bpf_opcode_in"),
    "interpreter.slice.c": ("kernel/bpf/core.c", r"static u32 abs_s32", r"#define PROG_NAME"),
}
OPERATORS = "add sub mul div sdiv or and lsh rsh mod smod xor arsh mov".split()
UNARY = ["neg32", "neg64", *(f"{order}{width}" for order in ("le", "be", "swap") for width in (16, 32, 64))]
EXTENSIONS = ["movsx8_32", "movsx16_32", "movsx8_64", "movsx16_64", "movsx32_64"]
CONDITIONS = "jeq jne jgt jge jlt jle jset jsgt jsge jslt jsle".split()
POWERS = (0, 3, 4, 5, 6, 7, 8, 15, 16, 30, 31, 32, 33, 47, 62, 63)
NUMBERS = sorted({(sign * 2**power + more) % 2**64 for power in POWERS for sign in (1, -1) for more in (-1, 0, 1)})
IMMEDIATES = (0, 1, 2, 3, 7, 8, 15, 16, 31, 32, 33, 63, 255, 2**31 - 1, -1, -2, -3, -128, -(2**31))

LOADS = "ldxdw r6, [r1+0]\nldxdw r7, [r1+8]\n"
RESULT = "stxdw [r1+16], r6\nmov64 r0, r6\nexit"
# behind a jump of two slots
TAKEN = "mov64 r0, 1\nexit\nmov64 r0, 2\nexit"


def shim(folder, room):
    slices = ((name, sources.sliced(folder / file, first, end)) for name, (file, first, end) in SLICES.items())
    made = ctypes.CDLL(str(sources.compiled(room, "interpreter.c", slices, [folder / "include/uapi"])))
    made.suite_interpret.restype = ctypes.c_uint64
    made.suite_interpret.argtypes = [ctypes.c_char_p, ctypes.c_void_p, ctypes.c_uint64, ctypes.c_uint64]
    return made


# ---- programs of one operation, each with whether it may be asked of two numbers


def has_answer(name, width, right):
    """Whether the kernel's interpreter has an answer with this right operand."""
    low = right % 2**width
    if name in ("div", "mod"):
        return low != 0
    # the kernel's verifier writes other instructions for a signed division by 0 and by -1
    return name not in ("sdiv", "smod") or low not in (0, 2**width - 1)


def may_be_immediate(name, width, number):
    """Whether the kernel takes this number in the instruction."""
    if name in ("lsh", "rsh", "arsh"):
        return 0 <= number < width
    return has_answer(name, width, number)


def operations():
    """The text of each program, and the question of which right operands it may be asked."""
    for width in (64, 32):
        for name in OPERATORS:
            yield f"{name}{width} r6, r7", RESULT, lambda right, of=(name, width): has_answer(*of, right)
            for number in IMMEDIATES:
                if may_be_immediate(name, width, number):
                    yield f"{name}{width} r6, {number}", RESULT, None
        for name in CONDITIONS:
            word = name if width == 64 else f"{name}32"
            yield f"{word} r6, r7, +2", TAKEN, lambda right: True
            for number in IMMEDIATES:
                yield f"{word} r6, {number}, +2", TAKEN, None
    for name in UNARY:
        yield f"{name} r6", RESULT, None
    for name in EXTENSIONS:
        yield f"{name} r6, r7", RESULT, lambda right: True


def pairs(may):
    """The operands of a program: those of which the right one is asked, or one right one alone."""
    rights = [0] if may is None else [right for right in NUMBERS if may(right)]
    return [(left, right) for left in NUMBERS for right in rights]


# ---- the suite


def other(library, program, memory, argument):
    """How ours differs from the kernel's interpreter on a memory, or None."""
    ours = bytearray(memory)
    theirs = ctypes.create_string_buffer(bytes(memory), len(memory))
    r0 = program.execute(ours, argument=argument).r0
    wanted = library.suite_interpret(program.code, theirs, len(memory), argument)
    if r0 == wanted and ours == theirs.raw:
        return None
    before, left, right = (bytes(it).rstrip(b"\0").hex() for it in (memory, ours, theirs.raw))
    return f"on {before} and {argument:#x}: {r0:#x}, {left} and not {wanted:#x}, {right}"


def judge(tally, library, name, code, runs):
    """Counts a program: it is refused, or each of its runs comes to what the kernel's comes to."""
    program, number = loaded(LENGTH, code)
    if program is None:
        tally.refused[number] += 1
        return
    with program:
        differs = next(filter(None, (other(library, program, *run) for run in runs)), None)
    tally.runs += len(runs)
    if differs:
        tally.differences.append(f"{name}: {differs}")
    else:
        tally.agree += 1


def memory_of(left, right):
    return left.to_bytes(8, "little") + right.to_bytes(8, "little") + bytes(LENGTH - 16)


def compare(title, is_on_page, judge_all):
    """What the programs come to that a function judges, which is given a tally, the kernel's
    interpreter and a room."""
    folder = sources.provide(kernel.SOURCE)
    tally = Tally(title, kernel.SOURCE.replace("linux-", "Linux "), is_on_page)
    with tempfile.TemporaryDirectory(prefix="telgovan-") as room:
        judge_all(tally, shim(folder, room), room)
    tally.notes.append(f"{tally.runs} runs")
    return [tally]


def judge_operations(tally, library, _room):
    for line, rest, may in operations():
        code = telgovan.assemble(f"{LOADS}{line}\n{rest}")
        judge(tally, library, line, code, [(memory_of(*pair), 0) for pair in pairs(may)])


def judge_clang(tally, library, room):
    chance = random.Random(clang_programs.SEED)
    for made in clang_programs.compiled(clang_programs.tool("clang"), room):
        for name, code in clang_programs.sections(made.read_bytes()).items():
            runs = [(chance.randbytes(LENGTH), chance.choice(NUMBERS)) for _ in range(MEMORIES)]
            judge(tally, library, name, code, runs)


def suite_of_operations():
    return compare("`kernel/bpf/core.c`, one operation", True, judge_operations)


def suite_of_clang():
    return compare("`kernel/bpf/core.c`, clang's programs", clang_programs.is_of_page(), judge_clang)
