"""Instructions as bytes, read off RFC 9669's tables: which there are, and why bytes are no program.

This module, `machine` and `jobs` are a plain model of the machine of docs/profile.md. They share no
line with the programs that the tests run, so that both may be compared.
"""

import struct
from collections import namedtuple

# A decoded instruction: the name of its operation without its width, the width in bits (the size of
# an access or of a byte order), the numbers of its registers, its offset, its immediate number, and
# whether its second operand is the register.
Instruction = namedtuple("Instruction", "name width dst src offset imm by_register slots")

SLOT = 8
MOST_SLOTS = 4096
REGISTERS = 11

ARITHMETIC = {
    0x0: "add", 0x1: "sub", 0x2: "mul", 0x3: "div", 0x4: "or", 0x5: "and", 0x6: "lsh",
    0x7: "rsh", 0x8: "neg", 0x9: "mod", 0xA: "xor", 0xB: "mov", 0xC: "arsh", 0xD: "end",
}
CONDITIONS = {
    0x1: "jeq", 0x2: "jgt", 0x3: "jge", 0x4: "jset", 0x5: "jne", 0x6: "jsgt", 0x7: "jsge",
    0xA: "jlt", 0xB: "jle", 0xC: "jslt", 0xD: "jsle",
}
SIZES = {0x00: 32, 0x08: 16, 0x10: 8, 0x18: 64}


class Refused(Exception):
    """Bytes that are no program, or a program that isn't accepted: the number, and the slot or None."""

    def __init__(self, number, slot=None):
        super().__init__(f"refused {number} at {slot}")
        self.number, self.slot = number, slot


def signed(number, width):
    """The signed reading of the lowest bits."""
    number &= (1 << width) - 1
    return number - (1 << width) if number >> (width - 1) else number


def arithmetic(opcode, src, offset, imm):
    """The name, the width, and the fields that are used, or None where there is no such operation."""
    width = 64 if opcode & 7 == 7 else 32
    name, by_register = ARITHMETIC.get(opcode >> 4), bool(opcode & 8)
    if name is None:
        return None
    if name == "end":
        if imm not in (16, 32, 64) or (width == 64 and by_register):
            return None
        order = "swap" if width == 64 else ("be" if by_register else "le")
        return order, imm, {"dst", "imm"}, False
    if name == "neg":
        return None if by_register else (name, width, {"dst"}, False)
    used = {"dst", "src"} if by_register else {"dst", "imm"}
    if name in ("div", "mod"):
        if offset not in (0, 1):
            return None
        return ("s" if offset else "") + name, width, used | {"offset"}, by_register
    if name == "mov" and offset:
        if not by_register or offset not in ((8, 16, 32) if width == 64 else (8, 16)):
            return None
        return f"movsx{offset}", width, used | {"offset"}, True
    return name, width, used, by_register


def jumping(opcode, src, offset, imm):
    """The same of the two classes of jumps."""
    width = 64 if opcode & 7 == 5 else 32
    code, by_register = opcode >> 4, bool(opcode & 8)
    if code in CONDITIONS:
        used = {"dst", "offset", "src" if by_register else "imm"}
        return CONDITIONS[code], width, used, by_register
    if by_register:
        return None
    if code == 0:
        return ("ja", 64, {"offset"}, False) if width == 64 else ("ja32", 32, {"imm"}, False)
    if width == 64 and code == 8:
        # the source field says what the number is; 0 is a helper's
        return None if src else ("call", 64, {"imm", "src"}, False)
    if width == 64 and code == 9:
        return "exit", 64, set(), False
    return None


def moving(opcode):
    """The same of loads and stores."""
    kind, mode, size = opcode & 7, opcode & 0xE0, SIZES[opcode & 0x18]
    if kind == 1 and mode == 0x60:
        return "ldx", size, {"dst", "src", "offset"}, True
    if kind == 1 and mode == 0x80 and size != 64:
        return "ldxs", size, {"dst", "src", "offset"}, True
    if kind == 2 and mode == 0x60:
        return "st", size, {"dst", "offset", "imm"}, False
    if kind == 3 and mode == 0x60:
        return "stx", size, {"dst", "src", "offset"}, True
    return None


def row_of(opcode, src, offset, imm):
    """The row of the opcode table, or None."""
    kind = opcode & 7
    if kind in (4, 7):
        return arithmetic(opcode, src, offset, imm)
    if kind in (5, 6):
        return jumping(opcode, src, offset, imm)
    if kind in (1, 2, 3):
        return moving(opcode)
    if opcode == 0x18 and src == 0:
        return "lddw", 64, {"dst", "src", "imm"}, False
    return None


def decode_at(code, slot):
    """The instruction that begins at a slot."""
    opcode, registers, offset, imm = struct.unpack_from("<BBhi", code, SLOT * slot)
    fields = {"dst": registers & 15, "src": registers >> 4, "offset": offset, "imm": imm}
    row = row_of(opcode, fields["src"], offset, imm)
    if row is None:
        raise Refused(4, slot)
    name, width, used, by_register = row
    if any(fields[field] >= REGISTERS for field in ("dst", "src") if field in used):
        raise Refused(5, slot)
    if any(fields[field] for field in fields if field not in used):
        raise Refused(6, slot)
    if name != "lddw":
        return Instruction(name, width, fields["dst"], fields["src"], offset, imm, by_register, 1)
    if SLOT * (slot + 1) == len(code):
        raise Refused(7, slot)
    low, high = imm & 0xFFFFFFFF, struct.unpack_from("<I", code, SLOT * (slot + 1) + 4)[0]
    if any(code[SLOT * (slot + 1) : SLOT * (slot + 1) + 4]):
        raise Refused(6, slot)
    return Instruction(name, width, fields["dst"], 0, 0, high << 32 | low, False, 2)


def decode(code):
    """The instructions by slot, None at the second slot of a wide one, or the lowest refusal."""
    if not code:
        raise Refused(1)
    if len(code) % SLOT:
        raise Refused(2)
    if len(code) > SLOT * MOST_SLOTS:
        raise Refused(3)
    slots = []
    while len(slots) < len(code) // SLOT:
        instruction = decode_at(code, len(slots))
        slots += [instruction] + [None] * (instruction.slots - 1)
    return slots


def successors(slots, slot):
    """The slots that may follow an instruction."""
    instruction = slots[slot]
    following = slot + instruction.slots
    if instruction.name == "exit":
        return []
    if instruction.name == "ja":
        return [slot + 1 + instruction.offset]
    if instruction.name == "ja32":
        return [slot + 1 + instruction.imm]
    if instruction.name in CONDITIONS.values():
        return [following, slot + 1 + instruction.offset]
    return [following]


# What a call of each helper costs; every other instruction costs 1.
PRICES = {1: 16, 2: 2, 3: 2, 4: 32, 5: 32}
OTHER_HELPER = 8


def price(instruction):
    if instruction.name != "call":
        return 1
    return PRICES.get(instruction.imm & 0xFFFFFFFF, OTHER_HELPER)


def costs(slots):
    """The dearest way to an end from each slot, 0 where no instruction begins. No path may lead back."""
    table, doing = [0] * len(slots), [0]
    while doing:
        slot = doing[-1]
        waiting = [other for other in successors(slots, slot) if not table[other]]
        if waiting and not table[slot]:
            doing += waiting
            continue
        doing.pop()
        table[slot] = price(slots[slot]) + max((table[other] for other in successors(slots, slot)), default=0)
    return table
