"""Programs that clang made, as other tools write them and as ours does: the bytes stay the same.

llvm-objdump's text and that of bpftool's disassembler are read into our syntax and assembled. Our
text of the same programs is written in LLVM's syntax, and llvm-mc assembles it.
"""

import ctypes
import re
import subprocess
import tempfile
from pathlib import Path

import clang_programs
import sources
from outcomes import Tally, telgovan

SOURCE = "linux-6.1"
OPERATORS = {
    "+": "add", "-": "sub", "*": "mul", "/": "div", "%": "mod", "|": "or", "&": "and",
    "<<": "lsh", ">>": "rsh", "s>>": "arsh", "^": "xor", "": "mov",
}
CONDITIONS = {
    "==": "jeq", "!=": "jne", ">": "jgt", ">=": "jge", "<": "jlt", "<=": "jle", "&": "jset",
    "s>": "jsgt", "s>=": "jsge", "s<": "jslt", "s<=": "jsle",
}
SIZES = {"u8": "b", "u16": "h", "u32": "w", "u64": "dw"}
WIDTHS = {"r": "64", "w": "32"}


class Unread(Exception):
    """A line that no rule reads."""


# ---- from the text of llvm-objdump and of bpftool to ours

NUMBER = r"-?(?:0x[0-9a-f]+|\d+)"
OPERAND = rf"[rw]\d+|{NUMBER}"
ADDRESS = rf"\*\((u\d+) \*\)\(r(\d+) ([+-]) ?(\d+)\)"


def operand(text):
    """A register, or a number as the 32 bits of an instruction say it."""
    if text[0] in "rw":
        return f"r{text[1:]}"
    number = int(text, 0) % 2**32
    return str(number - 2**32 if number >= 2**31 else number)


def place(base, sign, offset):
    return f"[r{base}{sign}{offset}]"


def moved(width, dst, sign, src):
    return f"{OPERATORS[sign]}{WIDTHS[width]} r{dst}, {operand(src)}"


def jumped(width, dst, sign, src, offset):
    return f"{CONDITIONS[sign]}{'32' if width == 'w' else ''} r{dst}, {operand(src)}, {offset}"


def stored(size, base, sign, offset, src):
    word = "stx" if src[0] == "r" else "st"
    return f"{word}{SIZES[size]} {place(base, sign, offset)}, {operand(src)}"


# A line's form, and how it is written by us.
RULES = [
    (r"exit", lambda: "exit"),
    (rf"r(\d+) = ({NUMBER}) ll", lambda dst, number: f"lddw r{dst}, {int(number, 0) % 2**64}"),
    (r"([rw])(\d+) = -[rw](\d+)", lambda width, dst, _: f"neg{WIDTHS[width]} r{dst}"),
    (r"r(\d+) = ((?:be|le)\d+) r(\d+)", lambda dst, order, _: f"{order} r{dst}"),
    (rf"r(\d+) = {ADDRESS}", lambda dst, size, *at: f"ldx{SIZES[size]} r{dst}, {place(*at)}"),
    (rf"{ADDRESS} = ({OPERAND})", stored),
    (r"goto ([+-]\d+)", lambda offset: f"ja {offset}"),
    (rf"if ([rw])(\d+) (\S+) ({OPERAND}) goto ([+-]\d+)", jumped),
    (rf"([rw])(\d+) (\S*)= ({OPERAND})", moved),
]
RULES = [(re.compile(form), write) for form, write in RULES]


def ours(line):
    """A line of another tool's, written by us."""
    for form, write in RULES:
        found = form.fullmatch(line)
        if found:
            return write(*found.groups())
    raise Unread(line)


def assembled(lines):
    return telgovan.assemble("\n".join(map(ours, lines)))


def objdump_lines(text):
    """The lines of each function that llvm-objdump shows, by the function's name."""
    functions, lines = {}, None
    for line in text.splitlines():
        if head := re.fullmatch(r"Disassembly of section \.text\.(\w+):", line):
            lines = functions.setdefault(head[1], [])
        elif insn := re.fullmatch(r"\s+\d+:\t(.*?)(?: <\w+>)?", line):
            lines.append(insn[1])
    return functions


def bpftool_lines(library, code):
    """The lines of bpftool's disassembler, of whose wide loads the opcode tells."""
    room = ctypes.create_string_buffer(100 * len(code))
    library.suite_disassemble(code, len(code) // 8, room, len(room))
    for line in room.value.decode().splitlines():
        opcode, text = re.fullmatch(r"\((\w\w)\) (.*)", line).groups()
        text = re.sub(r"goto pc", "goto ", text)
        yield f"{text} ll" if opcode == "18" else text


# ---- from our text to LLVM's

BACK = {word: sign for signs in (OPERATORS, CONDITIONS) for sign, word in signs.items()}
KINDS = {short: kind for kind, short in SIZES.items()}
REGISTERS = {"64": "r", "": "r", "32": "w"}
OUR_NAMES = "|".join(sorted(BACK, key=len, reverse=True))


def theirs_at(text):
    base, sign, offset = re.fullmatch(r"\[(r\d+)([+-])(\d+)\]", text).groups()
    return f"({base} {sign} {offset})"


def theirs(line):
    """A line of ours in LLVM's syntax."""
    word, _, rest = line.partition(" ")
    parts = rest.split(", ")
    if word == "exit":
        return line
    if word == "ja":
        return f"goto {rest}"
    if word == "lddw":
        number = int(parts[1])
        return f"{parts[0]} = {number - 2**64 if number >= 2**63 else number} ll"
    if word[:2] in ("be", "le"):
        return f"{rest} = {word} {rest}"
    if found := re.fullmatch(r"(ldx|stx|st)(b|h|w|dw)", word):
        at = theirs_at(parts[1 if found[1] == "ldx" else 0])
        access = f"*({KINDS[found[2]]} *){at}"
        return f"{parts[0]} = {access}" if found[1] == "ldx" else f"{access} = {parts[1]}"
    return theirs_of_two(line, word, parts)


def theirs_of_two(line, word, parts):
    """An operation or a comparison, whose registers are named by their width."""
    found = re.fullmatch(rf"(neg|{OUR_NAMES})(64|32|)", word)
    if not found:
        raise Unread(line)
    letter = REGISTERS[found[2]]
    first, *rest = [re.sub("^r", letter, part) for part in parts]
    if found[1] == "neg":
        return f"{first} = -{first}"
    if found[1] in CONDITIONS.values():
        return f"if {first} {BACK[found[1]]} {rest[0]} goto {rest[1]}"
    return f"{first} {BACK[found[1]]}= {rest[0]}"


def llvm_assembled(assembler, room, programs):
    """What llvm-mc makes of our texts of these programs, or nothing where it refuses one, which it
    tells itself."""
    lines = []
    for name, code in programs.items():
        lines.append(f'.section .text.{name},"ax",@progbits')
        lines += map(theirs, telgovan.disassemble(code).splitlines())
    source, made = Path(room) / "ours.s", Path(room) / "ours.o"
    source.write_text("\n".join([*lines, ""]), encoding="ascii")
    words = ["-triple", "bpfel", "-mcpu=v3", "-filetype=obj", source, "-o", made]
    if subprocess.run([assembler, *words], check=False).returncode:
        return {}
    return clang_programs.sections(made.read_bytes())


# ---- the suite

TITLES = ("text of `llvm-objdump`", "text of bpftool", "our text, by `llvm-mc`")


def judge(tally, name, code, make):
    """Counts a program whose bytes come again, or don't."""
    try:
        made = make()
    except (Unread, telgovan.Error) as error:
        tally.differences.append(f"{name}: {error}")
        return
    if made == code:
        tally.agree += 1
    else:
        tally.differences.append(f"{name}: {made.hex()} and not {code.hex()}")


def output(*words):
    return subprocess.run(words, stdout=subprocess.PIPE, text=True, check=True).stdout


def suite():
    """Each program in three ways."""
    clang, objdump, assembler = map(clang_programs.tool, ("clang", "llvm-objdump", "llvm-mc"))
    folder = sources.provide(SOURCE)
    version, is_of_page = f"clang {clang_programs.version()}", clang_programs.is_of_page()
    read, shown, written = (Tally(title, version, is_of_page) for title in TITLES)
    with tempfile.TemporaryDirectory(prefix="telgovan-") as room:
        folders = [folder / "include/uapi", folder / "kernel/bpf"]
        library = ctypes.CDLL(str(sources.compiled(room, "disassembly.c", (), folders)))
        for made in clang_programs.compiled(clang, room):
            programs = clang_programs.sections(made.read_bytes())
            functions = objdump_lines(output(objdump, "-d", "--no-show-raw-insn", made))
            back = llvm_assembled(assembler, room, programs)
            for name, code in programs.items():
                judge(read, name, code, lambda: assembled(functions[name]))
                judge(shown, name, code, lambda: assembled(bpftool_lines(library, code)))
                judge(written, name, code, lambda: back.get(name, b""))
    return [read, shown, written]
