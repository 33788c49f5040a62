"""Programs in C, pseudo-random from a fixed seed, and what clang makes of them for BPF."""

import random
import re
import shutil
import struct
import subprocess
from pathlib import Path

import sources

SEED = 9669
# the clang of the page's figures
PAGE_VERSION = "14"
PROGRAMS = 1000
WAYS = [(level, processor) for level in ("-O1", "-O2", "-O3") for processor in ("v1", "v2", "v3")]
KINDS = ("u8", "u16", "u32", "u64", "s8", "s16", "s32", "s64")
HEAD = "".join(
    f"typedef {sign} {name} {short}{bits};\n"
    for sign, short in (("unsigned", "u"), ("signed", "s"))
    for name, bits in (("char", 8), ("short", 16), ("int", 32), ("long", 64))
)
CONSTANTS = (0, 1, 2, 7, 255, 4095, 65_535, 2**31 - 1, 2**31, 2**32 - 1, 2**32 + 5, 2**63 - 1, 2**64 - 1)
FUNCTION = """u64 f{}(u8 *m, u64 n, u64 x) {{
    u64 a = x, b = n, c = {}ul;
    volatile u64 kept[4] = {{x, n, 1, 2}};
{}
    return a ^ b + c + kept[x & 3];
}}
"""


class Writer:
    """Writes functions, each step chosen by a generator."""

    def __init__(self, seed):
        self.chance = random.Random(seed)

    def value(self):
        pick = self.chance.random()
        if pick < 0.5:
            return self.chance.choice(("a", "b", "c"))
        if pick < 0.75:
            kind, at = self.chance.choice(KINDS), self.chance.randrange(0, 64, 8)
            return f"(u64)*({kind} *)(m + {at})"
        if pick < 0.85:
            return f"kept[{self.chance.randrange(4)}]"
        return f"{self.chance.choice((*CONSTANTS, self.chance.randrange(2**64)))}ul"

    def expression(self):
        left, right = self.value(), self.value()
        kind = self.chance.choice(("u64", "u64", "u32", "s64", "s32"))
        bits = int(kind[1:])
        pick = self.chance.randrange(6)
        if pick == 0:
            return f"({kind})({left}) {self.chance.choice(('<<', '>>'))} ({right} & {bits - 1})"
        if pick == 1:
            unsigned = f"u{bits}"
            return f"({unsigned})({left}) {self.chance.choice('/%')} (({unsigned})({right}) | 1)"
        if pick == 2:
            return f"__builtin_bswap{self.chance.choice((16, 32, 64))}({left})"
        if pick == 3:
            return f"-({kind})({left})"
        return f"({kind})({left}) {self.chance.choice('+-*&|^')} ({kind})({right})"

    def condition(self):
        kind = self.chance.choice(("u64", "u32", "s64", "s32"))
        sign = self.chance.choice(("<", "<=", ">", ">=", "==", "!=", "&"))
        return f"({kind})({self.value()}) {sign} ({kind})({self.value()})"

    def statement(self, depth=0):
        pad, target = "    " * (depth + 1), self.chance.choice("abc")
        pick = self.chance.random()
        if pick < 0.25 and depth < 2:
            inner = "".join(self.statement(depth + 1) for _ in range(self.chance.randrange(1, 4)))
            return f"{pad}if ({self.condition()}) {{\n{inner}{pad}}}\n"
        if pick < 0.4:
            kind, at = self.chance.choice(KINDS), self.chance.randrange(0, 64, 8)
            return f"{pad}*({kind} *)(m + {at}) = {self.value()};\n"
        if pick < 0.5:
            return f"{pad}kept[{self.chance.randrange(4)}] = {self.value()};\n"
        return f"{pad}{target} = {self.expression()};\n"

    def function(self, name):
        body = "".join(self.statement() for _ in range(self.chance.randrange(2, 9)))
        return FUNCTION.format(name, self.chance.choice(CONSTANTS), body)


def tool(name):
    """A tool of LLVM's, by its plain name or with the version of Debian 12."""
    found = shutil.which(name) or shutil.which(f"{name}-{PAGE_VERSION}")
    if not found:
        raise sources.Missing(f"there is no {name}")
    return found


def version():
    words = [tool("clang"), "--version"]
    told = subprocess.run(words, stdout=subprocess.PIPE, text=True, check=True).stdout
    return re.search(r"version (\d+)", told)[1]


def is_of_page():
    return version() == PAGE_VERSION


def sections(data):
    """The sections of an ELF file whose names begin with `.text.`, by the rest of the name."""
    (place,) = struct.unpack_from("<Q", data, 40)
    size, count, names = struct.unpack_from("<HHH", data, 58)
    heads = [struct.unpack_from("<IIQQQQ", data, place + size * at) for at in range(count)]
    texts = heads[names][4]
    found = {}
    for head in heads:
        start = texts + head[0]
        name = data[start : data.index(b"\0", start)].decode()
        if name.startswith(".text."):
            found[name.removeprefix(".text.")] = data[head[4] : head[4] + head[5]]
    return found


def compiled(clang, room):
    """The object files that clang makes of the functions, a file for each way of compiling."""
    writer = Writer(SEED)
    shares = [range(at, PROGRAMS, len(WAYS)) for at in range(len(WAYS))]
    for at, ((level, processor), names) in enumerate(zip(WAYS, shares)):
        source = Path(room) / f"programs_{at}.c"
        source.write_text(HEAD + "".join(map(writer.function, names)), encoding="ascii")
        words = [level, f"-mcpu={processor}", "-w", "-target", "bpf", "-ffunction-sections"]
        subprocess.run([clang, *words, "-c", source, "-o", source.with_suffix(".o")], check=True)
        yield source.with_suffix(".o")
