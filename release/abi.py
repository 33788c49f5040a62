#!/usr/bin/env python3
"""What C sees of the library: each function's prototype, structure and constant of the header, on a
line each (release/abi.txt), and the same with the layouts that a compiler gives them (release/abi.xml).

    release/abi.py            compares release/abi.txt with the header
    release/abi.py FOLDER     compares also release/abi.xml with the header and with FOLDER/libtelgovan.so
    release/abi.py --write    writes both anew, after a change that docs/versions.md allows

release/abi.xml is abidw's description of a shared object that has the header's functions with empty
bodies: the proved library has no debug information, so that abidiff sees no type of it, but its symbols.
Functions that come in are no difference. Where abidiff or a C compiler isn't there, it says so.
Status: 0, or 1 after what differs.
"""

import os
import re
import shutil
import subprocess
import sys
import tempfile
from pathlib import Path

TOP = Path(__file__).resolve().parent.parent
HEADER = TOP / "include/telgovan.h"
LIST = TOP / "release/abi.txt"
LAYOUTS = TOP / "release/abi.xml"
SONAME = "libtelgovan.so.0"
# A text that tests/unproved/compile puts into an unproved library, and that no proved one has.
UNPROVED = "telgovan_unproved"
HEAD = """\
# What C sees of libtelgovan.so.0, as release/abi.py finds it in include/telgovan.h. A line that is
# changed or taken away needs another number behind `.so` (docs/versions.md). New lines don't.
"""
FUNCTION = re.compile(r"(telgovan_\w+)\(")
COMPILER = os.environ.get("CC", "cc")
# what stays the same wherever it is written
PLAIN = ("--no-show-locs", "--no-corpus-path", "--no-comp-dir-path")


# what the header defines itself, which no object has
INLINE = re.compile(r"^static inline .*?^}$", re.MULTILINE | re.DOTALL)
# a constant, but for the version, which changes with each
CONSTANT = re.compile(r"^(#define TELGOVAN_(?!VERSION)\w+ .+?)\s*$", re.MULTILINE)
# a name that the header gives to a function of its own
RENAMED = re.compile(r"^#define (telgovan_\w+)", re.MULTILINE)


def declared(header):
    """The declarations of the header, sorted, without comments and with one blank between words."""
    text = re.sub(r"/\*.*?\*/", " ", header, flags=re.DOTALL)
    text = INLINE.sub("", text).replace("\\\n", " ")
    text = re.sub(r'#ifdef __cplusplus\n.*?#endif\n', "", text, flags=re.DOTALL)
    constants = CONSTANT.findall(text)
    text = re.sub(r"^#.*$", "", text, flags=re.MULTILINE)
    parts = re.findall(r"[^;{}]+(?:\{[^}]*\})?\s*;", text)
    if re.sub(r"\s", "", "".join(parts)) != re.sub(r"\s", "", text):
        raise ValueError("the header has what isn't a declaration")
    lines = [re.sub(r"\s+", " ", part).strip() for part in parts]
    return sorted([*constants, *(line for part in lines for line in each_status(part))])


def each_status(line):
    """A declaration; of the statuses, to which others may come, each on a line of its own."""
    if not line.startswith("enum telgovan_status {"):
        return [line]
    return [f"enum telgovan_status {status}" for status in re.findall(r"\w+ = \d+", line)]


def functions(lines):
    """The names of the functions that these lines declare."""
    return sorted(FUNCTION.search(line).group(1) for line in lines if FUNCTION.search(line))


def listed():
    """The lines of the list."""
    text = LIST.read_text(encoding="utf-8")
    return [line for line in text.splitlines() if not line.startswith("# ")]


# ---- layouts, by abigail-tools


def lacking(*tools):
    """Those of these tools that aren't there."""
    return [tool for tool in tools if not shutil.which(tool)]


def object_of(header, room):
    """A shared object of the header's functions, with empty bodies and with debug information."""
    source, made = room / "functions.c", room / SONAME
    bodies = [f"{line[:-1]} {{ __builtin_trap(); }}" for line in declared(header) if FUNCTION.search(line)]
    (room / "telgovan.h").write_text(header, encoding="utf-8")
    hidden = [f"#undef {name}" for name in RENAMED.findall(header)]
    source.write_text("\n".join(['#include "telgovan.h"', *hidden, *bodies, ""]), encoding="utf-8")
    flags = ["-std=c11", "-g", "-O0", "-shared", "-fPIC", f"-Wl,-soname,{SONAME}"]
    subprocess.run([COMPILER, *flags, "-o", made, source.name], cwd=room, check=True)
    return made


def described(header):
    """abidw's description of the header."""
    with tempfile.TemporaryDirectory(prefix="abi-") as room:
        made = object_of(header, Path(room))
        return subprocess.run(["abidw", *PLAIN, made], check=True, stdout=subprocess.PIPE, text=True).stdout


def differences(other):
    """What abidiff says of another object beside release/abi.xml, and nothing where it has all of that."""
    words = ["abidiff", "--no-added-syms", LAYOUTS, other]
    done = subprocess.run(words, stdout=subprocess.PIPE, text=True, check=False)
    if done.returncode == 0:
        return ""
    return done.stdout or f"abidiff ended with {done.returncode}\n"


def differences_of_header(header):
    """The same of what a compiler makes of a header."""
    with tempfile.TemporaryDirectory(prefix="abi-") as room:
        return differences(object_of(header, Path(room)))


def compare_layouts(folder):
    """Compares release/abi.xml with the header and the library."""
    library = Path(folder) / "libtelgovan.so"
    lacks = lacking("abidiff", COMPILER)
    if lacks or not library.is_file():
        print(f"abi: layouts and symbols are skipped: {(lacks or [library])[0]} isn't there")
        return
    told = {"the header": differences_of_header(HEADER.read_text(encoding="utf-8")), library.name: differences(library)}
    for name, text in told.items():
        if text:
            sys.exit(f"{text}abi: {name} isn't what release/abi.xml describes")
    print("abi: the header has the layouts of release/abi.xml, and the library its symbols")


def write(header):
    LIST.write_text(HEAD + "\n".join(declared(header)) + "\n", encoding="utf-8")
    lacks = lacking("abidw", COMPILER)
    if lacks:
        sys.exit(f"abi: release/abi.xml is as it was: {lacks[0]} isn't there")
    LAYOUTS.write_text(described(header), encoding="utf-8")


def main(words):
    header = HEADER.read_text(encoding="utf-8")
    if words == ["--write"]:
        write(header)
    elif len(words) > 1 or words and words[0].startswith("-"):
        sys.exit(__doc__)
    elif declared(header) != listed():
        sys.exit("abi: release/abi.txt isn't what the header declares")
    elif words:
        compare_layouts(words[0])


if __name__ == "__main__":
    main(sys.argv[1:])
