#!/usr/bin/env python3
"""Writes the lists of modules into docs/architecture.md: of each heading of crates.txt its crates,
and of each crate its modules, by the first sentences of their files.

    docs/modules.py     the tests fail where the page isn't what this makes of it

A list stands between its two marks, below the heading of the same words. All else of the page is
written by hand.
"""

import re
import textwrap
from pathlib import Path

TOP = Path(__file__).resolve().parent.parent
PAGE = TOP / "docs/architecture.md"
BEGIN, END = "<!-- modules -->", "<!-- end of modules -->"
LIST = re.compile(rf"^## (.+)$((?:\n(?!## ).*)*?\n{BEGIN})\n(?:.*\n)*?({END})$", re.MULTILINE)
SENTENCE = re.compile(r"(.+?[.!?])(?= [A-Z`]|$)")
ROOTS = ("lib.rt", "main.rt")


def groups():
    """The headings of crates.txt, each with the names of its crates."""
    found = {}
    for line in (TOP / "crates.txt").read_text(encoding="utf-8").splitlines():
        if line.startswith("# "):
            heading = found.setdefault(line.removeprefix("# "), [])
        elif line.strip():
            heading.append(line.partition(":")[0].split()[0])
    return found


def sentence(path):
    """The first sentence of a file's own comment."""
    words = []
    for line in path.read_text(encoding="utf-8").splitlines():
        text = line.removeprefix("//!").strip()
        if not line.startswith("//!") or not text:
            break
        words.append(text)
    text = " ".join(words)
    found = SENTENCE.match(text)
    return found[1] if found else text


def item(indent, text):
    """A line of a list, or several where it is long."""
    return textwrap.fill(text, 99, initial_indent=f"{indent}- ", subsequent_indent=f"{indent}  ",
                         break_long_words=False, break_on_hyphens=False)


def modules(crate):
    """A crate's line, and those of its modules."""
    folder = TOP / "crates" / crate / "src"
    root = next(folder / name for name in ROOTS if (folder / name).exists())
    yield item("", f"**`{crate}`** {sentence(root)}")
    for path in sorted(folder.rglob("*.rt")):
        if path != root:
            name = path.relative_to(folder).with_suffix("")
            yield item("  ", f"`{name}` {sentence(path)}")


def made(page):
    """The page with its lists made anew."""
    crates = groups()

    def with_list(found):
        lines = [line for crate in crates.pop(found[1]) for line in modules(crate)]
        return "\n".join([f"## {found[1]}{found[2]}", *lines, found[3]])

    page = LIST.sub(with_list, page)
    if crates:
        raise ValueError(f"the page has no list below {', '.join(crates)}")
    return page


if __name__ == "__main__":
    PAGE.write_text(made(PAGE.read_text(encoding="utf-8")), encoding="utf-8")
