"""Rows of data: a line each, with bars between the fields. A line that begins with `#` is a comment."""

import functools
import os
import re
import sys
from collections import namedtuple

from programs import assemble

DATA = os.path.join(os.path.dirname(os.path.abspath(__file__)), "data")

# What is wrong, by the number of a refusal.
sys.path.insert(0, os.path.join(os.path.dirname(os.path.dirname(os.path.abspath(__file__))), "docs"))
import refusals  # noqa: E402  (the script stands in the folder that was just added)

REFUSALS = {number: one["text"] for number, one in refusals.refusals().items()}

Row = namedtuple("Row", "place question program answer")


def lines(name, folder=DATA):
    """Each line that says something, with its place."""
    with open(os.path.join(folder, name), encoding="utf-8", newline="\n") as file:
        for number, line in enumerate(file, 1):
            text = line.strip(" \n")
            if text and not text.startswith("#"):
                yield f"{name}, line {number}", text


def fields(name, count, folder=DATA):
    """The place of each row and its fields, of which missing ones are empty."""
    for place, text in lines(name, folder):
        parts = [part.strip() for part in text.split("|", count - 1)]
        yield place, parts + [""] * (count - len(parts))


def rows(name, folder=DATA):
    """Rows of a question, as words, a program and the answer."""
    for place, (question, program, answer) in fields(name, 3, folder):
        yield Row(place, question.split(), program, answer)


@functools.lru_cache(maxsize=None)
def code_of(program):
    """The bytes of a program: lines with slashes between them (`4 * exit` is four), or hexadecimal."""
    parts = []
    for part in program.split("/"):
        times, star, line = part.partition("*")
        parts += [line.strip()] * int(times) if star else [part.strip()]
    if "0x" in program:
        return bytes.fromhex("".join(part.removeprefix("0x") for part in parts))
    return assemble("\n".join(parts))


def programs_of(text):
    """Programs with `;` between them, each behind the bytes that it needs and a colon."""
    pairs = (part.split(":", 1) for part in text.split(";"))
    return [(int(need), code_of(program.strip())) for need, program in pairs]


def schedule_of(turns):
    """Numbers of tasks, where `0*5` is task 0 five times."""
    numbers = []
    for turn in turns:
        number, _, times = turn.partition("*")
        numbers += [int(number)] * int(times or 1)
    return numbers


def memory_of(text):
    """Bytes as hexadecimal, and none as `-`."""
    return b"" if text == "-" else bytes.fromhex(text)


def text_of(memory):
    return memory.hex() or "-"


def raw(text):
    """The bytes of a text in which `<0a>` stands for that byte."""
    parts = re.split(r"<([0-9a-f]*)>", text)
    return b"".join(bytes.fromhex(part) if n % 2 else part.encode() for n, part in enumerate(parts))


def refusal(number, slot=None):
    return f"{number}" if slot is None else f"{number} at {slot}"
