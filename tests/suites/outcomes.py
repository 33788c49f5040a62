"""What the programs of a suite come to, counted, and the words of each count."""

import os
import sys
from collections import Counter
from pathlib import Path

TOP = Path(__file__).resolve().parents[2]
sys.path.insert(0, os.path.join(TOP, "bindings/python"))
import telgovan  # noqa: E402  (the module stands in the folder that was just added)

TOO_LONG = 3
# How many differences of a suite are told one by one.
MOST_TOLD = 30

# The rule of docs/refusals.md behind each number that a program is refused by.
RULES = {
    1: "no instruction",
    3: "over 4,096 slots",
    4: "an instruction that the profile hasn't",
    5: "a register over 10",
    6: "an unused field that isn't zero",
    7: "half of a wide load",
    21: "a jump out of the program",
    22: "a jump into a wide load",
    23: "a path that leads back",
    24: "the end of the program is run past",
    25: "an instruction that nothing reaches",
    31: "an unset register",
    32: "an access out of the stack",
    33: "an access out of the memory",
    34: "a number for a pointer, or a pointer for a number",
    35: "a pointer that may go too far",
    36: "R10 is written",
    37: "a helper that the profile hasn't",
    38: "a need over 65,536 bytes",
}


class Tally:
    """What the programs of one suite come to."""

    def __init__(self, name, version, is_on_page=True):
        self.name, self.version, self.is_on_page = name, version, is_on_page
        self.agree, self.runs, self.in_pieces = 0, 0, 0
        self.refused, self.left_out = Counter(), Counter()
        self.differences, self.named, self.notes = [], [], []

    @property
    def count(self):
        others = len(self.differences) + len(self.named)
        return self.agree + others + self.refused.total() + self.left_out.total()

    def lines(self):
        """The suite in a line, and what stands behind its counts in a line each."""
        differ = len(self.differences) + len(self.named)
        parts = [f"{self.count} programs", f"{self.agree} agree", f"{differ} differ"]
        parts += [f"{self.refused.total()} refused", f"{self.left_out.total()} left out"]
        yield f"{self.name}, {self.version}: {', '.join(parts)}"
        for note in self.notes:
            yield f"    {note}"
        if self.in_pieces:
            yield f"    {self.in_pieces} of those that agree were too long, and ran in pieces"
        for number, times in sorted(self.refused.items()):
            yield f"    {times} refused by {number}: {RULES[number]}"
        for why, times in self.left_out.most_common():
            yield f"    {times} left out: {why}"
        for why, times in Counter(why for _, why in self.named).most_common():
            yield f"    {times} differ as is known: {why}"
        for what in self.differences[:MOST_TOLD]:
            yield f"    DIFFERS: {what}"
        if len(self.differences) > MOST_TOLD:
            yield f"    DIFFERS: {len(self.differences) - MOST_TOLD} more"

    def row(self):
        """The suite's row of the page's table."""
        refused = ", ".join(f"{number}: {times}" for number, times in sorted(self.refused.items()))
        differ = len(self.differences) + len(self.named)
        cells = [self.name, self.version, self.agree + differ, self.agree, differ]
        cells += [refused or "none", self.left_out.total()]
        return f"| {' | '.join(map(str, cells))} |"


def loaded(need, code):
    """The program that is held, or the number that it is refused by."""
    try:
        return telgovan.Program(need, code), None
    except telgovan.Error as refusal:
        return None, refusal.number
