"""Pseudo-random jobs by `bpfjobs run`, with requests for memory refused at random: each run gives the
job's one answer, or code 99."""

import json
import os
import random
import struct
import subprocess
from collections import namedtuple

from programs import BPFJOBS, PATIENCE, TOP, assemble, job_text
from trees import Planter, comparable

WORKERS = 1, 2, 4, 16

# One request in so many is refused, in a run in which some may be.
ODDS = 10, 30, 100, 300

# At most so many requests are spared ahead of that. A run of the smallest tree makes some 170, and one of
# 150 tasks 550.
SPARED = 400

# The ends of a run: the model's answer; 99; nothing, where there is no memory for the input or for the text
# of the answer; or anything else.
ANSWERED, TOLD_99, SILENT, WRONG = "answered", "99", "silent", "wrong"

NO_MEMORY = {"code": 99, "ok": False}
FAILED = 3

# A run with so many workers: the count of refused requests, its end, and its status with its text.
Run = namedtuple("Run", "workers refused end told")


def make_shim(room):
    """The path of the shim, which a C compiler makes in this folder."""
    shim, source = os.path.join(room, "refusing_malloc.so"), os.path.join(TOP, "tests/refusing_malloc.c")
    subprocess.run(["cc", "-O1", "-shared", "-fPIC", "-o", shim, source, "-ldl"], check=True)
    return shim


class Runs:
    """Runs of the trees of a seed. In half of them requests for memory are refused."""

    def __init__(self, seed, shim, room):
        self.seed, self.shim = seed, shim
        self.counted = os.path.join(room, f"counted.{os.getpid()}")
        # where there is no memory for the words of the command, no job is read: those requests are spared
        self.for_words = self.run("", 1, {"REFUSED": "0"})[3]

    def tree(self, number):
        return Planter(f"{self.seed} {number}", assemble).tree()

    def run(self, given, workers, refusing):
        """The status of a run, its text, and how many requests for memory were refused, and made. The shim is told these
        variables; without any it isn't there, and counts none."""
        with open(self.counted, "wb") as file:
            file.write(bytes(16))
        shim = {"LD_PRELOAD": self.shim, "COUNTED": self.counted, **refusing} if refusing else {}
        words = [BPFJOBS, "run", "--workers", str(workers)]
        try:
            ran = subprocess.run(words, input=given.encode(), capture_output=True, env={**os.environ, **shim},
                                 timeout=PATIENCE, check=False)
        except subprocess.TimeoutExpired:
            return "none, it doesn't end", "", 0, 0
        with open(self.counted, "rb") as file:
            made, refused = struct.unpack("<QQ", file.read())
        return ran.returncode, ran.stdout.decode(errors="replace"), refused, made

    def refusing(self, number, workers):
        """The variables by which the shim refuses requests of a run, if any may be refused."""
        drawn = random.Random(f"{self.seed} {number} {workers}")
        if drawn.random() < 0.5:
            return {}
        spared = drawn.randint(self.for_words, SPARED)
        return {"ONE_IN": str(drawn.choice(ODDS)), "SEED": str(drawn.getrandbits(64)), "SPARED": str(spared)}

    def look(self, number):
        """The tree of this number by each number of workers."""
        tree = self.tree(number)
        given, wanted = job_text(tree.programs, tree.credit, tree.buffer), tree.report()
        runs = []
        for workers in WORKERS:
            status, text, refused, _ = self.run(given, workers, self.refusing(number, workers))
            runs.append(Run(workers, refused, came_to(status, text, refused, wanted), f"status {status}: {text}"))
        return runs


def came_to(status, text, refused, wanted):
    """The end of a run of which this report is wanted. Without that report, it has to have been refused memory."""
    try:
        told = json.loads(text) if text else None
    except ValueError:
        return WRONG
    if status == 0 and isinstance(told, dict) and comparable(told) == wanted:
        return ANSWERED
    if refused and (status, told) == (1, NO_MEMORY):
        return TOLD_99
    return SILENT if refused and (status, text) == (FAILED, "") else WRONG
