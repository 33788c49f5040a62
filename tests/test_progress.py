"""The line that `bpfjobs run` draws on a terminal, and on nothing else."""

import json
import os
import pty
import re
import subprocess
import tempfile
import unittest

from patience import PATIENCE
from programs import BPFJOBS
from test_inputs import ran

# A task hands all that it can to a child of its own kind, and then spends 4,000 of its credit.
ROUNDS = 4000
SOURCE = f"""call 2
jlt r0, 10000, +{ROUNDS + 6}
mov64 r2, r0
sub64 r2, 5000
mov64 r1, 0
mov64 r3, 0
mov64 r4, 0
call 1
""" + "add64 r0, 1\n" * ROUNDS + "exit\n"
CREDIT = 300_000_000
LINE = re.compile(rb"\r(\d+) spent, (\d+) returned of (\d+); \d+ tasks/s; \d+\.\d s\x1b\[K")


class Lines(unittest.TestCase):
    def setUp(self):
        room = tempfile.TemporaryDirectory()
        self.addCleanup(room.cleanup)
        self.room = room.name
        code = ran("assemble", given=SOURCE.encode())[1].strip()
        self.job = self.file("job.json", {"programs": [{"need": 0, "code": code}], "credit": CREDIT, "buffer": ""})

    def file(self, name, job):
        path = os.path.join(self.room, name)
        with open(path, "w", encoding="utf-8") as file:
            json.dump(job, file)
        return path

    def on_terminal(self, *words):
        """What a run prints, and what its terminal shows."""
        ours, theirs = pty.openpty()
        shown = b""
        with tempfile.TemporaryFile() as out, open(ours, "rb", buffering=0) as screen:
            with subprocess.Popen([BPFJOBS, "run", *words], stdin=subprocess.DEVNULL, stdout=out, stderr=theirs) as process:
                os.close(theirs)
                while piece := self.read(screen):
                    shown += piece
                self.assertEqual(process.wait(PATIENCE), 0)
            out.seek(0)
            return out.read().decode(), shown

    def read(self, screen):
        try:
            return screen.read(65536)
        except OSError:   # the other side is closed
            return b""

    def test_a_terminal(self):
        printed, shown = self.on_terminal(self.job)
        status, alone, told = ran("run", self.job)
        self.assertEqual((status, told), (0, ""))
        self.assertEqual(printed, alone)
        lines = LINE.findall(shown)
        self.assertTrue(lines, shown[:200])
        self.assertEqual(b"".join(match[0] for match in LINE.finditer(shown)) + b"\r\x1b[K", shown)
        last = 0
        for spent, returned, credit in lines:
            self.assertEqual(int(credit), CREDIT)
            self.assertLessEqual(last, int(spent))
            self.assertLessEqual(int(spent) + int(returned), CREDIT)
            last = int(spent)

    def test_beside_a_tree(self):
        tree = os.path.join(self.room, "tree")
        job = self.file("short.json", {"programs": [{"need": 0, "code": "b70000002a0000009500000000000000"}], "credit": 2, "buffer": ""})
        printed, _ = self.on_terminal("--tree", tree, job)
        self.assertEqual(printed, ran("run", job)[1])
        with open(tree, encoding="utf-8") as file:
            self.assertTrue(file.read().startswith("digraph job {"))


if __name__ == "__main__":
    unittest.main()
