"""Pseudo-random jobs by `bpfjobs run` where requests for memory are refused: each run gives the job's one answer, or 99."""

import json
import shutil
import tempfile
import unittest

from trees import unnumbered
from whole_runs import ANSWERED, SILENT, TOLD_99, WORKERS, WRONG, Runs, came_to, make_shim

REFUSED = '{"code":99,"ok":false}\n'


@unittest.skipUnless(shutil.which("cc"), "needs Debian's gcc or clang")
class Whole(unittest.TestCase):
    # `.ci/one_answer.py` takes 10,000
    SEED, COUNT = 2, 40

    def test_trees(self):
        with tempfile.TemporaryDirectory() as room:
            runs = Runs(self.SEED, make_shim(room), room)
            ended = [run for number in range(self.COUNT) for run in runs.look(number)]
        for run in ended:
            with self.subTest(run=run._replace(told=None)):
                self.assertNotEqual(run.end, WRONG, run.told)
        # with each number of workers some runs are refused no memory, and some tell 99
        self.assertEqual({run.workers for run in ended if not run.refused}, set(WORKERS))
        self.assertEqual({run.workers for run in ended if run.end == TOLD_99}, set(WORKERS))


class Ends(unittest.TestCase):
    """The ends of runs that tell something else, too."""

    TASK = {"number": 0, "program": 0, "r0": 7, "ran": True, "rest": 1, "spent": 2}
    TOLD = {"buffer": "", "ok": True, "returned": 1, "spent": 2, "tasks": [TASK]}
    WANTED = {**TOLD, "tasks": unnumbered([TASK])}

    def came_to(self, status, text, refused):
        return came_to(status, text, refused, self.WANTED)

    def test_answers(self):
        self.assertEqual(self.came_to(0, json.dumps(self.TOLD), 0), ANSWERED)
        self.assertEqual(self.came_to(0, json.dumps(self.TOLD), 1), ANSWERED)
        for change in ({"spent": 3}, {"returned": 0}, {"buffer": "00"}, {"tasks": []}):
            self.assertEqual(self.came_to(0, json.dumps({**self.TOLD, **change}), 1), WRONG, change)
        for change in ({"program": 1}, {"r0": 6}, {"ran": False}, {"rest": 0}, {"spent": 3}, {"number": 1}):
            told = {**self.TOLD, "tasks": [{**self.TASK, **change}]}
            self.assertEqual(self.came_to(0, json.dumps(told), 1), WRONG, change)

    def test_refusals(self):
        self.assertEqual([self.came_to(1, REFUSED, 1), self.came_to(3, "", 1)], [TOLD_99, SILENT])
        # without a refused request there is an answer
        for status, text, refused in [(1, REFUSED, 0), (3, "", 0), (1, REFUSED.replace("99", "81"), 1),
                                      (0, REFUSED, 1), (0, "", 1), (3, "{", 1), (-11, "", 1)]:
            self.assertEqual(self.came_to(status, text, refused), WRONG, (status, text, refused))


if __name__ == "__main__":
    unittest.main()
