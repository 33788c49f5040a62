"""Rows of verdicts: by the library, by `bpfjobs verify`, by `bpfrun`, and where a job is admitted."""

import os
import re
import tempfile
import unittest

from programs import Server, bpfjobs, submit_text, telgovan, tried
from rows import REFUSALS, code_of, refusal, rows

# Ends with 42: `mov64 r0, 42`, `exit`.
ANSWERING = (0, bytes.fromhex("b70000002a0000009500000000000000"))


def by_library(need, code):
    try:
        return f"cost {telgovan.Program(need, code).cost}"
    except telgovan.Error as error:
        return refusal(error.number, error.place)


def by_command(need, code):
    _status, text = bpfjobs("verify", "--need", str(need), given=code.hex())
    return text.strip().removeprefix("accepted ").removeprefix("refused ")


class Verdicts(unittest.TestCase):
    @classmethod
    def setUpClass(cls):
        cls.rows = [
            (row.place, int(row.question[1]), code_of(row.program), row.answer)
            for name in ("verdicts.txt", "holes.txt")
            for row in rows(name)
        ]

    def test_by_the_library(self):
        for place, need, code, answer in self.rows:
            with self.subTest(place):
                self.assertEqual(by_library(need, code), answer)

    def test_by_bpfjobs(self):
        for place, need, code, answer in self.rows:
            with self.subTest(place):
                self.assertEqual(by_command(need, code), answer)

    def test_by_bpfrun(self):
        """What is refused is refused with words; what is accepted runs on as many zeros as it needs."""
        with tempfile.TemporaryDirectory() as room:
            file = os.path.join(room, "program")
            for place, need, code, answer in self.rows:
                with open(file, "wb") as program:
                    program.write(code)
                status, text = tried([file, "--need", str(need)])
                with self.subTest(place):
                    self.check_run(status, text, answer)

    def check_run(self, status, text, answer):
        number, _, slot = answer.partition(" at ")
        if number.startswith("cost"):
            self.assertEqual(status, 0)
            self.assertRegex(text, r"^r0 \d+\nspent \d+\n$")
            self.assertLessEqual(int(text.split()[3]), int(number[5:]))
        else:
            words = REFUSALS[int(number)] if number != "33" else "this "
            self.assertEqual((status, text.startswith(f"error[{number}]: {words}")), (1, True), text)
            self.assertEqual(re.findall(r"^  = at: slot (\d+)(?:: .*)?$", text, re.MULTILINE), slot.split())

    def test_at_admission(self):
        """A job whose last program is refused is refused for it, behind whatever others, with its number."""
        with Server(sessions=1) as server:
            requests = [{"op": "grant", "tenant": "t", "amount": 2**31 - 1}]
            wanted = [None]
            for place, need, code, answer in self.rows:
                for others in (0, 1, 15):
                    programs = [ANSWERING] * others + [(need, code)]
                    requests.append(submit_text(programs, 100, b""))
                    wanted.append((place, others, answer))
            replies = server.ask(*requests)
        for told_of, reply in zip(wanted[1:], replies[1:]):
            with self.subTest(told_of):
                self.check_reply(reply, *told_of[1:])

    def check_reply(self, reply, others, answer):
        if answer.startswith("cost"):
            # of the first program, its cost and its need are looked at then
            self.assertTrue(reply["ok"] or reply["code"] in (63, 64), reply)
            return
        number, _, slot = answer.partition(" at ")
        wanted = {"code": int(number), "ok": False, "program": others}
        if slot:
            wanted["slot"] = int(slot)
        self.assertEqual(reply, wanted)


if __name__ == "__main__":
    unittest.main()
