"""Rows of texts and bytes: by the library, by `bpfjobs`, and by `bpfrun`, which quotes what is wrong."""

import os
import tempfile
import unittest

from programs import bpfjobs, telgovan, tried
from rows import REFUSALS, fields, raw, refusal


def by_library(way, given):
    """The lines or the bytes, or a refusal."""
    try:
        if way == "assemble":
            return telgovan.assemble(given.decode()).hex()
        return telgovan.disassemble(given).encode()
    except telgovan.Error as error:
        return refusal(error.number, error.place)


def by_command(way, given):
    status, text = bpfjobs(way, given=given if way == "assemble" else given.hex())
    if status == 1:
        return text.strip().removeprefix("refused ")
    return text.strip() if way == "assemble" else text.encode()


class Texts(unittest.TestCase):
    WAYS = (by_library, by_command)

    def check(self, way, given, answer):
        if way == "disassemble" and not answer[:1].isdigit():
            answer = raw(answer)
        for told_by in self.WAYS:
            self.assertEqual(told_by(way, given), answer)

    def test_rows(self):
        for place, (way, given, answer) in fields("texts.txt", 3):
            if way == "quote":
                continue
            with self.subTest(place):
                if way == "both":
                    self.check("disassemble", bytes.fromhex(given), answer)
                    self.check("assemble", raw(answer), given)
                    self.check("assemble", raw(answer).rstrip(), given)
                else:
                    self.check(way, raw(given) if way == "assemble" else bytes.fromhex(given), answer)

    def test_refusals_are_told_with_words(self):
        """`bpfrun` tells the number, what is wrong, and the line."""
        with tempfile.TemporaryDirectory() as room:
            file = os.path.join(room, "program.bpf")
            for place, (way, given, answer) in fields("texts.txt", 3):
                is_refused = way == "assemble" and answer.partition(" at ")[0] in ("1", "11", "12", "13")
                if not is_refused and way != "quote":
                    continue
                with self.subTest(place):
                    with open(file, "wb") as out:
                        out.write(raw(given))
                    self.check_words(*tried([file]), way, raw(given), answer)

    def check_words(self, status, text, way, given, answer):
        self.assertEqual(status, 1)
        first = text.split("\n")[0]
        if way == "quote":
            quoted = first.partition(": `")[2] if "`" in first else "nothing"
            self.assertEqual(quoted.rstrip("`"), raw(answer).decode().strip("`"))
            return
        number, _, line = answer.partition(" at ")
        self.assertTrue(first.startswith(f"error[{number}]: {REFUSALS[int(number)]}"), first)
        if line:
            self.assertTrue(text.split("\n")[1].endswith(f":{line}"), text)

    def test_the_limit_of_a_text(self):
        """4,096 slots, one more, and a faulty line behind them, which is told first."""
        longest = "lddw r0, 1\n" * 2048
        self.assertEqual(len(telgovan.assemble(longest)), 8 * 4096)
        self.assertEqual(by_library("assemble", (longest + "exit").encode()), "3")
        self.assertEqual(by_command("assemble", (longest + "exit").encode()), "3")
        self.assertEqual(by_library("assemble", (longest + "exit\nja 1").encode()), "12 at 2050")

    def test_the_limit_of_bytes(self):
        exit_code = bytes.fromhex("9500000000000000")
        self.assertEqual(len(telgovan.disassemble(exit_code * 4096).splitlines()), 4096)
        self.assertEqual(by_library("disassemble", exit_code * 4096 + b"\x95"), "2")
        self.assertEqual(by_library("disassemble", exit_code * 4097), "3")

    def test_no_text(self):
        for given in (b"\xff", b"exit\xc0\xaf", b"\xe2\x82"):
            self.assertEqual(by_command("assemble", given), "73")


if __name__ == "__main__":
    unittest.main()
