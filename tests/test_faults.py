"""The texts of faults, as the sources write them: each begins with its number. Those that no client is told stand here."""

import glob
import os
import re
import unittest

CRATES = os.path.join(os.path.dirname(os.path.dirname(os.path.abspath(__file__))), "crates")

ENUM = re.compile(r"(?:pub(?:\([a-z]+\))? )?enum (\w+)")
TEXT = re.compile(r'\s+#\[error\("(.*)"\)\]$')
VARIANT = re.compile(r"\s+([A-Z]\w+)")
ARM = re.compile(r"\s+(.*) => (\d+),$")

# What no client is told. The host of a server reads those of its ends.
UNTOLD = {
    ("ServeFault", "Socket"): "connections can't be taken any more",
    ("ServeFault", "Connection"): "a connection was given up: {0}",
    ("ServeFault", "Threads"): "not all of the workers and clients can be started: there is no thread for one",
    ("ServeFault", "Restart"): "a job that is open can't be started again: {0}",
    ("SessionFault", "FrameTooLarge"): "71: frame over 1048576 bytes",
    ("SessionFault", "NotJson"): "72: no JSON",
    ("SessionFault", "BadRequest"): "73: no such request",
    ("SessionFault", "NoMemory"): "99: out of memory",
    ("StreamFault", "ReadFailed"): "83: read failed",
    ("StreamFault", "WriteFailed"): "84: write failed",
    ("StreamFault", "NoMemory"): "99: out of memory",
}


def lines_of_sources():
    for path in sorted(glob.glob(os.path.join(CRATES, "*", "src", "**", "*.rt"), recursive=True)):
        with open(path, encoding="utf-8") as file:
            yield from file.read().split("\n")


def texts():
    """The text of each variant that has one, by the names of its type and its own."""
    found, enum, text = {}, None, None
    for line in lines_of_sources():
        if names := ENUM.match(line):
            enum = names[1]
        elif given := TEXT.match(line):
            text = given[1]
        elif text and (variant := VARIANT.match(line)):
            found[enum, variant[1]], text = text, None
    return found


def numbers():
    """The number of each variant that an arm of a `match` gives one."""
    found = {}
    for line in lines_of_sources():
        if arm := ARM.match(line):
            for names in re.findall(r"(\w+)::(\w+)", arm[1]):
                found[names] = arm[2]
    return found


class Texts(unittest.TestCase):
    def test_each_begins_with_its_number(self):
        known, judged = numbers(), 0
        for names, text in texts().items():
            if names in known:
                self.assertTrue(text.startswith(f"{known[names]}: "), (names, text))
                judged += 1
        self.assertGreater(judged, 50)

    def test_those_that_no_client_is_told(self):
        types = {enum for enum, _ in UNTOLD}
        self.assertEqual({names: text for names, text in texts().items() if names[0] in types}, UNTOLD)


if __name__ == "__main__":
    unittest.main()
