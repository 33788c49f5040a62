"""`bpfjobs` started without descriptors 0, 1 or 2: no file or connection takes their place."""

import json
import os
import subprocess
import tempfile
import unittest

from journals import Keeper, book_of, payloads_of, read
from patience import PATIENCE
from programs import BPFJOBS

GRANT = {"op": "grant", "tenant": "t", "amount": 5}
CLOSED = ["<&-", ">&-", "2>&-", "<&- >&-", "<&- 2>&-", ">&- 2>&-", "<&- >&- 2>&-"]


def without(closed, words):
    """The words of a shell that starts a program without these descriptors."""
    return ["/bin/sh", "-c", f'exec "$@" {closed}', "sh", *map(str, words)]


class Closed(unittest.TestCase):
    def setUp(self):
        room = tempfile.TemporaryDirectory()
        self.addCleanup(room.cleanup)
        self.server = Keeper(room.name, "--log", "--timeout", 1)
        self.addCleanup(self.server.end)

    def start(self, closed):
        self.server.end()
        words = without(closed, self.server.command())
        self.server.process = subprocess.Popen(words, stdin=subprocess.DEVNULL, stdout=subprocess.DEVNULL, stderr=subprocess.DEVNULL)
        return self.server.connect()

    def test_a_journal_has_its_records_alone(self):
        """No line of the log is written into it, and the next start goes on from it."""
        for number, closed in enumerate(CLOSED, 1):
            with self.subTest(closed):
                with self.start(closed) as client:
                    self.assertEqual(client.ask(GRANT)["granted"], 5 * number)
                    # refused, so that the log has a line behind the record
                    self.assertEqual(client.ask({"op": "result", "job": 9})["code"], 76)
                self.server.kill()
                data = read(self.server.journal)
                self.assertEqual((book_of(data).granted, payloads_of(data)[1]), ({"t": 5 * number}, b""))

    def test_a_client_is_told_replies_alone(self):
        """Each byte that comes is a frame's, to the end of a connection that is given up."""
        for closed in CLOSED:
            with self.subTest(closed), self.start(closed) as client:
                for _ in range(3):
                    self.assertEqual(json.loads(client.told({"op": "result", "job": 9})), {"code": 76, "ok": False})
                self.assertEqual(client.stream.recv(1), b"")

    def test_descriptors_are_null_or_as_given(self):
        for closed in CLOSED:
            with self.subTest(closed), self.start(closed) as client:
                client.ask(GRANT)
                for number in range(3):
                    self.assertEqual(os.readlink(f"/proc/{self.server.process.pid}/fd/{number}"), "/dev/null")

    def test_a_command_without_its_output(self):
        """It fails, and writes nowhere else."""
        words = without(">&-", [BPFJOBS, "assemble"])
        ran = subprocess.run(words, input="exit\n", stderr=subprocess.PIPE, text=True, timeout=PATIENCE, check=False)
        self.assertEqual((ran.returncode, ran.stderr), (0, ""))


if __name__ == "__main__":
    unittest.main()
