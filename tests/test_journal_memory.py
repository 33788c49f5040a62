"""`bpfjobs serve --journal FILE` where a request for memory is refused: what was told is there again."""

import contextlib
import os
import shutil
import struct
import subprocess
import tempfile
import time
import unittest

from programs import PATIENCE, TOP
from test_journal import ACCOUNT, Room, grant, submit

NO_MEMORY = {"code": 99, "ok": False}
UNKNOWN = {"code": 76, "ok": False}
# what a job comes to that wasn't run
NOT_STARTED = 81, 82, 99
# by the job of `submit`
SPENT = 3


@unittest.skipUnless(shutil.which("cc"), "needs Debian's gcc or clang")
class Refused(Room):
    """One request for memory of a server is refused, in each run another one."""

    # By hand each: TELGOVAN_EACH=1.
    STEP = 1 if "TELGOVAN_EACH" in os.environ else 11

    @classmethod
    def setUpClass(cls):
        room = tempfile.TemporaryDirectory()
        cls.addClassCleanup(room.cleanup)
        cls.shim = os.path.join(room.name, "refusing_malloc.so")
        source = os.path.join(TOP, "tests/refusing_malloc.c")
        subprocess.run(["cc", "-O1", "-shared", "-fPIC", "-o", cls.shim, source, "-ldl"], check=True)

    def setUp(self):
        super().setUp()
        self.counted = os.path.join(self.room, "counted")

    def begin(self, number):
        """A connection to a server of which this request for memory is refused."""
        with contextlib.suppress(FileNotFoundError):
            os.remove(self.server.journal)
        with open(self.counted, "wb") as file:
            file.write(bytes(8))
        self.granted, self.lost, self.jobs, self.ended, self.told = 0, 0, 0, 0, []
        more = {"LD_PRELOAD": self.shim, "REFUSED": str(number), "COUNTED": self.counted}
        return self.start(env={**os.environ, **more}, stderr=subprocess.PIPE)

    def requests(self):
        """How many requests for memory there were."""
        with open(self.counted, "rb") as file:
            return struct.unpack("<Q", file.read())[0]

    def asked(self, client, request):
        """The reply to a request, which may be refused by 99."""
        reply = client.ask(request)
        if not reply["ok"]:
            self.assertEqual(reply, NO_MEMORY)
        return reply

    def ask_grant(self, client, amount):
        self.lost += amount
        if self.asked(client, grant(amount))["ok"]:
            self.granted += amount
        self.lost -= amount

    def ask_job(self, client):
        """Submits a job, and waits for its end: its report, or the refusal of its start, which is told again and again."""
        self.jobs += 1
        told = self.asked(client, submit())
        if not told["ok"]:
            self.jobs -= 1
            return
        self.told.append(told["job"])
        status, refused, until = {"op": "status", "job": told["job"]}, 0, time.monotonic() + PATIENCE
        while not (reply := client.ask(status)).get("complete") and refused < 2:
            self.assertIn(reply.get("code"), (None, *NOT_STARTED))
            refused += not reply["ok"]
            self.assertLess(time.monotonic(), until)
        self.ended += reply.get("spent") == SPENT

    def work(self, client):
        for amount in (10, 20, 40):
            self.ask_grant(client, amount)
        if self.granted:
            self.ask_job(client)

    def check_again(self):
        """What was told is there. What wasn't told to its end may be."""
        client = self.start()
        account = client.ask(ACCOUNT)
        self.assertIn(account.get("granted", 0), (self.granted, self.granted + self.lost))
        taken = account.get("open", 0) + account.get("spent", 0)
        self.assertIn(taken, range(SPENT * self.ended, SPENT * self.jobs + 1, SPENT))
        for job in self.told:
            self.assertNotEqual(client.ask({"op": "status", "job": job}), UNKNOWN)

    def run_once(self, number):
        try:
            for client in self.begin(number), self.connect():
                with contextlib.suppress(ConnectionResetError, BrokenPipeError):
                    self.work(client)
        except (ConnectionRefusedError, FileNotFoundError):
            # it didn't begin: its words, or what it serves with, found no memory
            self.assertIn(self.server.process.wait(PATIENCE), (2, 3))
        self.assertIn(self.server.process.poll(), (None, 2, 3))
        count = self.requests()
        self.check_again()
        return count

    def test_each_request(self):
        count = self.run_once(0)
        self.assertGreater(count, 50)
        for number in range(1, count + 1, self.STEP):
            with self.subTest(number=number):
                self.run_once(number)
