"""A server that is stopped and goes on, or that a tracer takes and leaves: no connection is cut by that."""

import json
import os
import shutil
import signal
import subprocess
import tempfile
import unittest

from journals import Keeper
from patience import wait_for
from programs import frame, submit_text
from test_clients import result_of, wide_job

IDLE = 30
ROUNDS = 5
# results of 200,000 bytes, so many that no buffer of the system's takes them
ASKED = 100
ACCOUNT = {"op": "account", "tenant": "t"}
LONG = 3600


def state_of(process):
    """The letter by which the system tells a process's state."""
    with open(f"/proc/{process.pid}/stat", encoding="utf-8") as file:
        return file.read().rpartition(")")[2].split()[0]


def tracers_of(process):
    """The tracer of each of a process's threads, 0 where there is none."""
    tracers = set()
    for task in os.listdir(f"/proc/{process.pid}/task"):
        with open(f"/proc/{process.pid}/task/{task}/status", encoding="utf-8") as file:
            tracers |= {int(line.split()[1]) for line in file if line.startswith("TracerPid:")}
    return tracers


def stop_and_continue(process):
    process.send_signal(signal.SIGSTOP)
    wait_for(lambda: state_of(process) == "T", "a server that stands still")
    process.send_signal(signal.SIGCONT)
    wait_for(lambda: state_of(process) != "T", "a server that goes on")


def trace_and_leave(process):
    tracer = subprocess.Popen(["strace", "-f", "-qq", "-e", "trace=none", "-o", "/dev/null", "-p", str(process.pid)])
    wait_for(lambda: tracers_of(process) == {tracer.pid}, "a tracer of each thread")
    tracer.send_signal(signal.SIGINT)
    tracer.wait()
    wait_for(lambda: tracers_of(process) == {0}, "a server without a tracer")


class Interrupts(unittest.TestCase):
    def setUp(self):
        room = tempfile.TemporaryDirectory()
        self.addCleanup(room.cleanup)
        self.server = Keeper(room.name, "--until-eof", clients=IDLE + 8)
        self.addCleanup(self.server.end)

    def client(self):
        client = self.server.connect()
        self.addCleanup(client.stream.close)
        return client

    def check(self, interrupt):
        """Connections that are idle, one within a frame, and one whose replies nobody takes yet."""
        process = self.server.start("--timeout", LONG, stdin=subprocess.PIPE)
        idle = [self.client() for _ in range(IDLE)]
        for client in idle:
            self.assertEqual(client.ask(ACCOUNT)["code"], 74)
        waiting = self.client()
        programs, credit = wide_job()
        waiting.ask({"op": "grant", "tenant": "t", "amount": credit})
        waiting.ask(submit_text(programs, credit, b""))
        result = result_of(waiting, 1)
        waiting.stream.sendall(frame('{"op":"result","job":1}') * ASKED)
        within, request = self.client(), frame(json.dumps({"op": "result", "job": 9}))
        within.ask(ACCOUNT)
        within.stream.sendall(request[:9])
        for _ in range(ROUNDS):
            interrupt(process)
        within.stream.sendall(request[9:])
        self.assertEqual(within.next_told(), b'{"code":76,"ok":false}')
        for _ in range(ASKED):
            self.assertEqual(json.loads(waiting.next_told()), result)
        for client in idle:
            self.assertEqual(client.ask({"op": "result", "job": 9})["code"], 76)
        process.stdin.close()
        self.assertEqual(process.wait(), 0)

    def test_stopped_and_continued(self):
        self.check(stop_and_continue)

    @unittest.skipUnless(shutil.which("strace"), "needs strace")
    def test_traced_and_left(self):
        self.check(trace_and_leave)

    def test_a_frame_still_has_its_time(self):
        """Who is within a frame is given up, however often the server is stopped meanwhile."""
        process = self.server.start("--timeout", 1, stdin=subprocess.PIPE)
        client = self.client()
        client.stream.sendall(frame(json.dumps(ACCOUNT))[:9])
        client.stream.setblocking(False)

        def is_given_up():
            stop_and_continue(process)
            try:
                return client.stream.recv(1) == b""
            except BlockingIOError:
                return False

        wait_for(is_given_up, "the end of a connection within a frame")
        with self.server.connect() as other:
            self.assertEqual(other.ask(ACCOUNT)["code"], 74)


if __name__ == "__main__":
    unittest.main()
