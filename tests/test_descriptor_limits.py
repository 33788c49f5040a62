"""A server that has no descriptor for a connection: it waits, says so once, and goes on once there is one."""

import contextlib
import json
import os
import resource
import shutil
import signal
import subprocess
import tempfile
import unittest

from journals import read
from patience import PATIENCE, wait_for
from programs import Server, events_past_listening, free_port, past_listening
from test_clients import AGAIN, FULL, Client, files_of

ACCOUNT = {"op": "account", "tenant": "nobody"}
SESSIONS = 3
TRIES = 10


class Limits(unittest.TestCase):
    def setUp(self):
        room = tempfile.TemporaryDirectory()
        self.addCleanup(room.cleanup)
        self.told, self.trace = os.path.join(room.name, "told"), os.path.join(room.name, "trace")

    def lines(self, word, path=None):
        """The lines with a word, or more words, that the server has told so far."""
        with open(path or self.told, encoding="utf-8") as file:
            return [line for line in file if word in line]

    def start(self, *more, **how):
        port = free_port()
        words = ["serve", "--port", port, "--clients", 4, "--sessions", SESSIONS, *more]
        with open(self.told, "w", encoding="utf-8") as told:
            return Server(words=words, port=port, stderr=told, **how)

    def client(self, server):
        client = Client(server)
        self.addCleanup(client.stream.close)
        return client

    def tries(self, server):
        """Waits until so many tries to take a connection have failed, where strace can tell them."""
        if not shutil.which("strace"):
            return
        calls = "trace=accept,accept4"
        tracer = subprocess.Popen(["strace", "-f", "-qq", "-e", calls, "-o", self.trace, "-p", str(server.process.pid)])
        wait_for(lambda: os.path.exists(self.trace) and len(self.lines("EMFILE", self.trace)) >= TRIES, "tries to take a connection")
        tracer.send_signal(signal.SIGINT)
        tracer.wait(PATIENCE)

    def is_traced(self, server):
        """Whether strace has each thread of a server. Where one has just ended, that isn't known."""
        folder = f"/proc/{server.process.pid}/task"
        with contextlib.suppress(FileNotFoundError, ProcessLookupError):
            return not any(b"TracerPid:\t0\n" in read(f"{folder}/{thread}/status") for thread in os.listdir(folder))
        return False

    def check(self, server):
        """The third of three connections finds no descriptor. All three are served, and the end is a good one."""
        with server:
            first = self.client(server)
            self.assertEqual(first.ask(ACCOUNT)["code"], 74)
            # the system holds a descriptor for the connection that a server waits for
            limit = files_of(server) + 1
            resource.prlimit(server.process.pid, resource.RLIMIT_NOFILE, (limit, limit))
            second, third = self.client(server), self.client(server)
            self.assertEqual(second.ask(ACCOUNT)["code"], 74)
            third.send(ACCOUNT)
            wait_for(lambda: self.lines(FULL), "a line that no descriptor is left")
            self.tries(server)
            for client in (first, second):
                self.assertEqual(client.ask(ACCOUNT)["code"], 74)
            self.assertFalse(third.is_answered())
            first.stream.close()
            self.assertEqual(third.reply()["code"], 74)
            wait_for(lambda: self.lines(AGAIN), "a line that it goes on")
            for client in (second, third):
                self.assertEqual(client.ask(ACCOUNT)["code"], 74)
                client.stream.close()
            self.assertEqual(server.status(), 0)
        self.assertEqual((len(self.lines(FULL)), len(self.lines(AGAIN))), (1, 1))

    @unittest.skipUnless(shutil.which("strace"), "needs Debian's strace")
    def test_an_error_that_lasts(self):
        """No more connections are taken then. The one that is there goes on, and the end tells the fault."""
        server = self.start()
        error = "no connection can be taken any more: Socket operation on non-socket (os error 88)"
        with server:
            client = self.client(server)
            self.assertEqual(client.ask(ACCOUNT)["code"], 74)
            calls = ["-e", "trace=accept,accept4", "-e", "inject=accept,accept4:error=ENOTSOCK"]
            tracer = subprocess.Popen(["strace", "-f", "-qq", "-o", "/dev/null", *calls, "-p", str(server.process.pid)])
            wait_for(lambda: self.is_traced(server), "strace")
            # the one that a thread waits for may still be taken
            second = self.client(server)
            wait_for(lambda: self.lines(error), "a line that no more connections are taken")
            self.assertEqual(client.ask(ACCOUNT)["code"], 74)
            for one in (client, second):
                one.stream.close()
            self.assertEqual(server.status(), 3)
            tracer.wait(PATIENCE)
        told = past_listening("".join(self.lines("")), server.process.args)
        self.assertEqual(told, f"bpfjobs: {error}\nbpfjobs: connections can't be taken any more\n")

    def test_it_says_so_once(self):
        server = self.start()
        self.check(server)
        told = past_listening("".join(self.lines("")), server.process.args)
        self.assertEqual(told, f"bpfjobs: {FULL}\nbpfjobs: {AGAIN}\n")

    def test_a_log_has_it_too(self):
        server = self.start("--log")
        self.check(server)
        events = events_past_listening(map(json.loads, self.lines("")), server.process.args)
        self.assertEqual([event["text"] for event in events if event["event"] == "note"], [FULL, AGAIN])


if __name__ == "__main__":
    unittest.main()
