"""Clients that go without a word, or take their replies drop by drop: what they leave of a server."""

import contextlib
import json
import os
import socket
import struct
import subprocess
import tempfile
import threading
import unittest

from patience import PATIENCE, wait_for
from programs import BPFJOBS, frame, free_port, past_listening, submit_text
from test_clients import result_of, wide_job
from test_local import Client

ACCOUNT = {"op": "account", "tenant": "nobody"}
RESULT = frame('{"op":"result","job":1}')
# results of 200,000 bytes, so many that no buffer of the system's takes them
ASKED = 200
PLACES = 3
# bytes that a slow client takes in a row, one by one: some 100,000 in a second, so that each write of
# the server's goes on, and no result is over within a second
DROPS = 100
PAUSE = 0.001


class TcpClient(Client):
    """A connection to a port, which asks one request at a time."""

    def __init__(self, port, process):
        def connected():
            assert process.poll() is None
            with contextlib.suppress(ConnectionRefusedError):
                return socket.create_connection(("127.0.0.1", port), timeout=PATIENCE)

        self.stream = wait_for(connected, "a server")

    def reset(self):
        """Ends the connection so that the server's next read or write fails."""
        self.stream.setsockopt(socket.SOL_SOCKET, socket.SO_LINGER, struct.pack("ii", 1, 0))
        self.stream.close()


class UnixClient(Client):
    def reset(self):
        """Ends the connection with bytes that it hasn't read."""
        wait_for(lambda: self.stream.recv(1, socket.MSG_PEEK), "bytes of a reply")
        self.stream.close()


class Served(unittest.TestCase):
    def setUp(self):
        room = tempfile.TemporaryDirectory()
        self.addCleanup(room.cleanup)
        self.path, self.journal = os.path.join(room.name, "door"), os.path.join(room.name, "journal")
        self.port = free_port()

    def start(self, *words):
        words = [BPFJOBS, "serve", *map(str, words), "--until-eof"]
        process = subprocess.Popen(words, stdin=subprocess.PIPE, stderr=subprocess.PIPE, text=True)
        self.addCleanup(process.wait)
        self.addCleanup(process.kill)
        self.addCleanup(process.stdin.close)
        self.addCleanup(process.stderr.close)
        return process

    def client(self, kind, place, process):
        client = kind(place, process)
        self.addCleanup(client.stream.close)
        return client

    def with_a_result(self, client):
        """Has the server do a job whose result has 200,000 bytes."""
        programs, credit = wide_job()
        client.ask({"op": "grant", "tenant": "t", "amount": credit})
        client.ask(submit_text(programs, credit, b""))
        result_of(client, 1)


class Ends(Served):
    def check(self, kind, place, *words):
        process = self.start(*words, "--clients", 2)
        first = self.client(kind, place, process)
        self.with_a_result(first)
        # the server reads: it waits for a request, for the rest of one, and has answered one
        for part in (b"", RESULT[:3], RESULT[:9], RESULT):
            client = self.client(kind, place, process)
            self.assertEqual(client.ask(ACCOUNT)["code"], 74)
            client.stream.sendall(frame(json.dumps(ACCOUNT)) + part)
            client.reset()
        # it writes, and what it writes is taken by nobody
        for _ in range(3):
            client = self.client(kind, place, process)
            client.stream.sendall(RESULT * ASKED)
            self.assertEqual(client.stream.recv(1), b"\0")
            client.reset()
        self.assertEqual(first.ask(ACCOUNT)["code"], 74)
        first.stream.close()
        process.stdin.close()
        self.assertEqual(process.wait(PATIENCE), 0)
        self.assertEqual(past_listening(process.stderr.read(), process.args), "")

    def test_resets_over_tcp(self):
        self.check(TcpClient, self.port, "--port", self.port)

    def test_resets_over_a_socket(self):
        self.check(UnixClient, self.path, "--socket", self.path)


class Drippers(Served):
    def drip(self, client, ends):
        """Takes replies byte by byte, to the stream's end, and tells how many bytes came."""
        count = 0
        with contextlib.suppress(ConnectionResetError):
            while client.stream.recv(1):
                count += 1
                if count % DROPS == 0:
                    self.done.wait(PAUSE)
                if self.done.is_set():
                    return
        ends.append(count)

    def check(self, kind, place, *words):
        """Each of them is given up within a reply, and its place is another's."""
        words = (*words, "--clients", PLACES, "--journal", self.journal)
        process = self.start(*words)
        first = self.client(kind, place, process)
        self.with_a_result(first)
        length = len(json.dumps(first.ask({"op": "result", "job": 1}), separators=(",", ":"))) + 4
        first.stream.close()
        process.stdin.close()
        process.wait(PATIENCE)
        process = self.start(*words, "--timeout", 1)
        self.done, ends = threading.Event(), []
        self.addCleanup(self.done.set)
        for _ in range(PLACES):
            client = self.client(kind, place, process)
            client.stream.setsockopt(socket.SOL_SOCKET, socket.SO_RCVBUF, 4096)
            client.stream.sendall(RESULT * ASKED)
            threading.Thread(target=self.drip, args=(client, ends)).start()
        other = self.client(kind, place, process)
        self.assertEqual(other.ask(ACCOUNT)["code"], 74)
        wait_for(lambda: len(ends) == PLACES, "the ends of slow clients")
        for count in ends:
            self.assertLess(count, length * ASKED)
        other.stream.close()

    def test_over_tcp(self):
        self.check(TcpClient, self.port, "--port", self.port)

    def test_over_a_socket(self):
        self.check(UnixClient, self.path, "--socket", self.path)


if __name__ == "__main__":
    unittest.main()
