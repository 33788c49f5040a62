"""`bpfjobs serve --socket PATH`: a socket in the file system in place of the port, and one that alone takes grants."""

import json
import os
import socket
import stat
import subprocess
import tempfile
import threading
import time
import unittest

from programs import BPFJOBS, PATIENCE, bpfjobs, frame, is_read, submit_text
from rows import code_of

ADD = "mov64 r0, 40 / add64 r0, 2 / exit"
GRANT = {"op": "grant", "tenant": "t", "amount": 100}
ACCOUNT = {"op": "account", "tenant": "t"}
NO_REQUEST = {"code": 73, "ok": False}
NO_TENANT = {"code": 74, "ok": False}


def told(balance, granted, spent=0):
    return {"balance": balance, "granted": granted, "ok": True, "open": 0, "spent": spent}


class Client:
    """A connection to a socket at a path, which asks one request at a time."""

    def __init__(self, path, process):
        until = time.monotonic() + PATIENCE
        while True:
            self.stream = socket.socket(socket.AF_UNIX, socket.SOCK_STREAM)
            self.stream.settimeout(PATIENCE)
            try:
                self.stream.connect(path)
                return
            except (ConnectionRefusedError, FileNotFoundError):
                self.stream.close()
                if time.monotonic() > until or process.poll() is not None:
                    raise
                time.sleep(0.001)

    def __enter__(self):
        return self

    def __exit__(self, *_why):
        self.stream.close()

    def ask(self, request):
        self.stream.sendall(frame(request if isinstance(request, str) else json.dumps(request)))
        length = int.from_bytes(is_read(self.stream, 4), "big")
        return json.loads(is_read(self.stream, length))


class Sockets(unittest.TestCase):
    """A folder for a server's sockets."""

    def setUp(self):
        room = tempfile.TemporaryDirectory()
        self.addCleanup(room.cleanup)
        self.path, self.grants = os.path.join(room.name, "jobs"), os.path.join(room.name, "grants")

    def start(self, *words, umask=0o022, stdin=subprocess.DEVNULL):
        words = [BPFJOBS, "serve", "--socket", self.path, *map(str, words)]
        process = subprocess.Popen(words, stdin=stdin, stdout=subprocess.DEVNULL, stderr=subprocess.DEVNULL, umask=umask)
        self.addCleanup(process.wait)
        self.addCleanup(process.kill)
        if stdin == subprocess.PIPE:
            self.addCleanup(process.stdin.close)
        return process

    def connect(self, process, path=None):
        client = Client(path or self.path, process)
        self.addCleanup(client.stream.close)
        return client


class Local(Sockets):
    def test_requests_and_the_end(self):
        """Everything is answered as over a port. At the end the path is free again."""
        process = self.start("--sessions", 1, "--workers", 2)
        with self.connect(process) as client:
            self.assertEqual(client.ask(ACCOUNT), NO_TENANT)
            self.assertEqual(client.ask(GRANT), told(100, 100))
            self.assertEqual(client.ask(submit_text([(0, code_of(ADD))], 3, b"", tenant="t")), {"job": 1, "ok": True})
            while (reply := client.ask({"op": "result", "job": 1})).get("code") == 77:
                time.sleep(0.001)
            self.assertEqual((reply["spent"], reply["tasks"][0]["r0"]), (3, 42))
            self.assertEqual(client.ask(ACCOUNT), told(97, 100, 3))
        self.assertEqual(process.wait(PATIENCE), 0)
        self.assertFalse(os.path.exists(self.path))

    def test_the_umask_says_who_may_connect(self):
        for umask, mode in ((0o022, 0o755), (0o077, 0o700), (0o007, 0o770)):
            with self.subTest(oct(umask)):
                process = self.start("--sessions", 1, umask=umask)
                with self.connect(process) as client:
                    self.assertEqual(client.ask(ACCOUNT), NO_TENANT)
                    self.assertEqual(stat.S_IMODE(os.stat(self.path).st_mode), mode)
                self.assertEqual(process.wait(PATIENCE), 0)

    def test_grants_are_taken_on_their_own_socket_alone(self):
        process = self.start("--grants", self.grants, "--sessions", 3, "--clients", 3)
        with self.connect(process) as client, self.connect(process, self.grants) as granter:
            self.assertEqual(client.ask(GRANT), NO_REQUEST)
            self.assertEqual(client.ask(ACCOUNT), NO_TENANT)
            self.assertEqual(granter.ask(GRANT), told(100, 100))
            for _ in range(3):
                self.assertEqual(client.ask(GRANT), NO_REQUEST)
            self.assertEqual(client.ask(ACCOUNT), told(100, 100))
            self.assertEqual(client.ask({**GRANT, "tenant": "u"}), NO_REQUEST)
            self.assertEqual(client.ask({**ACCOUNT, "tenant": "u"}), NO_TENANT)
            # the rest is as ever, on both
            for number, asker in ((1, client), (2, granter)):
                self.assertEqual(asker.ask(submit_text([(0, code_of(ADD))], 3, b"", tenant="t")), {"job": number, "ok": True})
                while (reply := client.ask({"op": "result", "job": number})).get("code") == 77:
                    time.sleep(0.001)
                self.assertEqual(reply["spent"], 3)
            self.assertEqual(granter.ask(ACCOUNT), told(94, 100, 6))
            self.assertEqual(granter.ask(GRANT), told(194, 200, 6))
        with self.connect(process) as client:
            # among others, in order
            client.stream.sendall(frame(json.dumps(ACCOUNT)) + frame(json.dumps(GRANT)) + frame("1") + frame(json.dumps(ACCOUNT)))
            replies = []
            for _ in range(4):
                length = int.from_bytes(is_read(client.stream, 4), "big")
                replies.append(json.loads(is_read(client.stream, length)))
            self.assertEqual(replies, [told(194, 200, 6), NO_REQUEST, NO_REQUEST, told(194, 200, 6)])
        self.assertEqual(process.wait(PATIENCE), 0)
        self.assertFalse(os.path.exists(self.path) or os.path.exists(self.grants))

    def test_many_clients_on_both_sockets(self):
        process = self.start("--grants", self.grants, "--sessions", 1000, "--clients", 16)
        wrong = []

        def work(number):
            tenant = f"tenant{number}"
            for turn in range(1, 21):
                with Client(self.grants, process) as granter, Client(self.path, process) as client:
                    if granter.ask({"op": "grant", "tenant": tenant, "amount": 1}).get("granted") != turn:
                        wrong.append((number, turn, "a grant"))
                    if client.ask({"op": "grant", "tenant": tenant, "amount": 1}) != NO_REQUEST:
                        wrong.append((number, turn, "a grant on the wrong socket"))
                    if client.ask({"op": "account", "tenant": tenant}) != told(turn, turn):
                        wrong.append((number, turn, "an account"))

        threads = [threading.Thread(target=work, args=(number,)) for number in range(7)]
        for thread in threads:
            thread.start()
        for thread in threads:
            thread.join()
        self.assertEqual(wrong, [])

    def test_a_path_where_somebody_listens(self):
        first = self.start("--sessions", 3)
        self.connect(first).stream.close()
        self.assertEqual(self.start("--sessions", 1).wait(PATIENCE), 3)
        # the first one is still there; the second one's look was a connection too
        with self.connect(first) as client:
            self.assertEqual(client.ask(ACCOUNT), NO_TENANT)
        self.assertEqual(first.wait(PATIENCE), 0)

    def test_paths_where_somebody_listens(self):
        """Of another server's two sockets none is taken, and that goes on. The path that was free is free again."""
        first = self.start("--grants", self.grants, "--sessions", 100, "--clients", 4)
        client, granter = self.connect(first), self.connect(first, self.grants)
        self.assertEqual(granter.ask(GRANT), told(100, 100))
        other = self.path + "2"
        for words in ((self.path,), (self.grants,), (other, "--grants", self.path), (other, "--grants", self.grants),
                      (self.path, "--grants", other), (self.grants, "--grants", self.path)):
            with self.subTest(words):
                self.assertEqual(bpfjobs("serve", "--socket", *words), (3, ""))
                self.assertEqual(sorted(os.listdir(os.path.dirname(self.path))), ["grants", "jobs"])
                # by the connections that were there, and by new ones
                self.assertEqual(client.ask(ACCOUNT), told(100, 100))
                self.assertEqual(granter.ask(ACCOUNT), told(100, 100))
                with self.connect(first) as later:
                    self.assertEqual(later.ask(GRANT), NO_REQUEST)

    def test_sockets_that_were_left_behind(self):
        for more in ((), ("--grants", self.grants)):
            with self.subTest(more):
                paths = [self.path, self.grants] if more else [self.path]
                first = self.start("--sessions", 100, *more)
                with self.connect(first) as client:
                    self.assertEqual(client.ask(ACCOUNT), NO_TENANT)
                first.kill()
                first.wait()
                self.assertTrue(all(map(os.path.exists, paths)))
                second = self.start("--sessions", len(paths), "--clients", 2, *more)
                for path in paths:
                    with self.connect(second, path) as client:
                        self.assertEqual(client.ask(ACCOUNT), NO_TENANT)
                self.assertEqual(second.wait(PATIENCE), 0)
                self.assertFalse(any(map(os.path.exists, paths)))

    def test_what_is_no_socket_stays(self):
        with open(self.path, "w", encoding="utf-8") as file:
            file.write("kept")
        self.assertEqual(self.start("--sessions", 1).wait(PATIENCE), 3)
        with open(self.path, encoding="utf-8") as file:
            self.assertEqual(file.read(), "kept")
        os.unlink(self.path)
        # of the second path too, and the first one is free again
        with open(self.grants, "w", encoding="utf-8") as file:
            file.write("kept too")
        self.assertEqual(self.start("--grants", self.grants, "--sessions", 1).wait(PATIENCE), 3)
        self.assertEqual(os.listdir(os.path.dirname(self.path)), ["grants"])
        with open(self.grants, encoding="utf-8") as file:
            self.assertEqual(file.read(), "kept too")
        os.unlink(self.grants)
        os.mkdir(self.grants)
        self.assertEqual(self.start("--grants", self.grants, "--sessions", 1).wait(PATIENCE), 3)
        self.assertEqual(os.listdir(os.path.dirname(self.path)), ["grants"])

    def test_it_ends_with_its_input(self):
        for more in ((), ("--grants", self.grants)):
            with self.subTest(more):
                process = self.start("--sessions", 100, "--clients", 4, "--until-eof", *more, stdin=subprocess.PIPE)
                client, idle = self.connect(process), self.connect(process)
                for connection in (client, idle):
                    self.assertEqual(connection.ask(ACCOUNT), NO_TENANT)
                process.stdin.close()
                self.assertEqual(client.stream.recv(1), b"")
                self.assertEqual(idle.stream.recv(1), b"")
                self.assertEqual(process.wait(PATIENCE), 0)
                self.assertFalse(os.path.exists(self.path))

    def test_a_silent_client_is_given_up(self):
        for more in ((), ("--grants", self.grants)):
            with self.subTest(more):
                process = self.start("--sessions", 1, "--timeout", 1, *more)
                self.assertEqual(self.connect(process).stream.recv(1), b"")
                self.assertEqual(process.wait(PATIENCE), 3)

    def refused(self, words):
        """What is told on standard error of the words, which are wrong."""
        ran = subprocess.run([BPFJOBS, "serve", *words], capture_output=True, text=True, timeout=PATIENCE, check=False)
        self.assertEqual((ran.returncode, ran.stdout), (2, ""))
        self.assertEqual(os.listdir(os.path.dirname(self.path)), [])
        return ran.stderr

    def test_wrong_words(self):
        """Without a path, with two, and without a number."""
        for words in (["--socket"], ["--socket", self.path, "--socket", self.path], ["--socket", self.path, "--clients", "1025"],
                      ["--socket", self.path, "--port", "0"]):
            with self.subTest(words):
                self.assertTrue(self.refused(words).startswith("error: "))

    def test_exactly_one_endpoint(self):
        """Options that name none, or two, are told in one line."""
        neither = "error: serve needs --port <PORT> or --socket <PATH>\n"
        both = "error: serve takes --port or --socket, and not both\n"
        grants = "error: serve takes --grants with --socket alone\n"
        for words, line in (([], neither), (["--grants", self.grants], neither), (["--log", "--clients", "2"], neither),
                            (["--socket", self.path, "--port", "7"], both), (["--port=7", f"--socket={self.path}", "--grants", self.grants], both),
                            (["--port", "7", "--grants", self.grants], grants)):
            with self.subTest(words):
                self.assertEqual(self.refused(words), line)

    def test_help(self):
        for words in (["--help"], [f"--socket={self.path}", "--help"], ["--port", "7", "--socket", self.path, "-h"]):
            with self.subTest(words):
                ran = subprocess.run([BPFJOBS, "serve", *words], capture_output=True, timeout=PATIENCE, check=False)
                self.assertEqual((ran.returncode, ran.stderr), (0, b""))
                for option in (b"--port <PORT>", b"--socket <PATH>", b"--grants <PATH>"):
                    self.assertIn(option, ran.stdout)


if __name__ == "__main__":
    unittest.main()
