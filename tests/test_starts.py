"""Starts of `bpfjobs serve` that fail: each tells why on standard error, and has changed nothing."""

import json
import os
import resource
import shutil
import subprocess
import tempfile
import unittest

from journals import granted, read, record, submitted
from patience import PATIENCE, wait_for
from programs import BPFJOBS, Server, free_port, listening
from rows import code_of
from test_local import Client

TENANTS = 256
# a user whom nobody has
OTHER = 64999
OPEN = 3
CODE = code_of("mov64 r0, 0 / exit")
MEGABYTE = 1 << 20


class Starts(unittest.TestCase):
    def setUp(self):
        room = tempfile.TemporaryDirectory()
        self.addCleanup(room.cleanup)
        self.room, self.path = room.name, os.path.join(room.name, "door")

    def serve(self, *words, **how):
        """The status of a server that can't start, and what it tells."""
        words = [BPFJOBS, "serve", *map(str, words)]
        ran = subprocess.run(words, stdin=subprocess.DEVNULL, capture_output=True, text=True, timeout=PATIENCE, check=False, **how)
        self.assertEqual(ran.stdout, "")
        return ran.returncode, ran.stderr

    def check(self, line, *words, **how):
        self.assertEqual(self.serve(*words, **how), (3, f"bpfjobs: {line}\n"))

    def begun(self, *words, **how):
        """What a server tells until it takes connections, or ends."""
        told = os.path.join(self.room, "told")
        with open(told, "wb") as file:
            process = subprocess.Popen([BPFJOBS, "serve", *map(str, words)], stderr=file, **{"stdin": subprocess.DEVNULL, **how})
        try:
            wait_for(lambda: process.poll() is not None or self.is_listening(read(told)), "a server or an end")
            return process.poll(), read(told).decode()
        finally:
            process.kill()
            process.wait()
            if process.stdin:
                process.stdin.close()

    def is_listening(self, told):
        """Whether a server has told, by a line that is whole, that it takes connections."""
        return b"listening on" in told and told.endswith(b"\n")


class Places(Starts):
    def test_a_port_that_is_taken(self):
        with Server() as first:
            first.connect().close()
            self.check(f"cannot listen on 127.0.0.1:{first.port}: address already in use", "--port", first.port)

    def test_a_path_where_somebody_listens(self):
        with subprocess.Popen([BPFJOBS, "serve", "--socket", self.path, "--clients", "2"], stdin=subprocess.DEVNULL, stderr=subprocess.DEVNULL) as first:
            try:
                Client(self.path, first).stream.close()
                self.check(f"cannot listen on {self.path}: address already in use", "--socket", self.path)
            finally:
                first.kill()

    def test_a_path_that_is_no_socket(self):
        with open(self.path, "w", encoding="utf-8") as file:
            file.write("kept")
        status, line = self.serve("--socket", self.path)
        self.assertEqual((status, line.startswith(f"bpfjobs: cannot listen on {self.path}: "), line.count("\n")), (3, True, 1), line)
        self.assertEqual(read(self.path), b"kept")

    def test_no_folder(self):
        path = os.path.join(self.room, "none", "door")
        self.check(f"cannot listen on {path}: no such file or directory", "--socket", path)
        self.check(f"cannot listen on {path}: no such file or directory", "--socket", self.path, "--grants", path)
        self.assertEqual(os.listdir(self.room), [])

    @unittest.skipUnless(os.geteuid() == 0, "needs root, to be another user")
    def test_no_permission(self):
        os.chmod(self.room, 0o755)
        self.check(f"cannot listen on {self.path}: permission denied", "--socket", self.path, user=OTHER, group=OTHER, extra_groups=[])

    def test_a_path_too_long(self):
        """By the words: no system takes it."""
        status, line = self.serve("--socket", os.path.join(self.room, "x" * 200))
        self.assertEqual((status, line), (2, "error: serve takes 1 to 104 bytes, none of them 0, as a socket's path\n"))

    def test_one_bad_socket_of_many(self):
        bad = os.path.join(self.room, "none", "door")
        paths = [os.path.join(self.room, f"t{number}") for number in range(TENANTS)]
        for at in (0, TENANTS // 2, TENANTS - 1):
            listed = paths[:at] + [bad] + paths[at + 1 :]
            tenants = os.path.join(self.room, "tenants")
            with open(tenants, "w", encoding="utf-8") as file:
                file.writelines(f"t{number} {path}\n" for number, path in enumerate(listed))
            with self.subTest(at):
                self.check(f"cannot listen on {bad}: no such file or directory", "--socket", self.path, "--tenants", tenants)
                self.assertEqual(os.listdir(self.room), ["tenants"])


class Resources(Starts):
    """A server that wants for memory, a descriptor or a thread ends with a line, or serves."""

    def outcome(self, limit, number, words, **how):
        """The status of a server that has so much of something and that has ended, or that it serves."""
        def bound():
            resource.setrlimit(limit, (number, number))

        with open(os.path.join(self.room, "told"), "w+b") as told:
            words = [self.program, "serve", "--socket", self.path, "--clients", "8", "--workers", "4", *words]
            process = subprocess.Popen(words, stdin=subprocess.DEVNULL, stderr=told, preexec_fn=bound, **how)
            try:
                with Client(self.path, process) as client:
                    self.assertEqual(client.ask({"op": "account", "tenant": "nobody"})["code"], 74)
                return "serves"
            except (ConnectionResetError, BrokenPipeError):
                return "refuses"  # it has no memory for a connection
            except (ConnectionRefusedError, FileNotFoundError):
                status = process.wait(PATIENCE)
                if status == 3:
                    line = r'"event":"note","text":"[^\n]+\n' if "--log" in words else r"bpfjobs: [^\n]+\n"
                    self.assertRegex(read(told.name).decode(), rf"{line}|bpfjobs: [^\n]+\n", "an end without a line")
                return status
            finally:
                process.kill()
                process.wait()

    def check(self, limit, numbers, last, **how):
        """With little it ends, or the system can't start it, and with more it serves. One of the statuses is this."""
        for words in ((), ("--log",)):
            found = []
            for number in numbers:
                with self.subTest(number=number, words=words):
                    status = self.outcome(limit, number, words, **how)
                    found.append(status)
                    # by less than 0 and 127: the system could not start it
                    self.assertTrue(status in ("serves", "refuses", 3, 127) or status < 0, status)
            self.assertIn("serves", found)
        self.assertIn(last, found)

    def setUp(self):
        super().setUp()
        self.program = os.path.join(self.room, "bpfjobs")
        shutil.copy(BPFJOBS, self.program)
        os.chmod(self.program, 0o755)
        os.chmod(self.room, 0o777)

    def test_no_memory(self):
        self.check(resource.RLIMIT_AS, [megabytes * MEGABYTE for megabytes in (4, 6, 8, 10, 12, 16, 24, 32, 64, 128, 256, 1024)], 3)

    @unittest.skipUnless(os.geteuid() == 0, "needs root, to be a user who has no other process")
    def test_no_thread(self):
        self.check(resource.RLIMIT_NPROC, (1, 2, 4, 8, 32), 3, user=OTHER, group=OTHER, extra_groups=[])

    def test_no_descriptor(self):
        """With six it listens, and has none for a connection: test_descriptor_limits.py has that."""
        self.check(resource.RLIMIT_NOFILE, (3, 4, 5, 7, 16), 127)


class Journals(Starts):
    def test_fewer_open_jobs_than_a_journal_has(self):
        """They would all fail at once: so it ends ahead of them, and the journal stays as it is."""
        journal = os.path.join(self.room, "journal")
        with open(journal, "wb") as file:
            file.write(record(granted("t", 100)) + b"".join(record(submitted("t", CODE, 2)) for _ in range(OPEN)))
        before = read(journal)
        status, line = self.serve("--socket", self.path, "--journal", journal, "--open-jobs", OPEN - 1, "--until-eof")
        self.assertEqual(status, 3)
        self.assertRegex(line, r"\Abpfjobs: [^\n]*\b81\b[^\n]*\n\Z")
        self.assertIn("--open-jobs", line)
        self.assertEqual(read(journal), before)
        self.assertEqual(self.serve("--socket", self.path, "--journal", journal, "--open-jobs", OPEN, "--until-eof")[0], 0)


class Ready(Starts):
    """It tells where it listens, and how many connections it takes, where these have an end. That is all it tells."""

    FORMS = [(("--clients", 2), ""), (("--clients", 2, "--until-eof"), ""), ((), " for 1 connection"), (("--sessions", 1), " for 1 connection"),
             (("--sessions", 2), " for 2 connections"), (("--sessions", 1_000_000, "--clients", 2), " for 1000000 connections")]

    def each(self):
        """The words of each form, and what a server by them tells."""
        port, grants = free_port(), os.path.join(self.room, "grants")
        tenant = f"alice={self.room}/alice"
        places = [(("--port", port), f"127.0.0.1:{port}"), (("--socket", self.path), self.path),
                  (("--grants", grants, "--tenant", tenant, "--socket", self.path), self.path)]
        for place, where in places:
            for words, bound in self.FORMS:
                with self.subTest(place=place, words=words):
                    yield (*place, *words), f"listening on {where}{bound}"

    def test_a_line(self):
        for words, text in self.each():
            self.assertEqual(self.begun(*words, stdin=subprocess.PIPE), (None, f"bpfjobs: {text}\n"))
            self.assertEqual(listening(words), text)

    def test_a_note_of_the_log(self):
        """Ahead of any connection."""
        for words, text in self.each():
            status, told = self.begun("--log", *words, stdin=subprocess.PIPE)
            ready, note = map(json.loads, told.splitlines())
            self.assertEqual((status, ready["event"]), (None, "ready"))
            self.assertEqual(note, {"time": note["time"], "event": "note", "text": text})

    def test_a_path_of_many_lines(self):
        """A note is one line."""
        path = os.path.join(self.room, "two\nlines\tand a tab")
        line = path.replace("\n", " ").replace("\t", " ")
        self.assertEqual(self.begun("--socket", path), (None, f"bpfjobs: listening on {line} for 1 connection\n"))


if __name__ == "__main__":
    unittest.main()
