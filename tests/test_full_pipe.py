"""Servers whose standard error is a pipe that is full and that nobody reads: nothing waits for it but their logs."""

import contextlib
import fcntl
import json
import os
import resource
import select
import signal
import subprocess

from compactions import COMPACTED
from journals import Keeper
from patience import PATIENCE, wait_for
from programs import events_past_listening, listening, past_listening, submit_text
from test_journal import ACCOUNT, ADD, Room, grant
from test_live_compaction import CREDIT, KEPT, OF_A_JOB, SMALLEST, large
from test_log import lines_of, told

PIPE_ROOM = 4096
# more lines than wait for a log's writer, and than it writes together
MANY = 12_000
FORMS = ((), ("--log",))
COMPACTIONS = 3


class FullPipe:
    """A pipe that has no room, for the standard error of a server."""

    def __init__(self):
        self.reads, self.writes = os.pipe()
        fcntl.fcntl(self.writes, fcntl.F_SETPIPE_SZ, PIPE_ROOM)
        os.set_blocking(self.writes, False)
        self.filled = 0
        with contextlib.suppress(BlockingIOError):
            while True:
                self.filled += os.write(self.writes, b"#" * PIPE_ROOM)
        os.set_blocking(self.writes, True)
        self.read = b""

    def given(self):
        """Leaves the writing end to the server alone."""
        os.close(self.writes)

    def close(self):
        os.close(self.reads)

    def take(self):
        """Reads some more, and gives the lines that are whole by then; none once the other end is closed."""
        assert select.select([self.reads], [], [], PATIENCE)[0], "nothing more to read"
        part = os.read(self.reads, 1 << 16)
        self.read += part
        return self.lines() if part else None

    def lines(self):
        assert self.read.startswith(b"#" * min(self.filled, len(self.read)))
        return self.read[self.filled :].decode().split("\n")[:-1]

    def until(self, is_there):
        """The lines, once there is one of which this is true."""
        lines = []
        while not any(map(is_there, lines)):
            lines = self.take()
        return lines

    def to_the_end(self):
        while self.take() is not None:
            pass
        return self.lines()


class Unread(Room):
    """A server with a journal, and a full pipe."""

    def keeper(self, *words, folder=None, **how):
        server = Keeper(folder or self.room, "--keep", KEPT, *words, **how)
        self.addCleanup(server.end)
        return server

    def start_unread(self, *words, **how):
        """A connection to a server with a full pipe, and the pipe."""
        pipe = FullPipe()
        self.addCleanup(pipe.close)
        client = self.start("--until-eof", *words, stdin=subprocess.PIPE, stderr=pipe.writes, **how)
        pipe.given()
        return client, pipe

    @contextlib.contextmanager
    def form(self, *words):
        """One form of a log, with a journal of its own."""
        with self.subTest(words=words):
            self.server.end()
            self.server.journal = os.path.join(self.room, "journal" + "".join(words))
            yield

    def fill(self, client, job):
        """Large jobs until a snapshot has the journal's name. Gives the number of the job to come."""
        path = self.server.journal
        node = os.stat(path).st_ino
        while os.stat(path).st_ino == node and os.path.getsize(path) < SMALLEST + 4 * OF_A_JOB:
            self.assertEqual(client.ask(large(job)), {"job": job, "ok": True})
            self.assertTrue(json.loads(client.over(job))["ok"])
            job += 1
        wait_for(lambda: os.stat(path).st_ino != node, "a compaction")
        return job

    def end_by_input(self, client):
        """Ends the input of the server, and gives its status."""
        client.stream.close()
        self.server.process.stdin.close()
        return self.server.process.wait(PATIENCE)

    def test_requests_and_compactions(self):
        """They go on, and the server ends. Once somebody reads, the lines of the compactions are there."""
        for words in FORMS:
            with self.form(*words):
                client, pipe = self.start_unread(*words)
                client.ask(grant(CREDIT))
                job = 1
                for _ in range(COMPACTIONS):
                    job = self.fill(client, job)
                self.assertEqual(client.ask(ACCOUNT)["spent"], 3 * (job - 1))
                while sum("compacted" in line for line in pipe.take()) < COMPACTIONS:
                    pass
                self.assertEqual(self.end_by_input(client), 0)
                self.check_notes(words, pipe.to_the_end())

    def check_notes(self, words, lines):
        """All lines are JSON, or none is. It takes connections, and the compactions are told in order."""
        text = "".join(f"{line}\n" for line in lines)
        if words:
            told_all = events_past_listening(lines_of(text), self.server.process.args)
            self.assertEqual([line for line in told_all if "lost" in line], [])
            lines = ["bpfjobs: " + line["text"] for line in told(told_all, "note")]
        else:
            self.assertEqual(lines[:1], ["bpfjobs: " + listening(self.server.process.args)])
            lines = past_listening(text, self.server.process.args).splitlines()
        notes = [COMPACTED.fullmatch(line).groups() for line in lines]
        self.assertEqual([path for path, _, _ in notes], [f"bpfjobs: {self.server.journal}"] * COMPACTIONS)
        self.assertTrue(all(int(old) >= SMALLEST > int(new) for _, old, new in notes), notes)

    def test_the_end(self):
        """The server ends, though its last lines are never read."""
        for words in FORMS:
            with self.form(*words):
                client, _pipe = self.start_unread(*words)
                client.ask(grant(CREDIT))
                self.fill(client, 1)
                self.assertEqual(self.end_by_input(client), 0)

    def test_a_journal_that_fails(self):
        """Its server ends with its status."""
        def limited():
            signal.signal(signal.SIGXFSZ, signal.SIG_IGN)
            resource.setrlimit(resource.RLIMIT_FSIZE, (1000, 1000))

        for words in FORMS:
            with self.form(*words):
                client, _pipe = self.start_unread(*words, preexec_fn=limited)
                with contextlib.suppress(ConnectionResetError, BrokenPipeError):
                    while True:
                        client.ask(grant(1))
                self.assertEqual(self.server.process.wait(PATIENCE), 3)

    def test_a_start_that_is_refused(self):
        """It ends with its status."""
        for words in FORMS:
            with self.form(*words):
                with open(self.server.journal, "w", encoding="ascii") as file:
                    file.write("no journal\n")
                pipe = FullPipe()
                self.addCleanup(pipe.close)
                process = self.server.start(*words, stderr=pipe.writes)
                pipe.given()
                self.assertEqual(process.wait(PATIENCE), 3)

    def test_lost_lines(self):
        """They are told once there is room, though nothing more happens."""
        client, pipe = self.start_unread("--log")
        request = submit_text([(0, ADD)], 3, b"", tenant="nobody")
        for _ in range(MANY // 100):
            replies = client.told_all([request] * 100)
            self.assertEqual([json.loads(reply)["code"] for reply in replies], [74] * 100)
        text = "".join(f"{line}\n" for line in pipe.until(lambda line: '"event":"lost"' in line))
        lines = events_past_listening(lines_of(text), self.server.process.args)
        self.assertEqual([line["event"] for line in lines[:3]], ["ready", "opened", "refused"])
        self.assertEqual(len(told(lines, "lost")), 1)
        lost = sum(line.get("lost", 0) for line in lines)
        self.assertGreater(lost, 0)
        # those two, the refusals, and what tells of the loss
        self.assertEqual(len(lines) + lost, MANY + 3)
        self.assertEqual(self.end_by_input(client), 0)
        self.assertEqual([line["event"] for line in lines_of("\n".join(pipe.to_the_end()))][-2:], ["closed", "stopping"])
