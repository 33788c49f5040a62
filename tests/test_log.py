"""`bpfjobs serve --log`: a line on standard error for each connection and each job, of which nothing waits."""

import contextlib
import fcntl
import json
import os
import shutil
import socket
import struct
import subprocess
import tempfile
import time
import unittest

from journals import book_of, read
from patience import PATIENCE
from programs import BPFJOBS, VERSION, Server, events_past_listening, frame, frames, is_read, past_listening, submit_text
from rows import code_of
from test_clients import Client, beside_a_long_job, by_timeouts, is_open, result_of, within
from test_local import Client as LocalClient

ADD = "mov64 r0, 40 / add64 r0, 2 / exit"
SPAWN = "mov64 r1, 1 / mov64 r2, 5 / mov64 r3, 0 / mov64 r4, 0 / call 1 / mov64 r0, 0 / exit"
# what the lines of each event have; those behind a `?` may be left out
MEMBERS = {
    "ready": ("version",),
    "stopping": (),
    "opened": ("connection", "socket"),
    "closed": ("connection", "requests", "code", "end", "ms"),
    "started": ("job", "?connection", "credit", "programs", "wait"),
    "ended": ("job", "spent", "returned", "tasks", "buffer", "ms"),
    "failed": ("job", "code"),
    "refused": ("connection", "code"),
    "granted": ("connection", "?tenant", "amount", "balance"),
    "note": ("text",),
    "lost": (),
    "journal failed": (),
}
SOCKETS = {"port", "socket", "grants", "tenant"}
TENANTS = {"alice", "bob"}
ENDS = {"input", "stopped", "frame too large", "timeout", "cut", "journal", "memory"}
PIPE_ROOM = 4096


def lines_of(text):
    """The lines of a log, each in the one form that its event has."""
    lines = []
    for line in text.splitlines():
        told = json.loads(line)
        members = [name.lstrip("?") for name in MEMBERS[told["event"]] if name[0] != "?" or name[1:] in told]
        wanted = ["time", "event", *members] + ["lost"] * ("lost" in told)
        assert list(told) == wanted, line
        words = {"event": MEMBERS, "socket": SOCKETS, "end": ENDS, "version": {VERSION}, "tenant": TENANTS}
        for name, value in told.items():
            if name == "text":
                assert isinstance(value, str), line
            else:
                assert value in words[name] if name in words else type(value) is int and value >= 0, line
        assert json.dumps(told, separators=(",", ":")) == line, line
        lines.append(told)
    return lines


def told(lines, event):
    """The lines of an event, without their times."""
    return [{name: value for name, value in line.items() if name not in ("time", "event", "ms", "wait")} for line in lines if line["event"] == event]


def refusals(*codes, connection=1):
    """The lines of a connection's refusals, without their times."""
    return [{"connection": connection, "code": code} for code in codes]


def last_open(client, job):
    """A moment at which a job was open still, the last that is known of."""
    moment = asked = time.monotonic()
    while is_open(client, job):
        moment, asked = asked, time.monotonic()
    return moment


def read_to_end(stream):
    while stream.recv(4096):
        pass


class Log(unittest.TestCase):
    def serve(self, *words, sessions=1, workers=2, **how):
        """A server with a log, which is read at its end."""
        more = ("--log", *words)
        server = Server(sessions=sessions, workers=workers, more=more, stderr=subprocess.PIPE, **how)
        self.addCleanup(server.process.stderr.close)
        return server

    def ended(self, server):
        """The lines of a server that ends, beside the note that it takes connections."""
        text = server.process.communicate(timeout=PATIENCE)[1]
        return events_past_listening(lines_of(text.decode()), server.process.args)

    def test_a_connection_and_its_jobs(self):
        began = time.time()
        with self.serve() as server:
            client = Client(server)
            client.ask({"op": "grant", "tenant": "t", "amount": 1000})
            for job, text in ((1, submit_text([(0, code_of(ADD))], 3, b"abc")), (2, submit_text([(0, code_of(SPAWN)), (0, code_of(ADD))], 200, b""))):
                self.assertEqual(client.ask(text), {"job": job, "ok": True})
                reply = result_of(client, job)
                self.assertTrue(reply["ok"])
            client.stream.close()
            lines = self.ended(server)
            self.assertEqual(server.process.returncode, 0)
        self.assertEqual([line["event"] for line in lines], ["ready", "opened", "granted", "started", "ended", "started", "ended", "closed", "stopping"])
        self.assertEqual(told(lines, "opened"), [{"connection": 1, "socket": "port"}])
        self.assertEqual(told(lines, "started"), [{"job": 1, "connection": 1, "credit": 3, "programs": 1}, {"job": 2, "connection": 1, "credit": 200, "programs": 2}])
        first, second = told(lines, "ended")
        self.assertEqual(first, {"job": 1, "spent": 3, "returned": 0, "tasks": 1, "buffer": 3})
        self.assertEqual(second, {"job": 2, "spent": reply["spent"], "returned": reply["returned"], "tasks": len(reply["tasks"]), "buffer": 0})
        (closed,) = told(lines, "closed")
        self.assertGreaterEqual(closed.pop("requests"), 5)
        self.assertEqual(closed, {"connection": 1, "code": 0, "end": "input"})
        for line in lines:
            self.assertTrue(began * 1000 - 1 <= line["time"] <= time.time() * 1000 + 1)

    def test_no_byte_of_a_tenant(self):
        """Names, buffers, programs and texts that are no requests: nothing of them is told, only numbers and words of ours."""
        name, mark = "zq-tenant_of_nobody-17", b"ZQbufferZQ"
        with self.serve() as server:
            client = Client(server)
            client.ask({"op": "grant", "tenant": name, "amount": 1000})
            self.assertTrue(client.ask(submit_text([(0, code_of(ADD))], 3, mark, tenant=name))["ok"])
            result_of(client, 1)
            client.ask(submit_text([(0, code_of(ADD))], 3, mark, tenant=name + "x"))
            client.ask(submit_text([(0, b"ZQprogram")], 3, mark, tenant=name))
            client.ask('{"op":"submit","tenant":"ZQ\\u000a{\\"event\\":1}"}')
            client.ask("ZQ no request ZQ")
            client.ask(b"\xffZQ\xff")
            client.stream.close()
            text = server.process.communicate(timeout=PATIENCE)[1].decode()
        lines = events_past_listening(lines_of(text), server.process.args)
        self.assertEqual([line["event"] for line in lines], ["ready", "opened", "granted", "started", "ended", *["refused"] * 5, "closed", "stopping"])
        for trace in ("ZQ", "zq", name, mark.hex(), code_of(ADD).hex(), b"ZQprogram".hex()):
            self.assertNotIn(trace, text)

    def test_grants(self):
        """A grant that was carried out, with the balance that it led to. One that was refused is told as any refusal."""
        with self.serve() as server:
            client = Client(server)
            asked = (("t", 100), ("u", 7), ("t", 2147483647), ("T", 1), ("t", 0), ("t", 1))
            replies = [client.ask({"op": "grant", "tenant": tenant, "amount": amount}) for tenant, amount in asked]
            for _ in range(465):
                client.ask({"op": "grant", "tenant": "v", "amount": 2147483647})
            self.assertEqual(client.ask({"op": "grant", "tenant": "v", "amount": 2147483647})["code"], 65)
            client.ask(submit_text([(0, code_of(ADD))], 3, b"", tenant="u"))
            result_of(client, 1)
            replies.append(client.ask({"op": "grant", "tenant": "u", "amount": 1}))
            client.stream.close()
            lines = self.ended(server)
        self.assertEqual(told(lines, "refused"), refusals(73, 73, 65))
        lines = told(lines, "granted")
        self.assertEqual({line["connection"] for line in lines}, {1})
        self.assertEqual([reply["ok"] for reply in replies], [True, True, True, False, False, True, True])
        done = [(amount, reply["balance"]) for (_, amount), reply in zip([*asked, ("u", 1)], replies) if reply["ok"]]
        self.assertEqual([(line["amount"], line["balance"]) for line in lines[:4] + lines[-1:]], done)
        self.assertEqual(len(lines), len(done) + 465)

    def test_refusals(self):
        """A job that isn't taken, one whose start is refused, and each other request that is refused."""
        def check(programs, credit):
            with self.serve("--open-jobs", 1, workers=1) as server:
                client = Client(server)
                codes = [client.ask(submit_text([(0, code_of(ADD))], 3, b"", tenant="nobody"))["code"]]
                client.ask({"op": "grant", "tenant": "t", "amount": credit + 10})
                codes.append(client.ask(submit_text([(0, code_of(ADD))], credit + 11, b""))["code"])
                codes.append(client.ask(submit_text([(0, code_of("mov64 r0, r9 / exit"))], 3, b""))["code"])
                codes.append(client.ask(submit_text([(0, b"none")], 3, b""))["code"])
                for asked in ({"op": "result", "job": 7}, {"op": "status", "job": 7}, {"op": "account", "tenant": "u"}, {"op": "none"}, "none"):
                    codes.append(client.ask(asked)["code"])
                self.assertEqual(client.ask(submit_text(programs, credit, b"")), {"job": 1, "ok": True})
                self.assertEqual(client.ask(submit_text([(0, code_of(ADD))], 3, b"")), {"job": 2, "ok": True})
                # that it is open is told to its client alone
                if not is_open(client, 1):
                    return False
                self.assertTrue(result_of(client, 1)["ok"])
                # a job that failed: its refusal is what its result tells
                codes.append(client.ask({"op": "result", "job": 2})["code"])
                client.stream.close()
                lines = self.ended(server)
            self.assertEqual((codes[:2], codes[4:]), ([74, 75], [76, 76, 74, 73, 72, 81]))
            self.assertEqual(told(lines, "refused"), refusals(*codes))
            self.assertEqual(told(lines, "failed"), [{"job": 2, "code": 81}])
            self.assertEqual([line["job"] for line in told(lines, "started")], [1])
            return True

        beside_a_long_job(check)

    def test_whose_a_job_is(self):
        """It is told with the connection that asked for it, by whichever worker."""
        count = 8
        with self.serve("--clients", count, sessions=count, workers=4) as server:
            clients = [Client(server) for _ in range(count)]
            clients[0].ask({"op": "grant", "tenant": "t", "amount": 100_000})
            jobs = {}
            for _ in range(20):
                for client in clients:
                    reply = client.ask(submit_text([(0, code_of(ADD))], 3, b""))
                    jobs[reply["job"]] = client
            for job, client in jobs.items():
                result_of(client, job)
            for number, client in enumerate(clients):
                # tells which number the connection has
                client.ask({"op": "result", "job": 1000 + number})
                client.ask(submit_text([(0, code_of(ADD))], 3 + number, b""))
            for client in clients:
                client.stream.close()
            lines = self.ended(server)
        started = told(lines, "started")
        numbers = {clients[line["credit"] - 3]: line["connection"] for line in started if line["job"] > len(jobs)}
        self.assertEqual(sorted(numbers.values()), list(range(1, count + 1)))
        self.assertEqual([line["code"] for line in told(lines, "refused")], [76] * count)
        self.assertEqual({line["connection"] for line in told(lines, "refused")}, set(range(1, count + 1)))
        self.assertEqual({line["job"]: line["connection"] for line in started if line["job"] <= len(jobs)}, {job: numbers[client] for job, client in jobs.items()})

    def test_how_long_a_job_waits(self):
        """For the one worker, as long as another job is open, and no longer than its client does."""
        def check(programs, credit):
            with self.serve(workers=1) as server:
                client = Client(server)
                client.ask({"op": "grant", "tenant": "t", "amount": credit + 3})
                first_asked = time.monotonic()
                client.ask(submit_text(programs, credit, b""))
                asked = time.monotonic()
                self.assertEqual(client.ask(submit_text([(0, code_of(ADD))], 3, b"")), {"job": 2, "ok": True})
                taken = time.monotonic()
                least = last_open(client, 1) - taken
                first_over = time.monotonic()
                result_of(client, 2)
                over = time.monotonic()
                client.stream.close()
                lines = self.ended(server)
            first, second = [line["wait"] for line in lines if line["event"] == "started"]
            (ended,) = [line for line in lines if line["event"] == "ended" and line["job"] == 1]
            # the log has whole milliseconds
            self.assertLessEqual(first + ended["ms"], 1000 * (first_over - first_asked) + 1)
            self.assertTrue(1000 * least - 1 <= second <= 1000 * (over - asked) + 1)
            return least > 0.02

        beside_a_long_job(check)

    def test_jobs_that_begin_anew(self):
        """One that a journal starts again comes from no connection."""
        def check(programs, credit):
            long = submit_text(programs, credit, b"")
            with tempfile.TemporaryDirectory() as room:
                journal = os.path.join(room, "journal")
                with Server(sessions=2, workers=1, more=("--journal", journal)) as server:
                    client = Client(server)
                    for _ in range(3):
                        client.ask({"op": "grant", "tenant": "t", "amount": credit})
                    for job in (1, 2):
                        self.assertEqual(client.ask(long), {"job": job, "ok": True})
                    server.process.kill()
                    server.process.wait()
                    client.stream.close()
                if book_of(read(journal)).ends:
                    return False
                with self.serve("--journal", journal, sessions=1) as server:
                    client = Client(server)
                    self.assertEqual(client.ask(long), {"job": 3, "ok": True})
                    for job in (1, 2, 3):
                        self.assertTrue(result_of(client, job)["ok"])
                    client.stream.close()
                    lines = self.ended(server)
            started = sorted((line["job"], line.get("connection") or 0) for line in told(lines, "started"))
            self.assertEqual(started, [(1, 0), (2, 0), (3, 1)])
            return True

        beside_a_long_job(check)

    def test_jobs_that_wait_at_the_end(self):
        """Once the last connection is over, the job that runs goes on to its end, and those that wait aren't begun. A
        journal has them open, and a later server begins them."""
        def check(programs, credit):
            with tempfile.TemporaryDirectory() as room:
                journal = os.path.join(room, "journal")
                with self.serve("--journal", journal, workers=1) as server:
                    client = Client(server)
                    client.ask({"op": "grant", "tenant": "t", "amount": credit + 6})
                    client.ask(submit_text(programs, credit, b""))
                    for job in (2, 3):
                        self.assertEqual(client.ask(submit_text([(0, code_of(ADD))], 3, b"")), {"job": job, "ok": True})
                    client.stream.close()
                    lines = self.ended(server)
                    self.assertEqual(server.process.returncode, 0)
                begun = [line["job"] for line in told(lines, "started")]
                self.assertEqual([line["job"] for line in told(lines, "ended")], begun)
                if len(begun) > 1:
                    return False
                self.assertEqual({2, 3} & set(book_of(read(journal)).ends), set())
                with self.serve("--journal", journal, workers=1) as server:
                    client = Client(server)
                    self.assertEqual([result_of(client, job)["spent"] for job in (2, 3)], [3, 3])
                    self.assertTrue(result_of(client, 1)["ok"])
                    client.stream.close()
                    lines = self.ended(server)
                self.assertLessEqual({2, 3}, {line["job"] for line in told(lines, "started")})
            return True

        beside_a_long_job(check)

    def end_each_way(self, server, seconds):
        """Six connections, each of which ends in another way."""
        account = frame(json.dumps({"op": "account", "tenant": "t"}))
        with within(seconds, time.monotonic()):
            client = Client(server)
            client.ask({"op": "grant", "tenant": "t", "amount": 3})
            client.ask(submit_text([(0, code_of(ADD))], 3, bytes(20_000)))
            result_of(client, 1)
            client.stream.close()
        with within(seconds, time.monotonic()), server.connect() as stream:  # the input's end
            stream.sendall(account * 3)
            stream.shutdown(socket.SHUT_WR)
            read_to_end(stream)
        with within(seconds, time.monotonic()), server.connect() as stream:  # too large
            stream.sendall(account + b"\x00\x10\x00\x01")
            read_to_end(stream)
        begun = time.monotonic()
        with server.connect() as stream:  # silent within a frame
            with within(seconds, begun):
                stream.sendall(account * 2 + account[:-1])
            read_to_end(stream)
        with server.connect() as stream:  # reset, which ends the input
            stream.sendall(account)
            is_read(stream, 8)
            stream.setsockopt(socket.SOL_SOCKET, socket.SO_LINGER, struct.pack("ii", 1, 0))
        begun = time.monotonic()
        with server.connect() as stream:  # nothing is taken of what is answered
            stream.setsockopt(socket.SOL_SOCKET, socket.SO_RCVBUF, 4096)
            with within(seconds, begun):
                stream.sendall(frames([json.dumps({"op": "result", "job": 1})] * 2000))
            return self.ended(server)

    def test_how_connections_end(self):
        def check(seconds):
            with self.serve("--timeout", seconds, sessions=6) as server:
                lines = self.end_each_way(server, seconds)
            closed = told(lines, "closed")
            self.assertEqual([line["connection"] for line in closed], [1, 2, 3, 4, 5, 6])
            self.assertEqual([(line["code"], line["end"]) for line in closed[1:]], [(0, "input"), (71, "frame too large"), (83, "timeout"), (0, "input"), (84, "timeout")])
            self.assertEqual([line["requests"] for line in closed[1:5]], [3, 1, 2, 1])
            (silent,) = [line for line in lines if line["event"] == "closed" and line["connection"] == 4]
            self.assertGreaterEqual(silent["ms"], 1000 * seconds)

        by_timeouts(check)

    def end_by_a_call(self, call, error):
        """How a connection ends of which the second such call fails so, the notes, and the status."""
        words = ["-e", f"trace={call}", "-e", f"inject={call}:error={error}:when=2+"]
        with self.serve(ahead=["strace", "-f", "-qq", "-o", "/dev/null", *words]) as server:
            client = Client(server)
            account = {"op": "account", "tenant": "t"}
            self.assertEqual(client.ask(account)["code"], 74)
            with contextlib.suppress(ConnectionResetError, BrokenPipeError):
                client.send(account)
            client.stream.close()
            lines = self.ended(server)
        (closed,) = told(lines, "closed")
        return closed["code"], closed["end"], [line["text"] for line in told(lines, "note")], server.process.returncode

    @unittest.skipUnless(shutil.which("strace"), "needs Debian's strace")
    def test_calls_that_fail(self):
        """A read or a write that the system refuses is a fault. One that is refused since the client has let the connection
        go is the end of its input."""
        for call, code, fault in (("recvfrom", 83, "read failed"), ("sendto", 84, "write failed")):
            for error in ("EIO", "ETIMEDOUT", "EHOSTUNREACH"):
                with self.subTest(call=call, error=error):
                    wanted = code, "timeout" if error == "ETIMEDOUT" else "cut", [f"a connection was given up: {code}: {fault}"], 3
                    self.assertEqual(self.end_by_a_call(call, error), wanted)
            for error in ("ECONNRESET", "EPIPE"):
                with self.subTest(call=call, error=error):
                    self.assertEqual(self.end_by_a_call(call, error), (0, "input", [], 0))

    def test_a_server_that_its_host_stops(self):
        with self.serve("--until-eof", sessions=100, stdin=subprocess.PIPE) as server:
            client = Client(server)
            self.addCleanup(client.stream.close)
            client.ask({"op": "account", "tenant": "t"})
            server.process.stdin.close()
            server.process.stdin = None
            lines = self.ended(server)
            self.assertEqual(server.process.returncode, 0)
        self.assertEqual(told(lines, "closed"), [{"connection": 1, "requests": 1, "code": 0, "end": "stopped"}])
        self.assertEqual(len(told(lines, "stopping")), 1)

    def test_many_connections_have_numbers_of_their_own(self):
        with self.serve("--clients", 8, sessions=200) as server:
            for _ in range(25):
                clients = [Client(server) for _ in range(8)]
                for client in clients:
                    client.ask({"op": "account", "tenant": "t"})
                for client in clients:
                    client.stream.close()
            lines = self.ended(server)
        self.assertEqual([len(told(lines, event)) for event in ("ready", "stopping")], [1, 1])
        self.assertEqual(lines[0]["event"], "ready")
        for event in ("opened", "closed"):
            self.assertEqual(sorted(line["connection"] for line in told(lines, event)), list(range(1, 201)))

    def test_where_nobody_reads(self):
        """A pipe that is full stops neither requests nor jobs nor the end. Lines without room are counted."""
        jobs = 10_000
        reads, writes = os.pipe()
        self.addCleanup(os.close, reads)
        fcntl.fcntl(writes, fcntl.F_SETPIPE_SZ, PIPE_ROOM)
        asked = frame(json.dumps({"op": "grant", "tenant": "t", "amount": 3 * jobs}))
        asked += frames([submit_text([(0, code_of(ADD))], 3, b"")] * jobs)
        with Server(sessions=2, workers=2, more=("--clients", 2, "--log"), stderr=writes) as server:
            os.close(writes)
            answer = server.exchange(asked)
            self.assertEqual(answer.count(b'"ok":true'), jobs + 1)
            client = Client(server)
            for job in range(1, jobs + 1):
                self.assertEqual(result_of(client, job)["spent"], 3)
            # now somebody reads: a line tells how many were dropped
            text = b""
            while b'"lost":' not in text:
                text += os.read(reads, 1 << 16)
            client.stream.close()
            while part := os.read(reads, 1 << 16):
                text += part
            self.assertEqual(server.process.wait(PATIENCE), 0)
        lines = lines_of(text.decode())
        self.assertGreater(sum(line.get("lost", 0) for line in lines), 0)
        self.assertGreater(sum(line.get("lost", 0) for line in lines) + len(lines), 2 * jobs)

    def test_an_end_where_nobody_reads(self):
        """The server ends though its last lines are never read."""
        reads, writes = os.pipe()
        self.addCleanup(os.close, reads)
        fcntl.fcntl(writes, fcntl.F_SETPIPE_SZ, PIPE_ROOM)
        with Server(sessions=1, workers=2, more=("--log",), stderr=writes) as server:
            os.close(writes)
            server.exchange(frames([submit_text([(0, code_of(ADD))], 3, b"", tenant="nobody")] * 1000))
            self.assertEqual(server.process.wait(PATIENCE), 0)

    def test_where_standard_error_is_closed(self):
        reads, writes = os.pipe()
        with Server(sessions=2, workers=2, more=("--log",), stderr=writes) as server:
            os.close(writes)
            os.close(reads)
            for _ in range(2):
                answer = server.exchange(frames([submit_text([(0, code_of(ADD))], 3, b"", tenant="nobody")] * 100))
                self.assertEqual(answer.count(b'"code":74'), 100)
            self.assertEqual(server.process.wait(PATIENCE), 0)

    def test_a_note_is_one_line(self):
        """Whatever stands in a path. In JSON it is told as it is."""
        with tempfile.TemporaryDirectory() as room:
            path = os.path.join(room, 'two\nlines, a\ttab, "quotes" and \\')
            with open(path, "w", encoding="ascii") as file:
                file.write("no journal\n")
            note = f"{path}: no journal, and left as it is: it is taken for a text"
            for words in ((), ("--log",)):
                with self.subTest(words), Server(more=("--journal", path, *words), stderr=subprocess.PIPE) as server:
                    text = server.process.communicate(timeout=PATIENCE)[1].decode()
                    self.assertEqual(server.process.returncode, 3)
                    if words:
                        self.assertEqual(told(lines_of(text), "note"), [{"text": note}])
                    else:
                        self.assertEqual(text, "bpfjobs: " + note.replace("\n", " ").replace("\t", " ") + "\n")

    def test_nothing_is_told_unasked(self):
        for words in ((), ("--clients", 2), ("--timeout", PATIENCE, "--until-eof")):
            with self.subTest(words):
                with Server(sessions=2, workers=2, more=words, stderr=subprocess.PIPE, stdin=subprocess.PIPE) as server:
                    client = Client(server)
                    client.ask({"op": "grant", "tenant": "t", "amount": 10})
                    client.ask(submit_text([(0, code_of(ADD))], 3, b""))
                    result_of(client, 1)
                    client.ask(submit_text([(0, code_of(ADD))], 30, b""))
                    client.stream.close()
                    server.exchange(b"\xff" * 8)
                    told_at_all = server.process.communicate(timeout=PATIENCE)[1].decode()
                    self.assertEqual(past_listening(told_at_all, server.process.args), "")

    def test_by_sockets(self):
        with tempfile.TemporaryDirectory() as room:
            path, grants = os.path.join(room, "jobs"), os.path.join(room, "grants")
            with self.subTest("two"), self.local(path, "--grants", grants) as process:
                with LocalClient(grants, process) as client:
                    self.assertTrue(client.ask({"op": "grant", "tenant": "t", "amount": 10})["ok"])
                with LocalClient(path, process) as client:
                    self.assertFalse(client.ask({"op": "grant", "tenant": "t", "amount": 10})["ok"])
                lines = events_past_listening(lines_of(process.communicate(timeout=PATIENCE)[1].decode()), process.args)
                self.assertEqual(told(lines, "opened"), [{"connection": 1, "socket": "grants"}, {"connection": 2, "socket": "socket"}])
                self.assertEqual([line["requests"] for line in told(lines, "closed")], [1, 1])
                self.assertEqual([line["connection"] for line in told(lines, "granted")], [1])
                self.assertEqual(told(lines, "refused"), refusals(73, connection=2))
            with self.subTest("one"), self.local(path) as process:
                for _ in range(2):
                    with LocalClient(path, process) as client:
                        client.ask({"op": "account", "tenant": "t"})
                lines = events_past_listening(lines_of(process.communicate(timeout=PATIENCE)[1].decode()), process.args)
                self.assertEqual([line["socket"] for line in told(lines, "opened")], ["socket"] * 2)

    def local(self, path, *words):
        """A server by a socket at a path."""
        words = [BPFJOBS, "serve", "--socket", path, "--sessions", "2", "--log", *words]
        return subprocess.Popen(words, stdin=subprocess.DEVNULL, stdout=subprocess.DEVNULL, stderr=subprocess.PIPE)
