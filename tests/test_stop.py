"""`{"op":"stop"}`: a server is stopped by its socket for grants."""

import fcntl
import json
import socket
import struct
import subprocess
import tempfile
import termios
import unittest

from patience import PATIENCE, wait_for
from programs import Server, events_past_listening, frame, submit_text
from test_clients import beside_a_long_job, dear_code
from test_counts import KEYS
from test_local import told as told_account
from test_tenants import NO_REQUEST, NO_TENANT, Room, account, grant, submit

STOP = {"op": "stop"}
ASKED = {"op": "server"}
NOBODY = b'{"code":74,"ok":false}'


def unread(stream):
    """How many bytes were sent that the peer hasn't read, and more than none while there are any."""
    return struct.unpack("i", fcntl.ioctl(stream, termios.TIOCOUTQ, bytes(4)))[0]


class Stopped(Room):
    """Servers that are asked to stop."""

    def serve(self, tenants=(), journal=(), more=("--clients", 16), **how):
        words = ["--sessions", 1000, "--workers", 2, "--grants", self.path("grants"), *self.words(*tenants), *more]
        if journal:
            words += ["--journal", self.path("journal"), "--journal-sync", *journal]
        return self.start(*words, **how)

    def each_form(self, check, journals=((), ("always",), ("interval",))):
        """Has a test look at servers without tenants and with one, and with each of these journals, in a folder of their own. It is told
        a door that takes no grant."""
        for tenants in ((), ("alice",)):
            for journal in journals:
                with self.subTest(tenants=tenants, journal=journal), tempfile.TemporaryDirectory() as self.room:
                    check("alice" if tenants else "all", tenants, journal)

    def stop(self, granter, asked=STOP):
        """What the server tells as it is asked to stop: what it counts."""
        told = json.loads(granter.told(asked))
        self.assertEqual((list(told), told["ok"]), (KEYS, True))
        return told

    def check_end(self, process, *clients):
        """Its connections end, it ends well, and nothing of it listens any more."""
        for client in clients:
            self.assertEqual(client.stream.recv(1), b"")
        self.assertEqual(process.wait(PATIENCE), 0)
        self.assertEqual([name for name in self.names() if not name.startswith("journal")], [])
        for name in ("all", "grants"):
            with socket.socket(socket.AF_UNIX) as late, self.assertRaises(FileNotFoundError):
                late.connect(self.path(name))


class Stops(Stopped):
    def test_it_ends(self):
        """What it counts is told, and each connection ends, whichever door it came by."""
        def check(door, *form):
            process = self.serve(*form)
            granter, client, other = (self.connect(process, name) for name in ("grants", door, "all"))
            self.assertEqual(client.ask(account("bob")), NO_TENANT)
            # of a frame that isn't whole nothing is answered
            other.stream.sendall(frame(json.dumps(account("bob")))[:-1])
            wait_for(lambda: not unread(other.stream), "a read")
            told = self.stop(granter)
            self.assertEqual(told["connections"], {"open": 3, "taken": 3})
            self.assertEqual(told["refusals"], [{"code": 74, "count": 1}])
            self.check_end(process, granter, client, other)

        self.each_form(check)

    def test_with_one_place(self):
        """The connection that asks is the only one."""
        process = self.serve(more=())
        granter = self.connect(process, "grants")
        self.stop(granter)
        self.check_end(process, granter)

    def test_beside_its_input(self):
        process = self.serve(more=("--clients", 4, "--until-eof"), stdin=subprocess.PIPE)
        granter = self.connect(process, "grants")
        self.stop(granter)
        self.check_end(process, granter)

    def test_what_was_read_is_answered(self):
        """Also behind a program whose verdict takes long, and behind the stop itself."""
        def check(door, *form):
            process = self.serve(*form)
            granter, client = self.connect(process, "grants"), self.connect(process, door)
            self.assertTrue(granter.ask(grant("alice", 1_000_000))["ok"])
            dear = submit_text([(0, dear_code())], 1_000_000, b"", tenant="alice")
            client.stream.sendall(frame(dear) + frame(json.dumps(account("bob"))) * 20)
            wait_for(lambda: not unread(client.stream), "all reads")
            replies = granter.told_all([account("bob"), STOP, account("bob"), ASKED])
            self.assertEqual((replies[0], replies[2]), (NOBODY, NOBODY))
            self.assertEqual([list(json.loads(reply)) for reply in replies[1::2]], [KEYS, KEYS])
            self.assertEqual([client.next_told() for _ in range(21)], [b'{"job":1,"ok":true}'] + [NOBODY] * 20)
            self.check_end(process, granter, client)

        self.each_form(check)

    def test_jobs_that_are_open(self):
        """It ends once they are over. Of an end behind its last reply the journal has nothing: a later server runs the job anew."""
        def check(door, *form):
            def beside(programs, credit):
                process = self.serve(*form)
                granter, client = self.connect(process, "grants"), self.connect(process, door)
                before = granter.ask(grant("alice", credit))
                told = client.ask(submit_text(programs, credit, b"", tenant="alice"))
                were_open = self.stop(granter)["jobs"]["open"]
                self.check_end(process, granter, client)
                process = self.serve(*form)
                granter, client = self.connect(process, "grants"), self.connect(process, door)
                if were_open:
                    self.assertEqual(json.loads(granter.told(ASKED))["jobs"]["taken"], 1)
                result = json.loads(client.over(told["job"]))
                self.assertEqual(result["spent"] + result["returned"], credit)
                after = client.ask(account("alice"))
                self.assertEqual((after["open"], after["balance"]), (0, before["balance"] - result["spent"]))
                self.stop(granter)
                self.check_end(process, granter, client)
                return were_open

            beside_a_long_job(beside)

        self.each_form(check, journals=(("always",), ("interval",)))

    def test_a_later_start(self):
        """Over the same journals it has the same accounts and jobs, and goes on from these."""
        def check(door, *form):
            process = self.serve(*form)
            granter, client = self.connect(process, "grants"), self.connect(process, door)
            granter.ask(grant("alice"))
            granter.ask(grant("bob", 7))
            self.assertEqual(client.ask(submit("alice")), {"job": 1, "ok": True})
            result = client.over(1)
            self.assertEqual(client.ask(submit("alice")), {"job": 2, "ok": True})
            self.stop(granter)
            self.check_end(process, granter, client)
            process = self.serve(*form)
            granter, client = self.connect(process, "grants"), self.connect(process, door)
            self.assertEqual(client.over(1), result)
            self.assertEqual(json.loads(client.over(2))["spent"], 3)
            self.assertEqual(client.ask(account("alice")), told_account(994, 1000, 6))
            self.assertEqual(granter.ask(account("bob")), told_account(7, 7))
            self.assertEqual(client.ask(submit("alice")), {"job": 3, "ok": True})
            self.stop(granter)
            self.check_end(process, granter, client)

        self.each_form(check, journals=(("always",), ("interval",)))

    def test_the_log(self):
        """Each connection is told as one that the host stopped, and the end once."""
        process = self.serve(more=("--clients", 4, "--log"), stderr=subprocess.PIPE)
        client, granter = self.connect(process), self.connect(process, "grants")
        self.assertEqual(client.ask(account("bob")), NO_TENANT)
        self.stop(granter)
        self.check_end(process, client, granter)
        lines = events_past_listening(map(json.loads, process.stderr.read().splitlines()), process.args)
        closed = {line["connection"]: (line["requests"], line["code"], line["end"]) for line in lines if line["event"] == "closed"}
        self.assertEqual(closed, {number: (1, 0, "stopped") for number in (1, 2)})
        self.assertEqual([line["event"] for line in lines].count("stopping"), 1)


class Doors(Stopped):
    def test_other_doors(self):
        """It is no request by them, and stops nothing. By the socket for grants nothing else stops the server."""
        def check(door, *form):
            process = self.serve(*form)
            clients = [self.connect(process, name) for name in ("all", door)]
            for client in clients:
                for asked in (STOP, {**STOP, "tenant": "alice"}, {**STOP, "key": "k"}):
                    self.assertEqual(client.ask(asked), NO_REQUEST)
            granter = self.connect(process, "grants")
            for asked in ({"op": "stops"}, {"op": "STOP"}, {"op": ["stop"]}, {"stop": 1}, {"op": "jobs"}, ASKED):
                self.assertEqual(granter.ask(asked)["ok"], asked is ASKED)
            clients.append(self.connect(process, door))
            for client in clients:
                self.assertEqual(client.ask(account("bob")), NO_TENANT)
            told = self.stop(granter)
            self.assertEqual(told["refusals"], [{"code": 73, "count": 11}, {"code": 74, "count": 3}])
            self.check_end(process, granter, *clients)

        self.each_form(check)

    def test_more_members(self):
        """They change nothing, as in what asks for the counts."""
        for more in ({"x": 1}, {"tenant": "no name", "key": 7}):
            process = self.serve()
            granter = self.connect(process, "grants")
            self.assertEqual(list(granter.ask({**ASKED, **more})), KEYS)
            self.stop(granter, {**STOP, **more})
            self.check_end(process, granter)

    def test_without_a_socket_for_grants(self):
        process = self.start("--sessions", 2, *self.words("alice"))
        for name in ("all", "alice"):
            with self.connect(process, name) as client:
                self.assertEqual(client.ask(STOP), NO_REQUEST)
                self.assertEqual(client.ask(account("bob")), NO_TENANT)
        self.assertEqual(process.wait(PATIENCE), 0)

    def test_at_a_port(self):
        with Server(sessions=1) as server:
            self.assertEqual(server.ask(STOP, account("bob")), [NO_REQUEST, NO_TENANT])
            self.assertEqual(server.status(), 0)


if __name__ == "__main__":
    unittest.main()
