"""`bpfjobs serve --tenant NAME=PATH` and `--tenants FILE`: tenants with sockets of their own, each of which has the server to itself."""

import contextlib
import json
import os
import random
import subprocess
import tempfile
import threading
import unittest

from journals import Raw
from patience import PATIENCE, wait_for
from programs import BPFJOBS, Server, assemble, events_past_listening, frame, job_text, listening, submit_text
from rows import code_of
from test_clients import beside_a_long_job, is_open, long_job
from test_local import told
from test_log import told as told_of
from trees import Planter, comparable

ADD = code_of("mov64 r0, 40 / add64 r0, 2 / exit")
NO_REQUEST = {"code": 73, "ok": False}
NO_TENANT = {"code": 74, "ok": False}
NO_JOB = {"code": 76, "ok": False}
MOST = 256


def account(tenant):
    return {"op": "account", "tenant": tenant}


def grant(tenant, amount=1000):
    return {"op": "grant", "tenant": tenant, "amount": amount}


def submit(tenant, credit=3, buffer=b""):
    return submit_text([(0, ADD)], credit, buffer, tenant=tenant)


def unnamed_submit(credit=3, buffer=b""):
    """A request for a job that leaves the tenant's name out."""
    return '{"op":"submit",' + job_text([(0, ADD)], credit, buffer)[1:]


class Room(unittest.TestCase):
    """A folder with the sockets of a server."""

    def setUp(self):
        room = tempfile.TemporaryDirectory()
        self.addCleanup(room.cleanup)
        self.room = room.name

    def path(self, name):
        return os.path.join(self.room, name)

    def names(self):
        return sorted(os.listdir(self.room))

    def words(self, *tenants):
        return [word for name in tenants for word in ("--tenant", f"{name}={self.path(name)}")]

    def write(self, text, name="tenants"):
        with open(self.path(name), "wb") as file:
            file.write(text if isinstance(text, bytes) else text.encode())
        return self.path(name)

    def start(self, *words, stdin=subprocess.DEVNULL, stderr=subprocess.DEVNULL):
        words = [BPFJOBS, "serve", "--socket", self.path("all"), *map(str, words)]
        process = subprocess.Popen(words, stdin=stdin, stdout=subprocess.DEVNULL, stderr=stderr)
        self.addCleanup(process.wait)
        self.addCleanup(process.kill)
        for end in (process.stdin, process.stderr):
            if end:
                self.addCleanup(end.close)
        return process

    def connect(self, process, name="all"):
        client = Raw(self.path(name), process)
        self.addCleanup(client.stream.close)
        return client

    def refused(self, *words, status=2):
        """What is told on standard error by a server that doesn't start."""
        before = self.names()
        ran = subprocess.run([BPFJOBS, "serve", *words], capture_output=True, text=True, timeout=PATIENCE, check=False)
        self.assertEqual((ran.returncode, ran.stdout, self.names()), (status, "", before), words)
        return ran.stderr


class Clients:
    """Clients at work beside a test. What one of them raises fails the test."""

    def __init__(self, work, *given):
        self.raised = []
        self.threads = [threading.Thread(target=self.run, args=(work, one)) for one in given]

    def run(self, work, one):
        try:
            work(*one)
        except BaseException as error:  # noqa: B902  (it is raised again at the end)
            self.raised.append(error)

    def __enter__(self):
        for thread in self.threads:
            thread.start()

    def __exit__(self, *_why):
        for thread in self.threads:
            thread.join()
        for error in self.raised:
            raise error


FORM, NAME = "it wants a name and a path", "a name has 1 to 32 of a to z, 0 to 9, _ and -"
NO_PATH, NO_TEXT = "a socket's path has 1 to 104 bytes, none of them 0", "it is no UTF-8"
NO_NUMBER = "open-jobs wants a number from 0 to 1000000"
NO_CREDIT = "credit wants a number from 1 to 2147483647"
NAME_TWICE, PATH_TWICE, TOO_MANY = "the name is there already", "the path is there already", "256 tenants are there already"


class Words(Room):
    """What is told of words that name no tenant."""

    def check(self, wrong, why, *before):
        words = [part for word in (*before, wrong, "a=/later") for part in ("--tenant", word)]
        self.assertEqual(self.refused("--socket", self.path("all"), *words), f"error: --tenant {wrong}: {why}\n")

    def test_each_refusal(self):
        for word in ("", "alice", "/run/alice"):
            self.check(word, FORM)
        for name in ("", "Alice", "alice bob", "a.b", "é", "a" * 33, "a/b", "\t"):
            self.check(f"{name}={self.path('x')}", NAME)
        self.check("alice=", NO_PATH)
        self.check("Alice=", NAME)
        self.check(f"alice={self.path('y')}", NAME_TWICE, f"alice={self.path('x')}")
        self.check(f"bob={self.path('x')}", PATH_TWICE, f"alice={self.path('x')}")
        self.check(f"alice={self.path('x')}", NAME_TWICE, f"alice={self.path('x')}")
        self.check(f"bob={self.path('z')}=", PATH_TWICE, f"alice={self.path('z')}=")

    def test_the_first_wrong_one_is_told(self):
        self.check("B=/x", NAME, "a=/x", "b=/y")
        self.check("b=/x", PATH_TWICE, "a=/x")

    def test_too_many(self):
        tenants = [f"t{number}={self.path(str(number))}" for number in range(MOST)]
        self.check(f"one-more={self.path('more')}", TOO_MANY, *tenants)

    def test_with_a_socket_alone(self):
        """Beside a port there are no tenants, and neither is an endpoint by itself."""
        line = "error: serve takes tenants with --socket alone\n"
        neither = "error: serve needs --port <PORT> or --socket <PATH>\n"
        both = "error: serve takes --port or --socket, and not both\n"
        for words in (self.words("alice"), ["--tenants", self.path("none")], ["--tenant", "Wrong"]):
            self.assertEqual(self.refused("--port", "7", *words), line)
            self.assertEqual(self.refused(*words), neither)
            self.assertEqual(self.refused("--port", "7", "--socket", self.path("all"), *words), both)

    def test_a_limit_of_no_tenant(self):
        """A limit for each tenant goes with tenants alone."""
        line = "error: serve takes --tenant-jobs with --tenant or --tenants alone\n"
        for words in (["--port", "7"], ["--socket", self.path("all")], ["--socket", self.path("all"), "--open-jobs", "2"]):
            self.assertEqual(self.refused(*words, "--tenant-jobs", "1"), line)

    def test_values_that_clap_refuses(self):
        limits = [["--tenant", "a=/x", "--tenant-jobs", value] for value in ("0", "1000001", "x")]
        for words in (["--tenant"], ["--tenants"], ["--tenants", "a", "--tenants", "b"], *limits):
            self.assertTrue(self.refused("--socket", self.path("all"), *words).startswith("error: "), words)

    def test_help(self):
        ran = subprocess.run([BPFJOBS, "serve", "--help"], capture_output=True, timeout=PATIENCE, check=False)
        self.assertEqual((ran.returncode, ran.stderr), (0, b""))
        for option in (b"--tenant <NAME=PATH>", b"--tenants <FILE>", b"--tenant-jobs <COUNT>"):
            self.assertIn(option, ran.stdout)


class Lines(Room):
    """What is told of a file of tenants."""

    def check(self, text, number, why, *words):
        file = self.write(text)
        told_by = self.refused("--socket", self.path("all"), "--tenants", file, *words)
        self.assertEqual(told_by, f"error: {file}, line {number}: {why}\n")

    def test_each_refusal(self):
        for line in ("alice", "alice /x y", "alice # /x", "a /x b /y"):
            self.check(f"# tenants\n\n{line}\nB /y\n", 3, FORM)
        for rest in ("open-jobs 1 2", "open-jobs # 1", "open-jobs 1 x", "open-jobs x y", "jobs 1", "open-jobs=1", "Open-jobs 1", "1"):
            self.check(f"a /a\nb /b {rest}\n", 2, FORM)
        for rest in ("open-jobs", "open-jobs #", "open-jobs x", "open-jobs -1", "open-jobs +1", "open-jobs 1000001", "open-jobs 99999999999999999999"):
            self.check(f"a /a open-jobs 0\nb /b {rest}\n", 2, NO_NUMBER)
        for rest in ("credit 1 2", "credit 1 open-jobs 2", "Credit 1", "open-jobs 1 credit 1 x", "open-jobs x credit 1 x"):
            self.check(f"a /a credit 1\nb /b {rest}\n", 2, FORM)
        for rest in ("credit", "credit #", "credit 0", "credit -1", "credit 2147483648", "credit 99999999999999999999", "open-jobs 1 credit x"):
            self.check(f"a /a open-jobs 0 credit 1\nb /b {rest}\n", 2, NO_CREDIT)
        self.check("a /a open-jobs x credit x\n", 1, NO_NUMBER)
        for line in ("Alice /x", "a" * 33 + " /x", "a.b /x", "=a /x", "é /x", "alice=/x /y"):
            self.check(f"a /a\n{line}", 2, NAME)
        self.check("a /a\n\nb /b\na /c\n", 4, NAME_TWICE)
        self.check("a /a\nb\t/b\r\n\r\nc /b\n", 4, PATH_TWICE)
        self.check(b"a /a\nb /\xff\n", 2, NO_TEXT)
        self.check(b"\xffa /a\n", 1, NO_TEXT)
        self.check("a /a\nb /\x00\x00\nb /b", 2, NO_PATH)

    def test_too_many(self):
        lines = [f"t{number} {self.path(str(number))}" for number in range(MOST)]
        self.check("\n".join([*lines, "more /more"]), MOST + 1, TOO_MANY)
        words = [word for line in lines for word in ("--tenant", line.replace(" ", "="))]
        self.check("# none\nmore /more\n", 2, TOO_MANY, *words)

    def test_beside_words(self):
        """The tenants of the words are ahead of the file's."""
        self.check("bob /x\nalice /y\n", 2, NAME_TWICE, "--tenant", "alice=/z")
        self.check("bob /z\n", 1, PATH_TWICE, "--tenant", "alice=/z")
        words = ("--socket", self.path("all"), "--tenant", "B=/x", "--tenants", self.write("wrong"))
        self.assertEqual(self.refused(*words), f"error: --tenant B=/x: {NAME}\n")

    def test_a_file_that_is_not_read(self):
        for name in (self.path("none"), self.room):
            line = self.refused("--socket", self.path("all"), "--tenants", name, status=3)
            self.assertTrue(line.startswith(f"bpfjobs: {name}: ") and line.count("\n") == 1, line)

    def test_blanks_and_comments(self):
        """Each of these is a tenant, or nothing."""
        lines = ["", "# a comment", " \t\r", "  #", f"a {self.path('a')}", f"\tb\t {self.path('b')} \r", f"c {self.path('c')} # one", f"d {self.path('d#')}#"]
        process = self.start("--sessions", 4, "--tenants", self.write("\n".join(lines)))
        for tenant, name in (("a", "a"), ("b", "b"), ("c", "c"), ("d", "d##")):
            with self.connect(process, name) as client:
                self.assertEqual(client.ask(account(tenant)), NO_TENANT)
        self.assertEqual(process.wait(PATIENCE), 0)
        self.assertEqual(self.names(), ["tenants"])

    def test_a_file_with_no_tenant(self):
        """It is a server as any: jobs of all count together."""
        for text in ("", "# nobody\n"):
            process = self.start("--sessions", 1, "--tenants", self.write(text))
            with self.connect(process) as client:
                for number, tenant in enumerate(("a", "b"), 1):
                    self.assertEqual(client.ask(grant(tenant)), told(1000, 1000))
                    self.assertEqual(client.ask(submit(tenant)), {"job": number, "ok": True})
            self.assertEqual(process.wait(PATIENCE), 0)


class Doors(Room):
    """What is told at a tenant's socket, and at the others."""

    def serve(self, *tenants, more=("--grants",), sessions=1000, clients=16):
        words = [word for option in more for word in (option, self.path("grants"))]
        return self.start("--clients", clients, "--sessions", sessions, "--workers", 2, *words, *self.words(*tenants))

    def test_another_s_name_is_nobody_s(self):
        """Byte for byte, whether that tenant was granted credit, has a door, or isn't there."""
        process = self.serve("alice", "bob")
        alice, granter = self.connect(process, "alice"), self.connect(process, "grants")
        for tenant in ("alice", "bob", "carol"):
            self.assertEqual(granter.ask(grant(tenant)), told(1000, 1000))
        for tenant in ("bob", "carol", "nobody"):
            self.assertEqual(alice.told(account(tenant)), alice.told(account("x")))
            self.assertEqual(alice.told(submit(tenant)), alice.told(submit("x")))
            self.assertEqual((alice.ask(account(tenant)), alice.ask(submit(tenant))), (NO_TENANT, NO_TENANT))
        self.assertEqual(alice.ask(account("alice")), told(1000, 1000))

    def test_a_name_that_is_left_out(self):
        """At a tenant's own socket it is that tenant's. A name that is there is read as ever, and so is every name at the other sockets."""
        process = self.serve("alice", "bob")
        granter, everybody = self.connect(process, "grants"), self.connect(process)
        doors = {tenant: self.connect(process, tenant) for tenant in ("alice", "bob")}
        for amount, tenant in ((1000, "alice"), (2000, "bob")):
            granter.ask(grant(tenant, amount))
        unnamed = [{"op": "account"}, unnamed_submit(), {"op": "grant", "amount": 5}]
        for tenant, granted in (("alice", 1000), ("bob", 2000)):
            client = doors[tenant]
            self.assertEqual(client.told({"op": "account"}), client.told(account(tenant)))
            self.assertEqual(client.ask({"op": "account"}), told(granted, granted))
            self.assertEqual(client.ask(unnamed_submit(buffer=b"of " + tenant.encode())), {"job": 1, "ok": True})
            self.assertEqual(client.ask(submit(tenant)), {"job": 2, "ok": True})
            for number in (1, 2):
                client.over(number)
            self.assertEqual(json.loads(client.over(1))["buffer"], (b"of " + tenant.encode()).hex())
            self.assertEqual(client.ask(account(tenant)), told(granted - 6, granted, 6))
            self.assertEqual(client.ask({"op": "account"}), told(granted - 6, granted, 6))
            self.assertEqual(client.ask(unnamed[2]), NO_REQUEST)
        for other in ("bob", "carol", "x"):
            self.assertEqual((doors["alice"].ask(account(other)), doors["alice"].ask(submit(other))), (NO_TENANT, NO_TENANT))
        for client in (granter, everybody):
            for request in unnamed:
                self.assertEqual(client.ask(request), NO_REQUEST)

    def test_a_name_that_is_none(self):
        """It isn't one that is left out."""
        process = self.serve("alice")
        granter, alice = self.connect(process, "grants"), self.connect(process, "alice")
        granter.ask(grant("alice"))
        for name in ("", None, 7, [], {}, "Alice", "a" * 33):
            for request in ({"op": "account"}, json.loads(unnamed_submit())):
                self.assertEqual(alice.ask({**request, "tenant": name}), NO_REQUEST)
        self.assertEqual(alice.ask({"op": "account"}), told(1000, 1000))

    def test_a_name_left_out_ahead_of_any_grant(self):
        """It is told as that tenant's own name is."""
        process = self.serve("alice")
        alice = self.connect(process, "alice")
        self.assertEqual((alice.ask({"op": "account"}), alice.ask(unnamed_submit())), (NO_TENANT, NO_TENANT))
        self.assertEqual(alice.told(unnamed_submit()), alice.told(submit("alice")))

    def test_a_grant_by_a_door(self):
        process = self.serve("alice", "bob")
        alice, granter = self.connect(process, "alice"), self.connect(process, "grants")
        for tenant in ("alice", "bob", "nobody"):
            self.assertEqual(alice.ask(grant(tenant)), NO_REQUEST)
            self.assertEqual(granter.ask(account(tenant)), NO_TENANT)

    def test_doors_take_no_grant_without_a_socket_for_grants(self):
        """There the socket for all takes them, and no tenant's does."""
        process = self.serve("alice", more=())
        alice, everybody = self.connect(process, "alice"), self.connect(process)
        self.assertEqual(alice.ask(grant("alice")), NO_REQUEST)
        self.assertEqual(everybody.ask(grant("alice")), told(1000, 1000))
        self.assertEqual(everybody.ask(account("alice")), told(1000, 1000))
        self.assertEqual(everybody.ask(submit("alice")), NO_TENANT)
        self.assertEqual(alice.ask(account("alice")), told(1000, 1000))

    def test_numbers_of_jobs(self):
        """Those of each tenant count from 1, and none is another's."""
        process = self.serve("alice", "bob", "carol")
        granter, everybody = self.connect(process, "grants"), self.connect(process)
        doors = {tenant: self.connect(process, tenant) for tenant in ("alice", "bob", "carol")}
        for tenant in (*doors, "dave"):
            granter.ask(grant(tenant))
        for number in (1, 2, 3):
            self.assertEqual(doors["alice"].ask(submit("alice", buffer=b"of alice")), {"job": number, "ok": True})
        self.assertEqual(doors["bob"].ask(submit("bob", credit=4, buffer=b"of bob")), {"job": 1, "ok": True})
        self.assertEqual(everybody.ask(submit("dave", credit=5)), {"job": 1, "ok": True})
        wanted = {"alice": (3, b"of alice"), "bob": (4, b"of bob")}
        for tenant, (credit, buffer) in wanted.items():
            reply = json.loads(doors[tenant].over(1))
            self.assertEqual((reply["buffer"], reply["returned"], reply["spent"]), (buffer.hex(), credit - 3, 3))
        self.assertEqual(json.loads(everybody.over(1))["returned"], 2)
        # another's numbers, also as the pool has them, are nobody's
        for tenant, numbers in (("alice", (0, 4, 1001, 2000, 2002)), ("bob", (0, 2, 3, 1000, 1001, 1002)), ("carol", (1, 2, 3, 1003, 2001, 2**64 - 1))):
            for number in numbers:
                for op in ("status", "result"):
                    self.assertEqual(doors[tenant].ask({"op": op, "job": number}), NO_JOB, (tenant, op, number))
        for number in (2, 3, 1001, 1002, 2001):
            self.assertEqual(everybody.ask({"op": "result", "job": number}), NO_JOB)

    def test_the_socket_for_grants(self):
        """It grants to each tenant by name and tells each account. It submits in no name of a door."""
        process = self.serve("alice", "bob")
        granter, bob = self.connect(process, "grants"), self.connect(process, "bob")
        for amount, tenant in enumerate(("alice", "bob", "carol"), 1):
            self.assertEqual(granter.ask(grant(tenant, amount)), told(amount, amount))
            self.assertEqual(granter.ask(account(tenant)), told(amount, amount))
        for tenant in ("alice", "bob"):
            self.assertEqual(granter.told(submit(tenant)), granter.told(submit("nobody")))
        self.assertEqual(granter.ask(submit("carol")), {"job": 1, "ok": True})
        self.assertEqual(bob.ask(account("bob")), told(2, 2))
        self.assertEqual(bob.ask(submit("bob")), {"code": 75, "ok": False})

    def test_the_socket_for_all(self):
        """It knows no tenant that has a door, and is as ever for those that have none."""
        process = self.serve("alice")
        granter, everybody = self.connect(process, "grants"), self.connect(process)
        for tenant in ("alice", "carol"):
            granter.ask(grant(tenant))
        self.assertEqual(everybody.told(account("alice")), everybody.told(account("nobody")))
        self.assertEqual(everybody.told(submit("alice")), everybody.told(submit("nobody")))
        self.assertEqual(everybody.ask(grant("carol")), NO_REQUEST)
        self.assertEqual(everybody.ask(submit("carol")), {"job": 1, "ok": True})
        everybody.over(1)
        self.assertEqual(everybody.ask(account("carol")), told(997, 1000, 3))

    def test_each_path_is_its_tenant_s(self):
        """No two are exchanged, in words and in a file, whatever their order."""
        names = ["c", "a", "b", "e", "d"]
        file = self.write("".join(f"{name} {self.path(name)}\n" for name in names[2:]))
        process = self.start("--clients", 16, "--sessions", 1000, "--grants", self.path("grants"), *self.words(*names[:2]), "--tenants", file)
        granter = self.connect(process, "grants")
        for amount, name in enumerate(names, 1):
            self.assertEqual(granter.ask(grant(name, amount)), told(amount, amount))
        for amount, name in enumerate(names, 1):
            with self.connect(process, name) as client:
                self.assertEqual(client.ask(account(name)), told(amount, amount))
                others = [client.ask(account(other)) for other in names if other != name]
                self.assertEqual(others, [NO_TENANT] * 4)

    def test_256_tenants(self):
        names = [f"t{number}" for number in range(MOST)]
        process = self.serve(*names)
        granter = self.connect(process, "grants")
        for name in (names[0], names[127], names[255]):
            granter.ask(grant(name))
            with self.connect(process, name) as client:
                self.assertEqual(client.ask(submit(name)), {"job": 1, "ok": True})
                client.over(1)
                self.assertEqual(client.ask(account(name)), told(997, 1000, 3))

    def test_what_is_kept_is_each_tenant_s_own(self):
        """A tenant's reports are forgotten behind its own jobs alone."""
        process = self.start("--clients", 8, "--sessions", 100, "--keep", 1, "--grants", self.path("grants"), *self.words("alice", "bob"))
        granter, alice, bob = (self.connect(process, name) for name in ("grants", "alice", "bob"))
        for tenant in ("alice", "bob"):
            granter.ask(grant(tenant))
        alice.ask(submit("alice"))
        alice.over(1)
        for number in range(1, 6):
            bob.ask(submit("bob"))
            bob.over(number)
        self.assertEqual(bob.ask({"op": "result", "job": 4}), NO_JOB)
        self.assertEqual(json.loads(alice.over(1))["spent"], 3)


class Listings(Room):
    """Which jobs a tenant is told at its own socket."""

    OPEN, OVER = {"state": "open"}, {"state": "over"}

    def serve(self, *tenants, more=()):
        return self.start("--clients", 8, "--sessions", 100, "--workers", 1, "--grants", self.path("grants"), *more, *self.words(*tenants))

    def begin(self, *tenants, more=(), amount=1_000_000):
        """A connection by each tenant's socket, where it was granted this."""
        process = self.serve(*tenants, more=more)
        granter = self.connect(process, "grants")
        for tenant in tenants:
            granter.ask(grant(tenant, amount))
        return process, [self.connect(process, tenant) for tenant in tenants]

    def check(self, client, count, jobs, **more):
        listed = [{**state, "job": job} for job, state in jobs]
        self.assertEqual(client.ask({"op": "jobs", **more}), {"count": count, "jobs": listed, "ok": True})

    def test_no_job(self):
        _, (alice,) = self.begin("alice")
        self.assertEqual(alice.told({"op": "jobs"}), b'{"count":0,"jobs":[],"ok":true}')
        self.check(alice, 0, [], **{"from": 2**64 - 1})

    def test_each_state(self):
        """Byte for byte: a job that is over, one that failed, and one that is open."""
        _, (alice,) = self.begin("alice", more=("--tenant-jobs", 1), amount=2_000_000_000)
        alice.ask(unnamed_submit())
        alice.over(1)
        programs, credit = long_job()
        for number in (2, 3):
            self.assertEqual(alice.ask(submit_text(programs, credit, b"", tenant="alice")), {"job": number, "ok": True})
        wanted = b'{"count":3,"jobs":[{"job":1,"state":"over"},{"job":2,"state":"open"},{"code":81,"job":3,"state":"failed"}],"ok":true}'
        self.assertEqual(alice.told({"op": "jobs"}), wanted)

    def test_from_a_number_on(self):
        _, (alice,) = self.begin("alice")
        for number in range(1, 6):
            alice.ask(unnamed_submit())
            alice.over(number)
        for first in (1, 2, 5, 6, 2**64 - 1):
            self.check(alice, 5, [(number, self.OVER) for number in range(first, 6)], **{"from": first})
        self.check(alice, 5, [(number, self.OVER) for number in range(1, 6)])

    def test_what_is_no_number(self):
        """It is no request, and so is a listing of another form."""
        _, (alice,) = self.begin("alice")
        for first in (0, -1, 1.5, "1", None, [], 2**64):
            self.assertEqual(alice.ask({"op": "jobs", "from": first}), NO_REQUEST)
        for request in ({"op": "Jobs"}, {"op": "job"}, {"op": ["jobs"]}, {"jobs": 1}):
            self.assertEqual(alice.ask(request), NO_REQUEST)
        self.check(alice, 0, [], tenant="bob", other=7)

    def test_a_thousand_at_once(self):
        """And the others from the next number on."""
        _, (alice,) = self.begin("alice")
        for number in range(1, 1003):
            self.assertEqual(alice.ask(unnamed_submit()), {"job": number, "ok": True})
        for number in range(1, 1003):
            alice.over(number)
        self.check(alice, 1002, [(number, self.OVER) for number in range(1, 1001)])
        self.check(alice, 1002, [(number, self.OVER) for number in range(2, 1002)], **{"from": 2})
        self.check(alice, 1002, [(1001, self.OVER), (1002, self.OVER)], **{"from": 1001})

    def test_forgotten_jobs(self):
        """They are left out, and counted."""
        _, (alice,) = self.begin("alice", more=("--keep", 2))
        for number in range(1, 6):
            alice.ask(unnamed_submit())
            alice.over(number)
        self.check(alice, 5, [(4, self.OVER), (5, self.OVER)])
        self.check(alice, 5, [(5, self.OVER)], **{"from": 5})

    def test_another_s_jobs(self):
        """None of them is told."""
        _, (alice, bob) = self.begin("alice", "bob")
        for number in range(1, 4):
            bob.ask(unnamed_submit())
            bob.over(number)
        alice.ask(unnamed_submit())
        alice.over(1)
        self.check(alice, 1, [(1, self.OVER)])
        self.check(bob, 3, [(number, self.OVER) for number in range(1, 4)])

    def test_it_sees_a_job_end(self):
        """With no other request between."""
        _, (alice,) = self.begin("alice")
        alice.ask(unnamed_submit())
        is_listed = [{"job": 1, "state": "open"}]
        wait_for(lambda: alice.ask({"op": "jobs"})["jobs"] != is_listed, "a job's end")
        self.check(alice, 1, [(1, self.OVER)])

    def test_at_the_other_sockets(self):
        """A listing is no request there."""
        process, _ = self.begin("alice")
        for name in ("all", "grants"):
            client = self.connect(process, name)
            for request in ({"op": "jobs"}, {"op": "jobs", "from": 1}, {"op": "jobs", "tenant": "alice"}):
                self.assertEqual(client.told(request), client.told({"op": "x"}))
                self.assertEqual(client.ask(request), NO_REQUEST)


def keyed_submit(key, credit=3, buffer=b"", rest=""):
    """A request for a job that has a key."""
    return '{"op":"submit","key":' + json.dumps(key) + "," + rest + job_text([(0, ADD)], credit, buffer)[1:]


class Keys(Room):
    """Submits that have a key, by which a lost reply can be asked for."""

    serve, begin, check = Listings.serve, Listings.begin, Listings.check

    def taken(self, client, request, number):
        self.assertEqual(client.ask(request), {"job": number, "ok": True})

    def test_the_same_key_again(self):
        """It is told the same number, and starts nothing."""
        process, (alice,) = self.begin("alice")
        self.taken(alice, keyed_submit("a"), 1)
        before = alice.told(keyed_submit("a"))
        self.assertEqual(before, b'{"job":1,"ok":true}')
        self.taken(alice, keyed_submit("b"), 2)
        alice.over(2)
        for key, number in (("a", 1), ("b", 2), ("a", 1)):
            self.taken(alice, keyed_submit(key), number)
        self.taken(self.connect(process, "alice"), keyed_submit("b"), 2)
        self.assertEqual(alice.ask({"op": "jobs"})["count"], 2)

    def test_whatever_else_it_asks(self):
        """The key alone is looked at, once it has a job."""
        _, (alice,) = self.begin("alice")
        self.taken(alice, keyed_submit("a"), 1)
        self.taken(alice, keyed_submit("a", credit=5, buffer=b"x"), 1)
        self.taken(alice, {"op": "submit", "key": "a"}, 1)
        self.assertEqual(alice.ask({"op": "submit", "key": "b"}), NO_REQUEST)
        self.taken(alice, keyed_submit("b"), 2)

    def test_what_is_no_key(self):
        """It is no request, and nothing is submitted."""
        _, (alice,) = self.begin("alice")
        for key in ("", "A", "a b", "a.b", "ä", "a" * 65, 7, 1.5, None, True, [], ["a"], {}):
            self.assertEqual(alice.ask(keyed_submit(key)), NO_REQUEST, key)
        self.check(alice, 0, [])
        for number, key in enumerate(("a" * 64, "0", "_", "-", "a-b_9"), 1):
            self.taken(alice, keyed_submit(key), number)

    def test_a_refused_submit(self):
        """Its key has no job, and may have one later."""
        _, (alice,) = self.begin("alice", amount=10)
        self.assertEqual(alice.ask(keyed_submit("a", credit=11)), {"code": 75, "ok": False})
        self.assertEqual(alice.ask(keyed_submit("a", rest='"tenant":"bob",')), NO_TENANT)
        self.taken(alice, keyed_submit("a"), 1)
        self.taken(alice, keyed_submit("a", credit=11), 1)

    def test_each_door_has_keys_of_its_own(self):
        process, (alice, bob) = self.begin("alice", "bob")
        self.taken(alice, keyed_submit("a"), 1)
        self.taken(alice, keyed_submit("b", rest='"tenant":"alice",'), 2)
        self.taken(bob, keyed_submit("b"), 1)
        self.taken(bob, keyed_submit("a"), 2)
        self.taken(alice, keyed_submit("a"), 1)
        granter, everybody = self.connect(process, "grants"), self.connect(process)
        granter.ask(grant("eve"))
        for number, key in enumerate(("a", "a", "", 7, None), 1):
            self.taken(everybody, keyed_submit(key, rest='"tenant":"eve",'), number)

    def test_in_a_listing(self):
        """Byte for byte, of jobs in each state and of one without a key."""
        _, (alice,) = self.begin("alice", more=("--tenant-jobs", 1), amount=2_000_000_000)
        self.taken(alice, keyed_submit("first"), 1)
        alice.over(1)
        programs, credit = long_job()
        long = submit_text(programs, credit, b"", tenant="alice")
        for number, key in ((2, "b"), (3, "0-_")):
            self.taken(alice, '{"key":"' + key + '",' + long[1:], number)
        self.taken(alice, long, 4)
        wanted = (
            b'{"count":4,"jobs":[{"job":1,"key":"first","state":"over"},{"job":2,"key":"b","state":"open"},'
            b'{"code":81,"job":3,"key":"0-_","state":"failed"},{"code":81,"job":4,"state":"failed"}],"ok":true}'
        )
        self.assertEqual(alice.told({"op": "jobs"}), wanted)

    def test_the_last_thousand(self):
        """A key that is older has no job any more."""
        _, (alice,) = self.begin("alice")
        for number in range(1, 1002):
            self.taken(alice, keyed_submit(f"k{number}"), number)
        for number in (2, 3, 500, 1001):
            self.taken(alice, keyed_submit(f"k{number}"), number)
        self.taken(alice, keyed_submit("k1"), 1002)
        self.taken(alice, keyed_submit("k3"), 3)
        self.taken(alice, keyed_submit("k2"), 1003)
        self.taken(alice, unnamed_submit(), 1004)
        alice.over(1004)
        listed = alice.ask({"op": "jobs"})["jobs"] + alice.ask({"op": "jobs", "from": 1001})["jobs"]
        keys = {job["job"]: job.get("key") for job in listed}
        wanted = {number: f"k{number}" for number in range(4, 1002)}
        self.assertEqual(keys, {1: None, 2: None, 3: None, **wanted, 1002: "k1", 1003: "k2", 1004: None})

    def test_beside_other_requests(self):
        """A key that isn't one of a submit isn't looked at."""
        _, (alice,) = self.begin("alice")
        self.assertEqual(alice.ask({"op": "account", "key": 7}), alice.ask({"op": "account"}))
        self.check(alice, 0, [], key=[])


class OpenJobs(Room):
    """How many jobs each tenant may have open."""

    TOO_MANY = b'{"code":81,"ok":false}'

    def begin(self, *words, long=None):
        """A server of alice and bob, each with credit for long jobs, and a connection to each socket."""
        self.process = self.start("--clients", 8, "--sessions", 100, "--workers", 2, "--grants", self.path("grants"), *words)
        granter, *others = (self.connect(self.process, name) for name in ("grants", "alice", "bob", "all"))
        self.programs, self.credit = long or long_job()
        for tenant in ("alice", "bob", "carol"):
            granter.ask(grant(tenant, 2 * self.credit + 1000))
        return others

    def submit_long(self, client, tenant, job):
        self.assertEqual(client.ask(submit_text(self.programs, self.credit, b"", tenant=tenant)), {"job": job, "ok": True})

    def check_full(self, client, tenant, job):
        """One more is taken, and fails by 81. Its credit is back."""
        before = client.ask(account(tenant))
        self.assertEqual(client.ask(submit(tenant)), {"job": job, "ok": True})
        self.assertEqual(client.told({"op": "result", "job": job}), self.TOO_MANY)
        after = client.ask(account(tenant))
        self.assertEqual((after["balance"], after["open"]), (before["balance"], before["open"]))

    def check_room(self, client, tenant, job):
        """One more is taken, and runs, or waits for a worker."""
        self.assertEqual(client.ask(submit(tenant)), {"job": job, "ok": True})
        reply = client.ask({"op": "result", "job": job})
        self.assertTrue(reply == {"code": 77, "ok": False} or reply.get("spent") == 3, reply)

    def test_a_tenant_over_its_limit_holds_up_no_other(self):
        alice, bob, everybody = self.begin("--tenant-jobs", 1, *self.words("alice", "bob"))
        self.submit_long(alice, "alice", 1)
        self.check_full(alice, "alice", 2)
        # another's is taken beside it, and everybody else's
        self.check_room(bob, "bob", 1)
        self.check_room(everybody, "carol", 1)

    def test_a_job_that_is_over_counts_no_more(self):
        def check(*long):
            alice, *_ = self.begin("--tenant-jobs", 1, *self.words("alice", "bob"), long=long)
            self.submit_long(alice, "alice", 1)
            self.assertEqual(alice.ask(submit("alice")), {"job": 2, "ok": True})
            was_open = is_open(alice, 1)
            if was_open:
                self.assertEqual(alice.told({"op": "result", "job": 2}), self.TOO_MANY)
                self.assertTrue(json.loads(alice.over(1))["ok"])
                self.check_room(alice, "alice", 3)
            self.process.kill()
            self.process.wait()
            return was_open

        beside_a_long_job(check)

    def test_everybody_else_counts_as_one(self):
        alice, _, everybody = self.begin("--tenant-jobs", 1, *self.words("alice", "bob"))
        self.submit_long(everybody, "carol", 1)
        self.check_full(everybody, "carol", 2)
        self.check_room(alice, "alice", 1)

    def test_a_line_has_its_tenant_s_own(self):
        lines = f"alice {self.path('alice')} open-jobs 2 # of her own\nbob {self.path('bob')}\n"
        alice, bob, _ = self.begin("--tenant-jobs", 1, "--tenants", self.write(lines))
        self.submit_long(alice, "alice", 1)
        self.submit_long(alice, "alice", 2)
        self.check_full(alice, "alice", 3)
        self.check_room(bob, "bob", 1)

    def test_a_line_may_allow_any_number(self):
        lines = f"alice {self.path('alice')}\topen-jobs\t0\nbob {self.path('bob')}\n"
        alice, bob, _ = self.begin("--tenant-jobs", 1, "--tenants", self.write(lines))
        self.submit_long(alice, "alice", 1)
        for job in (2, 3):
            self.check_room(alice, "alice", job)
        self.check_room(bob, "bob", 1)


class Credit(Room):
    """Credit that a file's line grants at first."""

    def test_each_tenant_begins_with_its_own(self):
        lines = [f"alice {self.path('alice')} credit 100", f"bob {self.path('bob')} open-jobs 2 credit 2147483647 # most", f"carol {self.path('carol')}"]
        process = self.start("--grants", self.path("grants"), "--sessions", 5, "--clients", 5, "--tenants", self.write("\n".join(lines)))
        clients = {name: self.connect(process, name) for name in ("alice", "bob", "carol", "grants")}
        for name, granted in (("alice", 100), ("bob", 2147483647)):
            for asked_by in (name, "grants"):
                told = clients[asked_by].ask(account(name))
                self.assertEqual((told["granted"], told["balance"], told["open"], told["spent"]), (granted, granted, 0, 0), asked_by)
        self.assertEqual(clients["carol"].ask(account("carol"))["code"], 74)
        self.assertEqual(clients["alice"].ask(submit("alice", credit=101))["code"], 75)
        self.assertEqual(clients["alice"].ask(submit("alice", credit=3))["job"], 1)
        self.assertEqual(clients["grants"].ask(grant("alice", 5))["granted"], 105)
        self.assertEqual(clients["grants"].ask(grant("carol", 5))["granted"], 5)

    def test_without_a_socket_for_grants(self):
        """Nobody else is granted anything by it."""
        process = self.start("--sessions", 2, "--clients", 2, "--tenants", self.write(f"alice {self.path('alice')} credit 7\n"))
        everybody, alice = self.connect(process), self.connect(process, "alice")
        self.assertEqual(everybody.ask(account("bob"))["code"], 74)
        self.assertEqual(alice.ask(account("alice"))["balance"], 7)


class Together(Room):
    """Tenants at once."""

    def serve(self, *words):
        return self.start("--clients", 32, "--sessions", 100_000, "--workers", 2, "--grants", self.path("grants"), *words)

    def work(self, process, tenant, seed, wrong):
        """Submits jobs, whose results are those of the model under numbers from 1 on."""
        planter = Planter(seed, assemble)
        trees = [planter.tree() for _ in range(20)]
        with self.connect(process, "grants") as granter:
            granter.ask(grant(tenant, sum(tree.credit for tree in trees)))
        with self.connect(process, tenant) as client:
            for number, tree in enumerate(trees, 1):
                reply = client.ask(submit_text(tree.programs, tree.credit, tree.buffer, tenant=tenant))
                if reply != {"job": number, "ok": True}:
                    wrong.append((tenant, number, reply))
            for number, tree in enumerate(trees, 1):
                if comparable(json.loads(client.over(number))) != tree.report():
                    wrong.append((tenant, number, "another result"))
            spent = sum(tree.report()["spent"] for tree in trees)
            granted = sum(tree.credit for tree in trees)
            if client.ask(account(tenant)) != told(granted - spent, granted, spent):
                wrong.append((tenant, "the account"))

    def test_results_of_the_model(self):
        process, wrong = self.serve(*self.words("alice", "bob")), []
        with Clients(self.work, *((process, tenant, seed, wrong) for seed, tenant in enumerate(("alice", "bob")))):
            pass
        self.assertEqual(wrong, [])

    def dialog(self, client):
        """What an honest tenant asks, and what it is told, byte for byte."""
        replies = []
        for number in range(1, 1 + (30)):
            buffer = random.Random(number).randbytes(8)
            for request in (account("alice"), submit("alice", 3 + number, buffer)):
                replies.append(client.told(request))
            replies.append(client.over(number))
            for request in ({"op": "status", "job": number}, submit("alice", 10**6), grant("alice"), "no JSON", {"op": "result", "job": number + 1}):
                replies.append(client.told(request))
        return replies

    def disturb(self, process, done):
        """Another tenant's client, which submits, asks for numbers of all, and cuts its connections."""
        number = 0
        while not done.is_set() or not number:
            with self.connect(process, "mallory") as client:
                for _ in range(20):
                    number += 1
                    client.told(submit("mallory", 3, b"mallory"))
                    client.told(submit("alice", 3, b"mallory"))
                    for job in (1, number, 1000 + number, 2000 + number):
                        client.told({"op": "result", "job": job})
                client.stream.sendall(frame(submit("mallory"))[:40])

    def test_an_honest_tenant_is_told_what_a_server_of_its_own_tells(self):
        alone = self.start("--sessions", 2, "--clients", 2, "--grants", self.path("grants"))
        with self.connect(alone, "grants") as granter, self.connect(alone) as client:
            granter.ask(grant("alice", 10_000))
            wanted = self.dialog(client)
        self.assertEqual(alone.wait(PATIENCE), 0)
        process, done = self.serve(*self.words("mallory", "alice")), threading.Event()
        with self.connect(process, "grants") as granter:
            for tenant in ("alice", "mallory"):
                granter.ask(grant(tenant, 10_000))
        with Clients(self.disturb, *[(process, done)] * 3):
            try:
                with self.connect(process, "alice") as client:
                    told_beside = self.dialog(client)
            finally:
                done.set()
        self.assertEqual(told_beside, wanted)
        with self.connect(process, "grants") as granter:
            self.assertGreater(granter.ask(account("mallory"))["spent"], 0)

    def test_no_socket_waits_for_another(self):
        """Where clients keep coming by one socket, each of the others is heard."""
        process, done = self.serve(*self.words("alice", "bob")), threading.Event()

        def come():
            while not done.is_set():
                with self.connect(process, "bob") as client:
                    # a connection over the socket's share is closed
                    with contextlib.suppress(ValueError, OSError):
                        client.told(account("bob"))

        with Clients(come, *[()] * 8):
            try:
                for _ in range(20):
                    for name in ("alice", "grants", "all"):
                        with self.connect(process, name) as client:
                            self.assertEqual(client.ask(account("alice")), NO_TENANT)
            finally:
                done.set()


class Shares(Room):
    """Each socket has a share of the places, where there are two at least for each."""

    def is_served(self, process, name):
        with self.connect(process, name) as client, contextlib.suppress(ValueError, OSError):
            return client.ask(account("x")) == NO_TENANT
        return False

    def test_a_socket_has_no_more_than_its_share(self):
        """Nine places for four sockets: two for each."""
        process = self.start("--clients", 9, "--grants", self.path("grants"), *self.words("alice", "bob"))
        held = [self.connect(process, "alice") for _ in range(2)]
        for client in held:
            self.assertEqual(client.ask(account("x")), NO_TENANT)
        for _ in range(10):
            self.assertFalse(self.is_served(process, "alice"))
            for name in ("bob", "grants", "all"):
                # its last connection may hold a place for a moment
                wait_for(lambda: self.is_served(process, name), "a place of another socket")
        held.pop().stream.close()
        wait_for(lambda: self.is_served(process, "alice"), "room for a connection more")
        self.assertEqual(held[0].ask(account("x")), NO_TENANT)

    def test_a_connection_over_a_share_uses_up_no_session(self):
        process = self.start("--clients", 9, "--sessions", 4, "--grants", self.path("grants"), *self.words("alice", "bob"))
        held = [self.connect(process, "alice") for _ in range(2)]
        for client in held:
            self.assertEqual(client.ask(account("x")), NO_TENANT)
        for _ in range(10):
            self.assertFalse(self.is_served(process, "alice"))
        held += [self.connect(process, name) for name in ("bob", "all")]
        for client in held:
            self.assertEqual(client.ask(account("x")), NO_TENANT)
            client.stream.close()
        self.assertEqual(process.wait(PATIENCE), 0)

    def test_a_socket_may_have_all_places_where_they_are_few(self):
        process = self.start("--clients", 7, "--grants", self.path("grants"), *self.words("alice", "bob"))
        held = [self.connect(process, "alice") for _ in range(6)]
        for client in held:
            self.assertEqual(client.ask(account("x")), NO_TENANT)

    def test_a_server_without_tenants_has_no_shares(self):
        process = self.start("--clients", 4, "--grants", self.path("grants"))
        held = [self.connect(process) for _ in range(4)]
        for client in held:
            self.assertEqual(client.ask(account("x")), NO_TENANT)


class Ends(Room):
    """How a server with tenants starts and stops, and what it leaves in the file system."""

    def test_all_sockets_are_removed(self):
        process = self.start("--sessions", 4, "--clients", 4, "--grants", self.path("grants"), *self.words("alice", "bob"))
        names = ["alice", "all", "bob", "grants"]
        clients = [self.connect(process, name) for name in names]
        self.assertEqual(self.names(), names)
        for client in clients:
            self.assertEqual(client.ask(account("x")), NO_TENANT)
            client.stream.close()
        self.assertEqual(process.wait(PATIENCE), 0)
        self.assertEqual(self.names(), [])

    def test_sessions_count_over_all_sockets(self):
        process = self.start("--sessions", 3, *self.words("alice", "bob"))
        for name in ("bob", "all", "alice"):
            self.assertIsNone(process.poll())
            with self.connect(process, name) as client:
                self.assertEqual(client.ask(account("x")), NO_TENANT)
        self.assertEqual(process.wait(PATIENCE), 0)

    def test_it_ends_with_its_input(self):
        words = ("--clients", 4, "--until-eof", "--grants", self.path("grants"), *self.words("alice", "bob"))
        process = self.start(*words, stdin=subprocess.PIPE)
        clients = [self.connect(process, name) for name in ("alice", "bob", "grants")]
        for client in clients:
            self.assertEqual(client.ask(account("x")), NO_TENANT)
        process.stdin.close()
        for client in clients:
            self.assertEqual(client.stream.recv(1), b"")
        self.assertEqual(process.wait(PATIENCE), 0)
        self.assertEqual(self.names(), [])

    def test_what_is_no_socket_refuses_the_start(self):
        """The file stays, and the sockets ahead of it are gone."""
        self.write("kept", "bob")
        for words in (self.words("alice", "bob"), self.words("bob", "alice"), ["--grants", self.path("grants"), *self.words("alice", "carol", "bob")]):
            self.assertEqual(self.start(*words).wait(PATIENCE), 3)
            self.assertEqual(self.names(), ["bob"])
        with open(self.path("bob"), encoding="utf-8") as file:
            self.assertEqual(file.read(), "kept")
        os.unlink(self.path("bob"))
        os.mkdir(self.path("bob"))
        self.assertEqual(self.start(*self.words("alice", "bob")).wait(PATIENCE), 3)
        self.assertEqual(self.names(), ["bob"])

    def test_a_path_that_can_t_be_made(self):
        for name, status in (("none/alice", 3), ("x" * 120, 2)):
            self.assertEqual(self.start("--tenant", f"alice={self.path(name)}", *self.words("bob")).wait(PATIENCE), status)
            self.assertEqual(self.names(), [])

    def test_a_path_of_the_server_s_own(self):
        """The socket for all, or for grants, is no tenant's too."""
        for name in ("all", "grants"):
            words = ("--grants", self.path("grants"), "--tenant", f"alice={self.path(name)}")
            self.assertEqual(self.start(*words).wait(PATIENCE), 2)
            self.assertEqual(self.names(), [])

    def test_a_live_server_s_socket_is_not_taken(self):
        first = self.start("--clients", 64, "--sessions", 100, "--grants", self.path("grants"), *self.words("alice", "bob"))
        alice, granter = self.connect(first, "alice"), self.connect(first, "grants")
        granter.ask(grant("alice"))
        names = self.names()
        for taken in ("alice", "bob", "all", "grants"):
            words = [BPFJOBS, "serve", "--socket", self.path("other"), "--tenant", f"eve={self.path('eve')}", "--tenant", f"alice={self.path(taken)}"]
            ran = subprocess.run(words, capture_output=True, timeout=PATIENCE, check=False)
            self.assertEqual((ran.returncode, self.names()), (3, names), taken)
            self.assertEqual(alice.ask(account("alice")), told(1000, 1000))
            with self.connect(first, "alice") as later:
                self.assertEqual(later.ask(account("alice")), told(1000, 1000))

    def test_sockets_that_were_left_behind(self):
        first = self.start("--sessions", 100, *self.words("alice", "bob"))
        with self.connect(first, "bob") as client:
            self.assertEqual(client.ask(account("bob")), NO_TENANT)
        first.kill()
        first.wait()
        self.assertEqual(self.names(), ["alice", "all", "bob"])
        second = self.start("--sessions", 1, *self.words("bob", "alice"))
        with self.connect(second, "bob") as client:
            self.assertEqual((client.ask(account("bob")), client.ask(grant("bob"))), (NO_TENANT, NO_REQUEST))
        self.assertEqual(second.wait(PATIENCE), 0)
        self.assertEqual(self.names(), [])

    def test_a_server_without_tenants_is_as_ever(self):
        """By a port too: jobs of all tenants count together, and anybody asks for them."""
        with Server(sessions=1) as server:
            requests = [grant("a"), submit("a"), grant("b"), submit("b"), account("c")]
            wanted = [told(1000, 1000), {"job": 1, "ok": True}, told(1000, 1000), {"job": 2, "ok": True}, NO_TENANT]
            self.assertEqual(server.ask(*requests), wanted)
            self.assertEqual(server.status(), 0)

    def test_the_log(self):
        """A tenant's connection is told as one of a tenant, and a job as its connection's. A grant is told with the name that stands in the words, and no other line has one."""
        process = self.start("--log", "--sessions", 3, "--grants", self.path("grants"), *self.words("alice", "bob"), stderr=subprocess.PIPE)
        with self.connect(process, "grants") as granter:
            balance = granter.ask(grant("bob"))["balance"]
            granter.ask(grant("zoe", 7))
        with self.connect(process, "bob") as bob:
            self.assertEqual(bob.ask(submit("bob")), {"job": 1, "ok": True})
            bob.over(1)
        with self.connect(process) as everybody:
            everybody.ask(account("bob"))
        text = process.communicate(timeout=PATIENCE)[1].decode()
        lines = events_past_listening(map(json.loads, text.splitlines()), process.args)
        self.assertEqual([line["socket"] for line in told_of(lines, "opened")], ["grants", "tenant", "socket"])
        # the pool's number of a job: its own and the tenant's place
        self.assertEqual([line["job"] for line in told_of(lines, "started") + told_of(lines, "ended")], [1002, 1002])
        self.assertEqual(told_of(lines, "granted"), [{"connection": 1, "tenant": "bob", "amount": balance, "balance": balance}, {"connection": 1, "amount": 7, "balance": 7}])
        self.assertEqual([line["connection"] for line in told_of(lines, "started")], [2])
        self.assertEqual(told_of(lines, "refused"), [{"connection": 3, "code": 74}])
        self.assertEqual(text.count("bob"), 1)
        # the place where it listens is the configuration's
        self.assertEqual(text.count(self.room), listening(process.args).count(self.room))
        self.assertFalse("alice" in text or "zoe" in text)

    def test_each_tenant_has_its_turn(self):
        """One worker, kept busy while a tenant submits many jobs and another one: that one waits for one of the many, not for all."""
        def check(programs, credit):
            words = ("--workers", 1, "--clients", 2, "--sessions", 3, "--grants", self.path("grants"), *self.words("alice", "bob"))
            process = self.start("--log", *words, stderr=subprocess.PIPE)
            with self.connect(process, "grants") as granter:
                granter.ask(grant("alice", credit + 1000))
                granter.ask(grant("bob"))
            with self.connect(process, "alice") as alice, self.connect(process, "bob") as bob:
                self.assertEqual(alice.ask(submit_text(programs, credit, b"", tenant="alice")), {"job": 1, "ok": True})
                for job in range(2, 51):
                    self.assertEqual(alice.ask(submit("alice")), {"job": job, "ok": True})
                self.assertEqual(bob.ask(submit("bob")), {"job": 1, "ok": True})
                was_open = is_open(alice, 1)
                bob.over(1)
                alice.over(50)
            text = process.communicate(timeout=PATIENCE)[1].decode()
            if was_open:
                self.check_turns([json.loads(line) for line in text.splitlines()])
            return was_open

        beside_a_long_job(check)

    def check_turns(self, lines):
        for event in ("started", "ended"):
            jobs = [line["job"] for line in told_of(lines, event)]
            self.assertIn(1002, jobs[:3], event)
            self.assertEqual([job for job in jobs if job != 1002], [1000 * job + 1 for job in range(1, 51)], event)


if __name__ == "__main__":
    unittest.main()
