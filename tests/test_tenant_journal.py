"""`bpfjobs serve --journal FILE` with tenants: each desk has a file of its own, FILE.NAME that of the tenant NAME."""

import contextlib
import fcntl
import json
import os
import re
import resource
import shutil
import signal
import socket
import stat
import subprocess
import tempfile
import unittest

from journal_load import DoorLoads, good_jobs
from journals import TenantKeeper, book_of, failed_lines, payloads_of, read, starts_of, traced
from patience import PATIENCE
from programs import assemble
from test_clients import is_open
from test_journal import Anew, grant, submit
from trees import comparable

NO_REQUEST = {"code": 73, "ok": False}
NO_TENANT = {"code": 74, "ok": False}
NO_JOB = {"code": 76, "ok": False}

# A tenant of each desk, and its door.
DOORS = ("t", "all"), ("alice", "alice"), ("bob", "bob")


def account(tenant):
    return {"op": "account", "tenant": tenant}


def result(job):
    return {"op": "result", "job": job}


class Room(Anew, unittest.TestCase):
    """A folder with the journals and the doors of a server."""

    TENANTS = ("alice", "bob")

    def setUp(self):
        room = tempfile.TemporaryDirectory()
        self.addCleanup(room.cleanup)
        self.room = room.name
        self.server = self.keeper()

    def keeper(self):
        server = TenantKeeper(self.room, *self.TENANTS)
        self.addCleanup(server.end)
        return server

    def connect(self, name="all"):
        client = self.server.connect(name)
        self.addCleanup(client.stream.close)
        return client

    def again(self, *tenants, **how):
        """Kills the server, and starts another one, with these tenants."""
        self.server.kill()
        self.server.tenants = list(tenants or self.TENANTS)
        self.server.start(**how)

    def grant(self, tenant, amount=1000):
        with self.server.connect("grants") as client:
            self.assertTrue(client.ask(grant(amount, tenant))["ok"])

    def job(self, tenant, number, door=None):
        """Has a job run at a door, and gives its result."""
        with self.server.connect(door or tenant) as client:
            self.assertEqual(client.ask(submit(tenant=tenant)), {"job": number, "ok": True})
            return client.over(number)

    def busy(self):
        """Starts a server, with a grant and a job at the first desk, and one job more at each further one. Gives what is told."""
        self.server.start()
        for number, (tenant, door) in enumerate(DOORS, 1):
            self.grant(tenant, 100 * number)
            for job in range(1, number + 1):
                self.job(tenant, job, door)
        return self.told()

    def told(self):
        """What is told at each door, byte for byte: the account, and the results of its jobs."""
        told = {}
        for number, (tenant, door) in enumerate(DOORS, 1):
            with self.server.connect(door) as client:
                told[door] = client.told(account(tenant)), [client.over(job) for job in range(1, number + 1)]
        return told


class Kept(Room):
    def test_what_was_told_at_each_door_is_there_again(self):
        told = self.busy()
        self.again()
        self.assertEqual(self.told(), told)
        # each desk's numbers go on, and so do its sums
        for number, (tenant, door) in enumerate(DOORS, 1):
            self.grant(tenant, 7)
            self.job(tenant, number + 1, door)
            granted, spent = 100 * number + 7, 3 * (number + 1)
            wanted = {"balance": granted - spent, "granted": granted, "ok": True, "open": 0, "spent": spent}
            self.assertEqual(self.connect(door).ask(account(tenant)), wanted)
            self.assertEqual(self.connect(door).ask(result(number + 2)), NO_JOB)

    def test_each_door_is_told_of_its_own_alone(self):
        self.busy()
        self.again()
        self.assertEqual(self.connect("alice").ask(account("bob")), NO_TENANT)
        self.assertEqual(self.connect("alice").ask(account("t")), NO_TENANT)
        self.assertEqual(self.connect("alice").ask(result(3)), NO_JOB)
        self.assertEqual(self.connect("alice").ask(grant(1, "alice")), NO_REQUEST)
        self.assertEqual(self.connect("all").ask(submit(tenant="alice")), NO_TENANT)

    def test_the_records_of_a_desk_are_in_its_file(self):
        self.busy()
        self.server.kill()
        for number, (tenant, door) in enumerate(DOORS, 1):
            book = book_of(self.server.data(door))
            self.assertEqual(payloads_of(self.server.data(door))[1], b"")
            self.assertEqual((book.granted, len(book.jobs)), ({tenant: 100 * number}, number))
            self.assertEqual(sorted(book.ends), list(range(1, number + 1)))

    def test_questions_leave_no_record(self):
        self.busy()
        before = self.server.all_data()
        for door, tenant in (("all", "t"), ("alice", "alice"), ("bob", "bob"), ("grants", "alice")):
            client = self.connect(door)
            for request in (account(tenant), result(1), {"op": "status", "job": 1}, result(9), {"op": "x"}):
                client.ask(request)
        self.assertEqual(self.server.all_data(), before)

    def test_a_server_that_was_stopped(self):
        """It ends with 0, and all is there again: also what nobody asked for."""
        self.server.start("--until-eof", stdin=subprocess.PIPE)
        for tenant in self.TENANTS:
            self.grant(tenant)
            self.connect(tenant).ask(submit(tenant=tenant))
        self.server.process.stdin.close()
        self.assertEqual(self.server.process.wait(PATIENCE), 0)
        self.server.start()
        for tenant in self.TENANTS:
            self.assertEqual(json.loads(self.connect(tenant).over(1))["tasks"][0]["r0"], 42)
            self.assertEqual(self.connect(tenant).ask(account(tenant))["spent"], 3)

    def test_open_jobs_begin_anew_each_at_its_own_desk(self):
        def check(long, credit):
            self.server.start()
            for tenant in self.TENANTS:
                self.grant(tenant, credit + 10)
                client = self.connect(tenant)
                self.assertEqual(client.ask({**long, "tenant": tenant}), {"job": 1, "ok": True})
                self.assertEqual(client.ask(submit(tenant=tenant)), {"job": 2, "ok": True})
            self.again()
            were_open = all(is_open(self.connect(tenant), 1) for tenant in self.TENANTS)
            reports = []
            for tenant in self.TENANTS:
                client = self.connect(tenant)
                first, second = json.loads(client.over(1)), json.loads(client.over(2))
                self.assertEqual((first["spent"] + first["returned"], second["spent"]), (credit, 3))
                told = client.ask(account(tenant))
                self.assertEqual((told["open"], told["spent"]), (0, first["spent"] + 3))
                reports.append(comparable(first))
            self.assertEqual(reports[0], reports[1])
            return were_open

        self.beside_a_long_job(check)

    def test_forgetting(self):
        """Each desk keeps so many reports, and has forgotten the others behind a restart, too."""
        self.server.words += ["--keep", "2"]
        self.server.start()
        for tenant in self.TENANTS:
            self.grant(tenant)
            for job in range(1, 5):
                self.job(tenant, job)
        self.again()
        for tenant in self.TENANTS:
            client = self.connect(tenant)
            self.assertEqual([client.ask(result(job)) for job in (1, 2)], [NO_JOB, NO_JOB])
            self.assertTrue(all(json.loads(client.over(job))["ok"] for job in (3, 4)))
            self.assertEqual(client.ask(account(tenant))["spent"], 12)

    def test_tenants_of_a_file(self):
        tenants = self.server.path("tenants")
        with open(tenants, "w", encoding="utf-8") as file:
            file.write("".join(f"{name} {self.server.path(name)} open-jobs 2\n" for name in self.TENANTS))
        self.server.tenants = []
        self.server.words += ["--tenants", tenants]
        self.server.start()
        for tenant in self.TENANTS:
            self.grant(tenant)
        told = [self.job(tenant, 1) for tenant in self.TENANTS]
        self.server.kill()
        self.server.start()
        self.assertEqual([self.connect(tenant).over(1) for tenant in self.TENANTS], told)
        self.assertEqual(set(self.server.all_data()), {"journal", "journal.alice", "journal.bob"})

    def test_without_a_socket_for_grants(self):
        """Whoever may grant by the socket for all is told of each desk."""
        self.server.words = ["--clients", "64"]
        self.server.start()
        for tenant, amount in (("t", 5), ("alice", 6), ("bob", 7)):
            self.assertEqual(self.connect().ask(grant(amount, tenant))["granted"], amount)
        self.again()
        for tenant, amount in (("t", 5), ("alice", 6), ("bob", 7)):
            self.assertEqual(self.connect().ask(account(tenant))["granted"], amount)


class Credit(Room):
    """Credit that a line grants at first, where nothing was granted before."""

    TENANTS = ()

    def start(self, *lines):
        path = os.path.join(self.room, "tenants")
        with open(path, "w", encoding="utf-8") as file:
            file.write("".join(f"{line.split()[0]} {os.path.join(self.room, line.split()[0])} {' '.join(line.split()[1:])}\n" for line in lines))
        self.server.start("--tenants", path)

    def granted(self, name):
        with self.server.connect(name) as client:
            return client.ask(account(name)).get("granted")

    def test_it_is_granted_once(self):
        self.start("alice credit 100", "bob")
        self.assertEqual([self.granted(name) for name in ("alice", "bob")], [100, None])
        record = self.server.data("alice")
        self.server.kill()
        # neither again, nor anew by another number; a tenant that had nothing gets its own
        self.start("alice credit 500", "bob credit 7")
        self.assertEqual([self.granted(name) for name in ("alice", "bob")], [100, 7])
        self.assertEqual(self.server.data("alice")[:len(record)], record)
        self.grant("alice", 5)
        self.server.kill()
        self.start("alice", "bob")
        self.assertEqual([self.granted(name) for name in ("alice", "bob")], [105, 7])


class Tenants(Room):
    """Servers of which the tenants aren't the same."""

    def test_a_tenant_is_added(self):
        self.server.tenants = ["alice"]
        self.server.start()
        self.grant("alice", 11)
        before = self.server.data("alice")
        self.again("alice", "bob")
        alice, bob = self.connect("alice"), self.connect("bob")
        self.assertEqual((self.server.data("alice"), self.server.data("bob")), (before, b""))
        self.assertEqual(alice.ask(account("alice"))["granted"], 11)
        self.assertEqual(bob.ask(account("bob")), NO_TENANT)
        self.grant("bob", 12)
        self.job("bob", 1)
        self.again("alice", "bob")
        self.assertEqual(self.connect("bob").ask(account("bob"))["granted"], 12)

    def test_a_tenant_is_left_out_and_comes_back(self):
        told = self.busy()
        self.again("bob")
        before = self.server.data("alice")
        self.job("bob", 4)
        # the socket that the killed server had is still there, and nobody listens
        with socket.socket(socket.AF_UNIX) as stream:
            self.assertRaises(ConnectionRefusedError, stream.connect, self.server.path("alice"))
        self.grant("bob", 1)
        self.assertEqual(self.server.data("alice"), before)
        self.again("alice", "bob")
        for tenant, door in DOORS[:2]:
            self.assertEqual(self.connect(door).told(account(tenant)), told[door][0])
        self.assertEqual(self.connect("alice").over(2), told["alice"][1][1])
        self.assertEqual(self.connect("bob").ask(account("bob"))["granted"], 301)

    def test_another_order(self):
        """A desk is its tenant's by the name, whatever the tenant's number is."""
        told = self.busy()
        self.again("bob", "alice")
        self.assertEqual(self.told(), told)

    def test_no_tenant_any_more(self):
        told = self.busy()
        before = self.server.all_data()
        self.server.kill()
        self.server.tenants = []
        self.server.start()
        client = self.connect()
        self.assertEqual((client.told(account("t")), [client.over(1)]), told["all"])
        self.assertEqual(self.server.all_data(), before)


class Files(Room):
    def test_the_files_are_made(self):
        """Nobody but their owner may read them."""
        self.assertEqual(self.server.run(), (0, ""))
        self.assertEqual(self.server.all_data(), {"journal": b"", "journal.alice": b"", "journal.bob": b""})
        for name in ("all", *self.TENANTS):
            self.assertEqual(stat.S_IMODE(os.stat(self.server.file(name)).st_mode), 0o600)

    def refused(self):
        """What is told by a server that doesn't begin. Each journal has to stay as it is."""
        before, names = self.server.all_data(), sorted(os.listdir(self.room))
        status, lines = self.server.run()
        self.assertEqual((status, len(lines.splitlines())), (3, 1), lines)
        self.assertEqual((self.server.all_data(), sorted(os.listdir(self.room))), (before, names))
        return lines.removeprefix("bpfjobs: ").rstrip("\n")

    def test_one_damaged_file(self):
        """It is named, and no file is changed: also not one that is torn."""
        self.busy()
        self.server.kill()
        whole = self.server.all_data()
        for name in ("all", *self.TENANTS):
            with self.subTest(name=name):
                for other, data in whole.items():
                    with open(self.server.path(other), "wb") as file:
                        file.write(data + b"torn")
                data = bytearray(self.server.data(name))
                data[9] ^= 1
                with open(self.server.file(name), "wb") as file:
                    file.write(data)
                second = starts_of(whole[os.path.basename(self.server.file(name))])[1]
                told = f"{self.server.file(name)}: damaged at byte 0: a whole record stands at byte {second}"
                self.assertEqual(self.refused(), told)

    def test_torn_files(self):
        """What is torn is cut off each file, and each is told."""
        told = self.busy()
        self.server.kill()
        whole = self.server.all_data()
        for name, data in whole.items():
            with open(self.server.path(name), "wb") as file:
                file.write(data + b"torn")
        status, lines = self.server.run()
        cut = "bpfjobs: {0}: cut off 4 bytes of a torn record, which {0}.torn has".format
        self.assertEqual((status, lines.splitlines()), (0, [cut(self.server.path(name)) for name in whole]))
        torn = {f"{name}.torn": b"torn" for name in whole}
        self.assertEqual(self.server.all_data(), {**whole, **torn})
        self.server.start()
        self.assertEqual(self.told(), told)

    def test_a_second_server_is_refused(self):
        told = self.busy()
        before = self.server.all_data()
        other = self.keeper()
        other.socket = self.server.path("other")
        other.tenants = []
        self.assertEqual(other.run(), (3, f"bpfjobs: {self.server.file()}: in use by another server\n"))
        self.assertEqual((self.server.all_data(), self.told()), (before, told))

    def test_one_file_that_another_server_has(self):
        self.server.run()
        for name in ("all", *self.TENANTS):
            with open(self.server.file(name), "rb") as file:
                fcntl.flock(file, fcntl.LOCK_EX)
                self.assertEqual(self.refused(), f"{self.server.file(name)}: in use by another server")
        self.assertEqual(self.server.run(), (0, ""))

    def test_no_regular_file(self):
        self.server.run()
        os.remove(self.server.file("bob"))
        os.mkdir(self.server.file("bob"))
        status, lines = self.server.run()
        self.assertEqual((status, len(lines.splitlines())), (3, 1), lines)
        self.assertTrue(lines.startswith(f"bpfjobs: {self.server.file('bob')}: "), lines)


class Failing(Room):
    """One journal that can't be written any more."""

    def test_a_limit_for_files(self):
        def limited():
            signal.signal(signal.SIGXFSZ, signal.SIG_IGN)
            resource.setrlimit(resource.RLIMIT_FSIZE, (1000, 1000))

        self.server.start(preexec_fn=limited, stderr=subprocess.PIPE)
        granting, told = self.connect("grants"), 0
        self.assertEqual(granting.ask(grant(5, "bob"))["granted"], 5)
        others = [self.connect(name) for name in ("all", "alice", "bob", "grants")]
        with contextlib.suppress(ConnectionResetError, BrokenPipeError):
            while told < 10_000:
                self.assertEqual(granting.ask(grant(1, "alice"))["granted"], told + 1)
                told += 1
        self.assertEqual(self.server.process.wait(PATIENCE), 3)
        for other in others:
            with self.assertRaises((ConnectionResetError, BrokenPipeError)):
                other.told(account("alice"))
        self.assertEqual(self.server.lines(), failed_lines(self.server.file("alice")))
        self.server.process.stderr.close()
        self.server.process = None
        self.assertEqual(told, 1000 // 26)
        self.server.start()
        self.assertEqual(self.connect("alice").ask(account("alice"))["granted"], told)
        self.assertEqual(self.connect("bob").ask(account("bob"))["granted"], 5)


@unittest.skipUnless(shutil.which("strace"), "needs Debian's strace")
class Synced(Room):
    """Each reply at a door is written behind the sync of its own desk's records, and waits for no other's."""

    CALL = re.compile(r"^(?:\[pid +\d+\] |\d+ +)?(\w+)\((\d+)(<[^>]*>)?")

    def calls(self, work):
        """The calls on each journal and on sockets, in order, while clients are at work."""
        told = os.path.join(self.room, "calls")
        names = "write,pwrite64,writev,sendto,sendmsg,fsync,fdatasync,ftruncate"
        self.server.start(ahead=["strace", "-f", "-y", "-qq", "-o", told, "-e", f"trace={names}"])
        self.connect().ask(account("t"))
        found = [self.CALL.match(line) for line in traced(told, self.server.process, work)]
        places = {f"<{os.path.realpath(self.server.file(name))}>": name for name in ("all", *self.TENANTS)}
        calls = [(one[1], places.get(one[3]) or ("socket" if "socket" in (one[3] or "") else None)) for one in found if one]
        # behind the first reply: what was called while the files were opened isn't of interest
        return calls[next(at for at, (_, where) in enumerate(calls) if where == "socket") + 1 :]

    def check(self, calls, used):
        """No reply goes out while what was written to a journal isn't synced, and these journals alone are touched."""
        waits, sent = set(), 0
        for name, where in calls:
            if where == "socket":
                self.assertFalse(waits, calls)
                sent += 1
            elif where:
                self.assertIn(name, ("write", "fdatasync"))
                (waits.add if name == "write" else waits.discard)(where)
        self.assertEqual({where for _, where in calls if where != "socket" and where}, used)
        return sent

    def test_at_a_door(self):
        self.server.start()
        self.grant("alice")
        self.grant("bob")
        self.server.kill()

        def work():
            client = self.connect("alice")
            for job in range(1, 6):
                client.ask(submit(tenant="alice"))
                client.over(job)
                client.ask(account("alice"))

        self.assertGreaterEqual(self.check(self.calls(work), {"alice"}), 15)

    def test_grants(self):
        """A grant's reply is behind the sync of the file of the desk that it went to."""
        def work():
            client = self.connect("grants")
            for tenant in ("alice", "bob", "t"):
                for _ in range(3):
                    self.assertTrue(client.ask(grant(1, tenant))["ok"])
                    self.assertTrue(client.ask(account(tenant))["ok"])

        calls = self.calls(work)
        self.assertEqual(self.check(calls, {"alice", "bob", "all"}), 18)
        self.assertEqual([where for name, where in calls if name == "fdatasync"], ["alice"] * 3 + ["bob"] * 3 + ["all"] * 3)

    def test_two_doors(self):
        """Each door's replies are behind its own syncs, one after the other."""
        self.server.start()
        self.grant("alice")
        self.grant("bob")
        self.server.kill()

        def work():
            for job in range(1, 4):
                for tenant in self.TENANTS:
                    self.job(tenant, job)

        self.check(self.calls(work), {"alice", "bob"})


class Kills(Room):
    """A server whose doors are all busy, killed at any moment, and started anew."""

    def test_kills(self):
        good = good_jobs(assemble, 5)
        doors = DoorLoads(self.server, 11, good, {"all": 2, "alice": 1, "bob": 1})
        for _ in range(10):
            doors.round(longest=150)
        doors.audit_all()
        self.assertEqual(doors.wrong(), [])
        for load in doors.loads:
            self.assertGreater(len(load.numbers), 5)
            book = book_of(read(load.server.journal))
            self.assertEqual(set(book.granted), {tenant.name for tenant in load.tenants})
        self.assertTrue(all(load.book.keyed for load in doors.loads if load.is_keyed))
        self.assertGreater(sum(load.asked_again for load in doors.loads), 0)


if __name__ == "__main__":
    unittest.main()
