"""A journal in whose place a snapshot of its desk comes while the server runs."""

import contextlib
import json
import os
import random
import re
import shutil
import subprocess
import threading
import unittest

from compactions import SNAPSHOT, CountedKeeper, CountedTenantKeeper
from journal_following import Followed
from journal_load import DoorLoads, Load, good_jobs, keep_busy
from journals import book_of, kill_traced, payloads_of, read, record, starts_of
from patience import PATIENCE, wait_for
from programs import BPFJOBS, assemble, submit_text
from test_clients import ASKED, is_open
from test_journal import ACCOUNT, ADD, Room, grant, submit
from test_keyed_journal import asked_by
from test_tenant_journal import Room as TenantRoom
from trees import comparable

MIB = 1 << 20

# A journal of fewer bytes isn't compacted.
SMALLEST = MIB

# The bytes of a large buffer, and no fewer than what a job with one has in the journal.
LARGE = 65_536
OF_A_JOB = 2 * LARGE + 1000

KEPT = 2
CREDIT = 1_000_000


def large(number, tenant="t", **more):
    """The request of a job with a large buffer, another one for each number."""
    text = submit_text([(0, ADD)], 3, random.Random(number).randbytes(LARGE), tenant=tenant)
    return {**json.loads(text), **more}


class Filling:
    """Jobs whose buffers fill a journal, and what they come to. The journal of the desk `t` unless a test says otherwise."""

    def due(self, path):
        """The bytes at which a journal is due, and those of a few jobs more."""
        sizes = [new for name, _, new in self.server.compacted() if name == path]
        tried = [os.path.getsize(name) for name in self.server.not_compacted() if name == path]
        return 2 * max([SMALLEST // 2, *sizes[-1:], *tried]) + 4 * OF_A_JOB

    def fill(self, client, is_over, first=1, path=None, **how):
        """Has large jobs run, one after the other, until something is over. It waits for that once
        the journal is due. Gives the number of the job to come."""
        path = path or self.server.journal
        size, due = os.path.getsize(path), self.due(path)
        while not is_over():
            if size > due:
                wait_for(is_over, "a line of a compaction")
                break
            self.assertEqual(client.ask(large(first, **how)), {"job": first, "ok": True})
            self.assertTrue(json.loads(client.over(first))["ok"])
            first += 1
            # its records may not be written yet
            size += 2 * LARGE
        return first

    def fill_up(self, client, first=1, **how):
        """Large jobs until their server has told of a compaction more."""
        count = len(self.server.compacted())
        return self.fill(client, lambda: len(self.server.compacted()) > count, first, **how)

    def fill_to(self, client, size, first=1, path=None, **how):
        """Large jobs until the journal has so many bytes, or would have with one more."""
        path = path or self.server.journal
        return self.fill(client, lambda: os.path.getsize(path) > size - OF_A_JOB, first, path=path, **how)

    def told(self, client, jobs, tenant="t"):
        """What is told of an account and of jobs that are over, byte for byte."""
        requests = [{"op": op, "job": job} for job in range(1, jobs) for op in ("status", "result")]
        return client.told_all([{"op": "account", "tenant": tenant}, *requests])

    def check_journal(self, path=None):
        """`bpfjobs journal` is content with the journal of a server that was killed, and counts its records."""
        path = path or self.server.journal
        ran = subprocess.run([BPFJOBS, "journal", path, "--check"], capture_output=True, text=True, timeout=PATIENCE, check=False)
        self.assertEqual((ran.returncode, ran.stderr), (0, ""), ran.stdout)
        payloads, _ = payloads_of(read(path))
        self.assertTrue(ran.stdout.startswith(f"{path}: {len(payloads)} record"), ran.stdout)

    def check_bounded(self, path=None):
        """No more than a snapshot with as many reports as are kept, and what comes until the next one."""
        self.assertLess(os.path.getsize(path or self.server.journal), SMALLEST + (KEPT + 2) * OF_A_JOB)


class Live(Filling, Room):
    """A server that keeps two reports, and what it told."""

    def keeper(self, *words, folder=None, keep=KEPT, **how):
        server = CountedKeeper(folder or self.room, "--keep", keep, *words, **how)
        self.addCleanup(server.end)
        return server

    def granted(self, *more, **how):
        """Starts the server, grants, and gives a connection."""
        client = self.start(*more, **how)
        self.assertTrue(client.ask(grant(CREDIT))["ok"])
        return client

    def beside(self):
        return self.server.journal + SNAPSHOT

    def check_again(self, told, jobs):
        """The server is killed. A new one tells the same, and is content with the journal."""
        self.server.kill()
        self.check_journal()
        self.assertEqual(self.told(self.start(), jobs), told)


class Compacted(Live):
    def test_the_line_and_all_that_was_told(self):
        client = self.granted()
        before = os.stat(self.server.journal).st_ino
        jobs = self.fill_up(client)
        ((path, old, new),) = self.server.compacted()
        self.assertEqual(path, self.server.journal)
        self.assertGreaterEqual(old, SMALLEST)
        self.assertLess(new, old)
        self.check_bounded()
        self.assertNotEqual(os.stat(self.server.journal).st_ino, before)
        self.assertFalse(os.path.exists(self.beside()))
        self.assertEqual(self.server.not_compacted(), [])
        self.assertEqual(client.ask({"op": "result", "job": 1}), {"code": 76, "ok": False})
        account = client.ask(ACCOUNT)
        spent = 3 * (jobs - 1)
        self.assertEqual(account, {"balance": CREDIT - spent, "granted": CREDIT, "ok": True, "open": 0, "spent": spent})
        # the server goes on with the new file
        self.assertEqual(client.ask(submit()), {"job": jobs, "ok": True})
        client.over(jobs)
        self.assertEqual(client.ask(grant(1))["granted"], CREDIT + 1)
        self.assertEqual(book_of(self.data()).granted, {"t": CREDIT + 1})
        self.assertEqual(len(book_of(self.data()).jobs), jobs)
        self.check_again(self.told(client, jobs + 1), jobs + 1)

    def test_again_and_again(self):
        """Each time that a journal has twice the bytes that it had behind the last one."""
        client, jobs = self.granted(), 1
        for count in range(1, 6):
            jobs = self.fill_up(client, jobs)
            self.assertEqual(len(self.server.compacted()), count)
        for _, old, new in self.server.compacted():
            self.assertGreaterEqual(old, SMALLEST)
            self.assertLess(new, old)
        self.check_again(self.told(client, jobs), jobs)

    def test_a_small_journal_stays(self):
        client = self.granted()
        self.fill_to(client, SMALLEST)
        node = os.stat(self.server.journal).st_ino
        for _ in range(ASKED):
            client.ask(ACCOUNT)
        self.assertEqual((os.stat(self.server.journal).st_ino, self.server.compacted()), (node, []))

    def test_behind_a_start(self):
        """What a start reads is compacted once it has doubled."""
        client = self.granted()
        jobs = self.fill_to(client, SMALLEST)
        self.server.kill()
        client = self.start()
        size = os.path.getsize(self.server.journal)
        self.assertLess(2 * size, SMALLEST)
        jobs = self.fill_up(client, jobs)
        self.assertGreaterEqual(self.server.compacted()[0][1], max(SMALLEST, 2 * size))
        self.check_again(self.told(client, jobs), jobs)

    def test_a_second_server_is_refused(self):
        """The file that took the journal's name is locked."""
        client = self.granted()
        jobs = self.fill_up(client)
        other = self.keeper()
        other.socket = os.path.join(self.room, "other")
        self.assertEqual(other.run(), (3, f"bpfjobs: {self.server.journal}: in use by another server\n"))
        told = self.told(client, jobs)
        self.server.kill()
        other.start()
        self.assertEqual(self.told(self.connect(other), jobs), told)

    def test_an_orderly_end(self):
        """It ends with 0 behind a compaction, and with all that was told."""
        client = self.granted("--until-eof", stdin=subprocess.PIPE)
        jobs = self.fill_up(client)
        told = self.told(client, jobs)
        client.stream.close()
        self.server.process.stdin.close()
        self.assertEqual(self.server.process.wait(PATIENCE), 0)
        self.check_journal()
        self.assertEqual(self.told(self.start(), jobs), told)

    def test_at_intervals(self):
        """The same where replies wait for no sync."""
        client = self.granted("--journal-sync", "interval", "--until-eof", stdin=subprocess.PIPE)
        jobs = self.fill_up(client)
        self.check_bounded()
        told = self.told(client, jobs)
        client.stream.close()
        self.server.process.stdin.close()
        self.assertEqual(self.server.process.wait(PATIENCE), 0)
        self.assertEqual(self.told(self.start(), jobs), told)


class Open(Live):
    """Jobs that are open while a journal is compacted."""

    def test_jobs_that_run_and_that_wait(self):
        """They stand in the snapshot as they were taken, and begin anew behind a kill."""
        self.beside_a_long_job(self.check_open)

    def check_open(self, long, credit):
        self.server = self.keeper(workers=1)
        client = self.granted()
        for _ in range(2):
            client.ask(grant(credit))
        first = self.fill_to(client, SMALLEST)
        for number, job in enumerate([long, long, submit(), large(0)], first):
            self.assertEqual(client.ask(job), {"job": number, "ok": True})
        wait_for(self.server.compacted, "a compaction")
        self.server.kill()
        book = book_of(self.data())
        if any(number in book.ends or not book.jobs[number - 1] for number in range(first, first + 4)):
            return False
        self.assertEqual(book.jobs[first + 1], ("t", [(0, ADD)], 3, b""))
        self.check_journal()
        self.server = self.keeper(workers=4, keep=100)
        self.check_begun_anew(self.start(), first, credit)
        return True

    def check_begun_anew(self, client, first, credit):
        results = [json.loads(client.over(number)) for number in range(first, first + 4)]
        self.assertEqual(comparable(results[0]), comparable(results[1]))
        self.assertEqual(results[0]["spent"] + results[0]["returned"], credit)
        self.assertEqual((results[2]["spent"], results[2]["tasks"][0]["r0"]), (3, 42))
        self.assertEqual(results[3]["buffer"], large(0)["buffer"])
        account, spent = client.ask(ACCOUNT), 2 * results[0]["spent"] + 3 * (first + 1)
        self.assertEqual((account["open"], account["spent"], account["granted"]), (0, spent, CREDIT + 2 * credit))

    def test_little_to_save(self):
        """A journal of jobs that all wait stays as it is. Once they are over, and it has doubled,
        it is compacted."""
        self.beside_a_long_job(self.check_little)

    def check_little(self, long, credit):
        self.server = self.keeper(workers=1)
        client = self.granted()
        client.ask(grant(credit))
        self.assertEqual(client.ask(long), {"job": 1, "ok": True})
        node, last = os.stat(self.server.journal).st_ino, SMALLEST // LARGE + 2
        for number, told in enumerate(client.told_all([large(job) for job in range(2, last + 1)]), 2):
            self.assertEqual(json.loads(told), {"job": number, "ok": True})
        for _ in range(ASKED):
            client.ask(ACCOUNT)
        size, found = os.path.getsize(self.server.journal), (self.server.compacted(), os.stat(self.server.journal).st_ino)
        if not is_open(client, 1):
            return False
        self.assertGreaterEqual(size, SMALLEST)
        self.assertEqual(found, ([], node))
        client.over(last)
        jobs = self.fill(client, self.server.compacted, last + 1)
        self.assertEqual(self.server.not_compacted(), [])
        self.check_again(self.told(client, jobs), jobs)
        return True


class Busy(Live):
    """Compactions while many clients are at work."""

    def test_under_load(self):
        """Again and again, with what was told there again behind the kill. What comes during a
        compaction has no bound: `.ci/in_time.py` tells how large a journal was."""
        buffer, keep, count = 8192, 50, 3
        load = Load(self.room, 5, good_jobs(assemble, 5, more=buffer), keep=keep, keeper=CountedKeeper)
        self.addCleanup(load.end)
        load.server.start()
        with load.server.connect() as client:
            load.audit(client)
        keep_busy([load], lambda: len(load.server.compacted()) >= count, load.kill)
        self.assertGreaterEqual(load.server.live, count)
        self.check_journal(load.server.journal)
        load.audit_all()
        self.assertEqual(load.wrong, [])

    def test_requests_go_on(self):
        """Each is answered, in order. `.ci/in_time.py` tells how long one waited."""
        client, other = self.granted(), self.connect()
        is_over, count, wrong = threading.Event(), 0, []

        def ask():
            nonlocal count
            while not is_over.is_set():
                count += 1
                replies = other.told_all([grant(1, "u"), {"op": "account", "tenant": "u"}])
                if [json.loads(reply).get("granted") for reply in replies] != [count, count]:
                    wrong.append((count, replies))

        asking = threading.Thread(target=ask)
        asking.start()
        try:
            jobs = self.fill_up(client)
            jobs = self.fill_up(client, jobs)
        finally:
            is_over.set()
            asking.join()
        self.assertEqual(wrong, [])
        self.check_again(self.told(client, jobs), jobs)
        self.assertEqual(self.connect().ask({"op": "account", "tenant": "u"})["granted"], count)


class Doors(Filling, TenantRoom):
    """The journal of a tenant's desk is compacted by itself."""

    def keeper(self):
        server = CountedTenantKeeper(self.room, *self.TENANTS)
        self.addCleanup(server.end)
        return server

    def test_one_door(self):
        """The others' journals stay as they are, byte for byte and by their names."""
        self.server.words += ["--keep", KEPT]
        self.server.start()
        for tenant in ("alice", "bob", "t"):
            self.grant(tenant, CREDIT)
        client, bob = self.connect("alice"), self.connect("bob")
        # a snapshot of bob's journal would be less than half as long
        for job in range(1, 9):
            self.job("bob", job)
        self.job("t", 1, "all")
        self.assertEqual(client.ask(large(1, "alice", key="first")), {"job": 1, "ok": True})
        others = {name: (os.stat(self.server.file(name)).st_ino, self.server.data(name)) for name in ("bob", "all")}
        jobs = self.fill_up(client, 2, path=self.server.file("alice"), tenant="alice")
        self.assertEqual([path for path, *_ in self.server.compacted()], [self.server.file("alice")])
        self.check_bounded(self.server.file("alice"))
        for name, (node, data) in others.items():
            self.assertEqual((os.stat(self.server.file(name)).st_ino, self.server.data(name)), (node, data))
        self.check_goes_on(client, bob, jobs)

    def check_goes_on(self, client, bob, jobs):
        """Both doors, also behind a kill. A key of a job that is forgotten is told its number."""
        self.assertEqual(client.ask(asked_by("first")), {"job": 1, "ok": True})
        self.assertEqual(client.ask(large(jobs, "alice", key="last")), {"job": jobs, "ok": True})
        client.over(jobs)
        self.assertEqual(bob.ask(submit(tenant="bob")), {"job": 9, "ok": True})
        bob.over(9)
        told = self.told(client, jobs + 1, "alice"), self.told(bob, 10, "bob")
        self.server.kill()
        for name in ("alice", "bob", "all"):
            self.check_journal(self.server.file(name))
        self.assertEqual(book_of(self.server.data("alice")).keyed, [(1, "first"), (jobs, "last")])
        self.server.start()
        client, bob = self.connect("alice"), self.connect("bob")
        self.assertEqual((self.told(client, jobs + 1, "alice"), self.told(bob, 10, "bob")), told)
        for key, number in (("first", 1), ("last", jobs)):
            self.assertEqual(client.ask(asked_by(key)), {"job": number, "ok": True})

    def test_under_load(self):
        """Both doors and that of everybody else, with keys, behind a kill."""
        doors = DoorLoads(self.server, 3, good_jobs(assemble, 3, more=16_384), {"all": 2, "alice": 1, "bob": 1}, keep=KEPT)

        def is_over():
            self.compacted = {path for path, *_ in self.server.compacted()}
            return len(self.compacted) == len(doors.loads)

        self.server.start()
        keep_busy(doors.loads, is_over, doors.kill)
        self.assertEqual(self.compacted, {load.server.journal for load in doors.loads})
        doors.audit_all()
        self.assertEqual(doors.wrong(), [])


class NotCompacted(Live):
    """Where a snapshot can't be written the server goes on with the long journal, and a line tells so."""

    def test_something_else_has_the_name(self):
        """Once that is gone, and the journal has doubled, it is compacted."""
        client = self.granted()
        os.mkdir(self.beside())
        jobs = self.fill(client, self.server.not_compacted)
        self.assertEqual((self.server.not_compacted(), self.server.compacted()), ([self.server.journal], []))
        size = os.path.getsize(self.server.journal)
        jobs = self.check_goes_on(client, jobs)
        os.rmdir(self.beside())
        jobs = self.fill_up(client, jobs)
        ((_, old, new),) = self.server.compacted()
        self.assertGreaterEqual(old, 2 * SMALLEST)
        self.assertLess(new, size)
        self.check_again(self.told(client, jobs), jobs)

    def check_goes_on(self, client, jobs):
        self.assertEqual(client.ask(submit()), {"job": jobs, "ok": True})
        client.over(jobs)
        self.assertEqual(client.ask(grant(1))["granted"], CREDIT + 1)
        self.assertEqual(book_of(self.data()).granted["t"], CREDIT + 1)
        return jobs + 1

    def test_a_kill_behind_it(self):
        """The long journal has all that was told."""
        client = self.granted()
        os.mkdir(self.beside())
        jobs = self.check_goes_on(client, self.fill(client, self.server.not_compacted))
        told = self.told(client, jobs)
        self.server.kill()
        self.assertGreaterEqual(os.path.getsize(self.server.journal), SMALLEST)
        self.assertEqual(len(book_of(self.data()).jobs), jobs - 1)
        os.rmdir(self.beside())
        self.assertEqual(self.told(self.start(), jobs), told)


@unittest.skipUnless(shutil.which("strace"), "needs Debian's strace")
class Traced(Live):
    """A server whose calls strace tells, or has fail."""

    WRITES, SYNCS, RENAMES = "write,pwrite64,writev", "fsync,fdatasync", "rename,renameat,renameat2"

    def traced(self, *strace):
        told = os.path.join(self.room, "calls")
        client = self.granted(ahead=["strace", "-f", "-qq", "-o", told, *strace])
        self.addCleanup(self.kill_traced, self.server.process)
        return client

    def kill_traced(self, process):
        """Kills a server, and not strace alone."""
        if process.poll() is None:
            kill_traced(process)
        if process is self.server.process:
            self.server.kill()


class FailingCalls(Traced):
    """A call that a compaction makes fails."""

    def start_with(self, calls, path, when):
        """A server of which these calls on a path fail from a number on."""
        return self.traced("-P", os.path.realpath(path), "-e", f"trace={calls}", "-e", f"inject={calls}:error=EIO:when={when}")

    def check_kept(self, calls):
        """A new file that can't be written or synced: the server goes on with the old one."""
        client = self.start_with(calls, self.beside(), "1+")
        jobs = self.fill(client, self.server.not_compacted)
        self.assertEqual((self.server.not_compacted(), self.server.compacted()), ([self.server.journal], []))
        self.assertEqual(client.ask(submit()), {"job": jobs, "ok": True})
        client.over(jobs)
        told = self.told(client, jobs + 1)
        self.assertGreaterEqual(os.path.getsize(self.server.journal), SMALLEST)
        self.kill_traced(self.server.process)
        self.assertEqual(self.told(self.start(), jobs + 1), told)

    def test_writes_of_the_new_file(self):
        self.check_kept(self.WRITES)

    def test_syncs_of_the_new_file(self):
        self.check_kept(self.SYNCS)

    def wait_where_due(self):
        """Waits for a compaction, or for the server's end, where the journal is due."""
        count, path = len(self.server.compacted()), self.server.journal
        if os.path.getsize(path) > self.due(path):
            wait_for(lambda: self.server.process.poll() is not None or len(self.server.compacted()) > count, "a compaction")

    def check_ends(self, calls, path, when):
        """It isn't known which file has the name. Nobody is told anything from then on, and all that was told is there."""
        client = self.start_with(calls, path, when)
        other, granted, jobs = self.connect(), 0, 0
        with contextlib.suppress(ConnectionResetError, BrokenPipeError):
            while True:
                self.assertEqual(client.ask(large(jobs + 1)), {"job": jobs + 1, "ok": True})
                jobs += 1
                self.assertEqual(other.ask(grant(1, "u"))["granted"], granted + 1)
                granted += 1
                client.over(jobs)
                self.wait_where_due()
        self.assertEqual(self.server.process.wait(PATIENCE), 3)
        for asking in (client, other):
            with self.assertRaises((ConnectionResetError, BrokenPipeError)):
                asking.told(ACCOUNT)
        self.assertTrue(self.server.notes()[-1].startswith(f"{self.server.journal}: "), self.server.notes())
        self.server.process = None
        client = self.start()
        self.assertIn(client.ask({"op": "account", "tenant": "u"}).get("granted", 0), (granted, granted + 1))
        self.assertIn(client.ask(submit()), [{"job": number, "ok": True} for number in (jobs + 1, jobs + 2)])
        self.assertEqual(client.ask(ACCOUNT)["granted"], CREDIT)

    def test_the_rename(self):
        self.check_ends(self.RENAMES, self.beside(), "1+")

    def test_the_folder_s_sync(self):
        # strace counts the calls of each thread: a start makes one, and so does a compaction
        self.check_ends(self.SYNCS, self.room, "2+")


class Calls(Traced):
    CALL = re.compile(r"^\d+ +(\w+)\((?:\d+<([^>]*)>)?(.*)")

    def test_the_order_of_calls(self):
        """The new file is synced behind its last write, then it is renamed, and then the folder is synced."""
        client = self.traced("-y", "-e", f"trace={self.WRITES},{self.SYNCS},{self.RENAMES}")
        self.fill_up(client)
        self.kill_traced(self.server.process)
        with open(os.path.join(self.room, "calls"), encoding="utf-8") as file:
            found = [match.groups() for match in map(self.CALL.match, file) if match]
        rename = next(at for at, (name, _, words) in enumerate(found) if name.startswith("rename") and SNAPSHOT in words)
        beside, journal, folder = map(os.path.realpath, (self.beside(), self.server.journal, self.room))
        of_new = [name for name, path, _ in found[:rename] if path == beside]
        self.assertIn("write", of_new)
        self.assertIn(of_new[-1], ("fsync", "fdatasync"))
        behind = [(name, path) for name, path, _ in found[rename + 1 :] if path in (beside, journal, folder)]
        self.assertEqual(behind[0], ("fsync", folder))


class Reading(Live):
    """The reader of journals that the loads have finds what is wrong in a snapshot."""

    def setUp(self):
        super().setUp()
        self.wrong, self.path = [], os.path.join(self.room, "followed")

    def parts(self):
        """A snapshot, and records of grants that the old file has behind what it says, and the old file."""
        client = self.granted()
        for job in range(1, 13):
            client.ask(submit())
            client.over(job)
        self.server.kill()
        old = self.data()
        self.server.run()
        later = [record(payload) for payload in payloads_of(old)[0][:1]] * 3
        return self.data(), later, old

    def follow(self, old, new, is_running=False):
        """What a reader says that has read the old file, in whose place the new one came."""
        self.wrong = []
        for name, data in (("old", old), ("new", new)):
            with open(os.path.join(self.room, name), "wb") as file:
                file.write(data)
        os.replace(os.path.join(self.room, "old"), self.path)
        reader = Followed(self.path, lambda holds, what: holds or self.wrong.append(what), lambda number: number <= 10)
        self.addCleanup(reader.close)
        reader.is_running = is_running
        reader.catch_up()
        os.replace(os.path.join(self.room, "new"), self.path)
        self.assertEqual(reader.catch_up(), b"")
        return reader

    def test_snapshots(self):
        """With none of the old file's records behind it, with some, and with new ones."""
        snapshot, later, old = self.parts()
        for ahead, behind in ((0, 0), (0, 2), (1, 1), (2, 3), (3, 3)):
            reader = self.follow(old + b"".join(later[:ahead]), snapshot + b"".join(later[:behind]))
            self.assertEqual((self.wrong, reader.compactions), ([], 1))
            self.assertEqual(reader.book.account("t")["granted"], CREDIT * (1 + behind))
            self.assertEqual(len(reader.book.jobs), 12)

    def test_a_snapshot_that_is_ahead(self):
        """It has a grant and a job that the old file never got."""
        snapshot, later, old = self.parts()
        start = starts_of(old)[-3]
        for before in (old[:start], old[: starts_of(old)[-2]]):
            reader = self.follow(before, snapshot + later[0], True)
            self.assertEqual(self.wrong, [])
            self.assertEqual(reader.book.account("t"), {"balance": 2 * CREDIT - 36, "granted": 2 * CREDIT, "ok": True, "open": 0, "spent": 36})
            self.follow(before, snapshot)
            self.assertTrue(self.wrong)

    def test_wrong_snapshots(self):
        """With an account of less, an end that is another one, a report less, and without records that the old file had."""
        snapshot, later, old = self.parts()
        starts = starts_of(snapshot)
        payloads = payloads_of(snapshot)[0]
        kinds = [payload[0] for payload in payloads]
        self.assertEqual(kinds, [7, 8, 9, 9, 8])

        def changed(number, at, byte):
            payload = bytearray(payloads[number])
            payload[at] ^= byte
            return snapshot[: starts[number]] + record(bytes(payload)) + snapshot[starts[number + 1] :]

        # the grants, what was spent, and the credit that a report tells
        for number, at in ((0, -16), (0, -8), (2, 10)):
            with self.subTest(number=number, at=at):
                self.follow(old, changed(number, at, 1))
                self.assertTrue(self.wrong)
        self.follow(old, snapshot[: starts[3]] + snapshot[starts[4] :])
        self.assertTrue(self.wrong)
        self.follow(old + later[0], snapshot)
        self.assertTrue(self.wrong)


if __name__ == "__main__":
    unittest.main()
