"""`bpfjobs serve --journal FILE`: what was told is there after a kill, and a file that isn't whole is told."""

import contextlib
import json
import os
import random
import re
import resource
import shutil
import signal
import stat
import subprocess
import tempfile
import threading
import unittest

import journals
from journal_load import Load, good_jobs
from journals import Keeper, book_of, failed_lines, payloads_of, read, record, starts_of, traced
from programs import BPFJOBS, PATIENCE, assemble, events_past_listening, submit_text
from rows import code_of
from test_clients import beside_a_long_job, is_open
from trees import comparable

ADD = code_of("mov64 r0, 40 / add64 r0, 2 / exit")
ACCOUNT = {"op": "account", "tenant": "t"}
RESULT = {"buffer": "", "ok": True, "returned": 0, "spent": 3}


def grant(amount, tenant="t"):
    return {"op": "grant", "tenant": tenant, "amount": amount}


def submit(credit=3, tenant="t"):
    return json.loads(submit_text([(0, ADD)], credit, b"", tenant=tenant))


class Anew:
    """Beside a folder with journals: a test that is tried again in another one."""

    def beside_a_long_job(self, check, **more):
        """Has a test at work beside a long job, whose request it is given with more in it, and
        beside longer ones, as `test_clients.beside_a_long_job` does."""
        def check_anew(programs, credit):
            self.server.end()
            self.room = tempfile.mkdtemp(dir=self.room)
            self.server = self.keeper()
            return check({**json.loads(submit_text(programs, credit, b"")), **more}, credit)

        beside_a_long_job(check_anew)


class Room(Anew, unittest.TestCase):
    """A folder with a journal, and the socket of its server."""

    def setUp(self):
        room = tempfile.TemporaryDirectory()
        self.addCleanup(room.cleanup)
        self.room = room.name
        self.server = self.keeper()

    def keeper(self, *words, folder=None, **how):
        server = Keeper(folder or self.room, *words, **how)
        self.addCleanup(server.end)
        return server

    def start(self, *more, **how):
        """Starts the server, and gives a connection to it."""
        self.server.start(*more, **how)
        return self.connect()

    def connect(self, server=None):
        client = (server or self.server).connect()
        self.addCleanup(client.stream.close)
        return client

    @contextlib.contextmanager
    def fresh(self):
        """A connection to a server with a journal of its own."""
        folder = os.path.join(self.room, "other")
        os.mkdir(folder)
        server = self.keeper(folder=folder)
        server.start()
        yield self.connect(server)
        server.end()

    def again(self, *more):
        """Kills the server, starts another one, and gives a connection to it."""
        self.server.kill()
        return self.start(*more)

    def data(self):
        return read(self.server.journal)

    def write(self, data):
        with open(self.server.journal, "wb") as file:
            file.write(data)

    def refused(self, *more):
        """What is told by a server that doesn't begin. The journal has to stay as it is."""
        before = self.data()
        status, lines = self.server.run(*more)
        self.assertEqual((status, self.data() == before, len(lines.splitlines())), (3, True, 1), lines)
        return lines.removeprefix(f"bpfjobs: {self.server.journal}: ").rstrip("\n")

    def small(self):
        """A journal of a few records."""
        client = self.start()
        self.assertTrue(client.ask(grant(9))["ok"])
        self.assertEqual(client.ask(submit()), {"job": 1, "ok": True})
        client.over(1)
        self.assertTrue(client.ask(grant(1, "u"))["ok"])
        self.server.kill()
        return self.data()


class Kept(Room):
    def test_all_that_was_told_is_there_again(self):
        client = self.start()
        told = client.ask(grant(100))
        self.assertEqual(told["granted"], 100)
        self.assertEqual(client.ask(submit()), {"job": 1, "ok": True})
        result, account = client.over(1), client.told(ACCOUNT)
        client = self.again()
        self.assertEqual((client.told({"op": "result", "job": 1}), client.told(ACCOUNT)), (result, account))
        self.assertEqual(client.ask({"op": "status", "job": 1}), {"complete": True, "ok": True, "returned": 0, "spent": 3})
        # numbers, grants and jobs go on
        self.assertEqual(client.ask(submit()), {"job": 2, "ok": True})
        self.assertEqual(client.over(2), result)
        self.assertEqual(client.ask(grant(1))["granted"], 101)
        client = self.again()
        self.assertEqual(client.ask(ACCOUNT), {"balance": 95, "granted": 101, "ok": True, "open": 0, "spent": 6})
        self.assertEqual(client.over(2), result)

    def test_a_server_that_was_stopped(self):
        """It ends with 0, and all is there again: also what nobody asked for."""
        client = self.start("--until-eof", stdin=subprocess.PIPE)
        client.ask(grant(100))
        client.ask(submit())
        self.server.process.stdin.close()
        self.assertEqual(self.server.process.wait(PATIENCE), 0)
        book = book_of(self.data())
        self.assertEqual(len(book.jobs), 1)
        client = self.start()
        self.assertEqual(json.loads(client.over(1))["tasks"][0]["r0"], 42)
        self.assertEqual(client.ask(ACCOUNT)["spent"], 3)

    def test_open_jobs_begin_anew(self):
        def check(long, credit):
            client = self.start()
            client.ask(grant(credit + 10))
            self.assertEqual(client.ask(long), {"job": 1, "ok": True})
            self.assertEqual(client.ask(submit()), {"job": 2, "ok": True})
            client = self.again()
            account = client.ask(ACCOUNT)
            if not is_open(client, 1):
                return False
            self.assertGreaterEqual(account["open"], credit)
            first, second = json.loads(client.over(1)), json.loads(client.over(2))
            self.assertEqual((first["spent"] + first["returned"], second["spent"]), (credit, 3))
            account = client.ask(ACCOUNT)
            self.assertEqual((account["open"], account["spent"]), (0, first["spent"] + 3))
            # the answer is that of a server that was never killed
            with self.fresh() as other:
                other.ask(grant(credit + 10))
                other.ask(long)
                self.assertEqual(comparable(json.loads(other.over(1))), comparable(first))
            return True

        self.beside_a_long_job(check)

    def test_refusals_leave_no_record(self):
        client = self.start()
        client.ask(grant(5))
        before = self.data()
        for request, code in [(submit(6), 75), (submit(3, "x"), 74), ({"op": "result", "job": 1}, 76), ({"op": "x"}, 73),
                              ({**submit(2)}, 63), (grant(0), 73)]:
            self.assertEqual(client.ask(request), {"code": code, "ok": False} | ({"program": 0} if code < 60 else {}))
        self.assertEqual(self.data(), before)

    def test_a_job_that_failed(self):
        """A job over the bound of open ones fails by 81, also once the server was killed."""
        def check(long, credit):
            client = self.start("--open-jobs", 1)
            client.ask(grant(credit + 10))
            client.ask(long)
            self.assertEqual(client.ask(submit()), {"job": 2, "ok": True})
            if not is_open(client, 1):
                return False
            told = {"code": 81, "ok": False}
            self.assertEqual(client.ask({"op": "result", "job": 2}), told)
            client = self.again("--open-jobs", 1)
            self.assertEqual(client.ask({"op": "status", "job": 2}), told)
            self.assertTrue(json.loads(client.over(1))["ok"])
            self.assertEqual(client.ask({"op": "result", "job": 2}), told)
            self.assertEqual(client.ask(ACCOUNT)["open"], 0)
            return True

        self.beside_a_long_job(check)

    def test_forgotten_jobs_stay_forgotten(self):
        client = self.start("--keep", 2)
        client.ask(grant(100))
        for job in (1, 2, 3, 4):
            client.ask(submit())
            client.over(job)
        gone = {"code": 76, "ok": False}
        client.ask(grant(1))
        self.assertEqual([client.ask({"op": "result", "job": job}) for job in (1, 2)], [gone, gone])
        account = client.told(ACCOUNT)
        client = self.again()
        self.assertEqual([client.ask({"op": "result", "job": job}) for job in (1, 2)], [gone, gone])
        self.assertTrue(all(json.loads(client.over(job))["ok"] for job in (3, 4)))
        self.assertEqual(client.told(ACCOUNT), account)
        self.assertEqual(client.ask(submit()), {"job": 5, "ok": True})

    def test_the_records_say_what_was_told(self):
        client = self.start()
        client.ask(grant(100))
        client.ask(grant(7, "u"))
        client.ask(submit())
        result = json.loads(client.over(1))
        book = book_of(self.data())
        self.assertEqual(payloads_of(self.data())[1], b"")
        self.assertEqual((book.granted, book.jobs), ({"t": 100, "u": 7}, [("t", [(0, ADD)], 3, b"")]))
        self.assertEqual(book.ends, {1: result})
        for tenant in ("t", "u"):
            self.assertEqual(client.ask({"op": "account", "tenant": tenant}), book.account(tenant))

    def test_by_a_port(self):
        """Two servers by ports, one after the other."""
        from programs import Server

        more = ["--journal", self.server.journal]
        with Server(more=more) as server:
            self.assertEqual(server.ask(grant(9), submit())[1], {"job": 1, "ok": True})
            self.assertEqual(server.result(1)["spent"], 3)
        with Server(more=more) as server:
            self.assertEqual(server.ask(ACCOUNT), [{"balance": 6, "granted": 9, "ok": True, "open": 0, "spent": 3}])

    def test_with_a_socket_for_grants(self):
        grants = os.path.join(self.room, "grants")
        client = self.start("--grants", grants)
        self.assertEqual(client.ask(grant(9)), {"code": 73, "ok": False})
        with journals.Raw(grants, self.server.process) as granting:
            self.assertTrue(granting.ask(grant(9))["ok"])
        self.assertEqual(self.again("--grants", grants).ask(ACCOUNT)["granted"], 9)


class Files(Room):
    def test_the_file_is_made(self):
        """Nobody but its owner may read it."""
        self.assertEqual(self.server.run(), (0, ""))
        self.assertEqual((self.data(), os.listdir(self.room)), (b"", ["journal"]))
        self.assertEqual(stat.S_IMODE(os.stat(self.server.journal).st_mode), 0o600)
        self.assertEqual(self.server.run(), (0, ""))

    def test_a_path_without_a_folder(self):
        words = [BPFJOBS, "serve", "--socket", "all", "--journal", "journal", "--until-eof"]
        ran = subprocess.run(words, stdin=subprocess.DEVNULL, cwd=self.room, timeout=PATIENCE, check=False)
        self.assertEqual((ran.returncode, os.listdir(self.room)), (0, ["journal"]))

    def test_a_second_server_is_refused(self):
        client = self.start()
        client.ask(grant(9))
        other = self.keeper()
        other.socket = os.path.join(self.room, "other")
        before = self.data()
        self.assertEqual(other.run(), (3, f"bpfjobs: {self.server.journal}: in use by another server\n"))
        self.assertEqual(self.data(), before)
        self.assertEqual(client.ask(grant(1))["granted"], 10)
        self.assertFalse(os.path.exists(other.socket))
        self.server.kill()
        other.start()
        self.assertEqual(self.connect(other).ask(ACCOUNT)["granted"], 10)

    def test_no_regular_file(self):
        for path in (self.room, "/dev/full", "/dev/null", os.path.join(self.room, "none/journal")):
            self.server.journal = path
            status, lines = self.server.run()
            self.assertEqual((status, len(lines.splitlines())), (3, 1), lines)
            self.assertTrue(lines.startswith(f"bpfjobs: {path}: "), lines)
            self.assertEqual(os.listdir(self.room), [])

    def test_words(self):
        status, lines = self.server.run("--journal", "x")
        self.assertEqual((status, lines[:7]), (2, "error: "))
        self.assertEqual(os.listdir(self.room), [])


class Damage(Room):
    """Journals that aren't whole. No reply tells a wrong sum, and none is changed behind the operator's back."""

    TORN = "bpfjobs: {0}: cut off {1} bytes of a torn record, which {0}.torn has\n"

    def check_cut(self, data, whole):
        """A journal of which so many bytes are whole records, and no record stands behind them. Where there is no record,
        it isn't taken for a journal."""
        self.write(data)
        kept = f"{self.server.journal}.torn"
        with contextlib.suppress(FileNotFoundError):
            os.unlink(kept)
        if data and whole == 0:
            self.assertIn("no journal, and left as it is", self.refused())
            return
        told = self.TORN.format(self.server.journal, len(data) - whole) if whole < len(data) else ""
        self.assertEqual(self.server.run(), (0, told))
        self.assertEqual(read(kept) if whole < len(data) else b"", data[whole:])
        # jobs that were open have ended meanwhile
        self.assertEqual(self.data()[:whole], data[:whole])
        self.assertEqual(payloads_of(self.data())[1], b"")

    def test_a_torn_tail_at_each_byte(self):
        data = self.small()
        starts = starts_of(data)
        self.assertEqual(starts[-1], len(data))
        for cut in range(len(data)):
            with self.subTest(cut=cut):
                self.check_cut(data[:cut], max(start for start in starts if start <= cut))

    def test_what_a_torn_journal_leads_to(self):
        """The accounts are those of the whole records."""
        data = self.small()
        for start in starts_of(data)[1:]:
            for cut in (start, start + 1, start + 9):
                self.write(data[:cut])
                wanted = book_of(data[:start])
                client = self.start()
                for number in range(1, len(wanted.jobs) + 1):
                    self.assertEqual(json.loads(client.over(number))["spent"], 3)
                told = client.ask(ACCOUNT)
                self.assertEqual((told["granted"], told["balance"] + told["spent"]), (wanted.granted["t"],) * 2)
                self.server.kill()

    def test_zeros_at_the_end(self):
        data = self.small()
        for count in (1, 7, 8, 16, 5000):
            self.check_cut(data + bytes(count), len(data))

    def test_single_flipped_bits(self):
        """Ahead of another record a bit is told with the place; in the last one it is a torn tail."""
        data = self.small()
        starts = starts_of(data)
        bits = [(at, bit) for at in range(len(data)) for bit in range(8)]
        picked = random.Random(7).sample(bits, 250)
        for at, bit in picked + [(start + part, 0) for start in starts[:-1] for part in range(HEAD)]:
            with self.subTest(at=at, bit=bit):
                changed = bytearray(data)
                changed[at] ^= 1 << bit
                start = max(start for start in starts if start <= at)
                if start == starts[-2]:
                    self.check_cut(bytes(changed), start)
                    continue
                self.write(changed)
                following = starts[starts.index(start) + 1]
                told = f"damaged at byte {start}: a whole record stands at byte {following}"
                self.assertEqual(self.refused(), told)

    def test_records_that_say_no_change(self):
        data = self.small()
        for payload in (b"", b"\x09", b"\x01", journals.granted("t", 1) + b"\0", b"\x05" + bytes(7)):
            self.write(data + record(payload) + data[:26])
            self.assertEqual(self.refused(), f"damaged at byte {len(data)}: the record there is no change of a desk")

    def test_records_that_do_not_follow(self):
        data = self.small()
        no_text = b"\x01" + (1).to_bytes(8, "little") + b"\xff" + bytes(4)
        wrong = [journals.failed(1, 81), journals.failed(2, 81), journals.submitted("x", ADD, 3), no_text]
        for payload in wrong:
            self.write(data + record(payload))
            told = f"damaged at byte {len(data)}: the record there doesn't follow from those ahead"
            self.assertEqual(self.refused(), told)

    def test_a_record_within_a_torn_one(self):
        """Bytes of a whole record within a payload that is cut short can't be told from damage."""
        data = self.small()
        inner = record(journals.granted("t", 1000))
        outer = record(journals.submitted("t", ADD, 3, inner + bytes(5)))
        for cut in (1, 5):
            self.write(data + outer[:-cut])
            told = f"damaged at byte {len(data)}: a whole record stands at byte {len(data) + outer.index(inner)}"
            self.assertEqual(self.refused(), told)
        self.check_cut(data + outer[:-6], len(data))
        self.write(data + outer)
        self.assertEqual(self.start().ask(ACCOUNT)["granted"], 9)

    def test_a_journal_that_is_put_together(self):
        """Records of another hand are records, as long as they follow."""
        self.write(record(journals.granted("t", 5)) + record(journals.granted("t", 6)))
        self.assertEqual(self.start().ask(ACCOUNT)["granted"], 11)


HEAD = journals.HEADER


class Failing(Room):
    """A journal that can't be written any more."""

    def check_failing(self, client):
        """Grants until the journal fails. What was told is in it, and nothing is told behind."""
        told = 0
        others = [self.connect() for _ in range(3)]
        for other in others:
            self.assertIn(other.ask(ACCOUNT).get("code"), (None, 74))
        with contextlib.suppress(ConnectionResetError, BrokenPipeError):
            while told < 10_000:
                self.assertEqual(client.ask(grant(1))["granted"], told + 1)
                told += 1
        self.assertLess(told, 10_000)
        for other in others:
            with self.assertRaises((ConnectionResetError, BrokenPipeError)):
                other.told(ACCOUNT)
        self.assertEqual(self.server.process.wait(PATIENCE), 3)
        self.assertEqual(self.server.lines(), failed_lines(self.server.journal))
        return told

    def test_a_limit_for_files(self):
        def limited():
            signal.signal(signal.SIGXFSZ, signal.SIG_IGN)
            resource.setrlimit(resource.RLIMIT_FSIZE, (1000, 1000))

        client = self.start(preexec_fn=limited, stderr=subprocess.PIPE)
        told = self.check_failing(client)
        self.assertEqual((len(self.data()), told), (1000, 1000 // 22))
        self.server.process.stderr.close()
        self.server.process = None
        self.assertEqual(self.start().ask(ACCOUNT)["granted"], told)

    @unittest.skipUnless(os.geteuid() == 0 and shutil.which("mount"), "only root can mount a small file system")
    def test_a_full_file_system(self):
        place = os.path.join(self.room, "full")
        os.mkdir(place)
        words = ["mount", "-t", "tmpfs", "-o", "size=16k", "none", place]
        if subprocess.run(words, capture_output=True, check=False).returncode:
            self.skipTest("nothing can be mounted here")
        self.addCleanup(subprocess.run, ["umount", place], check=False)
        self.server.journal = os.path.join(place, "journal")
        client = self.start(stderr=subprocess.PIPE)
        told = self.check_failing(client)
        book = book_of(self.data())
        self.assertLessEqual(told, book.granted["t"])
        self.assertLessEqual(book.granted["t"], told + 1)

    def test_the_last_line_of_the_log(self):
        """A host's log goes on, and the journal's end is a note among its lines."""
        def limited():
            signal.signal(signal.SIGXFSZ, signal.SIG_IGN)
            resource.setrlimit(resource.RLIMIT_FSIZE, (100, 100))

        client = self.start("--log", preexec_fn=limited, stderr=subprocess.PIPE)
        # each grant has a line, so they are read meanwhile
        read = []
        reader = threading.Thread(target=lambda: read.extend(self.server.process.stderr))
        reader.start()
        with contextlib.suppress(ConnectionResetError, BrokenPipeError):
            while True:
                client.ask(grant(1))
        self.assertEqual(self.server.process.wait(PATIENCE), 3)
        reader.join(PATIENCE)
        events = events_past_listening(map(json.loads, read), self.server.process.args)
        notes = [event["text"] for event in events if event["event"] == "note"]
        closed = [event["code"] for event in events if event["event"] == "closed"]
        # a busy machine may lose lines: at its end a server waits for them for one second
        is_whole = any(event["event"] == "stopping" for event in events) and not any("lost" in event for event in events)
        self.assertIn(closed, ([84],) if is_whole else ([84], []))
        if is_whole:
            self.assertEqual("".join(f"bpfjobs: {note}\n" for note in notes), failed_lines(self.server.journal))


@unittest.skipUnless(shutil.which("strace"), "needs Debian's strace")
class Synced(Room):
    """Each reply is written behind the sync of the records that it rests on."""

    CALL = re.compile(r"^(?:\[pid +\d+\] |\d+ +)?(\w+)\((\d+)(<[^>]*>)?")

    def calls(self, work):
        """The calls on the journal and on sockets, in order, while a client is at work."""
        told = os.path.join(self.room, "calls")
        names = "write,pwrite64,writev,sendto,sendmsg,fsync,fdatasync,ftruncate"
        client = self.start(ahead=["strace", "-f", "-y", "-qq", "-o", told, "-e", f"trace={names}"])
        found = [self.CALL.match(line) for line in traced(told, self.server.process, lambda: work(client))]
        return [(one[1], "journal" if self.server.journal in (one[3] or "") else "socket") for one in found if one
                and (self.server.journal in (one[3] or "") or "socket" in (one[3] or ""))]

    def check(self, calls, replies):
        """No reply goes out while what was written to the journal isn't synced."""
        waits, sent = False, 0
        for name, where in calls:
            if where == "journal":
                self.assertIn(name, ("write", "fdatasync", "fsync", "ftruncate"))
                waits = name == "write"
            else:
                self.assertFalse(waits, calls)
                sent += 1
        self.assertLessEqual(sent, replies)
        return sum(name == "fdatasync" for name, _ in calls), sent

    def test_one_by_one(self):
        def work(client):
            for amount in range(1, 11):
                client.ask(grant(amount))
            for _ in range(10):
                client.ask(ACCOUNT)

        syncs, sent = self.check(self.calls(work), 20)
        self.assertEqual((syncs, sent), (10, 20))

    def test_many_at_once(self):
        """One sync serves all requests of which the replies are written together."""
        def work(client):
            for reply in client.told_all([grant(1)] * 200):
                self.assertTrue(json.loads(reply)["ok"])

        syncs, sent = self.check(self.calls(work), 200)
        self.assertGreater(syncs, 0)
        self.assertLessEqual(syncs, sent)

    def test_jobs(self):
        def work(client):
            client.ask(grant(100))
            for job in range(1, 11):
                client.ask(submit())
                client.over(job)

        self.check(self.calls(work), 10_000)

    def test_the_name_is_synced(self):
        """A new journal's folder is synced ahead of the first reply."""
        told = os.path.join(self.room, "calls")
        words = ["strace", "-f", "-y", "-qq", "-o", told, "-e", "trace=fsync", *self.server.command("--until-eof")]
        subprocess.run(words, stdin=subprocess.DEVNULL, timeout=PATIENCE, check=True)
        with open(told, encoding="utf-8") as file:
            lines = file.read()
        self.assertIn(f"<{os.path.realpath(self.room)}>", lines)
        self.assertIn(f"<{os.path.realpath(self.server.journal)}>", lines)


@unittest.skipUnless(shutil.which("strace"), "needs Debian's strace")
class FailingCalls(Room):
    """The n-th write or sync of the journal fails. All that was told is there again, and nothing was told behind it."""

    # By hand each up to 200: TELGOVAN_EACH=200.
    NUMBERS = range(1, int(os.environ.get("TELGOVAN_EACH", "0")) + 1) or (1, 2, 3, 10, 40)

    def check(self, call, number):
        told = os.path.join(self.room, "calls")
        client = self.start(ahead=["strace", "-f", "-qq", "-o", told, "-P", self.server.journal, "-e", f"trace={call}",
                                   "-e", f"inject={call}:error=EIO:when={number}+"], stderr=subprocess.PIPE)
        count = 0
        with contextlib.suppress(ConnectionResetError, BrokenPipeError):
            while count < 1000:
                self.assertEqual(client.ask(grant(1))["granted"], count + 1)
                count += 1
        self.assertEqual((count, self.server.process.wait(PATIENCE)), (number - 1, 3))
        self.assertEqual(self.server.lines(), failed_lines(self.server.journal))
        self.server.end()
        book = book_of(self.data())
        self.assertIn(book.granted.get("t", 0), (count, count + 1))
        account = self.start().ask(ACCOUNT)
        self.assertEqual(account.get("granted", 0), book.granted.get("t", 0))
        self.server.kill()
        os.remove(self.server.journal)

    def test_each_write(self):
        for number in self.NUMBERS:
            with self.subTest(number=number):
                self.check("write", number)

    def test_each_sync(self):
        for number in self.NUMBERS:
            with self.subTest(number=number):
                self.check("fdatasync", number)


class Kills(Room):
    """A server under load that is killed at any moment, and started anew."""

    def check_kills(self, seed, rounds, **how):
        load = Load(self.room, seed, good_jobs(assemble, seed), **how)
        self.addCleanup(load.end)
        for _ in range(rounds):
            load.round(longest=200)
        self.assertEqual(load.wrong, [])
        load.audit_all()
        self.assertEqual(load.wrong, [])
        self.assertGreater(load.told, rounds)

    def test_kills(self):
        self.check_kills(1, 12, clients=4)

    def test_kills_of_one_client(self):
        self.check_kills(2, 12, clients=1)

    def test_kills_of_many_clients(self):
        self.check_kills(3, 8, clients=12, workers=4)
