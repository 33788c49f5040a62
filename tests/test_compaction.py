"""A journal in whose place a snapshot of its desk comes at a start."""

import json
import os
import re
import shutil
import stat
import subprocess
import unittest

from journal_load import Load, good_jobs
from journals import book_of, payloads_of, read
from patience import PATIENCE, wait_for
from programs import BPFJOBS, assemble, listening, past_listening
from test_clients import is_open
from test_journal import ACCOUNT, Room, grant, submit
from trees import comparable

KEPT = 2
COMPACTED = re.compile(r"bpfjobs: (.+): compacted from (\d+) to (\d+) bytes\n")
GONE = {"code": 76, "ok": False}


class Long(Room):
    """A room with a journal that is much longer than a snapshot: most of its jobs are forgotten."""

    JOBS = 12

    def keeper(self, *words, **how):
        return super().keeper("--keep", KEPT, *words, **how)

    def fill(self):
        """Grants and jobs, and what is told of them at last."""
        client = self.start()
        for _ in range(10):
            client.ask(grant(10))
        client.ask(grant(7, "u"))
        for job in range(1, self.JOBS + 1):
            self.assertEqual(client.ask(submit()), {"job": job, "ok": True})
            client.over(job)
        self.assertEqual(client.ask(ACCOUNT)["open"], 0)
        told = self.told(client)
        self.server.kill()
        return told

    def told(self, client):
        """What is told of each account and each job, byte for byte."""
        accounts = [{"op": "account", "tenant": tenant} for tenant in ("t", "u", "x")]
        jobs = [{"op": op, "job": job} for job in range(self.JOBS + 2) for op in ("status", "result")]
        return client.told_all(accounts + jobs)

    def beside(self):
        return self.server.journal + ".snapshot.new"

    def check_compacted(self, before, lines):
        """The journal was the one of these bytes, and is a snapshot now, as the line tells."""
        path, old, new = COMPACTED.fullmatch(lines).groups()
        self.assertEqual((path, int(old), int(new)), (self.server.journal, len(before), len(self.data())))
        self.assertLessEqual(2 * int(new), int(old))
        self.assertNotEqual(self.data(), before)
        self.assertFalse(os.path.exists(self.beside()))


class Compacted(Long):
    def test_all_that_was_told_is_there_again(self):
        told, before = self.fill(), self.data()
        self.assertEqual(json.loads(told[2 * self.JOBS + 4])["returned"], 0)
        status, lines = self.server.run()
        self.assertEqual(status, 0)
        self.check_compacted(before, lines)
        snapshot = self.data()
        client = self.start()
        self.assertEqual(self.told(client), told)
        # it goes on behind the snapshot
        self.assertEqual(client.ask(submit()), {"job": self.JOBS + 1, "ok": True})
        result = client.over(self.JOBS + 1)
        self.assertEqual(client.ask(grant(1))["granted"], 101)
        self.assertEqual(self.data()[: len(snapshot)], snapshot)
        client = self.again()
        self.assertEqual(client.over(self.JOBS + 1), result)
        self.assertEqual(client.ask(ACCOUNT), {"balance": 101 - 3 * (self.JOBS + 1), "granted": 101, "ok": True, "open": 0, "spent": 3 * (self.JOBS + 1)})

    def test_the_records_of_a_snapshot(self):
        self.fill()
        old = book_of(self.data())
        self.server.run()
        new = book_of(self.data())
        self.assertEqual(payloads_of(self.data())[1], b"")
        self.assertEqual((new.granted, len(new.jobs)), (old.granted, self.JOBS))
        self.assertEqual(new.ends, {job: old.ends[job] for job in range(self.JOBS - KEPT + 1, self.JOBS + 1)})
        for tenant in ("t", "u"):
            self.assertEqual(new.account(tenant), old.account(tenant))
        kinds = [payload[0] for payload in payloads_of(self.data())[0]]
        # an empty run of forgotten jobs ends it
        self.assertEqual(kinds, [7, 7, 8, 9, 9, 8])

    def test_it_is_compacted_once(self):
        """A journal that is a snapshot stays as it is."""
        self.fill()
        self.server.run()
        snapshot, node = self.data(), os.stat(self.server.journal).st_ino
        self.assertEqual(self.server.run(), (0, ""))
        self.assertEqual((self.data(), os.stat(self.server.journal).st_ino), (snapshot, node))

    def test_little_to_save(self):
        """A journal of which a snapshot has more than half of the bytes stays as it is."""
        data = self.small()
        self.assertEqual(self.server.run(), (0, ""))
        self.assertEqual(self.data(), data)

    def test_open_jobs(self):
        """A job that is open stands in the snapshot as it was taken, and comes to what it would have come to."""
        def check(long, credit):
            self.fill()
            client = self.start("--open-jobs", 2)
            self.assertTrue(client.ask(grant(credit))["ok"])
            self.assertEqual(client.ask(long), {"job": self.JOBS + 1, "ok": True})
            self.assertEqual(client.ask({**submit(), "tenant": "u"}), {"job": self.JOBS + 2, "ok": True})
            client.over(self.JOBS + 2)
            account = client.ask(ACCOUNT)
            self.server.kill()
            before = book_of(self.data())
            client = self.start()
            account_anew = client.ask(ACCOUNT)
            if not is_open(client, self.JOBS + 1):
                return False
            self.assertNotIn(self.JOBS + 1, before.ends)
            self.assertEqual(account_anew, account)
            self.assertEqual(book_of(self.data()).jobs[self.JOBS], before.jobs[self.JOBS])
            result = json.loads(client.over(self.JOBS + 1))
            self.assertEqual(result["spent"] + result["returned"], credit)
            with self.fresh() as other:
                other.ask(grant(credit))
                other.ask(long)
                self.assertEqual(comparable(json.loads(other.over(1))), comparable(result))
            return True

        self.beside_a_long_job(check, buffer="010203")

    def folder(self, name):
        path = os.path.join(self.room, name)
        os.mkdir(path)
        return path

    def test_a_torn_tail_is_cut_first(self):
        told, before = self.fill(), self.data()
        self.write(before + b"torn")
        status, lines = self.server.run()
        cut, compacted = lines.splitlines(keepends=True)
        line = f"bpfjobs: {self.server.journal}: cut off 4 bytes of a torn record, which {self.server.journal}.torn has\n"
        self.assertEqual((status, cut), (0, line))
        self.check_compacted(before, compacted)
        self.assertEqual(self.told(self.start()), told)

    def test_what_a_crash_has_left(self):
        """It is removed, and a link isn't written through."""
        told, before = self.fill(), self.data()
        other = os.path.join(self.room, "other")
        with open(other, "wb") as file:
            file.write(b"something else")
        os.symlink("other", self.beside())
        self.check_compacted(before, self.server.run()[1])
        self.assertEqual((read(other), os.path.islink(self.server.journal)), (b"something else", False))
        self.write(before)
        with open(self.beside(), "wb") as file:
            file.write(b"of a crash" * 1000)
        self.check_compacted(before, self.server.run()[1])
        self.assertEqual(self.told(self.start()), told)

    def test_servers_that_start_at_once(self):
        """One of them goes on, whichever it is, and all others are refused: none works on a file without a name."""
        for _ in range(10):
            told = self.fill()
            others = [self.keeper() for _ in range(6)]
            for number, other in enumerate(others):
                other.socket = os.path.join(self.room, f"other{number}")
                other.start(stderr=subprocess.PIPE)
            wait_for(lambda: sum(other.process.poll() is None for other in others) <= 1, "the ends of all but one")
            (going,) = [other for other in others if other.process.poll() is None]
            for other in others:
                if other is not going:
                    line = f"bpfjobs: {self.server.journal}: in use by another server\n"
                    self.assertEqual((other.process.wait(), other.process.stderr.read().decode()), (3, line))
            client = self.connect(going)
            self.assertEqual(self.told(client), told)
            client.ask(grant(1))
            self.assertEqual(book_of(self.data()).granted["t"], 101)
            for other in others:
                other.end()
            os.remove(self.server.journal)

    def test_permissions_stay(self):
        for mode in (0o600, 0o640, 0o644):
            self.fill()
            os.chmod(self.server.journal, mode)
            self.server.run()
            self.assertEqual(stat.S_IMODE(os.stat(self.server.journal).st_mode), mode)
            os.remove(self.server.journal)

    def test_a_link_stays_a_link(self):
        told = self.fill()
        real = os.path.join(self.room, "real")
        os.rename(self.server.journal, real)
        os.symlink("real", self.server.journal)
        before = read(real)
        self.server.run()
        self.assertEqual(os.readlink(self.server.journal), "real")
        self.assertLess(2 * os.path.getsize(real), len(before))
        self.assertEqual(sorted(os.listdir(self.room)), ["journal", "real"])
        self.assertEqual(self.told(self.start()), told)

    def test_a_second_server_is_refused(self):
        """The file that took the journal's name is locked."""
        told = self.fill()
        client = self.start()
        self.assertEqual(self.told(client), told)
        other = self.keeper()
        other.socket = os.path.join(self.room, "other")
        self.assertEqual(other.run(), (3, f"bpfjobs: {self.server.journal}: in use by another server\n"))
        self.assertEqual(self.told(client), told)

    def test_kills(self):
        """A server under load that keeps a few reports is killed at any moment, and started anew."""
        for seed, clients, keep in ((1, 4, 20), (2, 1, 1)):
            with self.subTest(keep=keep):
                folder = self.folder(f"kills-{seed}")
                load = Load(folder, seed, good_jobs(assemble, seed), clients=clients, keep=keep)
                self.addCleanup(load.end)
                for _ in range(12):
                    load.round(longest=200)
                load.audit_all()
                self.assertEqual(load.wrong, [])
                self.assertGreater(load.compactions, 0)


class NotCompacted(Long):
    """Where a snapshot can't be written the server goes on with the long journal, and a line tells so."""

    def check_kept(self, told, before):
        status, lines = self.server.run()
        self.assertEqual(status, 0)
        self.assertRegex(lines, rf"\Abpfjobs: {re.escape(self.server.journal)}: not compacted: .+\n\Z")
        self.assertEqual(self.data(), before)
        self.assertEqual(self.told(self.start()), told)
        self.server.kill()

    def test_something_else_has_the_name(self):
        told, before = self.fill(), self.data()
        os.mkdir(self.beside())
        self.check_kept(told, before)
        os.rmdir(self.beside())
        self.check_compacted(before, self.server.run()[1])

    def test_no_room(self):
        """A limit for files that the snapshot passes."""
        told, before = self.fill(), self.data()
        words = ["prlimit", "--fsize=64:64", *self.server.command("--until-eof")]
        script = "import signal, subprocess, sys; signal.signal(signal.SIGXFSZ, signal.SIG_IGN); sys.exit(subprocess.run(sys.argv[1:], restore_signals=False).returncode)"
        ran = subprocess.run(["python3", "-c", script, *words], stdin=subprocess.DEVNULL, capture_output=True, text=True, timeout=PATIENCE, check=False)
        line = f"bpfjobs: {self.server.journal}: not compacted: a snapshot can't be written\n"
        self.assertEqual((ran.returncode, past_listening(ran.stderr, words)), (0, line))
        self.assertEqual((self.data(), os.path.exists(self.beside())), (before, False))
        self.assertEqual(self.told(self.start()), told)


@unittest.skipUnless(shutil.which("strace"), "needs Debian's strace")
class Crashes(Long):
    """The start of a server whose journal is compacted, which ends or fails at each of its calls."""

    CALLS = "openat,write,fsync,fdatasync,ftruncate,fchmod,rename,renameat,renameat2,unlink,unlinkat"

    def run_with(self, what):
        """The status and the lines of a server of which a call fares so, and whether any did. That it takes connections,
        which may be the call, is left out."""
        told = os.path.join(self.room, "calls")
        words = ["strace", "-f", "-qq", "-o", told, "-e", f"trace={self.CALLS}", "-e", f"inject={self.CALLS}:{what}", *self.server.command("--until-eof")]
        ran = subprocess.run(words, stdin=subprocess.DEVNULL, capture_output=True, text=True, timeout=PATIENCE, check=False)
        with open(told, encoding="utf-8") as file:
            text = file.read()
        os.remove(told)
        lines = ran.stderr.replace(f"bpfjobs: {listening(words)}\n", "")
        return ran.returncode, lines, "INJECTED" in text or "killed by SIGKILL" in text, text

    def first_call(self):
        """The number of the first call that has to do with the journal."""
        text = self.run_with("delay_exit=0:when=60000")[3]
        lines = [line for line in text.splitlines() if "(" in line]
        return next(number for number, line in enumerate(lines, 1) if self.server.journal in line)

    def check_each(self, what, check):
        told, before = self.fill(), self.data()
        first = self.first_call()
        self.write(before)
        replaced = set()
        for number in range(first, first + 60):
            with self.subTest(what=what, number=number):
                status, lines, was_hit, text = self.run_with(f"{what}:when={number}")
                after = self.data()
                replaced.add(after != before)
                check(status, lines, was_hit, text)
                self.assertEqual(book_of(after).account("t"), book_of(before).account("t"))
                self.assertEqual(self.told(self.start()), told)
                self.server.kill()
                self.write(before)
                if not was_hit:
                    break
        else:
            self.fail("the server's start has no end")
        # some left the old file, and some the new one
        self.assertEqual(replaced, {False, True})

    def write(self, data):
        """Puts a journal there anew, in a file of its own."""
        for path in (self.server.journal, self.beside()):
            if os.path.exists(path):
                os.remove(path)
        super().write(data)

    def test_a_kill_at_each_call(self):
        def check(status, lines, was_hit, text):
            self.assertEqual(was_hit, status != 0, (status, lines))

        self.check_each("signal=SIGKILL", check)

    def test_each_call_fails(self):
        """A failure is told, or comes behind all that matters."""
        def check(status, lines, was_hit, text):
            self.assertIn(status, (0, 3), text)
            if status == 3:
                self.assertTrue(lines, text)
            if was_hit and self.server.journal in "".join(line for line in text.splitlines() if "INJECTED" in line):
                self.assertTrue(lines, text)

        self.check_each("error=EIO", check)

    def test_the_order_of_calls(self):
        """The snapshot is synced ahead of its rename, and the folder behind it, ahead of anything else."""
        self.fill()
        text = self.run_with("delay_exit=0:when=60000")[3]
        calls = [re.sub(r"^\d+ +", "", line).split("(")[0] for line in text.splitlines()]
        rename = next(at for at, name in enumerate(calls) if name.startswith("rename"))
        self.assertIn(calls[rename - 1], ("fsync", "fdatasync"))
        self.assertEqual(calls[rename - 2], "write")
        self.assertEqual([name for name in calls[rename + 1 :] if name != "openat"][0], "fsync")


class Shown(Long):
    """`bpfjobs journal` of a snapshot."""

    def test_lines(self):
        self.fill()
        self.server.run()
        ran = subprocess.run([BPFJOBS, "journal", self.server.journal], capture_output=True, text=True, timeout=PATIENCE, check=True)
        lines = [json.loads(line) for line in ran.stdout.splitlines()]
        self.assertEqual([line["change"] for line in lines], ["account_opened"] * 2 + ["jobs_skipped"] + ["report_kept"] * 2 + ["jobs_skipped"])
        self.assertEqual([(line["tenant"], line["granted"], line["spent"]) for line in lines[:2]], [("t", 100, 3 * self.JOBS), ("u", 7, 0)])
        self.assertEqual(lines[2]["count"], self.JOBS - KEPT)
        self.assertEqual([(line["job"], line["tenant"], line["credit"], line["report"]["spent"]) for line in lines[3:5]], [(job, "t", 3, 3) for job in (self.JOBS - 1, self.JOBS)])
        ran = subprocess.run([BPFJOBS, "journal", self.server.journal, "--check"], capture_output=True, text=True, timeout=PATIENCE, check=True)
        self.assertEqual(ran.stdout, f"{self.server.journal}: 6 records, whole\n")
