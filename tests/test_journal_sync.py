"""`bpfjobs serve --journal FILE --journal-sync interval`: replies wait for no sync, and journals
are synced at intervals. `.ci/in_time.py` tells how long these are."""

import contextlib
import os
import re
import shutil
import subprocess
import threading
import time
import unittest

import test_journal
from journals import Keeper, Raw, book_of, failed_lines, kill_traced, payloads_of, read
from patience import PATIENCE, wait_for
from programs import BPFJOBS, past_listening
from test_clients import ASKED
from test_journal import ACCOUNT, Room, grant, submit

INTERVAL = "--journal-sync", "interval"


class AtIntervals(Room):
    """A server whose replies wait for no sync."""

    def keeper(self, *words, **how):
        return super().keeper(*INTERVAL, *words, **how)

    def granted(self):
        return book_of(self.data()).granted.get("t", 0)


class Kept(AtIntervals):
    def busy(self, client):
        """A grant and a job. Gives what is told of them."""
        self.assertEqual(client.ask(grant(100))["granted"], 100)
        self.assertEqual(client.ask(submit()), {"job": 1, "ok": True})
        return client.over(1), client.told(ACCOUNT)

    def check_kept(self, told):
        client = self.start()
        self.assertEqual((client.told({"op": "result", "job": 1}), client.told(ACCOUNT)), told)

    def test_a_server_that_was_stopped(self):
        """It ends at once, and loses nothing."""
        client = self.start("--until-eof", stdin=subprocess.PIPE)
        told = self.busy(client)
        client.stream.close()
        self.server.process.stdin.close()
        self.assertEqual(self.server.process.wait(PATIENCE), 0)
        self.check_kept(told)

    def test_the_last_connection(self):
        client = self.start("--sessions", 1)
        told = self.busy(client)
        client.stream.close()
        self.assertEqual(self.server.process.wait(PATIENCE), 0)
        self.check_kept(told)

    def test_a_kill_behind_the_interval(self):
        told = self.busy(self.start())
        # a grant, a job, and its end
        wait_for(lambda: len(payloads_of(self.data())[0]) >= 3, "the records")
        self.server.kill()
        self.check_kept(told)

    def test_kills_at_any_moment(self):
        """A later server goes on from a beginning of what was told, which has all that stood in the
        journal."""
        before = 0
        for written in (0, 1, 0, 2, 0, 1):
            client = self.start()
            amount = client.ask(ACCOUNT).get("granted", 0)
            self.assertEqual(amount, before)
            for _ in range(written):
                found = self.granted()
                while self.granted() == found:
                    amount += 1
                    self.assertEqual(client.ask(grant(1))["granted"], amount)
            least = self.granted()
            for _ in range(ASKED):
                amount += 1
                self.assertEqual(client.ask(grant(1))["granted"], amount)
            self.server.kill()
            before = self.granted()
            self.assertTrue(least <= before <= amount, (least, before, amount))
            self.assertEqual(payloads_of(self.data())[1], b"")

    def test_a_record_or_none(self):
        """What is there is in order, and none of it in part."""
        client = self.start()
        for amount in range(1, 200):
            client.ask(grant(amount))
        wait_for(self.data, "records")
        self.server.kill()
        payloads, rest = payloads_of(self.data())
        amounts = [int.from_bytes(payload[-4:], "little") for payload in payloads]
        self.assertEqual((amounts, rest), (list(range(1, len(amounts) + 1)), b""))

    def test_always_is_the_default(self):
        """By that word all is there after a kill at once."""
        for words in ((), ("--journal-sync", "always")):
            with self.subTest(words=words):
                server = Keeper(self.room, *words, name=f"journal{len(words)}")
                self.addCleanup(server.end)
                server.start()
                with server.connect() as client:
                    client.ask(grant(7))
                server.kill()
                with open(server.journal, "rb") as file:
                    self.assertEqual(book_of(file.read()).granted, {"t": 7})


class Doors(AtIntervals):
    """The journals of tenants' desks are synced as well, the last one too."""

    def test_each_journal(self):
        doors = {name: os.path.join(self.room, name) for name in ("a", "b")}
        words = [word for name, path in doors.items() for word in ("--tenant", f"{name}={path}")]
        self.server = self.keeper("--grants", os.path.join(self.room, "grants"), *words)
        self.server.start()
        with Raw(os.path.join(self.room, "grants"), self.server.process) as granting:
            for tenant in ("t", "a", "b"):
                self.assertTrue(granting.ask(grant(9, tenant))["ok"])
        files = {tenant: os.path.join(self.room, name) for tenant, name in (("t", "journal"), ("a", "journal.a"), ("b", "journal.b"))}
        wait_for(lambda: all(map(os.path.getsize, files.values())), "the records of each journal")
        self.server.kill()
        for tenant, path in files.items():
            self.assertEqual(book_of(read(path)).granted, {tenant: 9})


class Words(Room):
    def said(self, *words):
        """The status and the lines of a server by these words, beside that it takes connections, where it does."""
        words = [BPFJOBS, "serve", "--socket", self.server.socket, "--until-eof", *words]
        ran = subprocess.run(words, stdin=subprocess.DEVNULL, capture_output=True, text=True, timeout=PATIENCE, check=False)
        self.assertEqual(ran.stdout, "")
        return ran.returncode, ran.stderr if ran.returncode else past_listening(ran.stderr, words)

    def test_without_a_journal(self):
        for word in ("always", "interval"):
            line = "error: serve takes --journal-sync with --journal alone\n"
            self.assertEqual(self.said("--journal-sync", word), (2, line))

    def test_other_words(self):
        line = "error: serve takes --journal-sync always or --journal-sync interval\n"
        for word in ("", "Always", "interval ", "1", "never"):
            self.assertEqual(self.said("--journal", self.server.journal, "--journal-sync", word), (2, line))
        self.assertEqual(self.said("--journal-sync", "never"), (2, line))

    def test_twice_or_without_a_word(self):
        for words in (["--journal-sync"], ["--journal-sync", "always", "--journal-sync", "always"]):
            status, lines = self.said("--journal", self.server.journal, *words)
            self.assertEqual((status, lines[:7]), (2, "error: "), lines)
        self.assertEqual(os.listdir(self.room), [])

    def test_both_words(self):
        for word in ("always", "interval"):
            self.assertEqual(self.said("--journal", self.server.journal, "--journal-sync", word), (0, ""))

    def test_help(self):
        told = subprocess.run([BPFJOBS, "serve", "--help"], capture_output=True, text=True, check=True, timeout=PATIENCE)
        self.assertIn("--journal-sync <WHEN>", told.stdout)


class FailingAtIntervals(test_journal.Failing):
    """A journal that can't be written any more: no reply goes out from then on, as where each reply waits for it."""

    def keeper(self, *words, **how):
        return super().keeper(*INTERVAL, *words, **how)

    def check_failing(self, client):
        """Grants until the journal fails. What is in it is a beginning of what was told, and nothing is told behind."""
        told = 0
        others = [self.connect() for _ in range(3)]
        for other in others:
            self.assertIn(other.ask(ACCOUNT).get("code"), (None, 74))
        until = time.monotonic() + PATIENCE
        with contextlib.suppress(ConnectionResetError, BrokenPipeError):
            while time.monotonic() < until:
                self.assertEqual(client.ask(grant(1))["granted"], told + 1)
                told += 1
                # what waits for a second has to end in time
                time.sleep(0.0002)
        self.assertLess(time.monotonic(), until)
        for other in others:
            with self.assertRaises((ConnectionResetError, BrokenPipeError)):
                other.told(ACCOUNT)
        self.assertEqual(self.server.process.wait(PATIENCE), 3)
        self.assertEqual(self.server.lines(), failed_lines(self.server.journal))
        self.told = told
        return book_of(self.data()).granted.get("t", 0)

    def test_a_limit_for_files(self):
        super().test_a_limit_for_files()
        self.assertGreaterEqual(self.told, 1000 // 22)


@unittest.skipUnless(shutil.which("strace"), "needs Debian's strace")
class Synced(AtIntervals):
    """No reply waits for a sync, and nothing is synced where nothing changed."""

    CALL = re.compile(r"^\d+ +(\w+)\(\d+<([^>]*)>")

    def traced(self, *strace):
        """Starts a server whose writes and syncs strace tells."""
        self.told = os.path.join(self.room, "calls")
        self.server.start(ahead=["strace", "-f", "-y", "-qq", "-o", self.told, "-e", "trace=write,sendto,fdatasync", *strace])
        self.addCleanup(self.kill_traced, self.server.process, is_delayed=bool(strace))

    def kill_traced(self, process, is_delayed=False):
        """Kills a server, and not strace alone."""
        if process.poll() is None:
            kill_traced(process, is_delayed)

    def lines(self):
        with open(self.told, encoding="utf-8") as file:
            return file.read().splitlines()

    def calls(self, name="journal"):
        """The calls on a journal that have begun, by their names."""
        path = os.path.realpath(os.path.join(self.room, name))
        return [found[1] for found in map(self.CALL.match, self.lines()) if found and found[2] == path]

    def test_replies_between_syncs(self):
        """More replies go out than there are syncs. Each sync has one write ahead of it."""
        self.traced()
        client, replies = self.connect(), 0
        until = time.monotonic() + PATIENCE
        while self.calls().count("fdatasync") < 3 or replies < ASKED:
            client.ask(grant(1))
            replies += 1
            self.assertLess(time.monotonic(), until)
        self.kill_traced(self.server.process)
        calls = self.calls()
        self.assertLess(2 * calls.count("fdatasync"), replies)
        self.assertEqual(calls, (["write", "fdatasync"] * len(calls))[: len(calls)])

    def test_nothing_to_sync(self):
        """A journal that nobody changes isn't synced while another one is."""
        words = ["--grants", os.path.join(self.room, "grants"), "--tenant", f"a={os.path.join(self.room, 'a')}"]
        self.server = self.keeper(*words)
        self.traced()
        with Raw(os.path.join(self.room, "grants"), self.server.process) as client:
            client.ask(grant(1))
            wait_for(lambda: "fdatasync" in self.calls(), "a sync")
            until = time.monotonic() + PATIENCE
            while self.calls("journal.a").count("fdatasync") < 3:
                client.ask(grant(1, "a"))
                self.assertLess(time.monotonic(), until)
        self.kill_traced(self.server.process)
        self.assertEqual(self.calls(), ["write", "fdatasync"])

    def test_a_slow_disk(self):
        """Records are added and replies go out while a sync takes longer than anybody waits."""
        self.traced("-e", f"inject=fdatasync:delay_enter={PATIENCE}000000")
        client, amount, until = self.connect(), 0, time.monotonic() + PATIENCE
        behind = 0
        while behind < ASKED:
            amount += 1
            self.assertEqual(client.ask(grant(1))["granted"], amount)
            behind += "fdatasync" in self.calls()
            self.assertLess(time.monotonic(), until)
        self.assertEqual(self.calls(), ["write", "fdatasync"])
        self.assertLess(self.granted(), amount)

    def test_a_sync_that_fails(self):
        """An error of the disk ends it, and nobody is told anything from then on."""
        with self.assertRaises((ConnectionResetError, BrokenPipeError)):
            client = self.start(ahead=["strace", "-f", "-qq", "-o", "/dev/null", "-e", "trace=fdatasync",
                                       "-e", "inject=fdatasync:error=EIO"])
            until = time.monotonic() + PATIENCE
            while time.monotonic() < until:
                client.ask(grant(1))
        self.assertEqual(self.server.process.wait(PATIENCE), 3)


class ManyClients(AtIntervals):
    def test_many_at_once(self):
        """Eight clients grant at once. What is there at the end is all that was told."""
        self.server.start("--until-eof", stdin=subprocess.PIPE)
        told = [0] * 8

        def work(number):
            with self.server.connect() as client:
                for _ in range(100):
                    self.assertTrue(client.ask(grant(1, f"t{number}"))["ok"])
                    told[number] += 1

        threads = [threading.Thread(target=work, args=(number,)) for number in range(8)]
        for thread in threads:
            thread.start()
        for thread in threads:
            thread.join()
        self.server.process.stdin.close()
        self.assertEqual(self.server.process.wait(PATIENCE), 0)
        self.assertEqual(book_of(self.data()).granted, {f"t{number}": 100 for number in range(8)})
        self.assertEqual(told, [100] * 8)
