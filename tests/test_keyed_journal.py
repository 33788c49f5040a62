"""The keys of submits outlive a restart with a journal, at each tenant's own door."""

import contextlib
import json
import shutil
import subprocess
import tempfile
import threading
import time
import unittest

import journals
from journals import MOST_KEYS, Keeper, book_of, by_key, change_of, key_kept, payloads_of, record, starts_of, traced
from patience import PATIENCE, wait_for
from programs import BPFJOBS, submit_text
from test_clients import is_open
from test_journal import ADD, grant, submit
from test_tenant_journal import Room as TenantRoom

NO_REQUEST = {"code": 73, "ok": False}
TOO_MANY = {"code": 81, "ok": False}


def keyed(key, tenant="alice", credit=3):
    """A submit that has a key."""
    return {**submit(credit, tenant), "key": key}


def asked_by(key):
    """A submit that asks for nothing, but by a key: it is taken where the key has a job, and only there."""
    return {"op": "submit", "key": key}


class Room(TenantRoom):
    """A server of tenants that keeps journals. The keys are alice's, unless a test says otherwise."""

    def granted(self, amount=1000):
        """Starts the server, grants both tenants credit, and gives a connection to alice's door."""
        self.server.start()
        for tenant in self.TENANTS:
            self.grant(tenant, amount)
        return self.connect("alice")

    def restarted(self):
        """A connection to alice's door, of a server that took the place of one that was killed."""
        self.again()
        return self.connect("alice")

    def taken(self, client, request, number):
        self.assertEqual(client.ask(request), {"job": number, "ok": True})

    def check_nothing_taken(self, client, requests, numbers):
        """These are told these numbers, and leave no trace at the desk and in its journal."""
        account, listing = client.told({"op": "account"}), client.told({"op": "jobs"})
        before = self.server.data("alice")
        for request, number in zip(requests, numbers, strict=True):
            self.taken(client, request, number)
        self.assertEqual((client.told({"op": "account"}), client.told({"op": "jobs"})), (account, listing))
        self.assertEqual(self.server.data("alice"), before)

    def keys(self, client, first=1):
        """The keys of jobs by their numbers, as a listing tells them."""
        return {job["job"]: job.get("key") for job in client.ask({"op": "jobs", "from": first})["jobs"]}

    def write(self, data, name="alice"):
        with open(self.server.file(name), "wb") as file:
            file.write(data)


class Kept(Room):
    def test_the_same_key_behind_a_restart(self):
        """It is told the same job, and starts nothing. A new key has the next number."""
        client = self.granted()
        self.taken(client, keyed("a"), 1)
        self.taken(client, submit(tenant="alice"), 2)
        self.taken(client, keyed("b"), 3)
        client = self.restarted()
        results = [client.over(number) for number in (1, 2, 3)]
        self.check_nothing_taken(client, [keyed("a"), keyed("b", credit=900_000), asked_by("a")], (1, 3, 1))
        self.assertEqual(self.keys(client), {1: "a", 2: None, 3: "b"})
        self.assertEqual(client.ask(asked_by("c")), NO_REQUEST)
        self.taken(client, keyed("c"), 4)
        client = self.restarted()
        self.assertEqual([client.over(number) for number in (1, 2, 3)], results)
        client.over(4)
        self.check_nothing_taken(client, map(asked_by, "abc"), (1, 3, 4))

    def test_a_lost_reply(self):
        """A submit of which nobody read the reply is one job, however often it is asked for."""
        self.granted()
        for _ in range(3):
            with self.server.connect("alice") as client:
                client.stream.sendall(journals.frame(json.dumps(keyed("a"))))
                client.next_told()
            self.again()
        client = self.connect("alice")
        self.assertEqual((client.ask({"op": "jobs"})["count"], self.keys(client)), (1, {1: "a"}))
        self.assertEqual(json.loads(client.over(1))["spent"], 3)

    def test_connections_that_ask_at_once(self):
        """Of many submits by one key one is taken, also where a kill comes between them."""
        self.granted()
        for number in range(1, 6):
            clients, replies = [self.connect("alice") for _ in range(8)], []

            def ask(client, key=f"k{number}"):
                with contextlib.suppress(OSError):
                    replies.append(client.ask(keyed(key)))

            threads = [threading.Thread(target=ask, args=(client,)) for client in clients]
            for thread in threads:
                thread.start()
            if number % 2:
                wait_for(lambda: len(replies) >= number, "some of the replies")
                self.again()
            for thread in threads:
                thread.join()
            with self.server.connect("alice") as client:
                self.taken(client, keyed(f"k{number}"), number)
            self.assertEqual(replies, [{"job": number, "ok": True}] * len(replies))
        client = self.restarted()
        self.assertEqual(self.keys(client), {number: f"k{number}" for number in range(1, 6)})

    def test_each_door_has_keys_of_its_own(self):
        alice = self.granted()
        self.taken(alice, keyed("a"), 1)
        self.taken(alice, keyed("b"), 2)
        self.taken(self.connect("bob"), keyed("b", "bob"), 1)
        alice, bob = self.restarted(), self.connect("bob")
        self.assertEqual(bob.ask(asked_by("a")), NO_REQUEST)
        self.taken(bob, asked_by("b"), 1)
        self.taken(bob, keyed("a", "bob"), 2)
        # whichever place a tenant has: a key is in the journal of its name
        self.again("bob", "alice")
        alice, bob = self.connect("alice"), self.connect("bob")
        for client, numbers in ((alice, (1, 2)), (bob, (2, 1))):
            for key, number in zip("ab", numbers):
                self.taken(client, asked_by(key), number)

    def test_at_the_other_sockets(self):
        """No key is heard there, and none is recorded."""
        self.server.start()
        self.grant("t")
        client = self.connect("all")
        for number in (1, 2):
            self.taken(client, keyed("a", "t"), number)
        self.assertEqual(book_of(self.server.data()).keyed, [])
        self.again()
        self.taken(self.connect("all"), keyed("a", "t"), 3)

    def test_the_record_of_a_job_has_its_key(self):
        client = self.granted()
        self.taken(client, keyed("a-b_9"), 1)
        self.taken(client, submit(tenant="alice"), 2)
        self.taken(client, keyed("a-b_9"), 1)
        client.over(2)
        changes = [change_of(payload) for payload in payloads_of(self.server.data("alice"))[0]]
        taken = [change for change in changes if change[0] in ("submitted", "by_key")]
        program = ("alice", [(0, ADD)], 3, b"")
        self.assertEqual(taken, [("by_key", "a-b_9", ("submitted", *program)), ("submitted", *program)])

    def test_a_submit_that_is_refused(self):
        """Its key has no job, behind a restart too. One that had a job keeps it."""
        client = self.granted(9)
        self.taken(client, keyed("old"), 1)
        client.over(1)
        before = self.server.data("alice")
        wrong = json.loads(submit_text([(0, b"\0" * 8)], 3, b"", tenant="alice"))
        for request, code in [(keyed("a", credit=7), 75), (keyed("b", "bob"), 74), (keyed("c", "eve"), 74),
                              ({**wrong, "key": "d"}, 4), (keyed("A"), 73), (keyed("e" * 65), 73), (asked_by("f"), 73)]:
            self.assertEqual(client.ask(request)["code"], code)
        self.assertEqual(self.server.data("alice"), before)
        client = self.restarted()
        for key in "abcdf":
            self.assertEqual(client.ask(asked_by(key)), NO_REQUEST)
        self.check_nothing_taken(client, [keyed("old", credit=7)], (1,))
        self.taken(client, keyed("a"), 2)

    def test_a_start_that_is_refused(self):
        """The job was taken, and failed by 81: its key has it from then on."""
        def check(long, credit):
            self.server.words += ["--tenant-jobs", "1"]
            client = self.granted(credit + 10)
            self.taken(client, long, 1)
            self.taken(client, keyed("failed"), 2)
            if not is_open(client, 1):
                return False
            self.assertEqual(client.ask({"op": "result", "job": 2}), TOO_MANY)
            client = self.restarted()
            self.assertEqual(client.ask(asked_by("long")), {"job": 1, "ok": True})
            client.over(1)
            self.check_nothing_taken(client, map(asked_by, ("failed", "long")), (2, 1))
            self.assertEqual(client.ask({"op": "result", "job": 2}), TOO_MANY)
            self.assertEqual(self.keys(client), {1: "long", 2: "failed"})
            return True

        self.beside_a_long_job(check, tenant="alice", key="long")

    def test_a_journal_without_keys(self):
        """One of a server that had none is gone on with, byte for byte, and has keys from then on."""
        payloads = [journals.granted("alice", 100), journals.submitted("alice", ADD, 3), journals.failed(1, 82)]
        data = b"".join(map(record, payloads))
        self.write(data)
        self.assertEqual(self.server.run(), (0, ""))
        self.assertEqual(self.server.data("alice"), data)
        self.server.start()
        client = self.connect("alice")
        self.assertEqual(self.keys(client), {1: None})
        self.taken(client, keyed("a"), 2)
        client.over(2)
        self.assertEqual(self.server.data("alice")[: len(data)], data)
        client = self.restarted()
        self.assertEqual(self.keys(client), {1: None, 2: "a"})

    def is_recorded(self, key):
        return key in dict(book_of(self.server.data("alice")).keyed).values()

    def test_by_the_second(self):
        """With `--journal-sync interval` a job and its key may both be gone after a kill. An orderly end keeps them."""
        self.server.words += ["--journal-sync", "interval"]
        for number in range(6):
            client = self.granted()
            key = f"k{number}"
            told = client.ask(keyed(key))
            self.assertTrue(told["ok"])
            if number % 2:
                # a second later it is in the journal
                wait_for(lambda: self.is_recorded(key), "a record")
            client = self.restarted()
            keys = self.keys(client)
            wanted = next(({"job": job, "ok": True} for job, other in keys.items() if other == key), NO_REQUEST)
            self.assertEqual(client.ask(asked_by(key)), wanted)
            self.assertIn(wanted, (told,) if number % 2 else (told, NO_REQUEST))
            self.server.kill()
        self.server.start("--until-eof", stdin=subprocess.PIPE)
        self.grant("alice")
        told = self.connect("alice").ask(keyed("last"))
        self.server.process.stdin.close()
        self.assertEqual(self.server.process.wait(PATIENCE), 0)
        self.server.start()
        self.assertEqual(self.connect("alice").ask(asked_by("last")), told)

    def test_without_a_journal(self):
        """A restart forgets the keys."""
        class Plain(journals.TenantKeeper):
            def command(self, *more):
                words = super().command(*more)
                at = words.index("--journal")
                return words[:at] + words[at + 2 :]

        self.server = Plain(self.room, *self.TENANTS)
        self.addCleanup(self.server.end)
        for _ in range(2):
            client = self.granted()
            self.assertEqual(client.ask(asked_by("a")), NO_REQUEST)
            self.taken(client, keyed("a"), 1)
            self.taken(client, keyed("a"), 1)
            self.server.kill()


class Compacted(Room):
    """Keys through a snapshot that takes a journal's place."""

    def compact(self):
        """Kills the server, and has another one start and end. Its journal is shorter then."""
        self.server.kill()
        before = self.server.data("alice")
        book = book_of(before)
        status, lines = self.server.run()
        self.assertEqual((status, lines.count(f"{self.server.file('alice')}: compacted from {len(before)} to ")), (0, 1), lines)
        after = book_of(self.server.data("alice"))
        self.assertEqual(after.remembered(), book.remembered())
        return self.server.data("alice")

    def test_jobs_in_each_state(self):
        """Keys of jobs that are over, failed, forgotten and open, over two compactions."""
        self.beside_a_long_job(self.check_each_state, tenant="alice", key="long")

    def check_each_state(self, long, credit):
        self.server.words += ["--keep", "4", "--tenant-jobs", "1"]
        client = self.granted(3 * credit)
        for number in range(1, 16):
            one = keyed(f"k{number}") if number % 3 else submit(tenant="alice")
            self.taken(client, {**one, "buffer": bytes(60_000).hex()} if number < 5 else one, number)
            client.over(number)
        wanted = {number: f"k{number}" for number in range(1, 16) if number % 3}
        self.taken(client, long, 16)
        self.taken(client, keyed("failed"), 17)
        self.server.kill()
        if 16 in book_of(self.server.data("alice")).ends:
            return False
        wanted |= {16: "long", 17: "failed"}
        snapshot = self.compact()
        kinds = [payload[0] for payload in payloads_of(snapshot)[0]]
        # keys stand behind all jobs, of which the open one has its submit
        self.assertEqual(kinds[kinds.index(11) : kinds.index(11) + len(wanted)], [11] * len(wanted))
        self.assertEqual(book_of(snapshot).keyed[: len(wanted)], list(wanted.items()))
        self.server.start()
        client = self.connect("alice")
        client.over(16)
        self.check_nothing_taken(client, map(asked_by, wanted.values()), wanted)
        listed = self.keys(client)
        self.assertEqual(listed, {number: wanted.get(number) for number in listed})
        self.assertLessEqual({16, 17}, set(listed))
        self.assertLess(len(listed), 8)
        return self.check_once_more(client, wanted)

    def check_once_more(self, client, wanted):
        """Another compaction, with jobs that came since."""
        for number in range(18, 40):
            self.taken(client, keyed(f"k{number}"), number)
            client.over(number)
            wanted[number] = f"k{number}"
        self.compact()
        self.assertEqual(self.server.run(), (0, ""))
        self.server.start()
        client = self.connect("alice")
        self.check_nothing_taken(client, map(asked_by, wanted.values()), wanted)
        self.assertEqual(self.keys(client), {number: f"k{number}" for number in range(36, 40)})
        self.taken(client, keyed("next"), 40)
        return True

    def test_the_last_thousand(self):
        """Older keys have no job any more: of records that are replayed, and of a snapshot."""
        count, extra = MOST_KEYS + 5, 3
        self.server.words += ["--keep", "2"]
        data = [record(journals.granted("alice", 3 * count + 100))]
        for number in range(1, count + 1):
            data.append(record(by_key(b"k%d" % number, journals.submitted("alice", ADD, 3))))
            data.append(record(journals.failed(number, 82)))
        self.write(b"".join(data))
        last = {number: f"k{number}" for number in range(6, count + 1)}
        snapshot = self.compact_first(count)
        self.assertEqual(book_of(snapshot).keyed, list(last.items()))
        self.server.start()
        client = self.connect("alice")
        self.check_nothing_taken(client, map(asked_by, last.values()), last)
        for number in range(1, 6):
            self.assertEqual(client.ask(asked_by(f"k{number}")), NO_REQUEST)
        # keys that are new take the places of the oldest ones, also behind a snapshot
        for number in range(count + 1, count + extra + 1):
            self.taken(client, keyed(f"k{number}"), number)
            client.over(number)
        client = self.restarted()
        self.assertEqual([client.ask(asked_by(f"k{number}")) for number in range(6, 9)], [NO_REQUEST] * 3)
        for number in range(9, count + extra + 1):
            self.taken(client, asked_by(f"k{number}"), number)
        # an old key is as a new one
        self.taken(client, keyed("k1"), count + extra + 1)
        self.taken(self.restarted(), asked_by("k1"), count + extra + 1)

    def compact_first(self, count):
        """A server that forgets jobs, as it grants, and one that compacts."""
        self.server.start()
        self.grant("alice", 1)
        listed = self.connect("alice").ask({"op": "jobs"})
        self.assertEqual((listed["count"], [job["job"] for job in listed["jobs"]]), (count, [count - 1, count]))
        return self.compact()


class Damage(Room):
    def setUp(self):
        super().setUp()
        self.server.run()

    def journal(self, *words):
        ran = subprocess.run([BPFJOBS, "journal", self.server.file("alice"), *words], capture_output=True, text=True, timeout=PATIENCE, check=False)
        return ran.returncode, ran.stdout, ran.stderr

    def test_a_torn_tail_at_each_byte(self):
        """Of the last record, a submit by a key: the job and its key are both there, or neither is."""
        first = record(journals.granted("alice", 100)) + record(by_key(b"first", journals.submitted("alice", ADD, 3)))
        first += record(journals.failed(1, 82))
        last = record(by_key(b"last", journals.submitted("alice", ADD, 3)))
        for cut in range(len(last) + 1):
            with self.subTest(cut=cut):
                self.write(first + last[:cut])
                is_there = cut == len(last)
                self.server.start()
                client = self.connect("alice")
                self.taken(client, asked_by("first"), 1)
                self.assertEqual(client.ask({"op": "jobs"})["count"], 2 if is_there else 1)
                if is_there:
                    client.over(2)
                    self.check_nothing_taken(client, [keyed("last")], (2,))
                else:
                    self.assertEqual(client.ask(asked_by("last")), NO_REQUEST)
                    self.assertEqual(self.server.data("alice"), first)
                    self.taken(client, keyed("last"), 2)
                self.assertEqual(self.keys(client), {1: "first", 2: "last"})
                self.server.kill()

    def test_what_a_server_wrote_torn(self):
        """The same of a journal that a server wrote, and of its other tenants: nothing of theirs changes."""
        client = self.granted()
        for number in range(1, 5):
            self.taken(client, keyed(f"k{number}"), number)
            client.over(number)
        self.server.kill()
        data, bob = self.server.data("alice"), self.server.data("bob")
        for start in starts_of(data):
            for cut in {start, min(start + 9, len(data))} if start else {0}:
                self.write(data[:cut])
                wanted = book_of(data[:start]) if cut < len(data) else book_of(data)
                self.server.start()
                client = self.connect("alice")
                self.assertEqual(self.keys(client), dict(wanted.keyed))
                for number, key in wanted.keyed:
                    self.taken(client, asked_by(key), number)
                self.assertEqual(client.ask(asked_by(f"k{len(wanted.jobs) + 1}")), NO_REQUEST)
                self.server.kill()
                self.assertEqual(self.server.data("bob"), bob)

    def refused(self):
        """The lines of a server that doesn't begin. Each journal has to stay as it is."""
        before = self.server.all_data()
        status, lines = self.server.run()
        self.assertEqual((status, len(lines.splitlines()), self.server.all_data()), (3, 1, before), lines)
        return lines

    def test_what_is_no_key(self):
        """A whole record by what is no key is none that a desk allows, wherever it stands."""
        client = self.granted()
        self.taken(client, keyed("a"), 1)
        client.over(1)
        self.server.kill()
        data = self.server.data("alice")
        keys = [b"", b"a" * 65, b"ABC", b"a b", b"\xff", "ä".encode(), b"a\0"]
        more = record(journals.granted("alice", 1))
        for key in keys:
            for payload in (by_key(key, journals.submitted("alice", ADD, 3)), key_kept(1, key)):
                for behind in (b"", more, more[:-1]):
                    with self.subTest(payload=payload, behind=behind):
                        self.write(data + record(payload) + behind)
                        line = f"{self.server.file('alice')}: damaged at byte {len(data)}: the record there doesn't follow from those ahead\n"
                        self.assertEqual(self.refused(), f"bpfjobs: {line}")
                        self.assertEqual(self.journal("--check"), (3, "", f"bpfjobs: {line}"))
        self.write(data + record(by_key(b"a" * 64, journals.submitted("alice", ADD, 3))))
        self.assertEqual(self.server.run(), (0, ""))

    def test_changes_within_a_change(self):
        """What is by a key is a change of the desk: neither one by a further key, nor a key that is kept."""
        data = record(journals.granted("alice", 100))
        one = journals.submitted("alice", ADD, 3)
        for inner in (by_key(b"b", one), key_kept(1, b"b"), b"", one[:-1], one + b"\0"):
            self.write(data + record(by_key(b"a", inner)))
            line = f"bpfjobs: {self.server.file('alice')}: damaged at byte {len(data)}: the record there is no change of a desk\n"
            self.assertEqual(self.refused(), line)

    def test_a_job_that_the_desk_refuses(self):
        """By a key too it is refused as a record that doesn't follow."""
        data = record(journals.granted("alice", 5))
        for change in (journals.submitted("alice", ADD, 6), journals.submitted("eve", ADD, 3), journals.failed(1, 81)):
            self.write(data + record(by_key(b"a", change)))
            line = f"bpfjobs: {self.server.file('alice')}: damaged at byte {len(data)}: the record there doesn't follow from those ahead\n"
            self.assertEqual(self.refused(), line)

    def test_flipped_bits_of_a_key(self):
        """A changed key ahead of another record is told with its place, and isn't gone on with."""
        data = record(journals.granted("alice", 100))
        last = record(by_key(b"key", journals.submitted("alice", ADD, 3)))
        behind = record(journals.failed(1, 82))
        at = last.index(b"key")
        for place in range(at, at + 3):
            for bit in range(8):
                changed = bytearray(last)
                changed[place] ^= 1 << bit
                self.write(data + bytes(changed) + behind)
                told = f"damaged at byte {len(data)}: a whole record stands at byte {len(data) + len(last)}"
                self.assertEqual(self.refused(), f"bpfjobs: {self.server.file('alice')}: {told}\n")


@unittest.skipUnless(shutil.which("strace"), "needs Debian's strace")
class Synced(Room):
    def test_a_key_that_another_connection_asks_for(self):
        """It is told once the record of its job is on the disk, as the first one is."""
        self.granted()
        self.server.kill()
        told, waited = self.server.path("calls"), 0.5
        slow = ["-e", "trace=fdatasync", "-e", f"inject=fdatasync:delay_enter={int(1e6 * waited)}"]
        self.server.start(ahead=["strace", "-f", "-qq", "-o", told, *slow])
        first, second = self.connect("alice"), self.connect("alice")
        for client in (first, second):
            self.assertEqual(client.ask(asked_by("a")), NO_REQUEST)

        def work():
            began = time.monotonic()
            first.stream.sendall(journals.frame(json.dumps(keyed("a"))))
            # the write of its record is over, and the sync begins
            wait_for(lambda: book_of(self.server.data("alice")).keyed, "the record of a job")
            self.taken(second, asked_by("a"), 1)
            self.assertGreater(time.monotonic() - began, waited)
            self.assertEqual(first.next_told(), b'{"job":1,"ok":true}')

        self.assertIn("fdatasync", traced(told, self.server.process, work)[0])


class OneDesk(unittest.TestCase):
    """A server without doors of tenants hears no key, and goes on from a journal that has some."""

    def test_a_journal_with_keys(self):
        with tempfile.TemporaryDirectory() as room:
            server = Keeper(room)
            self.addCleanup(server.end)
            data = record(journals.granted("t", 100)) + record(by_key(b"a", journals.submitted("t", ADD, 3)))
            with open(server.journal, "wb") as file:
                file.write(data)
            server.start()
            with server.connect() as client:
                self.assertEqual(json.loads(client.over(1))["spent"], 3)
                self.assertEqual(client.ask(keyed("a", "t")), {"job": 2, "ok": True})
                self.assertEqual(client.ask(grant(1))["granted"], 101)
            server.kill()
            self.assertEqual(book_of(journals.read(server.journal)).keyed, [(1, "a")])


if __name__ == "__main__":
    unittest.main()
