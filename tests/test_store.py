"""A store by itself: kills, power cuts, calls that fail, flipped bits, and what isn't one. The program is crates/store_tests.

STORE_PLACES=1000 has so many bits flipped of a file and of its log, and STORE_CALLS=400 so many calls fail. They are fewer else.
"""

import os
import random
import shutil
import signal
import sqlite3
import subprocess
import tempfile
import unittest
import zlib

from patience import PATIENCE
from stores import ENDS, STORE_TESTS, TOP, Disk, Notes, number_in, records, told_of

KILLS = 12
CUTS = 150
BATCHES = 60
CALLS = int(os.environ.get("STORE_CALLS", "12"))
PLACES = int(os.environ.get("STORE_PLACES", "24"))
# Of these a call may do half.
IN_PART = "pread", "pwrite", "read"


class Room(unittest.TestCase):
    def setUp(self):
        if not os.path.exists(STORE_TESTS):
            self.skipTest("store_tests isn't built")
        room = tempfile.TemporaryDirectory()
        self.addCleanup(room.cleanup)
        self.room = room.name
        self.path = os.path.join(self.room, "store")

    def count(self, batches, **more):
        """Has batches added until so many are told, and kills the program then. Gives all that was told."""
        run = subprocess.Popen([STORE_TESTS, "count", self.path], stdout=subprocess.PIPE, **more)
        with run:
            told = [run.stdout.readline() for _ in range(batches)]
            run.send_signal(signal.SIGKILL)
            told += run.stdout.read().splitlines(keepends=True)
            self.assertEqual(run.wait(PATIENCE), -signal.SIGKILL)
        return [int(line) for line in told if line.endswith(b"\n")]

    def shim(self, name):
        """A library that is preloaded, of a C file of this folder."""
        compiler = shutil.which("cc")
        if not compiler:
            self.skipTest("no C compiler")
        made = os.path.join(self.room, name + ".so")
        subprocess.run([compiler, "-shared", "-fPIC", "-O1", "-o", made, os.path.join(TOP, "tests", name + ".c"), "-ldl"], check=True)
        return made

    def check_stands(self, path, last):
        """The records are those of all batches that were told, and perhaps of one more."""
        told = told_of(path)
        number = number_in(told)
        self.assertIn(number, (last, last + 1))
        self.assertEqual(told, records(number))
        return number


class Kept(Room):
    def test_kills(self):
        """A kill leaves all batches that were told, and goes on from there."""
        last = 0
        for kill in range(KILLS):
            told = self.count(kill % 4)
            self.assertEqual(told, list(range(last + 1, last + 1 + len(told))))
            last = self.check_stands(self.path, last + len(told))

    def test_power_cuts(self):
        """A power cut at any moment leaves all batches that were told: what was synced is there, and of the rest any part."""
        shim, notes = self.shim("noted_writes"), os.path.join(self.room, "notes")
        self.count(BATCHES, env={**os.environ, "LD_PRELOAD": shim, "NOTED": notes})
        chance, disk = random.Random(1), Disk(self.room)
        events = list(Notes(notes))
        self.assertGreater(sum(kind == "s" for kind, *_ in events), BATCHES)
        moments = set(chance.sample(range(len(events)), min(CUTS, len(events))))
        copy = os.path.join(self.room, "cut")
        for moment, event in enumerate(events):
            disk.take(*event)
            if moment in moments:
                disk.leave(chance, copy)
                with self.subTest(moment=moment, of=len(events)):
                    self.check_stands(copy, disk.last)

    def test_by_sqlite(self):
        """Other programs read the tables by their names, and find what an operator looks for."""
        self.count(13)
        number = number_in(told_of(self.path))
        copy = os.path.join(self.room, "copy")
        for end in ENDS:
            shutil.copy(self.path + end, copy + end)
        with sqlite3.connect(copy) as base:
            self.assertEqual(base.execute("PRAGMA integrity_check").fetchall(), [("ok",)])
            self.assertEqual(base.execute("PRAGMA user_version").fetchall(), [(0x54454C01,)])
            self.assertEqual(base.execute("SELECT desk, name, granted FROM tenant").fetchall(), [(2, "ann", number * 1000)])
            self.assertEqual(base.execute("SELECT taken FROM desk WHERE number = 2").fetchall(), [(number,)])
            asked = ("SELECT job.number, key, spent, code FROM job JOIN outcome USING (id) LEFT JOIN job_key USING (id)"
                     " WHERE job.desk = 2 ORDER BY job.number DESC LIMIT 1")
            failed = number % 3 == 0
            self.assertEqual(base.execute(asked).fetchall(), [(number, None if number % 2 else "again",
                                                               None if failed else 3, 82 if failed else None)])
        base.close()


class Failing(Room):
    def run_with(self, path, **env):
        """Has two batches added with a shim, if all goes well, and gives the lines that are told."""
        with subprocess.Popen([STORE_TESTS, "count", path], stdout=subprocess.PIPE, env={**os.environ, "LD_PRELOAD": self.failing, **env}) as run:
            told = [run.stdout.readline(), run.stdout.readline()]
            run.kill()
            told += run.stdout.read().splitlines(keepends=True)
        return [line.decode().strip() for line in told if line.endswith(b"\n")]

    def check_calls(self, before):
        """Lets each call of an open and of two commits fail once, over a file of so many batches."""
        self.failing, noted = self.shim("failing_calls"), os.path.join(self.room, "calls")
        base, path = os.path.join(self.room, "base"), self.path
        if before:
            self.path = base
            self.count(before)
            self.path = path
        first = number_in(told_of(base)) if before else 0

        def start():
            for end in ENDS:
                if os.path.exists(path + end):
                    os.unlink(path + end)
                if os.path.exists(base + end):
                    shutil.copy(base + end, path + end)
        start()
        self.run_with(path, CALLS_NOTED=noted)
        with open(noted, encoding="ascii") as file:
            calls = file.read().split()
        for at in sorted(random.Random(before).sample(range(len(calls)), min(CALLS, len(calls)))):
            for how in ("EIO", "ENOSPC", "EINTR", "SHORT")[:4 if calls[at] in IN_PART else 3]:
                start()
                lines = self.run_with(path, FAIL_AT=str(at + 1), FAIL_AS=how)
                numbers = [int(line) for line in lines if line.isdigit()]
                with self.subTest(call=calls[at], at=at, how=how, told=lines):
                    self.assertEqual(numbers, list(range(first + 1, first + 1 + len(numbers))))
                    # What failed once fails for good, and is told last.
                    self.assertEqual([line for line in lines if not line.isdigit()], lines[len(numbers):])
                    self.check_stands(path, first + len(numbers))

    def test_calls_that_make_a_file(self):
        self.check_calls(0)

    def test_calls_over_a_file(self):
        self.check_calls(3)


class Flipped(Room):
    """A bit is flipped. A store's pages have no sums, so it may be another value; a log ends at a frame whose sum is wrong."""

    def tell_flipped(self, path, end, chance):
        """What the program tells of a copy of the files in which a bit of one is flipped, once for each place."""
        copy = os.path.join(self.room, "copy")
        for _ in range(PLACES):
            for other in ENDS:
                if os.path.exists(path + other):
                    shutil.copy(path + other, copy + other)
                elif os.path.exists(copy + other):
                    os.unlink(copy + other)
            place, bit = chance.randrange(os.path.getsize(path + end)), 1 << chance.randrange(8)
            with open(copy + end, "r+b") as file:
                file.seek(place)
                byte = file.read(1)[0]
                file.seek(place)
                file.write(bytes([byte ^ bit]))
            yield place, told_of(copy)

    def sort_of(self, told, number):
        """Whether that is the records of so many batches, or damage, or the records of fewer batches, or others, or nothing at all."""
        if told == records(number):
            return "the same"
        if not told.endswith("\n"):
            return "nothing"
        if told.startswith(("refused: ", "not loaded: ")):
            return "told"
        return "fewer" if told == records(number_in(told)) else "others"

    def count_sorts(self, path, end):
        number, sorts = number_in(told_of(path)), {}
        for place, told in self.tell_flipped(path, end, random.Random(2)):
            sort = self.sort_of(told, number)
            sorts.setdefault(sort, []).append(place)
        print({sort: len(places) for sort, places in sorts.items()}, "of a store's", "log" if end else "file")
        return sorts

    def test_a_closed_file(self):
        """The program tells damage, or records: the same, or others where the bit is in a value."""
        self.count(13)
        with sqlite3.connect(self.path) as base:
            base.execute("PRAGMA wal_checkpoint(TRUNCATE)")
        base.close()
        self.assertNotIn("nothing", self.count_sorts(self.path, ""))

    def test_a_log(self):
        """The program tells damage, or the same records, or those of fewer batches: none that was never there."""
        self.count(13)
        self.assertNotIn("others", self.count_sorts(self.path, "-wal"))


class Refused(Room):
    def setUp(self):
        super().setUp()
        self.count(1)

    def standing(self, path):
        """All that a refusal has to leave as it was."""
        found = os.lstat(path)
        data = b""
        if os.path.isfile(path):
            with open(path, "rb") as file:
                data = file.read()
        return data, found.st_mtime_ns, found.st_ctime_ns, found.st_mode, found.st_uid, found.st_gid

    def check_refused(self, path, cause):
        before, names = self.standing(path), sorted(os.listdir(self.room))
        self.assertEqual(told_of(path), f"refused: {cause}\n")
        self.assertEqual(self.standing(path), before)
        self.assertEqual(sorted(os.listdir(self.room)), names)

    def named(self, name, data=b""):
        path = os.path.join(self.room, name)
        with open(path, "wb") as file:
            file.write(data)
        return path

    def database(self, name, version):
        path = os.path.join(self.room, name)
        with sqlite3.connect(path) as base:
            base.execute("CREATE TABLE job (id INTEGER PRIMARY KEY)")
            base.execute(f"PRAGMA user_version = {version}")
        base.close()
        return path

    def test_a_text(self):
        self.check_refused(self.named("text", b"SQLite format 3\nnot quite\n" * 10), "Other")

    def test_another_program(self):
        self.check_refused(self.database("other", 7), "OtherDatabase")

    def test_a_later_version(self):
        self.check_refused(self.database("later", 0x54454C02), "LaterStore(2)")

    def test_a_folder(self):
        path = os.path.join(self.room, "folder")
        os.mkdir(path)
        self.check_refused(path, "no regular file")

    def test_a_link_to_nowhere(self):
        path = os.path.join(self.room, "link")
        os.symlink(os.path.join(self.room, "nowhere"), path)
        self.check_refused(path, "a link to nowhere")

    def test_a_device(self):
        path = os.path.join(self.room, "pipe")
        os.mkfifo(path)
        self.check_refused(path, "no regular file")
        self.check_refused("/dev/null", "no regular file")

    def test_a_journal(self):
        payload = b"\x06" + bytes(8)
        length = len(payload).to_bytes(4, "little")
        checksum = zlib.crc32(length + payload).to_bytes(4, "little")
        self.check_refused(self.named("journal", length + checksum + payload), "Journal")

    def test_other_tables(self):
        """A database that tells a store's version, and has other tables."""
        path = self.database("tables", 0x54454C01)
        self.assertEqual(told_of(path), "refused: other tables\n")

    def test_damage(self):
        """A row that no record has is told with its table and its key."""
        with sqlite3.connect(self.path) as base:
            base.execute("UPDATE outcome SET code = 300, spent = NULL WHERE number = 1")
            key = base.execute("SELECT id FROM outcome WHERE number = 1").fetchone()[0]
        base.close()
        self.assertEqual(told_of(self.path), f"not loaded: Damaged(Outcome, {key})\n")


if __name__ == "__main__":
    unittest.main()
