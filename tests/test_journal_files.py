"""`bpfjobs serve --journal FILE` over a file that is no journal, which stays as it is, and what a start cuts off a journal."""

import os
import sqlite3
import stat
import subprocess
import tempfile
import unittest

import journals
from journals import Keeper, read, record
from patience import PATIENCE
from programs import BPFJOBS, BPFRUN

WHOLE = record(journals.granted("t", 5)) + record(journals.granted("u", 6))
DATA = "other data, or for a first record that a crash cut off, of which nothing was told"


def database(path):
    """A database of one row."""
    with sqlite3.connect(path) as made:
        made.execute("create table t (x)")
        made.execute("insert into t values (1)")
    made.close()
    return read(path)


class Files(unittest.TestCase):
    def setUp(self):
        room = tempfile.TemporaryDirectory()
        self.addCleanup(room.cleanup)
        self.room = room.name
        self.server = Keeper(self.room)

    def write(self, data, mode=0o644):
        with open(self.server.journal, "wb") as file:
            file.write(data)
        os.chmod(self.server.journal, mode)

    def look(self):
        """All that a start might change of the folder's files, the times at which they were read aside."""
        found = {}
        for name in sorted(os.listdir(self.room)):
            path = os.path.join(self.room, name)
            about = os.stat(path)
            found[name] = (read(path), about.st_mode, about.st_mtime_ns, about.st_ctime_ns, about.st_ino)
        return found

    def journal(self, *words):
        ran = subprocess.run([BPFJOBS, "journal", self.server.journal, *words], capture_output=True, text=True, timeout=PATIENCE, check=False)
        return ran.returncode, ran.stdout, ran.stderr


class Foreign(Files):
    """Each of these files is refused in one line, which says what it is taken for, and stays as it is."""

    def check_refused(self, taken_for, *more):
        before = self.look()
        line = f"bpfjobs: {self.server.journal}: no journal, and left as it is: it is taken for {taken_for}\n"
        self.assertEqual(self.server.run(*more), (3, line))
        self.assertEqual(self.journal("--check"), (3, "", line))
        self.assertEqual(self.journal(), (3, "", line))
        self.assertEqual(self.look(), before)

    def test_texts(self):
        for text in (b"nineteen bytes here", b"x", b"alice /run/alice\nbob /run/bob open-jobs 3\n", "\u00e9\t\r\n".encode()):
            with self.subTest(text):
                self.write(text)
                self.check_refused("a text")

    def test_a_database(self):
        self.write(database(os.path.join(self.room, "made")), 0o600)
        self.check_refused("a SQLite database")

    def test_a_program(self):
        self.write(read(BPFRUN)[:100_000], 0o755)
        self.check_refused("a program")

    def test_other_data(self):
        for data in (b"\0", bytes(8), bytes(5000), b"\x80" * 30, b"text\0", WHOLE[:7], WHOLE[:15]):
            with self.subTest(data[:20]):
                self.write(data)
                self.check_refused(DATA)

    def test_the_file_of_tenants(self):
        """Also by the tenants that it names itself, each of which has a journal beside it."""
        self.write(f"alice {self.room}/alice\n".encode())
        self.assertEqual(self.server.run("--tenants", self.server.journal)[0], 3)
        self.assertEqual(read(self.server.journal), f"alice {self.room}/alice\n".encode())

    def test_a_tenants_journal(self):
        """None of several files is changed where one of them is no journal."""
        self.write(WHOLE + b"torn")
        other = self.server.journal + ".alice"
        with open(other, "wb") as file:
            file.write(b"a text")
        before = self.look()
        line = f"bpfjobs: {other}: no journal, and left as it is: it is taken for a text\n"
        self.assertEqual(self.server.run("--tenant", f"alice={self.room}/alice"), (3, line))
        self.assertEqual(self.look(), before)

    def test_a_journal_damaged_at_its_start(self):
        """Where a whole record stands further on, the file is a journal, and its damage is told."""
        self.write(b"\xff" + WHOLE[1:])
        second = len(record(journals.granted("t", 5)))
        line = f"bpfjobs: {self.server.journal}: damaged at byte 0: a whole record stands at byte {second}\n"
        self.assertEqual(self.server.run(), (3, line))

    def test_an_empty_file(self):
        self.write(b"")
        self.assertEqual(self.server.run(), (0, ""))
        self.assertEqual(self.journal("--check"), (0, f"{self.server.journal}: 0 records, whole\n", ""))


class Torn(Files):
    """What is cut off a journal is kept beside it."""

    def check_kept(self, torn, name):
        self.write(WHOLE + torn)
        kept = os.path.join(self.room, name)
        line = f"bpfjobs: {self.server.journal}: cut off {len(torn)} bytes of a torn record, which {kept} has\n"
        self.assertEqual(self.server.run(), (0, line))
        self.assertEqual(read(self.server.journal), WHOLE)
        self.assertEqual(read(kept), torn)
        self.assertEqual(stat.S_IMODE(os.stat(kept).st_mode), 0o600)

    def test_each_is_kept(self):
        torn = [b"torn", bytes(5000), WHOLE[:20]]
        for number, part in enumerate(torn, 1):
            self.check_kept(part, "journal.torn" if number == 1 else f"journal.torn.{number}")
        self.assertEqual(read(os.path.join(self.room, "journal.torn")), torn[0])

    def test_whatever_the_umask_says(self):
        before = os.umask(0)
        self.addCleanup(os.umask, before)
        self.check_kept(b"torn", "journal.torn")

    def test_what_has_the_name_stays(self):
        """Of whatever kind it is."""
        os.mkdir(os.path.join(self.room, "journal.torn"))
        os.symlink("nowhere", os.path.join(self.room, "journal.torn.2"))
        self.check_kept(b"torn", "journal.torn.3")
        self.assertEqual(sorted(os.listdir(self.room)), ["journal", "journal.torn", "journal.torn.2", "journal.torn.3"])

    def test_what_cannot_be_kept_is_not_cut_off(self):
        """The file beside it would have too long a name."""
        self.server = Keeper(self.room, name="x" * 252)
        self.write(WHOLE + b"torn")
        before = self.look()
        status, told = self.server.run()
        self.assertEqual((status, told.count("\n")), (3, 1), told)
        self.assertTrue(told.startswith(f"bpfjobs: {self.server.journal}: "), told)
        self.assertEqual(self.look(), before)

    def test_nothing_is_kept_of_a_whole_journal(self):
        self.write(WHOLE)
        self.assertEqual(self.server.run(), (0, ""))
        self.assertEqual(os.listdir(self.room), ["journal"])


if __name__ == "__main__":
    unittest.main()
