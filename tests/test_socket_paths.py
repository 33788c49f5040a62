"""The paths of `bpfjobs serve`'s sockets: which are refused, and who may connect to the one for grants."""

import os
import socket
import stat
import subprocess
import unittest

from patience import PATIENCE
from programs import BPFJOBS
from test_local import ACCOUNT, GRANT, Sockets, told

WRONG_PATH = "error: serve takes 1 to 104 bytes, none of them 0, as a socket's path\n"
LONGEST = 104
NOBODY = 65534

# Tries to connect to the paths it is given, until its input ends. Prints each to which it could.
TRIES = """
import select, socket, sys
while not select.select([0], [], [], 0)[0]:
    for path in sys.argv[1:]:
        with socket.socket(socket.AF_UNIX) as stream:
            try:
                stream.connect(path)
                print(path, flush=True)
            except OSError:
                pass
"""


class Paths(Sockets):
    def setUp(self):
        super().setUp()
        self.room = os.path.dirname(self.path)

    def long_path(self, length):
        return os.path.join(self.room, "x" * (length - len(self.room) - 1))

    def serve(self, *words):
        """The status of a server that ends at once, and what it tells. It has to leave nothing in its folder."""
        before = sorted(os.listdir(self.room))
        ran = subprocess.run([BPFJOBS, "serve", *words, "--until-eof"], stdin=subprocess.DEVNULL, capture_output=True, text=True,
                             timeout=PATIENCE, check=False)
        self.assertEqual((ran.stdout, sorted(os.listdir(self.room))), ("", before))
        return ran.returncode, ran.stderr


class Refused(Paths):
    def test_paths_that_are_none(self):
        """An empty path would be a name that the system picks, to which every user may connect."""
        for path in ("", self.long_path(LONGEST + 1), self.long_path(300)):
            for words in (("--socket", path), ("--socket", self.path, "--grants", path), ("--socket", path, "--grants", path)):
                with self.subTest(words):
                    self.assertEqual(self.serve(*words), (2, WRONG_PATH))

    def test_the_longest_path(self):
        longest = self.long_path(LONGEST)
        told = f"bpfjobs: listening on {self.path} for 1 connection\n"
        self.assertEqual(self.serve("--socket", longest), (0, told.replace(self.path, longest)))
        self.assertEqual(self.serve("--socket", self.path, "--grants", longest), (0, told))
        self.assertEqual(self.serve("--socket", self.path, "--tenant", f"a={longest}"), (0, told))

    def test_paths_of_tenants(self):
        wrong = "a socket's path has 1 to 104 bytes, none of them 0"
        for path in ("", self.long_path(LONGEST + 1)):
            status, line = self.serve("--socket", self.path, "--tenant", f"a={path}")
            self.assertEqual((status, line.endswith(f"{wrong}\n")), (2, True), line)
        tenants = os.path.join(self.room, "tenants")
        for path in ("\0abstract", "a\0b", self.long_path(LONGEST + 1)):
            with open(tenants, "w", encoding="utf-8") as file:
                file.write(f"# one\na {path}\n")
            self.assertEqual(self.serve("--socket", self.path, "--tenants", tenants), (2, f"error: {tenants}, line 2: {wrong}\n"))

    def test_two_names_of_one_path(self):
        os.symlink(self.room, os.path.join(self.room, "link"))
        others = [self.path, f"{self.room}/./jobs", f"{self.room}//jobs", f"{self.room}/link/jobs", f"{self.room}/link/../{os.path.basename(self.room)}/jobs",
                  os.path.relpath(self.path)]
        for other in others:
            line = f"error: serve takes another path for each socket, and {other} is taken\n"
            for words in (("--grants", other), ("--tenant", f"a={other}"), ("--grants", self.grants, "--tenant", f"a={other}")):
                with self.subTest(words):
                    self.assertEqual(self.serve("--socket", self.path, *words), (2, line))
        line = f"error: serve takes another path for each socket, and {self.room}/./a is taken\n"
        self.assertEqual(self.serve("--socket", self.path, "--tenant", f"a={self.room}/a", "--tenant", f"b={self.room}/./a"), (2, line))

    def test_names_in_two_folders(self):
        os.mkdir(os.path.join(self.room, "other"))
        told = f"bpfjobs: listening on {self.path} for 1 connection\n"
        self.assertEqual(self.serve("--socket", self.path, "--grants", f"{self.room}/other/jobs"), (0, told))


class Grants(Paths):
    """The socket for grants is its owner's alone. The umask says of the others who may connect."""

    def start_both(self, umask):
        process = self.start("--grants", self.grants, "--tenant", f"a={self.room}/a", "--clients", 4, "--sessions", 1000, umask=umask)
        with self.connect(process, self.grants) as granter:
            self.assertEqual(granter.ask(GRANT), told(100, 100))
        return process

    def mode(self, path):
        return stat.S_IMODE(os.stat(path).st_mode)

    def test_whatever_the_umask_says(self):
        for umask, mode in ((0, 0o777), (0o022, 0o755), (0o077, 0o700)):
            with self.subTest(oct(umask)):
                process = self.start_both(umask)
                self.assertEqual([self.mode(path) for path in (self.grants, self.path, f"{self.room}/a")], [0o600, mode, mode])
                self.assertEqual(sorted(os.listdir(self.room)), ["a", "grants", "jobs"])
                process.kill()
                process.wait()

    def test_one_that_was_left_behind(self):
        """Also in the folder in which it is made."""
        os.mkdir(f"{self.grants}~", mode=0o700)
        with socket.socket(socket.AF_UNIX) as left:
            left.bind(f"{self.grants}~/s")
        for _ in range(2):
            process = self.start_both(0)
            self.assertEqual((self.mode(self.grants), sorted(os.listdir(self.room))), (0o600, ["a", "grants", "jobs"]))
            process.kill()
            process.wait()

    def test_what_stands_in_the_folders_place_stays(self):
        with open(f"{self.grants}~", "w", encoding="utf-8") as file:
            file.write("kept")
        self.assertEqual(self.serve("--socket", self.path, "--grants", self.grants)[0], 3)
        with open(f"{self.grants}~", encoding="utf-8") as file:
            self.assertEqual(file.read(), "kept")

    def each_stays(self, prepare, remove):
        """What stands in the place of a socket's folder isn't the server's: it stays, and a line tells so."""
        for path in (self.path, self.grants, f"{self.room}/a"):
            with self.subTest(path):
                prepare(f"{path}~")
                before = os.lstat(f"{path}~")
                status, line = self.serve("--socket", self.path, "--grants", self.grants, "--tenant", f"a={self.room}/a")
                self.assertEqual((status, line.count("\n")), (3, 1), line)
                self.assertTrue(line.startswith(f"bpfjobs: cannot listen on {path}: "), line)
                after = os.lstat(f"{path}~")
                self.assertEqual((after.st_ino, after.st_mode, after.st_uid), (before.st_ino, before.st_mode, before.st_uid))
                remove(f"{path}~")

    def test_a_folder_that_others_may_enter_stays(self):
        for mode in (0o701, 0o710, 0o755, 0o777):
            def prepare(folder, mode=mode):
                os.mkdir(folder)
                os.chmod(folder, mode)

            self.each_stays(prepare, os.rmdir)

    @unittest.skipIf(os.geteuid() != 0, "needs root, to give a folder to another user")
    def test_a_folder_of_another_user_stays(self):
        def prepare(folder):
            os.mkdir(folder, mode=0o700)
            os.chown(folder, NOBODY, NOBODY)

        self.each_stays(prepare, os.rmdir)

    def test_a_link_to_a_folder_stays(self):
        os.mkdir(f"{self.room}/other", mode=0o700)
        self.each_stays(lambda folder: os.symlink("other", folder), os.unlink)

    @unittest.skipIf(os.geteuid() != 0, "needs root, to connect as another user")
    def test_no_other_user_connects_at_any_moment(self):
        """While a server starts thirty times, another user tries without a pause."""
        os.chmod(self.room, 0o777)
        words = ["python3", "-c", TRIES, self.grants, f"{self.grants}~/s"]
        with subprocess.Popen(words, stdin=subprocess.PIPE, stdout=subprocess.PIPE, text=True, user=NOBODY, group=NOBODY, extra_groups=[]) as other:
            for _ in range(30):
                process = self.start_both(0)
                with self.connect(process) as client:
                    self.assertEqual(client.ask(ACCOUNT), told(100, 100))
                process.kill()
                process.wait()
            self.assertEqual(other.communicate()[0], "")


if __name__ == "__main__":
    unittest.main()
