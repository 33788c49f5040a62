"""A server and the path of its socket: which one has it, and what it leaves there at its end."""

import os
import shutil
import socket
import stat
import subprocess
import unittest

from journals import kill_traced, read
from patience import PATIENCE, wait_for
from programs import BPFJOBS
from test_local import ACCOUNT, NO_TENANT, Sockets

ROUNDS = 20
# in microseconds: longer than a server takes to start, on any machine but an overloaded one, where
# less is tried
HELD_UP = 5_000_000


class OwnSockets(Sockets):
    def serve(self):
        """A server that takes connections."""
        process = self.start("--clients", 4, "--until-eof", stdin=subprocess.PIPE)
        with self.connect(process) as client:
            self.assertEqual(client.ask(ACCOUNT), NO_TENANT)
        return process

    def end(self, process):
        process.stdin.close()
        self.assertEqual(process.wait(PATIENCE), 0)

    def names(self):
        return sorted(os.listdir(os.path.dirname(self.path)))


class Ends(OwnSockets):
    """The input's end is the server's, whatever stands at its path by then."""

    def test_a_path_that_was_removed(self):
        process = self.serve()
        os.remove(self.path)
        self.end(process)
        self.assertEqual(self.names(), [])

    def test_a_path_that_became_a_file(self):
        process = self.serve()
        os.remove(self.path)
        with open(self.path, "w", encoding="utf-8") as file:
            file.write("kept")
        self.end(process)
        with open(self.path, encoding="utf-8") as file:
            self.assertEqual(file.read(), "kept")

    def test_a_path_that_became_another_server_s(self):
        first = self.serve()
        os.remove(self.path)
        second = self.serve()
        self.end(first)
        with self.connect(second) as client:
            self.assertEqual(client.ask(ACCOUNT), NO_TENANT)
        self.end(second)
        self.assertEqual(self.names(), [])

    def test_a_folder_that_was_removed(self):
        process = self.serve()
        os.remove(self.path)
        os.rmdir(os.path.dirname(self.path))
        self.end(process)
        os.mkdir(os.path.dirname(self.path))

    def test_clients_that_are_there(self):
        """They are told what they asked."""
        process = self.serve()
        with self.connect(process) as client:
            self.assertEqual(client.ask(ACCOUNT), NO_TENANT)
            os.remove(self.path)
            self.assertEqual(client.ask(ACCOUNT), NO_TENANT)
            self.end(process)


class Starts(OwnSockets):
    def racing(self, path, *ahead):
        with open(path, "wb") as told:
            words = [*ahead, BPFJOBS, "serve", "--socket", self.path, "--clients", "4", "--log"]
            process = subprocess.Popen(words, stdin=subprocess.DEVNULL, stderr=told)
        self.addCleanup(process.wait)
        self.addCleanup(process.kill)
        return process

    def check_one_serves(self, logs, both):
        """Waits until each of two servers is ready or has ended: one is, and it is there."""

        def are_settled():
            ready = sum(b'"ready"' in read(log) for log in logs)
            return ready + sum(process.poll() is not None for process in both) == 2

        wait_for(are_settled, "a server and an end")
        self.assertEqual([process.returncode for process in both if process.poll() is not None], [3])
        (serving,) = (process for process in both if process.poll() is None)
        with self.connect(serving) as client:
            self.assertEqual(client.ask(ACCOUNT), NO_TENANT)
        return serving

    def test_two_at_once(self):
        """One serves, and the other ends. No two believe that they serve."""
        folder = os.path.dirname(self.path)
        for turn in range(ROUNDS):
            logs = [os.path.join(folder, f"log{number}") for number in range(2)]
            with self.subTest(turn):
                serving = self.check_one_serves(logs, [self.racing(log) for log in logs])
                serving.kill()
                serving.wait()

    @unittest.skipUnless(shutil.which("strace"), "needs strace")
    def test_one_that_is_held_up(self):
        """It has seen a dead server's socket, and is held up as it removes that, until another has started."""
        self.dead()
        logs = [f"{self.path}.log{number}" for number in range(2)]
        trace = f"{self.path}.trace"
        calls = ["-e", "trace=connect,unlink,unlinkat", "-e", f"inject=unlink,unlinkat:delay_enter={HELD_UP}"]
        first = self.racing(logs[0], "strace", "-f", "-qq", "-o", trace, *calls)
        self.addCleanup(lambda: first.poll() is None and kill_traced(first, True))
        wait_for(lambda: os.path.exists(trace) and b"ECONNREFUSED" in read(trace), "a look at a dead server's socket")
        self.check_one_serves(logs, [first, self.racing(logs[1])])

    def dead(self):
        """Leaves a dead server's socket at the path."""
        process = self.serve()
        process.kill()
        process.wait()
        self.assertTrue(stat.S_ISSOCK(os.stat(self.path).st_mode))

    def test_one_that_is_dead(self):
        self.dead()
        self.end(self.serve())
        self.assertEqual(self.names(), [])

    def test_one_that_lives(self):
        """Also one that takes no connection just now: its queue is full, or it stands still."""
        process = self.serve()
        self.assertEqual(self.start().wait(PATIENCE), 3)
        with self.connect(process) as client:
            self.assertEqual(client.ask(ACCOUNT), NO_TENANT)
        self.end(process)
        with socket.socket(socket.AF_UNIX) as other:
            other.bind(self.path)
            other.listen(0)
            self.assertEqual(self.start().wait(PATIENCE), 3)
            self.assertEqual(self.names(), ["jobs"])

    def test_what_is_no_socket_stays(self):
        os.mkfifo(self.path)
        self.assertEqual(self.start().wait(PATIENCE), 3)
        self.assertTrue(stat.S_ISFIFO(os.stat(self.path).st_mode))


if __name__ == "__main__":
    unittest.main()
