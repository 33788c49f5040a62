"""Inputs and outputs of `bpfjobs` that fail: behind each byte of an input, and behind each byte of an answer."""

import fcntl
import os
import resource
import signal
import socket
import struct
import subprocess
import tempfile
import termios
import time
import unittest

from programs import BPFJOBS, PATIENCE, assemble, job_text

ANSWER = assemble("mov64 r0, 42\nexit")
TASK = '{"number":0,"program":0,"r0":42,"ran":true,"rest":0,"spent":2}'

# Words, an input, and the whole answer to it, written out by hand.
COMMANDS = [
    (["verify", "--need", "0"], ANSWER.hex(), "accepted cost 2\n"),
    (["assemble"], "mov64 r0, 42\nexit\n", ANSWER.hex() + "\n"),
    (["disassemble"], ANSWER.hex(), "mov64 r0, 42\nexit\n"),
    (["play"], job_text([(0, ANSWER)], 2, b"", schedule=[0, 0]), '{"buffer":"","complete":true,"held":0,"ok":true,"returned":0,"spent":2,"used":2}\n'),
    (["run", "--workers", "1"], job_text([(0, ANSWER)], 2, b""), '{"buffer":"","ok":true,"returned":0,"spent":2,"tasks":[' + TASK + "]}\n"),
]


def waits(stream):
    """Whether bytes wait in a socket."""
    return struct.unpack("i", fcntl.ioctl(stream, termios.FIONREAD, bytes(4)))[0] > 0


def read_in(words, pieces, fails):
    """The status and the output of a command whose reads are given these pieces, and then the end, or a reset connection."""
    ours, theirs = socket.socketpair()
    with ours, theirs, subprocess.Popen([BPFJOBS, *words], stdin=theirs, stdout=subprocess.PIPE) as process:
        for piece in pieces:
            ours.sendall(piece)
            until = time.monotonic() + PATIENCE
            while waits(theirs) and time.monotonic() < until:
                time.sleep(0.0002)
        if fails:
            theirs.send(b"a byte that nobody reads resets the connection")
        ours.close()
        told = process.stdout.read()
        return process.wait(PATIENCE), told.decode()


def written_in(words, given, room):
    """The status of a command whose output takes so many bytes, and what was written."""

    def bound():
        signal.signal(signal.SIGXFSZ, signal.SIG_IGN)
        resource.setrlimit(resource.RLIMIT_FSIZE, (room, room))

    with tempfile.TemporaryFile() as output:
        ran = subprocess.run([BPFJOBS, *words], input=given.encode(), stdout=output, preexec_fn=bound, timeout=PATIENCE, check=False)
        output.seek(0)
        return ran.returncode, output.read().decode()


def some_below(length):
    """The numbers from 0 on that are less, or some fifty of them."""
    return range(0, length, 1 + length // 50)


class Ends(unittest.TestCase):
    """A failed end is status 3, whichever failed (83 or 84)."""

    def test_an_input_in_pieces(self):
        """Pieces are one input, whatever their size."""
        for words, given, answer in COMMANDS:
            for size in (1, 10, 20, len(given)):
                pieces = [given[at : at + size].encode() for at in range(0, len(given), size)]
                with self.subTest(words=words, size=size):
                    self.assertEqual(read_in(words, pieces, False), (0, answer))

    def test_an_input_that_fails(self):
        """Nothing is written, though the input were whole."""
        for words, given, _ in COMMANDS:
            for count in [*some_below(len(given)), len(given)]:
                with self.subTest(words=words, count=count):
                    self.assertEqual(read_in(words, [given[:count].encode()], True), (3, ""))

    def test_a_later_read_that_fails(self):
        for words, given, _ in COMMANDS:
            pieces = [given[at : at + 10].encode() for at in range(0, len(given), 10)]
            for count in [*range(min(len(pieces), 5)), len(pieces)]:
                with self.subTest(words=words, count=count):
                    self.assertEqual(read_in(words, pieces[:count], True), (3, ""))

    def test_an_output_that_fails(self):
        """A beginning of the answer is written: what the output takes."""
        for words, given, answer in COMMANDS:
            for room in some_below(len(answer)):
                with self.subTest(words=words, room=room):
                    self.assertEqual(written_in(words, given, room), (3, answer[:room]))
            self.assertEqual(written_in(words, given, len(answer)), (0, answer))

    def test_an_output_without_room_or_reader(self):
        """A full device, and a pipe that nobody reads."""
        reader, writer = os.pipe()
        os.close(reader)
        for output in (os.open("/dev/full", os.O_WRONLY), writer):
            for words, given, _ in COMMANDS:
                with self.subTest(words=words):
                    ran = subprocess.run([BPFJOBS, *words], input=given.encode(), stdout=output, timeout=PATIENCE, check=False)
                    self.assertEqual(ran.returncode, 3)
            os.close(output)


if __name__ == "__main__":
    unittest.main()
