"""A store of `store_tests`: the records that so many batches make, and the disks that a power cut leaves."""

import functools
import os
import subprocess

from patience import PATIENCE

TOP = os.path.dirname(os.path.dirname(os.path.abspath(__file__)))
STORE_TESTS = os.environ.get("STORE_TESTS", os.path.join(TOP, "crates/store_tests/out/store_tests"))
# The file, and the log beside it.
ENDS = "", "-wal"
KEPT = 10


def told_of(path):
    """What the program tells of the file at a path."""
    ran = subprocess.run([STORE_TESTS, "tell", path], capture_output=True, timeout=PATIENCE, check=False)
    return ran.stdout.decode()


def size_of(number):
    return number * 7919 % 2**32 % 9001


def sum_of(mark, length):
    """The sum that is told of so many bytes of one mark."""
    told = 0
    for _ in range(length):
        told = (told * 31 + mark + 1) % 2**32
    return told


@functools.cache
def blob(number):
    """The length and the sum of the bytes that go with a number."""
    return f"{size_of(number)} {sum_of(number % 251, size_of(number))}"


def records(number):
    """The lines that tell what the first so many batches make."""
    if number == 0:
        return ""
    jobs = range(max(1, number - KEPT + 1), number + 1)
    lines = [f"tenant 1 2 ann {number * 1000} {number * 3}"]
    lines += [f"job 2 {at} ann 10 {blob(at)} 2" for at in jobs]
    lines += [f"outcome 2 {at} failed 82" if at % 3 == 0 else f"outcome 2 {at} reported 3 7 {blob(at)}" for at in jobs]
    if number > KEPT:
        lines.append(f"desk 2 {number}")
    lines += [f"key 2 {at} again" for at in jobs if at % 2 == 0]
    return "".join(line + "\n" for line in lines)


def number_in(told):
    """How many batches the told records are of."""
    return next((int(line.split()[4]) // 1000 for line in told.splitlines() if line.startswith("tenant ")), 0)


class Notes:
    """The notes of `noted_writes.c`, one by one: a kind, its numbers and path, and its bytes."""

    def __init__(self, path):
        with open(path, "rb") as file:
            self.bytes = file.read()
        self.at = 0

    def __iter__(self):
        while (end := self.bytes.find(b"\n", self.at)) >= 0:
            kind, *words = self.bytes[self.at:end].split(b" ")
            count = int(words[1]) if kind == b"w" else int(words[0]) if kind == b"t" else 0
            if end + 1 + count > len(self.bytes):
                return
            yield kind.decode(), words, self.bytes[end + 1:end + 1 + count]
            self.at = end + 1 + count


class Contents:
    """A file as the disk has it for certain, and the changes behind the last sync, which it may have or not."""

    def __init__(self):
        self.durable, self.pending, self.is_named = bytearray(), [], False

    def sync(self):
        for change in self.pending:
            change(self.durable)
        self.pending = []

    def write(self, offset, data):
        def change(contents):
            if len(contents) < offset + len(data):
                contents.extend(bytes(offset + len(data) - len(contents)))
            contents[offset:offset + len(data)] = data
        self.pending.append(change)

    def cut(self, length):
        def change(contents):
            if length < len(contents):
                del contents[length:]
            contents.extend(bytes(length - len(contents)))
        self.pending.append(change)

    def left(self, chance):
        """What a power cut may leave of it: each pending change as it was made, or not at all."""
        contents = bytearray(self.durable)
        for change in self.pending:
            if chance.random() < 0.5:
                change(contents)
        return contents


class Disk:
    """The files of a folder, as the notes change them, and the last number that was told."""

    def __init__(self, folder):
        self.folder, self.files, self.last = os.path.realpath(folder), {}, 0
        self.told = b""

    def take(self, kind, words, data):
        if kind == "t":
            self.told += data
            whole = self.told[:self.told.rfind(b"\n") + 1].split()
            self.last = int(whole[-1]) if whole else 0
        elif kind == "s" and words[0].decode() == self.folder:
            for contents in self.files.values():
                contents.is_named = True
        else:
            contents = self.files.setdefault(words[-1].decode(), Contents())
            if kind == "w":
                contents.write(int(words[0]), data)
            elif kind == "f":
                contents.cut(int(words[0]))
            else:
                contents.sync()

    def leave(self, chance, path):
        """Writes what a power cut may leave now to the files at a path."""
        for end in ENDS:
            if os.path.exists(path + end):
                os.unlink(path + end)
        for name, contents in self.files.items():
            if contents.is_named or chance.random() < 0.5:
                with open(path + name[len(name) - len("-wal"):] if name.endswith("-wal") else path, "wb") as file:
                    file.write(contents.left(chance))
