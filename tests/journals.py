"""A journal's records, read and made without the program, and the servers that keep it."""

import json
import os
import signal
import struct
import subprocess
import time
import zlib

from programs import BPFJOBS, PATIENCE, frame, is_read, past_listening
from test_local import Client

HEADER = 8


class NotARecord(Exception):
    """The bytes of a payload that say no change."""


def record(payload):
    """A payload behind its length and its checksum."""
    length = struct.pack("<I", len(payload))
    return length + struct.pack("<I", zlib.crc32(length + payload)) + payload


def payloads_of(data):
    """The payloads of the whole records at the front, and what stands behind them."""
    payloads, at = [], 0
    while len(data) - at >= HEADER:
        (length,) = struct.unpack_from("<I", data, at)
        payload = data[at + HEADER : at + HEADER + length]
        if len(payload) < length or record(payload) != data[at : at + HEADER + length]:
            break
        payloads.append(payload)
        at += HEADER + length
    return payloads, data[at:]


def starts_of(data):
    """The places at which the records begin, and that behind the last."""
    places = [0]
    for payload in payloads_of(data)[0]:
        places.append(places[-1] + HEADER + len(payload))
    return places


class Payload:
    """The parts of a payload, one after the other."""

    def __init__(self, data):
        self.data, self.at = data, 0

    def bytes(self, count):
        part = self.data[self.at : self.at + count]
        if len(part) < count:
            raise NotARecord
        self.at += count
        return part

    def number(self, count):
        return int.from_bytes(self.bytes(count), "little")

    def counted(self):
        return self.bytes(self.number(8))

    def listed(self, one):
        return [one() for _ in range(self.number(8))]


def _program(parts):
    return parts.number(4), parts.counted()


def _task(parts):
    number, program, _, _, spent, rest, r0, ran = (parts.number(size) for size in (4, 2, 8, 4, 4, 4, 8, 1))
    return {"number": number, "program": program, "r0": r0, "ran": bool(ran), "rest": rest, "spent": spent}


def _report(parts):
    spent, returned, buffer = parts.number(4), parts.number(4), parts.counted()
    tasks = parts.listed(lambda: _task(parts))
    return {"buffer": buffer.hex(), "ok": True, "returned": returned, "spent": spent, "tasks": tasks}


def change_of(payload):
    """The change that a payload says: its kind, and its parts. Of a change by a key these are the key and a change."""
    parts = Payload(payload)
    kind = parts.number(1)
    if kind == 5:
        key, change = parts.counted().decode(), change_of(payload[parts.at :])
        if change[0] in ("by_key", "key_kept"):
            raise NotARecord
        return "by_key", key, change
    if kind == 1:
        change = "granted", parts.counted().decode(), parts.number(4)
    elif kind == 2:
        tenant, programs = parts.counted().decode(), parts.listed(lambda: _program(parts))
        change = "submitted", tenant, programs, parts.number(4), parts.counted()
    elif kind == 3:
        change = "finished", parts.number(8), _report(parts)
    elif kind == 4:
        change = "failed", parts.number(8), parts.number(1)
    elif kind == 6:
        change = "forgotten", parts.number(8)
    elif kind == 7:
        change = "account", parts.counted().decode(), parts.number(8), parts.number(8)
    elif kind == 8:
        change = "skipped", parts.number(8)
    elif kind == 9:
        change = "kept", parts.counted().decode(), parts.number(4), _report(parts)
    elif kind == 10:
        change = "kept", parts.counted().decode(), parts.number(4), {"code": parts.number(1), "ok": False}
    elif kind == 11:
        change = "key_kept", parts.number(8), parts.counted().decode()
    else:
        raise NotARecord
    if parts.at != len(payload):
        raise NotARecord
    return change


def granted(tenant, amount):
    """The payload of a grant."""
    return b"\x01" + struct.pack("<Q", len(tenant)) + tenant.encode() + struct.pack("<I", amount)


def submitted(tenant, code, credit, buffer=b""):
    """The payload of a job of one program."""
    start = b"\x02" + struct.pack("<Q", len(tenant)) + tenant.encode()
    return start + struct.pack("<QIQ", 1, 0, len(code)) + code + struct.pack("<IQ", credit, len(buffer)) + buffer


def failed(job, code):
    """The payload of a job's failure."""
    return b"\x04" + struct.pack("<QB", job, code)


def by_key(key, change):
    """The payload of a change by a key, from that of the change."""
    return b"\x05" + struct.pack("<Q", len(key)) + key + change


def key_kept(job, key):
    """The payload of a job that has its key again."""
    return b"\x0b" + struct.pack("<QQ", job, len(key)) + key


# How many keyed jobs a door remembers.
MOST_KEYS = 1000


class Book:
    """What the changes of a desk come to: its accounts, its jobs by number, and its keyed jobs, oldest first. A job
    that was over when a snapshot was made has no programs and no buffer there, and one that was forgotten then is
    None."""

    def __init__(self):
        self.granted, self.past, self.jobs, self.ends, self.gone = {}, {}, [], {}, set()
        self.keyed = []

    def add(self, change):
        """One change more."""
        getattr(self, change[0] + "_")(*change[1:])

    def granted_(self, tenant, amount):
        self.granted[tenant] = self.granted.get(tenant, 0) + amount

    def submitted_(self, tenant, programs, credit, buffer):
        assert tenant in self.granted
        self.jobs.append((tenant, programs, credit, buffer))

    def finished_(self, job, report):
        assert 1 <= job <= len(self.jobs) and job not in self.ends
        self.ends[job] = report

    def failed_(self, job, code):
        self.finished_(job, {"code": code, "ok": False})

    def forgotten_(self, ahead):
        self.gone.update(number for number in self.ends if number <= ahead)

    def account_(self, tenant, granted, spent):
        assert tenant not in self.granted and not self.jobs and spent <= granted
        self.granted[tenant], self.past[tenant] = granted, spent

    def skipped_(self, count):
        self.gone.update(range(len(self.jobs) + 1, len(self.jobs) + count + 1))
        self.jobs += [None] * count

    def kept_(self, tenant, credit, end):
        self.jobs.append((tenant, None, credit, None))
        self.ends[len(self.jobs)] = end
        self.past[tenant] -= end.get("spent", 0)
        assert self.past[tenant] >= 0

    def by_key_(self, key, change):
        self.add(change)
        self.keyed.append((len(self.jobs), key))

    def key_kept_(self, job, key):
        self.keyed.append((job, key))

    def remembered(self):
        """The keyed jobs that a door remembers, oldest first."""
        return self.keyed[-MOST_KEYS:]

    def accounts(self):
        """The accounts as a server tells them, by their tenants."""
        spent = {tenant: self.past.get(tenant, 0) for tenant in self.granted}
        is_open = dict.fromkeys(self.granted, 0)
        for number, job in enumerate(self.jobs, 1):
            if job and number in self.ends:
                spent[job[0]] += self.ends[number].get("spent", 0)
            elif job:
                is_open[job[0]] += job[2]
        return {tenant: {"balance": given - is_open[tenant] - spent[tenant], "granted": given, "ok": True,
                         "open": is_open[tenant], "spent": spent[tenant]} for tenant, given in self.granted.items()}

    def account(self, tenant):
        return self.accounts()[tenant]


def book_of_changes(changes):
    book = Book()
    for change in changes:
        book.add(change)
    return book


def book_of(data):
    """The book of a journal's whole records."""
    return book_of_changes(change_of(payload) for payload in payloads_of(data)[0])


def failed_lines(path):
    """The last lines of a server whose journal fails: the reply that rests on it isn't written, which ends its connection."""
    return f"bpfjobs: a connection was given up: 84: write failed\nbpfjobs: {path}: it can't be written, or not be synced\n"


def read(path):
    with open(path, "rb") as file:
        return file.read()


def kill_traced(process, is_delayed=False):
    """Kills what strace traces, which would go on without it, and waits for both. Where strace
    delays a call, it is killed as well."""
    with open(f"/proc/{process.pid}/task/{process.pid}/children", encoding="utf-8") as file:
        children = file.read().split()
    for child in children:
        os.kill(int(child), signal.SIGKILL)
    if is_delayed:
        process.kill()
    process.wait(PATIENCE)


def traced(told, process, work):
    """The lines that strace has written to a file, while some work is done at what it traces, which is killed then."""
    work()
    kill_traced(process)
    with open(told, encoding="utf-8") as file:
        return file.read().splitlines()


class Raw(Client):
    """A connection whose replies are told byte for byte."""

    def told(self, request):
        return self.told_all([request])[0]

    def told_all(self, requests):
        """The replies to requests that are sent at once. It raises where the server closes the stream."""
        texts = (request if isinstance(request, str) else json.dumps(request) for request in requests)
        self.stream.sendall(b"".join(frame(text) for text in texts))
        return [self.next_told() for _ in requests]

    def next_told(self):
        length = is_read(self.stream, 4)
        text = is_read(self.stream, int.from_bytes(length, "big"))
        if len(length) < 4 or len(text) < int.from_bytes(length, "big"):
            raise ConnectionResetError
        return text

    def ask(self, request):
        return json.loads(self.told(request))

    def over(self, job):
        """The result of a job, once it isn't open, byte for byte."""
        until = time.monotonic() + PATIENCE
        while (reply := self.told({"op": "result", "job": job})) == b'{"code":77,"ok":false}':
            assert time.monotonic() < until
            time.sleep(0.001)
        return reply


class Keeper:
    """A server that keeps a journal, at a socket in the same folder. It may be killed, and started anew."""

    def __init__(self, folder, *words, name="journal", clients=8, workers=2):
        self.socket, self.journal = os.path.join(folder, "all"), os.path.join(folder, name)
        self.words = ["--clients", clients, "--workers", workers, *words]
        self.process = None

    def command(self, *more):
        words = ["serve", "--socket", self.socket, "--journal", self.journal, *self.words, *more]
        return [BPFJOBS, *map(str, words)]

    def start(self, *more, stdin=subprocess.DEVNULL, stderr=subprocess.DEVNULL, ahead=(), **how):
        self.end()
        words = [*ahead, *self.command(*more)]
        self.process = subprocess.Popen(words, stdin=stdin, stdout=subprocess.DEVNULL, stderr=stderr, **how)
        return self.process

    def connect(self):
        return Raw(self.socket, self.process)

    def kill(self):
        self.process.send_signal(signal.SIGKILL)
        self.process.wait(PATIENCE)

    def end(self):
        if self.process:
            self.kill()
            if self.process.stdin:
                self.process.stdin.close()
            if self.process.stderr:
                self.process.stderr.close()
            self.process = None

    def run(self, *more):
        """Starts it and has it end at once: its status, and what it tells on standard error. One that begins tells at
        last that it takes connections, which is left out."""
        words = self.command("--until-eof", *more)
        ran = subprocess.run(words, stdin=subprocess.DEVNULL, capture_output=True, text=True, timeout=PATIENCE, check=False)
        assert ran.stdout == ""
        if ran.returncode != 0:
            return ran.returncode, ran.stderr
        lines = past_listening(ran.stderr, words)
        assert ran.stderr.startswith(lines), ran.stderr
        return 0, lines

    def lines(self):
        """What a server that ends has told to a pipe, beside that it takes connections."""
        return past_listening(self.process.stderr.read().decode(), self.process.args)


class TenantKeeper(Keeper):
    """A server with a door and a journal for each tenant. Everybody else is `all`, and grants come by `grants`."""

    def __init__(self, folder, *tenants, **how):
        super().__init__(folder, "--grants", os.path.join(folder, "grants"), **{"clients": 64, **how})
        self.folder, self.tenants = folder, list(tenants)

    def path(self, name):
        return os.path.join(self.folder, name)

    def file(self, name="all"):
        """The journal of a tenant, or that of everybody else."""
        return self.journal if name == "all" else f"{self.journal}.{name}"

    def data(self, name="all"):
        return read(self.file(name))

    def all_data(self):
        """What all journals have that are there, by their names."""
        names = sorted(name for name in os.listdir(self.folder) if name.startswith("journal"))
        return {name: read(self.path(name)) for name in names}

    def command(self, *more):
        doors = [word for name in self.tenants for word in ("--tenant", f"{name}={self.path(name)}")]
        return super().command(*doors, *more)

    def connect(self, name="all"):
        return Raw(self.path(name), self.process)
