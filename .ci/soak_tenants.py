#!/usr/bin/env python3
"""Tenants with doors of their own, a third of them honest, while the others do what they can.

    .ci/soak_tenants.py [--seconds N] [--tenants N] [--trees N] [--workers N] [--seed N] [--program FILE]

It starts `bpfjobs serve` with a socket for grants and one for each tenant, in a folder of its own. A
third of the tenants are honest: they give pseudo-random jobs, and ask for results and accounts. A
third send rubbish, cut frames and floods, and say nothing for as long as they may. A third ask for
verdicts on the dearest programs there are, half of them with nothing granted.

Each reply to an honest tenant has to come within a second, each result has to be the model's
(`tests/jobs.py`), and each account has to be exact. At the end each honest tenant does the same once
more at a server that it has to itself, and has to be told the same, byte for byte. Status: 0, or 1
where something doesn't hold.
"""

import argparse
import json
import os
import random
import socket
import struct
import subprocess
import sys
import tempfile
import threading
import time

TOP = os.path.dirname(os.path.dirname(os.path.abspath(__file__)))
sys.path.insert(0, os.path.join(TOP, ".ci"))
sys.dont_write_bytecode = True
from soak import BAD_JOBS, Gone, encoded, framed, good_jobs  # noqa: E402  (the module stands in the folder that was just added)

# The most that is granted at once, which no honest tenant spends.
GRANT = 2147483647

# A reply to an honest tenant takes no longer, in seconds.
LONGEST = 1.0

# Seconds after which a silent client is given up.
TIMEOUT = 5

# The connections that a tenant which isn't honest has at once.
AT_ONCE = 2

SLOTS = 4096

# A straight program as long as one may be, and one whose last instruction jumps back.
STRAIGHT = "b700000000000000" * (SLOTS - 1) + "9500000000000000"
CYCLE = "b700000000000000" * (SLOTS - 2) + "1500feff00000000" + "9500000000000000"
DEAREST = {"credit": 100, "buffer": "", "programs": [{"need": 0, "code": STRAIGHT}] * 14 + [{"need": 0, "code": CYCLE}]}


class Door:
    """A connection by a socket, with the payloads of its replies and the longest wait for one."""

    def __init__(self, path):
        self.stream = socket.socket(socket.AF_UNIX)
        self.stream.settimeout(60)
        self.stream.connect(path)
        self.longest = 0.0

    def read(self, count):
        parts = b""
        while len(parts) < count:
            try:
                part = self.stream.recv(count - len(parts))
            except OSError as error:
                raise Gone from error
            if not part:
                raise Gone
            parts += part
        return parts

    def payload(self):
        return self.read(struct.unpack(">I", self.read(4))[0])

    def ask(self, request):
        began = time.monotonic()
        self.stream.sendall(encoded(request))
        told = self.payload()
        self.longest = max(self.longest, time.monotonic() - began)
        return told

    def close(self):
        self.stream.close()


class Server:
    """`bpfjobs serve` with doors for these tenants, of which each was granted something or not."""

    def __init__(self, words, room, names, granted):
        self.room = room
        self.granter = f"{room}/grants"
        doors = [word for name in names for word in ("--tenant", f"{name}={self.path(name)}")]
        places = 2 + AT_ONCE * len(names)
        line = [words.program, "serve", "--socket", f"{room}/all", "--grants", self.granter, *doors]
        line += ["--workers", str(words.workers), "--clients", str(places), "--timeout", str(TIMEOUT)]
        self.process = subprocess.Popen(line, stdin=subprocess.DEVNULL, stdout=subprocess.DEVNULL, stderr=subprocess.PIPE)
        until = time.monotonic() + 20
        while not all(os.path.exists(self.path(name)) for name in names):
            if time.monotonic() > until or self.process.poll() is not None:
                sys.exit(f"soak_tenants: the server doesn't listen: {self.process.stderr.read()[-300:]}")
            time.sleep(0.05)
        granter = Door(self.granter)
        for name in granted:
            granter.ask({"op": "grant", "tenant": name, "amount": GRANT})
        granter.close()

    def path(self, name):
        return f"{self.room}/{name}"

    def end(self):
        alive = self.process.poll() is None
        self.process.kill()
        self.process.wait()
        return alive


class Honest(threading.Thread):
    """A tenant that gives jobs and asks for what they came to, so many rounds or for so long."""

    def __init__(self, words, server, names, name, good, rounds=None, until=None):
        super().__init__(daemon=True)
        self.path, self.name_of, self.good = server.path(name), name, good
        self.other = names[(names.index(name) + 1) % len(names)] if len(names) > 1 else "somebody-else"
        self.random = random.Random(words.seed * 1000003 + int(name[1:]))
        self.rounds, self.until = rounds, until
        self.done, self.jobs, self.spent = 0, 0, 0
        self.told, self.wrong, self.longest = [], [], 0.0

    def is_over(self):
        return self.done >= self.rounds if self.rounds is not None else time.monotonic() >= self.until

    def run(self):
        try:
            while not self.is_over():
                door = Door(self.path)
                for _ in range(8):
                    if not self.is_over():
                        self.round(door)
                        self.done += 1
                self.longest = max(self.longest, door.longest)
                door.close()
        except (Gone, OSError) as error:
            self.expect(False, f"gone in round {self.done}: {error!r}")

    def expect(self, holds, what):
        if not holds and len(self.wrong) < 5:
            self.wrong.append(f"{self.name_of}: {what}")

    def tell(self, door, request):
        payload = door.ask(request)
        self.told.append(payload)
        return json.loads(payload)

    def round(self, door):
        given = [self.random.choice(self.good) for _ in range(self.random.randint(1, 4))]
        for good in given:
            self.jobs += 1
            reply = self.tell(door, {**good.request, "tenant": self.name_of})
            self.expect(reply == {"ok": True, "job": self.jobs}, f"a good job, number {self.jobs}: {reply}")
        for number, good in zip(range(self.jobs - len(given) + 1, self.jobs + 1), given):
            payload = door.ask({"op": "result", "job": number})
            while b'"code":77' in payload:
                time.sleep(0.002)
                payload = door.ask({"op": "result", "job": number})
            self.told.append(payload)
            self.expect(good.is_right(json.loads(payload)), f"result {number}: {payload[:200]}")
            self.spent += good.spent
        account = {"ok": True, "balance": GRANT - self.spent, "granted": GRANT, "open": 0, "spent": self.spent}
        reply = self.tell(door, {"op": "account", "tenant": self.name_of})
        self.expect(reply == account, f"an account: {reply} for {account}")
        code, request = self.refused()
        reply = self.tell(door, request)
        self.expect(reply.get("code") == code, f"{request.get('op')}: {reply} for {code}")

    def refused(self):
        """A request that is refused, with its number."""
        code, job = self.random.choice(BAD_JOBS)
        return self.random.choice([
            (code, {**job, "op": "submit", "tenant": self.name_of}),
            (74, {"op": "account", "tenant": self.other}),
            (74, {**self.good[0].request, "tenant": self.other}),
            (73, {"op": "grant", "tenant": self.name_of, "amount": 1000}),
            (76, {"op": "status", "job": self.jobs + self.random.randint(1, 50)}),
            (76, {"op": "result", "job": self.jobs + self.random.randint(1, 50)}),
        ])


class Hostile(threading.Thread):
    """A tenant that isn't honest, by one of its connections."""

    def __init__(self, server, name, seed, until, act):
        super().__init__(daemon=True)
        self.path, self.name_of, self.until, self.act = server.path(name), name, until, act
        self.random = random.Random(seed)
        self.count = 0

    def run(self):
        while time.monotonic() < self.until:
            try:
                door = Door(self.path)
                door.stream.settimeout(TIMEOUT + 2)
                self.act(self, door)
                door.close()
            except (Gone, OSError):
                pass
            self.count += 1

    def rubbish(self, door):
        whole = encoded({"op": "account", "tenant": self.name_of})
        self.random.choice([
            lambda: door.stream.sendall(self.random.randbytes(self.random.randint(1, 5000))),
            lambda: door.stream.sendall(framed(self.random.randbytes(self.random.randint(1, 5000)))),
            lambda: door.stream.sendall(whole[: self.random.randrange(len(whole))]),
            lambda: door.stream.sendall(whole * self.random.randint(1, 2000)),
            lambda: door.read(1),
        ])()

    def dearest(self, door):
        for _ in range(20):
            if time.monotonic() < self.until:
                told = json.loads(door.ask({**DEAREST, "op": "submit", "tenant": self.name_of}))
                assert not told.get("ok"), told


def hostile_run(words, room, names, good):
    """The honest tenants after a run among the others, and what isn't right."""
    third = len(names) // 3
    honest, noisy, dear = names[: len(names) - 2 * third], names[len(names) - 2 * third : len(names) - third], names[len(names) - third :]
    server = Server(words, room, names, [*honest, *dear[::2]])
    until = time.monotonic() + words.seconds
    others = [Hostile(server, name, words.seed * 7 + i, until, act) for act, list_of in ((Hostile.rubbish, noisy), (Hostile.dearest, dear))
              for i, name in enumerate(list_of * AT_ONCE)]
    clients = [Honest(words, server, names, name, good, until=until) for name in honest]
    for thread in others + clients:
        thread.start()
    for thread in clients + others:
        thread.join(words.seconds + 120)
    wrong = [text for client in clients for text in client.wrong]
    wrong += [f"{client.name_of}: a reply took {client.longest:.2f} s" for client in clients if client.longest > LONGEST]
    wrong += ["a client isn't over"] * any(thread.is_alive() for thread in clients + others)
    if not server.end():
        wrong.append("the server ended by itself")
    jobs, rounds = sum(client.jobs for client in clients), sum(client.done for client in clients)
    print(f"soak_tenants: {len(honest)} honest tenants, {rounds} rounds, {jobs} jobs; the longest wait {max(c.longest for c in clients) * 1000:.0f} ms; "
          f"{sum(t.count for t in others if t.act is Hostile.rubbish)} connections of {len(noisy)} noisy ones, {sum(t.count for t in others if t.act is Hostile.dearest)} of {len(dear)} dear ones")
    return clients, wrong


def told_alone(words, room, names, client, good):
    """What an honest tenant isn't told alike at a server that it has to itself."""
    server = Server(words, room, [client.name_of], [client.name_of])
    alone = Honest(words, server, names, client.name_of, good, rounds=client.done)
    alone.start()
    alone.join(words.seconds * 2 + 120)
    server.end()
    yield from (f"alone, {text}" for text in alone.wrong)
    if alone.told != client.told:
        at = next((i for i, (a, b) in enumerate(zip(alone.told, client.told)) if a != b), min(len(alone.told), len(client.told)))
        yield f"{client.name_of}: reply {at} of {len(client.told)}: {client.told[at:at + 1]} among others, {alone.told[at:at + 1]} alone"


def main():
    reader = argparse.ArgumentParser(description="Honest tenants among others.")
    reader.add_argument("--seconds", type=int, default=60)
    reader.add_argument("--tenants", type=int, default=32)
    reader.add_argument("--trees", type=int, default=12)
    reader.add_argument("--workers", type=int, default=2)
    reader.add_argument("--seed", type=int, default=1)
    reader.add_argument("--program", default=os.path.join(TOP, "crates/bpfjobs/out/bpfjobs"))
    words = reader.parse_args()
    if not (3 <= words.tenants <= 256 and 1 <= words.seconds <= 3600):
        reader.error("--tenants is 3 to 256, --seconds 1 to 3600")
    good = good_jobs(words)
    names = [f"t{number}" for number in range(words.tenants)]
    with tempfile.TemporaryDirectory() as room:
        clients, wrong = hostile_run(words, room, names, good)
    compared = 0
    for client in clients:
        with tempfile.TemporaryDirectory() as room:
            wrong += told_alone(words, room, names, client, good)
        compared += len(client.told)
    print(f"soak_tenants: {compared} replies compared with those of servers of one tenant")
    for text in wrong[:20]:
        print(f"soak_tenants: {text}")
    print(f"soak_tenants: {len(wrong)} wrong" if wrong else "soak_tenants: each tenant is told what it is told alone, in time")
    return 1 if wrong else 0


if __name__ == "__main__":
    sys.exit(main())
