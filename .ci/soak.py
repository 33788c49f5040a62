#!/usr/bin/env python3
"""Keeps `bpfjobs serve` busy with good and bad clients for a while, and looks at what is left of it.

    .ci/soak.py [--seconds N | --jobs N] [--trees N] [--burst N] [--clients N] [--seed N] [--workers N]
                [--at-once K] [--timeout T] [--open-jobs N] [--keep N] [--silent N] [--pause MS]
                [--unit FILE] [--program FILE]

It starts the server on a free port of 127.0.0.1, the only address that it speaks to. The clients
grant, give good and bad jobs, ask, cut connections at any byte and send rubbish, as the seed says.
They wait MS milliseconds ahead of each connection, since a server takes a million of them at most.
The server serves K of them at once, and N more connections say nothing, each until it is given up,
and begin anew. The clients end after so many seconds, or once so many good jobs are taken.

A good job is that of `examples/spawn.json`, or with `--trees N` one of N pseudo-random trees
(`tests/trees.py`). Each client gives up to `--burst N` of them at once.

At the end the result of each job, with each of its tasks, has to be the model's (`tests/jobs.py`).
Each account has to add up, against what was granted and against these results. The server has to
have no thread and no socket but those that it began with. Its memory is told as bytes a job, by
the line that fits best, and by each minute.

With --unit the server has the environment that this systemd unit sets, and its memory may not grow
behind the first minute: no later minute's mean, and not what it has at the end, is over the most
that it had in the first, and the line's rise a job is none. Status: 0, or 1 where something doesn't
hold.
"""

import argparse
import json
import os
import random
import socket
import struct
import subprocess
import sys
import threading
import time

TOP = os.path.dirname(os.path.dirname(os.path.abspath(__file__)))
sys.path.insert(0, os.path.join(TOP, "tests"))
from trees import Planter, Tree, comparable  # noqa: E402  (the module stands in the folder that was just added)

# A connection more than these is never taken, so that the server is ended by a signal.
SESSIONS = 1000000

# How many sizes are looked at in a minute.
A_MINUTE = 120

# Seconds that a client waits for a reply.
PATIENCE = 60.0

# How many results an auditor asks for at once.
AT_ONCE = 200

# Of so many sums of what unknown jobs spent each is looked at.
MOST_SUMS = 10000

ROOT = (
    "bf16000000000000b701000001000000b70200000a000000b703000004000000b704000009000000"
    "85000000010000007306000000000000b7000000000000009500000000000000"
)
CHILD = "7331000000000000b7000000000000009500000000000000"
JOB = {
    "credit": 34,
    "buffer": "0000000000000000",
    "programs": [{"need": 4, "code": ROOT}, {"need": 4, "code": CHILD}],
}

# Jobs that no desk takes, each with the number of its refusal where the balance suffices.
BAD_JOBS = [
    (61, {**JOB, "programs": []}),
    (62, {**JOB, "programs": [{"need": 0, "code": CHILD}] * 17}),
    (31, {**JOB, "programs": [{"need": 0, "code": "9500000000000000"}]}),
    (2, {**JOB, "programs": [{"need": 0, "code": "95"}]}),
    (63, {**JOB, "credit": 8}),
    (64, {**JOB, "buffer": "000000"}),
    (73, {**JOB, "credit": -1}),
    (73, {**JOB, "buffer": "0"}),
]


def framed(text):
    return struct.pack(">I", len(text)) + text


def encoded(request):
    return framed(json.dumps(request).encode())


class Good:
    """A good job: what is asked for, and what it has to come to."""

    def __init__(self, job):
        self.request = {**job, "op": "submit"}
        programs = [(one["need"], bytes.fromhex(one["code"])) for one in job["programs"]]
        self.report = Tree(programs, job["credit"], bytes.fromhex(job["buffer"])).report()
        self.spent = self.report["spent"]

    def is_right(self, reply):
        return reply.get("ok") and comparable(reply) == self.report


def good_jobs(words):
    """The jobs that clients give."""
    if not words.trees:
        return [Good(JOB)]

    def assemble(text):
        ran = subprocess.run([words.program, "assemble"], input=text, capture_output=True, text=True, check=True)
        return bytes.fromhex(ran.stdout)

    planter = Planter(words.seed, assemble)
    trees = [planter.tree() for _ in range(words.trees)]
    listed = [[{"need": need, "code": code.hex()} for need, code in tree.programs] for tree in trees]
    return [
        Good({"credit": tree.credit, "buffer": tree.buffer.hex(), "programs": programs})
        for tree, programs in zip(trees, listed)
    ]


class Gone(Exception):
    """The connection is over."""


class Connection:
    def __init__(self, port):
        self.stream = socket.create_connection(("127.0.0.1", port), timeout=PATIENCE)

    def send(self, data):
        try:
            self.stream.sendall(data)
        except OSError as error:
            raise Gone from error

    def reply(self):
        (length,) = struct.unpack(">I", self._read(4))
        return json.loads(self._read(length))

    def ask(self, request):
        self.send(encoded(request))
        return self.reply()

    def ask_all(self, requests):
        """The replies to requests that are sent at once."""
        self.send(b"".join(map(encoded, requests)))
        return [self.reply() for _ in requests]

    def close(self, reset=False):
        if reset:
            self.stream.setsockopt(socket.SOL_SOCKET, socket.SO_LINGER, struct.pack("ii", 1, 0))
        self.stream.close()

    def _read(self, count):
        parts = b""
        while len(parts) < count:
            try:
                part = self.stream.recv(count - len(parts))
            except OSError as error:
                raise Gone from error
            if not part:
                raise Gone
            parts += part
        return parts


class Client(threading.Thread):
    """One tenant. What it knows of its account is what it was answered, and at most what it sent."""

    def __init__(self, port, number, words, good, until):
        super().__init__(daemon=True)
        self.pause, self.burst_of = words.pause / 1000, words.burst
        self.port, self.good, self.until = port, good, until
        # what else may be told of a job: that it is forgotten, or that it was one too many
        self.others = (76,) * (words.keep > 0) + (81,) * (words.open_jobs > 0)
        self.tenant = f"tenant-{number}"
        self.random = random.Random(words.seed * 1000003 + number)
        # its part of the jobs that are wanted of all
        self.most = words.jobs and -(-words.jobs // words.clients)
        self.granted = 0
        self.unsure = 0
        # the number of each job and what it is, and what others are whose reply didn't come
        self.jobs, self.unknown = [], []
        self.counts = dict.fromkeys(("connections", "requests", "jobs", "bad jobs", "cut", "rubbish"), 0)
        self.wrong = []

    def is_over(self):
        if self.most:
            return self.counts["jobs"] >= self.most
        return time.monotonic() >= self.until

    def run(self):
        while not self.is_over():
            time.sleep(self.pause)
            try:
                self.visit()
            except Gone:
                pass
            except OSError as error:
                self.wrong.append(f"{self.tenant}: no connection: {error}")
                return

    def visit(self):
        connection = Connection(self.port)
        self.counts["connections"] += 1
        try:
            for _ in range(self.random.randint(1, 12)):
                if not self.random.choice(self.ACTS)(self, connection):
                    return
        finally:
            connection.close(reset=self.random.random() < 0.1)

    def asked(self, connection, request):
        self.counts["requests"] += 1
        return connection.ask({**request, "tenant": self.tenant})

    def expect(self, holds, what):
        if not holds and len(self.wrong) < 5:
            self.wrong.append(f"{self.tenant}: {what}")

    def grant(self, connection):
        amount = self.random.randint(1, 2000) * self.burst_of * len(self.good)
        self.unsure += amount
        reply = self.asked(connection, {"op": "grant", "amount": amount})
        self.unsure -= amount
        self.expect(reply.get("ok"), f"a grant: {reply}")
        self.granted += amount
        return True

    def good_job(self, connection):
        """One job, or as many at once as a burst has."""
        given = [self.random.choice(self.good) for _ in range(self.random.randint(1, self.burst_of))]
        before = self.unknown
        self.unknown = before + given
        replies = connection.ask_all([{**good.request, "tenant": self.tenant} for good in given])
        self.unknown = before
        self.counts["requests"] += len(given)
        for good, reply in zip(given, replies):
            self.expect(reply.get("ok") or reply.get("code") in (74, 75), f"a good job: {reply}")
            if reply.get("ok"):
                self.jobs.append((reply["job"], good))
                self.counts["jobs"] += 1
        return True

    def bad_job(self, connection):
        code, job = self.random.choice(BAD_JOBS)
        reply = self.asked(connection, {**job, "op": "submit"})
        self.expect(not reply.get("ok") and reply["code"] in (code, 74, 75), f"a bad job ({code}): {reply}")
        self.counts["bad jobs"] += 1
        return True

    def look(self, connection):
        reply = self.asked(connection, {"op": "account"})
        if reply.get("ok"):
            sums = reply["open"] + reply["spent"] + reply["balance"]
            self.expect(sums == reply["granted"], f"an account: {reply}")
        if self.jobs:
            reply = self.asked(connection, {"op": "status", "job": self.random.choice(self.jobs)[0]})
            self.expect(reply.get("ok") or reply["code"] in self.others, f"a status: {reply}")
        return True

    def result(self, connection):
        if self.jobs:
            job, good = self.random.choice(self.jobs)
            reply = self.asked(connection, {"op": "result", "job": job})
            is_known = good.is_right(reply) or reply.get("code") in (77, *self.others)
            self.expect(is_known, f"a result: {reply}")
        return True

    def burst(self, connection):
        """Many requests at once, whose replies nobody reads."""
        connection.send(encoded({"op": "account", "tenant": self.tenant}) * self.random.randint(1, 400))
        return False

    def cut(self, connection):
        """A grant that is cut at any byte, which has to count for nothing."""
        whole = encoded({"op": "grant", "tenant": self.tenant, "amount": 1000000})
        connection.send(whole[: self.random.randrange(len(whole))])
        self.counts["cut"] += 1
        return False

    def rubbish(self, connection):
        self.counts["rubbish"] += 1
        data = self.random.randbytes(self.random.randint(1, 3000))
        if self.random.random() < 0.5:
            connection.send(data)
            return False
        connection.send(framed(data))
        reply = connection.reply()
        self.expect(reply.get("code") in (72, 73), f"rubbish: {reply}")
        return True

    ACTS = [grant, good_job, good_job, good_job, good_job, bad_job, look, result, burst, cut, rubbish]


def status_of(process):
    """Threads, and bytes that are resident."""
    with open(f"/proc/{process.pid}/status", encoding="utf-8") as file:
        rows = dict(line.split(":", 1) for line in file)
    return int(rows["Threads"]), int(rows["VmRSS"].split()[0]) * 1024


def sockets_of(process):
    folder = f"/proc/{process.pid}/fd"
    return sum(os.readlink(os.path.join(folder, name)).startswith("socket:") for name in os.listdir(folder))


def slope(points):
    """Of the line that fits the points best, how much it rises."""
    count = len(points)
    middle = [sum(column) / count for column in zip(*points)]
    over = sum((x - middle[0]) * (y - middle[1]) for x, y in points)
    under = sum((x - middle[0]) ** 2 for x, _ in points)
    return over / under if under else 0.0


def results_of(connection, jobs):
    """The result of each job, once it is over."""
    for at in range(0, len(jobs), AT_ONCE):
        asked = [{"op": "result", "job": job} for job, _ in jobs[at : at + AT_ONCE]]
        for request, reply in zip(asked, connection.ask_all(asked)):
            until = time.monotonic() + PATIENCE
            while reply.get("code") == 77 and time.monotonic() < until:
                time.sleep(0.01)
                reply = connection.ask(request)
            yield reply


def may_be_sum(total, parts):
    """Whether some of the parts add up to the total, as far as that is looked for."""
    if not 0 <= total <= sum(parts):
        return False
    sums = {0}
    for part in parts:
        sums |= {one + part for one in sums}
        if len(sums) > MOST_SUMS:
            return True
    return total in sums


def audit_account(connection, client):
    """Asks for each result of a client and for its account, and tells what isn't right."""
    spent, unknown = 0, [good.spent for good in client.unknown]
    for (job, good), reply in zip(client.jobs, results_of(connection, client.jobs)):
        if good.is_right(reply):
            spent += good.spent
        elif reply.get("code") not in client.others:
            yield f"job {job} of {client.tenant}: {reply}"
        elif reply["code"] == 76:
            # a job that is forgotten spent what it had to, unless it was one too many
            spent += 0 if 81 in client.others else good.spent
            unknown += [good.spent] * (81 in client.others)
    reply = connection.ask({"op": "account", "tenant": client.tenant})
    if not reply.get("ok"):
        if client.granted:
            yield f"{client.tenant}: {reply}"
        return
    known = client.granted <= reply["granted"] <= client.granted + client.unsure
    adds = reply["balance"] + reply["spent"] == reply["granted"] and reply["open"] == 0
    if not (known and adds and may_be_sum(reply["spent"] - spent, unknown)):
        yield f"{client.tenant}: {reply}, of {client.granted} granted and {len(client.jobs)} jobs"


def audit(port, clients):
    """What isn't right of the clients' jobs and accounts."""
    connection = Connection(port)
    wrong = [text for client in clients for text in audit_account(connection, client)]
    connection.close()
    return wrong


def free_port():
    with socket.socket() as probe:
        probe.bind(("127.0.0.1", 0))
        return probe.getsockname()[1]


def settings_of(unit):
    """What a systemd unit sets in the environment."""
    with open(unit, encoding="utf-8") as file:
        rows = [line.strip().partition("=")[2] for line in file if line.startswith("Environment=")]
    return dict(row.split("=", 1) for row in rows)


def start(program, port, workers, more, unit):
    words = [program, "serve", "--port", str(port), "--workers", str(workers), "--sessions", str(SESSIONS), *more]
    settings = {**os.environ, **(settings_of(unit) if unit else {})}
    process = subprocess.Popen(words, stdin=subprocess.DEVNULL, stdout=subprocess.PIPE, stderr=subprocess.STDOUT, env=settings)
    until = time.monotonic() + 10
    while time.monotonic() < until:
        try:
            Connection(port).close()
            return process
        except OSError:
            time.sleep(0.05)
    process.kill()
    sys.exit("soak: the server doesn't listen")


def keep_busy(process, clients, seconds):
    """Lets the clients go on to their end, and gives how many jobs there were at which size."""
    points = []
    for client in clients:
        client.start()
    until = time.monotonic() + seconds
    while any(client.is_alive() for client in clients):
        if process.poll() is not None:
            sys.exit(f"soak: the server ended with status {process.returncode}: {process.stdout.read()[-500:]}")
        points.append((sum(client.counts["jobs"] for client in clients), status_of(process)[1]))
        if time.monotonic() > until + 2 * PATIENCE:
            sys.exit("soak: a client isn't answered, or there are too few jobs")
        time.sleep(0.5)
    if process.poll() is not None:
        taken = sum(client.counts["connections"] for client in clients)
        sys.exit(f"soak: the server ended with status {process.returncode} after {taken} of at most {SESSIONS} connections")
    return points


def say_nothing(port, is_over):
    """Connections that are taken and say nothing, one after the other."""
    while not is_over.is_set():
        with socket.create_connection(("127.0.0.1", port)) as stream:
            stream.settimeout(0.5)
            while not is_over.is_set():
                try:
                    stream.recv(1)
                    break
                except TimeoutError:
                    pass
                except OSError:
                    break


def growth(sizes, at_the_end):
    """Tells what the server has in each minute, and gives whether it has more behind the first one."""
    minutes = [sizes[at : at + A_MINUTE] for at in range(0, len(sizes), A_MINUTE)]
    means = [sum(minute) / len(minute) for minute in minutes]
    most = max(minutes[0])
    print(f"soak: {most} bytes at most in the first minute, {max(sizes)} in all; the means by minutes: " + ", ".join(f"{mean:.0f}" for mean in means))
    return any(mean > most for mean in means[1:]) or at_the_end > most


def soak(words, process, port):
    time.sleep(1)  # all threads that it starts with are there then
    threads, size = status_of(process)
    sockets = sockets_of(process)
    until = time.monotonic() + words.seconds
    good = good_jobs(words)
    clients = [Client(port, number, words, good, until) for number in range(words.clients)]
    is_over = threading.Event()
    silent = [threading.Thread(target=say_nothing, args=(port, is_over)) for _ in range(words.silent)]
    for thread in silent:
        thread.start()
    try:
        points = keep_busy(process, clients, words.seconds)
    finally:
        is_over.set()
    for thread in silent:
        thread.join()
    wrong = [text for client in clients for text in client.wrong]
    began = time.monotonic()
    wrong += audit(port, clients)
    print(f"soak: {sum(len(client.jobs) for client in clients)} results compared in {time.monotonic() - began:.0f} seconds")
    time.sleep(1)
    after_threads, after_size = status_of(process)
    if after_threads != threads:
        wrong.append(f"{after_threads} threads, of {threads} at first")
    if sockets_of(process) > sockets:
        wrong.append(f"{sockets_of(process)} sockets, of {sockets} at first")
    counts = {name: sum(client.counts[name] for client in clients) for name in clients[0].counts}
    print("soak: " + ", ".join(f"{count} {name}" for name, count in counts.items()))
    rise = slope(points[len(points) // 5 :])
    print(f"soak: {size} bytes at first, {after_size} at the end, {rise:.0f} a job by the line that fits best")
    grows = growth([point[1] for point in points], after_size)
    if words.unit and (grows or round(rise) > 0):
        wrong.append("the server's memory grows")
    return wrong


def main():
    reader = argparse.ArgumentParser(description="Keeps a server busy for a while, and looks at what is left of it.")
    reader.add_argument("--seconds", type=int)
    reader.add_argument("--jobs", type=int, default=0)
    reader.add_argument("--trees", type=int, default=0)
    reader.add_argument("--burst", type=int, default=1)
    reader.add_argument("--clients", type=int, default=8)
    reader.add_argument("--seed", type=int, default=1)
    reader.add_argument("--workers", type=int, default=4)
    reader.add_argument("--at-once", type=int, default=1)
    reader.add_argument("--timeout", type=int, default=0)
    reader.add_argument("--open-jobs", type=int, default=0)
    reader.add_argument("--keep", type=int, default=0)
    reader.add_argument("--silent", type=int, default=0)
    reader.add_argument("--pause", type=int, default=0)
    reader.add_argument("--unit")
    reader.add_argument("--program", default=os.path.join(TOP, "crates/bpfjobs/out/bpfjobs"))
    words = reader.parse_args()
    words.seconds = words.seconds or (3600 if words.jobs else 60)
    if not (1 <= words.seconds <= 3600 and 1 <= words.clients <= 1024):
        reader.error("--seconds is 1 to 3600, --clients 1 to 1024")
    if not (0 <= words.jobs and 0 <= words.trees and 1 <= words.burst):
        reader.error("--jobs and --trees are 0 or more, --burst 1 or more")
    port = free_port()
    bounds = {"--clients": words.at_once, "--timeout": words.timeout, "--open-jobs": words.open_jobs, "--keep": words.keep}
    more = [word for name, value in bounds.items() for word in (name, str(value)) if value != (name == "--clients")]
    process = start(words.program, port, words.workers, more, words.unit)
    try:
        wrong = soak(words, process, port)
    finally:
        process.kill()
        process.wait()
    for text in wrong[:20]:
        print(f"soak: {text}")
    print(f"soak: {len(wrong)} wrong" if wrong else "soak: each result is the model's, every account adds up, and nothing is left over")
    return 1 if wrong else 0


if __name__ == "__main__":
    sys.exit(main())
