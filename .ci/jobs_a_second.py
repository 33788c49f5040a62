#!/usr/bin/env python3
"""How many small jobs a second one connection gets done, and how long one job of many tasks takes.

    .ci/jobs_a_second.py [--program BPFJOBS] [--redis] [--rounds N]

It starts servers on free ports: one of many clients, whose workers last (`--clients 2 --workers 4`), and one of one client at a
time, whose jobs have a thread each. To each it sends

- small jobs (3 instructions, one task), a thousand in flight on one connection, and takes each one's result;
- a job of 10,000 tasks of 1,000 steps each, and asks for its result until it is there.

The second one is also run by `bpfjobs run`, without a server. With --redis a redis-server is started on a free port too, and
`redis-benchmark` asks for INCR with 1, 10 and 1,000 in flight on one connection, beside requests for an account with as many in
flight. Each figure is the best of the rounds.
"""

import argparse
import json
import os
import re
import socket
import struct
import subprocess
import sys
import time

TOP = os.path.dirname(os.path.dirname(os.path.abspath(__file__)))
IN_FLIGHT = 1_000
CASES = ((1, 20_000), (10, 100_000), (1_000, 300_000))  # in flight, and requests in all
SERVERS = {
    "workers that last": ("--clients", "2", "--workers", "4"),
    "a thread for each job": ("--workers", "4"),
}


def assembled(program, text):
    ran = subprocess.run([program, "assemble"], input=text, capture_output=True, text=True, check=True)
    return ran.stdout.strip()


def small_job(program):
    return {"programs": [{"need": 0, "code": assembled(program, "mov64 r0, 40\nadd64 r0, 2\nexit\n")}], "credit": 3, "buffer": ""}


def large_job(program, tasks=10_000, steps=1_000):
    """A root whose children spawn the leaves: 16 for a spawn, and 5 instructions about it."""
    width = 100
    leaf = "mov64 r0, 0\n" * (steps - 1) + "exit\n"

    def spawner(count, child, credit):
        turn = f"mov64 r1, {child}\nmov64 r2, {credit}\nmov64 r3, 0\nmov64 r4, 0\ncall 1\n"
        return turn * count + "mov64 r0, 0\nexit\n"

    middle = width * (steps + 100)
    root = tasks // width * (middle + 100)
    sources = [spawner(tasks // width, 1, middle), spawner(width, 2, steps), leaf]
    return {"programs": [{"need": 0, "code": assembled(program, text)} for text in sources], "credit": root, "buffer": ""}


def frame(request):
    text = json.dumps(request).encode()
    return struct.pack(">I", len(text)) + text


def free_port():
    with socket.socket() as probe:
        probe.bind(("127.0.0.1", 0))
        return probe.getsockname()[1]


class Connection:
    def __init__(self, port):
        until = time.monotonic() + 10
        while True:
            try:
                self.stream = socket.create_connection(("127.0.0.1", port))
                break
            except ConnectionRefusedError:
                if time.monotonic() > until:
                    raise
                time.sleep(0.01)
        self.stream.setsockopt(socket.IPPROTO_TCP, socket.TCP_NODELAY, 1)
        self.replies = self.stream.makefile("rb", 65_536)

    def reply(self):
        (length,) = struct.unpack(">I", self.replies.read(4))
        return json.loads(self.replies.read(length))

    def close(self):
        self.replies.close()
        self.stream.close()

    def ask(self, request):
        self.stream.sendall(frame(request))
        return self.reply()

    def result(self, job):
        while (reply := self.ask({"op": "result", "job": job})).get("code") == 77:
            time.sleep(0.0002)
        return reply


def started(program, words):
    port = free_port()
    words = [program, "serve", "--port", str(port), "--sessions", "1", *words]
    return subprocess.Popen(words), Connection(port)


def small_jobs(connection, job, total):
    """Jobs a second, each with its result. A job that isn't over yet is asked for again."""
    submit = frame({"op": "submit", "tenant": "t", **job}) * IN_FLIGHT
    connection.ask({"op": "grant", "tenant": "t", "amount": total * job["credit"]})
    begin = time.perf_counter()
    for _ in range(total // IN_FLIGHT):
        connection.stream.sendall(submit)
        jobs = [connection.reply()["job"] for _ in range(IN_FLIGHT)]
        while jobs:
            connection.stream.sendall(b"".join(frame({"op": "result", "job": job}) for job in jobs))
            replies = [connection.reply() for _ in jobs]
            failed = [reply for reply in replies if not reply["ok"] and reply["code"] != 77]
            if failed:
                sys.exit(f"jobs_a_second: {failed[0]}")
            jobs = [job for job, reply in zip(jobs, replies) if not reply["ok"]]
    return total / (time.perf_counter() - begin)


def one_job(connection, job):
    """Seconds from the submit to the result, and how many tasks it had."""
    connection.ask({"op": "grant", "tenant": "u", "amount": job["credit"]})
    begin = time.perf_counter()
    number = connection.ask({"op": "submit", "tenant": "u", **job})["job"]
    reply = connection.result(number)
    took = time.perf_counter() - begin
    return took, len(reply["tasks"])


def run_alone(program, job):
    text = json.dumps(job).encode()
    begin = time.perf_counter()
    ran = subprocess.run([program, "run", "--workers", "4"], input=text, capture_output=True, check=True)
    took = time.perf_counter() - begin
    return took, len(json.loads(ran.stdout)["tasks"])


def account_rate(port_connection, in_flight, total):
    batch = frame({"op": "account", "tenant": "t"}) * in_flight
    begin = time.perf_counter()
    for _ in range(total // in_flight):
        port_connection.stream.sendall(batch)
        for _ in range(in_flight):
            (length,) = struct.unpack(">I", port_connection.replies.read(4))
            port_connection.replies.read(length)
    return total / (time.perf_counter() - begin)


def redis_rate(port, in_flight, total):
    words = ["redis-benchmark", "-p", str(port), "-t", "incr", "-n", str(total), "-c", "1", "-P", str(in_flight), "-q"]
    told = subprocess.run(words, capture_output=True, text=True, check=True).stdout
    return float(re.findall(r"([\d.]+) requests per second", told)[-1])


def beside_redis(program, rounds):
    port = free_port()
    with subprocess.Popen(["redis-server", "--port", str(port), "--save", "", "--appendonly", "no"], stdout=subprocess.DEVNULL) as redis:
        Connection(port).close()
        server, connection = started(program, SERVERS["workers that last"])
        connection.ask({"op": "grant", "tenant": "t", "amount": 100})
        for in_flight, total in CASES:
            ours = max(account_rate(connection, in_flight, total) for _ in range(rounds))
            theirs = max(redis_rate(port, in_flight, total) for _ in range(rounds))
            print(f"{in_flight} in flight: {ours:,.0f} accounts a second, {theirs:,.0f} INCR a second by redis-server")
        connection.close()
        server.wait(60)
        redis.terminate()


def main():
    reader = argparse.ArgumentParser(description=__doc__.split("\n", maxsplit=1)[0])
    reader.add_argument("--program", default=f"{TOP}/crates/bpfjobs/out/bpfjobs")
    reader.add_argument("--rounds", type=int, default=3)
    reader.add_argument("--jobs", type=int, default=20_000)
    reader.add_argument("--redis", action="store_true")
    words = reader.parse_args()
    small, large = small_job(words.program), large_job(words.program)
    for name, more in SERVERS.items():
        server, connection = started(words.program, more)
        rates = [small_jobs(connection, small, words.jobs) for _ in range(words.rounds)]
        print(f"{name}: {max(rates):,.0f} small jobs a second, {IN_FLIGHT} in flight")
        times = [one_job(connection, large) for _ in range(words.rounds)]
        print(f"{name}: {min(times)[0] * 1000:,.0f} ms for a job of {times[0][1]} tasks")
        connection.close()
        server.wait(60)
    times = [run_alone(words.program, large) for _ in range(words.rounds)]
    print(f"bpfjobs run --workers 4: {min(times)[0] * 1000:,.0f} ms for a job of {times[0][1]} tasks, with its start")
    if words.redis:
        beside_redis(words.program, words.rounds)
    return 0


if __name__ == "__main__":
    sys.exit(main())
