#!/usr/bin/env python3
"""Counts what `bpfjobs serve` holds in its heap after few and after five times as many clients of one kind.

    .ci/held.py [--few N] [--at-once K] [--program FILE]

The memory of a process may also grow by what the C library keeps of freed memory. valgrind's
memcheck counts the blocks that aren't freed. A server with `--clients 8 --keep 10 --timeout 5` on a free port of 127.0.0.1 is ended by a signal once
the clients are gone. Kinds: connections that are cut within a frame, that send rubbish, whose requests are refused, that are reset with replies
due; and jobs of two tasks: one after the other. With --at-once K, these are followed by K of the soak's tenants at once, each
with N and with 5 N visits; what they leave is told, and may differ by what tables and queues had to hold at their fullest.
Status: 0 where the blocks are as many after few as after many one after the other, else 1. It needs valgrind.
"""

import argparse
import re
import signal
import subprocess
import sys
import tempfile
import threading
import time
from importlib.machinery import SourceFileLoader
from importlib.util import module_from_spec, spec_from_loader
from pathlib import Path

HERE = Path(__file__).resolve().parent
ACCOUNT = {"op": "account", "tenant": "t"}
IN_USE = re.compile(r"in use at exit: ([\d,]+) bytes in ([\d,]+) blocks")


def soak():
    """The soak's clients, as a module."""
    sys.dont_write_bytecode = True
    spec = spec_from_loader("soak", SourceFileLoader("soak", str(HERE / "soak.py")))
    module = module_from_spec(spec)
    spec.loader.exec_module(module)
    return module


SOAK = soak()


def connected(port):
    """A connection, as soon as the server listens."""
    for _ in range(300):
        try:
            return SOAK.Connection(port)
        except OSError:
            time.sleep(0.1)
    sys.exit("held: the server doesn't listen")


def cut(port):
    connection = SOAK.Connection(port)
    connection.send(SOAK.encoded(ACCOUNT)[:-5])
    connection.close()


def rubbish(port):
    connection = SOAK.Connection(port)
    connection.send(SOAK.framed(b"rubbish!") + b"\xff" * 20)
    connection.reply()
    connection.close()


def refused(port):
    connection = SOAK.Connection(port)
    connection.ask({**SOAK.JOB, "op": "submit", "tenant": "nobody"})
    connection.close()


def reset(port):
    connection = SOAK.Connection(port)
    connection.send(SOAK.encoded(ACCOUNT) * 50)
    connection.close(reset=True)


def job(port):
    connection = SOAK.Connection(port)
    connection.ask({"op": "grant", "tenant": "t", "amount": SOAK.SPENT})
    connection.ask({"op": "grant", "tenant": "t", "amount": SOAK.RETURNED})
    number = connection.ask({**SOAK.JOB, "op": "submit", "tenant": "t"})["job"]
    while connection.ask({"op": "result", "job": number}).get("code") == 77:
        time.sleep(0.002)
    connection.close()


def one_by_one(client):
    """So many such clients, one after the other."""

    def visit(port, count):
        for _ in range(count):
            client(port)
        return count

    return visit


def together(tenants):
    """So many tenants of the soak's at once, each with so many visits. How many jobs they gave."""

    def visit(port, count):
        def visits(tenant):
            for _ in range(count):
                try:
                    tenant.visit()
                except SOAK.Gone:
                    pass

        clients = [SOAK.Client(port, number, 1, 0, True, False) for number in range(tenants)]
        threads = [threading.Thread(target=visits, args=(tenant,)) for tenant in clients]
        for thread in threads:
            thread.start()
        for thread in threads:
            thread.join()
        return sum(tenant.counts["jobs"] for tenant in clients)

    return visit


def held(program, visit, count):
    """The bytes and blocks that a server holds after such visits, and how many there were."""
    port = SOAK.free_port()
    words = ["valgrind", program, "serve", "--port", str(port), "--workers", "2", "--sessions", str(SOAK.SESSIONS)]
    words += ["--clients", "8", "--keep", "10", "--timeout", "5"]
    with tempfile.TemporaryFile("w+") as told:
        server = subprocess.Popen(words, stdin=subprocess.DEVNULL, stdout=told, stderr=told)
        connected(port).close()
        made = visit(port, count)
        time.sleep(2)
        server.send_signal(signal.SIGTERM)
        server.wait()
        told.seek(0)
        found = IN_USE.search(told.read())
    return *(int(number.replace(",", "")) for number in found.groups()), made


def tell(name, words, visit):
    """Tells what is held after few and after many such visits. Whether the blocks differ."""
    few, many = (held(words.program, visit, count) for count in (words.few, 5 * words.few))
    print(f"{name}: {few[0]} bytes in {few[1]} blocks after {few[2]}, {many[0]} in {many[1]} after {many[2]}", flush=True)
    return few[1] != many[1]


def main():
    reader = argparse.ArgumentParser(description=__doc__, formatter_class=argparse.RawDescriptionHelpFormatter)
    reader.add_argument("--few", type=int, default=100)
    reader.add_argument("--at-once", type=int, default=0)
    reader.add_argument("--program", default=str(HERE.parent / "crates/bpfjobs/out/bpfjobs"))
    words = reader.parse_args()
    status = 0
    for client in (cut, rubbish, refused, reset, job):
        if tell(client.__name__, words, one_by_one(client)):
            status = 1
    if words.at_once:
        tell(f"jobs of {words.at_once} at once", words, together(words.at_once))
    return status


if __name__ == "__main__":
    sys.exit(main())
