#!/usr/bin/env python3
"""How long an account takes to be told while another client asks again and again for a large result.

    .ci/waits_for_results.py PORT [BPFJOBS]

It starts a server for two clients at once on the port, which runs a job of some 30,000 tasks. One
asks for its account a thousand times, a millisecond apart, first alone and then beside one that
asks again and again for the job's result. A line for each of the two: the middle one, the 99th of a
hundred, and the longest, in milliseconds.
"""

import json
import os
import struct
import subprocess
import sys
import threading
import time

from waits import TOP, Client, slot, tell, times

ROOT_SPAWNS, MIDDLE_SPAWNS = 60, 500


def spawner(count, program, credit):
    """A program that spawns so many tasks of another one, each with this credit."""
    first = slot(0xB7, 0x01, 0, program) + slot(0xB7, 0x02, 0, credit)
    spawn = first + slot(0xB7, 0x03) + slot(0xB7, 0x04) + slot(0x85, 0, 0, 1)
    return spawn * count + slot(0xB7) + slot(0x95)


def wide_job():
    """A submit of a job of 30,061 tasks: its root has 60 children, of which each has 500."""
    leaf = slot(0xB7) + slot(0x95)
    leaf_credit = 2
    middle_credit = MIDDLE_SPAWNS * (leaf_credit + 100)
    root_credit = ROOT_SPAWNS * (middle_credit + 100)
    programs = [spawner(ROOT_SPAWNS, 1, middle_credit), spawner(MIDDLE_SPAWNS, 2, leaf_credit), leaf]
    told = [{"need": 0, "code": code.hex()} for code in programs]
    submit = {"op": "submit", "tenant": "wide", "programs": told, "credit": root_credit, "buffer": ""}
    return json.dumps(submit).encode(), root_credit


def length_of_reply(client, text):
    """Asks, and reads the reply without a look at it."""
    client.stream.sendall(struct.pack(">I", len(text)) + text)
    (length,) = struct.unpack(">I", client.replies.read(4))
    client.replies.read(length)
    return length


def ask_on(client, job, done, lengths):
    text = json.dumps({"op": "result", "job": job}).encode()
    while not done.is_set():
        lengths.append(length_of_reply(client, text))


def main(port, program):
    words = [program, "serve", "--port", str(port), "--sessions", "2", "--clients", "2"]
    with subprocess.Popen(words) as server:
        time.sleep(0.5)
        asking, other = Client(port), Client(port)
        submit, credit = wide_job()
        asking.ask(json.dumps({"op": "grant", "tenant": "t", "amount": 1_000}).encode())
        asking.ask(json.dumps({"op": "grant", "tenant": "wide", "amount": credit}).encode())
        job = other.ask(submit)["job"]
        text = json.dumps({"op": "result", "job": job}).encode()
        while (result := other.ask(text)).get("code") == 77:
            time.sleep(0.01)
        print(f"{len(result['tasks'])} tasks")
        tell("alone", times(asking))
        done, lengths = threading.Event(), []
        reads = threading.Thread(target=ask_on, args=(other, job, done, lengths))
        reads.start()
        tell("beside results", times(asking))
        done.set()
        reads.join()
        print(f"{len(lengths)} results of {lengths[-1]} bytes")
        asking.close()
        other.close()
        return server.wait(10)


if __name__ == "__main__":
    if len(sys.argv) not in (2, 3):
        sys.exit(__doc__)
    built = f"{TOP}/crates/bpfjobs/out/bpfjobs"
    sys.exit(main(int(sys.argv[1]), sys.argv[2] if len(sys.argv) > 2 else built))
