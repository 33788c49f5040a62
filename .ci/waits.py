#!/usr/bin/env python3
"""How long an account takes to be told while another client submits the dearest programs there are.

    .ci/waits.py PORT [BPFJOBS]

It starts a server for two clients at once on the port. One asks for its account a thousand times, a millisecond apart, first alone and then
beside one that submits again and again a job of 15 programs of 4,096 slots, whose last one has a cycle: all are verified, and the job is
refused. A line for each of the two: the middle one, the 99th of a hundred, and the longest, in milliseconds.
"""

import json
import os
import socket
import struct
import subprocess
import sys
import threading
import time

TOP = os.path.dirname(os.path.dirname(os.path.abspath(__file__)))
ASKED = 1_000
SLOTS = 4_096


class Client:
    def __init__(self, port):
        self.stream = socket.create_connection(("127.0.0.1", port))
        self.stream.setsockopt(socket.IPPROTO_TCP, socket.TCP_NODELAY, 1)
        self.replies = self.stream.makefile("rb", 65_536)

    def ask(self, text):
        self.stream.sendall(struct.pack(">I", len(text)) + text)
        (length,) = struct.unpack(">I", self.replies.read(4))
        return json.loads(self.replies.read(length))

    def close(self):
        self.replies.close()
        self.stream.close()


def slot(opcode, registers=0, offset=0, value=0):
    return struct.pack("<BBhi", opcode, registers, offset, value)


def dear_job():
    """A submit of 15 programs that load and store all along; the last one leads back from its end to its first instruction."""
    stores = slot(0x7B, 0x1A, -8) * ((SLOTS - 4) // 2) + slot(0x79, 0xA1, -8) * ((SLOTS - 4) // 2)
    begins = slot(0xB7) + slot(0xB7, 0x01)
    accepted = begins + stores + slot(0xB7) + slot(0x95)
    cycle = begins + stores + slot(0x15, 0x00, -(SLOTS - 1)) + slot(0x95)
    programs = [{"need": 0, "code": code.hex()} for code in [accepted] * 14 + [cycle]]
    return json.dumps({"op": "submit", "tenant": "dear", "programs": programs, "credit": 10, "buffer": ""}).encode()


def times(client):
    account = json.dumps({"op": "account", "tenant": "t"}).encode()
    taken = []
    for _ in range(ASKED):
        start = time.perf_counter()
        client.ask(account)
        taken.append((time.perf_counter() - start) * 1_000)
        time.sleep(0.001)
    return sorted(taken)


def tell(name, taken):
    print(f"{name}: {taken[len(taken) // 2]:.2f} {taken[len(taken) * 99 // 100]:.2f} {taken[-1]:.2f}")


def submit_on(client, done, counted):
    job = dear_job()
    while not done.is_set():
        counted.append(client.ask(job))


def main(port, program):
    words = [program, "serve", "--port", str(port), "--sessions", "2", "--clients", "2"]
    with subprocess.Popen(words) as server:
        time.sleep(0.5)
        asking, submitting = Client(port), Client(port)
        for tenant in ("t", "dear"):
            asking.ask(json.dumps({"op": "grant", "tenant": tenant, "amount": 1_000}).encode())
        tell("alone", times(asking))
        done, counted = threading.Event(), []
        other = threading.Thread(target=submit_on, args=(submitting, done, counted))
        other.start()
        tell("beside submits", times(asking))
        done.set()
        other.join()
        print(f"{len(counted)} submits, the last one answered {counted[-1]}")
        asking.close()
        submitting.close()
        return server.wait(10)


if __name__ == "__main__":
    if len(sys.argv) not in (2, 3):
        sys.exit(__doc__)
    built = f"{TOP}/crates/bpfjobs/out/bpfjobs"
    sys.exit(main(int(sys.argv[1]), sys.argv[2] if len(sys.argv) > 2 else built))
