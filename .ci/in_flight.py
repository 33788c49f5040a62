#!/usr/bin/env python3
"""How many requests a second one connection gets answered, by how many are sent at once.

    .ci/in_flight.py PORT [BPFJOBS]
    .ci/in_flight.py PORT BPFJOBS --clients 4    the server takes these words too

It starts a server on the port, asks for an account again and again, and prints a line for each number in flight.
"""

import json
import os
import socket
import struct
import subprocess
import sys
import time

TOP = os.path.dirname(os.path.dirname(os.path.abspath(__file__)))
CASES = ((1, 20_000), (10, 100_000), (1_000, 300_000))  # in flight, and requests in all


def frame(request):
    text = json.dumps(request).encode()
    return struct.pack(">I", len(text)) + text


def take_reply(replies):
    (length,) = struct.unpack(">I", replies.read(4))
    replies.read(length)


def rate(port, in_flight, total):
    """Answered requests a second."""
    with socket.create_connection(("127.0.0.1", port)) as stream:
        stream.setsockopt(socket.IPPROTO_TCP, socket.TCP_NODELAY, 1)
        replies = stream.makefile("rb", 65_536)
        stream.sendall(frame({"op": "grant", "tenant": "t", "amount": 100}))
        take_reply(replies)
        batch = frame({"op": "account", "tenant": "t"}) * in_flight
        start = time.perf_counter()
        for _ in range(total // in_flight):
            stream.sendall(batch)
            for _ in range(in_flight):
                take_reply(replies)
        return total / (time.perf_counter() - start)


def main(port, program, more):
    words = [program, "serve", "--port", str(port), "--workers", "1", "--sessions", str(len(CASES)), *more]
    with subprocess.Popen(words) as server:
        time.sleep(0.5)
        for in_flight, total in CASES:
            print(f"{in_flight} in flight: {rate(port, in_flight, total):,.0f} requests a second")
        return server.wait(10)


if __name__ == "__main__":
    if len(sys.argv) < 2:
        sys.exit(__doc__)
    built = f"{TOP}/crates/bpfjobs/out/bpfjobs"
    sys.exit(main(int(sys.argv[1]), sys.argv[2] if len(sys.argv) > 2 else built, sys.argv[3:]))
