#!/usr/bin/env python3
"""How many requests a second a server answers without a journal, and with one that is synced for each reply or at intervals.

    .ci/journal_syncs.py [--program BPFJOBS] [--folder FOLDER] [--seconds S] [--rounds N]

A server listens at a socket in FOLDER, where its journal is too. One connection, and then ten, send grants one at a time: each waits
for its reply. The quickest of the rounds is told, and how long the slowest reply of all rounds took.
"""

import argparse
import json
import multiprocessing
import os
import socket
import struct
import subprocess
import tempfile
import time

TOP = os.path.dirname(os.path.dirname(os.path.abspath(__file__)))
SERVERS = {
    "no journal": (),
    "interval": ("--journal", "journal", "--journal-sync", "interval"),
    "always": ("--journal", "journal", "--journal-sync", "always"),
}
CONNECTIONS = 1, 10


def frame(request):
    text = json.dumps(request).encode()
    return struct.pack(">I", len(text)) + text


def connected(path):
    until = time.monotonic() + 10
    while True:
        stream = socket.socket(socket.AF_UNIX)
        try:
            stream.connect(path)
            return stream
        except OSError:
            stream.close()
            if time.monotonic() > until:
                raise
            time.sleep(0.01)


def ask(path, seconds, barrier, told):
    """Asks for that long, and tells how many replies came, and how long the slowest took."""
    asked, count, slowest = frame({"op": "grant", "tenant": "t", "amount": 1}), 0, 0.0
    with connected(path) as stream:
        barrier.wait()
        end = time.monotonic() + seconds
        while (begun := time.monotonic()) < end:
            stream.sendall(asked)
            reply = stream.recv(4096)
            assert b'"ok":true' in reply, reply
            count += 1
            slowest = max(slowest, time.monotonic() - begun)
    told.put((count, slowest))


def measured(program, folder, words, connections, seconds):
    """Requests a second, and the slowest reply in milliseconds."""
    with tempfile.TemporaryDirectory(dir=folder) as room:
        command = [program, "serve", "--socket", "all", "--clients", str(connections), "--sessions", str(connections), *words]
        with subprocess.Popen(command, cwd=room) as server:
            told, barrier = multiprocessing.Queue(), multiprocessing.Barrier(connections)
            path = os.path.join(room, "all")
            clients = [multiprocessing.Process(target=ask, args=(path, seconds, barrier, told)) for _ in range(connections)]
            for client in clients:
                client.start()
            results = [told.get() for _ in clients]
            for client in clients:
                client.join()
            assert server.wait(30) == 0
    return sum(count for count, _ in results) / seconds, 1000 * max(slowest for _, slowest in results)


def main():
    words = argparse.ArgumentParser(description=__doc__, formatter_class=argparse.RawDescriptionHelpFormatter)
    words.add_argument("--program", default=os.path.join(TOP, "crates/bpfjobs/out/bpfjobs"))
    words.add_argument("--folder", default=tempfile.gettempdir())
    words.add_argument("--seconds", type=float, default=3)
    words.add_argument("--rounds", type=int, default=3)
    options = words.parse_args()
    print(f"{'':<12}{'connections':>12}{'requests/s':>12}{'slowest, ms':>13}")
    for name, server in SERVERS.items():
        for connections in CONNECTIONS:
            rounds = [measured(os.path.realpath(options.program), options.folder, server, connections, options.seconds)
                      for _ in range(options.rounds)]
            quickest, slowest = max(rate for rate, _ in rounds), max(late for _, late in rounds)
            print(f"{name:<12}{connections:>12}{quickest:>12.0f}{slowest:>13.1f}")


if __name__ == "__main__":
    main()
