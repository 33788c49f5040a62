#!/usr/bin/env python3
"""A client of `bpfjobs serve`.

    client.py PORT COMMAND [WORD ..]    does one command
    client.py PORT                      does those of standard input, one a line
    client.py PATH ..                   the same on a socket in the file system
    client.py HOST:PORT ..              the same over TLS, by the files that are named in the
                                        environment: CERT and KEY of the client, and AUTHORITY

A path has a slash. Commands:

    grant TENANT AMOUNT     adds credit to a tenant
    account TENANT          tells what a tenant has
    submit TENANT FILE      gives the job of a JSON file (as `bpfjobs run` reads it) to the server
    status JOB              tells how far a job is
    result JOB              tells what a job came to
    wait JOB                asks for the result until the job is over

Each reply is printed as it came. Status: 0 where all requests were answered, 1 where one was refused,
2 where a command is wrong, 3 where the server can't be reached or closes the connection.
"""

import json
import os
import socket
import ssl
import struct
import sys
import time


class Refused(Exception):
    """A request was refused; `code` is the number of the refusal."""

    def __init__(self, reply):
        super().__init__("refused %d" % reply["code"])
        self.code = reply["code"]
        self.reply = reply


class Client:
    """One connection. Each method sends a request and gives its reply, as a dictionary.

    A refusal raises `Refused`. `text` is the last reply as it came.
    """

    # The number of the refusal of a result: the job is still open.
    OPEN = 77

    def __init__(self, port, host="127.0.0.1", patience=5.0, tls=None):
        """Connects to a port, or to a path's socket where `port` is a text; over TLS by a context of
        `ssl` in `tls`. A server that isn't listening yet is asked again, for so many seconds."""
        self.text = ""
        until = time.monotonic() + patience
        while True:
            try:
                at_path = isinstance(port, str)
                self.stream = connect_local(port) if at_path else socket.create_connection((host, port))
                break
            except (ConnectionRefusedError, FileNotFoundError):
                if time.monotonic() > until:
                    raise
                time.sleep(0.05)
        if tls:
            self.stream = tls.wrap_socket(self.stream, server_hostname=host)

    def __enter__(self):
        return self

    def __exit__(self, *_):
        self.stream.close()

    def grant(self, tenant, amount):
        return self.ask({"op": "grant", "tenant": tenant, "amount": amount})

    def account(self, tenant):
        return self.ask({"op": "account", "tenant": tenant})

    def submit(self, tenant, job):
        """Gives a job, a dictionary with `programs`, `credit` and `buffer`. The reply has its number."""
        return self.ask({**job, "op": "submit", "tenant": tenant})

    def status(self, job):
        return self.ask({"op": "status", "job": job})

    def result(self, job):
        return self.ask({"op": "result", "job": job})

    def wait(self, job, pause=0.02):
        """Asks for a result until the job is over."""
        while True:
            try:
                return self.result(job)
            except Refused as refused:
                if refused.code != Client.OPEN:
                    raise
                time.sleep(pause)

    def ask(self, request):
        """Sends a request as a frame, and reads the frame of its reply."""
        text = json.dumps(request).encode()
        self.stream.sendall(struct.pack(">I", len(text)) + text)
        (length,) = struct.unpack(">I", self._read(4))
        self.text = self._read(length).decode()
        reply = json.loads(self.text)
        if not reply["ok"]:
            raise Refused(reply)
        return reply

    def _read(self, count):
        parts = bytearray()
        while len(parts) < count:
            part = self.stream.recv(min(count - len(parts), 1 << 16))
            if not part:
                raise EOFError("the server closed the connection")
            parts += part
        return bytes(parts)


def connect_local(path):
    stream = socket.socket(socket.AF_UNIX)
    try:
        stream.connect(path)
    except OSError:
        stream.close()
        raise
    return stream


def place_of(word):
    """What `Client` takes for the place that the first word names."""
    if "/" in word:
        return {"port": word}
    host, _, port = word.rpartition(":")
    if not host:
        return {"port": int(port)}
    tls = ssl.create_default_context(cafile=os.environ["AUTHORITY"])
    tls.load_cert_chain(os.environ["CERT"], os.environ["KEY"])
    return {"port": int(port), "host": host, "tls": tls}


def load(path):
    with open(path, encoding="utf-8") as file:
        return json.load(file)


# What the words behind a command are.
COMMANDS = {
    "grant": (str, int),
    "account": (str,),
    "submit": (str, load),
    "status": (int,),
    "result": (int,),
    "wait": (int,),
}


def perform(client, words):
    """Does one command, and prints its reply. Whether it was answered, not refused."""
    reads = COMMANDS.get(words[0])
    if reads is None or len(words) != len(reads) + 1:
        raise ValueError("no such command: " + " ".join(words))
    arguments = [read(word) for read, word in zip(reads, words[1:])]
    try:
        getattr(client, words[0])(*arguments)
        answered = True
    except Refused:
        answered = False
    print(client.text, flush=True)
    return answered


def main(words):
    if not words or not (words[0].rpartition(":")[2].isdigit() or "/" in words[0]):
        print(__doc__, file=sys.stderr)
        return 2
    lines = [words[1:]] if len(words) > 1 else (line.split() for line in sys.stdin if line.strip())
    try:
        place = place_of(words[0])
    except (KeyError, OSError) as error:
        print(f"no place for a client over TLS: {error}", file=sys.stderr)
        return 2
    try:
        client = Client(**place)
    except OSError as error:
        print(error, file=sys.stderr)
        return 3
    try:
        with client:
            answers = [perform(client, line) for line in lines]
    except (ValueError, FileNotFoundError) as error:
        print(error, file=sys.stderr)
        return 2
    except (OSError, EOFError) as error:
        print(error, file=sys.stderr)
        return 3
    return 0 if all(answers) else 1


if __name__ == "__main__":
    sys.exit(main(sys.argv[1:]))
