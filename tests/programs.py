"""The built programs and the library, and a server in a process of its own."""

import json
import os
import random
import socket
import struct
import subprocess
import sys
import threading
import time

from patience import PATIENCE

TOP = os.path.dirname(os.path.dirname(os.path.abspath(__file__)))
BPFJOBS = os.environ.get("BPFJOBS", os.path.join(TOP, "crates/bpfjobs/out/bpfjobs"))
BPFRUN = os.environ.get("BPFRUN", os.path.join(TOP, "crates/bpfrun/out/bpfrun"))
# Whether the programs are unproved, and say so (./try test).
IS_UNPROVED = "TELGOVAN_UNPROVED" in os.environ
WORDS = "unproved, with run-time tests"
SHORT = 10_000

# The version that the programs tell.
with open(os.path.join(TOP, "VERSION"), encoding="utf-8") as _file:
    VERSION = _file.read().strip() + (f" ({WORDS})" if IS_UNPROVED else "")

sys.path.insert(0, os.path.join(TOP, "bindings/python"))
import telgovan  # noqa: E402  (the module stands in the folder that was just added)

assemble, disassemble = telgovan.assemble, telgovan.disassemble


def told(program, words, given=b""):
    """The status of a program, and what it prints."""
    ran = subprocess.run([program, *words], input=given, capture_output=True, timeout=PATIENCE, check=False)
    return ran.returncode, ran.stdout.decode()


def tried(words):
    """The status of bpfrun, and what it prints: a refusal stands where errors do."""
    ran = subprocess.run([BPFRUN, *words], capture_output=True, timeout=PATIENCE, check=False)
    return ran.returncode, (ran.stderr if ran.returncode == 1 and not ran.stdout else ran.stdout).decode()


def bpfjobs(*words, given=""):
    return told(BPFJOBS, words, given.encode() if isinstance(given, str) else given)


def job_text(programs, credit, buffer, **more):
    """A job as `bpfjobs play` and `run` read it. The programs are pairs of a need and the bytes."""
    listed = [{"need": need, "code": code.hex()} for need, code in programs]
    return json.dumps({"programs": listed, "credit": credit, "buffer": buffer.hex(), **more})


def submit_text(programs, credit, buffer, tenant="t"):
    """The request of a tenant to run a job."""
    return f'{{"op":"submit","tenant":"{tenant}",' + job_text(programs, credit, buffer)[1:]


def play(programs, credit, buffer, schedule):
    """What a job comes to over a schedule, by `bpfjobs play`."""
    return json.loads(bpfjobs("play", given=job_text(programs, credit, buffer, schedule=list(schedule)))[1])


def frame(text):
    """A text behind its length."""
    payload = text.encode() if isinstance(text, str) else text
    return struct.pack(">I", len(payload)) + payload


def frames(texts):
    return b"".join(map(frame, texts))


def is_read(stream, count):
    """So many bytes, or fewer at the stream's end."""
    parts = b""
    while len(parts) < count:
        part = stream.recv(count - len(parts))
        if not part:
            break
        parts += part
    return parts


def free_port():
    """A port at which nobody listens, below those that the system gives to connections: one of these may be
    given to another test's ahead of the server's start."""
    while True:
        port = random.SystemRandom().randrange(10_000, 32_000)
        if may_listen(port):
            return port


def may_listen(port):
    """Whether this process may listen on a port, where nobody else does."""
    with socket.socket() as probe:
        probe.setsockopt(socket.SOL_SOCKET, socket.SO_REUSEADDR, 1)
        try:
            probe.bind(("127.0.0.1", port))
        except OSError:
            return False
    return True


def listening(words):
    """What `bpfjobs serve` by these words tells once it takes connections."""
    words = list(map(str, words))
    said = dict(zip(words, words[1:]))
    place = said.get("--socket") or f"127.0.0.1:{int(said['--port'])}"
    sessions = said.get("--sessions") or ("1" if said.get("--clients", "1") == "1" else "")
    return f"listening on {place}" + f" for {sessions} connection{'s' * (sessions != '1')}" * bool(sessions)


def past_listening(lines, words):
    """What a server by these words told beside the line that it takes connections, which is there once."""
    lines = lines.splitlines(keepends=True)
    line = f"bpfjobs: {listening(words)}\n"
    assert lines.count(line) == 1, lines
    lines.remove(line)
    return "".join(lines)


def events_past_listening(events, words):
    """The events of a server's log without the note that it takes connections, which stands behind `ready` and ahead of
    each connection. Beside it a journal's open jobs may begin."""
    events = list(events)
    (at,) = [at for at, event in enumerate(events) if event["event"] == "note" and event["text"] == listening(words)]
    ahead = [event["event"] for event in events[:at]]
    assert "ready" in ahead and "opened" not in ahead, events[: at + 1]
    return events[:at] + events[at + 1 :]


class Server:
    """`bpfjobs serve`, until so many connections have ended."""

    def __init__(self, sessions=1_000_000, workers=2, words=None, port=None, more=(), ahead=(), stdin=subprocess.DEVNULL, stderr=None):
        self.port = port or free_port()
        words = words or ["serve", "--port", self.port, "--workers", workers, "--sessions", sessions, *more]
        words = [*ahead, BPFJOBS, *map(str, words)]
        self.process = subprocess.Popen(words, stdin=stdin, stdout=subprocess.DEVNULL, stderr=stderr)

    def __enter__(self):
        return self

    def __exit__(self, *_why):
        self.process.kill()
        self.process.wait()
        if self.process.stdin:
            self.process.stdin.close()

    def connect(self):
        """A connection. A server that doesn't listen yet is asked again."""
        until = time.monotonic() + PATIENCE
        while True:
            try:
                stream = socket.create_connection(("127.0.0.1", self.port), timeout=PATIENCE)
                stream.setsockopt(socket.IPPROTO_TCP, socket.TCP_NODELAY, 1)
                return stream
            except ConnectionRefusedError:
                if time.monotonic() > until or self.process.poll() is not None:
                    raise
                time.sleep(0.001)

    def exchange(self, *pieces):
        """Sends pieces over a connection of their own, closes its side, and gives all that is answered."""
        with self.connect() as stream:
            # what is short is taken by the system; behind more, the server waits until its answers are read
            sender = threading.Thread(target=_send, args=(stream, pieces))
            if sum(map(len, pieces)) < SHORT:
                sender.run()
            else:
                sender.start()
            answer = b""
            while part := stream.recv(1 << 20):
                answer += part
            if sender.is_alive():
                sender.join()
        return answer

    def exchange_past(self, pieces, answered, rest):
        """Sends pieces, takes their answer of so many bytes, sends the rest, and gives all that came."""
        with self.connect() as stream:
            for piece in pieces:
                stream.sendall(piece)
            answer = is_read(stream, answered)
            _send(stream, [rest])
            try:
                return answer + stream.recv(1 << 20)
            except ConnectionResetError:
                return answer  # the server closed the stream ahead of the rest

    def ask(self, *requests):
        """The replies to requests, by one connection."""
        replies = []
        with self.connect() as stream:
            for request in requests:
                stream.sendall(frame(request if isinstance(request, (str, bytes)) else json.dumps(request)))
                replies.append(_reply(stream))
        return replies

    def result(self, job):
        """The result of a job, once it is over."""
        until = time.monotonic() + PATIENCE
        while True:
            (reply,) = self.ask({"op": "result", "job": job})
            if reply.get("code") != 77 or time.monotonic() > until:
                return reply

    def status(self):
        """The status of the process, once it has ended."""
        return self.process.wait(PATIENCE)


def _send(stream, pieces):
    try:
        for piece in pieces:
            stream.sendall(piece)
        stream.shutdown(socket.SHUT_WR)
    except OSError:
        pass  # the server may have closed the stream behind refusal 71


def _reply(stream):
    (length,) = struct.unpack(">I", is_read(stream, 4))
    return json.loads(is_read(stream, length))
