"""examples/asyncio_server.py: a thousand clients at once, clients that say nothing, and TLS."""

import asyncio
import contextlib
import json
import os
import resource
import shutil
import ssl
import struct
import subprocess
import sys
import tempfile
import unittest
from pathlib import Path

import programs
from patience import PATIENCE
from programs import assemble, frame

TOP = Path(programs.TOP)
SERVER = TOP / "examples/asyncio_server.py"
SUM = assemble((TOP / "examples/sum.bpf").read_text()).hex()
CLIENTS = 1000
GRANT, CREDIT, SPENT = 3000, 2000, 513


def most_clients():
    """A client has an end here and an end in the server, each of which is a file."""
    soft, hard = resource.getrlimit(resource.RLIMIT_NOFILE)
    wanted = 4 * CLIENTS if hard == resource.RLIM_INFINITY else min(4 * CLIENTS, hard)
    if soft < wanted:
        resource.setrlimit(resource.RLIMIT_NOFILE, (wanted, hard))
        soft = wanted
    return min(CLIENTS, soft - 100)


class Server:
    """The server in a process of its own, on a free port."""

    def __init__(self, *words):
        command = [sys.executable, str(SERVER), "0", *words]
        self.process = subprocess.Popen(command, stdout=subprocess.PIPE, text=True)
        self.port = int(self.process.stdout.readline())

    def __enter__(self):
        return self

    def __exit__(self, *_):
        self.process.terminate()
        self.process.wait()
        self.process.stdout.close()


class Client:
    """A connection. Its methods are coroutines."""

    def __init__(self, port, tls=None):
        self.port, self.tls = port, tls

    async def __aenter__(self):
        how = {"ssl": self.tls, "ssl_handshake_timeout": PATIENCE} if self.tls else {}
        self.reader, self.writer = await asyncio.open_connection("127.0.0.1", self.port, **how)
        return self

    async def __aexit__(self, *_):
        self.writer.close()
        with contextlib.suppress(ConnectionError, ssl.SSLError):
            await self.writer.wait_closed()

    async def reply(self):
        (size,) = struct.unpack(">I", await self.reader.readexactly(4))
        return json.loads(await self.reader.readexactly(size))

    async def ask(self, **request):
        self.writer.write(frame(json.dumps(request)))
        return await self.reply()


def submit(tenant):
    job = {"programs": [{"need": 8, "code": SUM}], "credit": CREDIT, "buffer": bytes(range(1, 65)).hex()}
    return {"op": "submit", "tenant": tenant, **job}


async def result(client, job):
    """The result of a job, which is asked for again less and less often."""
    pause = 0.05
    while True:
        told = await client.ask(op="result", job=job)
        if told.get("code") != 77:
            return told
        await asyncio.sleep(pause)
        pause = min(2 * pause, 1)


class Meeting:
    """Where clients wait until all of them are there."""

    def __init__(self, count):
        self.left, self.is_complete = count, asyncio.Event()

    async def join(self):
        self.left -= 1
        if not self.left:
            self.is_complete.set()
        await self.is_complete.wait()


async def one_client(port, tenant, meeting, tls=None):
    """A client that waits until all of them are there, and then has a job run."""
    async with Client(port, tls) as client:
        await meeting.join()
        await client.ask(op="grant", tenant=tenant, amount=GRANT)
        job = (await client.ask(**submit(tenant)))["job"]
        told = await result(client, job)
        account = await client.ask(op="account", tenant=tenant)
        return job, told["spent"] + told["returned"], told["spent"], account


class Served(unittest.TestCase):
    def run_clients(self, port, count, tls=None):
        async def together():
            meeting = Meeting(count)
            clients = (one_client(port, f"t{n}", meeting, tls) for n in range(count))
            return await asyncio.wait_for(asyncio.gather(*clients), PATIENCE)

        return asyncio.run(together())

    def check_clients(self, told, count):
        self.assertEqual(sorted(job for job, *_ in told), list(range(1, count + 1)))
        account = {"balance": GRANT - SPENT, "granted": GRANT, "ok": True, "open": 0, "spent": SPENT}
        for _, whole, spent, kept in told:
            self.assertEqual((whole, spent, kept), (CREDIT, SPENT, account))

    def test_many_clients_at_once(self):
        count = most_clients()
        with Server("--workers", "4", "--idle", str(PATIENCE)) as server:
            self.check_clients(self.run_clients(server.port, count), count)

    def test_a_client_that_says_nothing_is_let_go_of(self):
        async def silent(port):
            async with Client(port) as client:
                return await asyncio.wait_for(client.reader.read(), PATIENCE)

        async def asks(port):
            # it may be let go of as well, where its request comes late
            while True:
                with contextlib.suppress(ConnectionError, asyncio.IncompleteReadError):
                    async with Client(port) as client:
                        return await client.ask(op="account", tenant="t")

        with Server("--idle", "0.3") as server:
            self.assertEqual(asyncio.run(silent(server.port)), b"")
            told = asyncio.run(asyncio.wait_for(asks(server.port), PATIENCE))
            self.assertEqual(told, {"code": 74, "ok": False})

    def test_a_length_over_the_limit_is_the_last(self):
        async def rude(port):
            async with Client(port) as client:
                client.writer.write(frame("[]") + b"\xff\xff\xff\xff")
                return [await client.reply(), await client.reply(), await client.reader.read()]

        with Server() as server:
            first, second, rest = asyncio.run(rude(server.port))
            self.assertEqual((first["code"], second["code"], rest), (73, 71, b""))

    @unittest.skipUnless(shutil.which("openssl"), "needs Debian's openssl")
    def test_over_tls(self):
        with tempfile.TemporaryDirectory() as room:
            key, cert = os.path.join(room, "key"), os.path.join(room, "cert")
            words = ["-newkey", "rsa:2048", "-nodes", "-days", "1", "-subj", "/CN=localhost"]
            made = ["openssl", "req", "-x509", *words, "-keyout", key, "-out", cert]
            subprocess.run(made, check=True, capture_output=True)
            tls = ssl.create_default_context(cafile=cert)
            tls.check_hostname = False
            with Server("--cert", cert, "--key", key) as server:
                self.check_clients(self.run_clients(server.port, 20, tls), 20)


if __name__ == "__main__":
    unittest.main()
