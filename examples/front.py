#!/usr/bin/env python3
"""TLS in front of the servers of many tenants: a client's certificate says whose server it reaches.

    front.py PORT --cert FILE --key FILE --authority FILE --table FILE [OPTION ..]

A line of the table has the SHA-256 of a certificate of the authority, its tenant's name, and the
path of the socket of the tenant's server; `#` begins a comment. Bytes pass unread. A certificate
that leaves the table is out within a second, with its connections. Each connection is told on
standard error, a JSON object a line. Port 0 takes a free one and prints it. SIGTERM ends it."""

import argparse
import asyncio
import contextlib
import hashlib
import json
import signal
import socket
import ssl
import sys
import time
from asyncio import get_running_loop as loop

# where it listens; connections at once, and of each tenant; seconds without a byte
DEFAULTS = {"address": "127.0.0.1", "connections": 256, "each": 16, "idle": 60.0}
PIECE = 16384
HANDSHAKE = 10.0  # seconds for a client to show its certificate, where --idle isn't less
LINGER = 2.0  # seconds for a client to end its stream, once the server has ended
LOOK = 0.5  # seconds between looks at the table and at the clock


def log(event, **members):
    print(json.dumps({"event": event, **members}), file=sys.stderr, flush=True)


def rows_of(path):
    """The tenants with their sockets by certificate, as the table is now. Without a table: none."""
    with contextlib.suppress(OSError), open(path, encoding="utf-8", errors="replace") as file:
        rows = [line.partition("#")[0].split() for line in file]
        return {row[0].replace(":", "").lower(): (row[1], row[2]) for row in rows if len(row) == 3}
    return {}


class Client:
    """A client's side. OpenSSL works on buffers, so that each direction may end by itself."""

    def __init__(self, stream, context):
        self.stream, self.sending = stream, asyncio.Lock()
        self.received, self.due = ssl.MemoryBIO(), ssl.MemoryBIO()
        self.tls = context.wrap_bio(self.received, self.due, server_side=True)

    async def send_due(self):
        async with self.sending:
            if self.due.pending:
                await loop().sock_sendall(self.stream, self.due.read())

    async def perform(self, action, *given):
        """Does one of OpenSSL's actions, with as many of the client's bytes as that takes."""
        while True:
            try:
                return action(*given)
            except ssl.SSLWantReadError:
                pass
            finally:
                await self.send_due()
            piece = await loop().sock_recv(self.stream, PIECE)
            if not piece:
                raise EOFError
            self.received.write(piece)

    async def read(self):
        """The client's next bytes; none where it has ended its stream, by TLS or by TCP alone."""
        try:
            return await self.perform(self.tls.read, PIECE)
        except (ssl.SSLZeroReturnError, EOFError):
            return b""


async def carry(client, server, idle, is_allowed):
    """Passes bytes on until the server ends its stream, and says how that came."""
    moved = time.monotonic()

    async def up():  # what the server no longer takes is dropped
        nonlocal moved
        while piece := await client.read():
            moved = time.monotonic()
            with contextlib.suppress(OSError):
                await loop().sock_sendall(server, piece)
        with contextlib.suppress(OSError):
            server.shutdown(socket.SHUT_WR)

    async def down():  # the server may end ahead of what it was sent
        nonlocal moved
        with contextlib.suppress(ConnectionResetError):
            while piece := await loop().sock_recv(server, PIECE):
                await client.perform(client.tls.write, piece)
                moved = time.monotonic()
        with contextlib.suppress(ssl.SSLError):  # the client's own end may come later
            client.tls.unwrap()
        with contextlib.suppress(OSError):  # it may be gone
            await client.send_due()
            client.stream.shutdown(socket.SHUT_WR)

    sent, answered = asyncio.ensure_future(up()), asyncio.ensure_future(down())
    try:
        while not answered.done():
            running = {answered} if sent.done() else {sent, answered}
            await asyncio.wait(running, timeout=LOOK, return_when=asyncio.FIRST_COMPLETED)
            if not is_allowed():
                return "revoked"
            if time.monotonic() - moved > idle:
                return "idle"
            if sent.done():
                sent.result()  # raises where the client was cut
        answered.result()
        end = "client" if sent.done() else "server"
        await asyncio.wait({sent}, timeout=LINGER)
        return end
    finally:
        sent.cancel()
        answered.cancel()
        await asyncio.gather(sent, answered, return_exceptions=True)


class Front:
    def __init__(self, given):
        self.given, self.count, self.tenants = given, 0, []
        self.context = ssl.create_default_context(ssl.Purpose.CLIENT_AUTH, cafile=given.authority)
        self.context.minimum_version = ssl.TLSVersion.TLSv1_3  # there a direction ends by itself
        self.context.num_tickets = 0  # so that each connection shows its certificate
        self.context.verify_mode = ssl.CERT_REQUIRED
        self.context.load_cert_chain(given.cert, given.key)

    async def serve(self, stream, told):
        """Serves a connection, and gives the event of its end."""
        if self.count > self.given.connections:
            return "refused", {"why": "too many"}
        client = Client(stream, self.context)
        patience = min(HANDSHAKE, self.given.idle)
        await asyncio.wait_for(client.perform(client.tls.do_handshake), patience)
        shown = hashlib.sha256(client.tls.getpeercert(binary_form=True)).hexdigest()
        row = rows_of(self.given.table).get(shown)
        if row is None:
            return "refused", {"why": "not in the table", "certificate": shown}
        tenant, path = row
        told["tenant"] = tenant
        if self.tenants.count(tenant) >= self.given.each:
            return "refused", {"why": "too many of the tenant"}
        self.tenants.append(tenant)
        try:
            with socket.socket(socket.AF_UNIX) as server:
                server.setblocking(False)
                await loop().sock_connect(server, path)
                log("opened", **told)
                is_allowed = lambda: rows_of(self.given.table).get(shown) == row  # noqa: E731
                return "closed", {"end": await carry(client, server, self.given.idle, is_allowed)}
        finally:
            self.tenants.remove(tenant)

    async def take(self, stream, peer):
        told, self.count = {"peer": peer[0]}, self.count + 1
        try:
            with stream:
                event, members = await self.serve(stream, told)
        except (OSError, EOFError, asyncio.TimeoutError) as error:  # also of TLS
            why = getattr(error, "verify_message", "") or getattr(error, "reason", "")
            event, members = "failed", {"why": why or type(error).__name__}
        finally:
            self.count -= 1
        log(event, **told, **members)

    async def listen(self):
        tasks = set()  # the loop itself holds none
        with socket.create_server((self.given.address, self.given.port), backlog=256) as listener:
            listener.setblocking(False)
            listener.setsockopt(socket.IPPROTO_TCP, socket.TCP_NODELAY, 1)
            print(listener.getsockname()[1], flush=True)
            while True:
                try:
                    tasks.add(asyncio.ensure_future(self.take(*await loop().sock_accept(listener))))
                except OSError:  # too many files are open, or the client is gone
                    await asyncio.sleep(LOOK)
                tasks = {task for task in tasks if not task.done()}


async def main():
    parser = argparse.ArgumentParser(description=__doc__.splitlines()[0])
    parser.add_argument("port", type=int)
    for name in ("cert", "key", "authority", "table"):
        parser.add_argument(f"--{name}", required=True)
    for name, value in DEFAULTS.items():
        parser.add_argument(f"--{name}", type=type(value), default=value)
    listening = asyncio.ensure_future(Front(parser.parse_args()).listen())
    loop().add_signal_handler(signal.SIGTERM, listening.cancel)
    with contextlib.suppress(asyncio.CancelledError):
        await listening


if __name__ == "__main__":
    asyncio.run(main())
