#!/usr/bin/env python3
"""The server of docs/protocol.md, over asyncio and the proved desk: a thousand clients at once.

    asyncio_server.py PORT [--workers N] [--idle SECONDS] [--cert FILE --key FILE]

It listens on 127.0.0.1, with TLS where a certificate is given. Requests are answered by the
library's desk, one piece of bytes at a time. Jobs run in threads beside the loop. A client that
says nothing, or doesn't read, for as long as `--idle` is let go of. Port 0 takes a free one, which
is printed."""

import argparse
import asyncio
import os
import ssl
import sys
from concurrent.futures import ThreadPoolExecutor

sys.path.insert(0, os.path.join(os.path.dirname(os.path.abspath(__file__)), "../bindings/python"))
import telgovan  # noqa: E402  (the module stands in the folder that was just added)

# Little, since the replies to a piece are held until they are sent.
PIECE = 4096
NO_MEMORY = 99


class Server:
    """A desk, and the threads that run its jobs. All of it but the jobs is in the loop's thread."""

    def __init__(self, workers, idle):
        self.desk = telgovan.Desk()
        self.pool = ThreadPoolExecutor(workers)
        self.free, self.idle = workers, idle

    def start_jobs(self):
        """Starts jobs that wait, as long as a thread is free."""
        loop = asyncio.get_running_loop()
        while self.free > 0 and (job := self.desk.next_job()):
            self.free -= 1
            running = loop.run_in_executor(self.pool, telgovan.play_text, job.text)
            running.add_done_callback(lambda done, number=job.number: self.end_job(number, done))

    def end_job(self, number, done):
        """Gives the desk what a job came to."""
        try:
            self.desk.finish(number, *done.result())
        except telgovan.Error as error:
            self.desk.fail(number, error.number)
        except MemoryError:
            self.desk.fail(number, NO_MEMORY)
        self.free += 1
        self.start_jobs()

    async def send_replies(self, connection, writer):
        while piece := self.desk.replies(connection):
            writer.write(piece)
            await asyncio.wait_for(writer.drain(), self.idle)

    async def answer(self, connection, reader, writer):
        """Answers what a client says until it is over."""
        goes_on = True
        while goes_on:
            piece = await asyncio.wait_for(reader.read(PIECE), self.idle)
            if not piece:
                return
            try:
                self.desk.feed(connection, piece)
            except telgovan.Error:
                goes_on = False
            self.start_jobs()
            await self.send_replies(connection, writer)

    async def serve_client(self, reader, writer):
        connection = self.desk.connect()
        try:
            await self.answer(connection, reader, writer)
        except (asyncio.TimeoutError, ConnectionError, ssl.SSLError):
            pass
        finally:
            self.desk.disconnect(connection)
            writer.close()


def words():
    parser = argparse.ArgumentParser(description=__doc__.splitlines()[0])
    parser.add_argument("port", type=int)
    parser.add_argument("--workers", type=int, default=os.cpu_count() or 1)
    parser.add_argument("--idle", type=float, default=60.0)
    parser.add_argument("--cert")
    parser.add_argument("--key")
    return parser.parse_args()


async def main(given):
    tls = None
    if given.cert:
        tls = ssl.SSLContext(ssl.PROTOCOL_TLS_SERVER)
        tls.load_cert_chain(given.cert, given.key)
    server = Server(given.workers, given.idle)
    listening = await asyncio.start_server(
        server.serve_client, "127.0.0.1", given.port, ssl=tls, backlog=1024
    )
    print(listening.sockets[0].getsockname()[1], flush=True)
    async with listening:
        await listening.serve_forever()


if __name__ == "__main__":
    try:
        asyncio.run(main(words()))
    except KeyboardInterrupt:
        pass
