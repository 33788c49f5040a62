"""examples/front.py: a certificate says whose server a client reaches, and bytes pass in both directions."""

import contextlib
import json
import os
import shutil
import signal
import socket
import ssl
import subprocess
import sys
import tempfile
import threading
import time
import unittest

from patience import PATIENCE, wait_for
from programs import BPFJOBS, TOP, assemble, frame, is_read, submit_text
from test_clients import ASKED, by_timeouts, within
from test_server import texts_of

sys.path.insert(0, os.path.join(TOP, "examples"))
import client as clients  # noqa: E402  (the module stands in the folder that was just added)

FRONT = os.path.join(TOP, "examples/front.py")
ADD = assemble("mov64 r0, 40\nadd64 r0, 2\nexit")
TENANTS = ("alice", "bob")
GRANTED = {"alice": 1000, "bob": 2000}
NEW_KEY = ["openssl", "req", "-newkey", "ec", "-pkeyopt", "ec_paramgen_curve:P-256", "-nodes"]


def ends(events):
    return [event["end"] for event in events if event["event"] == "closed"]


class Certificates:
    """A folder of keys and certificates, which openssl makes."""

    def __init__(self, folder):
        self.folder = folder

    def path(self, name):
        return os.path.join(self.folder, name)

    def call(self, *words):
        ran = subprocess.run(words, cwd=self.folder, check=True, capture_output=True, text=True, timeout=PATIENCE)
        return ran.stdout

    def authority(self, name):
        words = ["-x509", "-days", "2", "-subj", f"/CN={name}"]
        self.call(*NEW_KEY, *words, "-keyout", f"{name}.key", "-out", f"{name}.crt")

    def sign(self, name, authority="authority", days=2):
        """A certificate for localhost, signed by the authority."""
        words = ["-subj", f"/CN={name}", "-addext", "subjectAltName=DNS:localhost"]
        self.call(*NEW_KEY, *words, "-keyout", f"{name}.key", "-out", f"{name}.csr")
        signed = ["-CA", f"{authority}.crt", "-CAkey", f"{authority}.key", "-copy_extensions", "copy"]
        self.call("openssl", "x509", "-req", "-in", f"{name}.csr", *signed, "-days", str(days), "-out", f"{name}.crt")

    def fingerprint(self, name):
        told = self.call("openssl", "x509", "-in", f"{name}.crt", "-noout", "-fingerprint", "-sha256")
        return told.strip().partition("=")[2]

    def tls(self, name, authority="authority"):
        """What a client shows, and whom it believes."""
        context = ssl.create_default_context(cafile=self.path(f"{authority}.crt"))
        if name:
            context.load_cert_chain(self.path(f"{name}.crt"), self.path(f"{name}.key"))
        return context


class Half:
    """A client that may end its direction and read on, which `ssl` has for buffers alone."""

    def __init__(self, port, context):
        self.stream = socket.create_connection(("localhost", port), timeout=PATIENCE)
        self.received, self.due = ssl.MemoryBIO(), ssl.MemoryBIO()
        self.tls = context.wrap_bio(self.received, self.due, server_hostname="localhost")
        self.perform(self.tls.do_handshake)

    def perform(self, action, *given):
        while True:
            try:
                return action(*given)
            except ssl.SSLWantReadError:
                pass
            finally:
                if self.due.pending:
                    self.stream.sendall(self.due.read())
            piece = self.stream.recv(1 << 16)
            if piece:
                self.received.write(piece)
            else:
                self.received.write_eof()

    def end(self):
        """Ends its direction by TLS."""
        with contextlib.suppress(ssl.SSLWantReadError):
            self.tls.unwrap()
        self.stream.sendall(self.due.read())

    def rest(self):
        """All that comes up to the end, and whether TLS says that it is the end."""
        whole = b""
        while True:
            try:
                piece = self.perform(self.tls.read, 1 << 16)
            except ssl.SSLZeroReturnError:
                return whole, True
            except ssl.SSLEOFError:
                return whole, False
            if not piece:
                return whole, True
            whole += piece


@unittest.skipUnless(shutil.which("openssl"), "needs Debian's openssl")
class Front(unittest.TestCase):
    @classmethod
    def setUpClass(cls):
        room = tempfile.TemporaryDirectory()
        cls.addClassCleanup(room.cleanup)
        cls.made = Certificates(room.name)
        for name in ("authority", "stranger"):
            cls.made.authority(name)
        for name in ("front", *TENANTS, "unlisted"):
            cls.made.sign(name)
        cls.made.sign("expired", days=-1)
        cls.made.sign("forged", "stranger")

    def setUp(self):
        room = tempfile.TemporaryDirectory()
        self.addCleanup(room.cleanup)
        self.room, self.process = room.name, None
        for tenant in TENANTS:
            self.serve(tenant)
        self.write_table(alice="alice", bob="bob", expired="alice", forged="alice")

    def start(self, words, **more):
        process = subprocess.Popen(words, text=True, **more)
        for stream in (process.stdout, process.stderr):
            if stream:
                self.addCleanup(stream.close)
        self.addCleanup(process.wait)
        self.addCleanup(process.kill)
        return process

    def door(self, tenant, folder="doors"):
        return os.path.join(self.room, f"{folder}-{tenant}")

    def serve(self, tenant, *more):
        words = ["--socket", self.door(tenant), "--grants", self.door(tenant, "grants"), "--sessions", "1000"]
        options = ["--clients", "8", "--workers", "2", *more]
        server = self.start([BPFJOBS, "serve", *words, *options], stdin=subprocess.DEVNULL, stderr=subprocess.DEVNULL)
        with clients.Client(self.door(tenant, "grants"), patience=PATIENCE) as client:
            client.grant(tenant, GRANTED[tenant])
        return server

    def write_table(self, **tenants):
        """Puts a table in the place of the one that is there: tenants by the names of certificates."""
        path = os.path.join(self.room, "table")
        with open(path + ".new", "w", encoding="utf-8") as file:
            file.write("# certificate, tenant, socket\n\n")
            for name, tenant in tenants.items():
                file.write(f"{self.made.fingerprint(name)} {tenant} {self.door(tenant)} # {name}\n")
        os.replace(path + ".new", path)

    def front(self, *more):
        """Starts a front, in the place of one that runs."""
        if self.process:
            self.process.kill()
            self.process.wait()
        files = {"--cert": "front.crt", "--key": "front.key", "--authority": "authority.crt"}
        words = [word for option, name in files.items() for word in (option, self.made.path(name))]
        words += ["--table", os.path.join(self.room, "table"), *map(str, more)]
        with open(os.path.join(self.room, "log"), "w", encoding="utf-8") as log:
            self.process = self.start([sys.executable, FRONT, "0", *words], stdout=subprocess.PIPE, stderr=log)
        self.port = int(self.process.stdout.readline())

    def told(self):
        with open(os.path.join(self.room, "log"), encoding="utf-8") as log:
            return [json.loads(line) for line in log.read().splitlines()]

    def events(self, left=0):
        """The front's log, once so many connections are left and it has ended."""
        def are_left():
            events = [event["event"] for event in self.told()]
            return events.count("opened") - events.count("closed") == left

        wait_for(are_left, f"{left} connections")
        self.process.send_signal(signal.SIGTERM)
        self.assertEqual(self.process.wait(PATIENCE), 0)
        return self.told()

    def client(self, name):
        client = clients.Client(self.port, "localhost", PATIENCE, self.made.tls(name))
        client.stream.settimeout(PATIENCE)
        self.addCleanup(client.stream.close)
        return client

    def check_refused(self, name):
        """The client hears nothing: an alert, or the end of its stream."""
        with self.assertRaises((OSError, EOFError)):
            self.client(name).account("alice")

    def check_closed(self, client, tenant):
        def is_closed():
            try:
                client.account(tenant)
            except (OSError, EOFError):
                return True

        wait_for(is_closed, "the end of a connection")

    def code_of(self, ask, *words):
        with self.assertRaises(clients.Refused) as caught:
            ask(*words)
        return caught.exception.code

    def test_each_tenant_has_its_own(self):
        """Two at once: each reaches its own account and its own jobs, which no other's number leads to."""
        self.front()
        wrong = []

        def work(tenant, jobs):
            with self.client(tenant) as client:
                for job in range(1, jobs + 1):
                    buffer = f"{tenant} {job}".encode()
                    told = client.ask(json.loads(submit_text([(0, ADD)], 3, buffer, tenant=tenant)))
                    result = client.wait(told["job"])
                    if (told["job"], result["buffer"]) != (job, buffer.hex()):
                        wrong.append((tenant, job, told, result))

        jobs = {"alice": 20, "bob": 30}
        threads = [threading.Thread(target=work, args=pair) for pair in jobs.items()]
        for thread in threads:
            thread.start()
        for thread in threads:
            thread.join()
        self.assertEqual(wrong, [])
        for tenant, other in (TENANTS, TENANTS[::-1]):
            with self.client(tenant) as client:
                spent = 3 * jobs[tenant]
                sums = {"balance": GRANTED[tenant] - spent, "granted": GRANTED[tenant], "open": 0, "spent": spent}
                self.assertEqual(client.account(tenant), {**sums, "ok": True})
                self.assertEqual(self.code_of(client.account, other), 74)
                self.assertEqual(self.code_of(client.grant, tenant, 1), 73)
                self.assertEqual(bytes.fromhex(client.result(20)["buffer"]), f"{tenant} 20".encode())
        with self.client("alice") as client:
            self.assertEqual(self.code_of(client.result, 21), 76)
        told = [(event["event"], event["tenant"], event.get("end", "")) for event in self.events()]
        events = (("opened", ""), ("closed", "client"))
        wanted = [(event, tenant, end) for event, end in events for tenant in (*TENANTS, *TENANTS, "alice")]
        self.assertEqual(sorted(told), sorted(wanted))

    def test_who_is_refused(self):
        """No certificate, one of another authority, one that has expired, and one without a line."""
        self.front()
        for name in (None, "forged", "expired", "unlisted"):
            with self.subTest(name):
                self.check_refused(name)
        with self.client("alice") as client:
            self.assertEqual(client.account("alice")["granted"], 1000)
        events = self.events()
        whys = [event["why"] for event in events if event["event"] in ("failed", "refused")]
        self.assertEqual(len(whys), 4)
        for why, words in zip(whys, ("CERTIFICATE", "issuer", "expired", "not in the table")):
            self.assertIn(words, why)
        shown = self.made.fingerprint("unlisted").replace(":", "").lower()
        self.assertEqual([event["certificate"] for event in events if "certificate" in event], [shown])
        self.assertFalse(any("tenant" in event for event in events if event["event"] in ("failed", "refused")))

    def test_plain_bytes_and_old_tls(self):
        self.front()
        with socket.create_connection(("localhost", self.port), timeout=PATIENCE) as stream:
            stream.sendall(frame('{"op":"account","tenant":"alice"}'))
            with contextlib.suppress(ConnectionResetError):
                self.assertNotIn(b"granted", is_read(stream, 1000))
        old = self.made.tls("alice")
        old.maximum_version = ssl.TLSVersion.TLSv1_2
        with self.assertRaises(OSError):
            clients.Client(self.port, "localhost", tls=old)
        self.assertEqual([event["event"] for event in self.events()], ["failed", "failed"])

    def test_taken_out_of_the_table(self):
        """What is open is closed, and nothing is opened. The other tenant's connection goes on."""
        self.front()
        alice, bob = self.client("alice"), self.client("bob")
        self.assertEqual((alice.account("alice")["granted"], bob.account("bob")["granted"]), (1000, 2000))
        self.write_table(bob="bob")
        self.check_closed(alice, "alice")
        self.check_refused("alice")
        self.assertEqual(bob.account("bob")["granted"], 2000)
        os.unlink(os.path.join(self.room, "table"))
        self.check_closed(bob, "bob")
        self.write_table(alice="alice", bob="alice")
        # a certificate leads to another's server from now on
        self.assertEqual(self.client("alice").account("alice"), self.client("bob").account("alice"))
        self.assertEqual(ends(self.events(left=2)), ["revoked", "revoked"])

    def test_the_client_ends_first(self):
        """All that it asked is answered, and then the end, whether it ends by TLS or by TCP alone."""
        self.front()
        asked = 500
        for by_tls in (True, False):
            with self.subTest(by_tls=by_tls):
                client = Half(self.port, self.made.tls("alice"))
                with client.stream:
                    client.perform(client.tls.write, frame('{"op":"account","tenant":"alice"}') * asked)
                    if by_tls:
                        client.end()
                    else:
                        client.stream.shutdown(socket.SHUT_WR)
                    whole, is_end = client.rest()
                replies = texts_of(whole)
                self.assertEqual((len(replies), is_end), (asked, True))
                self.assertEqual({json.loads(reply)["granted"] for reply in replies}, {1000})
        self.assertEqual(ends(self.events()), ["client", "client"])

    def test_the_server_ends_first(self):
        """The reply to a frame that is too large comes whole, also where the client sends on."""
        self.front()
        for more in (b"", bytes(100_000)):
            with self.subTest(len(more)):
                client = Half(self.port, self.made.tls("alice"))
                with client.stream:
                    first = frame('{"op":"account","tenant":"bob"}')
                    client.perform(client.tls.write, first + b"\xff\xff\xff\xff" + more)
                    whole, is_end = client.rest()
                self.assertEqual([json.loads(text)["code"] for text in texts_of(whole)], [74, 71])
                self.assertTrue(is_end)
        self.assertEqual(ends(self.events()), ["server", "server"])

    def test_large_frames_and_a_slow_reader(self):
        """A frame of a megabyte, and more replies to one who reads late than the system holds."""
        self.front()
        buffer, asked = bytes(range(256)) * 256, 400
        with self.client("alice") as client:
            told = client.ask(json.loads(submit_text([(0, ADD)], 3, buffer, tenant="alice")))
            self.assertEqual(client.wait(told["job"])["buffer"], buffer.hex())
            blanks = b'{"op":"account","tenant":"alice"}' + b" " * (1_048_576 - 33)
            client.stream.sendall(frame(blanks))
            length = int.from_bytes(is_read(client.stream, 4), "big")
            self.assertEqual(json.loads(is_read(client.stream, length))["spent"], 3)
            client.stream.sendall(frame('{"op":"result","job":1}') * asked)
            with self.client("bob") as other:
                for _ in range(ASKED):
                    self.assertEqual(other.account("bob")["granted"], 2000)
            for _ in range(asked):
                (length,) = {int.from_bytes(is_read(client.stream, 4), "big")}
                parts = 0
                while parts < length:
                    parts += len(client.stream.recv(length - parts))
                self.assertEqual(parts, length)
            self.assertEqual(client.account("alice")["spent"], 3)

    def read_beside(self, stream, busy, idle):
        """What comes on a stream, while another connection isn't silent for so many seconds."""
        stream.settimeout(0.1)
        until = time.monotonic() + PATIENCE
        while time.monotonic() < until:
            with within(idle, self.asked):
                self.asked = time.monotonic()
                busy.account("bob")
            with contextlib.suppress(socket.timeout):
                return stream.recv(1)
        self.fail("the connection stays open")

    def test_silence_ends_a_connection(self):
        by_timeouts(self.check_silence)

    def check_silence(self, idle):
        self.front("--idle", idle)
        self.asked = time.monotonic()
        with within(idle, self.asked):
            silent, busy = self.client("alice"), self.client("bob")
        self.assertEqual(self.read_beside(silent.stream, busy, idle), b"")
        with socket.create_connection(("localhost", self.port), timeout=PATIENCE) as stranger:
            self.assertEqual(self.read_beside(stranger, busy, idle), b"")  # it showed no certificate
        (closed, failed) = [event for event in self.events(left=1) if event["event"] in ("closed", "failed")]
        self.assertEqual((closed["tenant"], closed["end"]), ("alice", "idle"))
        self.assertEqual((failed["why"], "tenant" in failed), ("TimeoutError", False))

    def test_the_most_connections(self):
        """Of a tenant and in all. Where one ends, there is room again."""
        self.front("--each", 2, "--connections", 3)
        first, second = self.client("alice"), self.client("alice")
        for client in (first, second):
            client.account("alice")
        self.check_refused("alice")
        other = self.client("bob")
        other.account("bob")
        self.check_refused("bob")
        first.stream.close()

        def is_granted():
            with contextlib.suppress(OSError, EOFError):
                return self.client("alice").account("alice")["granted"]

        self.assertEqual(wait_for(is_granted, "room for another one"), 1000)
        whys = {event["why"] for event in self.events(left=3) if event["event"] == "refused"}
        self.assertEqual(whys, {"too many", "too many of the tenant"})

    def test_a_server_that_is_down(self):
        self.front()
        self.write_table(alice="alice", bob="nobody")
        self.check_refused("bob")
        self.assertEqual(self.client("alice").account("alice")["granted"], 1000)
        (failed,) = [event for event in self.events(left=1) if event["event"] == "failed"]
        self.assertEqual((failed["tenant"], failed["why"]), ("nobody", "FileNotFoundError"))

    def test_nothing_of_a_client_is_told(self):
        self.front()
        with self.client("alice") as client:
            self.assertEqual(self.code_of(client.account, "zqtenant"), 74)
            client.ask(json.loads(submit_text([(0, ADD)], 3, b"ZQbuffer", tenant="alice")))
        for event in self.events():
            self.assertLessEqual(set(event), {"event", "peer", "tenant", "end"})
            self.assertNotIn("zq", json.dumps(event).lower())

    def test_the_words_of_a_client(self):
        """examples/client.py over TLS, by the files that the environment names, and by a path."""
        self.front()
        files = {"CERT": self.made.path("alice.crt"), "KEY": self.made.path("alice.key")}
        path = os.path.join(TOP, "examples/client.py")
        account = '{"balance":1000,"granted":1000,"ok":true,"open":0,"spent":0}\n'
        over_tls = f"localhost:{self.port}"
        for authority, place, wanted in (("authority", over_tls, (0, account)), (None, over_tls, (2, "")),
                                         ("stranger", over_tls, (3, "")), (None, self.door("alice"), (0, account))):
            with self.subTest(authority=authority, place=place):
                more = {"AUTHORITY": self.made.path(f"{authority}.crt")} if authority else {}
                words, names = [sys.executable, path, place, "account", "alice"], {**os.environ, **files, **more}
                ran = subprocess.run(words, env=names, capture_output=True, text=True, timeout=PATIENCE, check=False)
                self.assertEqual((ran.returncode, ran.stdout), wanted, ran.stderr)


if __name__ == "__main__":
    unittest.main()
