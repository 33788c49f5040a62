"""`bpfjobs ask`: one request to a server that runs, from a shell."""

import json
import os
import socket
import stat
import subprocess
import tempfile
import threading
import unittest

from patience import PATIENCE, wait_for
from programs import BPFJOBS, frame, free_port, is_read, job_text
from rows import code_of

ADD = job_text([(0, code_of("mov64 r0, 40 / add64 r0, 2 / exit"))], 3, b"")
OK = b'{"balance":100,"granted":100,"ok":true,"open":0,"spent":0}'
NO_TENANT = b'{"code":74,"ok":false}'
LARGE = 8 << 20
# how often a program that tries to connect has slept
SLEPT = 10


def asked(*words, given="", **how):
    """The status of `bpfjobs ask`, and what it tells on its two outputs."""
    words = [BPFJOBS, "ask", *map(str, words)]
    ran = subprocess.run(words, input=given.encode(), capture_output=True, timeout=PATIENCE, check=False, **how)
    return ran.returncode, ran.stdout, ran.stderr.decode()


class Answering(threading.Thread):
    """A server of one connection that sends what it is given, once a request has come, and ends the stream."""

    def __init__(self, path, sent, takes=True):
        super().__init__()
        self.sent, self.takes, self.request = sent, takes, None
        self.listener = socket.socket(socket.AF_UNIX)
        self.listener.bind(path)
        self.listener.listen()
        self.start()

    def run(self):
        with self.listener, self.listener.accept()[0] as stream:
            if self.takes:
                self.request = is_read(stream, int.from_bytes(is_read(stream, 4), "big"))
            stream.sendall(self.sent)


class Asks(unittest.TestCase):
    def setUp(self):
        room = tempfile.TemporaryDirectory()
        self.addCleanup(room.cleanup)
        self.room = room.name
        self.path, self.grants, self.own = (os.path.join(room.name, name) for name in ("all", "grants", "own"))

    def start(self, *words):
        process = subprocess.Popen([BPFJOBS, "serve", *map(str, words)], stdin=subprocess.DEVNULL, stderr=subprocess.DEVNULL)
        self.addCleanup(process.wait)
        self.addCleanup(process.kill)
        return process

    def serve(self, *words):
        return self.start("--socket", self.path, "--grants", self.grants, "--clients", 8, *words)

    def answered(self, path, sent, *words, given="", takes=True):
        """What is told by a server that sends these bytes, and the request that came to it."""
        server = Answering(path, sent, takes)
        told = asked("--socket", path, *words, given=given)
        server.join(PATIENCE)
        os.remove(path)
        return told, server.request


class Words(Asks):
    def test_each_word_s_request(self):
        """Compact, with its members in order, and none but those that the words say."""
        job = json.loads(ADD)
        parts = f'"buffer":"","credit":3,%s"op":"submit","programs":[{{"code":"{job["programs"][0]["code"]}","need":0}}]%s'
        for words, request in (
            (["account"], '{"op":"account"}'),
            (["account", "t"], '{"op":"account","tenant":"t"}'),
            (["account", 'a"b\n\\'], '{"op":"account","tenant":"a\\"b\\n\\\\"}'),
            (["submit"], "{" + parts % ("", "") + "}"),
            (["submit", "t"], "{" + parts % ("", ',"tenant":"t"') + "}"),
            (["submit", "--key", "k"], "{" + parts % ('"key":"k",', "") + "}"),
            (["submit", "t", "--key", "k"], "{" + parts % ('"key":"k",', ',"tenant":"t"') + "}"),
            (["status", "1"], '{"job":1,"op":"status"}'),
            (["result", 2**64 - 1], f'{{"job":{2**64 - 1},"op":"result"}}'),
            (["jobs"], '{"op":"jobs"}'),
            (["jobs", "--from", 2**64 - 1], f'{{"from":{2**64 - 1},"op":"jobs"}}'),
            (["grant", "t", "2147483647"], '{"amount":2147483647,"op":"grant","tenant":"t"}'),
            (["server"], '{"op":"server"}'),
            (["stop"], '{"op":"stop"}'),
        ):
            with self.subTest(words):
                told, came = self.answered(self.path, frame(b'{"ok":true}'), *words, given=ADD)
                self.assertEqual((told, came.decode()), ((0, b'{"ok":true}\n', ""), request))

    def test_wrong_words(self):
        place = ["--socket", self.path]
        for words in ([], ["account"], [*place], [*place, "other"], [*place, "account", "t", "1"], [*place, "account", "--key", "k"],
                      [*place, "status"], [*place, "status", "x"], [*place, "status", "-1"], [*place, "status", 2**64], [*place, "result"],
                      [*place, "jobs", "1"], [*place, "jobs", "--from", "0"], [*place, "jobs", "--from", 2**64], [*place, "grant", "t"],
                      [*place, "grant", "t", "0"], [*place, "grant", "t", "2147483648"], [*place, "grant", "t", "1", "1"], [*place, "server", "t"],
                      [*place, "stop", "now"], [*place, "submit", "t", "3"], [*place, "submit", "--from", "1"], ["--port", "0", "server"],
                      ["--port", "1", *place, "server"], ["--socket", "", "server"], ["--socket", "x" * 105, "server"],
                      [*place, "--wait", "3601", "server"], [*place, "--wait", "-1", "server"], [*place, "--grants", "g", "server"]):
            with self.subTest(words):
                status, out, err = asked(*words)
                self.assertEqual((status, out), (2, b""))
                self.assertTrue(err.startswith("error: "), err)

    def test_input_that_is_no_job(self):
        """It is refused as `bpfjobs run` refuses it, and nothing is sent."""
        for given, code in (("", 72), ("[", 72), ("[]", 73), ("{}", 73), ('{"credit":1,"buffer":"","programs":[{}]}', 73)):
            with self.subTest(given):
                status, out, err = asked("--socket", self.path, "submit", given=given)
                self.assertEqual((status, out), (1, f'{{"code":{code},"ok":false}}\n'.encode()))
                self.assertRegex(err, r"^bpfjobs: .+\n$")

    def test_a_request_too_large(self):
        given = job_text([(0, bytes(600_000))], 3, b"")
        status, out, err = asked("--socket", self.path, "submit", given=given)
        self.assertEqual((status, out), (1, b'{"code":71,"ok":false}\n'))
        self.assertTrue(err.startswith("error[71]: "), err)


class Servers(Asks):
    def told(self, *words, path=None, given="", status=0):
        """The reply to a request that has this status."""
        found, out, err = asked("--wait", 3600, "--socket", path or self.path, *words, given=given)
        self.assertEqual((found, err, out[-1:]), (status, "", b"\n"))
        return out[:-1]

    def result(self, job, path):
        def told():
            status, out, _ = asked("--socket", path, "result", job)
            return None if out == b'{"code":77,"ok":false}\n' else (status, json.loads(out))

        return wait_for(told, "a result")

    def test_a_tenant_without_a_socket(self):
        self.serve()
        self.assertEqual(self.told("account", "t", status=1), NO_TENANT)
        self.assertEqual(self.told("grant", "t", 100, status=1), b'{"code":73,"ok":false}')
        self.assertEqual(self.told("grant", "t", 100, path=self.grants), OK)
        self.assertEqual(self.told("account", "t"), OK)
        self.assertEqual(self.told("submit", "t", given=ADD), b'{"job":1,"ok":true}')
        status, reply = self.result(1, self.path)
        self.assertEqual((status, reply["spent"], reply["tasks"][0]["r0"]), (0, 3, 42))
        self.assertEqual(self.told("status", 1), b'{"complete":true,"ok":true,"returned":0,"spent":3}')
        self.assertEqual(self.told("status", 2, status=1), b'{"code":76,"ok":false}')
        self.assertEqual(json.loads(self.told("server", path=self.grants))["jobs"]["taken"], 1)
        self.assertEqual(self.told("server", status=1), b'{"code":73,"ok":false}')

    def test_a_tenant_s_own_socket(self):
        self.serve("--tenant", f"a={self.own}")
        self.assertEqual(self.told("grant", "a", 100, path=self.grants), OK)
        self.assertEqual(self.told("account", path=self.own), OK)
        for _ in range(2):
            self.assertEqual(self.told("submit", "--key", "k", path=self.own, given=ADD), b'{"job":1,"ok":true}')
        self.assertEqual(self.told("submit", path=self.own, given=ADD), b'{"job":2,"ok":true}')
        for job in (1, 2):
            self.assertEqual(self.result(job, self.own)[0], 0)
        listed = b'{"job":2,"state":"over"}],"ok":true}'
        self.assertEqual(self.told("jobs", path=self.own), b'{"count":2,"jobs":[{"job":1,"key":"k","state":"over"},' + listed)
        self.assertEqual(self.told("jobs", "--from", 2, path=self.own), b'{"count":2,"jobs":[' + listed)

    def test_over_a_port(self):
        port = free_port()
        self.start("--port", port, "--sessions", 2)
        self.assertEqual(asked("--wait", 3600, "--port", port, "grant", "t", 100), (0, OK + b"\n", ""))
        self.assertEqual(asked("--port", port, "account", "u"), (1, NO_TENANT + b"\n", ""))

    def test_a_server_is_stopped(self):
        """By the socket for grants alone, and with the status of an orderly end."""
        process = self.serve()
        self.assertEqual(self.told("stop", status=1), b'{"code":73,"ok":false}')
        self.assertEqual(json.loads(self.told("stop", path=self.grants))["ok"], True)
        self.assertEqual(process.wait(PATIENCE), 0)


class Streams(Asks):
    def test_a_stream_that_ends_first(self):
        """Ahead of a reply, and within its length or its text. No part of it is printed."""
        reply = frame(OK)
        for cut in (0, 1, 3, 4, 5, len(reply) - 1):
            for takes in (True, False):
                with self.subTest(cut=cut, takes=takes):
                    told, _ = self.answered(self.path, reply[:cut], "account", "t", takes=takes)
                    self.assertEqual(told, (3, b"", f"bpfjobs: {self.path}: the stream ended ahead of a reply\n"))

    def test_bytes_that_are_no_reply(self):
        for sent in (b"", b"{", b"[]", b'{"ok":1}', b"\xff"):
            with self.subTest(sent):
                told, _ = self.answered(self.path, frame(sent), "server")
                self.assertEqual(told, (3, b"", f"bpfjobs: {self.path}: what came is no reply\n"))

    def test_replies_are_told_byte_for_byte(self):
        for sent, status in ((b' { "ok" : true , "x" : 1.50 } ', 0), (b'{"ok":false,"code":5,"ok":true}', 0), ('{"ok":false,"ü":"\\u00fc"}'.encode(), 1)):
            with self.subTest(sent):
                self.assertEqual(self.answered(self.path, frame(sent), "server")[0], (status, sent + b"\n", ""))

    def test_a_large_reply(self):
        sent = b'{"ok":true,"x":"' + b"y" * LARGE + b'"}'
        self.assertEqual(self.answered(self.path, frame(sent), "server")[0], (0, sent + b"\n", ""))

    def test_an_output_that_fails(self):
        server = Answering(self.path, frame(OK))
        with open("/dev/full", "wb") as full:
            words = [BPFJOBS, "ask", "--socket", self.path, "account", "t"]
            self.assertEqual(subprocess.run(words, stdout=full, timeout=PATIENCE, check=False).returncode, 3)
        server.join(PATIENCE)


class Connections(Asks):
    def check(self, place, why, *words):
        self.assertEqual(asked(*words, "account", "t"), (3, b"", f"bpfjobs: cannot connect to {place}: {why}\n"))

    def test_nobody_listens(self):
        self.check(self.path, "no such file or directory", "--socket", self.path)
        with socket.socket(socket.AF_UNIX) as left:
            left.bind(self.path)
        self.check(self.path, "connection refused", "--socket", self.path)
        port = free_port()
        self.check(f"127.0.0.1:{port}", "connection refused", "--port", port)
        self.check(self.path, "connection refused", "--wait", 0, "--socket", self.path)

    def test_nobody_comes(self):
        """It goes on to the end of its wait, and fails then."""
        self.check(self.path, "no such file or directory", "--wait", 1, "--socket", self.path)

    @unittest.skipUnless(os.geteuid() == 0, "needs root, to be another user")
    def test_no_permission(self):
        os.chmod(self.room, stat.S_IRWXU)
        words = [BPFJOBS, "ask", "--wait", "3600", "--socket", self.path, "server"]
        program = os.path.join(tempfile.gettempdir(), f"bpfjobs-{os.getpid()}")
        with open(BPFJOBS, "rb") as source, open(program, "wb") as copy:
            copy.write(source.read())
        self.addCleanup(os.remove, program)
        os.chmod(program, 0o755)
        words[0] = program
        ran = subprocess.run(words, capture_output=True, timeout=PATIENCE, check=False, user=64999, group=64999, extra_groups=[])
        self.assertEqual((ran.returncode, ran.stderr.decode()), (3, f"bpfjobs: cannot connect to {self.path}: permission denied\n"))

    def test_a_server_that_starts_later(self):
        """It waits while there is no socket, and while nobody listens at one that was left behind."""
        for kind in ("none", "left"):
            with self.subTest(kind):
                if kind == "left":
                    with socket.socket(socket.AF_UNIX) as left:
                        left.bind(self.path)
                words = [BPFJOBS, "ask", "--wait", "3600", "--socket", self.path, "account", "t"]
                with subprocess.Popen(words, stdin=subprocess.DEVNULL, stdout=subprocess.PIPE) as asking:
                    wait_for(lambda asking=asking: self.has_begun(asking), "the first tries")
                    server = self.start("--socket", self.path, "--sessions", 1)
                    self.assertEqual((asking.stdout.read(), asking.wait(PATIENCE)), (NO_TENANT + b"\n", 1))
                # a look of the server's own at a socket that was left there is none of its connections
                self.assertEqual(server.wait(PATIENCE), 0)

    @staticmethod
    def has_begun(process):
        """Whether it has slept between tries."""
        assert process.poll() is None
        with open(f"/proc/{process.pid}/status", encoding="utf-8") as file:
            (slept,) = (int(line.split()[1]) for line in file if line.startswith("voluntary_ctxt_switches:"))
        return slept >= SLEPT


if __name__ == "__main__":
    unittest.main()
