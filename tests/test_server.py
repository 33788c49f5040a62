"""Requests and their replies over connections to `bpfjobs serve`: whole, in pieces, and cut."""

import contextlib
import json
import socket
import struct
import unittest

from programs import PATIENCE, Server, bpfjobs, frame, frames
from rows import fields, lines, raw

ACCOUNT = '{"op":"account","tenant":"t"}'
GRANT = '{"op":"grant","tenant":"t","amount":100}'
NO_TENANT = '{"code":74,"ok":false}'
OPEN = '{"code":77,"ok":false}'


def dialog(name):
    """Requests with their replies."""
    found = [text for _, text in lines(name)]
    for request, reply in zip(found[::2], found[1::2], strict=True):
        if (request[:1], reply[:1]) != (">", "<"):
            raise ValueError(f"{name}: {request}")
        yield raw(request[1:].strip(" ")), reply[2:]


def texts_of(stream):
    """The texts of the frames of a stream."""
    texts, at = [], 0
    while at < len(stream):
        (length,) = struct.unpack_from(">I", stream, at)
        texts.append(stream[at + 4 : at + 4 + length].decode())
        at += 4 + length
    return texts


def cut_past_limit(stream):
    """The stream up to a length that is over the limit, and what is behind it, at which nobody looks."""
    at = 0
    while at + 4 <= len(stream):
        (length,) = struct.unpack_from(">I", stream, at)
        if length > 1_048_576:
            return stream[: at + 4], stream[at + 4 :]
        at += 4 + length
    return stream, b""


def pieces_of(stream, size):
    return [stream[at : at + size] for at in range(0, len(stream), size)]


def is_later(reply, wanted):
    """Whether a reply is the one that is wanted, or that of a job that hasn't ended yet."""
    if reply == wanted:
        return True
    given, asked = json.loads(reply), json.loads(wanted)
    if "tasks" in asked:
        return reply == OPEN
    if "complete" in asked:
        return given.get("complete") is False
    # an account whose job's credit is open still
    sums = ("balance", "open", "spent")
    if not all(name in given and name in asked for name in sums):
        return False
    return given["granted"] == asked["granted"] == sum(given[name] for name in sums)


def own_addresses():
    """The addresses of this machine by which it would reach others, if it has any. No packet is sent."""
    for family, far in ((socket.AF_INET, "192.0.2.1"), (socket.AF_INET6, "2001:db8::1")):
        with contextlib.suppress(OSError), socket.socket(family, socket.SOCK_DGRAM) as probe:
            probe.connect((far, 9))
            yield family, probe.getsockname()[0]


class Requests(unittest.TestCase):
    def check_dialog(self, server, name):
        """One by one. A job's result is waited for."""
        for request, wanted in dialog(name):
            with self.subTest(name, request=request):
                reply = texts_of(server.exchange(frame(request)))
                while reply == [OPEN]:
                    reply = texts_of(server.exchange(frame(request)))
                self.assertEqual(reply, [wanted])

    def test_each_request(self):
        with Server() as server:
            self.check_dialog(server, "requests.txt")

    def test_jobs_are_told(self):
        with Server() as server:
            self.check_dialog(server, "jobs_told.txt")

    def test_all_requests_in_pieces(self):
        for name in ("requests.txt", "jobs_told.txt"):
            pairs = list(dialog(name))
            stream = frames(request for request, _ in pairs)
            for size in (1, 3, 33, 1000, 4096, len(stream)):
                with self.subTest(name, size=size), Server(sessions=1) as server:
                    replies = texts_of(server.exchange(*pieces_of(stream, size)))
                    self.assertEqual(len(replies), len(pairs))
                    self.assertEqual(server.status(), 0)
                    for reply, (request, wanted) in zip(replies, pairs):
                        self.assertTrue(is_later(reply, wanted), f"{request}: {reply}")

    def test_depths(self):
        with Server() as server:
            for depth, code in [(127, 73), (128, 72), (5000, 72)]:
                for size in (1, 4096):
                    stream = frame("[" * depth + "]" * depth)
                    wanted = frame(f'{{"code":{code},"ok":false}}')
                    self.assertEqual(server.exchange(*pieces_of(stream, size)), wanted)

    def test_objects(self):
        for place, (words, given, status, output) in fields("objects.txt", 4):
            with self.subTest(place):
                ran = bpfjobs(*words.split(), given=given)
                self.assertEqual((ran[0], ran[1].strip()), (int(status), output))


class Streams(unittest.TestCase):
    """Streams of bytes, on a new server each."""

    SIZES = (1, 2, 3, 4, 5, 7, 32, 33, 1000, 4096, 100000)

    def test_pieces_of_any_size(self):
        for place, (stream, wanted) in fields("streams.txt", 2):
            for size in self.SIZES:
                with self.subTest(place, size=size), Server(sessions=1) as server:
                    given, rest = cut_past_limit(raw(stream.strip("-")))
                    replies = raw(wanted.strip("-"))
                    if rest:
                        found = server.exchange_past(pieces_of(given, size), len(replies), rest)
                    else:
                        found = server.exchange(*pieces_of(given, size))
                    self.assertEqual(found, replies)
                    self.assertEqual(server.status(), 0)

    def test_each_cut_of_two_frames(self):
        stream = frames([ACCOUNT, ACCOUNT])
        self.assertEqual(len(stream), 66)
        with Server() as server:
            for cut in range(len(stream) + 1):
                self.assertEqual(server.exchange(stream[:cut]), frame(NO_TENANT) * (cut // 33))

    def test_each_cut_of_a_job(self):
        """Each whole frame is answered, the rest isn't, and what was granted is there."""
        pairs = list(dialog("cut.txt"))
        stream = frames(request for request, _ in pairs)
        for cut in range(len(stream) + 1):
            whole, granted = self.whole_in(pairs, cut)
            for size in (1, 4096):
                with self.subTest(cut=cut, size=size), Server(sessions=2) as server:
                    replies = texts_of(server.exchange(*pieces_of(stream[:cut], size)))
                    self.assertEqual(len(replies), len(whole))
                    self.assertTrue(all(map(is_later, replies, whole)), replies)
                    (account,) = server.ask(ACCOUNT)
                    self.assertEqual(account.get("granted", 0), granted)
                    self.assertEqual(server.status(), 0)

    @staticmethod
    def whole_in(pairs, length):
        """The replies to the frames that are whole, and what they grant."""
        replies, granted = [], 0
        for request, reply in pairs:
            length -= 4 + len(request)
            if length < 0:
                break
            replies.append(reply)
            granted = json.loads(reply).get("granted", granted)
        return replies, granted

    def test_the_longest_frame(self):
        stream = frame(ACCOUNT + " " * (1_048_576 - len(ACCOUNT)))
        with Server() as server:
            for size in (1, 4096, 2_000_000):
                self.assertEqual(server.exchange(*pieces_of(stream, size)), frame(NO_TENANT))
            longer = struct.pack(">I", 1_048_577)
            self.assertEqual(server.exchange_past([longer], 26, stream[4:]), frame('{"code":71,"ok":false}'))


class Cuts(unittest.TestCase):
    """Each request of the rows, cut at each of its bytes."""

    @staticmethod
    def kind(replies):
        """A refusal of the request itself by its number, or that it is one."""
        (reply,) = replies
        code = json.loads(reply).get("code")
        return code if code in (72, 73) else "request"

    def test_nothing_is_answered_ahead_of_the_last_byte(self):
        with Server() as server:
            for request, wanted in dialog("requests.txt"):
                stream = frame(request)
                for cut in range(len(stream)):
                    with self.subTest(request=request, cut=cut):
                        self.assertEqual(server.exchange(stream[:cut]), b"")
                        replies = texts_of(server.exchange(stream[:cut], stream[cut:]))
                        self.assertEqual(self.kind(replies), self.kind([wanted]))

    @staticmethod
    def may_be(beginning, kind):
        """No object or array is read ahead of its last bracket; another beginning may be a value."""
        begun = beginning.strip(b" \t\r\n")
        is_nested, is_closed = begun[:1] in (b"{", b"["), begun[-1:] in (b"}", b"]")
        return kind == 72 or is_closed or (kind == 73 and not is_nested)

    def test_each_beginning_of_a_text_is_refused(self):
        """It is answered once, and the connection goes on."""
        beginnings = [request[:cut] for request, _ in dialog("requests.txt") for cut in range(len(request))]
        with Server() as server:
            replies = texts_of(server.exchange(frames(beginnings)))
        self.assertEqual(len(replies), len(beginnings))
        for beginning, reply in zip(beginnings, replies):
            self.assertTrue(self.may_be(beginning, self.kind([reply])), f"{beginning}: {reply}")


class Connections(unittest.TestCase):
    def test_a_grant(self):
        with Server(sessions=1) as server:
            request = b'\x00\x00\x00\x28{"op":"grant","tenant":"t","amount":100}'
            wanted = b'\x00\x00\x00\x3a{"balance":100,"granted":100,"ok":true,"open":0,"spent":0}'
            self.assertEqual(server.exchange(request), wanted)
            self.assertEqual(server.status(), 0)

    def test_a_hundred(self):
        """Two of three grant. The second is cut in its next frame, the third leaves while it is answered."""
        with Server(sessions=100) as server:
            for count in range(99):
                if count % 3 == 0:
                    server.exchange(frame(GRANT))
                elif count % 3 == 1:
                    server.exchange(frames([GRANT, GRANT])[: 45 + count % 43])
                else:
                    with server.connect() as stream:
                        stream.sendall(frame(ACCOUNT) * 1000)
            (account,) = server.ask(ACCOUNT)
            self.assertEqual(account, {"balance": 6600, "granted": 6600, "ok": True, "open": 0, "spent": 0})
            self.assertEqual(server.status(), 0)

    def test_jobs_outlast_their_connection(self):
        submit = next(request for request, reply in dialog("jobs_told.txt") if reply == '{"job":1,"ok":true}')
        told = next(json.loads(reply) for _, reply in dialog("jobs_told.txt") if "tasks" in reply)
        with Server(workers=2) as server:
            first = server.ask(GRANT, submit, submit)
            self.assertEqual([reply.get("job") for reply in first], [None, 1, 2])
            self.assertEqual([server.result(1), server.result(2)], [told, told])
            replies = server.ask(ACCOUNT, submit, '{"op":"status","job":2}', '{"op":"status","job":4}')
        self.assertEqual(replies[0], {"balance": 46, "granted": 100, "ok": True, "open": 0, "spent": 54})
        self.assertEqual(replies[1], {"job": 3, "ok": True})
        self.assertEqual(replies[2], {"complete": True, "ok": True, "returned": 7, "spent": 27})
        self.assertEqual(replies[3], {"code": 76, "ok": False})

    def test_a_port_that_is_taken(self):
        with Server() as server:
            server.ask(ACCOUNT)
            self.assertEqual(bpfjobs("serve", "--port", str(server.port)), (3, ""))

    def test_another_address_of_this_machine(self):
        """The port is listened on at 127.0.0.1 alone."""
        with Server() as server:
            for family, address in {(socket.AF_INET, "127.0.0.2"), *own_addresses()}:
                server.ask(ACCOUNT)
                place = (address, server.port)
                with self.subTest(address):
                    with self.assertRaises(ConnectionRefusedError):
                        socket.create_connection(place, timeout=PATIENCE).close()
                    # the address is one of this machine, and another process may listen there
                    with socket.create_server(place, family=family):
                        socket.create_connection(place, timeout=PATIENCE).close()

    def test_the_most_that_is_granted(self):
        grant = {"op": "grant", "tenant": "t", "amount": 2_147_483_647}
        with Server(sessions=1) as server:
            replies = server.ask(
                *[grant] * 465,
                {**grant, "amount": 1_420_104_146},
                {**grant, "amount": 1_420_104_145},
                {**grant, "amount": 1},
                '{"op":"submit","tenant":"t","credit":1,"buffer":"","programs":[]}',
            )
        self.assertTrue(all(reply["ok"] for reply in replies[:465]))
        self.assertEqual([reply.get("code") for reply in replies[465:]], [65, None, 65, 61])
        self.assertEqual(replies[466]["granted"], 1_000_000_000_000)


if __name__ == "__main__":
    unittest.main()
