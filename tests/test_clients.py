"""Many clients at once: `bpfjobs serve --clients K`, and what a client may keep waiting with `--timeout S`."""

import contextlib
import json
import os
import resource
import select
import socket
import subprocess
import threading
import time
import unittest

from patience import PATIENCE, PAUSE, wait_for
from programs import Server, assemble, frame, free_port, is_read, past_listening, submit_text
from rows import code_of
from test_server import dialog, is_later, texts_of

# How often a connection is asked while another one has to stay as it is.
ASKED = 100

# How many accounts are told beside a long call of another client. Where one lock is held for all of
# it, two are.
MEANWHILE = 10

ADD = "mov64 r0, 40 / add64 r0, 2 / exit"

# What a server tells of connections that it can't take for want of a descriptor, once, until it takes one.
FULL, AGAIN = "no connection can be taken now: Too many open files (os error 24)", "takes connections again"


def told(reply):
    return json.dumps(reply, sort_keys=True, separators=(",", ":"))


def dear_code():
    """A program of 4,096 slots that stores and loads all along, whose verdict takes long."""
    ahead = "mov64 r0, 0\nmov64 r1, 0\n"
    return assemble(ahead + "stxdw [r10-8], r1\nldxdw r1, [r10-8]\n" * 2_046 + "mov64 r0, 0\nexit\n")


def threads_of(server):
    return len(os.listdir(f"/proc/{server.process.pid}/task"))


def files_of(server):
    return len(os.listdir(f"/proc/{server.process.pid}/fd"))


def most_resident(server):
    """The most bytes of memory that the server's process has had."""
    with open(f"/proc/{server.process.pid}/status", encoding="ascii") as file:
        (line,) = [line for line in file if line.startswith("VmHWM:")]
    return int(line.split()[1]) << 10


class Client:
    """A connection that asks, one request at a time."""

    def __init__(self, server):
        self.stream = server.connect()

    def send(self, request):
        self.stream.sendall(frame(request if isinstance(request, (str, bytes)) else json.dumps(request)))

    def reply(self):
        length = int.from_bytes(is_read(self.stream, 4), "big")
        return json.loads(is_read(self.stream, length))

    def ask(self, request):
        self.send(request)
        return self.reply()

    def is_answered(self):
        """Whether bytes have come, or the stream's end."""
        return bool(select.select([self.stream], [], [], 0)[0])


class Worker(threading.Thread):
    """Grants itself credit, submits jobs one after the other, and takes their results."""

    def __init__(self, server, tenant, jobs):
        super().__init__()
        self.server, self.tenant, self.jobs = server, tenant, jobs
        self.wrong = []

    def run(self):
        try:
            self.work(Client(self.server))
        except OSError as error:
            self.wrong.append(repr(error))

    def work(self, client):
        grant = {"op": "grant", "tenant": self.tenant, "amount": 3 * self.jobs}
        if client.ask(grant).get("granted") != 3 * self.jobs:
            self.wrong.append("the grant")
        for _ in range(self.jobs):
            job = client.ask(submit_text([(0, code_of(ADD))], 3, b"", tenant=self.tenant)).get("job")
            while (reply := client.ask({"op": "result", "job": job})).get("code") == 77:
                time.sleep(0.001)
            if (reply.get("spent"), [task["r0"] for task in reply.get("tasks", [])]) != (3, [42]):
                self.wrong.append(reply)
        account = client.ask({"op": "account", "tenant": self.tenant})
        sums = {"balance": 0, "granted": 3 * self.jobs, "ok": True, "open": 0, "spent": 3 * self.jobs}
        if account != sums:
            self.wrong.append(account)
        client.stream.close()


def spawner(count, program, credit):
    """The text of a program that spawns so many tasks of another one, each with this credit."""
    spawn = [f"mov64 r1, {program}", f"mov64 r2, {credit}", "mov64 r3, 0", "mov64 r4, 0", "call 1"]
    return " / ".join(spawn * count + ["mov64 r0, 0", "exit"])


# The tasks of the longest job, each of 500 tasks of 4,001 steps. A grant has room for the credit of
# two.
MOST_LONG = 480


def long_job(count=MOST_LONG):
    """Programs and a credit that keep a server busy: so many tasks of 500 tasks of 4,001 steps. The
    longest one takes seconds of a processor, and far more where programs have tests at run time."""
    leaf = " / ".join(["mov64 r0, 0"] * 4000 + ["exit"])
    middle_credit = 500 * 4001 + 500 * 100
    root_credit = count * middle_credit + count * 100
    programs = [spawner(count, 1, middle_credit), spawner(500, 2, 4001), leaf]
    return [(0, code_of(text)) for text in programs], root_credit


def beside_a_long_job(check):
    """Has a test at work beside a long job, and beside longer ones, until it says that its job was
    open to the end of that work. Whatever the machine does meanwhile, one of them is."""
    for count in (1, 5, 30, 160, MOST_LONG):
        if check(*long_job(count)):
            return
    raise AssertionError("the longest job was over too soon")


def wide_job():
    """Programs and a credit for a job whose result has 200,000 bytes: 6 tasks of 500 tasks each."""
    count, middle_credit = 6, 500 * 102
    programs = [spawner(count, 1, middle_credit), spawner(500, 2, 2), "mov64 r0, 0 / exit"]
    return [(0, code_of(text)) for text in programs], count * (middle_credit + 100)


def result_of(client, job):
    """The result of a job, once it is over."""
    def told():
        reply = client.ask({"op": "result", "job": job})
        return None if reply.get("code") == 77 else reply

    return wait_for(told, f"the result of job {job}")


def is_open(client, job):
    return client.ask({"op": "result", "job": job}).get("code") == 77


class TooLate(Exception):
    """The machine took longer than a server's timeout."""


@contextlib.contextmanager
def within(seconds, begun):
    """What ends so many seconds behind a moment is too late, however it ends."""
    try:
        yield
    except (AssertionError, OSError, ValueError):
        if time.monotonic() - begun < seconds:
            raise
    if time.monotonic() - begun >= seconds:
        raise TooLate


def by_timeouts(check):
    """Has a test at work by timeouts of a second and more, until the machine keeps up."""
    for seconds in (1, 4, 16, 64, 256):
        with contextlib.suppress(TooLate):
            return check(seconds)
    raise AssertionError("the machine is too slow for each timeout")


class Endless(unittest.TestCase):
    """A server that takes any number of connections: `--clients K`, without `--sessions`."""

    ACCOUNT = {"op": "account", "tenant": "nobody"}

    def server(self, **how):
        port = free_port()
        words = ["serve", "--port", port, "--clients", 4, "--until-eof"]
        return Server(words=words, port=port, stdin=subprocess.PIPE, **how)

    def test_connections_have_no_end(self):
        """It serves one after the other until its input ends."""
        with self.server() as server:
            for _ in range(50):
                client = Client(server)
                self.assertEqual(client.ask(self.ACCOUNT)["code"], 74)
                client.stream.close()
            server.process.stdin.close()
            self.assertEqual(server.status(), 0)

    def test_one_client_at_a_time_ends_with_it(self):
        """Without `--clients` it takes one connection, as it says."""
        port = free_port()
        with Server(words=["serve", "--port", port], port=port) as server:
            client = Client(server)
            self.assertEqual(client.ask(self.ACCOUNT)["code"], 74)
            client.stream.close()
            self.assertEqual(server.status(), 0)

    def test_it_waits_for_a_descriptor(self):
        """Where no descriptor is left, a connection waits until one is, which is no fault of the server's.
        `.ci/in_time.py` tells how much the server works meanwhile."""
        with self.server(stderr=subprocess.PIPE) as server:
            first = Client(server)
            first.ask(self.ACCOUNT)
            limit = files_of(server) + 1
            resource.prlimit(server.process.pid, resource.RLIMIT_NOFILE, (limit, limit))
            second, third = Client(server), Client(server)
            second.ask(self.ACCOUNT)
            third.send(self.ACCOUNT)
            for _ in range(ASKED):
                self.assertEqual(second.ask(self.ACCOUNT)["code"], 74)
            self.assertFalse(third.is_answered())
            first.stream.close()
            self.assertEqual(third.reply()["code"], 74)
            for client in (second, third):
                client.stream.close()
            server.process.stdin.close()
            self.assertEqual(server.status(), 0)
            with server.process.stderr as lines:
                told = past_listening(lines.read().decode(), server.process.args).splitlines()
        # the connection that wakes the server at its end may find no descriptor either
        self.assertEqual(told[:2], [f"bpfjobs: {FULL}", f"bpfjobs: {AGAIN}"])
        self.assertIn(told[2:], ([], told[:1], told[:2]))

    def test_it_ends_where_no_descriptor_was_left_at_its_end(self):
        """The end of its input comes while no descriptor is left for the connection that wakes it."""
        for _ in range(4):
            with self.server() as server:
                clients = [Client(server) for _ in range(2)]
                for client in clients:
                    client.ask(self.ACCOUNT)
                limit = files_of(server)
                resource.prlimit(server.process.pid, resource.RLIMIT_NOFILE, (limit, limit))
                server.process.stdin.close()
                self.assertEqual(server.status(), 0)
                for client in clients:
                    client.stream.close()


class Bounds(unittest.TestCase):
    """What a host bounds."""

    def test_a_start_over_the_limit_is_refused(self):
        """While a job is open, a second one fails by 81, with its whole credit back. Then there is room again."""
        def check(programs, credit):
            with Server(sessions=1, workers=1, more=("--open-jobs", 1)) as server:
                client = Client(server)
                client.ask({"op": "grant", "tenant": "t", "amount": credit + 10})
                first = client.ask(submit_text(programs, credit, b"", tenant="t"))["job"]
                second = client.ask(submit_text([(0, code_of(ADD))], 3, b"", tenant="t"))["job"]
                told = [client.ask({"op": op, "job": second}) for op in ("result", "status")]
                account = client.ask({"op": "account", "tenant": "t"})
                if not is_open(client, first):
                    return False
                self.assertEqual(told, [{"code": 81, "ok": False}] * 2)
                self.assertEqual((account["open"], account["balance"]), (credit, 10))
                self.assertTrue(result_of(client, first)["ok"])
                third = client.ask(submit_text([(0, code_of(ADD))], 3, b"", tenant="t"))["job"]
                self.assertEqual(result_of(client, third)["spent"], 3)
                client.stream.close()
                self.assertEqual(server.status(), 0)
            return True

        beside_a_long_job(check)

    def test_reports_beyond_the_last_are_forgotten(self):
        """The accounts still have what the forgotten jobs spent."""
        with Server(sessions=1, workers=2, more=("--keep", 3)) as server:
            client = Client(server)
            client.ask({"op": "grant", "tenant": "t", "amount": 100})
            for number in range(1, 11):
                self.assertEqual(client.ask(submit_text([(0, code_of(ADD))], 3, b"", tenant="t")), {"job": number, "ok": True})
                self.assertEqual(result_of(client, number)["spent"], 3)
            for number in range(1, 11):
                for op in ("result", "status"):
                    reply = client.ask({"op": op, "job": number})
                    self.assertEqual(reply.get("code"), 76 if number <= 7 else None, (op, number))
            sums = {"balance": 70, "granted": 100, "ok": True, "open": 0, "spent": 30}
            self.assertEqual(client.ask({"op": "account", "tenant": "t"}), sums)
            client.stream.close()
            self.assertEqual(server.status(), 0)

    def test_an_open_job_is_not_forgotten(self):
        """It keeps no other one, and is forgotten once it is over."""
        def check(programs, credit):
            with Server(sessions=1, workers=2, more=("--keep", 1)) as server:
                client = Client(server)
                client.ask({"op": "grant", "tenant": "t", "amount": credit + 100})
                client.ask(submit_text(programs, credit, b"", tenant="t"))
                for number in (2, 3, 4):
                    client.ask(submit_text([(0, code_of(ADD))], 3, b"", tenant="t"))
                    self.assertEqual(result_of(client, number)["spent"], 3)
                told = [client.ask({"op": "result", "job": number}) for number in (2, 3, 4)]
                if not is_open(client, 1):
                    return False
                self.assertEqual([reply.get("code") for reply in told], [76, 76, None])
                self.assertEqual(told[2]["spent"], 3)
                wait_for(lambda: client.ask({"op": "result", "job": 1}).get("code") == 76, "a job that is forgotten")
                codes = [client.ask({"op": "result", "job": number}).get("code") for number in (1, 2, 3, 4)]
                self.assertEqual(codes, [76, 76, 76, None])
                client.stream.close()
                self.assertEqual(server.status(), 0)
            return True

        beside_a_long_job(check)

    def test_reports_hold_so_many_bytes(self):
        """A report of a task and a buffer of 60 bytes holds 100: two of them are kept of three."""
        buffer = bytes(60)
        with Server(sessions=1, workers=2, more=("--keep-bytes", 299)) as server:
            client = Client(server)
            client.ask({"op": "grant", "tenant": "t", "amount": 100})
            for number in range(1, 6):
                client.ask(submit_text([(0, code_of(ADD))], 3, buffer, tenant="t"))
                self.assertEqual(result_of(client, number)["spent"], 3)
            codes = [client.ask({"op": "result", "job": number}).get("code") for number in range(1, 6)]
            self.assertEqual(codes, [76, 76, 76, None, None])
            client.stream.close()
            self.assertEqual(server.status(), 0)

    def test_a_length_takes_no_memory(self):
        """Sixteen clients send the length of a frame of a million bytes, and a few of them. Then
        one of them sends it whole."""
        text = b'{"op":"account","tenant":"t"}'
        with Server(sessions=16, more=("--clients", 16)) as server:
            clients = [Client(server) for _ in range(16)]
            for client in clients:
                self.assertEqual(client.ask(text), {"code": 74, "ok": False})
            before = most_resident(server)
            for client in clients:
                client.stream.sendall((1_000_000).to_bytes(4, "big") + text)
            clients[-1].stream.sendall(b" " * (1_000_000 - len(text)))
            self.assertEqual(clients[-1].reply(), {"code": 74, "ok": False})
            # less than half of what sixteen such frames take, of which there is one
            self.assertLess(most_resident(server) - before, 8_000_000)

    def test_a_frame_has_to_come_in_time(self):
        """A byte now and then keeps no connection: a frame has to come within the timeout."""
        with Server(sessions=1, more=("--timeout", 1)) as server:
            client = Client(server)
            client.stream.settimeout(0.1)
            client.stream.sendall((1_000_000).to_bytes(4, "big"))

            def is_given_up():
                try:
                    client.stream.sendall(b" ")
                    return client.stream.recv(1) == b""
                except TimeoutError:
                    return False
                except OSError:
                    return True

            wait_for(is_given_up, "the end of a frame's time")
            client.stream.close()
            self.assertEqual(server.status(), 3)

    def test_a_frame_has_its_time_from_its_first_byte_on(self):
        """Frames in two parts, with pauses shorter than the timeout, all together longer."""
        text = frame('{"op":"account","tenant":"t"}')

        def check(seconds):
            begun = time.monotonic()
            with Server(sessions=1, more=("--timeout", seconds)) as server, server.connect() as stream:
                for _ in range(4):
                    with within(seconds, begun):
                        time.sleep(seconds / 5)
                        stream.sendall(text[:9])
                        time.sleep(seconds / 5)
                        begun = time.monotonic()
                        stream.sendall(text[9:])
                        self.assertEqual(texts_of(is_read(stream, 26)), ['{"code":74,"ok":false}'])

        by_timeouts(check)

    def test_a_timeout_drops_no_answer(self):
        """Frames that are whole are answered, whole and in order, also where the one behind them never ends. No contract says this of
        the time: what a socket gives has no name in any."""
        text = frame('{"op":"account","tenant":"t"}')

        def check(seconds):
            begun = time.monotonic()
            with Server(sessions=1, more=("--timeout", seconds)) as server, server.connect() as stream:
                with within(seconds, begun):
                    stream.sendall(text[:3])
                    time.sleep(seconds / 2)
                    # ends one frame late in its time, and begins another, which stays cut
                    stream.sendall(text[3:] + text + text[:cut])
                    self.assertEqual(texts_of(is_read(stream, 2 * 26)), ['{"code":74,"ok":false}'] * 2)
                self.assertEqual(stream.recv(1), b"")
                stream.close()
                self.assertEqual(server.status(), 3)

        for cut in (1, 4, 5, len(text) - 1):
            with self.subTest(cut):
                by_timeouts(check)

    def test_it_ends_with_its_input(self):
        """What was sent is answered, each connection is closed, and no further one is taken."""
        with Server(sessions=100, workers=2, more=("--clients", 4, "--until-eof"), stdin=subprocess.PIPE) as server:
            idle, client = server.connect(), Client(server)
            client.ask({"op": "grant", "tenant": "t", "amount": 100})
            client.ask(submit_text([(0, code_of(ADD))], 3, b"", tenant="t"))
            client.stream.sendall(frame('{"op":"account","tenant":"u"}') * 20)
            self.assertEqual(len(texts_of(is_read(client.stream, 20 * 26))), 20)
            server.process.stdin.close()
            self.assertEqual(client.stream.recv(1), b"")
            self.assertEqual(idle.recv(1), b"")
            self.assertEqual(server.status(), 0)
            with self.assertRaises(OSError):
                socket.create_connection(("127.0.0.1", server.port), timeout=PATIENCE)
            idle.close()
            client.stream.close()

    def test_it_ends_with_its_last_session_too(self):
        with Server(sessions=1, more=("--until-eof",), stdin=subprocess.PIPE) as server:
            client = Client(server)
            self.assertEqual(client.ask('{"op":"account","tenant":"t"}'), {"code": 74, "ok": False})
            client.stream.close()
            self.assertEqual(server.status(), 0)


class Clients(unittest.TestCase):
    def test_rows(self):
        """A server of many clients answers the rows as one of a single client does."""
        for name in ("requests.txt", "jobs_told.txt"):
            with self.subTest(name), Server(sessions=1, more=("--clients", 4)) as server:
                client = Client(server)
                for request, wanted in dialog(name):
                    reply = told(client.ask(request))
                    until = time.monotonic() + PATIENCE
                    while reply != wanted and is_later(reply, wanted) and time.monotonic() < until:
                        time.sleep(PAUSE)
                        reply = told(client.ask(request))
                    self.assertEqual(reply, wanted, request)
                client.stream.close()
                self.assertEqual(server.status(), 0)

    def test_a_silent_client_keeps_nobody(self):
        with Server(sessions=3, more=("--clients", 3)) as server:
            silent, within = server.connect(), server.connect()
            within.sendall(b"\0\0")
            client = Client(server)
            self.assertEqual(client.ask('{"op":"account","tenant":"t"}'), {"code": 74, "ok": False})
            for stream in (silent, within, client.stream):
                stream.close()
            self.assertEqual(server.status(), 0)

    def ask_beside(self, asking, other, request):
        """The reply to another client's request, and how many accounts were told meanwhile."""
        other.send(request)
        count = 0
        while not other.is_answered():
            self.assertEqual(asking.ask({"op": "account", "tenant": "t"})["balance"], 100)
            count += 1
        return other.reply(), count

    def test_nobody_waits_while_a_job_is_verified(self):
        """Accounts are told meanwhile. `.ci/waits.py` tells how long one is waited for."""
        dear = submit_text([(0, dear_code())] * 15 + [(0, b"")], 10, b"", tenant="dear")
        with Server(more=["--clients", 2]) as server:
            asking, submitting = Client(server), Client(server)
            for tenant in ("t", "dear"):
                asking.ask({"op": "grant", "tenant": tenant, "amount": 100})

            def are_told():
                refusal, count = self.ask_beside(asking, submitting, dear)
                self.assertEqual((refusal["code"], refusal["program"]), (1, 15))
                return count >= MEANWHILE

            wait_for(are_told, "accounts beside a verdict")
            asking.stream.close()
            submitting.stream.close()

    def test_nobody_waits_while_a_result_is_written(self):
        """`.ci/waits_for_results.py` tells how long one is waited for beside a large result."""
        programs, credit = wide_job()
        with Server(more=["--clients", 2]) as server:
            asking, reading = Client(server), Client(server)
            for tenant, amount in (("t", 100), ("wide", credit)):
                asking.ask({"op": "grant", "tenant": tenant, "amount": amount})
            job = reading.ask(submit_text(programs, credit, b"", tenant="wide"))["job"]
            wanted = result_of(reading, job)
            self.assertTrue(wanted["ok"])

            def are_told():
                reply, count = self.ask_beside(asking, reading, {"op": "result", "job": job})
                self.assertEqual(reply, wanted)
                return count >= MEANWHILE

            wait_for(are_told, "accounts beside a result")
            asking.stream.close()
            reading.stream.close()

    def test_as_many_as_there_are_places(self):
        """One more waits until a place is free."""
        with Server(sessions=3, more=("--clients", 2)) as server:
            first, second = Client(server), Client(server)
            for client in (first, second):
                client.ask('{"op":"account","tenant":"t"}')
            third = Client(server)
            third.send('{"op":"account","tenant":"t"}')
            for _ in range(ASKED):
                for client in (first, second):
                    client.ask('{"op":"account","tenant":"t"}')
            self.assertFalse(third.is_answered())
            first.stream.close()
            self.assertEqual(third.reply(), {"code": 74, "ok": False})
            second.stream.close()
            third.stream.close()
            self.assertEqual(server.status(), 0)

    def test_a_client_that_keeps_a_read_waiting_is_given_up(self):
        with Server(sessions=2, more=("--timeout", 1), stderr=subprocess.PIPE) as server:
            silent = server.connect()
            self.assertEqual(silent.recv(1), b"")
            silent.close()
            client = Client(server)
            self.assertEqual(client.ask('{"op":"account","tenant":"t"}'), {"code": 74, "ok": False})
            client.stream.close()
            self.assertEqual(server.status(), 3)
            with server.process.stderr as lines:
                told = past_listening(lines.read().decode(), server.process.args)
            self.assertEqual(told, "bpfjobs: a connection was given up: 83: read failed\n")

    def test_a_third_silent_a_third_cutting_and_a_third_working(self):
        clients = 63
        with Server(sessions=1_000_000, workers=4, more=("--clients", 64)) as server:
            Client(server).stream.close()
            silent = [server.connect() for _ in range(clients // 3)]
            is_over = threading.Event()

            def cuts():
                while not is_over.is_set():
                    with server.connect() as stream:
                        stream.sendall(frame('{"op":"account","tenant":"t"}')[:-5])

            cutting = [threading.Thread(target=cuts) for _ in range(clients // 3)]
            working = [Worker(server, f"tenant{k}", 20) for k in range(clients // 3)]
            for thread in (*cutting, *working):
                thread.start()
            for thread in working:
                thread.join()
            is_over.set()
            for thread in cutting:
                thread.join()
            self.assertEqual([thread.wrong for thread in working if thread.wrong], [])
            # the first thread, the log's, 64 for clients and 4 for jobs
            self.assertLessEqual(threads_of(server), 1 + 1 + 64 + 4)
            for stream in silent:
                stream.close()
            client = Client(server)
            for k in range(clients // 3):
                account = client.ask({"op": "account", "tenant": f"tenant{k}"})
                self.assertEqual((account["balance"], account["open"], account["spent"]), (0, 0, 60))
            # standard input and output, the port, and this client
            wait_for(lambda: files_of(server) <= 8, "8 files at most")
            client.stream.close()

    def test_no_thread_is_left_behind_small_jobs(self):
        """A thousand jobs in flight on one connection: no thread is started for a job."""
        with Server(sessions=1, workers=2, more=("--clients", 2)) as server:
            client = Client(server)
            client.ask({"op": "grant", "tenant": "t", "amount": 3000})
            submit = frame(submit_text([(0, code_of(ADD))], 3, b"", tenant="t"))
            sender = threading.Thread(target=client.stream.sendall, args=(submit * 1000,))
            sender.start()
            for number in range(1, 1001):
                length = int.from_bytes(is_read(client.stream, 4), "big")
                self.assertEqual(json.loads(is_read(client.stream, length)), {"job": number, "ok": True})
                if number % 100 == 0:
                    # the first thread, the log's, 2 for clients and 2 for jobs
                    self.assertLessEqual(threads_of(server), 1 + 1 + 2 + 2)
            sender.join()
            for number in range(1, 1001):
                while (reply := client.ask({"op": "result", "job": number})).get("code") == 77:
                    time.sleep(0.001)
                self.assertEqual(reply["spent"], 3)
            client.stream.close()
            self.assertEqual(server.status(), 0)


if __name__ == "__main__":
    unittest.main()
