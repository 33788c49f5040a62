"""A desk without a socket: jobs that are open or fail, its replies, and its accounts beside a plain list of entries."""

import json
import random
import unittest

from programs import assemble, frame, submit_text
from telgovan import Desk, Error, Report, Task, play_text

ROOT = assemble(
    "mov64 r6, r1\nmov64 r1, 1\nmov64 r2, 10\nmov64 r3, 4\nmov64 r4, 9\ncall 1\nstxb [r6+0], r0\nmov64 r0, 0\nexit"
)
CHILD = assemble("stxb [r1+0], r3\nmov64 r0, 0\nexit")
FAMILY = [(4, ROOT), (4, CHILD)]
MOST_GRANTED = 1_000_000_000_000


class Client:
    """A desk with one connection."""

    def __init__(self):
        self.desk = Desk()
        self.connection = self.desk.connect()

    def text(self, request):
        """The text of the reply to a request."""
        self.desk.feed(self.connection, frame(request if isinstance(request, str) else json.dumps(request)))
        reply = b""
        while part := self.desk.replies(self.connection):
            reply += part
        if int.from_bytes(reply[:4], "big") != len(reply) - 4:
            raise ValueError(f"not one frame: {reply}")
        return reply[4:].decode()

    def ask(self, request):
        return json.loads(self.text(request))

    def grant(self, tenant, amount):
        return self.ask({"op": "grant", "tenant": tenant, "amount": amount})

    def account(self, tenant):
        return self.ask({"op": "account", "tenant": tenant})

    def sums(self, tenant="t"):
        account = self.account(tenant)
        return [account[name] for name in ("granted", "balance", "open", "spent")]

    def of_job(self, operation, number):
        return self.ask({"op": operation, "job": number})


class Jobs(unittest.TestCase):
    def setUp(self):
        self.client = Client()
        self.client.grant("t", 100)

    def submit(self):
        reply = self.client.ask(submit_text(FAMILY, 34, bytes(8)))
        number, text = self.client.desk.next_job()
        self.assertEqual(reply, {"job": number, "ok": True})
        return number, text

    def refused(self, number, call, *given):
        with self.assertRaises(Error) as caught:
            call(*given)
        self.assertEqual(caught.exception.number, number)

    def test_an_open_job_is_kept_apart(self):
        number, text = self.submit()
        self.assertEqual(number, 1)
        self.assertEqual(self.client.sums(), [100, 66, 34, 0])
        status = {"complete": False, "ok": True, "returned": 0, "spent": 0}
        self.assertEqual(self.client.of_job("status", 1), status)
        self.assertEqual(self.client.of_job("result", 1), {"code": 77, "ok": False})
        self.client.desk.finish(1, *play_text(text))
        self.assertEqual(self.client.sums(), [100, 73, 0, 27])
        self.refused(76, self.client.desk.fail, 1, 81)
        self.assertEqual(self.client.sums(), [100, 73, 0, 27])

    def test_a_failed_job_gives_back_what_it_held(self):
        """By a number, or by a report that doesn't add up to its credit of 34."""
        reports = [(30, 3), (30, 5), (4294967295, 35), (34, 4294967295)]
        for failure in (81, 99, *reports):
            with self.subTest(failure=failure):
                number, _ = self.submit()
                if failure in reports:
                    self.client.desk.finish(number, Report(*failure, 0, []), b"")
                else:
                    self.client.desk.fail(number, failure)
                told = {"code": failure if failure in (81, 99) else 82, "ok": False}
                self.assertEqual(self.client.of_job("status", number), told)
                self.assertEqual(self.client.of_job("result", number), told)
                self.assertEqual(self.client.sums(), [100, 100, 0, 0])

    def test_a_length_over_the_limit_is_told_for_ever(self):
        desk, client = self.client.desk, self.client.connection
        desk.feed(client, b"\x00\x10\x00")
        self.assertEqual(desk.replies(client), b"")
        self.refused(71, desk.feed, client, b"\x01\x00")
        self.assertEqual(desk.replies(client), frame('{"code":71,"ok":false}'))
        for _ in range(3):
            self.refused(71, desk.feed, client, b"\x00")
            self.assertEqual(desk.replies(client), b"")


class Replies(unittest.TestCase):
    """The text of each form of reply. Expected texts were written out by hand."""

    def test_each_form(self):
        client = Client()
        self.assertEqual(client.text({"op": "account", "tenant": "t"}), '{"code":74,"ok":false}')
        self.assertEqual(
            client.text({"op": "grant", "tenant": "t", "amount": 100}),
            '{"balance":100,"granted":100,"ok":true,"open":0,"spent":0}',
        )
        self.assertEqual(
            client.text(submit_text([(4, CHILD)] * 15 + [(65537, CHILD)], 90, bytes(4))),
            '{"code":38,"ok":false,"program":15}',
        )
        unset = assemble("mov64 r1, 1\n" * 4095 + "exit")
        self.assertEqual(
            client.text(submit_text([(0, unset)], 90, b"")), '{"code":31,"ok":false,"program":0,"slot":4095}'
        )
        self.assertEqual(client.text(submit_text(FAMILY, 34, bytes(8))), '{"job":1,"ok":true}')
        self.assertEqual(
            client.text({"op": "account", "tenant": "t"}), '{"balance":66,"granted":100,"ok":true,"open":34,"spent":0}'
        )
        self.assertEqual(
            client.text({"op": "status", "job": 1}), '{"complete":false,"ok":true,"returned":0,"spent":0}'
        )

    def test_results(self):
        """What a report tells, whatever it tells, is written."""
        client = Client()
        client.grant("t", 100)
        client.ask(submit_text(FAMILY, 34, bytes(8)))
        client.ask(submit_text(FAMILY, 3 + 24, bytes(8)))
        client.desk.next_job()
        client.desk.next_job()
        client.desk.finish(1, Report(0, 34, 0, []), b"")
        self.assertEqual(
            client.text({"op": "result", "job": 1}), '{"buffer":"","ok":true,"returned":34,"spent":0,"tasks":[]}'
        )
        end = Task(number=4294967295, program=65535, argument=1, given=2, spent=3, returned=4, r0=2**64 - 1)
        client.desk.finish(2, Report(2, 25, 1, [end]), bytes([0, 0xAB, 0xFF]))
        self.assertEqual(
            client.text({"op": "result", "job": 2}),
            '{"buffer":"00abff","ok":true,"returned":25,"spent":2,"tasks":['
            '{"number":4294967295,"program":65535,"r0":18446744073709551615,"ran":true,"rest":4,"spent":3}]}',
        )
        self.assertEqual(
            client.text({"op": "status", "job": 2}), '{"complete":true,"ok":true,"returned":25,"spent":2}'
        )


class PlainDesk:
    """The accounts as a plain list of entries: what was granted to each tenant, and each job. Sums are taken anew."""

    def __init__(self):
        self.grants, self.jobs = [], []

    def account(self, tenant):
        granted = [amount for name, amount in self.grants if name == tenant]
        if not granted:
            return 74
        own = [job for job in self.jobs if job["tenant"] == tenant]
        opened = sum(job["credit"] for job in own if job["end"] is None)
        spent = sum(job["end"][0] for job in own if isinstance(job["end"], tuple))
        return sum(granted), sum(granted) - opened - spent, opened, spent

    def grant(self, tenant, amount):
        if not 1 <= amount <= 2_147_483_647:
            return 73
        if sum(known for name, known in self.grants if name == tenant) + amount > MOST_GRANTED:
            return 65
        self.grants.append((tenant, amount))
        return self.account(tenant)

    def submit(self, tenant, credit, is_bad):
        """The number of the job, or why it isn't taken: a bad program ends without its R0, another costs 2."""
        account = self.account(tenant)
        if isinstance(account, int):
            return account
        if credit > account[1]:
            return 75
        if credit > 2_147_483_647:
            return 65
        if is_bad:
            return 31
        if credit < 2:
            return 63
        self.jobs.append({"tenant": tenant, "credit": credit, "end": None})
        return (len(self.jobs),)

    def end_of(self, number):
        """How a job ended, None where it is open, or 76 where there is none."""
        return self.jobs[number - 1]["end"] if 1 <= number <= len(self.jobs) else 76

    def finish(self, number, end):
        if self.end_of(number) is not None:
            return 76
        job = self.jobs[number - 1]
        job["end"] = 82 if isinstance(end, tuple) and sum(end) != job["credit"] else end
        return 0


class Beside(unittest.TestCase):
    """A desk and a plain list, over the same pseudo-random calls: they answer alike, and have the same sums then."""

    SEED, CALLS, TENANTS = 2026, 1000, ("rich", "a", "b", "a-", "0")
    PROGRAMS = {False: assemble("mov64 r0, 0\nexit"), True: assemble("exit")}

    def amount(self):
        """A number that is small most of the time."""
        most = self.random.choice([0xFFFF_FFFF, 2_147_483_647, 2**31, *[40] * 5])
        return most if most in (0xFFFF_FFFF, 2_147_483_647) else self.random.randrange(most)

    def told(self, reply, names):
        return tuple(reply[name] for name in names) if reply["ok"] else reply["code"]

    def account(self, reply):
        return self.told(reply, ("granted", "balance", "open", "spent"))

    def call_grant(self, tenant):
        amount = self.amount()
        self.assertEqual(self.account(self.client.grant(tenant, amount)), self.plain.grant(tenant, amount))

    def call_submit(self, tenant):
        credit, is_bad = self.amount(), self.random.randrange(10) == 0
        reply = self.client.ask(submit_text([(0, self.PROGRAMS[is_bad])], credit, b"", tenant))
        self.assertEqual(self.told(reply, ["job"]), self.plain.submit(tenant, credit, is_bad))
        if reply["ok"]:
            self.assertEqual(self.client.desk.next_job().number, reply["job"])

    def call_finish(self, _tenant):
        number, spent = self.random.randrange(300), self.amount()
        end = self.random.choice([81, 99, (spent, 0), *[(self.amount(), spent)] * 3])
        try:
            if isinstance(end, tuple):
                self.client.desk.finish(number, Report(*end, 0, []), b"")
            else:
                self.client.desk.fail(number, end)
            found = 0
        except Error as error:
            found = error.number
        self.assertEqual(found, self.plain.finish(number, end))

    def call_told(self, _tenant):
        number = self.random.randrange(300)
        status, result = self.client.of_job("status", number), self.client.of_job("result", number)
        end = self.plain.end_of(number)
        if end is None:
            self.assertEqual(self.told(status, ("complete", "spent", "returned")), (False, 0, 0))
            self.assertEqual(result, {"code": 77, "ok": False})
        elif isinstance(end, tuple):
            self.assertEqual(self.told(status, ("complete", "spent", "returned")), (True, *end))
            self.assertEqual(self.told(result, ("spent", "returned")), end)
        else:
            self.assertEqual((status, result), ({"code": end, "ok": False},) * 2)

    def test_answers_as_a_plain_list_does(self):
        self.random, self.client, self.plain = random.Random(self.SEED), Client(), PlainDesk()
        for _ in range(460):
            self.client.grant("rich", 2_147_483_647)
            self.plain.grant("rich", 2_147_483_647)
        calls = [self.call_grant, *[self.call_submit] * 3, *[self.call_finish] * 2, *[self.call_told] * 2]
        for turn in range(self.CALLS):
            with self.subTest(turn=turn):
                self.random.choice(calls)(self.random.choice(self.TENANTS))
                for tenant in self.TENANTS:
                    self.assertEqual(self.account(self.client.account(tenant)), self.plain.account(tenant))
        self.assertGreater(len(self.plain.jobs), 200)


if __name__ == "__main__":
    unittest.main()
