"""Clients of a server with a journal, which is killed at any moment, and what has to be there afterwards."""

import hashlib
import json
import random
import threading
import time

from journal_following import Followed
from journals import Keeper
from patience import PATIENCE
from trees import Planter, Tree, comparable

# How many results are asked for at once.
AT_ONCE = 100

# Of how many old jobs, and of how many old keys, a look asks that doesn't ask of all.
SAMPLED = 100

# How many requests a tenant sends at once.
MOST_ASKED = 4

# The digest of a result that a server has forgotten.
FORGOTTEN = b"forgotten"


class Good:
    """A job that a server takes: what is asked for, and what it has to come to."""

    def __init__(self, tree):
        programs = [{"need": need, "code": code.hex()} for need, code in tree.programs]
        self.request = {"op": "submit", "programs": programs, "credit": tree.credit, "buffer": tree.buffer.hex()}
        self.asked = tree.programs, tree.credit, tree.buffer
        self.report = tree.report()
        self.spent = self.report["spent"]

    def is_right(self, reply):
        return bool(reply.get("ok")) and comparable(reply) == self.report

    def is_recorded(self, job):
        """Whether a record is of this job. That of a job which was over in a snapshot has its credit alone."""
        return job[1:] == (None, self.asked[1], None) if job[1] is None else job[1:] == self.asked


def good_jobs(assemble, seed, count=10, more=0):
    """Jobs with so many bytes more in their buffers."""
    planter = Planter(seed, assemble)
    trees = [planter.tree() for _ in range(count)]
    if more:
        trees = [Tree(tree.programs, tree.credit, tree.buffer + planter.random.randbytes(more)) for tree in trees]
    return [Good(tree) for tree in trees]


class Tenant:
    """What a tenant was told, and what it asked for without a reply."""

    def __init__(self, load, number):
        self.load, self.name = load, f"tenant-{number}"
        self.random = random.Random(load.seed * 1_000_003 + number)
        self.granted, self.grants_unsure = 0, []
        # the jobs of which the number was told, those of which it wasn't, and the results that were told
        self.jobs, self.unsure, self.results = {}, [], {}
        # the numbers of the jobs that no look asked for, the last number of all, and what all jobs spend
        self.fresh, self.last, self.spends = set(), 0, 0
        # until when it asks for no change
        self.rests = 0
        # the numbers by the keys of the jobs that came by one, and submits by a key that no record has
        self.keys, self.lost = {}, []
        self.asked = []

    def visit(self, client):
        """Requests until the server is gone."""
        while True:
            requests = [self.act() for _ in range(self.random.choice((1, 1, 1, MOST_ASKED)))]
            requests, self.lost = self.lost or requests, []
            self.asked = list(requests)
            client.stream.sendall(b"".join(framed({**request, "tenant": self.name}) for request, _ in requests))
            for request, good in requests:
                self.take(request, good, client.next_told())
                self.asked.pop(0)
                self.load.told += 1

    def give_up(self):
        """The requests without a reply: each may have been carried out."""
        for request, good in self.asked:
            if request["op"] == "grant":
                self.grants_unsure.append(request["amount"])
            elif request["op"] == "submit" and request.get("key") not in self.keys:
                self.unsure.append((request, good))
        self.asked = []

    # ---- requests

    def act(self):
        """A request. Of those that change the desk no more come than the load's pace allows."""
        act, now = self.random.choice(self.ACTS), time.monotonic()
        if self.load.pace and act.__name__ in ("grant", "submit"):
            if now < self.rests:
                return self.result()
            self.rests = now + self.random.expovariate(self.load.pace)
        return act(self)

    def grant(self):
        return {"op": "grant", "amount": self.random.randint(1, 200_000)}, None

    def submit(self):
        """At a door that hears keys every second one has a key, and of these every fourth that of an earlier one."""
        good = self.random.choice(self.load.good)
        if not self.load.is_keyed or self.random.random() < 0.5:
            return good.request, good
        key = f"{self.name}-{self.random.getrandbits(128):x}"
        if self.keys and self.random.random() < 0.25:
            key = self.random.choice(list(self.keys)[-20:])
        return {**good.request, "key": key}, good

    def look(self):
        return {"op": "account"}, None

    def result(self):
        if not self.jobs:
            return self.look()
        return {"op": "result", "job": self.random.choice(list(self.jobs)[-20:])}, None

    ACTS = [grant, submit, submit, look, result, result]

    # ---- replies

    def take(self, request, good, told):
        reply = json.loads(told)
        if request["op"] == "grant":
            self.granted += request["amount"]
            self.expect(reply.get("ok") and reply["granted"] == self.granted, f"a grant: {reply}, of {self.granted}")
        elif request["op"] == "submit":
            self.take_reply(request.get("key"), good, reply)
        elif request["op"] == "result":
            self.take_result(request["job"], told)
        elif reply.get("ok"):
            adds = reply["balance"] + reply["open"] + reply["spent"] == reply["granted"] == self.granted
            self.expect(adds, f"an account: {reply}, of {self.granted}")

    def take_reply(self, key, good, reply):
        """A submit is told a new number, or that of its key's job."""
        if key in self.keys:
            self.expect(reply == {"job": self.keys[key], "ok": True}, f"{reply}, of the key of job {self.keys[key]}")
            self.load.asked_again += 1
            return
        self.expect(reply.get("ok") or reply.get("code") in (74, 75), f"a job: {reply}")
        if reply.get("ok"):
            self.take_number(reply["job"], good)
            if key:
                self.keys[key] = reply["job"]

    def take_number(self, number, good):
        self.expect(self.load.is_new(number), f"the number {number} of a job is that of another one")
        self.add(number, good)

    def add(self, number, good):
        self.jobs[number] = good
        self.fresh.add(number)
        self.last = max(self.last, number)
        self.spends += good.spent

    def take_result(self, number, told):
        """A result is told once the job is over, and then the same for ever."""
        reply = json.loads(told)
        if reply.get("code") == 77:
            self.expect(number not in self.results, f"job {number} is open again")
            return
        if reply.get("code") == 76 and self.load.may_forget(number):
            self.results[number] = FORGOTTEN
            return
        self.expect(self.jobs[number].is_right(reply), f"the result of job {number}: {reply}")
        digest = hashlib.sha256(told).digest()
        self.expect(self.results.get(number) != FORGOTTEN, f"job {number} was forgotten, and is there again")
        before = self.results.setdefault(number, digest)
        self.expect(before == digest, f"the result of job {number} is another one")

    def place(self, number, job, key):
        """A job that was recorded as this tenant's, by a key or without one, is one that it asked for."""
        if number in self.jobs:
            self.expect(self.jobs[number].is_recorded(job), f"job {number} is recorded as another one")
            self.expect(key is None or self.keys.get(key) == number, f"job {number} is recorded by the key {key}")
            return
        for request, good in self.unsure:
            if good.is_recorded(job) and request.get("key") == key:
                self.unsure.remove((request, good))
                self.load.is_new(number)
                self.load.found += 1
                self.add(number, good)
                if key:
                    self.keys[key] = number
                return
        self.expect(False, f"job {number} was recorded, and not asked for")

    def expect(self, holds, what):
        if not holds:
            self.load.wrong.append(f"{self.name}: {what}")


def framed(request):
    text = json.dumps(request).encode()
    return len(text).to_bytes(4, "big") + text


def after(seconds):
    """Whether so many seconds are over, as a call without words."""
    until = time.monotonic() + seconds
    return lambda: time.monotonic() >= until


def after_replies(loads):
    """Makes of a number a call that tells whether each load was told as many replies more."""
    def ending(count):
        wanted = [load.told + count for load in loads]
        return lambda: all(load.told >= told for load, told in zip(loads, wanted))

    return ending


def keep_busy(loads, is_over, kill):
    """Has the tenants of these loads at work until something is over, and kills their server."""
    is_late, told = after(PATIENCE), sum(load.told for load in loads)
    for load in loads:
        load.floor = max(load.numbers, default=0)
        load.followed.is_running = True
    threads = [threading.Thread(target=load.work, args=(tenant,)) for load in loads for tenant in load.tenants]
    for thread in threads:
        thread.start()
    while not is_over():
        for load in loads:
            load.followed.look()
        time.sleep(0.002)
        if is_late():
            more = sum(load.told for load in loads) - told
            loads[0].wrong.append(f"a round has no end: {more} replies, {threading.active_count()} threads")
            break
    kill()
    for load in loads:
        load.followed.is_running = False
    for thread in threads:
        thread.join()


class Load:
    """A server that is killed and started anew, and the tenants that keep it busy."""

    def __init__(self, folder, seed, good, clients=4, workers=2, keep=0, is_keyed=False, keeper=Keeper):
        self.seed, self.good, self.random, self.keep = seed, good, random.Random(seed), keep
        # whether keys are heard at the server's door, and how often one was asked for again
        self.is_keyed, self.asked_again = is_keyed, 0
        words = ["--keep", keep] if keep else []
        self.server = keeper(folder, *words, clients=clients + 1, workers=workers)
        self.tenants = [Tenant(self, number) for number in range(clients)]
        self.numbers, self.highest, self.lock = set(), 0, threading.Lock()
        self.floor, self.told, self.wrong, self.kills = 0, 0, [], 0
        # how many jobs were found that nobody was told of, and how many kills left a torn record
        self.found, self.torn = 0, 0
        # how many changes of the desk a client asks for in a second at most, or 0, and how many old jobs a look takes
        self.pace, self.sampled = 0, SAMPLED
        # makes of a number a call that tells whether a round is over
        self.ending = after_replies([self])
        self.follow_file(self.server.journal)

    def follow_file(self, path):
        """The records that are read, and of how many jobs and keys they were looked at."""
        self.followed, self.seen, self.seen_keys = Followed(path, self.expect, self.may_forget), 0, 0

    @property
    def book(self):
        return self.followed.book

    @property
    def compactions(self):
        """How often a snapshot took the journal's place."""
        return self.followed.compactions

    def is_new(self, number):
        """Whether a number is told for the first time, and is over all that were told by earlier servers."""
        with self.lock:
            is_new = number not in self.numbers and number > self.floor
            self.numbers.add(number)
            self.highest = max(self.highest, number)
            return is_new

    def may_forget(self, number):
        """Whether a job's report may be forgotten: so many others were taken since, or are just being taken."""
        last = max(self.highest, len(self.book.jobs)) + MOST_ASKED * len(self.tenants)
        return 0 < self.keep <= last - number

    def end(self):
        self.server.end()
        self.followed.close()

    def round(self, longest, everything=True):
        """Starts the server, looks for what was told, has the tenants at work, and kills it: behind
        a random number of replies up to the longest, unless `ending` takes it for another one."""
        self.server.start()
        if self.random.random() < 0.15:
            # while it reads its journal, or its jobs begin
            time.sleep(self.random.uniform(0, 0.03))
            self.kill()
            self.server.start()
        with self.server.connect() as client:
            self.audit(client, everything)
        keep_busy([self], self.ending(self.random.uniform(0, longest)), self.kill)

    def kill(self):
        self.server.kill()
        self.kills += 1
        self.torn += bool(self.catch_up())

    def work(self, tenant):
        try:
            with self.server.connect() as client:
                tenant.visit(client)
        except OSError:
            tenant.give_up()
        except Exception as error:  # noqa: B902  (it fails the test, in whose thread it is told)
            self.wrong.append(f"{tenant.name}: {error!r}")

    # ---- what has to be there

    def audit(self, client, everything=True):
        """Looks for all that was told, in the records and in replies. It asks for all jobs and keys that are new, and
        for all old ones or a sample of them."""
        self.follow()
        self.audit_keys(client, everything)
        for tenant in self.tenants:
            self.audit_grants(client, tenant)
        self.audit_results(client, everything)
        for tenant in self.tenants:
            self.audit_account(client, tenant)

    def catch_up(self):
        """Reads the records that are new, and gives what stands behind them."""
        return self.followed.catch_up()

    def expect(self, holds, what):
        if not holds:
            self.wrong.append(what)

    def follow(self):
        """Reads the records that are new, and finds the jobs whose numbers nobody was told."""
        self.catch_up()
        named, keys = {tenant.name: tenant for tenant in self.tenants}, dict(self.book.keyed)
        for number in range(self.seen + 1, len(self.book.jobs) + 1):
            job = self.book.jobs[number - 1]
            if job is None:
                # it came and was forgotten between two looks at the file: somebody has to have been told of it
                self.expect(number in self.numbers, f"job {number} is in no record, and was forgotten")
            else:
                named[job[0]].place(number, job, keys.get(number))
        self.seen = len(self.book.jobs)
        for tenant in self.tenants:
            tenant.lost += [(request, good) for request, good in tenant.unsure if "key" in request]
            tenant.unsure = []
            tenant.expect(tenant.last <= self.seen, f"job {tenant.last} was told, and is no record")

    def audit_keys(self, client, everything):
        """Each key has one job, which is told again by the last 1,000 of them: a submit that asks for nothing else."""
        numbers = {key: number for tenant in self.tenants for key, number in tenant.keys.items()}
        self.expect(sorted(self.book.keyed) == sorted((number, key) for key, number in numbers.items()),
                    "the keyed jobs of the records aren't those that were told")
        keyed = self.book.remembered()
        if not everything:
            old = [one for one in keyed if one[0] <= self.seen_keys]
            keyed = [one for one in keyed if one[0] > self.seen_keys] + self.random.sample(old, min(len(old), self.sampled))
        self.seen_keys = self.seen
        for at in range(0, len(keyed), AT_ONCE):
            part = keyed[at : at + AT_ONCE]
            for (number, key), told in zip(part, client.told_all([{"op": "submit", "key": key} for _, key in part])):
                self.expect(told == b'{"job":%d,"ok":true}' % number, f"{told}, of the key of job {number}")

    def audit_grants(self, client, tenant):
        """All that was told was granted, and of the rest the first ones."""
        reply = client.ask({"op": "account", "tenant": tenant.name})
        told = reply.get("granted", 0)
        may_be = [tenant.granted + sum(tenant.grants_unsure[:count]) for count in range(len(tenant.grants_unsure) + 1)]
        tenant.expect(told in may_be, f"{reply}, of {tenant.granted} granted, and perhaps {tenant.grants_unsure}")
        by_records = self.book.granted.get(tenant.name, 0)
        tenant.expect(told == by_records, f"{reply}, and {by_records} by the records")
        tenant.granted, tenant.grants_unsure = told, []

    def audit_results(self, client, everything):
        """The results of jobs. Those that run on are waited for."""
        fresh = [(tenant, number) for tenant in self.tenants for number in sorted(tenant.fresh)]
        old = [(tenant, number) for tenant in self.tenants for number in tenant.results if number not in tenant.fresh]
        if not everything:
            old = self.random.sample(old, min(len(old), self.sampled))
        jobs = old + fresh
        for at in range(0, len(jobs), AT_ONCE):
            part = jobs[at : at + AT_ONCE]
            for (tenant, number), told in zip(part, client.told_all([{"op": "result", "job": number} for _, number in part])):
                tenant.take_result(number, told)
        for tenant, number in fresh:
            if number not in tenant.results:
                tenant.take_result(number, client.over(number))
        for tenant in self.tenants:
            tenant.fresh.clear()

    def audit_account(self, client, tenant):
        """The account of a tenant whose jobs are all over."""
        reply = client.ask({"op": "account", "tenant": tenant.name})
        balance = tenant.granted - tenant.spends
        told = {"balance": balance, "granted": tenant.granted, "ok": True, "open": 0, "spent": tenant.spends}
        tenant.expect(reply == told or not tenant.granted, f"{reply}, in place of {told}")

    def audit_all(self):
        """The same once more, and of the records once all jobs are over."""
        self.server.start()
        with self.server.connect() as client:
            self.audit(client)
        self.kill()
        self.audit_records()

    def audit_records(self):
        """By the records all jobs are over, and as they have to be."""
        book = self.book
        if self.catch_up() or sorted(book.ends) != list(range(1, len(book.jobs) + 1)):
            self.wrong.append("the records leave a job open, or bytes stand behind them")
        for tenant in self.tenants:
            for number, good in tenant.jobs.items():
                tenant.expect(good.is_right(book.ends[number]), f"the record of job {number}")


class Door:
    """One door of a server, with the journal of its desk, as a load asks for them."""

    def __init__(self, keeper, name):
        self.keeper, self.name, self.journal = keeper, name, keeper.file(name)

    def connect(self):
        return self.keeper.connect(self.name)


class DoorLoads:
    """A server with doors of tenants, which is killed and started anew, and the load of each door: so many clients."""

    CREDIT = 2_000_000_000

    def __init__(self, server, seed, good, clients, keep=0):
        self.server, self.random = server, random.Random(seed)
        self.server.words += ["--keep", keep] if keep else []
        self.server.start()
        self.loads = [self.load(door, seed + place, good, clients[door], keep) for place, door in enumerate(clients)]
        for load in self.loads:
            load.sampled = SAMPLED // len(self.loads)
        self.loads[0].ending = after_replies(self.loads)
        self.server.kill()

    def load(self, door, seed, good, clients, keep):
        """The load of one door. Its tenants are granted their credit ahead of it."""
        load = Load(self.server.folder, seed, good, clients=clients, keep=keep, is_keyed=door != "all")
        load.server = Door(self.server, door)
        load.follow_file(load.server.journal)
        for number, tenant in enumerate(load.tenants):
            tenant.name = door if door != "all" else f"other-{number}"
            tenant.granted = self.CREDIT
            tenant.ACTS = [act for act in tenant.ACTS if act.__name__ != "grant"]
            with self.server.connect("grants") as client:
                client.ask({"op": "grant", "tenant": tenant.name, "amount": self.CREDIT})
        return load

    def round(self, longest, everything=True):
        """Starts the server, looks for what was told at each door, has the tenants at work, and kills it."""
        self.server.start()
        self.audit(everything)
        keep_busy(self.loads, self.loads[0].ending(self.random.uniform(0, longest)), self.kill)

    def kill(self):
        """Kills the server. The records are read ahead of its next start, which may put a snapshot in their place."""
        self.server.kill()
        for load in self.loads:
            load.kills += 1
            load.torn += bool(load.catch_up())

    def audit(self, everything=True):
        for load in self.loads:
            with load.server.connect() as client:
                load.audit(client, everything)

    def audit_all(self):
        """The same once more, and of the records once all jobs are over."""
        self.server.start()
        self.audit()
        self.kill()
        for load in self.loads:
            load.audit_records()

    def wrong(self):
        return [text for load in self.loads for text in load.wrong]
