#!/usr/bin/env python3
"""Kills a server with a journal at random moments under load, and looks each time for all that it told.

    .ci/journal_kills.py [--kills N] [--clients N] [--doors N] [--workers N] [--longest S] [--seed N] [--keep N]
                         [--pace N] [--jobs N] [--more N] [--compacting] [--folder PATH]
    folder=$(./try kept bpfjobs library); BPFJOBS=$folder/bpfjobs TELGOVAN_LIB=$folder .ci/journal_kills.py

It starts `bpfjobs serve --journal` with a socket and a journal in a new folder, has so many tenants grant,
submit jobs and ask at once, kills the server (SIGKILL) within S seconds, and starts it anew with the same
journal: N times. Now and then it is also killed as it starts. The load and what is looked for are those of
`tests/journal_load.py`: each grant, each number of a job and each result that was told is there again, no
number is told twice, the results are the model's, and each account is what its grants and jobs add up to.

Most rounds look at the jobs that are new and at a hundred old ones, every fiftieth and the last one at all
of them. A client asks for `--pace` changes a second at most (0: as many as it can). A journal of
more than `--jobs` is left for a new one once all of it was looked at, since each start reads all of it.

With `--compacting` jobs have larger buffers, the server keeps 50 reports and the clients have no pace, so
that journals are compacted while the server runs. Every second kill waits for such a compaction, and falls
into it or comes right behind it. It tells how many there were, by the lines on standard error, and how many
kills left a snapshot in the making.

A kill leaves what was written to the system: that records are synced ahead of replies is looked for by
`tests/test_journal.py`, with strace. Status: 0, or 1 where something doesn't hold.
"""

import argparse
import collections
import os
import random
import sys
import tempfile
import time

TOP = os.path.dirname(os.path.dirname(os.path.abspath(__file__)))
sys.path.insert(0, os.path.join(TOP, "tests"))
from compactions import CountedKeeper, CountedTenantKeeper  # noqa: E402  (the module stands in the folder that was just added)
from journal_load import DoorLoads, Load, after, good_jobs  # noqa: E402
from programs import assemble  # noqa: E402

# All jobs are looked at each time that so many more rounds are over.
WHOLE = 50

# The numbers of words that aren't there, without `--compacting` and with it.
PLAIN = {"keep": 0, "pace": 6, "longest": 0.5, "more": 0, "jobs": 700}
COMPACTING = {"keep": 50, "pace": 0, "longest": 2.0, "more": 4096, "jobs": 10_000}


def words():
    parser = argparse.ArgumentParser(description="Kills a server with a journal under load.")
    parser.add_argument("--kills", type=int, default=1000)
    parser.add_argument("--clients", type=int, default=16)
    parser.add_argument("--doors", type=int, default=0, help="how many clients are tenants with doors; 0: one door for all")
    parser.add_argument("--workers", type=int, default=4)
    parser.add_argument("--longest", type=float, help="seconds until a kill, at most; 0.5, or 2 with --compacting")
    parser.add_argument("--seed", type=int, default=1)
    parser.add_argument("--keep", type=int, help="how many reports the server keeps; 0: all; 50 with --compacting")
    parser.add_argument("--pace", type=float, help="how many changes a second a client asks for; 0: no bound; 6, or 0 with --compacting")
    parser.add_argument("--jobs", type=int, help="journals with more are left for new ones; 700, 350 with doors, 10,000 with --compacting")
    parser.add_argument("--more", type=int, help="so many bytes more in each buffer; 0, or 4096 with --compacting")
    parser.add_argument("--compacting", action="store_true", help="have journals compacted while the server runs")
    parser.add_argument("--folder", help="the folder for the journal, on the file system that is meant")
    given = parser.parse_args()
    # servers with doors read each journal twice as they start
    plain = {**PLAIN, "jobs": PLAIN["jobs"] // 2} if given.doors else PLAIN
    for name, value in (COMPACTING if given.compacting else plain).items():
        if getattr(given, name) is None:
            setattr(given, name, value)
    return given


class OneDoor:
    """A server with one door, and the load of all its clients."""

    def __init__(self, folder, seed, given, good):
        load = Load(folder, seed, good, given.clients, given.workers, given.keep, keeper=CountedKeeper)
        self.server, self.loads, self.round, self.audit_all = load.server, [load], load.round, load.audit_all

    def wrong(self):
        return self.loads[0].wrong


def many_doors(folder, seed, given, good):
    """A server with doors for the first tenants, each with a client, and one for all other clients."""
    names = [f"tenant-{number}" for number in range(given.doors)]
    clients = {"all": max(given.clients - given.doors, 1), **dict.fromkeys(names, 1)}
    # the share of each socket has places for all clients of a door, and for one that looks
    places = (given.doors + 2) * (clients["all"] + 2)
    server = CountedTenantKeeper(folder, *names, clients=places, workers=given.workers)
    return DoorLoads(server, seed, good, clients, given.keep)


class InCompactions:
    """Ends every second round by a moment in a compaction of its server, and each other one by the time."""

    MOST = 10

    def __init__(self, server, seed):
        self.server, self.random, self.count = server, random.Random(seed), 0

    def __call__(self, seconds):
        self.count += 1
        if self.count % 2:
            return after(seconds)
        begun, is_late, moment = [], after(self.MOST), self.random.choice((0, 0, 0.005, 0.02, 0.1))

        def is_over():
            if not begun and self.server.is_compacting():
                begun.append(after(moment))
            return is_late() or bool(begun) and begun[0]()

        return is_over


class Kills:
    """The kills of servers, one journal after the other, and what was found."""

    def __init__(self, given):
        self.given, self.began = given, time.monotonic()
        self.good = good_jobs(assemble, given.seed, 40, given.more)
        # what came to the journals that were left behind
        self.past, self.wrong = collections.Counter(), []

    def counts(self, doors):
        """What came to all journals up to now."""
        counts = collections.Counter(kills=doors.loads[0].kills, journals=1, live=doors.server.live, within=doors.server.cut_short)
        counts["jobs"] = jobs(doors)
        for load in doors.loads:
            for name in ("told", "found", "asked_again", "torn", "compactions"):
                counts[name] += getattr(load, name)
        return counts + self.past

    def tell(self, doors):
        counts = self.counts(doors)
        counts.update(bytes=size(doors), time=time.monotonic() - self.began)
        # a count that isn't there is 0
        print("journal_kills: {kills} kills, {told} replies, {jobs} jobs ({found} of them recorded and not told), {asked_again} by a "
              "key again, {torn} torn tails, {compactions} compactions ({live} told by servers that ran, {within} kills within one), "
              "{journals} journals, {bytes} bytes in the last, {time:.0f} s".format_map(counts), flush=True)

    def one_journal(self, folder):
        """Rounds with one journal, until there are kills enough or the journal is too long."""
        seed = self.given.seed + 1_000 * self.past["journals"]
        doors = (many_doors if self.given.doors else OneDoor)(folder, seed, self.given, self.good)
        try:
            for load in doors.loads:
                load.pace = self.given.pace
            doors.loads[0].ending = InCompactions(doors.server, seed) if self.given.compacting else after
            number, is_over = 0, False
            while not is_over and not doors.wrong():
                number += 1
                is_whole = number % WHOLE == 0
                doors.round(self.given.longest, everything=is_whole)
                if is_whole:
                    self.tell(doors)
                is_over = self.counts(doors)["kills"] >= self.given.kills or jobs(doors) > self.given.jobs
            if not doors.wrong():
                doors.audit_all()
        finally:
            doors.server.end()
        self.tell(doors)
        self.past, self.wrong = self.counts(doors), doors.wrong()
        for load in doors.loads:
            load.followed.close()


def jobs(doors):
    """How many jobs the clients know of."""
    return sum(len(tenant.jobs) for load in doors.loads for tenant in load.tenants)


def size(doors):
    """The bytes of all journals."""
    return sum(os.path.getsize(load.server.journal) for load in doors.loads)


def main():
    kills = Kills(words())
    while kills.past["kills"] < kills.given.kills and not kills.wrong:
        with tempfile.TemporaryDirectory(dir=kills.given.folder) as folder:
            kills.one_journal(folder)
    for text in kills.wrong[:20]:
        print(f"journal_kills: {text}", file=sys.stderr)
    return 1 if kills.wrong else 0


if __name__ == "__main__":
    sys.exit(main())
