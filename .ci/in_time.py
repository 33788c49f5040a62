#!/usr/bin/env python3
"""Times and sizes that depend on the machine, which no test looks at.

    folder=$(./try kept bpfjobs library); BPFJOBS=$folder/bpfjobs TELGOVAN_LIB=$folder .ci/in_time.py [NAME ..]

A line for each of these, or of those that are named:

    descriptor   processor time of a server in which a connection waits for a descriptor
    crowd        the slowest reply to 21 clients at work, beside 21 silent ones and 21 that cut frames
    cycle        the refusal of a long program by its cycle, beside the acceptance of one as long
    syncs        syncs of a journal by `--journal-sync interval`, and the slowest reply meanwhile
    slow_disk    the slowest reply where a sync takes three seconds
    lost         the age of the oldest grant that a kill lost by `--journal-sync interval`
    compaction   the slowest reply while a journal is compacted again and again
    journal      the most bytes of a journal under load, beside twice its last snapshot
    page         203 changes of the step that docs/try.html shows of a long run, in a browser

`docs/measurements/requests.md` has such figures. `syncs` and `slow_disk` take strace, and `page` a
browser. Status: 0.
"""

import json
import os
import re
import resource
import sys
import tempfile
import threading
import time

TOP = os.path.dirname(os.path.dirname(os.path.abspath(__file__)))
sys.path.insert(0, os.path.join(TOP, "tests"))
sys.dont_write_bytecode = True
import browsers  # noqa: E402  (the module stands in the folder that was just added)
from compactions import CountedKeeper  # noqa: E402
from journal_load import Load, after, good_jobs, keep_busy  # noqa: E402
from journals import Keeper, book_of, kill_traced, read  # noqa: E402
from programs import Server, assemble, frame, submit_text  # noqa: E402
from test_clients import Client, Worker, files_of  # noqa: E402
from test_cycles import long_programs, verdict  # noqa: E402
from test_web import LONG_SOURCE, LONG_WAY, PAGE  # noqa: E402

ACCOUNT = {"op": "account", "tenant": "t"}
GRANT = {"op": "grant", "tenant": "t", "amount": 1}
INTERVAL = "--journal-sync", "interval"
SECONDS = 5
ROUNDS = 20
LARGE = 65_536


def processor_time(server):
    """The seconds of a processor that a server's process has used."""
    with open(f"/proc/{server.process.pid}/stat", encoding="ascii") as file:
        fields = file.read().rpartition(")")[2].split()
    return (int(fields[11]) + int(fields[12])) / os.sysconf("SC_CLK_TCK")


def slowest(client, is_over, request):
    """The milliseconds of the slowest reply until something is over, and how many came."""
    longest, count = 0.0, 0
    while not is_over():
        began = time.monotonic()
        client.ask(request)
        longest, count = max(longest, time.monotonic() - began), count + 1
    return 1000 * longest, count


def descriptor():
    with Server(more=["--clients", 4]) as server:
        first = Client(server)
        first.ask(ACCOUNT)
        limit = files_of(server)
        resource.prlimit(server.process.pid, resource.RLIMIT_NOFILE, (limit, limit))
        waiting, before = Client(server), processor_time(server)
        time.sleep(SECONDS)
        used, is_answered = processor_time(server) - before, waiting.is_answered()
    return f"{1000 * used / SECONDS:.0f} ms a second, {'' if is_answered else 'un'}answered"


def crowd():
    with Server(workers=4, more=("--clients", 64)) as server:
        Client(server).ask(ACCOUNT)
        silent, is_over = [server.connect() for _ in range(21)], threading.Event()

        def cut():
            while not is_over.is_set():
                with server.connect() as stream:
                    stream.sendall(frame('{"op":"account","tenant":"t"}')[:-5])

        asking, working = Client(server), [Worker(server, f"tenant{number}", 200) for number in range(20)]
        threads = [*working, *(threading.Thread(target=cut) for _ in silent)]
        for thread in threads:
            thread.start()
        told, count = slowest(asking, lambda: not any(thread.is_alive() for thread in working), ACCOUNT)
        is_over.set()
        for thread in threads:
            thread.join()
        for stream in silent:
            stream.close()
    return f"{told:.1f} ms of {count} replies"


def cycle():
    times = []
    for code in long_programs():
        began = [time.perf_counter()]
        for _ in range(ROUNDS):
            verdict(code)
            began.append(time.perf_counter())
        times.append(1e6 * min(later - first for first, later in zip(began, began[1:])))
    return f"{times[1]:.0f} microseconds, accepted in {times[0]:.0f}"


def traced(work, *strace):
    """What some work at a server comes to that syncs at intervals, and the seconds of its syncs."""
    with tempfile.TemporaryDirectory() as room:
        server, told = Keeper(room, *INTERVAL), os.path.join(room, "calls")
        server.start(ahead=["strace", "-f", "-ttt", "-qq", "-o", told, "-e", "trace=fdatasync", *strace])
        with server.connect() as client:
            done = work(client)
        kill_traced(server.process)
        with open(told, encoding="utf-8") as file:
            return done, [float(second) for second in re.findall(r"^\d+ +([\d.]+) fdatasync\(", file.read(), re.MULTILINE)]


def syncs():
    (told, count), moments = traced(lambda client: slowest(client, after(SECONDS), GRANT))
    between = [later - first for first, later in zip(moments, moments[1:])]
    return f"{len(moments)} in {SECONDS} s, {min(between):.2f} to {max(between):.2f} s between two; {told:.1f} ms of {count} replies"


def slow_disk():
    (told, count), _ = traced(lambda client: slowest(client, after(SECONDS), GRANT), "-e", "inject=fdatasync:delay_enter=3000000")
    return f"{told:.1f} ms of {count} replies"


def lost():
    ages = []
    with tempfile.TemporaryDirectory() as room:
        server = Keeper(room, *INTERVAL)
        for number in range(ROUNDS):
            server.start()
            amount, moments, is_over = 0, [], after(number * 2.5 / ROUNDS)
            with server.connect() as client:
                while not moments or not is_over():
                    amount = client.ask(GRANT)["granted"]
                    moments.append((amount, time.monotonic()))
            server.kill()
            end, kept = time.monotonic(), book_of(read(server.journal)).granted.get("t", 0)
            ages.append(max((end - moment for amount, moment in moments if amount > kept), default=0))
    return f"{max(ages):.2f} s of {ROUNDS} kills"


def compaction():
    with tempfile.TemporaryDirectory() as room:
        server = CountedKeeper(room, "--keep", 2)
        server.start()
        with server.connect() as client, server.connect() as other:
            client.ask({**GRANT, "amount": 1_000_000})
            job = 0

            def is_over():
                return len(server.compacted()) >= 3

            def fill():
                nonlocal job
                while not is_over():
                    job += 1
                    client.ask(submit_text([(0, assemble("mov64 r0, 0\nexit"))], 2, os.urandom(LARGE)))
                    client.over(job)

            filling = threading.Thread(target=fill)
            filling.start()
            told, count = slowest(other, is_over, GRANT)
            filling.join()
        compactions = len(server.compacted())
        server.end()
    return f"{told:.1f} ms of {count} replies, {compactions} compactions"


def journal():
    with tempfile.TemporaryDirectory() as room:
        load, sizes, is_late = Load(room, 5, good_jobs(assemble, 5, more=8192), keep=50, keeper=CountedKeeper), [], after(SECONDS)

        def is_over():
            sizes.append(os.path.getsize(load.server.journal))
            return is_late()

        load.server.start()
        with load.server.connect() as client:
            load.audit(client)
        told = []
        keep_busy([load], is_over, lambda: (told.extend(load.server.compacted()), load.kill()))
        load.end()
    return f"{max(sizes)} bytes, {2 * told[-1][2] if told else 0} are twice the last snapshot of {len(told)}"


def page():
    if not browsers.chosen():
        return "needs Debian's chromium or firefox-esr"
    tab = browsers.opened()
    try:
        tab.load(PAGE.resolve().as_uri())
        tab.evaluate(f"show({json.dumps(LONG_SOURCE)}, {{}}); do_run()")
        began = time.monotonic()
        tab.evaluate(LONG_WAY)
        return f"{time.monotonic() - began:.1f} s in {browsers.chosen()}"
    finally:
        tab.close()


MEASURES = [descriptor, crowd, cycle, syncs, slow_disk, lost, compaction, journal, page]


def main(names):
    known = {measure.__name__: measure for measure in MEASURES}
    if not set(names) <= set(known):
        sys.exit(__doc__)
    for name in names or known:
        print(f"{name}: {known[name]()}", flush=True)


if __name__ == "__main__":
    main(sys.argv[1:])
