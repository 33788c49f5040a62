"""Runs tests in several processes at once.

    python3 at_once.py PROCESSES [NAME..]     all tests of this folder, or those of these names

Each test has a process of its own, forked from this one, and so does each class whose tests share
what the class sets up: these begin first. What fails is shown, and at the end how many tests ran,
why others were skipped, and which took longest. Status: 0 where none failed.
"""

import os
import re
import sys
import tempfile
import time
import unittest
from collections import Counter

# How many of the longest tests are told at the end.
TOLD = 5


def cases(suite):
    """Each test of a suite of suites."""
    for one in suite:
        if isinstance(one, unittest.TestSuite):
            yield from cases(one)
        else:
            yield one


def shares(case):
    """Whether the tests of a case's class share what the class sets up."""
    return type(case).setUpClass.__func__ is not unittest.TestCase.setUpClass.__func__


def groups(names):
    """The tests by what runs in one process, those of a class that shares its set-up ahead."""
    loader = unittest.defaultTestLoader
    found = {}
    for case in cases(loader.loadTestsFromNames(names) if names else loader.discover(".")):
        name = case.id()
        found.setdefault(name.rpartition(".")[0] if shares(case) else name, []).append(case)
    return sorted(found.items(), key=lambda group: not shares(group[1][0]))


def run(tests, told):
    """Runs tests in this process, which ends with it."""
    os.dup2(os.open(os.devnull, os.O_RDONLY), 0)
    for end in (1, 2):
        os.dup2(told.fileno(), end)
    done = unittest.TextTestRunner(stream=sys.stderr, verbosity=2).run(unittest.TestSuite(tests))
    sys.stdout.flush()
    sys.stderr.flush()
    os._exit(not done.wasSuccessful())


class Running:
    """The processes that run, and what came of those that have ended."""

    def __init__(self):
        self.processes, self.failed, self.skipped, self.times = {}, [], Counter(), []

    def start(self, name, tests):
        told = tempfile.TemporaryFile()
        sys.stdout.flush()
        process = os.fork()
        if not process:
            run(tests, told)
        self.processes[process] = name, told, time.monotonic()

    def wait(self):
        """Waits for the end of one, and tells it."""
        process, status, used = os.wait4(-1, 0)
        name, told, began = self.processes.pop(process)
        with told:
            told.seek(0)
            text = told.read().decode(errors="replace")
        seconds, processor = time.monotonic() - began, used.ru_utime + used.ru_stime
        self.times.append((seconds, processor, name))
        self.skipped.update(re.findall(r"skipped ['\"](.*)['\"]$", text, re.MULTILINE))
        if status:
            self.failed.append(name)
            print(f"{text}{name}: fails in {seconds:.1f} seconds", flush=True)


def main(processes, names):
    began, running, count = time.monotonic(), Running(), 0
    for name, tests in groups(names):
        if len(running.processes) == processes:
            running.wait()
        running.start(name, tests)
        count += len(tests)
    while running.processes:
        running.wait()
    for seconds, processor, name in sorted(running.times, reverse=True)[:TOLD]:
        print(f"tests: {name} took {seconds:.1f} seconds, {processor:.1f} of a processor")
    for why, times in running.skipped.items():
        print(f"tests: {times} skipped: {why}")
    ran, seconds = count - sum(running.skipped.values()), time.monotonic() - began
    print(f"tests: {ran} of {count} ran in {seconds:.0f} seconds")
    if running.failed or not count:
        sys.exit(f"tests: failures in {', '.join(sorted(running.failed)) or 'no test'}")


if __name__ == "__main__":
    main(int(sys.argv[1]), sys.argv[2:])
