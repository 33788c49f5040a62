"""Microseconds of the clock for a job from its start to its answer: the filter on one frame, by the library,
by a machine of its own, in a thread and in a process each. The answers are compared first."""

import os

import filters
from filters import SOURCE, frames, lua, object_of
from machines import HERE, OVER_FRAMES, compiled, found, lacks, library, machine, of_clang, table, written
from plot import number

COUNT = 200
BY_CLOCK = "-DCLOCK=CLOCK_MONOTONIC"
# what a job is, by its way
KINDS = {
    "telgovan, held": "a run of a program that was verified before",
    "telgovan, anew": "a program is verified, held, run, let go of",
    "telgovan, a job": "a job of one task is admitted and played",
    "lua, anew": "a state is made, with its text; run; closed",
    "thread": "`pthread_create`, native code, `pthread_join`",
    "fork": "`fork`, native code, `waitpid`",
    "seccomp": "`fork`, strict seccomp, native code, a pipe, `waitpid`",
    "exec": "a program by `posix_spawn`, strict seccomp, two pipes",
}


def own(room):
    """The library's ways."""
    code = of_clang(room, "filter", SOURCE)
    how, source = [OVER_FRAMES, BY_CLOCK], f"{HERE}/telgovan.c"
    return {
        "telgovan, held": [*compiled(room, "held", source, *how, library()), code],
        "telgovan, anew": [*compiled(room, "anew", source, *how, "-DANEW", library()), code],
        "telgovan, a job": [*compiled(room, "job", f"{HERE}/job.c", *how, library()), code],
    }


def of_system(room):
    """A thread or a process each, which is native code."""
    native = object_of(room)
    how = [OVER_FRAMES, BY_CLOCK, native, "-pthread"]
    made = found("threads and processes", room, "processes", f"{HERE}/processes.c", *how)
    if not made:
        return {}
    os.environ["CHILD"] = compiled(room, "child", f"{HERE}/child.c", native)[0]
    ways = ("thread", "fork", "seccomp", "exec")
    return {way: [*made, written(room, way, way)] for way in ways}


def machines(room):
    all_ways = own(room)
    all_ways["lua, anew"] = lua(room, "lua_anew", OVER_FRAMES, BY_CLOCK, "-DANEW")
    return {name: words for name, words in {**all_ways, **of_system(room)}.items() if words}


def measure(room, rounds):
    """The lines of the table, and what is drawn."""
    if lacks("jobs", "clang", "llvm-objcopy"):
        return None
    before, listed, all_ways = machine(), frames(room, COUNT), machines(room)
    passed, _ = filters.compared(all_ways, listed)
    quickest = {name: time / 1000 for name, time in filters.in_turn(all_ways, listed, rounds).items()}
    rows = [[name, number(time), f"{1e6 / time:,.0f}", KINDS[name]] for name, time in quickest.items()]
    of_frames = f"{COUNT} frames, of which {passed} pass"
    head = f"{before}; {of_frames}; the quickest of {rounds} turns; microseconds of the clock."
    columns = ["Way", "µs a job", "jobs a second", "what a job is"]
    return [head, "", *table(columns, rows)], ("µs a job", {"a job": quickest})
