"""The answers of calls, as named tuples."""

# (Their annotations are evaluated, unlike those of other modules, so that help shows the types.)

from typing import NamedTuple, Optional


class Executed(NamedTuple):
    """A run that ended."""

    r0: int
    used: int


Executed.r0.__doc__ = "R0 at the end, of 64 bits"
Executed.used.__doc__ = "what the run used of its credit"


class Asked(NamedTuple):
    """A question, which is a call of a helper of the host's."""

    helper: int
    arguments: tuple[int, ...]


Asked.helper.__doc__ = "the helper's id, 64 to 127"
Asked.arguments.__doc__ = "five numbers of 64 bits, of which those past the helper's own are 0"


class Task(NamedTuple):
    """A task of a job that ended."""

    number: int
    program: int
    argument: int
    given: int
    spent: int
    returned: int
    r0: int


Task.number.__doc__ = "its number, from 0 in the order of the spawns"
Task.program.__doc__ = "its program's place in the job, from 0"
Task.argument.__doc__ = "what its parent gave it, of 64 bits; the root's is 0"
Task.given.__doc__ = "the credit that it was given"
Task.spent.__doc__ = "how much of what it kept it spent"
Task.returned.__doc__ = "how much of what it kept came back"
Task.r0.__doc__ = "R0 at its end, of 64 bits"


class Report(NamedTuple):
    """The result of a job."""

    spent: int
    returned: int
    count: int  # type: ignore[assignment]
    tasks: list[Task]


Report.spent.__doc__ = "the credit that its tasks spent"
Report.returned.__doc__ = "the credit that came back: what they were given and didn't spend"
Report.count.__doc__ = "how many tasks it had"
Report.tasks.__doc__ = "the first of them, in order of their numbers"


class Stepped(NamedTuple):
    """The result of a run of a job's task, and the sums of the job."""

    count: int  # type: ignore[assignment]
    r0: Optional[int]
    is_alive: bool
    tasks: int
    held: int
    returned: int
    spent: int
    used: int
    is_complete: bool


Stepped.count.__doc__ = "how many instructions ran"
Stepped.r0.__doc__ = "R0 where the task has ended, else None"
Stepped.is_alive.__doc__ = "whether the task was alive at all; else nothing ran"
Stepped.tasks.__doc__ = "how many tasks there are"
Stepped.held.__doc__ = "the credit that live tasks hold"
Stepped.returned.__doc__ = "the credit that came back from tasks that ended"
Stepped.spent.__doc__ = "the credit that those spent; the three make what was issued"
Stepped.used.__doc__ = "what all tasks have used so far"
Stepped.is_complete.__doc__ = "whether no task is alive"


class HandedJob(NamedTuple):
    """A job that a desk handed over."""

    number: int
    text: str


HandedJob.number.__doc__ = "its number, from 1"
HandedJob.text.__doc__ = "its object as JSON, which play_text takes"
