"""Pseudo-random jobs whose tasks spawn trees, with what the model says of them."""

import random

from jobs import Job, Program

# What a task notes: its argument, the credit that it is given, and its part's length. So each of
# them has a say in R0, in the arguments of its children and in the buffer.
HEAD = """mov64 r6, r1
mov64 r7, r3
call 2
mul64 r7, 31
add64 r7, r0
call 3
mul64 r7, 31
add64 r7, r0
stxb [r6+0], r7"""
# A spawn, and the note of what it is answered.
SPAWN = """mov64 r1, {program}
mov64 r2, {share}
mov64 r3, {cut}
mov64 r4, r7
add64 r4, {more}
call 1
mul64 r7, 5
add64 r7, r0
stxb [r6+1], r7"""
TAIL = "mov64 r0, r7\nexit"

NEED = 2
MOST_PROGRAMS, MOST_SPAWNS, MOST_TASKS = 7, 4, 200


class Counting(Job):
    """A job that counts what its spawns are answered."""

    def __init__(self, *given):
        super().__init__(*given)
        self.answers = [0] * 6

    def spawn(self, *given):
        answer = super().spawn(*given)
        self.answers[answer] += 1
        return answer


class Tree:
    """A job: its programs, its credit and its buffer, and the model of it once it is over."""

    def __init__(self, programs, credit, buffer):
        self.programs, self.credit, self.buffer = programs, credit, buffer
        made = [Program(need, code) for need, code in programs]
        self.model = Counting(made, credit, buffer).finish()

    def report(self):
        """What is told of it, the tasks in an order that their numbers have no say in."""
        totals = self.model.totals()
        sums = {name: totals[name] for name in ("returned", "spent")}
        tasks = unnumbered(self.model.task_ends())
        return {"buffer": self.model.bytes().hex(), "ok": True, **sums, "tasks": tasks}


def unnumbered(ends):
    """The ends of tasks, which are numbered in order of birth, without these numbers."""
    names = ("program", "r0", "ran", "rest", "spent")
    return sorted(tuple(end[name] for name in names) for end in ends)


def comparable(report):
    """A report as `Tree.report` tells it. It has to number the tasks from 0 on."""
    tasks = report.get("tasks", [])
    if [end["number"] for end in tasks] != list(range(len(tasks))):
        return report
    return {**report, "tasks": unnumbered(tasks)}


class Planter:
    """Makes jobs, by the seed and what assembles a text. A program spawns those behind it, mostly
    with the credit and the bytes that a whole tree takes."""

    def __init__(self, seed, assemble):
        self.random, self.assemble = random.Random(seed), assemble

    def share(self, enough, cost):
        """The credit for a child: enough for its tree, for itself, or too little."""
        kind = self.random.random()
        if kind < 0.9:
            return enough + self.random.randrange(8)
        return self.random.randint(cost, enough) if kind < 0.97 else max(0, cost - 1)

    def cut(self, enough):
        kind = self.random.random()
        if kind < 0.92:
            return enough
        return self.random.randint(NEED, enough) if kind < 0.97 else self.random.randrange(NEED)

    def spawns(self, place, plans):
        """Which programs this one spawns, each with its share and its cut."""
        chosen = []
        for _ in range(self.random.randint(1, MOST_SPAWNS) if place + 1 < len(plans) else 0):
            child = min(place + self.random.choice((1, 1, 1, 2, 3)), len(plans) - 1)
            cost, credit, size, _ = plans[child]
            program = child if self.random.random() < 0.99 else len(plans)
            chosen.append((program, self.share(credit, cost), self.cut(size), child))
        return chosen

    def tree(self):
        count = self.random.randint(1, MOST_PROGRAMS)
        programs, plans = [None] * count, [None] * count
        for place in reversed(range(count)):
            chosen = self.spawns(place, plans)
            while sum(plans[child][3] for *_, child in chosen) >= MOST_TASKS:
                chosen.pop()
            lines = [HEAD]
            for program, share, cut, _ in chosen:
                more = self.random.randrange(1000)
                lines.append(SPAWN.format(program=program, share=share, cut=cut, more=more))
            code = self.assemble("\n".join([*lines, TAIL]))
            cost = Program(NEED, code).cost
            programs[place] = NEED, code
            # a program's cost, the credit and the bytes of its whole tree, and its tasks
            plans[place] = (
                cost,
                cost + sum(share for _, share, _, _ in chosen),
                NEED + sum(cut for _, _, cut, _ in chosen),
                1 + sum(plans[child][3] for *_, child in chosen),
            )
        cost, credit, size, _ = plans[0]
        buffer = self.random.randbytes(max(NEED, self.cut(size)))
        return Tree(programs, self.share(credit, cost) + 1, buffer)
