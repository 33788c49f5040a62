"""Jobs: programs, tasks by number, and what a schedule makes of them."""

from collections import deque

from instructions import costs, decode
from machine import Task


class Program:
    """A program that was accepted, with how many bytes it needs."""

    def __init__(self, need, code):
        self.need, self.slots = need, decode(code)
        self.costs = costs(self.slots)

    @property
    def cost(self):
        return self.costs[0]


def no_spawn(task, following, *arguments):
    """What a spawn is answered where there is no program."""
    return 1


def run_alone(program, memory, credit, argument=0):
    """R0, what was used, and the memory after one program ran by itself."""
    task = Task(program, memory, credit, argument)
    while task.alive:
        task.step(no_spawn)
    return task.r0, task.used, bytes(task.part)


class Job:
    """A job under way. Task 0 runs program 0 with all of the credit and of the buffer."""

    def __init__(self, programs, credit, buffer):
        self.programs, self.buffer = programs, bytearray(buffer)
        self.tasks = [Task(programs[0], buffer, credit)]
        self.numbers = {id(programs[n]): n for n in range(len(programs))}

    def answer_to(self, task, following, program, share, cut):
        """What a spawn is answered: 0, or the first reason against it."""
        if program >= len(self.programs):
            return 1
        child, rest = self.programs[program], task.program.costs[following]
        if share < child.cost:
            return 2
        if task.used + rest + share > task.held:
            return 3
        if cut < child.need:
            return 4
        if cut > len(task.part) or len(task.part) - cut < task.program.need:
            return 5
        return 0

    def spawn(self, task, following, program, share, cut, argument):
        answer = self.answer_to(task, following, program, share, cut)
        if answer == 0:
            task.children += 1
            kept = len(task.part) - cut
            place = (*task.place, task.children)
            child = Task(self.programs[program], task.part[kept:], share, argument, task.base + kept, place)
            del task.part[kept:]
            task.held -= share
            self.tasks.append(child)
        return answer

    def step(self, number):
        """Runs one instruction of a task, if there is one of this number that is alive."""
        if number < len(self.tasks) and self.tasks[number].alive:
            self.tasks[number].step(self.spawn)

    def play(self, schedule):
        for number in schedule:
            self.step(number)
        return self

    def finish(self):
        """Runs each task to its end, those spawned last first."""
        waiting = deque(range(len(self.tasks)))
        while waiting:
            number = waiting.pop()
            while self.tasks[number].alive:
                before = len(self.tasks)
                self.step(number)
                waiting.extend(range(before, len(self.tasks)))
        return self

    @property
    def complete(self):
        return not any(task.alive for task in self.tasks)

    def bytes(self):
        """The buffer, with each part where it lies."""
        whole = bytearray(self.buffer)
        for task in self.tasks:
            whole[task.base : task.base + len(task.part)] = task.part
        return bytes(whole)

    def totals(self):
        """What is held, returned, spent and used."""
        alive = [task for task in self.tasks if task.alive]
        ended = [task for task in self.tasks if not task.alive]
        return {
            "held": sum(task.held for task in alive),
            "returned": sum(task.rest for task in ended),
            "spent": sum(task.used for task in ended),
            "used": sum(task.used for task in self.tasks),
        }

    def played(self):
        """What `bpfjobs play` prints of it."""
        return {"buffer": self.bytes().hex(), "complete": self.complete, "ok": True, **self.totals()}

    def task_ends(self):
        """What `bpfjobs run` prints of each task."""
        return [
            {
                "number": number,
                "program": self.numbers[id(task.program)],
                "r0": task.r0,
                "ran": True,
                "rest": task.rest,
                "spent": task.used,
            }
            for number, task in enumerate(self.tasks)
        ]

    def by_place(self):
        """Each task's end by its place."""
        return {"/" + "/".join(map(str, task.place)): task for task in self.tasks}
