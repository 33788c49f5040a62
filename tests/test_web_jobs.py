"""The page's view of a job, in a browser: its tasks, its credit and its buffer at each step, by the model of a job.

It wants what `test_web` wants."""

import json
import os
import random
import re
import unittest

from jobs import Job, Program
from programs import assemble
from test_steps import drawn_job, value_text
from test_web import InBrowser, advice_of
from trees import Planter

JOBS = int(os.environ.get("TELGOVAN_JOBS", "1000"))
TREES = JOBS // 10
MOST_TASKS = 60  # of a tree that is tried
REASONS = {1: "there is no such program", 2: "the share is under the child's cost",
           3: "too little credit is left for the rest of the parent's run", 4: "too few bytes for the child",
           5: "too few bytes are left for the parent"}

# What a script makes of a task, of a job's sums, and of a whole job where it stands.
READ = """
const task_read = (run, task) => [task.number, task.parent, task.place.join("/"), task.program, task.argument, task.given,
    task.held, task.used, task.base, task.size, task.r0, task.refused, task.r0 === null ? run.next_of(task).slot : null,
    ...task.registers];
const sums_read = ({ sums, is_complete }) => [sums.held, sums.returned, sums.spent, sums.used, is_complete];
const run_read = (run) => [run.at, sums_read(run), run.tasks.map((task) => [...task_read(run, task), hex_of(task.stack)]),
    hex_of(run.buffer)];
const job_given = ([programs, credit, buffer]) => ({ credit, buffer: bytes_of(buffer),
    programs: programs.map(([need, code]) => ({ need, code: bytes_of(code) })) });
"""


class Shown(Job):
    """A model that keeps the parent of each task and why its last spawn was refused, as the page shows them."""

    def __init__(self, *given):
        super().__init__(*given)
        self.parents, self.refused, self.schedule = {0: None}, {}, []

    def step(self, number):
        if number >= len(self.tasks) or not self.tasks[number].alive:
            return None
        task, count = self.tasks[number], len(self.tasks)
        instruction = task.program.slots[task.slot]
        super().step(number)
        self.schedule.append(number)
        is_spawn = instruction.name == "call" and instruction.imm == 1
        self.refused[number] = task.registers[0] if is_spawn and len(self.tasks) == count else None
        if len(self.tasks) > count:
            self.parents[count] = number
        return [number, *range(count, len(self.tasks))]

    def told_task(self, number):
        task = self.tasks[number]
        place = "/".join(map(str, task.place))
        r0 = None if task.alive else str(task.r0)
        return [number, self.parents[number], place, self.numbers[id(task.program)], str(task.argument), task.given,
                task.held, task.used, task.base, len(task.part), r0, self.refused.get(number),
                task.slot if task.alive else None, *map(value_text, task.registers)]

    def told_sums(self):
        totals = self.totals()
        return [*(totals[name] for name in ("held", "returned", "spent", "used")), self.complete]

    def told(self):
        tasks = [[*self.told_task(number), bytes(task.stack).hex()] for number, task in enumerate(self.tasks)]
        return [len(self.schedule), self.told_sums(), tasks, self.bytes().hex()]

    def told_step(self, touched):
        return [touched[0], self.told_sums(), [self.told_task(number) for number in touched], self.bytes().hex()]

    def answer(self):
        r0s = sorted(f"{place} {task.r0}" for place, task in self.by_place().items())
        totals = self.totals()
        return [str(self.tasks[0].r0), totals["spent"], totals["returned"], self.bytes().hex(), r0s]


def modelled(programs, credit, buffer):
    return Shown([Program(need, code) for need, code in programs], credit, buffer)


def given(programs, credit, buffer):
    """A job as a script takes it."""
    return [[[need, code.hex()] for need, code in programs], credit, buffer.hex()]


class InJob(InBrowser):
    """The view of a job, opened at its first example."""

    def setUp(self):
        super().setUp()
        self.click("tab_job")

    def choose_job(self, name):
        script = """(() => {
            const list = document.getElementById("job_examples");
            list.value = [...list.options].find((one) => one.text === NAME).value;
            list.dispatchEvent(new Event("change"));
        })()"""
        self.tab.evaluate(script.replace("NAME", json.dumps(name)))

    def verdict(self):
        return self.text("job_verdict")

    def shown_job(self):
        """The model of what is typed, at its start."""
        script = "[job_run.job.programs.map((one) => [one.need, hex_of(one.code)]), job_run.job.credit, hex_of(job_run.job.buffer)]"
        programs, credit, buffer = self.tab.evaluate(script)
        return modelled([(need, bytes.fromhex(code)) for need, code in programs], credit, bytes.fromhex(buffer))

    def state(self):
        return self.tab.evaluate(f"(() => {{ {READ} return run_read(job_run); }})()")

    def rows(self):
        """The tree as it is read: each row's number, level and text."""
        script = """[...document.querySelectorAll("#job_tree [role=treeitem]")].map((one) =>
            [Number(one.dataset.number), Number(one.ariaLevel), [...one.querySelectorAll(".name, .state, .used, .part")]
                .map((part) => part.textContent.trim()).join(" | ")])"""
        return self.tab.evaluate(script)

    def type_job(self, programs, credit, buffer):
        """Gives the view a job, as an example does."""
        job = {"programs": [{"need": str(need), "source": source} for need, source in programs],
               "credit": str(credit), "buffer": buffer}
        self.tab.evaluate(f"show_job({json.dumps(job)}); do_start()")


class Steps(InJob):
    def agree(self, model):
        """What stands on the page is what the model says."""
        self.assertEqual(self.state(), model.told())
        totals = model.totals()
        sums = dict(zip(*[iter(self.tab.evaluate("[...document.querySelectorAll('#job_sums > *')].map((one) => one.textContent)"))] * 2))
        issued = str(model.tasks[0].given)
        self.assertEqual(sums, {**{name: str(totals[name]) for name in ("held", "returned", "spent")}, "issued": issued})
        self.assertEqual(sum(map(int, sums.values())), 2 * int(issued))
        wanted = {number: self.row(model, task) for number, task in enumerate(model.tasks)}
        rows = self.rows()
        self.assertEqual({number: (level, text) for number, level, text in rows}, wanted)
        self.assertEqual([number for number, *_ in rows], sorted(wanted, key=lambda number: model.tasks[number].place))

    def row(self, model, task):
        """A row of the tree: its level, and its text but for the next instruction's."""
        number = model.tasks.index(task)
        place, program = "/" + "/".join(map(str, task.place)), model.numbers[id(task.program)]
        size = len(task.part)
        part = f"bytes {task.base} to {task.base + size - 1}" if size else "no bytes"
        state, used = f"ended with R0 {task.r0}", f"spent {task.used}, returned {task.rest}"
        if task.alive:
            text = self.tab.evaluate(f"job_run.next_of(job_run.tasks[{number}]).insn")
            state, used = f"next: slot {task.slot}: {text}", f"used {task.used} of {task.held} held"
        return len(task.place) + 1, f"task {number} {place} | program {program}, {state} | {used} | {part}"

    def test_forth_and_back(self):
        for name in ("a spawn", "spawns that are refused"):
            self.choose_job(name)
            model = self.shown_job()
            states = [model.told()]
            self.agree(model)
            while not model.complete:
                self.click("job_forth")
                model.step(self.tab.evaluate("job_run.schedule.at(-1)"))
                states.append(model.told())
                self.agree(model)
            self.click("job_forth")
            for state in states[:0:-1]:
                self.assertEqual(self.state(), state)
                self.click("job_back")
            self.assertEqual(self.state(), states[0])
            self.click("job_last")
            self.assertEqual(self.state(), states[-1])
            self.click("job_first")
            self.assertEqual(self.state(), states[0])
            self.fill(job_at="5")
            self.assertEqual(self.state(), states[5])

    def test_any_live_task_is_stepped(self):
        self.choose_job("a sum by eight tasks")
        model, chance = self.shown_job(), random.Random(5)
        for turn in range(150):
            number = chance.choice([number for number, task in enumerate(model.tasks) if task.alive])
            model.step(number)
            way = turn % 4
            if way == 0:
                self.tab.evaluate(f"document.querySelector('#task_{number} .go').click()")
            elif way == 1:
                self.tab.evaluate(f"document.getElementById('task_{number}').click()")
                self.tab.press("Enter", 0, 13)
            elif way == 2:
                self.tab.evaluate(f"document.getElementById('task_{number}').click()")
                self.click("job_one")
            else:
                self.tab.evaluate("document.getElementById('job_stepper').focus()")
                self.tab.press(str(number), 0, 48 + number, str(number))
            if turn % 10 == 0 or model.complete:
                self.agree(model)
            self.assertEqual(self.tab.evaluate("job_run.schedule"), model.schedule)
            if model.complete:
                break
        self.assertTrue(model.complete)
        # (a task that has ended stays as it is)
        self.tab.evaluate("document.getElementById('task_3').click()")
        self.tab.press("Enter", 0, 13)
        self.assertEqual(self.text("job_told"), "task 3 has ended")
        self.agree(model)

    def test_orders(self):
        self.choose_job("a sum by eight tasks")
        model = self.shown_job()
        self.click("job_all")
        self.agree(model.play(self.tab.evaluate("job_run.schedule")))
        # in turn: each live task once, ahead of the next round
        self.assertEqual(model.schedule[11:17], [0, 1, 0, 1, 0, 1])
        schedules = []
        for seed in ("7", "8", "7"):
            self.click("job_first")
            self.choose_order("random", job_seed=seed)
            self.click("job_all")
            schedules.append(self.tab.evaluate("job_run.schedule"))
            self.agree(self.shown_job().play(schedules[-1]))
        self.assertEqual(schedules[0], schedules[2])
        self.assertNotEqual(schedules[0], schedules[1])
        self.choose_order("schedule", job_schedule="0*13 1 0 1*3 9*5 0")
        self.click("job_all")
        self.agree(self.shown_job().play([0] * 13 + [1, 0, 1, 1, 1, 0]))
        self.assertTrue(self.is_hidden("job_answer"))

    def choose_order(self, name, **fields):
        self.tab.evaluate(f"(() => {{ const list = document.getElementById('job_order'); list.value = '{name}'; "
                          "list.dispatchEvent(new Event('change')); })()")
        self.fill(**fields)

    def test_an_order_that_says_no_numbers(self):
        """It is told, and the job stays where it is."""
        for _ in range(3):
            self.click("job_forth")
        state = self.state()
        for order, field, text, told, buttons in (
                ("schedule", "job_schedule", "0 x", "schedule: numbers of tasks, as 0*9 1, and not x", ["job_all"]),
                ("schedule", "job_schedule", "0*20001", "schedule: over 20000 entries", ["job_all"]),
                ("random", "job_seed", "-1", "seed: a number from 0 to 4294967295", ["job_all", "job_forth"])):
            self.choose_order(order, **{field: text})
            for button in buttons:
                self.tab.evaluate("job_told.textContent = ''")
                self.click(button)
                self.assertEqual((self.text("job_told"), self.state()), (told, state))

    def test_another_way_from_a_step_back(self):
        self.choose_job("a sum by eight tasks")
        model = self.shown_job()
        self.click("job_all")
        self.tab.evaluate("go_in_job(40)")
        kept = self.tab.evaluate("job_run.schedule.slice(0, 40)")
        model.play(kept)
        number = max(number for number, task in enumerate(model.tasks) if task.alive)
        self.tab.evaluate(f"document.querySelector('#task_{number} .go').click()")
        self.agree(model.play([number]))
        self.assertEqual(self.tab.evaluate("job_run.schedule"), [*kept, number])

    def test_why_a_spawn_is_refused(self):
        self.choose_job("spawns that are refused")
        model, told = self.shown_job(), []
        while not model.complete:
            self.click("job_forth")
            model.step(self.tab.evaluate("job_run.schedule.at(-1)"))
            if "refused" in self.text("job_told"):
                told.append(self.text("job_told").split("; ")[1])
            if len(told) == 3:
                self.picture("job_refused_spawn")
        self.assertEqual(told, [f"the spawn is refused, {number}: {why}" for number, why in REASONS.items()])
        self.assertEqual(model.bytes()[:6], bytes([1, 2, 3, 4, 5, 0]))

    def test_what_is_told_of_a_step(self):
        told = []
        for _ in range(6):
            self.click("job_forth")
            told.append(self.text("job_told"))
        self.assertEqual(told[5], "step 6: task 0, slot 5: call 1; spawns task 1 of program 1, with 10 of the credit, argument 9 and 4 bytes")
        self.click("job_all")
        self.assertTrue(self.text("job_told").endswith("; no task is alive"))
        self.picture("job_over")

    def test_bars_and_ranges(self):
        """The bars have the lengths that the numbers say."""
        self.choose_job("a sum by eight tasks")
        self.tab.evaluate("go_in_job(0); job_run.run_on(ORDERS.random(3), 70); show_run()")
        model = self.shown_job().play(self.tab.evaluate("job_run.schedule"))
        self.agree(model)
        widths = """(() => {
            const wide = (one) => one.getBoundingClientRect().width;
            const bar = document.getElementById("job_bar"), map = document.getElementById("job_map");
            const inner = (room) => wide(room) - 2;
            return [[...bar.children].map((one) => wide(one) / inner(bar)),
                [...map.children].map((one) => [Number(one.textContent), (one.getBoundingClientRect().left - map.getBoundingClientRect().left - 1) / inner(map), wide(one) / inner(map)])];
        })()"""
        sums, ranges = self.tab.evaluate(widths)
        totals, issued, size = model.totals(), model.tasks[0].given, len(model.buffer)
        for found, name in zip(sums, ("held", "returned", "spent")):
            self.assertAlmostEqual(found, totals[name] / issued, delta=0.01)
        self.assertEqual(len(ranges), len(model.tasks))
        for number, left, width in ranges:
            task = model.tasks[number]
            self.assertAlmostEqual(left, task.base / size, delta=0.01)
            self.assertAlmostEqual(width, len(task.part) / size, delta=0.01)
        for number, task in enumerate(model.tasks):
            found = self.tab.evaluate(f"(() => {{ const bar = document.querySelector('#task_{number} .credit'), used = bar.firstChild; "
                                      "return [used, bar].map((one) => one.getBoundingClientRect().width); })()")
            self.assertAlmostEqual(found[0] / found[1], task.used / task.given, delta=0.05)
        self.picture("job_tree")
        self.tab.colours("dark")
        self.picture("job_tree_dark")

    def test_registers_and_bytes(self):
        self.choose_job("a spawn")
        for _ in range(7):
            self.click("job_forth")
        shown = self.tab.evaluate("[...document.getElementById('job_registers').children].map((one) => one.textContent.slice(4).trim())")
        self.assertEqual(shown, ["unset", "part+0", "4", "9", *["unset"] * 6, "stack+512"])
        self.assertEqual((self.text("job_part"), self.marks("job_part")), ("0004  09 00 00 00\n", ["09"]))
        self.tab.evaluate("document.getElementById('task_0').click()")
        self.assertEqual(self.text("job_task_name"), "Task 0")
        self.assertEqual((self.text("job_part"), self.marks("job_part")), ("0000  00 00 00 00\n", []))

    def test_a_long_job(self):
        """More steps than are shown: 1 + 150 + 150 * 150 tasks, of two instructions and more."""
        spawns = "mov64 r1, {}\nmov64 r2, {}\nmov64 r3, 0\nmov64 r4, 0\ncall 1\n" * 150 + "mov64 r0, 0\nexit\n"
        self.type_job([(0, spawns.format(*[1, 3302] * 150)), (0, spawns.format(*[2, 2] * 150)), (0, "mov64 r0, 0\nexit\n")], 600000, "")
        self.assertTrue(self.verdict().startswith("admitted"), self.verdict())
        self.click("job_all")
        self.assertEqual(self.text("job_told"), "stopped after 20000 steps, which is as many as are shown")
        self.assertTrue(self.is_hidden("job_answer"))
        self.assertIn("not drawn", self.text("job_tree_facts"))
        self.tab.evaluate("for (let n = 0; n < 20; n++) go_in_job(job_run.at - 1)")
        self.assertEqual(self.tab.evaluate("job_run.at"), 19980)


class Answers(InJob):
    def answers(self):
        return self.tab.evaluate("[...document.querySelectorAll('#job_answers tbody tr')].map((one) => [...one.children].map((cell) => cell.textContent))")

    def test_the_answer_of_each_schedule(self):
        for name in ("a spawn", "a sum by eight tasks", "spawns that are refused"):
            self.choose_job(name)
            self.assertTrue(self.is_hidden("job_answer"))
            self.click("job_all")
            model = self.shown_job().finish()
            shown, *others = self.answers()
            totals = model.totals()
            told = [str(model.tasks[0].r0), str(totals["spent"]), str(totals["returned"]), str(len(model.tasks))]
            self.assertEqual(shown[2:6], told)
            self.assertTrue(model.bytes().hex().startswith(shown[6].removesuffix("..")))
            self.assertEqual(shown[7], "shown")
            self.assertEqual(len(others), 4)
            for other in others:
                self.assertEqual(other[2:], [*shown[2:7], "the same"])
            self.assertEqual(self.text("job_same"), "Each of these schedules comes to the same answer.")

    def test_another_answer_would_be_told(self):
        self.tab.evaluate("globalThis.kept = is_same_answer; is_same_answer = (one, other) => one === other; 0")
        self.click("job_all")
        self.tab.evaluate("is_same_answer = globalThis.kept; 0")
        self.assertEqual([row[7] for row in self.answers()], ["shown", *["another answer"] * 4])
        self.assertEqual(self.text("job_same"), "Not every schedule here came to this answer.")


class Marks(InJob):
    """Which row is marked, and what stands beside it: the panel of its task, and its line in the sources."""

    MARKED = """[...document.querySelectorAll("#job_tree [role=treeitem]")].filter((one) =>
        getComputedStyle(one).backgroundColor !== "rgba(0, 0, 0, 0)").map((one) => Number(one.dataset.number))"""
    # the lines that are marked, by program, and the line behind which a band is drawn
    LINES = """[...document.querySelectorAll("#job_programs fieldset")].map((box) => [
        [...box.querySelectorAll(".lines .NAME")].map((one) => Number(one.textContent)),
        (parseFloat(getComputedStyle(box.querySelector("textarea")).getPropertyValue("--NAME-at")) - 8) / 20 + 1 || null])"""

    def shown(self):
        """The rows that are marked, the task of the panel, and those that say that they made the last step."""
        last = """[...document.querySelectorAll("#job_tree .last")].filter((one) => one.checkVisibility())
            .map((one) => Number(one.closest("li").dataset.number))"""
        return self.tab.evaluate(self.MARKED), self.text("job_task_name"), self.tab.evaluate(last)

    def lines(self, name="now"):
        return self.tab.evaluate(self.LINES.replace("NAME", name))

    def line_of(self, source, slot):
        """The line of an instruction of one slot each."""
        lines = [number for number, text in enumerate(source.split("\n"), 1) if text.split(";")[0].strip()]
        return lines[slot]

    def test_the_panel_is_of_the_marked_row(self):
        self.choose_job("a sum by eight tasks")
        self.assertEqual(self.shown(), ([0], "Task 0", []))
        for _ in range(40):
            self.click("job_forth")
            number = self.tab.evaluate("job_run.step.task")
            self.assertEqual(self.shown(), ([number], f"Task {number}", [number]))
        self.tab.evaluate("document.getElementById('task_1').click()")
        number = self.tab.evaluate("job_run.step.task")
        self.assertEqual(self.shown(), ([1], "Task 1", [number]))
        self.click("job_all")
        number = self.tab.evaluate("job_run.step.task")
        self.assertNotEqual(number, 0)
        self.assertEqual(self.shown(), ([number], f"Task {number}", [number]))
        self.tab.evaluate(f"document.getElementById('task_{number}').focus()")
        self.tab.press("Home", 0, 36)
        self.assertEqual(self.shown(), ([0], "Task 0", [number]))
        self.click("job_first")
        self.assertEqual(self.shown(), ([0], "Task 0", []))

    def test_the_marked_row_can_be_seen(self):
        self.choose_job("a sum by eight tasks")
        self.click("job_all")
        seen = """(() => { const room = document.getElementById("job_tree").getBoundingClientRect();
            const row = document.querySelector("#job_tree [aria-selected=true]").getBoundingClientRect();
            return row.top >= room.top - 1 && row.bottom <= room.bottom + 1; })()"""
        for number in range(8):
            self.tab.evaluate(f"choose_task({number})")
            self.assertTrue(self.tab.evaluate(seen), number)

    def test_what_an_ended_task_returned_is_green(self):
        """Its bar has the colours that the job's sums have: spent, and returned in place of held."""
        self.choose_job("a sum by eight tasks")
        colours = """(() => { const colour = (one) => getComputedStyle(document.querySelector(one)).backgroundColor;
            const bar = getComputedStyle(document.querySelector("#task_NUMBER .credit"));
            const kept = document.querySelector("#task_NUMBER .credit").style.getPropertyValue("--kept");
            return [bar.backgroundImage.match(/rgb[^)]*\\)/g)[0], ...["held", "returned", "spent"].map((name) => colour(`#job_bar .${name}`)),
                colour("#task_NUMBER .credit i"), colour("#task_NUMBER .range i"), parseFloat(kept)]; })()"""
        for scheme in ("light", "dark"):
            self.tab.colours(scheme)
            self.click("job_start")
            bar, held, _, spent, used, _, _ = self.tab.evaluate(colours.replace("NUMBER", "0"))
            self.assertEqual((bar, used), (held, spent))
            self.click("job_all")
            for number, task in enumerate(self.shown_job().play(self.tab.evaluate("job_run.schedule")).tasks):
                bar, held, returned, spent, used, part, kept = self.tab.evaluate(colours.replace("NUMBER", str(number)))
                self.assertEqual((bar, used), (returned, spent))
                self.assertNotIn(part, (held, returned, spent))
                self.assertAlmostEqual(kept, 100 * task.held / task.given, delta=0.1)
            green, blue = (list(map(int, re.findall(r"\d+", colour))) for colour in (returned, held))
            self.assertEqual((green.index(max(green)), blue.index(max(blue))), (1, 2))

    def test_the_sources_have_numbered_lines(self):
        for name in ("a spawn", "spawns that are refused"):
            self.choose_job(name)
            sources = self.tab.evaluate("[...document.querySelectorAll('.job_source')].map((one) => one.value)")
            numbers = """[...document.querySelectorAll("#job_programs .lines")].map((one) =>
                [...one.children].map((line) => Number(line.textContent)))"""
            self.assertEqual(self.tab.evaluate(numbers), [[*range(1, source.count("\n") + 1)] for source in sources])
            # (each number stands beside its line)
            tops = """[...document.querySelectorAll("#job_programs fieldset")].flatMap((box) => {
                const field = box.querySelector("textarea");
                const top = field.getBoundingClientRect().top + parseFloat(getComputedStyle(field).paddingTop);
                return [...box.querySelectorAll(".lines span")]
                    .map((one, place) => Math.abs(one.getBoundingClientRect().top - top - 20 * place));
            })"""
            self.assertLess(max(self.tab.evaluate(tops)), 2)

    def test_numbers_follow_what_is_typed(self):
        typed = """(() => { const field = document.querySelectorAll(".job_source")[1];
            field.value = "mov64 r0, 0\\n\\n\\nexit\\n"; field.dispatchEvent(new Event("input"));
            return document.querySelectorAll("#job_programs .lines")[1].children.length; })()"""
        self.assertEqual(self.tab.evaluate(typed), 4)

    def test_the_current_line(self):
        """It is where the task of the marked row stands; no other is marked."""
        for name in ("a spawn", "spawns that are refused"):
            self.choose_job(name)
            sources = self.tab.evaluate("[...document.querySelectorAll('.job_source')].map((one) => one.value)")
            is_over = False
            while not is_over:
                is_over, program, slot, number = self.tab.evaluate("""(() => { const task = job_run.tasks[chosen];
                    const { slot } = task.r0 === null ? job_run.next_of(task) : task.last;
                    return [job_run.is_complete, task.program, slot, chosen]; })()""")
                line = self.line_of(sources[program], slot)
                self.assertEqual(self.lines(), [[[line], line] if place == program else [[], None] for place in range(len(sources))])
                told = self.tab.evaluate("[...document.querySelectorAll('.line_told')].map((one) => one.textContent)")
                self.assertIn(told[program], (f"Task {number} is at line {line}.", f"Task {number} ended at line {line}."))
                self.assertEqual([one for one in told if one], [told[program]])
                self.click("job_forth")
        self.tab.evaluate("choose_task(1)")
        self.assertEqual(self.lines(), [[[], None], [[4], 4]])

    def test_the_current_line_can_be_seen(self):
        self.choose_job("spawns that are refused")
        seen = """(() => { const line = document.querySelector("#job_programs .now").getBoundingClientRect();
            const room = document.querySelector("#job_programs .now").closest(".source").getBoundingClientRect();
            return line.top >= room.top && line.bottom <= room.bottom; })()"""
        while not self.tab.evaluate("job_run.is_complete"):
            self.click("job_forth")
            self.assertTrue(self.tab.evaluate(seen))

    def test_a_refused_line(self):
        answer = "mov64 r0, 0\nexit\n"
        for source, line in (("; one\nmov65 r0, 0\n", 2), ("; one\n\nldxb r0, [r1+9]\nexit\n", 3)):
            self.type_job([(0, answer), (0, source)], 9, "")
            self.assertTrue(self.verdict().startswith("program 1: refused "), self.verdict())
            self.assertEqual(self.lines("bad"), [[[], None], [[line], line]])
        self.type_job([(0, answer), (0, answer)], 9, "")
        self.assertEqual(self.lines("bad"), [[[], None], [[], None]])


class Verdicts(InJob):
    def test_each_example_has_its_verdict(self):
        names = self.tab.evaluate("JOB_EXAMPLES.map((one) => one.name)")
        self.assertGreaterEqual(len(names), 5)
        for name in names:
            with self.subTest(name):
                self.choose_job(name)
                self.assertEqual(self.verdict().startswith("admitted"), not name.startswith("refused"), self.verdict())
                self.assertEqual(self.is_hidden("job_run"), name.startswith("refused"))

    def test_refusals(self):
        answer = "mov64 r0, 0\nexit\n"
        for programs, credit, buffer, told in (
                ([(0, answer)], 1, "", "refused 63: the credit is under the cost of the root"),
                ([(1, answer)], 2, "", "refused 64: the buffer is shorter than the need of the root"),
                ([(0, answer)], 2**31, "", "refused 65: a length or a credit is over its limit, or a room is too short"),
                ([(0, answer)], 2, "00*65537", "refused 65: a length or a credit is over its limit, or a room is too short"),
                ([(0, answer), (0, "mov65 r0, 0\n")], 2, "", "program 1: refused 11 in line 1: no instruction has this word"),
                ([(0, answer), (0, "mov64 r0, 0\n")], 2, "", "program 1: refused 24: "),
                ([(0, answer), ("x", answer)], 2, "", "program 1: the need is a number from 0 to 4294967295"),
                ([(0, answer), (65537, answer)], 2, "", "program 1: refused 38"),
                ([(0, answer)], "x", "", "credit: a number from 0 to 4294967295"),
                ([(0, answer)], 2, "123", "buffer: pairs of hexadecimal digits, and not 123")):
            with self.subTest(told):
                self.type_job(programs, credit, buffer)
                self.assertTrue(self.verdict().startswith(told), self.verdict())
                self.assertTrue(self.is_hidden("job_run"))

    def test_what_to_change(self):
        answer = "mov64 r0, 0\nexit\n"
        for programs, credit, buffer, told in (
                ([(0, answer)], 1, "", "Give the job a credit of at least 2."),
                ([(1, answer)], 2, "", "Give the job a buffer of at least 1 byte."),
                ([(0, answer)], 2**31, "", "Take a credit of at most 2,147,483,647, and a buffer of at most 65,536 bytes."),
                ([(0, answer), (0, "mov65 r0, 0\n")], 2, "", advice_of(11)),
                ([(0, answer), (0, "mov64 r0, 0\n")], 2, "", advice_of(24)),
                ([(0, answer), (3, "ldxb r0, [r1+4]\nexit\n")], 2, "", "To have it accepted, change the need of program 1 from 3 to 5."),
                ([(0, answer), (65537, answer)], 2, "", "To have it accepted, change the need of program 1 from 65537 to 65536.")):
            with self.subTest(told):
                self.type_job(programs, credit, buffer)
                self.assertTrue(self.text("job_mend").startswith(told), self.text("job_mend"))
                self.assertFalse(self.is_hidden("job_mend"))
        self.type_job([(0, answer)], 2, "")
        self.assertTrue(self.is_hidden("job_mend"))

    def test_what_is_typed_is_admitted(self):
        self.fill(job_credit="23")
        self.tab.wait_for("document.getElementById('job_verdict').textContent.startsWith('refused 63')")
        self.fill(job_credit="34")
        self.tab.wait_for("document.getElementById('job_verdict').textContent.startsWith('admitted')")

    def test_sixteen_programs(self):
        for count in range(3, 17):
            self.click("job_add")
            self.assertEqual(self.tab.evaluate("document.querySelectorAll('#job_programs fieldset').length"), count)
        self.assertTrue(self.verdict().startswith("admitted"))
        self.click("job_add")
        self.assertEqual(self.tab.evaluate("[document.querySelectorAll('#job_programs fieldset').length, document.getElementById('job_add').disabled]"), [16, True])
        self.tab.evaluate("document.querySelectorAll('.job_drop')[5].click()")
        self.assertEqual(self.tab.evaluate("[document.querySelectorAll('#job_programs fieldset').length, document.activeElement.ariaLabel]"), [15, "Program 4 as eBPF assembly"])

    def test_the_module_is_another_one(self):
        """After a call that traps the module is a new one. The job goes on, by a world that comes to where it was."""
        self.choose_job("a sum by eight tasks")
        for _ in range(30):
            self.click("job_forth")
        self.tab.evaluate("library.begin()")
        self.click("job_all")
        model = self.shown_job().play(self.tab.evaluate("job_run.schedule"))
        self.assertTrue(model.complete)
        self.assertEqual(self.state(), model.told())

    def test_no_memory(self):
        self.tab.evaluate("library.trace_job = () => ({ status: 99, place: null, text: '' }); 0")
        self.click("job_forth")
        self.tab.evaluate("delete library.trace_job")
        self.assertEqual(self.verdict(), "the steps: refused 99")
        self.assertTrue(self.is_hidden("job_run"))
        self.click("job_start")
        self.assertTrue(self.verdict().startswith("admitted"))


class Links(InJob):
    def test_a_link_carries_a_job(self):
        source = "; ä + & % # =\nmov64 r0, r3\nexit\n"
        self.type_job([(0, "mov64 r1, 1\nmov64 r2, 9\nmov64 r3, 1\nmov64 r4, 77\ncall 1\nexit\n"), (1, source)], 60, "0a 0b 0c*2")
        self.click("job_all")
        self.fill(job_at="7")
        state, link = self.state(), self.tab.evaluate("location.href")
        self.tab.load(self.address)
        self.tab.load(link)
        self.assertEqual(self.tab.evaluate("document.querySelectorAll('.job_source')[1].value"), source)
        self.assertFalse(self.is_hidden("job_view"))
        self.assertTrue(self.is_hidden("program_view"))
        self.assertEqual(self.state(), state)
        self.assertEqual(self.tab.evaluate("[job_run.at, job_run.steps.length]"), [7, 8])
        self.assertEqual(self.tab.evaluate("location.href"), link)

    def test_another_address_is_read(self):
        self.tab.evaluate("location.hash = '#view=job&credit=2&need=0&program=mov64+r0%2C+7%0Aexit&steps=0*2&at=2'")
        self.tab.wait_for("document.getElementById('job_verdict').textContent === 'admitted; program 0 costs 2'")
        self.assertEqual(self.rows(), [[0, 1, "task 0 / | program 0, ended with R0 7 | spent 2, returned 0 | no bytes"]])

    def test_addresses_that_say_nothing(self):
        for rest in ("#view=job", "#view=job&program=%ff%00", "#view=job&program=exit&steps=x", "#view=job&need=1", "#view=job&program=mov64+r0,0%0Aexit&credit=2&steps=0&at=x"):
            with self.subTest(rest):
                self.tab.load(self.address + rest)
                self.assertFalse(self.is_hidden("job_view"))
                self.assertNotEqual(self.verdict(), "")

    def test_each_view_keeps_what_it_has(self):
        self.fill(job_credit="40")
        self.click("tab_program")
        self.choose("Internet checksum")
        self.click("tab_job")
        self.assertEqual(self.tab.evaluate("document.getElementById('job_credit').value"), "40")
        self.click("tab_program")
        self.assertEqual(self.text("verdict"), "accepted, cost 18")
        self.assertIn("source=", self.tab.evaluate("location.hash"))


RUN = """((job, schedule, places, seed) => {
    const opened = JobRun.open(library, job_given(job));
    if (opened.status) return [opened.status, opened.program, opened.slot];
    const { run } = opened;
    run.take(schedule);
    run.go(0);
    const told = [run_read(run)];
    while (run.at < run.steps.length) {
        run.forth();
        const touched = [run.step.task, ...(run.step.spawned ? [run.step.spawned.task] : [])];
        told.push([run.step.task, sums_read(run), touched.map((number) => task_read(run, run.tasks[number])), hex_of(run.buffer)]);
    }
    const whole = places.map((place) => { run.go(place % (run.steps.length + 1)); return run_read(run); });
    run.run_on(ORDERS.random(seed));
    const answers = [answer_of(run), answer_by(library, run.job, ORDERS.random(seed + 1)), answer_by(library, run.job, ORDERS.turn())];
    const end = [run.schedule, run_read(run), hex_of(run.world.buffer(0)), ...answers.map(({ r0, spent, returned, buffer, r0s }) => [r0, spent, returned, buffer, r0s])];
    run.close();
    return [0, told, whole, end];
})"""


class RandomJobs(InJob):
    """Random jobs and schedules: each state is the model's, and each answer."""

    def test_states(self):
        chance, planter, steps, answers = random.Random(11), Planter(12, assemble), 0, [0] * 6
        for start in range(0, JOBS, 25):
            cases = []
            for _ in range(min(25, JOBS - start)):
                programs, credit, buffer = self.drawn(chance, planter)
                most = chance.choice([2, 5, 12, 40])
                schedule = [chance.randrange(most) for _ in range(chance.choice([40, 200, 600]))]
                places = [chance.randrange(1 << 20) for _ in range(6)]
                cases.append((programs, credit, buffer, schedule, places, chance.randrange(1 << 20)))
            asked = [[given(*case[:3]), *case[3:]] for case in cases]
            told = self.tab.evaluate(f"(() => {{ {READ} return {json.dumps(asked)}.map((case_) => {RUN}(...case_)); }})()")
            for number, (case, found) in enumerate(zip(cases, told)):
                with self.subTest(job=start + number):
                    steps += self.agree(found, *case, answers)
        self.assertGreater(steps, 30 * JOBS)
        self.assertTrue(JOBS < 1000 or all(answers), answers)

    @staticmethod
    def drawn(chance, planter):
        """A job of four levels of programs, or one of a small tree."""
        if chance.random() < 0.5:
            return drawn_job(chance)[:3]
        while True:
            tree = planter.tree()
            if len(tree.model.tasks) <= MOST_TASKS // 3:
                return tree.programs, tree.credit, tree.buffer

    def agree(self, found, programs, credit, buffer, schedule, places, _seed, answers):
        if found[0]:
            # (the root is what may be refused of such a job)
            root = Program(*programs[0])
            self.assertEqual(found, [63 if credit < root.cost else 64, None, None])
            self.assertTrue(credit < root.cost or len(buffer) < root.need)
            return 0
        _, states, whole, (all_steps, end, world_buffer, *found_answers) = found
        model = modelled(programs, credit, buffer)
        self.assertEqual(states[0], model.told())
        taken = [touched for touched in map(model.step, schedule) if touched is not None]
        self.assertEqual(len(states), 1 + len(taken))
        model, at = modelled(programs, credit, buffer), {}
        wanted = {place % len(states) for place in places}
        at[0] = model.told()
        for place, ([number, *_], state) in enumerate(zip(taken, states[1:]), 1):
            touched = model.step(number)
            self.assertEqual(state, model.told_step(touched))
            answers[model.refused[number] or 0] += 1
            if place in wanted:
                at[place] = model.told()
        self.assertEqual(whole, [at[place % len(states)] for place in places])
        # (from the last place that was looked at the job goes on at random)
        model = modelled(programs, credit, buffer).play(all_steps)
        self.assertEqual(end, model.told())
        self.assertTrue(model.complete)
        self.assertEqual(world_buffer, model.bytes().hex())
        self.assertEqual(found_answers, [modelled(programs, credit, buffer).finish().answer()] * 3)
        return len(taken)

    def test_answers_of_trees(self):
        planter, tried = Planter(13, assemble), 0
        while tried < TREES:
            tree = planter.tree()
            if len(tree.model.tasks) > MOST_TASKS:
                continue
            tried += 1
            script = f"""(() => {{ {READ} const job = job_given({json.dumps(given(tree.programs, tree.credit, tree.buffer))});
                return [ORDERS.turn(), ORDERS.random({tried})].map((order) => answer_by(library, job, order))
                    .map(({{ r0, spent, returned, buffer, r0s }}) => [r0, spent, returned, buffer, r0s]); }})()"""
            wanted = modelled(tree.programs, tree.credit, tree.buffer).finish().answer()
            with self.subTest(tree=tried):
                self.assertEqual(self.tab.evaluate(script), [wanted] * 2)


if __name__ == "__main__":
    unittest.main()
