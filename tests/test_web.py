"""The page, in a browser: what it tells, its address, and what it says of random programs beside the library.

It wants a Chromium or a Firefox (TELGOVAN_BROWSER). The page is docs/try.html, or the one that TELGOVAN_PAGE
names. TELGOVAN_PICTURES names a folder for a picture of each state. `test_web_page` has how it opens, and
`test_web_jobs` the view of a job."""

import ctypes
import json
import os
import random
import struct
import unittest
from pathlib import Path

import browsers
from test_graphs import modelled
from telgovan._refusals import REFUSALS

PICTURES = os.environ.get("TELGOVAN_PICTURES", "")
PROGRAMS = int(os.environ.get("TELGOVAN_PROGRAMS", "2000"))
BROWSER = browsers.chosen()
CTRL, SHIFT = 2, 8
WIDE, NARROW = (1280, 900), (360, 740)

TOP = Path(__file__).resolve().parent.parent
PAGE = Path(os.environ.get("TELGOVAN_PAGE") or TOP / "docs/try.html")


# A program of 4,096 steps, and a way along them, forth and back.
LONG_SOURCE = "mov64 r0, 0\n" + "add64 r0, 1\n" * 4094 + "exit\n"
LONG_WAY = """for (let n = 0; n < 100; n++) go_to(steps.at + 1);
    go_to(4096); go_to(0); go_to(2000);
    for (let n = 0; n < 100; n++) go_to(steps.at - 1);"""


def advice_of(number):
    """The table's advice for a refusal, as a sentence of the page."""
    advice = REFUSALS[number][1].replace("`", "")
    return f"{advice[0].upper()}{advice[1:]}."


@unittest.skipUnless(BROWSER, "needs Debian's chromium or firefox-esr")
class InBrowser(unittest.TestCase):
    @classmethod
    def setUpClass(cls):
        cls.tab = browsers.opened()
        cls.addClassCleanup(cls.tab.close)
        cls.address = PAGE.resolve().as_uri()

    def setUp(self):
        self.tab.size(*WIDE)
        self.tab.colours("light")
        self.tab.load(self.address)

    def text(self, name):
        return self.tab.evaluate(f"document.getElementById('{name}').textContent")

    def facts(self):
        pairs = "[...document.querySelectorAll('#facts dt')].map((one) => [one.textContent, one.nextSibling.textContent])"
        return dict(self.tab.evaluate(pairs))

    def is_hidden(self, name):
        return self.tab.evaluate(f"document.getElementById('{name}').offsetParent === null")

    def fill(self, **values):
        """Types into the fields, as a person does."""
        for name, value in values.items():
            field = f"document.getElementById('{name}')"
            self.tab.evaluate(f"{field}.value = {json.dumps(value)}; {field}.dispatchEvent(new Event('input'))")

    def click(self, name):
        self.tab.evaluate(f"document.getElementById('{name}').click()")

    def choose(self, name):
        script = """(() => {
            const list = document.getElementById("examples");
            list.value = [...list.options].find((one) => one.text === NAME).value;
            list.dispatchEvent(new Event("change"));
        })()"""
        self.tab.evaluate(script.replace("NAME", json.dumps(name)))

    def marked_lines(self):
        script = "[...document.querySelectorAll('#lines .bad')].map((one) => Number(one.textContent))"
        return self.tab.evaluate(script)

    def marks(self, room):
        return self.tab.evaluate(f"[...document.querySelectorAll('#{room} mark')].map((one) => one.textContent)")

    def picture(self, name):
        if PICTURES:
            self.tab.picture(os.path.join(PICTURES, f"{name}.{BROWSER}.png"))


class Verdicts(InBrowser):
    def test_an_example_is_accepted(self):
        self.choose("Internet checksum")
        self.assertEqual(self.text("verdict"), "accepted, cost 18")
        self.assertEqual(self.facts()["slots"], "18")
        self.assertEqual(self.marked_lines(), [])
        self.assertTrue(self.is_hidden("explained"))
        self.picture("accepted")

    def test_each_example_has_its_verdict(self):
        names = self.tab.evaluate("EXAMPLES.map((one) => one.name)")
        self.assertGreater(len(names), 10)
        for name in names:
            with self.subTest(name):
                self.choose(name)
                wanted = "refused " if name.startswith("refused") else "accepted, cost "
                self.assertTrue(self.text("verdict").startswith(wanted), self.text("verdict"))

    def test_a_refusal_is_explained(self):
        self.choose("refused: a byte too far")
        self.assertEqual(self.text("verdict"), "refused 33: access out of the part at slot 2")
        self.assertEqual(self.marked_lines(), [5])
        told = self.text("explained").split("\n")
        self.assertEqual(told[0], "why: an access may leave the bytes of the part that the program needs")
        self.assertEqual(told[1:4], ["slot 2, line 5: ldxb r0, [r1+0]", "least need here: 16", "way: 0 1 2"])
        bad = "[...document.querySelectorAll('#flow .bad')].map((one) => one.textContent.trim())"
        self.assertEqual(self.tab.evaluate(bad), ["2  ldxb r0, [r1+0]"])
        self.picture("refused")

    def test_a_line_that_says_nothing_known(self):
        self.choose("refused: no such word")
        self.assertEqual(self.text("verdict"), "refused 11 in line 2: no instruction has this word")
        self.assertEqual(self.text("explained"), "mul65 r0, 2")
        self.assertEqual(self.marked_lines(), [2])
        self.picture("no_such_word")

    def test_what_is_typed_is_judged(self):
        self.fill(source="mov64 r0, 1\nexit\n")
        self.tab.wait_for("document.getElementById('verdict').textContent === 'accepted, cost 2'")
        self.fill(source="mov64 r0, 1\n")
        self.tab.wait_for("document.getElementById('verdict').textContent.startsWith('refused 24')")

    def test_garbage(self):
        chance = random.Random(1)
        for text in ("\0\1\2", "\ud800", "é" * 500, "<script>alert(1)</script>", "; only a comment", "",
                     "".join(chr(chance.randrange(1, 0xD000)) for _ in range(5000))):
            with self.subTest(text[:9]):
                self.tab.evaluate(f"show({json.dumps(text)}, {{}}); do_verify()")
                self.assertTrue(self.text("verdict").startswith("refused 1"), self.text("verdict"))
        self.picture("garbage")

    def test_a_long_program(self):
        self.tab.evaluate(f"show({json.dumps(LONG_SOURCE)}, {{}}); do_run()")
        self.assertEqual(self.facts()["R0"], "4094 (0xffe)")
        self.tab.evaluate(f"show({json.dumps('mov64 r0, 0' + chr(10) + LONG_SOURCE)}, {{}}); do_verify()")
        self.assertTrue(self.text("verdict").startswith("refused 3"), self.text("verdict"))

    def test_numbers_out_of_range(self):
        for field, value in (("need", "-1"), ("argument", str(2**64)), ("credit", "x"), ("memory", "123")):
            with self.subTest(field):
                self.choose("the answer")
                self.tab.evaluate(f"document.getElementById('{field}').value = '{value}'")
                self.click("run")
                self.assertTrue(self.text("verdict").startswith(f"{field}: "), self.text("verdict"))


class Runs(InBrowser):
    def test_a_run_leaves_its_memory(self):
        self.choose("Internet checksum")
        self.click("run")
        self.assertEqual(self.text("verdict"), "ran to its end")
        self.assertEqual(self.facts()["spent"], "18 of at most 18")
        self.assertEqual(self.text("memory_facts"), "10 bytes, 2 changed")
        self.assertEqual(len(self.marks("memory_now")), 2)
        self.picture("ran")

    def test_a_packet_is_filtered(self):
        self.choose("filter of packets")
        self.click("run")
        self.assertEqual(self.facts()["R0"], "1")
        self.tab.colours("dark")
        self.picture("packet_dark")

    def test_the_memory_is_large(self):
        source = "add64 r1, 65535\nldxb r0, [r1+0]\nadd64 r0, r2\nstxb [r1+0], r3\nexit"
        self.fill(source=source, need="65536", argument="7", memory="00*65536")
        self.click("run")
        self.assertEqual(self.facts()["R0"], "65536 (0x10000)")
        self.assertEqual(self.text("memory_facts"), "65536 bytes, 1 changed")
        self.assertEqual(self.marks("memory_now"), ["07"])
        self.picture("large_memory")
        self.fill(memory="00*65537")
        self.click("run")
        self.assertTrue(self.text("verdict").startswith("refused 65"))

    def test_a_run_behind_typing_stays(self):
        self.fill(source="mov64 r0, 5\nexit\n")
        self.click("run")
        self.tab.evaluate("new Promise((done) => setTimeout(done, 500))")
        self.assertEqual(self.facts()["R0"], "5")
        self.assertIn("do=run", self.tab.evaluate("location.hash"))

    def test_refused_runs(self):
        self.choose("Internet checksum")
        self.fill(credit="17")
        self.click("run")
        self.assertEqual(self.text("verdict"), "refused 42: the credit is under the program's cost")
        self.fill(credit="18", memory="00*9")
        self.click("run")
        self.assertEqual(self.text("verdict"), "refused 43: the memory is too short, or not as long as at the start")


class Steps(InBrowser):
    """The steps of a run, forth and back. What they are is told by the library of this machine."""

    RUNS = ("Internet checksum", "byte at an index", "filter of packets", "spawn (answered 1)", "argument into memory")
    WRITES = ("stxdw [r10-8], r3\nldxdw r4, [r10-8]\nstxh [r1+2], r4\nsth [r10-16], 1\nmov64 r5, r10\n"
              "add64 r5, -16\nmov64 r0, -1\nexit\n")

    def run_typed(self, source, **values):
        self.fill(source=source, **values)
        self.click("run")
        self.assertEqual(self.text("verdict"), "ran to its end")

    def typed(self):
        """What the page's fields say: the source, need, argument, credit and memory."""
        ids = ("source", "need", "argument", "credit")
        source, *numbers = self.tab.evaluate(f"{json.dumps(ids)}.map((id) => document.getElementById(id).value)")
        return source, *map(int, numbers), bytes(self.tab.evaluate("[...bytes()]"))

    def shown(self):
        """What the page shows: where it stands, its registers, those that are marked, and the regions."""
        script = """[document.getElementById("step").textContent, document.getElementById("step_used").textContent,
            [...document.getElementById("registers").children].map((one) => one.textContent.slice(4)),
            [...document.getElementById("registers").children].flatMap((one, number) => one.querySelector("mark") ? [number] : []),
            [...steps.stack], [...steps.part]]"""
        return self.tab.evaluate(script)

    def states(self):
        """The same, by what the library tells of the run that the page was given."""
        source, need, argument, credit, memory = self.typed()
        library = Library()
        code = library.written(library.lib.telgovan_assemble, *library.lent(source.encode()))[2]
        told = library.traced(need, code, source, credit, argument, memory)[2].decode().splitlines()
        registers = ["unset"] * 11
        registers[1:4] = ["part+0", str(len(memory)), str(argument)]
        registers[10] = "stack+512"
        regions = {"stack": bytearray(512), "part": bytearray(memory)}
        plural = "" if len(told) == 1 else "s"
        states = [[f"at the start, ahead of {len(told)} step{plural}", "used 0 of the credit", [*registers], [], [0] * 512, list(memory)]]
        for number, step in enumerate(map(json.loads, told), 1):
            for name, content in step["registers"].items():
                registers[int(name[1:])] = content
            for name, region in regions.items():
                if name in step:
                    place, new = step[name]["at"], bytes.fromhex(step[name]["bytes"])
                    region[place:place + len(new)] = new
            said = f"step {number} of {len(told)}: slot {step['slot']}, line {step['line']}: {step['insn']}"
            marked = sorted(int(name[1:]) for name in step["registers"])
            states.append([said, f"used {step['used']} of the credit", [*registers], marked, *map(list, regions.values())])
        return states

    def agree(self, shown, state):
        # (a large number is shown in hexadecimal too)
        registers = [one.partition(" (")[0] for one in shown[2]]
        self.assertEqual([*shown[:2], registers, *shown[3:]], state)

    def test_forth_and_back(self):
        for name in self.RUNS:
            with self.subTest(name):
                self.choose(name)
                self.click("run")
                states = self.states()
                for state in states[:-1]:
                    self.agree(self.shown(), state)
                    self.click("step_forth")
                for state in states[:0:-1]:
                    self.agree(self.shown(), state)
                    self.click("step_back")
                self.agree(self.shown(), states[0])
                self.click("step_last")
                self.agree(self.shown(), states[-1])
                self.click("step_first")
                self.agree(self.shown(), states[0])

    def test_what_a_run_leaves_is_the_last_state(self):
        for name in self.RUNS:
            self.choose(name)
            self.click("run")
            self.click("step_last")
            said = ("[document.getElementById('memory_now').textContent, document.getElementById('step_part').textContent, "
                    "[...document.querySelectorAll('#facts dd')][0].textContent]")
            left, part, r0 = self.tab.evaluate(said)
            self.assertEqual((left, r0), (part, self.shown()[2][0]))

    def test_marks(self):
        self.choose("argument into memory")
        self.run_typed(self.WRITES, need="4", argument="513", memory="01 02 03 04 05")
        marked = []
        for _ in range(8):
            self.click("step_forth")
            marked.append([self.marks(room) for room in ("registers", "step_stack", "step_part")])
        self.assertEqual(marked, [
            [[], ["01", "02"], []],
            [["513 (0x201)"], [], []],
            [[], [], ["01", "02"]],
            [[], ["01"], []],
            [["stack+512"], [], []],
            [["stack+496"], [], []],
            [["18446744073709551615 (0xffffffffffffffff, -1)"], [], []],
            [[], [], []],
        ])
        self.assertEqual(self.text("step_stack").splitlines(), ["..", "r10-16   01" + " 00" * 7 + " 01 02" + " 00" * 6])
        self.click("step_first")
        for _ in range(4):
            self.tab.evaluate("go_to(steps.at + 1)")
        self.picture("step")
        self.tab.colours("dark")
        self.picture("step_dark")

    def test_the_instruction_is_marked(self):
        self.choose("byte at an index")
        self.click("run")
        marked = """["#flow .now", "#lines .now", "#graph .now"].map((one) => document.querySelectorAll(one).length)"""
        self.assertEqual(self.tab.evaluate(marked), [0, 0, 0])
        for state in self.states()[1:]:
            self.click("step_forth")
            self.assertEqual(self.tab.evaluate(marked), [1, 1, 1])
            slot, line = self.tab.evaluate("[steps.step.slot, steps.step.line]")
            self.assertEqual(self.tab.evaluate("document.querySelector('#flow .now').textContent").split()[0], str(slot))
            self.assertEqual(self.tab.evaluate("Number(document.querySelector('#lines .now').textContent)"), line)
            self.assertIn(f"slot {slot}, line {line}: ", state[0])

    def test_keys(self):
        self.choose("Internet checksum")
        self.click("run")
        place = "[steps.at, steps.steps.length]"
        self.tab.press("ArrowRight", 0, 39)
        self.assertEqual(self.tab.evaluate(place), [0, 18])
        for focus in ("stepper", "step_forth", "step_at", "step_part"):
            self.tab.evaluate(f"document.getElementById('{focus}').focus()")
            reached = []
            for key, code in (("ArrowRight", 39), ("ArrowRight", 39), ("ArrowLeft", 37), ("End", 35), ("ArrowRight", 39), ("Home", 36), ("ArrowLeft", 37)):
                self.tab.press(key, 0, code)
                reached.append(self.tab.evaluate(place)[0])
            self.assertEqual(reached, [1, 2, 1, 18, 18, 0, 0], focus)
        # elsewhere the keys are the field's own
        self.tab.evaluate("document.getElementById('source').focus()")
        self.tab.press("ArrowRight", 0, 39)
        self.assertEqual(self.tab.evaluate(place)[0], 0)

    def test_the_slider(self):
        self.choose("Internet checksum")
        self.click("run")
        self.fill(step_at="7")
        self.agree(self.shown(), self.states()[7])

    def test_a_long_run(self):
        """`.ci/in_time.py page` tells how long its way takes."""
        self.tab.evaluate(f"show({json.dumps(LONG_SOURCE)}, {{}}); do_run()")
        self.tab.evaluate(LONG_WAY)
        self.assertEqual(self.shown()[2][0], "1899 (0x76b)")
        self.picture("long_run")

    def test_a_large_memory(self):
        source = "add64 r1, 65535\nldxb r0, [r1+0]\nadd64 r0, r2\nstxb [r1+0], r3\nexit"
        self.run_typed(source, need="65536", argument="7", memory="00*65536")
        self.click("step_last")
        self.click("step_back")
        self.assertEqual(self.marks("step_part"), ["07"])
        self.assertEqual(self.text("step_part").splitlines(), ["..", "fff0 " + " 00" * 15 + " 07"])

    def test_no_memory_for_steps(self):
        for fails in ('() => { throw new Error("no memory"); }', "() => ({ status: 99, slot: null, text: '' })"):
            self.choose("Internet checksum")
            self.tab.evaluate(f"library.trace = {fails}; 0")
            self.click("run")
            self.tab.evaluate("delete library.trace")
            self.assertEqual((self.text("verdict"), self.facts()["steps"]), ("ran to its end", "not shown: no memory for them"))
            self.assertTrue(self.is_hidden("stepper"))
        self.click("run")
        self.assertNotIn("steps", self.facts())
        self.assertFalse(self.is_hidden("stepper"))

    def test_steps_go_with_the_run(self):
        self.choose("Internet checksum")
        self.assertTrue(self.is_hidden("stepper"))
        self.click("run")
        self.assertFalse(self.is_hidden("stepper"))
        self.fill(credit="17")
        self.click("run")
        self.assertTrue(self.is_hidden("stepper"))
        self.tab.evaluate("go_to(3)")
        self.fill(credit="18")
        self.click("run")
        link = self.tab.evaluate("location.href")
        self.click("step_forth")
        self.assertEqual(self.tab.evaluate("location.href"), link)
        self.click("verify")
        self.assertTrue(self.is_hidden("stepper"))


class Graphs(InBrowser):
    READ = "[program.graph.boxes.map((one) => [one.cost, one.rows.map((row) => row.slot)]), program.graph.edges.map((one) => [one.from, one.to, one.word])]"
    DRAWN = """[[...document.querySelectorAll("#graph .box")].length, [...document.querySelectorAll("#graph path.taken")].length,
        [...document.querySelectorAll("#graph path.not_taken")].length, [...document.querySelectorAll("#graph path")].length]"""
    # pairs of boxes that lie on one another, boxes and texts that stand out of the picture, and texts that stand out of a box (Firefox takes
    # the paper around a text as a part of it)
    WRONG = """(() => {
        const svg = document.querySelector("#graph svg").getBoundingClientRect();
        const boxes = [...document.querySelectorAll("#graph .box > rect:first-child")].map((one) => one.getBoundingClientRect());
        const meet = (a, b) => a.left < b.right && b.left < a.right && a.top < b.bottom && b.top < a.bottom;
        const all = [...boxes, ...[...document.querySelectorAll("#graph text")].map((one) => one.getBoundingClientRect())];
        return [boxes.flatMap((a, n) => boxes.slice(n + 1).filter((b) => meet(a, b))).length,
            all.filter((one) => one.left < svg.left - HALO || one.right > svg.right + HALO || one.top < svg.top - HALO || one.bottom > svg.bottom + HALO).length,
            [...document.querySelectorAll("#graph .box")].filter((one) => {
                const edge = one.querySelector("rect").getBoundingClientRect();
                return [...one.querySelectorAll("text")].some((text) => text.getBoundingClientRect().right > edge.right + 1);
            }).length];
    })()""".replace("HALO", "2.5" if BROWSER == "firefox" else "1")

    def agree(self):
        boxes, edges = modelled(bytes(self.tab.evaluate("[...program.code]")))
        self.assertEqual(self.tab.evaluate(self.READ), [[[f"cost {cost}", slots] for _, cost, slots in boxes], [*map(list, edges)]])
        taken = sum(word == "taken" for _, _, word in edges)
        self.assertEqual(self.tab.evaluate(self.DRAWN), [len(boxes), taken, taken, len(edges)])
        self.assertEqual(self.tab.evaluate(self.WRONG), [0, 0, 0])

    def test_examples(self):
        for name in ("the answer", "Internet checksum", "byte at an index", "filter of packets", "sum of a part", "spawn (answered 1)"):
            with self.subTest(name):
                self.choose(name)
                self.agree()
                self.assertEqual(self.tab.evaluate("document.querySelectorAll('#graph .bad, #graph .way').length"), 0)
        self.choose("filter of packets")
        self.picture("graph")

    def test_a_refused_program(self):
        self.choose("refused: a byte too far")
        self.agree()
        red = "['#graph text.bad', '#graph .box.way', '#graph path.way'].map((one) => [...document.querySelectorAll(one)].length)"
        self.assertEqual(self.tab.evaluate("document.querySelector('#graph text.bad').textContent.trim()"), "2  ldxb r0, [r1+0]")
        self.assertEqual(self.tab.evaluate(red), [1, 2, 1])
        self.picture("graph_refused")
        self.tab.colours("dark")
        self.picture("graph_refused_dark")

    def test_no_graph(self):
        for name in ("refused: a loop", "refused: no such word"):
            self.choose(name)
            self.assertTrue(self.is_hidden("graphs"))
        self.choose("the answer")
        self.assertFalse(self.is_hidden("graphs"))

    def test_many_blocks(self):
        ladder = "mov64 r0, 0\n" + "jeq r0, 0, +0\n" * 500 + "exit"
        self.tab.evaluate(f"show({json.dumps(ladder)}, {{}}); do_verify()")
        self.assertEqual(self.text("graph_facts"), "501 blocks, 1000 edges")
        self.assertIn("too many to draw", self.text("graph"))
        wide = "".join(f"jeq r3, {n}, +{60 - n}\n" for n in range(30)) + "mov64 r0, 1\n" * 31 + "exit"
        self.tab.evaluate(f"show({json.dumps(wide)}, {{}}); do_verify()")
        self.agree()
        # (the first box can be seen)
        seen = """(() => { const room = document.getElementById("graph").getBoundingClientRect();
            const box = document.querySelector("#graph .box").getBoundingClientRect();
            return box.left >= room.left && box.right <= room.right && box.top >= room.top; })()"""
        self.assertTrue(self.tab.evaluate(seen))
        self.picture("graph_of_many")

    def test_a_long_block(self):
        source = "mov64 r0, 0\n" + "add64 r0, 1\n" * 50 + "ldxb r0, [r1+0]\n" + "add64 r0, 1\n" * 50 + "exit"
        self.tab.evaluate(f"show({json.dumps(source)}, {{}}); do_verify()")
        rows = self.tab.evaluate("[...document.querySelectorAll('#graph .box text')].map((one) => one.textContent.trim())")
        self.assertEqual((rows[13], rows[16], rows[19]), (".. 37 more", "51  ldxb r0, [r1+0]", ".. 43 more"))
        self.assertEqual(self.tab.evaluate(self.WRONG), [0, 0, 0])
        self.tab.evaluate(f"show({json.dumps(source)}, {{need: '1', memory: '05'}}); do_run(); go_to(30)")
        self.assertEqual(self.tab.evaluate("document.querySelectorAll('#graph .now').length"), 1)

    def test_random_programs(self):
        chance = random.Random(3)
        for _ in range(60):
            source = drawn_program(chance)
            self.tab.evaluate(f"show({json.dumps(source)}, {{need: '16'}}); do_verify()")
            if not self.is_hidden("graphs"):
                with self.subTest(source):
                    self.agree()

    def test_a_long_program_is_drawn_once_it_is_opened(self):
        source = "mov64 r0, 0\n" + "add64 r0, 1\n" * 600 + "exit"
        self.tab.evaluate(f"show({json.dumps(source)}, {{}}); do_verify()")
        self.assertEqual(self.tab.evaluate("[document.getElementById('graphs').open, program.graph ?? null]"), [False, None])
        self.tab.evaluate("document.getElementById('graphs').open = true")
        self.tab.wait_for("Boolean(program.graph)")
        self.assertEqual(self.text("graph_facts"), "1 block, 0 edges")
        self.choose("the answer")
        self.agree()

    def test_it_is_drawn_once_it_is_open(self):
        self.choose("the answer")
        self.tab.evaluate("document.getElementById('graphs').open = false")
        self.choose("filter of packets")
        self.assertIsNone(self.tab.evaluate("program.graph ?? null"))
        self.tab.evaluate("document.getElementById('graphs').open = true")
        self.tab.wait_for("Boolean(program.graph)")
        self.agree()


class Addresses(InBrowser):
    def test_a_link_carries_the_program(self):
        source = "; ä + & % # =\nmov64 r0, r3\nexit\n"
        self.fill(source=source, argument="41", memory="00*4", need="4")
        self.click("run")
        link = self.tab.evaluate("location.href")
        self.tab.load(link)
        self.assertEqual(self.tab.evaluate("document.getElementById('source').value"), source)
        self.assertEqual(self.text("verdict"), "ran to its end")
        self.assertEqual(self.facts()["R0"], "41 (0x29)")

    def test_another_address_is_read(self):
        self.tab.evaluate("location.hash = '#source=mov64+r0%2C+7%0Aexit&do=run'")
        self.tab.wait_for("document.getElementById('verdict').textContent === 'ran to its end'")
        self.assertEqual(self.facts()["R0"], "7")

    def test_an_address_that_says_nothing(self):
        for rest in ("#%", "#source=%ff%00", "#do=run", "#need=-1&source=exit&do=run", "#=&&&"):
            with self.subTest(rest):
                self.tab.load(self.address + rest)
                self.assertNotEqual(self.text("verdict"), "Loading")

    def test_nothing_is_fetched(self):
        self.click("run")
        asked = self.tab.evaluate("performance.getEntriesByType('resource').map((one) => one.name)")
        self.assertEqual([url for url in asked if not url.startswith(("file:", "about:", "data:"))], [])
        if BROWSER == "chromium":
            self.tab.told.clear()
            self.tab.load(self.address)
            self.click("run")
            self.tab.evaluate("1")
            asked = [one["params"]["request"]["url"] for one in self.tab.told if one.get("method") == "Network.requestWillBeSent"]
            self.assertEqual([url for url in asked if not url.startswith(("file:", "about:", "data:"))], [])
        self.assertIn("imports nothing", self.text("about"))


class Looks(InBrowser):
    def overflow(self):
        return self.tab.evaluate("document.documentElement.scrollWidth - innerWidth")

    def test_a_narrow_screen(self):
        self.tab.size(*NARROW)
        for name in ("Internet checksum", "refused: a byte too far", "filter of packets"):
            self.choose(name)
            self.assertLessEqual(self.overflow(), 0)
            self.click("run")
            self.assertLessEqual(self.overflow(), 0)
        for _ in range(4):
            self.click("step_forth")
        self.assertLessEqual(self.overflow(), 0)
        # (letters of a graph stay legible)
        letters = "document.querySelector('#graph text').getBoundingClientRect().height"
        self.assertGreater(self.tab.evaluate(letters), 10)
        self.picture("narrow")
        self.choose("refused: a byte too far")
        self.picture("narrow_refused")

    def test_contrast(self):
        # each colour of text against each paper that it stands on, by WCAG's formula, at least 4.5
        script = """(() => {
            const probe = document.createElement("i");
            document.body.append(probe);
            const light = (name) => {
                probe.style.color = `var(${name})`;
                const parts = getComputedStyle(probe).color.match(/[0-9.]+/g).slice(0, 3).map(Number);
                const [r, g, b] = parts.map((one) => (one /= 255) <= 0.03928 ? one / 12.92 : ((one + 0.055) / 1.055) ** 2.4);
                return 0.2126 * r + 0.7152 * g + 0.0722 * b;
            };
            const pairs = [];
            const papers = ["--paper", "--field"];
            for (const ink of ["--ink", "--soft", "--bad", "--good", "--accent"]) for (const paper of papers) pairs.push([ink, paper]);
            const more = [["--ink", "--new-paper"], ["--ink", "--bad-paper"], ["--soft", "--bad-paper"], ["--bad", "--bad-paper"],
                ["--ink", "--now-paper"], ["--soft", "--now-paper"]];
            for (const [ink, paper] of more) pairs.push([ink, paper]);
            return pairs.map(([ink, paper]) => {
                const [a, b] = [light(ink), light(paper)].sort((x, y) => y - x);
                return [ink, paper, (a + 0.05) / (b + 0.05)];
            });
        })()"""
        for scheme in ("light", "dark"):
            self.tab.colours(scheme)
            for ink, paper, contrast in self.tab.evaluate(script):
                with self.subTest(scheme=scheme, ink=ink, paper=paper):
                    self.assertGreaterEqual(contrast, 4.5)

    def test_by_keyboard(self):
        self.choose("Internet checksum")
        self.tab.evaluate("document.getElementById('source').focus()")
        self.tab.press("Enter", CTRL, 13)
        self.assertEqual(self.text("verdict"), "accepted, cost 18")
        self.tab.press("Enter", CTRL | SHIFT, 13)
        self.assertEqual(self.text("verdict"), "ran to its end")

    def test_each_control_has_a_name(self):
        script = """[...document.querySelectorAll("button, input, select, textarea, [tabindex]")].filter((one) =>
            !(one.labels?.length || one.getAttribute("aria-label") || one.textContent.trim())).map((one) => one.id)"""
        self.assertEqual(self.tab.evaluate(script), [])


# ---- random programs, by the page's module and by the library of this machine

SMALL = [0, 1, 2, 7, 8, 15, 31, 32, 63, 64, 127, 255, 256, 4095, 65535, 2**31 - 1, -1, -2, -8, -128, -(2**31)]
LARGE = [0, 1, 2**31, 2**32 - 1, 2**32, 2**63 - 1, 2**63, 2**64 - 1, 0x0123456789ABCDEF]
ALU = ["add", "sub", "mul", "div", "sdiv", "or", "and", "lsh", "rsh", "mod", "smod", "xor", "arsh", "mov"]
LOADS = ["ldxb", "ldxh", "ldxw", "ldxdw", "ldxsb", "ldxsh", "ldxsw"]
JUMPS = ["jeq", "jne", "jgt", "jge", "jlt", "jle", "jset", "jsgt", "jsge", "jslt", "jsle"]
MOVES = ["8_32", "16_32", "8_64", "16_64", "32_64"]


def drawn_line(chance, ahead):
    """A line of a program. Most are allowed where r0 to r8 hold numbers and r9 points to 16 bytes."""
    pick = chance.choice
    number = f"r{pick([0, 2, 3, 4, 5, 6, 7, 8])}"
    other = f"r{pick([0, 2, 3, 4, 5, 6, 7, 8])}"
    value = pick([other, str(pick(SMALL)), str(chance.randrange(-(2**31), 2**31))])
    kind = chance.randrange(24)
    if kind < 9:
        return f"{pick(ALU)}{pick(['64', '64', '32'])} {number}, {value}"
    if kind == 9:
        return f"neg{pick(['64', '32'])} {number}"
    if kind == 10:
        return f"movsx{pick(MOVES)} {number}, {other}"
    if kind == 11:
        return f"{pick(['le', 'be', 'swap'])}{pick([16, 32, 64])} {number}"
    if kind == 12:
        return f"lddw {number}, {pick(LARGE)}"
    if kind < 16:
        return f"{pick(LOADS)} {number}, [{pick(['r9+0', 'r9+3', 'r9+8', 'r9+12', 'r10-8', 'r10-16'])}]"
    if kind < 18:
        return f"stx{pick(['b', 'h', 'w', 'dw'])} [{pick(['r9+0', 'r9+5', 'r10-8', 'r10-24', 'r9+8', 'r9+13'])}], {other}"
    if kind == 18:
        return f"st{pick(['b', 'h', 'w', 'dw'])} [{pick(['r9+1', 'r9+8', 'r10-16'])}], {pick(SMALL)}"
    if kind < 23 and ahead > 1:
        offset = -1 if chance.random() < 0.01 else chance.randrange(0, min(ahead - 1, 6))
        return f"{pick(JUMPS)}{pick(['', '', '32'])} {number}, {value}, {offset:+d}"
    return f"call {pick([2, 3, 2, 3, 99])}" if chance.random() < 0.3 else "mov64 r0, r0"


def drawn_program(chance):
    lines = ["mov64 r9, r1"] + [f"mov64 r{one}, {chance.choice(SMALL)}" for one in (0, 4, 5, 6, 7, 8)]
    if chance.random() < 0.9:
        lines.append("mov64 r1, 0")
    for ahead in range(chance.choice([3, 8, 20, 60]), 0, -1):
        lines.append(drawn_line(chance, ahead))
        if lines[-1].startswith("call"):
            lines += [f"mov64 r{one}, r0" for one in (1, 2, 3, 4, 5)]
    return "\n".join([*lines, "exit"])


class Library:
    """libtelgovan.so, called as the header says. A room is a buffer of ctypes with its size."""

    ROOM = 1 << 18

    def __init__(self):
        folder = os.environ.get("TELGOVAN_LIB") or TOP / "bindings/out"
        self.lib = ctypes.CDLL(os.path.join(folder, "libtelgovan.so"))
        self.room = ctypes.create_string_buffer(self.ROOM)

    def written(self, export, *given):
        """The status, the place and the bytes of a call that writes into a room."""
        told = ctypes.create_string_buffer(24)
        export(*given, self.room, ctypes.c_size_t(self.ROOM), told)
        length, place, status, has_place = struct.unpack("<QQI?3x", told.raw)
        return status, place if has_place else None, ctypes.string_at(self.room, min(length, self.ROOM))

    @staticmethod
    def lent(given):
        return given, ctypes.c_size_t(len(given))

    def verdict(self, need, code):
        told = ctypes.create_string_buffer(16)
        self.lib.telgovan_verify(ctypes.c_uint32(need), *self.lent(code), told)
        status, cost, slot, has_slot = struct.unpack("<III?3x", told.raw)
        return [status, cost, slot if has_slot else None]

    def run(self, need, code, credit, argument, memory):
        part, told = ctypes.create_string_buffer(memory, max(1, len(memory))), ctypes.create_string_buffer(16)
        self.lib.telgovan_run(ctypes.c_uint32(need), *self.lent(code), ctypes.c_uint32(credit), ctypes.c_uint64(argument),
                              part, ctypes.c_size_t(len(memory)), told)
        r0, status, used = struct.unpack("<QII", told.raw)
        return [status, str(r0), used, list(part.raw[: len(memory)])]

    def traced(self, need, code, source, credit, argument, memory):
        """The steps of a run, as written."""
        run = (ctypes.c_uint32(credit), ctypes.c_uint64(argument), *self.lent(memory))
        return self.written(self.lib.telgovan_trace, ctypes.c_uint32(need), *self.lent(code), *self.lent(source.encode()), *run)

    def said(self, source, need, credit, argument, memory):
        """What the page tells of the same."""
        text = self.lent(source.encode())
        status, place, code = self.written(self.lib.telgovan_assemble, *text)
        if status:
            return [status, place]
        status, slot, told = self.written(self.lib.telgovan_explain, ctypes.c_uint32(need), *self.lent(code), *text)
        explained = [status, slot, told.decode()]
        status, slot, drawn = self.written(self.lib.telgovan_graph, ctypes.c_uint32(need), *self.lent(code), *text)
        shown = [status, slot, drawn.decode()]
        status, slot, steps = self.traced(need, code, source, credit, argument, memory)
        shown += [status, slot, steps.decode()]
        return [0, None, code.hex(), *self.verdict(need, code), *explained, *self.run(need, code, credit, argument, memory), *shown]


SAID = """(([source, need, credit, argument, memory]) => {
    const code = library.assemble(source);
    if (code.status) return [code.status, code.place];
    const hex = Array.from(code.bytes, (one) => one.toString(16).padStart(2, "0")).join("");
    const verdict = library.verify(need, code.bytes);
    const told = library.explain(need, code.bytes, source);
    const done = library.run(need, code.bytes, credit, BigInt(argument), Uint8Array.from(memory));
    const drawn = library.graph(need, code.bytes, source);
    const steps = library.trace(need, code.bytes, source, credit, BigInt(argument), Uint8Array.from(memory));
    const said = [0, null, hex, verdict.status, verdict.cost, verdict.slot, told.status, told.slot, told.text,
        done.status, String(done.r0), done.used, [...done.memory], ...[drawn, steps].flatMap((one) => [one.status, one.slot, one.text])];
    if (library.disassemble(code.bytes).text !== source + "\\n") said.push("it is read back otherwise");
    return said;
})"""


class RandomPrograms(InBrowser):
    def test_the_module_says_what_the_library_says(self):
        chance = random.Random(1)
        library = Library()
        counts = {}
        for _ in range(0, PROGRAMS, 250):
            cases = []
            for _ in range(250):
                memory = bytes(chance.randrange(256) for _ in range(chance.choice([16, 16, 20, 15])))
                cases.append((drawn_program(chance), chance.choice([16, 16, 16, 15, 0]),
                              chance.choice([2**31 - 1, 2**31 - 1, 40]), chance.choice(LARGE), memory))
            given = [[source, need, credit, str(argument), list(memory)] for source, need, credit, argument, memory in cases]
            said = self.tab.evaluate(f"{json.dumps(given)}.map({SAID})")
            for case, told in zip(cases, said):
                wanted = library.said(*case)
                self.assertEqual(told, wanted, case[0])
                what = "text" if told[0] else "refused" if told[3] else "not run" if told[9] else "run"
                counts[what] = counts.get(what, 0) + 1
        self.assertGreater(counts.get("run", 0), PROGRAMS // 10)
        self.assertGreater(counts.get("refused", 0), PROGRAMS // 10)
