"""Graphs of programs: their boxes and edges are those of the plain model, and `docs/filter.svg` and `docs/spawn.svg` are what `dot` makes of one and of a tree."""

import re
import shutil
import sys
import tempfile
import unittest
from collections import Counter
from pathlib import Path

from instructions import costs, decode, successors
from programs import BPFJOBS, BPFRUN, TOP, assemble, telgovan, told
from rows import code_of, rows
from test_random import Writer

DOCS = Path(TOP) / "docs"
sys.path.insert(0, str(DOCS))
import draw  # noqa: E402  (the script stands in the folder that was just added)

BOX = re.compile(r"  s(\d+) \[label=<<font color=\"gray40\">cost (\d+)<br[^>]*/>.*?</font>(.*)>(?:, color=red)?\];")
EDGE = re.compile(r"  s(\d+) -> s(\d+) \[label=\"([a-z ]*)\"(?:, color=red)?\];")
SLOT = re.compile(r"slot (\d+)[,:] ")


def drawn(text):
    """The boxes of a graph, each with its cost and its slots, and the edges with what is told of them."""
    first, node, *lines, last = text.splitlines()
    assert (first, node, last) == ("digraph program {", '  node [shape=box, fontname="monospace"];', "}")
    boxes, edges = [], []
    for line in lines:
        box, edge = BOX.fullmatch(line), EDGE.fullmatch(line)
        if box:
            boxes.append((int(box[1]), int(box[2]), [int(slot) for slot in SLOT.findall(box[3])]))
        else:
            edges.append((int(edge[1]), int(edge[2]), edge[3]))
    return boxes, edges


def modelled(code):
    """The same by the model."""
    slots = decode(code)
    table = costs(slots)
    begun = [slot for slot, one in enumerate(slots) if one]
    entered = Counter(to for slot in begun for to in set(successors(slots, slot)))
    boxes = []
    for before, slot in zip([None, *begun], begun):
        if before is not None and successors(slots, before) == [slot] and entered[slot] == 1:
            boxes[-1].append(slot)
        else:
            boxes.append([slot])
    edges = []
    for box in boxes:
        onward = successors(slots, box[-1])
        words = ["not taken", "taken"] if len(onward) == 2 else [""]
        edges += [(box[0], to, word) for to, word in zip(onward, words)]
    return [(box[0], table[box[0]], box) for box in boxes], edges


class Rows(unittest.TestCase):
    """Edges and costs, which were worked out by hand."""

    PREFIX, MOST = "jeq r3, 0, {:+d}", 4096

    @staticmethod
    def boxes(code):
        return {slot: (cost, held) for slot, cost, held in drawn(telgovan.graph(0, code))[0]}

    def test_edges(self):
        for row in rows("edges.txt"):
            code = code_of(row.program)
            boxes, edges = drawn(telgovan.graph(0, code))
            found = {slot: [following] for _, _, held in boxes for slot, following in zip(held, held[1:])}
            for box, _, held in boxes:
                found[held[-1]] = [onward for came, onward, _ in edges if came == box]
            lines = [f"{slot}: {' '.join(map(str, found[slot]))}".rstrip() + ";" for slot in sorted(found)]
            with self.subTest(row.place):
                self.assertEqual(" ".join(lines).replace(": ;", ":;"), row.answer)

    def cost(self, code, slot, boxes):
        """The cost of a slot: of the block that begins there, or that a jump ahead of the program makes begin there; or of
        the rest of a program that has no room for a jump."""
        if slot in boxes:
            return boxes[slot][0]
        if len(code) < 8 * self.MOST:
            return self.boxes(assemble(self.PREFIX.format(slot)) + code)[slot + 1][0]
        rest = code[8 * slot:]
        try:
            return telgovan.Program(0, rest).cost
        except telgovan.Error:
            return self.boxes(rest)[0][0]

    def test_costs(self):
        """The cost of each slot, 0 where no instruction begins; of many slots the first 16 and the last."""
        for row in rows("costs.txt"):
            code = code_of(row.program)
            boxes, begun = self.boxes(code), {slot for slot, one in enumerate(decode(code)) if one}
            count = len(code) // 8
            slots = range(count) if count <= 16 else [*range(16), count - 1]
            found = [self.cost(code, slot, boxes) if slot in begun else 0 for slot in slots]
            with self.subTest(row.place):
                self.assertEqual(found, [int(word) for word in row.answer.split() if word != ".."])


class Graphs(unittest.TestCase):
    SEED, COUNT = 41, 300

    def agree(self, room, need, code):
        file = Path(room) / "program"
        file.write_bytes(code)
        status, text = told(BPFRUN, [str(file), "--need", str(need), "--graph"])
        accepted = told(BPFRUN, [str(file), "--need", str(need)])[0] == 0
        self.assertEqual(status, 0 if accepted else 1)
        self.assertEqual(drawn(text), modelled(code))
        self.assertEqual("red" in text, not accepted)

    def test_random_programs(self):
        writer = Writer(self.SEED)
        with tempfile.TemporaryDirectory() as room:
            for number in range(self.COUNT):
                need = writer.random.choice((0, 1, 8, 33))
                source = writer.program(need)
                with self.subTest(number=number, need=need, source=source):
                    self.agree(room, need, assemble(source))

    def test_the_longest(self):
        ladder = "mov64 r0, 0\n" + "jeq r0, 0, +0\n" * 4094 + "exit"
        with tempfile.TemporaryDirectory() as room:
            self.agree(room, 0, assemble(ladder))


@unittest.skipUnless(shutil.which("dot"), "needs dot, of Debian's graphviz")
class Drawings(unittest.TestCase):
    def test_dot_reads_each_graph(self):
        for program in sorted((Path(TOP) / "examples").glob("*.bpf")):
            for need in ("0", "40"):
                with self.subTest(program=program.name, need=need):
                    self.assertIn("<svg", draw.drawing(draw.graph(BPFRUN, program, need)))

    def test_the_drawings_of_the_pages(self):
        version = re.compile(r"graphviz version (\S+)")
        for drawn, text in ((draw.DRAWN, draw.graph(BPFRUN)), (draw.DRAWN_TREE, draw.tree(BPFJOBS))):
            with self.subTest(drawn.name):
                kept, made = drawn.read_text(encoding="utf-8"), draw.drawing(text)
                if version.findall(kept) != version.findall(made):
                    self.skipTest(f"{drawn.name} is by another dot: {version.findall(kept)}")
                self.assertEqual(kept, made)


if __name__ == "__main__":
    unittest.main()
