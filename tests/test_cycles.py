"""The lowest slot on a cycle: of pseudo-random graphs, by the library and by a plain search for
strongly connected components. `.ci/in_time.py` tells how long a refusal takes."""

import random
import unittest

from instructions import decode, successors
from programs import assemble, telgovan
from rows import refusal


def lowest_on_a_cycle(code):
    """The lowest slot of a component of two slots or more, or that leads to itself (Kosaraju's algorithm)."""
    slots = decode(code)
    begun = [slot for slot, one in enumerate(slots) if one]
    onward = {slot: successors(slots, slot) for slot in begun}
    back = {slot: [] for slot in begun}
    for slot in begun:
        for to in onward[slot]:
            back[to].append(slot)
    left = []
    seen = set()
    for first in begun:
        path = [(first, iter(onward[first]))] if first not in seen else []
        seen.add(first)
        while path:
            slot, rest = path[-1]
            to = next((to for to in rest if to not in seen), None)
            if to is None:
                left.append(slot)
                path.pop()
            else:
                seen.add(to)
                path.append((to, iter(onward[to])))
    component = {}
    for first in reversed(left):
        path = [first] if first not in component else []
        while path:
            slot = path.pop()
            if slot not in component:
                component[slot] = first
                path += [before for before in back[slot] if before not in component]
    sizes = {}
    for slot in begun:
        sizes[component[slot]] = sizes.get(component[slot], 0) + 1
    return next((slot for slot in begun if sizes[component[slot]] > 1 or slot in onward[slot]), None)


def drawn(source, slots):
    """A program of so many slots, each of which leads on, or to pseudo-random slots."""
    lines = []
    for slot in range(slots - 1):
        to = source.randrange(slots) if source.random() < 0.5 else source.randrange(slot + 1, slots)
        line = source.choice(("mov64 r0, 0", "mov64 r0, 0", "jeq r3, 0, {:+}", "ja {:+}"))
        lines.append(line.format(to - slot - 1))
    return assemble("\n".join([*lines, "exit"]))


def verdict(code):
    try:
        return f"cost {telgovan.Program(0, code).cost}"
    except telgovan.Error as error:
        return refusal(error.number, error.place)


def long_programs():
    """A program of 4,096 slots that is accepted, and one whose last slots are a cycle."""
    line = "mov64 r0, 0\n" * 4094
    return assemble(line + "mov64 r0, 0\nexit"), assemble(line + "jeq r3, 0, -2\nexit")


class Cycles(unittest.TestCase):
    SEED, COUNT = 57, 2000

    def test_random_graphs(self):
        source = random.Random(self.SEED)
        found = 0
        for number in range(self.COUNT):
            code = drawn(source, source.randint(2, 24))
            lowest, answer = lowest_on_a_cycle(code), verdict(code)
            with self.subTest(number=number, code=code.hex()):
                if lowest is None:
                    self.assertFalse(answer.startswith("23"))
                else:
                    found += 1
                    self.assertEqual(answer, f"23 at {lowest}")
        self.assertGreater(found, self.COUNT // 4)

    def test_long_programs(self):
        self.assertEqual(list(map(verdict, long_programs())), ["cost 4096", "23 at 4093"])


if __name__ == "__main__":
    unittest.main()
