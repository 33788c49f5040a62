"""The pages quote what the crates say."""

import glob
import os
import re
import shutil
import sys
import unittest

TOP = os.path.dirname(os.path.dirname(os.path.abspath(__file__)))
sys.path.insert(0, os.path.join(TOP, "docs"))
import modules  # noqa: E402  (the scripts stand in the folder that was just added)
import refusals  # noqa: E402

QUOTE = re.compile(r"^`((?:crates|examples)/[^`]+)`:\n\n```\w+\n(.*?)^```$", re.MULTILINE | re.DOTALL)


def text_of(path):
    with open(os.path.join(TOP, path), encoding="utf-8") as file:
        return file.read()


class Quotes(unittest.TestCase):
    def test_the_headline(self):
        quotes = QUOTE.findall(text_of("docs/theorem.md"))
        self.assertGreater(len(quotes), 8)
        for path, quoted in quotes:
            text = text_of(path)
            for block in quoted.strip("\n").split("\n\n"):
                with self.subTest(path=path, block=block.split("\n")[0]):
                    self.assertIn(block, text)


    def test_the_tutorial(self):
        """It has each of its sources whole."""
        quotes = dict(QUOTE.findall(text_of("examples/tutorial.md")))
        sources = {f"examples/tutorial/{name}" for name in os.listdir(f"{TOP}/examples/tutorial") if name.endswith(".c")}
        self.assertEqual(set(quotes), sources)
        for path, quoted in quotes.items():
            with self.subTest(path):
                self.assertEqual(text_of(path), quoted)


class Map(unittest.TestCase):
    def test_the_lists_of_modules(self):
        """They are what docs/modules.py makes of the first sentences of the modules."""
        page = text_of("docs/architecture.md")
        self.assertEqual(modules.made(page), page)


class Generated(unittest.TestCase):
    """.gitattributes says what scripts write."""

    def test_each_pattern_has_files(self):
        lines = text_of(".gitattributes").splitlines()
        marked = {path for line in lines if line.endswith(" linguist-generated") for path in self.files(line.split()[0])}
        self.assertLessEqual(set(refusals.PROGRAMS), marked)

    def files(self, pattern):
        found = glob.glob(pattern, root_dir=TOP)
        self.assertTrue(found, pattern)
        return found


class ThirdParty(unittest.TestCase):
    """THIRD-PARTY.md lists the kit's crates that a release reaches."""

    PAGE = text_of("THIRD-PARTY.md")
    RELEASED = ("bpfjobs", "bpfrun", "telgovan_c", "std")

    def test_the_crates(self):
        uses = {name: names.split() for name, names in re.findall(r"^(\w+)[^:#\n]*:(.*)$", text_of("crates.txt"), re.MULTILINE)}
        reached, left = set(), list(self.RELEASED)
        while left:
            name = left.pop()
            if name not in reached:
                reached.add(name)
                left += uses[name] if name in uses else self.uses_in_kit(name)
        lists, table = self.PAGE.split("## What the linkers add")[0].split("\n## Crates ")
        named = {*re.findall(r"`(\w+)`", "".join(re.findall(r"^- .*(?:\n  .*)*", lists, re.MULTILINE)))}
        named |= {*re.findall(r"^\| `(\w+)`", table, re.MULTILINE)}
        self.assertLessEqual(reached - set(uses), named)
        if shutil.which("rt"):
            self.assertEqual(reached - set(uses), named)

    def uses_in_kit(self, name):
        """The crates that one of the kit uses, by the kit; none where there is no kit."""
        kit = os.path.dirname(os.path.dirname(os.path.realpath(shutil.which("rt") or "")))
        try:
            with open(f"{kit}/rlibs/{name}.rlib/format", encoding="utf-8") as file:
                return re.findall(r"^dep (\w+)$", file.read(), re.MULTILINE)
        except FileNotFoundError:
            return []

    def test_the_kit(self):
        kit = re.search(r"rattle-kit-\w+", text_of("docs/open.md"))[0]
        self.assertEqual(set(re.findall(r"rattle-kit-\w+", self.PAGE)), {kit})


class Container(unittest.TestCase):
    """Containerfile has the packages that tests ask for."""

    FOLDERS = ("tests", "bindings/python")

    def test_what_skips_name(self):
        lines = re.search(r"--no-install-recommends (.*?)&& rm", text_of("Containerfile"), re.DOTALL)[1].splitlines()
        packages = {word for line in lines if not line.startswith("#") for word in line.rstrip("\\").split()}
        paths = [f"{folder}/{name}" for folder in self.FOLDERS for name in os.listdir(f"{TOP}/{folder}") if name.endswith(".py")]
        skips = [line for path in paths for line in text_of(path).splitlines() if re.search("skip.*Debian's [a-z]", line)]
        wanted = set(re.findall(r"(?:Debian's|or|and) ([a-z][\w-]+)(?=[\" ,:])", "\n".join(skips)))
        self.assertGreater(len(wanted), 10)
        self.assertLessEqual(wanted, packages)


class Pages(unittest.TestCase):
    # what `docs/proving.md` names stands in the toolchain's folder
    FOLDERS = ("", "docs", "docs/measurements", "examples", "tests", "web")
    NAMED = re.compile(r"`((?:docs|examples|tests|web|bindings)/[\w/.-]+\.(?:md|svg))`")

    def test_how_long_they_are(self):
        self.assertLessEqual(text_of("README.md").count("\n"), 130)
        self.assertLessEqual(text_of("docs/benchmarks.md").count("\n"), 250)

    def test_each_page_that_one_names_is_there(self):
        names = [(folder, name) for folder in self.FOLDERS for name in os.listdir(f"{TOP}/{folder}")]
        for folder, name in names:
            if name.endswith(".md") and name != "proving.md":
                for page in self.NAMED.findall(text_of(os.path.join(folder, name))):
                    with self.subTest(of=name, page=page):
                        self.assertTrue(os.path.exists(os.path.join(TOP, page)))
