"""The man pages and the completions are what docs/man/make.py makes of the programs' own --help."""

import os
import shutil
import subprocess
import sys
import unittest
from pathlib import Path

import programs

FOLDER = Path(programs.TOP) / "docs/man"
sys.path.insert(0, str(FOLDER))
import make  # noqa: E402  (the script stands in the folder that was just added)

PROGRAMS = {"bpfjobs": programs.BPFJOBS, "bpfrun": programs.BPFRUN}


def completed(name, *words):
    """What bash offers for the last of these words."""
    script = f"""source "$1"; shift
        COMP_WORDS=("$@"); COMP_CWORD=$(($# - 1)); _{name}; printf '%s\\n' "${{COMPREPLY[@]}}" """
    ran = subprocess.run(["bash", "-c", script, "bash", str(FOLDER / f"{name}.bash"), name, *words],
                         capture_output=True, text=True, check=True, timeout=programs.PATIENCE, cwd=programs.TOP)
    return ran.stdout.split()


class Manual(unittest.TestCase):
    def test_the_files_are_those_of_the_help(self):
        for name, program in PROGRAMS.items():
            for file, text in make.files_of(name, program).items():
                with self.subTest(file):
                    self.assertEqual((FOLDER / file).read_text(encoding="utf-8"), text)

    def test_each_option_and_command_has_its_place(self):
        for name, program in PROGRAMS.items():
            told = make.help_of(name, program)
            page = (FOLDER / f"{name}.1").read_text(encoding="utf-8")
            commands = [one.words for one in told.entries("Commands") if one.words != "help"]
            helps = [told] + [make.help_of(name, program, command) for command in commands]
            for option in {one for part in helps for one in make.options_of(part)}:
                with self.subTest(name=name, option=option):
                    self.assertIn(make.roff(option), page)
            for command in commands:
                self.assertIn(f".SS {command}\n", page)

    @unittest.skipUnless(shutil.which("man"), "needs man, of Debian's man-db")
    def test_the_pages_are_read_without_a_warning(self):
        for name in PROGRAMS:
            ran = subprocess.run(["man", "--warnings", "-l", str(FOLDER / f"{name}.1")], capture_output=True, text=True,
                                 check=False, env={**os.environ, "MANWIDTH": "100", "LC_ALL": "C.UTF-8"}, timeout=programs.PATIENCE)
            self.assertEqual((ran.returncode, ran.stderr), (0, ""))
            self.assertIn("EXIT STATUS", ran.stdout)


class Completions(unittest.TestCase):
    def test_commands(self):
        self.assertEqual(completed("bpfjobs", "dis"), ["disassemble"])
        commands = ["ask", "assemble", "check", "disassemble", "job", "journal", "play", "run", "serve", "verify"]
        self.assertEqual(sorted(completed("bpfjobs", "help", "")), commands)

    def test_options(self):
        self.assertEqual(completed("bpfjobs", "serve", "--p"), ["--port"])
        self.assertEqual(completed("bpfjobs", "serve", "--g"), ["--grants"])
        self.assertEqual(completed("bpfjobs", "verify", "--n"), ["--need"])
        self.assertEqual(completed("bpfrun", "--mem"), ["--memory"])
        self.assertIn("--explain", completed("bpfrun", "a.bpf", "--"))

    def test_values(self):
        self.assertEqual(completed("bpfrun", "examples/byte"), ["examples/byte_at.bpf"])
        self.assertEqual(completed("bpfrun", "a.bpf", "--memory", "examples/q"), ["examples/query.bin"])
        self.assertEqual(completed("bpfrun", "a.bpf", "--need", ""), [])
        self.assertEqual(completed("bpfjobs", "run", "--workers", ""), [])
        self.assertEqual(completed("bpfjobs", "serve", "--socket", "examples/byte"), ["examples/byte_at.bpf"])
        self.assertEqual(completed("bpfjobs", "journal", "examples/byte"), ["examples/byte_at.bpf"])
