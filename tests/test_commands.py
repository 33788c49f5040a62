"""Rows of command lines: words, input or files, the status and what is printed. ` / ` ends a line."""

import os
import pty
import subprocess
import tempfile
import unittest

from programs import BPFJOBS, BPFRUN, TOP, Server, may_listen, told, tried
from rows import fields


def lines_of(text):
    return text.strip().replace(" / ", "\n")


class Commands(unittest.TestCase):
    def test_bpfjobs(self):
        for place, (words, given, status, output) in fields("commands.txt", 4):
            with self.subTest(place):
                if status == "serve":
                    self.check_served(words.split(), [int(number) for number in output.split()])
                elif (given, status, output) == ("", "0", ""):
                    self.check_help(BPFJOBS, words.split())
                else:
                    ran = told(BPFJOBS, words.split(), lines_of(given).encode())
                    self.assertEqual((ran[0], ran[1].rstrip()), (int(status), lines_of(output)))

    def check_served(self, words, wanted):
        """It serves on the port, and ends after so many connections, where these are few."""
        port, _workers, sessions = wanted
        if not may_listen(port):
            self.skipTest(f"nobody may listen on port {port} here")
        with Server(words=words, port=port) as server:
            for _ in range(min(sessions, 3)):
                self.assertEqual(server.ask({"op": "account", "tenant": "t"}), [{"code": 74, "ok": False}])
            if sessions <= 3:
                self.assertEqual(server.status(), 0)
            else:
                self.assertIsNone(server.process.poll())

    def check_help(self, program, words):
        status, text = told(program, words)
        self.assertEqual(status, 0)
        self.assertIn("Usage: ", text)

    def test_bpfrun(self):
        """The words name the files: the program, as text, hexadecimal or bytes, and the memory."""
        with tempfile.TemporaryDirectory() as room:
            for place, (words, file, memory, status, output) in fields("trials.txt", 5):
                words = words.split()
                with self.subTest(place):
                    if "--help" in words:
                        self.check_help(BPFRUN, words)
                        continue
                    self.write(room, words, lines_of(file), memory)
                    paths = [os.path.join(room, word) if self.is_file(word, words) else word for word in words]
                    code, text = tried(paths)
                    text = text.replace(f"{room}/", "").rstrip()
                    self.assertEqual((code, text), (int(status), lines_of(output)))

    @staticmethod
    def is_file(word, words):
        return word == words[0] or word == "m"

    def write(self, room, words, file, memory):
        names = {"m": bytes.fromhex(memory)}
        if words:
            is_text = words[0].endswith((".bpf", ".hex"))
            names[words[0]] = file.encode() if is_text else bytes.fromhex(file)
        for name, content in names.items():
            with open(os.path.join(room, name), "wb") as out:
                out.write(content)


class Colours(unittest.TestCase):
    """Nothing is coloured, on a terminal neither, but what bpfrun says is wrong with a program: no other escape comes."""

    WORDS = {
        BPFJOBS: ["--help", "help play", "run --help", "nothing", "verify", "--version"],
        BPFRUN: ["--help", "--nothing", "--version", "examples/byte_at.bpf --need 15 --graph", "nowhere.bpf"],
    }
    REFUSED = "examples/byte_at.bpf --need 15"

    def on_a_terminal(self, program, words, **more):
        ours, theirs = pty.openpty()
        given = {name: text for name, text in os.environ.items() if name != "NO_COLOR"} | more
        with open(ours, "rb", buffering=0) as told:
            with subprocess.Popen([program, *words], stdin=subprocess.DEVNULL, stdout=theirs, stderr=theirs, cwd=TOP, env=given):
                os.close(theirs)
                pieces = []
                while True:
                    try:
                        piece = told.read(4096)
                    except OSError:
                        break
                    if not piece:
                        break
                    pieces.append(piece)
        return b"".join(pieces)

    def test_no_escape(self):
        for program, lines in self.WORDS.items():
            for line in lines:
                with self.subTest(program=program, words=line):
                    told = self.on_a_terminal(program, line.split())
                    self.assertTrue(told)
                    self.assertNotIn(b"\x1b", told)

    def test_what_is_wrong(self):
        """It is red on a terminal, unless NO_COLOR is set, and the same but for that."""
        coloured = self.on_a_terminal(BPFRUN, self.REFUSED.split())
        plain = self.on_a_terminal(BPFRUN, self.REFUSED.split(), NO_COLOR="1")
        self.assertTrue(coloured.startswith(b"\x1b[1;31merror[33]\x1b[0m: "), coloured)
        self.assertIn(b" \x1b[1;31m^^^^^^\x1b[0m\r\n", coloured)
        self.assertEqual(coloured.replace(b"\x1b[1;31m", b"").replace(b"\x1b[0m", b""), plain)
        self.assertEqual(plain.replace(b"\r", b"").decode(), tried([f"{TOP}/{self.REFUSED.split()[0]}", "--need", "15"])[1].replace(f"{TOP}/", ""))


if __name__ == "__main__":
    unittest.main()
