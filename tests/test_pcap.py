"""examples/c/pcap_filter.c beside tcpdump's own filter, on a capture of packets of many kinds."""

import os
import shutil
import subprocess
import tempfile
import unittest
from pathlib import Path

import captures
import programs

TOP = Path(programs.TOP)
LIBRARY = Path(os.environ.get("TELGOVAN_LIB", TOP / "bindings/out"))
COUNT = 6000
# a header of 20 bytes, and no fragment
PLAIN = "ip[0] = 0x45 and ip[6:2] & 0x3fff = 0"
PORT = PLAIN + " and udp dst port {} and greater 42"

# Answers 1 for a TCP segment over IPv4 that opens a connection.
OPENS = """
        mov64 r0, 0
        jlt r2, 54, +12
        ldxh r2, [r1+12]
        jne r2, 8, +10
        ldxb r2, [r1+14]
        jne r2, 69, +8
        ldxh r2, [r1+20]
        and64 r2, 65343
        jne r2, 0, +5
        ldxb r2, [r1+23]
        jne r2, 6, +3
        ldxb r2, [r1+47]
        and64 r2, 18
        jeq r2, 2, +1
        exit
        mov64 r0, 1
        exit
"""


def compiler():
    """A C compiler that finds libpcap, or none."""
    found = shutil.which(os.environ.get("CC", "cc"))
    if not found:
        return None
    tried = subprocess.run([found, "-E", "-"], input=b"#include <pcap.h>\n", capture_output=True, check=False)
    return found if tried.returncode == 0 else None


CC, TCPDUMP = compiler(), shutil.which("tcpdump")


def ran(*words):
    done = subprocess.run([str(word) for word in words], capture_output=True, timeout=programs.PATIENCE, check=False)
    return done.returncode, done.stdout.decode(), done.stderr.decode()


@unittest.skipUnless(CC, "needs Debian's gcc or clang, and libpcap-dev")
@unittest.skipUnless(TCPDUMP, "needs Debian's tcpdump")
class Captures(unittest.TestCase):
    @classmethod
    def setUpClass(cls):
        cls.room = tempfile.TemporaryDirectory()
        cls.addClassCleanup(cls.room.cleanup)
        cls.folder = Path(cls.room.name)
        cls.host, cls.given = cls.folder / "pcap_filter", cls.folder / "in.pcap"
        source, archive = TOP / "examples/c/pcap_filter.c", LIBRARY / "libtelgovan.a"
        flags = ["-std=c11", "-O2", "-Wall", "-Wextra", "-Werror", f"-I{TOP}/include"]
        subprocess.run([CC, *flags, "-o", cls.host, source, archive, "-lpcap"], check=True)
        cls.listed = captures.packets(39, COUNT)
        cls.given.write_bytes(captures.capture(cls.listed))
        (cls.folder / "opens.bpf").write_text(OPENS)

    def by_program(self, program, need, argument):
        """The capture that the host writes, and what it prints."""
        out = self.folder / "ours.pcap"
        status, told, why = ran(self.host, program, need, argument, self.given, out)
        self.assertEqual((status, why), (0, ""))
        return out.read_bytes(), told

    def by_tcpdump(self, expression):
        out = self.folder / "theirs.pcap"
        status, _, why = ran(TCPDUMP, "-n", "-r", self.given, "-w", out, expression)
        self.assertEqual(status, 0, why)
        return out.read_bytes()

    def check(self, program, need, argument, expression):
        with self.subTest(program=str(program), argument=argument):
            ours, told = self.by_program(program, need, argument)
            self.assertEqual(ours, self.by_tcpdump(expression))
            passed = int(told.split()[0])
            self.assertEqual(told, f"{passed} of {COUNT} packets pass\n")
            self.assertTrue(0 < passed < COUNT / 2, told)

    def test_writes_what_tcpdump_writes(self):
        self.check(TOP / "examples/filter.bpf", 40, 0, PORT.format(53))
        for port in (53, 123, 5353):
            self.check(TOP / "examples/clang/port_filter.bin", 38, port, PORT.format(port))
        opens = PLAIN + " and tcp[13] & 0x12 = 2 and greater 54"
        self.check(self.folder / "opens.bpf", 54, 0, opens)

    def test_programs_that_say_the_same_of_each_packet(self):
        every, none = self.folder / "every.bpf", self.folder / "none.bpf"
        every.write_text("mov64 r0, 1\nexit\n")
        none.write_text("mov64 r0, 2\nexit\n")
        self.assertEqual(self.by_program(every, 0, 0), (self.given.read_bytes(), f"{COUNT} of {COUNT} packets pass\n"))
        self.assertEqual(self.by_program(none, 0, 0), (captures.capture([]), f"0 of {COUNT} packets pass\n"))
        # what is shorter than the need doesn't pass
        long = [len(captured) for captured, _ in self.listed if len(captured) >= 60]
        self.assertEqual(self.by_program(every, 60, 0)[1], f"{len(long)} of {COUNT} packets pass\n")

    def test_packets_stay_as_they_were_captured(self):
        """What a program writes to its memory is not what goes out."""
        writes = self.folder / "writes.bpf"
        writes.write_text("mov64 r0, 1\nstb [r1+0], 255\nexit\n")
        self.assertEqual(self.by_program(writes, 1, 0)[0], self.given.read_bytes())

    def test_refusals(self):
        out, bad, cut = self.folder / "out.pcap", self.folder / "bad.bpf", self.folder / "cut.pcap"
        bad.write_text("ja -1\n")
        cut.write_bytes(self.given.read_bytes()[:-1])
        filter_bpf = TOP / "examples/filter.bpf"
        self.assertEqual(ran(self.host, bad, 0, 0, self.given, out), (1, "", f"{bad}: refused 23 at slot 0\n"))
        bad.write_text("exit\nhalt\n")
        self.assertEqual(ran(self.host, bad, 0, 0, self.given, out), (1, "", f"{bad}: refused 11 at line 2\n"))
        status, told, why = ran(self.host, filter_bpf, 40, 0, cut, out)
        self.assertEqual((status, told), (1, ""))
        self.assertIn("truncated", why)
        self.assertEqual(ran(self.host, filter_bpf, 40, 0, bad, out)[0], 1)
        self.assertEqual(ran(self.host, filter_bpf)[0], 2)

    def test_both_interpreters_agree(self):
        words = (TOP / "examples/filter.bpf", 40, 0, self.given, "0.02", PORT.format(53))
        status, told, why = ran(self.host, *words)
        self.assertEqual((status, why), (0, ""), told)
        first, second = told.splitlines()
        self.assertEqual(first.split("; ")[1], second.split("; ")[1])


if __name__ == "__main__":
    unittest.main()
