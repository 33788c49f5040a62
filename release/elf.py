"""Reads what a shared object or a program of x86-64 has: what it needs, and what it exports."""

import struct
from collections import namedtuple
from pathlib import Path

# Types of sections, of entries of the dynamic section, and a symbol of no section.
PROGBITS = 1
DYNAMIC, DYNSYM, VERNEED = 6, 11, 0x6FFFFFFE
NEEDED, SONAME = 1, 14
UNDEFINED, GLOBAL, WEAK = 0, 1, 2
# glibc's own shared objects: the library, and the loader that comes with it.
GLIBC = {"libc.so.6", "ld-linux-x86-64.so.2"}

Section = namedtuple("Section", "kind offset size link address")


class Elf:
    """The tables of a file, by its sections. Raises ValueError for what isn't ELF of 64 bits."""

    def __init__(self, path):
        self.bytes = Path(path).read_bytes()
        if self.bytes[:6] != b"\x7fELF\x02\x01":
            raise ValueError(f"{path} is no ELF file of 64 bits")
        (start,) = struct.unpack_from("<Q", self.bytes, 40)
        size, count = struct.unpack_from("<HH", self.bytes, 58)
        self.sections = []
        for place in range(start, start + size * count, size):
            row = struct.unpack_from("<IIQQQQI", self.bytes, place)
            self.sections.append(Section(row[1], row[4], row[5], row[6], row[3]))

    def of_kind(self, kind):
        return [section for section in self.sections if section.kind == kind]

    def text(self, table, place):
        """The text at a place of the table of texts with this number."""
        start = self.sections[table].offset + place
        return self.bytes[start : self.bytes.index(0, start)].decode()

    def dynamic(self, tag):
        """The texts of the dynamic section's entries of this tag."""
        found = []
        for section in self.of_kind(DYNAMIC):
            for place in range(section.offset, section.offset + section.size, 16):
                kind, value = struct.unpack_from("<QQ", self.bytes, place)
                if kind == tag:
                    found.append(self.text(section.link, value))
        return found

    def needed(self):
        """The shared objects that it needs."""
        return self.dynamic(NEEDED)

    def soname(self):
        return (self.dynamic(SONAME) or [None])[0]

    def symbols(self):
        """The names that it defines for others, each with its address."""
        found = {}
        for section in self.of_kind(DYNSYM):
            for place in range(section.offset, section.offset + section.size, 24):
                name, info, _, of, address = struct.unpack_from("<IBBHQ", self.bytes, place)
                if of != UNDEFINED and info >> 4 in (GLOBAL, WEAK):
                    found[self.text(section.link, name)] = address
        return found

    def exports(self):
        """The names that it defines for others, in order."""
        return sorted(self.symbols())

    def text_of(self, name):
        """The text of C's at the symbol, or None where it doesn't define that."""
        address = self.symbols().get(name)
        for section in self.of_kind(PROGBITS):
            if address is not None and section.address <= address < section.address + section.size:
                start = section.offset + address - section.address
                return self.bytes[start : self.bytes.index(0, start)].decode()
        return None

    def versions(self):
        """The versions of symbols that it needs, as (file, version)."""
        found = set()
        for section in self.of_kind(VERNEED):
            at = section.offset
            while True:
                _, count, file, first, after = struct.unpack_from("<HHIII", self.bytes, at)
                one = at + first
                for _ in range(count):
                    _, _, _, name, following = struct.unpack_from("<IHHII", self.bytes, one)
                    found.add((self.text(section.link, file), self.text(section.link, name)))
                    one += following
                if not after:
                    break
                at += after
        return sorted(found)

    def glibc(self):
        """The newest version of glibc that a symbol needs, which is the oldest that will do, as
        (2, 34); or None."""
        words = [name.removeprefix("GLIBC_") for _, name in self.versions() if name.startswith("GLIBC_2")]
        return max((tuple(map(int, word.split("."))) for word in words), default=None)
