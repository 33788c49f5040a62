"""The file VERSION says the version, and what else tells one agrees. Unproved programs, and what is made
of them, say that they are. What C sees of the library is what release/abi.txt lists."""

import ctypes
import os
import re
import subprocess
import sys
import tempfile
import unittest
import zipfile
from pathlib import Path

import programs
from programs import IS_UNPROVED, TOP, WORDS

sys.path[:0] = [os.path.join(TOP, "release"), os.path.join(TOP, "bindings/python")]
import abi  # noqa: E402  (the scripts stand in the folders that were just added)
import elf  # noqa: E402
import packages  # noqa: E402
import wheel_of  # noqa: E402


def text_of(path):
    with open(os.path.join(TOP, path), encoding="utf-8") as file:
        return file.read()


VERSION = text_of("VERSION").strip()
LIBRARY = os.path.join(os.environ.get("TELGOVAN_LIB", os.path.join(TOP, "bindings/out")), "libtelgovan.so")

# a file, and what stands before and behind a version there
TOLD = (
    ("CITATION.cff", r"^version: (.*)$"),
    ("bindings/rust/Cargo.toml", r'^version = "(.*)"$'),
    ("bindings/python/pyproject.toml", r'^version = "(.*)"$'),
    ("bindings/python/telgovan/__init__.py", r'^__version__ = "(.*)"$'),
    ("crates/bpfjobs_cli/src/texts.rt", r'const VERSION: &str = "(.*)";$'),
    ("crates/bpfrun_core/src/texts.rt", r'const VERSION: &str = "(.*)";$'),
    ("crates/server_log/src/log_line.rt", r'\\"version\\":\\"(.*?)\\"'),
    ("crates/sessions/src/server_reply.rt", r'\\"version\\":\\"(.*?)\\"'),
    ("docs/try.html", r'^const VERSION = "(.*)";$'),
    ("include/telgovan.h", r'^#define TELGOVAN_VERSION_TEXT "(.*)"$'),
)
# a file whose version is put in where it is installed or built, and the word that stands for it
FILLED = (
    ("bindings/telgovan.pc", "@VERSION@"),
    ("bindings/telgovan.3", "@VERSION@"),
    ("web/page.html", "/*VERSION*/"),
)


class Version(unittest.TestCase):
    def test_its_form(self):
        self.assertRegex(VERSION, r"\A(0|[1-9]\d*)\.(0|[1-9]\d*)\.(0|[1-9]\d*)\Z")

    def test_each_file_that_tells_one(self):
        for path, pattern in TOLD:
            with self.subTest(path):
                found = re.findall(pattern, text_of(path), re.MULTILINE)
                self.assertEqual((set(found), len(found) > 0), ({VERSION}, True))

    def test_each_file_that_is_filled(self):
        for path, word in FILLED:
            with self.subTest(path):
                self.assertEqual(text_of(path).count(word), 1)

    def test_the_newest_heading_of_the_changes(self):
        heading = re.search(r"^## (.*)$", text_of("CHANGELOG.md"), re.MULTILINE).group(1)
        self.assertRegex(heading, rf"\A{re.escape(VERSION)} \((unreleased|\d{{4}}-\d\d-\d\d)\)\Z")

    def test_the_library(self):
        """The number that C is told, in the source and from the shared object."""
        first, second, third = map(int, VERSION.split("."))
        number = first << 16 | second << 8 | third
        self.assertIn(f"ensures {{ result ≡ {number} }}", text_of("crates/telgovan_c/src/version.rt"))
        self.assertEqual(ctypes.CDLL(LIBRARY).telgovan_version(), number)

    def test_the_numbers_of_the_header(self):
        header = text_of("include/telgovan.h")
        for name, number in zip(("MAJOR", "MINOR", "PATCH"), VERSION.split(".")):
            self.assertIn(f"\n#define TELGOVAN_VERSION_{name} {number}\n", header)

    def test_the_programs(self):
        told = f"{VERSION} ({WORDS})" if IS_UNPROVED else VERSION
        for name, program in (("bpfjobs", programs.BPFJOBS), ("bpfrun", programs.BPFRUN)):
            for word in ("--version", "-V"):
                with self.subTest(name, word=word):
                    self.assertEqual(programs.told(program, [word]), (0, f"{name} {told}\n"))


class Unproved(unittest.TestCase):
    """An unproved library, and what is made of it, say that it is; a proved one says nothing of it."""

    def test_the_library(self):
        """As a host in C asks, and as release/build does."""
        library = ctypes.CDLL(LIBRARY)
        self.assertEqual(hasattr(library, abi.UNPROVED), IS_UNPROVED)
        self.assertEqual(elf.Elf(LIBRARY).text_of(abi.UNPROVED), WORDS if IS_UNPROVED else None)
        if IS_UNPROVED:
            text = (ctypes.c_char * 100).in_dll(library, abi.UNPROVED)
            self.assertEqual(ctypes.string_at(text).decode(), WORDS)

    def test_versions_of_packages(self):
        """Each sorts ahead of the proved version: dpkg and pip take that for the newer one."""
        wanted = {"debian": f"{VERSION}~unproved", "wheel": f"{VERSION}.dev0+unproved", "crate": f"{VERSION}-unproved"}
        for words in (None, WORDS):
            release = packages.Release(VERSION, None, None, "", 0, (2, 34), 1, words)
            for kind, version in wanted.items():
                with self.subTest(kind, words=words):
                    self.assertEqual(packages.version_of(release, kind), version if words else VERSION)

    def test_the_wheel(self):
        for version, words in ((VERSION, None), (f"{VERSION}.dev0+unproved", WORDS)):
            with self.subTest(version), tempfile.TemporaryDirectory() as room:
                name = wheel_of.write_wheel(room, wheel_of.TAG, {}, (1980, 1, 1, 0, 0, 0), version, words)
                self.assertEqual(name, f"telgovan-{version}-py3-none-any.whl")
                with zipfile.ZipFile(os.path.join(room, name)) as archive:
                    told = archive.read(f"telgovan-{version}.dist-info/METADATA").decode()
                self.assertIn(f"\nVersion: {version}\n", told)
                summary = re.search(r"^Summary: (.*)$", told, re.MULTILINE).group(1)
                self.assertEqual(summary, wheel_of.stated("description") + (f" ({words})" if words else ""))

    def install(self, built, room):
        words = {**os.environ, "TELGOVAN_LIB": built, "DESTDIR": room}
        script = os.path.join(TOP, "bindings/install")
        return subprocess.run([script, "/usr"], env=words, capture_output=True, text=True, check=False)

    def test_the_installed_library(self):
        """The file for pkg-config."""
        with tempfile.TemporaryDirectory() as room:
            self.assertEqual(self.install(os.path.dirname(LIBRARY), room).returncode, 0)
            told = Path(room, "usr/lib/pkgconfig/telgovan.pc").read_text(encoding="utf-8")
        self.assertIn(f"\nVersion: {VERSION}\n", told)
        self.assertEqual(re.search(r"^Description: .*?(\(.*\))?$", told, re.MULTILINE).group(1), f"({WORDS})" if IS_UNPROVED else None)

    def test_no_library_to_install(self):
        with tempfile.TemporaryDirectory() as room:
            ran = self.install(room, room)
            self.assertEqual((ran.returncode, os.listdir(room)), (1, []))
        self.assertIn("./try kept library", ran.stderr)


class Abi(unittest.TestCase):
    def test_the_list_is_what_the_header_declares(self):
        self.assertEqual(abi.declared(text_of("include/telgovan.h")), abi.listed())

    def test_the_shared_object_exports_what_is_listed(self):
        library = elf.Elf(LIBRARY)
        self.assertEqual(library.exports(), sorted(abi.functions(abi.listed()) + [abi.UNPROVED] * IS_UNPROVED))
        self.assertEqual(library.soname(), "libtelgovan.so.0")
        self.assertLessEqual(set(library.needed()), elf.GLIBC)


@unittest.skipIf(abi.lacking("abidiff", abi.COMPILER), "there is no abidiff, or no C compiler")
class Layouts(unittest.TestCase):
    """release/abi.py finds by abidiff what breaks a host that was compiled before."""

    HEADER = text_of("include/telgovan.h")

    def told(self, old, new):
        """What is said of the header where this text stands in the place of the other."""
        self.assertEqual(self.HEADER.count(old), 1)
        return abi.differences_of_header(self.HEADER.replace(old, new))

    def test_the_header_and_a_new_function(self):
        self.assertEqual(abi.differences_of_header(self.HEADER), "")
        version = "uint32_t telgovan_version(void);\n"
        self.assertEqual(self.told(version, version + "uint32_t telgovan_newest(void);\n"), "")

    def test_a_function_that_goes(self):
        self.assertIn("[D] 'function uint32_t telgovan_version()'", self.told("uint32_t telgovan_version(void);\n", ""))

    def test_the_type_of_an_argument(self):
        told = self.told("uint32_t telgovan_verify(uint32_t need,", "uint32_t telgovan_verify(uint64_t need,")
        self.assertIn("parameter 1 of type 'typedef uint32_t' changed", told)

    def test_the_layout_of_a_structure(self):
        fields = "    void *held;\n    bool made;\n"
        self.assertIn("offset changed", self.told(fields, "    bool made;\n    void *held;\n"))
        # (which leaves each declaration as it was, so that release/abi.txt doesn't show it)
        packed = self.told("struct telgovan_verdict {", "#pragma pack(1)\nstruct telgovan_verdict {")
        self.assertIn("type size changed from 128 to 104 (in bits)", packed)

    def test_a_library_without_a_function(self):
        """As it is built: without debug information."""
        with tempfile.TemporaryDirectory() as room:
            made = abi.object_of(self.HEADER.replace("uint32_t telgovan_version(void);\n", ""), Path(room))
            subprocess.run(["strip", "--strip-debug", made], check=True)
            self.assertIn("[D] 'function uint32_t telgovan_version()'", abi.differences(made))


if __name__ == "__main__":
    unittest.main()
