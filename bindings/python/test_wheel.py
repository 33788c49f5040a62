"""The wheel that pip installs."""

import base64
import hashlib
import tempfile
import unittest
import zipfile
from pathlib import Path

import wheel_of


class Wheel(unittest.TestCase):
    def test_it_holds_the_package_and_records_each_file(self):
        with tempfile.TemporaryDirectory() as room:
            name = wheel_of.build_wheel(room)
            self.assertEqual(name, f"telgovan-{wheel_of.stated('version')}-py3-none-any.whl")
            with zipfile.ZipFile(Path(room) / name) as archive:
                files = {path: archive.read(path) for path in archive.namelist()}
        modules = {path.name for path in (wheel_of.HERE / "telgovan").iterdir() if path.is_file()}
        packed = {path.partition("/")[2] for path in files if path.startswith("telgovan/")}
        self.assertEqual(packed, modules)
        self.assertLessEqual({"__init__.py", "_refusals.py", "py.typed"}, modules)
        for name in modules:
            self.assertEqual(files[f"telgovan/{name}"], (wheel_of.HERE / "telgovan" / name).read_bytes())
        (record,) = (path for path in files if path.endswith("/RECORD"))
        rows = [line.split(",") for line in files[record].decode().splitlines()]
        self.assertEqual({row[0] for row in rows}, set(files))
        for path, digest, length in rows:
            if path != record:
                found = base64.urlsafe_b64encode(hashlib.sha256(files[path]).digest()).rstrip(b"=").decode()
                self.assertEqual((digest, length), (f"sha256={found}", str(len(files[path]))))

    def test_one_with_the_shared_object(self):
        more = {wheel_of.LIBRARY: b"object", "licenses/LICENSE": b"text"}
        date = (2026, 11, 27, 18, 0, 0)
        with tempfile.TemporaryDirectory() as room, tempfile.TemporaryDirectory() as other:
            name = wheel_of.write_wheel(room, "py3-none-linux_x86_64", more, date)
            self.assertEqual(wheel_of.write_wheel(other, "py3-none-linux_x86_64", more, date), name)
            self.assertEqual((Path(room) / name).read_bytes(), (Path(other) / name).read_bytes())
            with zipfile.ZipFile(Path(room) / name) as archive:
                told = f"telgovan-{wheel_of.stated('version')}.dist-info"
                self.assertEqual(archive.read(wheel_of.LIBRARY), b"object")
                self.assertEqual(archive.read(f"{told}/licenses/LICENSE"), b"text")
                self.assertIn(b"Root-Is-Purelib: false\n", archive.read(f"{told}/WHEEL"))
        looked_for = (wheel_of.HERE / "telgovan/_library.py").read_text(encoding="utf-8")
        self.assertIn(f'"../{wheel_of.LIBRARY}"', looked_for)


if __name__ == "__main__":
    unittest.main()
