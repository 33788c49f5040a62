"""Builds the wheel of the package telgovan: pip needs nothing else for it, and no network.
`release/build` also puts the shared object into it."""

import base64
import hashlib
import re
import zipfile
from pathlib import Path

HERE = Path(__file__).resolve().parent
TAG = "py3-none-any"
# Beside the package, where telgovan/_library.py looks for the shared object.
LIBRARY = "telgovan.libs/libtelgovan.so.0"


def stated(name):
    """A text of pyproject.toml."""
    text = (HERE / "pyproject.toml").read_text(encoding="utf-8")
    return re.search(rf'^{name} = "(.*)"$', text, re.MULTILINE).group(1)


def package_files():
    """The files of the package, by their paths in the wheel: its modules, and the mark that they are typed."""
    paths = sorted([*HERE.glob("telgovan/*.py"), HERE / "telgovan/py.typed"])
    return {f"telgovan/{path.name}": path.read_bytes() for path in paths}


def recorded(path, content):
    digest = base64.urlsafe_b64encode(hashlib.sha256(content).digest()).rstrip(b"=").decode()
    return f"{path},sha256={digest},{len(content)}\n"


def write_wheel(folder, tag, more, date, version=None, words=None):
    """Writes the wheel of this tag into the folder, and gives its name. `more` are further files, by
    their paths; those of licenses/ belong to what is told of the wheel. The date is of six numbers.
    Where the shared object is unproved, the version and the words tell it."""
    name, version = stated("name"), version or stated("version")
    summary = stated("description") + (f" ({words})" if words else "")
    told = f"{name}-{version}.dist-info"
    readme = (HERE / "README.md").read_text(encoding="utf-8")
    head = ["Metadata-Version: 2.1", f"Name: {name}", f"Version: {version}"]
    head += [f"Summary: {summary}", "License: MIT OR Apache-2.0"]
    head += [f"Requires-Python: {stated('requires-python')}"]
    head += ["Description-Content-Type: text/markdown"]
    about = [("Wheel-Version", "1.0"), ("Generator", name)]
    about += [("Root-Is-Purelib", str(tag == TAG).lower()), ("Tag", tag)]
    files = package_files()
    for path, content in more.items():
        files[f"{told}/{path}" if path.startswith("licenses/") else path] = content
    files[f"{told}/METADATA"] = ("\n".join(head) + "\n\n" + readme).encode()
    files[f"{told}/WHEEL"] = "".join(f"{key}: {text}\n" for key, text in about).encode()
    record = "".join(recorded(path, content) for path, content in files.items())
    files[f"{told}/RECORD"] = f"{record}{told}/RECORD,,\n".encode()
    wheel = f"{name}-{version}-{tag}.whl"
    with zipfile.ZipFile(Path(folder) / wheel, "w") as archive:
        for path, content in files.items():
            entry = zipfile.ZipInfo(path, date)
            entry.compress_type, entry.create_system = zipfile.ZIP_DEFLATED, 3
            entry.external_attr = 0o100644 << 16
            archive.writestr(entry, content, compresslevel=9)
    return wheel


def build_wheel(wheel_directory, config_settings=None, metadata_directory=None):
    """Writes the wheel of the package alone into the folder, and gives its name, as pip asks for it."""
    return write_wheel(wheel_directory, TAG, {}, (1980, 1, 1, 0, 0, 0))
