"""The shared object of the library: where it is looked for, and how it is loaded."""

from __future__ import annotations

import ctypes
import os

HERE = os.path.dirname(os.path.abspath(__file__))

# From this folder on: that of a release's wheel, and that of bindings/build.
PLACES = ("../telgovan.libs/libtelgovan.so.0", "../../out/libtelgovan.so")
# Where the system's loader looks, as after bindings/install.
INSTALLED = "libtelgovan.so.0"

ADVICE = """
telgovan needs its library, libtelgovan.so. One of these gives it:
  - set TELGOVAN_LIB to the folder that has it;
  - in telgovan's repository, `./try kept library` compiles one without a proof, in some minutes,
    and prints its folder for TELGOVAN_LIB;
  - in telgovan's repository, `bindings/build` proves and builds one, in bindings/out;
  - `bindings/install PREFIX` puts that where the system's loader finds it, once ldconfig has run;
  - a release's wheel has one in it."""


def place() -> str:
    """The file that is loaded: of the folder that TELGOVAN_LIB names, of the wheel that this
    package came with, of bindings/out, or installed."""
    folder = os.environ.get("TELGOVAN_LIB")
    if folder:
        return os.path.join(folder, "libtelgovan.so")
    for name in PLACES:
        path = os.path.normpath(os.path.join(HERE, name))
        if os.path.exists(path):
            return path
    return INSTALLED


def load() -> ctypes.CDLL:
    """The library. ImportError, which says what to do, where it can't be loaded."""
    path = place()
    try:
        return ctypes.CDLL(path)
    except OSError as error:
        raise ImportError(f"{error}\n{ADVICE}", name="telgovan", path=path) from None


LIBRARY = load()
