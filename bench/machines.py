"""Builds the machines of the benchmarks, and says of what machine the figures are."""

import functools
import os
import platform
import re
import shutil
import subprocess
import sys
import tempfile
from datetime import date

import scenarios

TOP = scenarios.TOP
HERE = f"{TOP}/bench"
OUT = f"{HERE}/out"
# Debian's packages of DPDK's machine, which are unpacked here and not installed
UNPACKED = f"{OUT}/dpdk"
PACKAGES = """libdpdk-dev librte-bpf23 librte-eal23 librte-kvargs23 librte-telemetry23 librte-mbuf23
librte-mempool23 librte-ring23 librte-net23 librte-ethdev23 librte-meter23 libfdt1 libpcap0.8 libbsd0
libelf1 libnuma1 libbsd-dev libmd-dev libmd0 libdbus-1-3""".split()
OVER_FRAMES = '-DMAIN="frames.h"'


@functools.cache
def say(text):
    """Tells what is left out, once."""
    print(f"bench: {text}", file=sys.stderr, flush=True)


def lacks(what, *tools):
    """Whether one of these tools isn't there, which leaves this out."""
    for tool in tools:
        if not shutil.which(tool):
            say(f"{what} is left out: {tool} isn't there")
            return True
    return False


def library():
    """The library that is measured."""
    folder = os.environ.get("TELGOVAN_LIB", f"{TOP}/bindings/out")
    file = f"{folder}/libtelgovan.a"
    if not os.path.isfile(file):
        sys.exit(f"bench: {file} isn't there: bindings/build makes it")
    return file


def is_unproved():
    """Whether the library is one that ./try compiled, with tests at run time."""
    with open(library(), "rb") as file:
        return b"telgovan_unproved" in file.read()


def written(room, name, text):
    with open(f"{room}/{name}", "w", encoding="utf-8") as file:
        file.write(text)
    return f"{room}/{name}"


def compiled(room, name, source, *words):
    """Builds a machine."""
    program = f"{room}/{name}"
    flags = ["-std=gnu11", "-O2", "-Wall", "-Wextra", f"-I{HERE}", f"-I{TOP}/include"]
    subprocess.run([os.environ.get("CC", "cc"), *flags, "-o", program, source, *words], check=True)
    return [program]


def found(what, room, name, source, *words):
    """Builds a machine, or None where a header or a library of it isn't there."""
    flags = ["-std=gnu11", "-O2", f"-I{HERE}", f"-I{TOP}/include", "-o", f"{room}/{name}"]
    done = subprocess.run([os.environ.get("CC", "cc"), *flags, source, *words], capture_output=True, check=False)
    if done.returncode == 0:
        return [f"{room}/{name}"]
    say(f"{what} is left out: it can't be compiled here")
    return None


def flat(room, form, *words):
    text = subprocess.run([sys.executable, f"{HERE}/flat.py", form], check=True, capture_output=True, text=True).stdout
    return compiled(room, form, written(room, f"{form}.c", text), *words)


# ---- DPDK's machine


def fetch_dpdk():
    """Unpacks Debian's packages of DPDK's machine. Whether they are there."""
    header = f"{UNPACKED}/usr/include/dpdk/rte_bpf.h"
    if not os.path.isfile(header) and shutil.which("apt-get") and shutil.which("dpkg"):
        os.makedirs(UNPACKED, exist_ok=True)
        with tempfile.TemporaryDirectory(prefix="bench-packages-") as packages:
            subprocess.run(["apt-get", "update", "-qq"], check=False, capture_output=True)
            subprocess.run(["apt-get", "download", "-qq", *PACKAGES], cwd=packages, check=False, capture_output=True)
            for name in os.listdir(packages):
                subprocess.run(["dpkg", "-x", f"{packages}/{name}", UNPACKED], check=True)
    if os.path.isfile(header):
        return True
    say("DPDK is left out: its packages can't be had")
    return False


def dpdk_environment():
    """The environment in which DPDK's libraries are found."""
    paths = f"{UNPACKED}/usr/lib/x86_64-linux-gnu:{UNPACKED}/lib/x86_64-linux-gnu"
    return {**os.environ, "LD_LIBRARY_PATH": paths}


def dpdk(room, name, *words):
    """DPDK's machine, or None."""
    if not fetch_dpdk():
        return None
    root, include, arch = UNPACKED, f"{UNPACKED}/usr/include", "x86_64-linux-gnu"
    flags = [f"-I{include}/dpdk", f"-I{include}/{arch}/dpdk", f"-I{include}"]
    flags += ["-march=native", "-include", f"{include}/{arch}/dpdk/rte_config.h"]
    paths = [f"{root}/usr/lib/{arch}", f"{root}/lib/{arch}"]
    flags += [f"-L{paths[0]}", "-l:librte_bpf.so.23", "-Wl,-rpath," + ":".join(paths)]
    flags += ["-Wl,--unresolved-symbols=ignore-in-shared-libs"]
    return found("DPDK", room, name, f"{HERE}/dpdk.c", *words, *flags)


# ---- programs of clang's


def of_clang(room, name, source, *words):
    """The bytes of a program for BPF that clang makes of a function in C. DPDK knows no jumps of 32 bits, which
    come with v3."""
    flags = ["-O2", "-target", "bpf", "-mcpu=v2", *words]
    subprocess.run(["clang", *flags, "-c", source, "-o", f"{room}/{name}.o"], check=True)
    cut = ["-O", "binary", "--only-section=.text", f"{room}/{name}.o", f"{room}/{name}.bin"]
    subprocess.run(["llvm-objcopy", *cut], check=True)
    return f"{room}/{name}.bin"


def for_kernel(room, name, source, lent, argument):
    """The bytes of such a function as a classifier of the kernel's."""
    with open(source, encoding="utf-8") as file:
        count = re.search(r"filter\((.*)\) \{", file.read()).group(1).count(",") + 1
    given = ", ".join(["frame", str(lent), str(argument)][:count])
    words = [f'-DSOURCE="{source}"', f"-DLENT={lent}", f"-DARGUMENTS={given}"]
    return of_clang(room, f"{name}_for_kernel", f"{HERE}/for_kernel.c", *words)


# ---- what is told


def machine():
    """The day and the machine, ahead of a table."""
    with open("/proc/cpuinfo", encoding="utf-8") as file:
        models = [line.partition(": ")[2].strip() for line in file if line.startswith("model name")]
    load = os.getloadavg()[0]
    name = models[0] if models else platform.machine()
    told = "; compiled by ./try, which is slower: no figures to show" if is_unproved() else ""
    return f"{date.today()}; {name}, {len(models)} processors, a load of {load:.1f}{told}"


def table(head, rows):
    """A table in Markdown; a cell that is None stays empty."""
    yield f"| {' | '.join(head)} |"
    yield f"|{'---|' * len(head)}"
    for row in rows:
        yield f"| {' | '.join('' if cell is None else str(cell) for cell in row)} |"
