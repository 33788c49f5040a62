"""Files of Debian's source packages that the suites are compiled from.

Nothing of them is kept in this repository. They lie in a cache folder, and each has to have the sum
that `sums.txt` tells, so that a package whose files are other ones is noticed.
"""

import contextlib
import hashlib
import os
import re
import shutil
import subprocess
import tempfile
from collections import namedtuple
from pathlib import Path

HERE = Path(__file__).resolve().parent
SUMS = HERE / "sums.txt"
CACHE = Path(os.environ.get("XDG_CACHE_HOME") or "~/.cache").expanduser() / "telgovan/suites"
# A bound that only a hang meets.
PATIENCE = 600
MIRROR = "http://deb.debian.org/debian"
KEYS = "/usr/share/keyrings/debian-archive-keyring.gpg"
LISTS = (("deb", "bookworm"), ("deb-src", "bookworm"), ("deb", "trixie"))

# A source: the package, the words with which apt-get gets it, and the archive that has the files.
Source = namedtuple("Source", "package words archive")
SOURCES = {
    "linux-6.1": Source("linux-source-6.1", ("download",), "*.deb"),
    "linux-6.12": Source("linux-source-6.12", ("download",), "*.deb"),
    "dpdk-22.11": Source("dpdk", ("--download-only", "source"), "*.orig.tar.xz"),
}


class Missing(Exception):
    """Files that aren't there, and why."""


class Changed(Exception):
    """A file that has another sum than sums.txt tells."""


def sums():
    """The sum of each file, by its source and its path there."""
    listed = {name: {} for name in SOURCES}
    for line in SUMS.read_text(encoding="ascii").splitlines():
        wanted, _, path = line.partition("  ")
        name, _, inner = path.partition("/")
        listed[name][inner] = wanted
    return listed


def provide(name):
    """The folder of a source, each of whose files has to have its sum."""
    for path, wanted in sums()[name].items():
        file = CACHE / name / path
        if not file.exists():
            raise Missing(f"{name} is not in {CACHE}")
        if hashlib.sha256(file.read_bytes()).hexdigest() != wanted:
            raise Changed(f"{file} has another sum than tests/suites/sums.txt tells")
    return CACHE / name


def is_there(name):
    try:
        return bool(provide(name))
    except Missing:
        return False


def fetch_missing(names):
    """Fetches the sources of these that aren't there. Where that can't be done, it is told."""
    missing = [name for name in names if not is_there(name)]
    if not missing:
        return
    CACHE.mkdir(parents=True, exist_ok=True)
    with tempfile.TemporaryDirectory(dir=CACHE, prefix="fetching-") as room:
        for name in missing:
            try:
                fetch(name, Path(room) / name)
            except Missing as why:
                print(f"suites: {why}", flush=True)


# ---- Debian's packages, by its ordinary client with lists of our own


def apt(room, *words, folder=None):
    """Runs apt-get with the lists in the room alone. The lists of this machine stay as they are."""
    for inner in ("lists/partial", "archives/partial"):
        (room / inner).mkdir(parents=True, exist_ok=True)
    lines = (f"{kind} [signed-by={KEYS}] {MIRROR} {suite} main\n" for kind, suite in LISTS)
    (room / "sources.list").write_text("".join(lines), encoding="ascii")
    own = {
        "Dir::Etc::sourcelist": room / "sources.list",
        "Dir::Etc::sourceparts": "/dev/null",
        "Dir::State::lists": room / "lists",
        "Dir::Cache": room,
        "APT::Sandbox::User": "",
    }
    given = [word for key, value in own.items() for word in ("-o", f"{key}={value}")]
    how = {"stdout": subprocess.PIPE, "stderr": subprocess.STDOUT, "text": True, "timeout": PATIENCE}
    try:
        ran = subprocess.run(["apt-get", *given, *words], cwd=folder or room, check=False, **how)
    except (FileNotFoundError, subprocess.TimeoutExpired) as error:
        raise Missing(f"apt-get {words[0]}: {error}") from None
    # an update that reached no server has status 0
    wrong = re.search("^(?:E: |W: (?:Failed|Some)).*", ran.stdout, re.MULTILINE)
    if ran.returncode or wrong:
        raise Missing(f"apt-get {' '.join(words)}: {wrong[0] if wrong else ran.returncode}")


def opened(room, source):
    """The archive with the files that a package has."""
    found = sorted(room.glob(source.archive))
    if not found:
        raise Missing(f"the package {source.package} has no {source.archive}")
    if found[0].suffix != ".deb":
        return found[0]
    with subprocess.Popen(["dpkg-deb", "--fsys-tarfile", found[0]], stdout=subprocess.PIPE) as files:
        words = ["tar", "-x", "--wildcards", "-C", room, "./usr/src/*.tar.xz"]
        subprocess.run(words, stdin=files.stdout, check=True)
    return next((room / "usr/src").glob("*.tar.xz"))


def fetch(name, room):
    """Fetches a package, and keeps the files of it that sums.txt names."""
    source = SOURCES[name]
    (room / "files").mkdir(parents=True)
    print(f"suites: fetches Debian's package {source.package}", flush=True)
    apt(room.parent, "update")
    apt(room.parent, *source.words, source.package, folder=room)
    paths = [f"*/{path}" for path in sums()[name]]
    words = ["tar", "-xJf", opened(room, source), "-C", room / "files", "--strip-components=1"]
    if subprocess.run([*words, "--wildcards", *paths], check=False).returncode:
        raise Missing(f"the package {source.package} hasn't all files of tests/suites/sums.txt")
    with contextlib.suppress(FileNotFoundError):
        shutil.rmtree(CACHE / name)
    os.rename(room / "files", CACHE / name)


# ---- pieces of a file, which a shim includes


def sliced(file, first, end=None):
    """The lines of a file from the first match on, up to the next match of the other expression.
    Lines that include headers are left out."""
    text = file.read_text(encoding="utf-8")
    begin = re.compile(f"^{first}", re.MULTILINE).search(text).start()
    stop = re.compile(f"^{end}", re.MULTILINE).search(text, begin + 1).start() if end else len(text)
    return re.sub(r"^#\s*include.*$", "", text[begin:stop], flags=re.MULTILINE)


def compiled(room, shim, slices=(), folders=(), words=()):
    """The shared object of a shim, in a room that has the slices that it includes."""
    compiler = shutil.which("cc") or shutil.which("gcc") or shutil.which("clang")
    if not compiler:
        raise Missing("there is no C compiler")
    room = Path(room)
    for name, text in slices:
        (room / name).write_text(text, encoding="utf-8")
    made = room / f"{Path(shim).stem}.so"
    given = ["-O0", "-w", "-Wl,-z,defs", "-shared", "-fPIC", f"-I{room}", f"-I{HERE / 'shims'}"]
    given += [f"-I{folder}" for folder in folders]
    subprocess.run([compiler, *given, *words, "-o", made, HERE / "shims" / shim], check=True)
    return made
