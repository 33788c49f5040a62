"""Writes the files of a release over what was built: archives, packages for Debian, a wheel. The same
tree, built files and date give the same bytes."""

import gzip
import hashlib
import os
import re
import shutil
import signal
import subprocess
import sys
import tarfile
import time
from collections import namedtuple
from pathlib import Path

import abi

# tree: the files of the commit. built: the folder of the programs and the libraries. provenance: a
# text. date: of the commit, in seconds. libc: the oldest glibc that will do, as (2, 34). level: how
# hard gzip and xz try, 1 to 9. words: those by which unproved files tell that they are, else None.
Release = namedtuple("Release", "version tree built provenance date libc level words")

PLATFORM = "x86_64-linux-gnu"
PROGRAMS = ("bpfjobs", "bpfrun")
UNITS = ("telgovan.service", "bpfjobs@.service", "bpfjobs-tenants.service")
LICENSES = ("LICENSE-APACHE", "LICENSE-MIT")
# what of others is linked in
THIRD_PARTY = "THIRD-PARTY.md"
# what a user reads, below the folder of pages, where its own links lead on
PAGES = re.compile(r"(CHANGELOG|README|SECURITY|THIRD-PARTY|bindings/\w+/README)\.md$|LICENSE|docs/((measurements|plots)/)?[\w-]+\.(md|svg)$|examples/")
DEBIAN_PARTS = {
    "telgovan": r"usr/bin/|lib/systemd/|usr/lib/[^/]+/libtelgovan\.so\.0$|usr/share/(bash-|man/man1/|telgovan/|doc/telgovan/)",
    "libtelgovan-dev": r"usr/include/|usr/lib/[^/]+/(libtelgovan\.(a|so)$|pkgconfig/)|usr/share/(man/man3/|doc/libtelgovan-dev/)",
}


# Each version of unproved files sorts ahead of the proved one, by Debian's order, Python's and Rust's.
UNPROVED = {"debian": "~unproved", "wheel": ".dev0+unproved", "crate": "-unproved"}


class Failed(Exception):
    """What stops a build, as it is told."""


def call(words, **more):
    """Runs a tool in a process group of its own, and gives what it prints. What it tells is told
    where it fails. It is ended where this is."""
    how = {"stdin": subprocess.DEVNULL, "stdout": subprocess.PIPE, "stderr": subprocess.STDOUT}
    ran = subprocess.Popen([str(word) for word in words], start_new_session=True, **{**how, **more})
    try:
        told = (ran.communicate()[0] or b"").decode(errors="replace")
    except BaseException:
        os.killpg(ran.pid, signal.SIGTERM)
        ran.wait()
        raise
    if ran.returncode:
        raise Failed(f"{told}{Path(words[0]).name} ended with {ran.returncode}")
    return told


def paths_below(folder):
    """The files and links below a folder, sorted."""
    found = (Path(at) / name for at, _, names in os.walk(folder) for name in names)
    return sorted(str(path.relative_to(folder)) for path in found)


def put(source, place, mode=0o644):
    """Copies a file, or writes a text, and makes the folders above it."""
    place.parent.mkdir(parents=True, exist_ok=True)
    if isinstance(source, str):
        place.write_text(source, encoding="utf-8")
    else:
        shutil.copyfile(source, place)
    place.chmod(mode)


def version_of(release, kind):
    return release.version + (UNPROVED[kind] if release.words else "")


# ---- archives


def write_archive(folder, top, place, release):
    """Writes the folder as NAME.tar.gz, below a folder `top`."""

    def plain(entry):
        entry.uid = entry.gid = 0
        entry.uname = entry.gname = "root"
        entry.mtime = release.date
        entry.mode = 0o755 if entry.isdir() or entry.mode & 0o100 else 0o644
        return entry

    folders = {str(parent) for path in paths_below(folder) for parent in Path(path).parents}
    with place.open("wb") as file, gzip.GzipFile("", "wb", release.level, file, mtime=0) as packed:
        with tarfile.open(fileobj=packed, mode="w", format=tarfile.GNU_FORMAT) as archive:
            for path in sorted({*folders, *paths_below(folder)}):
                name = top if path == "." else f"{top}/{path}"
                archive.add(folder / path, name, recursive=False, filter=plain)


def stage(release, room):
    """Puts what is installed into the room, as it stands below a prefix."""
    tree, built = release.tree, release.built
    words = {**os.environ, "TELGOVAN_LIB": str(built), "DESTDIR": str(room)}
    call([tree / "bindings/install", "/"], env=words)
    for name in PROGRAMS:
        put(built / name, room / "bin" / name, 0o755)
        put(tree / f"docs/man/{name}.1", room / f"share/man/man1/{name}.1")
        put(tree / f"docs/man/{name}.bash", room / f"share/bash-completion/completions/{name}")
    for name in UNITS:
        put(tree / "examples/systemd" / name, room / "lib/systemd/system" / name)
    if (built / "telgovan.html").exists():
        put(built / "telgovan.html", room / "share/telgovan/telgovan.html")
    pages = room / "share/doc/telgovan"
    for path in paths_below(tree):
        if PAGES.match(path):
            put(tree / path, pages / path, 0o755 if os.access(tree / path, os.X_OK) else 0o644)
    put(release.provenance, pages / "PROVENANCE")
    return room


def set_prefix(room, old, new, libraries):
    """Has the file for pkg-config name this prefix, and libraries below it."""
    place = room / libraries / "pkgconfig/telgovan.pc"
    text = place.read_text(encoding="utf-8")
    lines = {f"prefix={old}": f"prefix={new}", "libdir=${prefix}/lib": "libdir=${prefix}/" + libraries}
    for line, other in lines.items():
        if f"{line}\n" not in text:
            raise Failed(f"telgovan.pc has no line {line}")
        text = text.replace(f"{line}\n", f"{other}\n")
    place.write_text(text, encoding="utf-8")


def write_tarball(release, room, out):
    top = f"telgovan-{version_of(release, 'debian')}-{PLATFORM}"
    stage(release, room / top)
    # it works where it is unpacked
    set_prefix(room / top, "", "${pcfiledir}/../..", "lib")
    put(release.tree / "release/README.md", room / top / "INSTALL.md")
    write_archive(room / top, top, out / f"{top}.tar.gz", release)


# ---- Debian


def packed(place):
    """Packs a file as gzip -n does, beside its name, and removes it."""
    with place.open("rb") as file:
        content = file.read()
    with Path(f"{place}.gz").open("wb") as file, gzip.GzipFile("", "wb", 9, file, mtime=0) as other:
        other.write(content)
    place.unlink()


def stage_debian(release, room):
    """Both packages' files, as they stand below /."""
    usr = stage(release, room / "usr")
    libraries = usr / "lib" / PLATFORM
    libraries.mkdir()
    for name in ("libtelgovan.a", "libtelgovan.so", "libtelgovan.so.0", "pkgconfig"):
        (usr / "lib" / name).rename(libraries / name)
    (libraries / "libtelgovan.so.0").chmod(0o644)
    set_prefix(usr, "", "/usr", f"lib/{PLATFORM}")
    (room / "lib").mkdir()
    (usr / "lib/systemd").rename(room / "lib/systemd")
    for name in UNITS:
        unit = room / "lib/systemd/system" / name
        text = unit.read_text(encoding="utf-8")
        if "/usr/local/bin/bpfjobs " not in text:
            raise Failed(f"{name} starts no /usr/local/bin/bpfjobs")
        put(text.replace("/usr/local/bin/", "/usr/bin/"), unit)
    for page in sorted(usr.glob("share/man/man?/*")):
        packed(page)
    for name in LICENSES:
        (usr / "share/doc/telgovan" / name).unlink()
    texts = [release.tree / name for name in ("release/debian/copyright", "LICENSE-MIT", THIRD_PARTY)]
    license_text = "\n".join(text.read_text(encoding="utf-8") for text in texts)
    when = time.strftime("%a, %d %b %Y %H:%M:%S +0000", time.gmtime(release.date))
    source = (release.tree / "release/debian/control").read_text(encoding="utf-8")
    maintainer = re.search(r"^Maintainer: (.*)$", source, re.MULTILINE).group(1)
    version = version_of(release, "debian")
    for name in DEBIAN_PARTS:
        pages = usr / "share/doc" / name
        put(license_text, pages / "copyright")
        put(f"telgovan ({version}) unstable; urgency=medium\n\n"
            f"  * {version}: see CHANGELOG.md in telgovan's pages.\n\n"
            f" -- {maintainer}  {when}\n", pages / "changelog")
        packed(pages / "changelog")


def control_of(release, name, room):
    """The package's paragraph of release/debian/control, with what is known of this build."""
    text = (release.tree / "release/debian/control").read_text(encoding="utf-8")
    (found,) = (part for part in text.split("\n\n") if part.startswith(f"Package: {name}\n"))
    size = sum((room / path).lstat().st_size + 1023 >> 10 for path in paths_below(room))
    libc = ".".join(map(str, release.libc))
    words = {"@VERSION@": version_of(release, "debian"), "@SIZE@": str(size), "@LIBC@": libc}
    for word, other in words.items():
        found = found.replace(word, other)
    return found.rstrip("\n") + "\n"


def symbols_of(release):
    """The lines of Debian's list of symbols: each is there from the version that its list names on."""
    header = (release.tree / "include/telgovan.h").read_text(encoding="utf-8")
    yield "libtelgovan.so.0 telgovan #MINVER#\n"
    names = abi.functions(abi.declared(header)) + [abi.UNPROVED] * bool(release.words)
    yield from (f" {name}@Base {version_of(release, 'debian')}\n" for name in sorted(names))


def write_debian(release, room, out):
    whole = room / "whole"
    stage_debian(release, whole)
    paths, version = paths_below(whole), version_of(release, "debian")
    for name, pattern in DEBIAN_PARTS.items():
        part = room / name
        for path in (path for path in paths if re.match(pattern, path)):
            (part / path).parent.mkdir(parents=True, exist_ok=True)
            (whole / path).rename(part / path)
        sums = (f"{sum_of(part / path)}  {path}\n" for path in paths_below(part) if not (part / path).is_symlink())
        scripts = release.tree / "release/debian" / name
        told = {"control": control_of(release, name, part), "md5sums": "".join(sums)}
        if name == "telgovan":
            told["shlibs"] = f"libtelgovan 0 telgovan (>= {version})\n"
            told["symbols"] = "".join(symbols_of(release))
        for file, text in told.items():
            put(text, part / "DEBIAN" / file)
        for file in sorted(scripts.iterdir()) if scripts.is_dir() else ():
            put(file, part / "DEBIAN" / file.name, 0o755 if file.name == "prerm" else 0o644)
        for at, folders, files in os.walk(part):
            Path(at).chmod(0o755)
            for entry in [at, *(os.path.join(at, it) for it in folders + files)]:
                os.utime(entry, (release.date, release.date), follow_symlinks=False)
        words = ["dpkg-deb", "--root-owner-group", "-Zxz", f"-z{min(release.level, 6)}", "--threads-max=1", "--build", part]
        call([*words, out / f"{name}_{version}_amd64.deb"])
    left = paths_below(whole)
    if left:
        raise Failed(f"no package has {left[0]}")


def sum_of(path):
    return hashlib.md5(path.read_bytes(), usedforsecurity=False).hexdigest()


# ---- Python and Rust


def write_wheel(release, out):
    """Writes the wheel with the shared object in it, for each glibc from the one that it needs on."""
    sys.path.insert(0, str(release.tree / "bindings/python"))
    sys.dont_write_bytecode = True
    import wheel_of

    more = {wheel_of.LIBRARY: (release.built / "libtelgovan.so").read_bytes()}
    for name in (*LICENSES, THIRD_PARTY):
        more[f"licenses/{name}"] = (release.tree / name).read_bytes()
    more["licenses/PROVENANCE"] = release.provenance.encode()
    tag = "py3-none-manylinux_{}_{}_x86_64".format(*release.libc)
    date = max(time.gmtime(release.date)[:6], (1980, 1, 1, 0, 0, 0))
    version = version_of(release, "wheel")
    wheel_of.write_wheel(out, tag, more, tuple(date), version, release.words)


def write_crate(release, room, out):
    """Writes the Rust crate's sources, with the static library that they link."""
    version = version_of(release, "crate")
    top = f"telgovan-rust-{version}"
    for path in paths_below(release.tree / "bindings/rust"):
        # the tests read the repository's examples
        if not path.startswith("tests/"):
            put(release.tree / "bindings/rust" / path, room / path)
    told, manifest = 'version = "{}"\n', (room / "Cargo.toml").read_text(encoding="utf-8")
    if manifest.count(told.format(release.version)) != 1:
        raise Failed(f"Cargo.toml doesn't tell the version {release.version} once")
    put(manifest.replace(told.format(release.version), told.format(version)), room / "Cargo.toml")
    for name in (*LICENSES, THIRD_PARTY):
        put(release.tree / name, room / name)
    put(release.built / "libtelgovan.a", room / "lib/libtelgovan.a")
    put(release.provenance, room / "PROVENANCE")
    write_archive(room, top, out / f"{top}.tar.gz", release)


def write_all(release, room, out):
    """Writes each file of the release into the folder `out`. The room is empty."""
    rooms = {name: room / name for name in ("tarball", "debian", "crate")}
    for it in rooms.values():
        it.mkdir()
    write_tarball(release, rooms["tarball"], out)
    write_debian(release, rooms["debian"], out)
    write_wheel(release, out)
    write_crate(release, rooms["crate"], out)
