"""The kernel's selftests of its verifier: ours accepts or refuses as they say, or is stricter."""

import ctypes
import itertools
import struct
import tempfile
from collections import Counter, namedtuple

import sources
from outcomes import Tally, loaded

SOURCE = "linux-6.1"
SLOT = 8
FOLDER = "tools/testing/selftests/bpf"
ACCEPTED = sources.HERE / "accepted.txt"
# The slices of test_verifier.c that the shim includes, ahead of the tables.
HEAD = (r"#ifndef ENOTSUPP", r"static struct bpf_test tests")
LENGTH = (r"static int probe_filter_length", r"static bool skip_unsupported_map")

TITLES = {True: "`verifier/*.c`, accepted", False: "`verifier/*.c`, refused"}
CALL, WIDE, LOCAL_CALL, FRAME_POINTER = 0x85, 0x18, 1, 10
LOADS = {0x61, 0x69, 0x71, 0x79}
PACKET_LOADS = {0x20, 0x28, 0x30, 0x40, 0x48, 0x50}

# A program of a table, what the kernel's verifier says of it, and its answer where the kernel runs it.
Test = namedtuple("Test", "group name code need pointers is_fixed accepts message answer")


def tables(folder):
    """The tables of all files, a group each."""
    parts, groups = [], []
    for place, file in enumerate(sorted((folder / FOLDER / "verifier").glob("*.c"))):
        text = file.read_text(encoding="utf-8")
        parts.append(f"static struct bpf_test group_{place}[] = {{\n{text}\n}};\n")
        groups.append(f'{{"{file.stem}", group_{place}, ARRAY_SIZE(group_{place})}},\n')
    kind = "static struct { const char *name; struct bpf_test *tests; int count; }"
    return "".join([*parts, f"{kind} groups[] = {{\n", *groups, "};\n"])


def shim(folder, room):
    """The tables, as functions of C."""
    file = folder / FOLDER / "test_verifier.c"
    head = sources.sliced(file, *HEAD) + sources.sliced(file, *LENGTH)
    slices = (("verifier_head.slice.c", head), ("verifier_tables.slice.c", tables(folder)))
    folders = [folder / "tools/include", folder / "include/uapi", folder / FOLDER]
    made = ctypes.CDLL(str(sources.compiled(room, "verifier_table.c", slices, folders)))
    for export in (made.suite_group, made.suite_name, made.suite_message):
        export.restype = ctypes.c_char_p
    return made


def test_at(table, *place):
    code, pointers, answer = ctypes.c_void_p(), ctypes.POINTER(ctypes.c_int)(), ctypes.c_uint32()
    slots = table.suite_program(*place, ctypes.byref(code))
    need = table.suite_context(*place, ctypes.byref(pointers))
    return Test(
        table.suite_group(place[0]).decode(),
        table.suite_name(*place).decode(),
        ctypes.string_at(code, slots * SLOT),
        need,
        set(itertools.takewhile(lambda it: it >= 0, pointers)) if need else set(),
        bool(table.suite_is_fixed(*place)),
        bool(table.suite_accepts(*place)),
        table.suite_message(*place).decode(),
        answer.value if table.suite_answer(*place, ctypes.byref(answer)) else None,
    )


def tests_of(table):
    for group in range(table.suite_groups()):
        for at in range(table.suite_count(group)):
            yield test_at(table, group, at)


# ---- programs that can't be compared

MAPS = "it has maps, other programs or types"
KIND = "its context is of another kind"
HELPER = "it calls a helper of the kernel"
POINTER = "it loads from a packet, or a pointer from its context"


def why_left_out(test):
    """Why a program can't be compared, or None."""
    if test.is_fixed:
        return MAPS
    if not test.need:
        return KIND
    for opcode, registers, offset, _ in struct.iter_unpack("<BBhi", test.code):
        source = registers >> 4
        if opcode == WIDE and source:
            return MAPS
        if opcode == CALL and source != LOCAL_CALL:
            return HELPER
        is_pointer = opcode in LOADS and source != FRAME_POINTER and offset in test.pointers
        if is_pointer or opcode in PACKET_LOADS:
            return POINTER
    return None


# ---- programs that ours accepts and the kernel refuses, each of which is listed with the rule


def listed():
    """The rule of each listed program, by its group and name as they stand there."""
    rules, rule = {}, None
    for line in ACCEPTED.read_text(encoding="utf-8").splitlines():
        if line.startswith("    "):
            rules[line.strip()] = rule
        elif line and not line.startswith("#"):
            rule = line
    return rules


def other_answer(tally, test, program):
    """Ours where the kernel's test has another answer, or None. A program whose answer comes from
    its context isn't asked: that is another one there."""
    zeros, ones = (program.execute(bytearray([fill] * test.need)).r0 for fill in (0, 255))
    if test.answer is None or zeros != ones:
        return None
    if zeros % 2**32 != test.answer:
        return zeros
    tally.runs += 1
    return None


def place_of(test):
    return f"{test.group}: {test.name}"


def judge(tally, test, rules):
    """Counts a program, and gives the number that it is refused by. One that both accept is run."""
    program, number = loaded(test.need, test.code)
    other = None
    if program is not None:
        with program:
            other = other_answer(tally, test, program)
    if other is None:
        compare(tally, test, number, rules)
    else:
        tally.differences.append(f"{place_of(test)}: {other:#x} and not {test.answer:#x}")
    return number


def compare(tally, test, number, rules):
    """Counts a program: both verdicts are one, or ours is stricter, or looser by a listed rule."""
    if (number is None) == test.accepts:
        tally.agree += 1
    elif number is not None:
        tally.refused[number] += 1
    elif place_of(test) in rules:
        tally.named.append((place_of(test), rules[place_of(test)]))
    else:
        tally.differences.append(f"{place_of(test)}: the kernel refuses it: {test.message}")


def compare_all(tests, tallies, rules):
    """Counts the programs below the kernel's verdict. Gives the numbers by which ours refuses those
    that the kernel refuses too."""
    numbers = Counter()
    for test in tests:
        why = why_left_out(test)
        if why:
            tallies[test.accepts].left_out[why] += 1
        else:
            number = judge(tallies[test.accepts], test, rules)
            numbers[number] += not test.accepts and number is not None
    return +numbers


def suite():
    """Two tallies: of the programs that the kernel accepts, and of those that it refuses."""
    folder, rules = sources.provide(SOURCE), listed()
    version = SOURCE.replace("linux-", "Linux ")
    tallies = {accepts: Tally(title, version) for accepts, title in TITLES.items()}
    with tempfile.TemporaryDirectory(prefix="telgovan-") as room:
        numbers = compare_all(tests_of(shim(folder, room)), tallies, rules)
    accepted, refused = tallies[True], tallies[False]
    accepted.notes.append(f"{accepted.runs} of those that agree ran, and gave the kernel's answer")
    by = ", ".join(f"{times} by {number}" for number, times in sorted(numbers.items()))
    refused.notes.append(f"ours refuses {by}")
    for place in sorted(rules.keys() - {place for place, _ in refused.named}):
        refused.differences.append(f"{place}: is listed, and not accepted")
    return [accepted, refused]
