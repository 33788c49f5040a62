"""Nanoseconds a frame of one filter that is held and run on the same frames: bench/filter.c as eBPF, as
an expression of libpcap, in Lua and in WebAssembly. What each answers is compared before it is timed."""

import os
import struct
import subprocess
import sys

import scenarios
from machines import HERE, OVER_FRAMES, TOP, compiled, dpdk, dpdk_environment, flat, for_kernel, found
from machines import lacks, library, machine, of_clang, say, table, written

sys.path.append(f"{TOP}/tests")
import captures  # noqa: E402  (it stands in the folder that was just added)

COUNT, SEED = 1000, 39
SHORTEST, LONGEST = 60, 128
EXPRESSION = "ip[0] = 0x45 and ip[6:2] & 0x3fff = 0 and ip and tcp dst port 443"
SOURCE = f"{HERE}/filter.c"
BUDGET = 4096
# what each is; what keeps a stranger's accesses in bounds there, and what bounds its run
KINDS = {
    "telgovan": ("interpreter", "verified ahead", "known ahead"),
    "switch": ("interpreter", "nothing", "nothing"),
    "threaded": ("interpreter", "nothing", "nothing"),
    "dpdk": ("interpreter", "validated ahead", "no loops"),
    "libpcap": ("interpreter of classic BPF", "tested", "no loops"),
    "lua": ("interpreter of Lua 5.4", "tested", "a count hook"),
    "dpdk jit": ("compiled, no interpreter", "validated ahead", "no loops"),
    "kernel jit": ("compiled, no interpreter", "verified ahead", "no endless loop"),
    "wasm": ("compiled, no interpreter", "tested or trapped", "a count in each block"),
    "wasm, no copy": ("the same on frames in its memory", "tested or trapped", "a count in each block"),
    "native, budget": ("the processor's own code", "nothing", "a count in each block"),
    "native": ("the processor's own code", "nothing", "nothing"),
}


def frames(room, count=COUNT):
    """A file of so many frames."""
    whole = [captured for captured, _ in captures.packets(SEED, count)]
    cut = [frame.ljust(SHORTEST, b"\0")[:LONGEST] for frame in whole]
    with open(f"{room}/frames", "wb") as file:
        file.write(b"".join(struct.pack("<I", len(frame)) + frame for frame in cut))
    return f"{room}/frames"


# ---- machines: the words that run each, without those of frames.h at the end


def native(room, name, function, made):
    """The function of an object file, as the processor's own code."""
    folder = f"{room}/{function}"
    os.makedirs(folder, exist_ok=True)
    listed = f'{{"{made}", (unsigned long (*)()){function}}}'
    written(folder, "functions.h", f"unsigned long {function}();\n#define FUNCTIONS {listed}\n")
    words = compiled(folder, name, f"{HERE}/native.c", f"-I{folder}", OVER_FRAMES, made)
    return [*words, made]


def with_budget(room, name, *words, budget=BUDGET):
    """An object of the filter whose basic blocks count: clang has each call a function, and then puts it in line."""
    blocks, count, both = (f"{room}/{name}_{part}.bc" for part in ("blocks", "count", "both"))
    flags = ["-O2", "-emit-llvm", *words]
    each = ["-fsanitize-coverage=trace-pc", "-mllvm", "-sanitizer-coverage-prune-blocks=0"]
    subprocess.run(["clang", *flags, *each, "-c", SOURCE, "-o", blocks], check=True)
    subprocess.run(["clang", *flags, f"-DBUDGET={budget}", "-c", f"{HERE}/budget.c", "-o", count], check=True)
    subprocess.run(["llvm-link", blocks, count, "-o", both], check=True)
    subprocess.run(["clang", "-O2", *words, "-c", both, "-o", f"{room}/{name}.o"], check=True)
    return f"{room}/{name}.o"


def native_with_budget(room, listed):
    """That object as the processor's own code, once a budget that is too small has ended a run of it."""
    if lacks("native code with a budget", "llvm-link"):
        return None
    os.makedirs(f"{room}/small")
    small = native(f"{room}/small", "budget", "within_budget", with_budget(f"{room}/small", "native", budget=3))
    if subprocess.run([*small, listed, "answers"], capture_output=True, check=False).returncode == 0:
        sys.exit("bench: a budget of three blocks ends no run, so nothing is counted")
    return native(room, "budget", "within_budget", with_budget(room, "native"))


def wasm(room):
    if lacks("WebAssembly", "node", "wasm-ld", "llvm-link"):
        return None
    made, module = with_budget(room, "wasm", "--target=wasm32"), f"{room}/filter.wasm"
    words = ["--no-entry", "--export=within_budget", "--export=__heap_base", "-o", module]
    subprocess.run(["wasm-ld", *words, made], check=True)
    return ["node", f"{HERE}/wasm.js", module]


def kernel(room):
    """The kernel's machine, or None where this user may not load a program."""
    words = found("the kernel", room, "kernel", f"{HERE}/kernel.c", OVER_FRAMES)
    if not words:
        return None
    code = for_kernel(room, "filter", SOURCE, SHORTEST, 0)
    tried = subprocess.run([*words, code, "/dev/null", "time"], capture_output=True, text=True, check=False)
    if tried.returncode == 0:
        return [*words, code]
    say(f"the kernel is left out: it loads no program: {tried.stderr.strip().rpartition(': ')[2]}")
    return None


def dpdk_machine(room, name, code, *words):
    made = dpdk(room, name, OVER_FRAMES, *words)
    return [*made, code] if made else None


def lua(room, name="lua", *words):
    made = found("Lua", room, name, f"{HERE}/lua.c", *(words or [OVER_FRAMES]), "-I/usr/include/lua5.4", "-llua5.4")
    return [*made, f"{HERE}/filter.lua"] if made else None


def libpcap(room):
    words = found("libpcap", room, "pcap", f"{HERE}/pcap.c", OVER_FRAMES, "-lpcap")
    return [*words, written(room, "expression", EXPRESSION)] if words else None


def object_of(room):
    subprocess.run([os.environ.get("CC", "cc"), "-O2", "-c", SOURCE, "-o", f"{room}/plain.o"], check=True)
    return f"{room}/plain.o"


def machines(room, listed):
    """Each machine that is to be had here."""
    code, module = of_clang(room, "filter", SOURCE), wasm(room)
    found_here = {
        "telgovan": [*compiled(room, "telgovan", f"{HERE}/telgovan.c", OVER_FRAMES, library()), code],
        "switch": [*flat(room, "switch", OVER_FRAMES), code],
        "threaded": [*flat(room, "threaded", OVER_FRAMES), code],
        "dpdk": dpdk_machine(room, "dpdk", code),
        "libpcap": libpcap(room),
        "lua": lua(room),
        "dpdk jit": dpdk_machine(room, "dpdk_jit", code, "-DJIT"),
        "kernel jit": kernel(room),
        "wasm": module,
        "wasm, no copy": [*module, "inside"] if module else None,
        "native, budget": native_with_budget(room, listed),
        "native": native(room, "native", "filter", object_of(room)),
    }
    return {name: words for name, words in found_here.items() if words}


# ---- what is measured


def told(name, words, listed, form):
    where = dpdk_environment() if name.startswith("dpdk") else None
    done = subprocess.run([*words, listed, form], check=True, stdout=subprocess.PIPE, text=True, env=where)
    return done.stdout.split()


def compared(all_machines, listed):
    """How many frames pass, and the steps of a run of the first machine on average. Ends where two differ."""
    answers = {name: told(name, words, listed, "answers") for name, words in all_machines.items()}
    wanted, steps = next(iter(answers.values()))
    for name, (given, _) in answers.items():
        if given != wanted:
            others = sum(one != other for one, other in zip(given, wanted))
            sys.exit(f"bench: {name} answers otherwise than the first to {others} frames")
    return wanted.count("1"), steps


def in_turn(all_machines, listed, rounds):
    """The quickest of each machine, in nanoseconds a frame."""
    quickest = {name: float("inf") for name in all_machines}
    for _ in range(rounds):
        for name, words in all_machines.items():
            quickest[name] = min(quickest[name], float(told(name, words, listed, "time")[0]))
    return quickest


def empty_loop(room, words, listed, rounds):
    """What the kernel's loop of runs takes of a program that answers at once."""
    with open(f"{room}/empty", "wb") as file:
        file.write(scenarios.insn(0xB7) + scenarios.insn(0x95))
    return min(float(told("kernel jit", [words[0], f"{room}/empty"], listed, "time")[0]) for _ in range(rounds))


def measure(room, rounds):
    """The lines of the table, and what is drawn."""
    if lacks("the filter", "clang", "llvm-objcopy"):
        return None
    before, listed = machine(), frames(room)
    all_machines = machines(room, listed)
    passed, steps = compared(all_machines, listed)
    quickest = in_turn(all_machines, listed, rounds)
    rows = [[name, f"{time:.1f}", *KINDS[name]] for name, time in quickest.items()]
    if "kernel jit" in all_machines:
        alone = empty_loop(room, all_machines["kernel jit"], listed, rounds)
        rows.append(["an empty program in the kernel", f"{alone:.1f}", KINDS["kernel jit"][0], "", ""])
    of_frames = f"{COUNT:,} frames, of which {passed} pass; {steps} steps on average"
    head = f"{before}; {of_frames}; the quickest of {rounds} turns."
    columns = ["Machine", "ns a frame", "what it is", "bounds its accesses", "bounds its run"]
    return [head, "", *table(columns, rows)], ("ns a frame", {"a filter held and run": quickest})
