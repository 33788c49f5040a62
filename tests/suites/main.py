"""Runs suites that others wrote over the library, several at once.

    python3 main.py [--there] [--at-once N] [NAME..]    NAME is one of those of SUITES

Each suite is told in a line, with what stands behind its counts, and all in a table at the end, which
is that of docs/compiling.md. With --there nothing is fetched. Status: 0 where nothing differs.
"""

import argparse
import sys
from concurrent.futures import ProcessPoolExecutor

import dpdk
import interpreter
import kernel
import sources
import texts
import verifier

# The suites by their names, each with its source.
SUITES = {
    "kernel": (kernel.suite_of_ebpf, kernel.SOURCE),
    "classic": (kernel.suite_of_classic, kernel.SOURCE),
    "interpreter": (interpreter.suite_of_operations, kernel.SOURCE),
    "clang": (interpreter.suite_of_clang, kernel.SOURCE),
    "dpdk": (dpdk.suite, dpdk.SOURCE),
    "verifier": (verifier.suite, verifier.SOURCE),
    "text": (texts.suite, texts.SOURCE),
}
HEAD = "| Suite | Of | In the profile | Agree | Differ | Refused by | Left out |"
RULE = "|---|---|---|---|---|---|---|"


def run(name):
    """What a suite comes to, or why it is skipped."""
    try:
        return SUITES[name][0](), None
    except sources.Missing as missing:
        return [], str(missing)


def page_has(rows):
    """Whether the page has these rows, which it should."""
    page = sources.HERE.parents[1] / "docs/compiling.md"
    lines = page.read_text(encoding="utf-8").splitlines()
    missing = [row for row in rows if row not in lines]
    for row in missing:
        print(f"suites: docs/compiling.md has no such row: {row}")
    return not missing


def main():
    words = argparse.ArgumentParser(description="Runs suites that others wrote over the library.")
    words.add_argument("--there", action="store_true", help="fetches nothing")
    words.add_argument("--at-once", type=int, default=2, metavar="N", help="in so many processes")
    words.add_argument("names", nargs="*", metavar="NAME", help=", ".join(SUITES))
    given = words.parse_args()
    names = given.names or list(SUITES)
    if unknown := [name for name in names if name not in SUITES]:
        words.error(f"no such suite: {', '.join(unknown)}")
    if not given.there:
        sources.fetch_missing(dict.fromkeys(SUITES[name][1] for name in names))
    rows, paged, fails = [], [], False
    with ProcessPoolExecutor(given.at_once) as pool:
        for name, done in [(name, pool.submit(run, name)) for name in names]:
            tallies, why = done.result()
            if why:
                print(f"{name}: skipped: {why}", flush=True)
            for tally in tallies:
                print("\n".join(tally.lines()), flush=True)
                rows.append(tally.row())
                paged += [tally.row()] if tally.is_on_page else []
                fails |= bool(tally.differences)
    print("\n".join(["", HEAD, RULE, *rows, ""]), flush=True)
    fails |= not page_has(paged)
    sys.exit(1 if fails else 0)


if __name__ == "__main__":
    try:
        main()
    except sources.Changed as changed:
        sys.exit(f"suites: {changed}")
