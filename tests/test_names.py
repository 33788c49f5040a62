"""A name of a type or of a public definition stands in one crate.

A type is a struct, an enum, a trait or an alias of `src/`, also a private one; a public definition
is a `pub` name at the left margin of a file of `specs/`. A name may be both in one crate: a type and
what contracts see of it.
"""

import collections
import os
import re
import unittest

TOP = os.path.dirname(os.path.dirname(os.path.abspath(__file__)))

TYPE = re.compile(r"^\s*(?:pub(?:\([a-z]+\))? )?(?:unsafe )?(?:struct|enum|trait|type|union) (\w+)")
# `type Lane = lanes::Lane<Ticket>;`: the same type under the same name
ALIAS = re.compile(r"^\s*pub(?:\([a-z]+\))? type (\w+)(?:<[^=]*>)? = (?:\w+::)+(\w+)\b")
# `    type NextLog = FileLog;` in an `impl`: what its trait names so
CHOSEN = re.compile(r"^\s+type \w+(?:<[^=]*>)? = ")
# at the left margin, or in a `module` block, where a `pub` alone is a field
DEFINITION = re.compile(r"^(?:(?:\w+ )*?pub |\s+(?:abbrev|unfoldable) pub |\s+pub (?=data |record ))"
                        r"(?:(?:data|record) )?([^\s:(){}]+)")

# Crates that go once the server of `server_handler` runs: a name may stand in one of them and in the
# crate that takes it over.
GOING = {"desk_journal", "desk_recorder", "durable_replies", "job_pools", "job_server", "keyed_desk",
         "shared_desk", "shared_journal", "task_register", "tenant_desks", "tenant_recorder"}

SAME = "one meaning, of the state or the fault that each crate has"
HOSTS = "two meanings, and hosts name both"
GOES = "one meaning, and the one beside that of endpoints goes once the server stands on these"

# Names that may stand in several crates: exactly these, and why.
EXCEPTIONS = {
    "CameBy": ("endpoints job_server", GOES),
    "code_of": ("flow_graph insn_codec", SAME),
    "code_of_fault": ("flow_graph insn_codec", SAME),
    "cost_at": ("machine_model verifier", SAME),
    "end_bits": ("insn_codec machine_model", SAME),
    "Endpoint": ("bpfjobs_cli endpoints", "where a command says that it listens, and where a server does"),
    "Entrance": ("endpoints job_server", GOES),
    "fault_at": ("flow_graph insn_codec", SAME),
    "IsAlive": ("credit_book machine_model", SAME),
    "IsComplete": ("credit_book machine_model", SAME),
    "ListenFault": ("endpoints job_server", GOES),
    "Listener": ("endpoints job_server", GOES),
    "Place": ("endpoints reference", "where a server listens, and where bytes lie"),
    "program_of": ("reference verifier", SAME),
    "slot_of_fault": ("flow_graph insn_codec", SAME),
    "Shares": ("endpoints job_server", GOES),
    "Source": ("insn_codec streams", HOSTS),
    "spent_in": ("credit_book task_trees", SAME),
    "StopFlag": ("endpoints server_log", GOES),
    "TimedReader": ("endpoints job_server", GOES),
    "TimedWriter": ("endpoints job_server", GOES),
    "state_of": ("interpreter reference verifier", SAME),
}


def crates():
    return sorted(os.listdir(os.path.join(TOP, "crates")))


def lines_of(crate, folder, ending):
    """Each line of the crate's files in this folder, with where it stands."""
    for at, _, names in sorted(os.walk(os.path.join(TOP, "crates", crate, folder))):
        for name in sorted(names):
            if name.endswith(ending):
                path = os.path.join(at, name)
                with open(path, encoding="utf-8") as file:
                    for number, line in enumerate(file, 1):
                        yield f"{os.path.relpath(path, TOP)}:{number}", line


def names_of(crate):
    """The names of the crate's types and public definitions, each with where it stands."""
    for place, line in lines_of(crate, "src", ".rt"):
        alias = ALIAS.match(line)
        found = TYPE.match(line)
        if found and not CHOSEN.match(line) and not (alias and alias[1] == alias[2]):
            yield found[1], place
    for place, line in lines_of(crate, "specs", ".antt"):
        found = DEFINITION.match(line)
        if found and not line.startswith("pub mod "):
            yield found[1], place


def all_names():
    """Each name with its crates, and the places where it stands in each."""
    found = collections.defaultdict(lambda: collections.defaultdict(list))
    for crate in crates():
        for name, place in names_of(crate):
            found[name][crate].append(place)
    return found


class Names(unittest.TestCase):
    def test_each_stands_in_one_crate(self):
        for name, places in sorted(all_names().items()):
            allowed, _ = EXCEPTIONS.get(name, ("", ""))
            staying = set(places) - GOING
            if len(places) > 1 and len(staying) != 1 and not set(places) <= set(allowed.split()):
                with self.subTest(name=name):
                    where = [place for crate in places for place in places[crate]]
                    self.fail(f"{name} stands in {len(places)} crates: {', '.join(where)}")

    def test_the_crates_that_go_are_there(self):
        self.assertEqual(GOING - set(crates()), set())

    def test_the_exceptions_are_needed(self):
        """The name stands in each crate of an exception, and the exception has a reason."""
        names = all_names()
        for name, (allowed, reason) in EXCEPTIONS.items():
            with self.subTest(name=name):
                self.assertGreater(len(allowed.split()), 1)
                self.assertEqual(sorted(names[name]), sorted(allowed.split()))
                self.assertTrue(reason)


if __name__ == "__main__":
    unittest.main()
