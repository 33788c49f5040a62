#!/usr/bin/env python3
"""Writes the refusals of docs/refusals.toml to where they are told: the tables and the list of
docs/refusals.md, the crate explain, by which all programs tell them, the header for C, the Python
module, the Rust crate and the page.

    docs/refusals.py    the tests fail where one of these isn't what this makes of it

A table of docs/refusals.md stands between two marks, which have its name, and so do the statuses of the
header. All else of these two is written by hand.
"""

import json
import re
import textwrap
import tomllib
from pathlib import Path

TOP = Path(__file__).resolve().parent.parent
TABLE = TOP / "docs/refusals.toml"
PAGE = TOP / "docs/refusals.md"
HEADER = TOP / "include/telgovan.h"
MARKED = re.compile(r"^<!-- refusals: (\w+) -->\n(?:.*\n)*?(<!-- end of refusals -->)$", re.MULTILINE)
IN_HEADER = re.compile(r"(?<=^/\* refusals \*/\n).*?(?=^/\* end of refusals \*/$)", re.MULTILINE | re.DOTALL)
ORIGIN = "Made by docs/refusals.py."


def table():
    """What the table says."""
    return tomllib.loads(TABLE.read_text(encoding="utf-8"))


def refusals():
    """The refusals, by their numbers."""
    found = {one["number"]: one for one in table()["refusal"]}
    if list(found) != sorted(found) or len(found) != len(table()["refusal"]):
        raise ValueError("the numbers of docs/refusals.toml don't go up")
    return found


def quoted(text):
    """A text as Python, Rust and Rattle write it."""
    return json.dumps(text, ensure_ascii=False)


# ---- the page


def row(cells):
    return f"| {' | '.join(map(str, cells))} |"


def item(one):
    """A refusal in the list of what to do."""
    text = f"{one['number']} `{one['name']}`: {one['text']}. {one['help'][0].upper()}{one['help'][1:]}."
    return textwrap.fill(text, 99, initial_indent="- ", subsequent_indent="  ",
                         break_long_words=False, break_on_hyphens=False)


def lines_of(found):
    """The lines of the page's tables and of its list, by their names."""
    made = {"help": [item(one) for one in found.values()]}
    for one in table()["table"]:
        made[one["name"]] = [row(one["head"]), "|" + "---|" * len(one["head"]), *map(row, one["rows"])]
    return made


def page(text, found):
    """The page with its tables and its list made anew."""
    made = lines_of(found)

    def filled(mark):
        return "\n".join([f"<!-- refusals: {mark[1]} -->", *made.pop(mark[1]), mark[2]])

    text = MARKED.sub(filled, text)
    if made:
        raise ValueError(f"the page has no place for {', '.join(made)}")
    return text


# ---- the programs


def in_python(found):
    yield f'"""The refusals: of each what is wrong, and what to do. {ORIGIN}"""'
    yield ""
    yield "REFUSALS: dict[int, tuple[str, str]] = {"
    for one in found.values():
        yield f"    {one['number']}: ("
        yield f"        {quoted(one['text'])},"
        yield f"        {quoted(one['help'])},"
        yield "    ),"
    yield "}"


def in_rust(found):
    yield f"//! The refusals: of each what is wrong, and what to do. {ORIGIN}"
    yield ""
    yield "/// What is wrong and what to do, where there is a refusal of this number."
    yield "pub(crate) fn words(number: u8) -> Option<(&'static str, &'static str)> {"
    yield "    Some(match number {"
    for one in found.values():
        yield f"        {one['number']} => ("
        yield f"            {quoted(one['text'])},"
        yield f"            {quoted(one['help'])},"
        yield "        ),"
    yield "        _ => return None,"
    yield "    })"
    yield "}"


RATTLE = {"text": "What is wrong", "help": "What to do"}


def in_rattle(found):
    yield f"//! The refusals: of each what is wrong, and what to do. {ORIGIN}"
    yield ""
    yield "ghost use Rattle.std.specs.Prelude.{◌≡◌, option_map};"
    yield "ghost use Rattle.explain.specs.RefusalTexts.{refusal_help, refusal_text};"
    for key, words in RATTLE.items():
        yield ""
        yield f"/// {words}, where there is a refusal of this number."
        yield f"pub fn refusal_{key}(number: u8) -> Option<&'static str>"
        yield f"    ensures {{ option_map (λ text. text.now) result ≡ refusal_{key} number }}"
        yield "{"
        yield "    match number {"
        for one in found.values():
            yield from arm(one["number"], quoted(one[key]))
        yield "        _ => None,"
        yield "    }"
        yield "}"


def arm(number, text):
    """The arm of a number, as `rt fmt` lays it out."""
    line = f"        {number} => Some({text}),"
    if len(line) <= 100:
        return [line]
    return [f"        {number} => Some(", f"            {text},", "        ),"]


def in_definitions(found):
    yield f"-- The refusals: of each what is wrong, and what to do. {ORIGIN}"
    yield "use Rattle.std.specs.Prelude.{ℕ, ◌==◌, List, Option, Some, None, codes, if◌then◌else◌}"
    for key, words in RATTLE.items():
        yield ""
        yield f"-- {words[0].lower()}{words[1:]}, where there is a refusal of this number"
        yield f"abbrev pub refusal_{key} : ℕ → Option (List ℕ)"
        yield f"refusal_{key} number ="
        for one in found.values():
            yield f"    if number == {one['number']} then Some (codes {quoted(one[key])}) else ("
        yield f"    None{')' * len(found)}"


def name_in_c(one):
    """The name of a status, which is that of the refusal in capitals."""
    words = re.findall("[A-Z][a-z0-9]*", one["name"].partition("(")[0])
    return "TELGOVAN_" + one.get("in_c", "_".join(words).upper())


def in_c(found):
    yield f"/* {ORIGIN} */"
    yield "enum telgovan_status {"
    yield "    TELGOVAN_OK = 0,"
    yield ",\n".join(f"    {name_in_c(one)} = {one['number']}" for one in found.values())
    yield "};"
    yield ""
    yield "/* What a status says: a text that is always there, is never NULL, and is not to be freed. It is"
    yield " * \"done\" for 0, and \"unknown\" for a number that is no refusal's. */"
    yield "static inline const char *telgovan_status_text(uint32_t status)"
    yield "{"
    yield "    switch (status) {"
    yield '    case TELGOVAN_OK: return "done";'
    yield from (f"    case {name_in_c(one)}: return {quoted(one['text'])};" for one in found.values())
    yield '    default: return "unknown";'
    yield "    }"
    yield "}"


def header(text, found):
    """The header with its statuses made anew."""
    made_anew, times = IN_HEADER.subn(lambda _: "\n".join(in_c(found)) + "\n", text)
    if times != 1:
        raise ValueError("the header has no place for the statuses, or several")
    return made_anew


def in_the_page(found):
    yield f"// The refusals: of each what is wrong, and what to do. {ORIGIN}"
    yield "const REFUSALS = {"
    for one in found.values():
        yield f"    {one['number']}: [{quoted(one['text'])},"
        yield f"        {quoted(one['help'])}],"
    yield "};"


PROGRAMS = {
    "crates/explain/src/refusal_texts.rt": in_rattle,
    "crates/explain/specs/RefusalTexts.antt": in_definitions,
    "bindings/python/telgovan/_refusals.py": in_python,
    "bindings/rust/src/refusals.rs": in_rust,
    "web/refusals.js": in_the_page,
}


def made():
    """The text of each file, by its path."""
    found = refusals()
    texts = {path: "\n".join(lines(found)) + "\n" for path, lines in PROGRAMS.items()}
    texts["docs/refusals.md"] = page(PAGE.read_text(encoding="utf-8"), found)
    texts["include/telgovan.h"] = header(HEADER.read_text(encoding="utf-8"), found)
    return texts


if __name__ == "__main__":
    for path, text in made().items():
        (TOP / path).parent.mkdir(exist_ok=True)
        (TOP / path).write_text(text, encoding="utf-8")
