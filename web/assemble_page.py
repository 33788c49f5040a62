"""Puts the page together: its markup, style and scripts, the examples and the module, in one file.

    python3 web/assemble_page.py telgovan.wasm telgovan.html
    python3 web/assemble_page.py docs/try.html docs/try.html    # with the module that a page has, as it stands there
"""

import base64
import gzip
import hashlib
import json
import re
import sys
from pathlib import Path

HERE = Path(__file__).resolve().parent
EXAMPLES = HERE.parent / "examples"
VERSION = HERE.parent / "VERSION"


MODULE = re.compile(r'^const MODULE = "([A-Za-z0-9+/=]+)";$', re.MULTILINE)
INLINE = re.compile(r"<(script|style)>(.*?)</\1>", re.DOTALL)


def filled(example: dict) -> dict:
    """An example with its source and its memory, where these are files."""
    made = {name: text for name, text in example.items() if not name.endswith("file")}
    if "file" in example:
        made["source"] = (EXAMPLES / example["file"]).read_text(encoding="utf-8")
    if "memory_file" in example:
        made["memory"] = (EXAMPLES / example["memory_file"]).read_bytes().hex(" ")
    return made


def packed(path: Path) -> str:
    """The module as a page has it: that of a page, or one that was just linked."""
    if path.suffix == ".html":
        return MODULE.findall(path.read_text(encoding="utf-8"))[0]
    return base64.b64encode(gzip.compress(path.read_bytes(), 9, mtime=0)).decode()


def policy(made: str) -> str:
    """All that the page may do. Its scripts and its style are named by their sums, so that no other runs."""
    sums = {"script": [], "style": []}
    for name, text in INLINE.findall(made):
        sums[name].append(f"'sha256-{base64.b64encode(hashlib.sha256(text.encode()).digest()).decode()}'")
    # (the module is compiled from bytes, which 'wasm-unsafe-eval' allows and no more; the icon is an empty data: address)
    return (f"default-src 'none'; script-src 'wasm-unsafe-eval' {' '.join(sums['script'])}; style-src {' '.join(sums['style'])}; "
            "img-src data:; base-uri 'none'; form-action 'none'")


def page(module: str) -> str:
    def text(name: str) -> str:
        return (HERE / name).read_text(encoding="utf-8")

    def listed(examples: list) -> str:
        return json.dumps(examples).replace("</", "<\\/")

    examples = [filled(example) for example in json.loads(text("examples.json"))]
    jobs = json.loads(text("job_examples.json"))
    for job in jobs:
        job["programs"] = [filled(program) for program in job["programs"]]
    parts = {
        "/*STYLE*/": text("page.css"),
        "/*LIBRARY*/": text("telgovan.js"),
        "/*EDITOR*/": text("editor.js"),
        "/*FLOW*/": text("flow.js"),
        "/*GRAPH*/": text("graph.js"),
        "/*MENDS*/": text("mends.js"),
        "/*STEPS*/": text("steps.js"),
        "/*JOB*/": text("job.js"),
        "/*JOB_TREE*/": text("job_tree.js"),
        "/*REFUSALS*/": text("refusals.js"),
        "/*PAGE*/": text("page.js"),
        "/*JOB_PAGE*/": text("job_page.js"),
        "/*EXAMPLES*/[]": listed(examples),
        "/*JOB_EXAMPLES*/[]": listed(jobs),
        "/*VERSION*/": VERSION.read_text(encoding="utf-8").strip(),
        "/*MODULE*/": module,
    }
    made = text("page.html")
    for place, part in parts.items():
        if made.count(place) != 1:
            raise ValueError(f"page.html has {made.count(place)} places {place}")
        made = made.replace(place, part)
    return made.replace("/*POLICY*/", policy(made), 1)


def main(source: str, html: str) -> None:
    module = packed(Path(source))
    made = page(module)
    Path(html).write_text(made, encoding="utf-8")
    size = len(gzip.decompress(base64.b64decode(module)))
    print(f"the module has {size} bytes, the page {len(made.encode())}")


if __name__ == "__main__":
    main(*sys.argv[1:])
