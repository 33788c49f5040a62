#!/usr/bin/env python3
"""Keeps of an LLVM module's text what the page's calls reach: reached.py MODULE.ll >OTHER.ll

The page calls nothing of a desk. What the desk's calls alone reach reads JSON by instructions of
x86-64, which no other machine has."""

import re
import sys

NAME = re.compile(r'@("[^"]*"|[-\w.$]+)')
EXPORT = re.compile(r"telgovan_(?!desk_)\w+")


def parts(lines):
    """The module's parts as (name or None, lines): functions, globals, and all else line by line."""
    body = None
    for line in lines:
        if body is not None:
            body[1].append(line)
            if line.startswith("}"):
                yield tuple(body)
                body = None
        elif line.startswith("define"):
            body = [NAME.search(line)[1], [line]]
        elif line.startswith(("@", "declare")):
            yield NAME.search(line)[1], [line]
        else:
            yield None, [line]


def main():
    with open(sys.argv[1], encoding="utf-8") as module:
        listed = list(parts(module))
    bodies = {name: lines for name, lines in listed if name}
    todo = [name for name in bodies if EXPORT.fullmatch(name)]
    reached = set(todo)
    while todo:
        for line in bodies[todo.pop()]:
            new = {name for name in NAME.findall(line) if name in bodies} - reached
            reached |= new
            todo += new
    for name, lines in listed:
        if name is None or name in reached:
            sys.stdout.writelines(lines)


if __name__ == "__main__":
    main()
