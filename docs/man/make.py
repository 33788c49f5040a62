#!/usr/bin/env python3
"""Makes the man pages and the completions for bash of bpfjobs and bpfrun from what their own --help tells.

    docs/man/make.py BPFJOBS BPFRUN [FOLDER]     the built programs; the files go to this folder, or FOLDER

Install a page as FOLDER/man1/NAME.1, and a completion as FOLDER/bash-completion/completions/NAME.
"""

import re
import subprocess
import sys
from dataclasses import dataclass, field
from pathlib import Path

HERE = Path(__file__).resolve().parent
SECTIONS = ("Commands", "Arguments", "Options")
# values of these names are completed as files
FILES = ("FILE", "PATH")


@dataclass
class Entry:
    """A line of a section: an option, an argument or a command, and what is told of it."""

    words: str
    told: str

    @property
    def names(self):
        return re.findall(r"(?<![\w-])--?[\w-]+", self.words)

    @property
    def value(self):
        found = re.search(r"<([\w=]+)>", self.words)
        return found.group(1) if found else None


@dataclass
class Help:
    """What --help tells of a program or of one of its commands."""

    about: str
    usage: str
    sections: dict = field(default_factory=dict)
    more: str = ""

    def entries(self, section):
        return self.sections.get(section, [])


def parse_entries(lines):
    entries = []
    for line in lines:
        found = re.match(r" {2,6}(\S.*?)(?: {2,}(\S.*))?$", line)
        if found:
            entries.append(Entry(found.group(1), found.group(2) or ""))
        else:
            entries[-1].told = f"{entries[-1].told} {line.strip()}".strip()
    return entries


def parse(text):
    """The parts of a help text, as clap lays them out."""
    blocks = text.rstrip("\n").split("\n\n")
    about, usage = blocks[0], blocks[1]
    if not usage.startswith("Usage: "):
        raise ValueError(f"no usage in {usage!r}")
    told = Help(" ".join(about.split()), usage.removeprefix("Usage: "))
    rest = blocks[2:]
    while rest and rest[0].split(":\n")[0] in SECTIONS:
        name, lines = rest.pop(0).split(":\n", 1)
        told.sections[name] = parse_entries(lines.split("\n"))
    told.more = "\n\n".join(rest)
    return told


def help_of(name, program, *command):
    """What the program of this name tells. Its usage begins with the name of its file, whatever that is."""
    ran = subprocess.run([program, *command, "--help"], capture_output=True, text=True, check=True, timeout=60)
    told = parse(ran.stdout)
    told.usage = " ".join([name, *told.usage.split(" ")[1:]])
    return told


# ---- man pages


def roff(text):
    text = text.replace("\\", "\\e").replace("-", "\\-")
    text = re.sub(r"`([^`]+)`", r"\\fB\1\\fR", text)
    return "\n".join("\\&" + line if line[:1] in (".", "'") else line for line in text.split("\n"))


def verbatim(lines):
    return [".nf", ".RS", *(roff(line).replace("\\fB", "`").replace("\\fR", "`") for line in lines), ".RE", ".fi"]


def paragraphs(more):
    """What is told behind the sections, in parts: the description, the status and the example."""
    parts = {"text": [], "status": [], "example": []}
    for block in more.split("\n\n") if more else []:
        if block.startswith("Example:"):
            parts["example"] = [line.removeprefix("  ") for line in block.split("\n")[1:]]
            continue
        head, _, status = block.partition("Status: ")
        if head.strip():
            parts["text"].append(" ".join(head.split()))
        if status:
            parts["status"].append(" ".join(status.split()))
    return parts


def tagged(entries):
    made = []
    for entry in entries:
        words = re.sub(r"(?<![\w-])(--?[\w-]+)", r"`\1`", entry.words)
        made += [".TP", roff(words), roff(entry.told)]
    return made


def status_lines(status):
    """A status and what it means, each as an item."""
    made = []
    for item in re.split(r"[;,] (?=\d+ )", " ".join(status).rstrip(".")):
        number, meaning = item.split(" ", 1)
        made += [".TP", f".B {number}", roff(meaning)]
    return made


def command_section(command, told):
    parts = paragraphs(told.more)
    made = [f".SS {roff(command)}", ".P", f".B {roff(told.usage)}", ".P", roff(told.about + ".")]
    for text in parts["text"]:
        made += [".P", roff(text)]
    made += tagged(told.entries("Arguments") + [entry for entry in told.entries("Options") if "--help" not in entry.names])
    if parts["status"]:
        made += [".P", "Status: " + roff(" ".join(parts["status"]))]
    if parts["example"]:
        made += [".P", *verbatim(parts["example"])]
    return made


def man_page(name, told, commands):
    parts = paragraphs(told.more)
    made = [f".TH {name.upper()} 1", ".SH NAME", f"{name} \\- {roff(told.about)}", ".SH SYNOPSIS", f".B {roff(told.usage)}"]
    made += [".SH DESCRIPTION"]
    for text in parts["text"] or [told.about + "."]:
        made += [".P", roff(text)]
    for section in ("Arguments", "Options"):
        if told.entries(section):
            made += [f".SH {section.upper()}", *tagged(told.entries(section))]
    if commands:
        made += [".SH COMMANDS"]
        for command, of_command in commands.items():
            made += command_section(command, of_command)
    if parts["status"]:
        made += [".SH EXIT STATUS", *status_lines(parts["status"])]
    if parts["example"]:
        made += [".SH EXAMPLES", *verbatim(parts["example"])]
    other = "bpfjobs" if name == "bpfrun" else "bpfrun"
    made += [".SH SEE ALSO", f".BR {other} (1)"]
    return "\n".join(made) + "\n"


# ---- completions


def options_of(told):
    return [name for entry in told.entries("Options") for name in entry.names if name.startswith("--")]


def value_cases(told):
    """The options behind which a file stands, and those behind which another value does."""
    files, others = [], []
    for entry in told.entries("Options"):
        if entry.value:
            (files if entry.value in FILES else others).extend(entry.names)
    return files, others


def offered(kind):
    return f'mapfile -t COMPREPLY < <(compgen {kind} -- "$word")'


def offered_words(words):
    return offered(f'-W "{" ".join(words)}"')


def completion_body(told, indent):
    files, others = value_cases(told)
    takes_file = any(entry.value in FILES for entry in told.entries("Arguments"))
    lines = ["case $previous in"]
    if files:
        lines.append(f"{' | '.join(files)}) {offered('-f')}; return ;;")
    if others:
        lines.append(f"{' | '.join(others)}) return ;;")
    lines.append("esac")
    if not files and not others:
        lines = []
    if takes_file:
        lines.append(f"[[ $word == -* ]] || {{ {offered('-f')}; return; }}")
    lines.append(offered_words(options_of(told)))
    return "\n".join(indent + line for line in lines)


def completion(name, told, commands):
    made = [f"# Completes the words of {name} in bash.", f"_{name}() {{",
            '    local word=${COMP_WORDS[COMP_CWORD]} previous=${COMP_WORDS[COMP_CWORD - 1]}', "    COMPREPLY=()"]
    if not commands:
        made.append(completion_body(told, "    "))
    else:
        names = [entry.words for entry in told.entries("Commands")]
        made += ["    if ((COMP_CWORD == 1)); then",
                 "        " + offered_words(names + options_of(told)),
                 "        return", "    fi", "    case ${COMP_WORDS[1]} in"]
        for command, of_command in commands.items():
            made += [f"    {command})", completion_body(of_command, "        "), "        ;;"]
        made += [f"    help) {offered_words(commands)} ;;", "    esac"]
    made += ["}", f"complete -o filenames -F _{name} {name}"]
    return "\n".join(made) + "\n"


def files_of(name, program):
    """The man page and the completion of a program, by their names."""
    told = help_of(name, program)
    commands = {one.words: help_of(name, program, one.words) for one in told.entries("Commands") if one.words != "help"}
    return {f"{name}.1": man_page(name, told, commands), f"{name}.bash": completion(name, told, commands)}


def main(bpfjobs, bpfrun, folder=HERE):
    for name, program in (("bpfjobs", bpfjobs), ("bpfrun", bpfrun)):
        for file, text in files_of(name, program).items():
            (Path(folder) / file).write_text(text, encoding="utf-8")


if __name__ == "__main__":
    main(*sys.argv[1:])
