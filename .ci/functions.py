#!/usr/bin/env python3
"""Which functions of this repository a run and a submit pass, by valgrind's callgrind.

    .ci/functions.py FOLDER [--list]

FOLDER has bpfrun and bpfjobs with the names of their functions: that which `./try kept bpfjobs bpfrun` prints. A run is that of
examples/byte_at.bpf as hexadecimal, by bpfrun. A submit is that of a job of two instructions, at a server that has started and granted: what
its connection's thread passes from the frame to the reply, and, told apart, what a worker passes for the job. A line for each crate, with
how many different functions; --list names them. What the compiler has put into its caller isn't counted, what it made of its own (a drop, a
closure's call) is.
"""

import collections
import json
import os
import re
import socket
import struct
import subprocess
import sys
import tempfile
import time

TOP = os.path.dirname(os.path.dirname(os.path.abspath(__file__)))
CRATES = sorted(os.listdir(f"{TOP}/crates"))
NAME = re.compile(r"<?((?:%s)::.*)" % "|".join(CRATES))
CODE = "b700000007000000" "9500000000000000"


def passed(path):
    """The names of this repository's functions that ran instructions of their own, by what callgrind wrote.

    callgrind writes a name where its number first stands, which may be as a callee (`cfn`); below `calls=` stands the cost of a callee.
    """
    names, ran, number, is_callee = {}, set(), None, False
    with open(path, encoding="utf-8", errors="replace") as file:
        for line in file:
            if match := re.match(r"(c?)fn=\((\d+)\)(?: (.*))?$", line):
                called, found, name = match.groups()
                if name:
                    names[found] = name
                if not called:
                    number = found
            elif line.startswith("calls="):
                is_callee = True
            elif match := re.match(r"[+*\-\d]\S* (\d+)", line):
                if not is_callee and match[1] != "0":
                    ran.add(number)
                is_callee = False
    found = (NAME.match(names.get(number, "")) for number in ran)
    return {re.sub(r"::<.*", "", match[1]).strip() for match in found if match}


def valgrind(out, words, *options):
    return ["valgrind", "--tool=callgrind", f"--callgrind-out-file={out}", *options, *words]


def of_run(folder, room):
    with open(f"{TOP}/examples/byte_at.bpf", "rb") as source:
        code = subprocess.run([f"{folder}/bpfjobs", "assemble"], stdin=source, capture_output=True, check=True).stdout
    with open(f"{room}/program.hex", "wb") as file:
        file.write(code)
    words = [f"{folder}/bpfrun", f"{room}/program.hex", "--need", "16", "--arg", "3"]
    subprocess.run(valgrind(f"{room}/run", words), capture_output=True, check=True)
    return passed(f"{room}/run")


def ask(stream, request):
    text = json.dumps(request).encode()
    stream.sendall(struct.pack(">I", len(text)) + text)
    (length,) = struct.unpack(">I", stream.recv(4, socket.MSG_WAITALL))
    return json.loads(stream.recv(length, socket.MSG_WAITALL))


def of_submit(folder, room):
    path = f"{room}/socket"
    words = valgrind(f"{room}/submit", [f"{folder}/bpfjobs", "serve", "--socket", path], "--separate-threads=yes")
    with subprocess.Popen(words, stdout=subprocess.DEVNULL, stderr=subprocess.DEVNULL) as server:
        while not os.path.exists(path):
            time.sleep(0.1)
        with socket.socket(socket.AF_UNIX) as stream:
            stream.connect(path)
            ask(stream, {"op": "grant", "tenant": "t", "amount": 100})
            subprocess.run(["callgrind_control", "-z", str(server.pid)], capture_output=True, check=True)
            programs = [{"need": 0, "code": CODE}]
            ask(stream, {"op": "submit", "tenant": "t", "programs": programs, "credit": 100, "buffer": ""})
            time.sleep(2)
            subprocess.run(["callgrind_control", "-d", str(server.pid)], capture_output=True, check=True)
            time.sleep(1)
        server.wait(60)
    threads = [passed(f"{room}/{name}") for name in sorted(os.listdir(room)) if name.startswith("submit.1-")]
    return {"submit" if any(name.startswith("sessions::") for name in names) else "its job": names for names in threads if names}


def tell(what, names, lists):
    print(f"{what}: {len(names)}")
    for crate, count in collections.Counter(name.split("::")[0] for name in names).most_common():
        print(f"    {count:3} {crate}")
    if lists:
        print("\n".join(f"        {name}" for name in sorted(names)))


if __name__ == "__main__":
    if len(sys.argv) < 2:
        sys.exit(__doc__)
    with tempfile.TemporaryDirectory() as made:
        tell("run", of_run(sys.argv[1], made), "--list" in sys.argv)
        for what, names in sorted(of_submit(sys.argv[1], made).items(), reverse=True):
            tell(what, names, "--list" in sys.argv)
