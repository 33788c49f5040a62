#!/usr/bin/env python3
"""Adds up 64 bytes on a server, by a job of eight tasks: total.py PORT"""

import os
import sys

from client import Client, load

HERE = os.path.dirname(os.path.abspath(__file__))

with Client(int(sys.argv[1])) as client:
    client.grant("adder", 2000)
    job = client.submit("adder", load(os.path.join(HERE, "sum.json")))["job"]
    tasks = client.wait(job)["tasks"]
    account = client.account("adder")

# Which task gets which number depends on the threads; what they come to together doesn't.
print(len(tasks), "tasks, total", sum(task["r0"] for task in tasks))
print("spent", account["spent"], "of", account["granted"])
