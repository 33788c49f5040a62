#!/usr/bin/env python3
"""Accounts in one process, and their jobs on a Dask cluster: desk_dask.py JOBS TENANTS [SCHEDULER]

Each job object JOBS/NAME.json is submitted by one of so many tenants, whose accounts the library's
desk keeps. The desk hands each job over once, the cluster runs it, and the desk takes its report
once. A job whose worker is lost goes to another. With no address of a scheduler it starts a cluster
on this machine; else each worker needs the module telgovan with its library. It prints each
tenant's account.
"""

import json
import os
import sys
import time

from distributed import Client, LocalCluster, as_completed

HERE = os.path.dirname(os.path.abspath(__file__))
sys.path.insert(0, os.path.join(HERE, "../../bindings/python"))
RETRIES = 3


def run(text, pause=0.0):
    """What a job comes to, on a worker: its report and its buffer, or the number of a refusal."""
    import telgovan  # the worker has the library in its own process

    time.sleep(pause)  # for the tests, which kill a worker here
    try:
        report, buffer = telgovan.play_text(text)
    except telgovan.Error as error:
        return error.number
    # plain values, so that they go from process to process
    return report.spent, report.returned, report.count, [tuple(it) for it in report.tasks], buffer


class Bank:
    """A desk, and the one connection that this program has to it."""

    def __init__(self):
        import telgovan

        self.telgovan, self.desk = telgovan, telgovan.Desk()
        self.client = self.desk.connect()

    def ask(self, **request):
        payload = json.dumps(request).encode()
        self.desk.feed(self.client, len(payload).to_bytes(4, "big") + payload)
        said = b""
        while piece := self.desk.replies(self.client):
            said += piece
        return json.loads(said[4:])

    def finish(self, number, came_to):
        """Gives the desk what a job came to."""
        if isinstance(came_to, int):
            self.desk.fail(number, came_to)
            return
        *sums, tasks, buffer = came_to
        told = [self.telgovan.Task(*task) for task in tasks]
        self.desk.finish(number, self.telgovan.Report(*sums, told), buffer)

    def handed_over(self):
        """The jobs that wait, each once."""
        while job := self.desk.next_job():
            yield job


def run_all(client, bank, pause=0.0):
    """Runs the jobs that wait on the cluster, and ends each at the desk as it is done."""
    numbers = {}
    for job in bank.handed_over():
        # a key of its own: each job is one task of the cluster, also where two are the same
        key = f"job-{job.number}"
        future = client.submit(run, job.text, pause, key=key, retries=RETRIES)
        numbers[future] = job.number
    for future in as_completed(list(numbers)):
        bank.finish(numbers[future], future.result())


def main():
    folder, tenants, *address = sys.argv[1:]
    names = [f"tenant{n}" for n in range(int(tenants))]
    bank = Bank()
    for name in names:
        bank.ask(op="grant", tenant=name, amount=2**31 - 1)
    for place, file in enumerate(sorted(os.listdir(folder))):
        with open(os.path.join(folder, file), encoding="utf-8") as text:
            job = json.load(text)
        told = bank.ask(op="submit", tenant=names[place % len(names)], **job)
        if not told["ok"]:
            print(f"{file}: refused {told['code']}")
    with Client(address[0]) if address else Client(LocalCluster(dashboard_address=None)) as client:
        run_all(client, bank)
    for name in names:
        print(name, json.dumps(bank.ask(op="account", tenant=name)))


if __name__ == "__main__":
    main()
