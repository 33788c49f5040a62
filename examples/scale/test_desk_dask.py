#!/usr/bin/env python3
"""Kills a worker of a Dask cluster on this machine in the middle of the jobs of a desk, and shows
that every account adds up, nothing is lost and nothing is counted twice."""

import json
import os
import signal
import threading
import time

from distributed import Client, LocalCluster

import desk_dask
import jobs as examples

COUNT, TENANTS, GRANT = 60, 4, 100_000


def submit_all(bank):
    """Submits the jobs, and answers which tenant each number is of, and what is refused."""
    of, refused = {}, 0
    for place, text in enumerate(examples.jobs(COUNT)):
        name = f"t{place % TENANTS}"
        told = bank.ask(op="submit", tenant=name, **json.loads(text))
        if told["ok"]:
            of[told["job"]] = name
        else:
            refused += 1
    return of, refused


def kill_one(client, after):
    """Kills a worker a little later. What is returned tells which processes there were."""
    before = client.run(os.getpid)

    def kill():
        time.sleep(after)
        os.kill(sorted(before.values())[0], signal.SIGKILL)

    thread = threading.Thread(target=kill)
    thread.start()
    return before, thread


def main():
    bank = desk_dask.Bank()
    for n in range(TENANTS):
        bank.ask(op="grant", tenant=f"t{n}", amount=GRANT)
    of, refused = submit_all(bank)
    assert refused == len(range(8, COUNT, 9)), refused
    with LocalCluster(
        n_workers=3, threads_per_worker=1, processes=True, dashboard_address=None
    ) as cluster, Client(cluster) as client:
        before, killer = kill_one(client, 2.0)
        desk_dask.run_all(client, bank, pause=0.2)
        killer.join()
        after = client.run(os.getpid)
    lost = set(before.values()) - set(after.values())
    assert len(lost) == 1, f"{len(lost)} workers were lost"
    assert list(bank.handed_over()) == []

    # each job has its report once, and each account is the sum of its own
    spent = dict.fromkeys((f"t{n}" for n in range(TENANTS)), 0)
    for number, name in of.items():
        told = bank.ask(op="result", job=number)
        assert told["ok"] and told["spent"] + told["returned"] == 2000, told
        spent[name] += told["spent"]
        try:
            bank.desk.fail(number, 99)
            raise AssertionError("a second report was taken")
        except bank.telgovan.Error as error:
            assert error.number == 76
    for name, sum_of in spent.items():
        account = bank.ask(op="account", tenant=name)
        wanted = {"balance": GRANT - sum_of, "granted": GRANT, "ok": True, "open": 0, "spent": sum_of}
        assert account == wanted, (account, wanted)
    print(f"test_desk_dask: {len(of)} jobs of {TENANTS} tenants, a worker killed: every account adds up")


if __name__ == "__main__":
    main()
