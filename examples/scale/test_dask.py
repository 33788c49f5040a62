#!/usr/bin/env python3
"""Kills a worker of a Dask cluster on this machine in the middle of its jobs, and shows that nothing is lost and nothing counted twice."""

import os
import signal
import threading
import time

from distributed import Client, LocalCluster

import jobs as examples
import with_dask

COUNT = 60


def main():
    given = list(examples.jobs(COUNT))
    wanted = [with_dask.run(job) for job in given]
    with LocalCluster(n_workers=3, threads_per_worker=1, processes=True, dashboard_address=None) as cluster, Client(cluster) as client:
        client.upload_file(with_dask.__file__)
        before = client.run(os.getpid)

        def kill():
            time.sleep(2.0)
            os.kill(sorted(before.values())[0], signal.SIGKILL)

        killer = threading.Thread(target=kill)
        killer.start()
        told = with_dask.answers(client, given, pause=0.2)
        killer.join()
        after = client.run(os.getpid)
    lost = set(before.values()) - set(after.values())
    assert len(lost) == 1, f"{len(lost)} workers were lost"
    assert told == wanted, "an answer differs"
    print(f"test_dask: {COUNT} jobs, a worker killed: each is answered once, as by itself, and the sample twice the same")


if __name__ == "__main__":
    main()
