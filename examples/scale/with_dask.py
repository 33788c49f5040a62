#!/usr/bin/env python3
"""Maps a folder of job objects over a Dask cluster: with_dask.py JOBS ANSWERS [SCHEDULER]

JOBS/NAME.json becomes ANSWERS/NAME.json. With no address of a scheduler it starts a cluster on this machine. A job whose
worker is lost goes to another; a sample is run twice, and the two answers have to be the same bytes.
"""

import hashlib
import os
import subprocess
import sys
import time

from distributed import Client, LocalCluster

SAMPLE = 8   # each so many-th job is run twice
RETRIES = 3
AGAIN = (b'"code":81', b'"code":99')   # what says something of the machine and not of the job


def run(job, pause=0.0):
    """The answer of a job object, as bytes: a function of its input alone."""
    time.sleep(pause)   # for the tests, which kill a worker here
    done = subprocess.run(["bpfjobs", "run", "--workers", "1"], input=job, stdout=subprocess.PIPE, check=False)
    if done.returncode not in (0, 1) or any(code in done.stdout for code in AGAIN):
        raise RuntimeError("the machine couldn't run the job")
    return done.stdout


def answers(client, jobs, pause=0.0):
    """The answers of the jobs, in their order. Equal jobs are one task of the cluster, by their key."""
    keys = [f"job-{hashlib.sha256(job).hexdigest()}" for job in jobs]
    futures = [client.submit(run, job, pause, key=key, retries=RETRIES) for job, key in zip(jobs, keys)]
    again = [client.submit(run, job, key=f"{key}-again", retries=RETRIES) for job, key in list(zip(jobs, keys))[::SAMPLE]]
    told = client.gather(futures)
    if client.gather(again) != told[::SAMPLE]:
        raise RuntimeError("a job has two answers")
    return told


def main():
    source, target, *address = sys.argv[1:]
    names = sorted(name for name in os.listdir(source) if name.endswith(".json"))
    jobs = []
    for name in names:
        with open(os.path.join(source, name), "rb") as file:
            jobs.append(file.read())
    os.makedirs(target, exist_ok=True)
    with Client(address[0]) if address else Client(LocalCluster(dashboard_address=None)) as client:
        for name, told in zip(names, answers(client, jobs)):
            with open(os.path.join(target, name), "wb") as file:
                file.write(told)
    print(len(names), "jobs")


if __name__ == "__main__":
    main()
