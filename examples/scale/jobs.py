"""Job objects to try the recipes with: jobs.py FOLDER COUNT

Each is examples/sum.json with other bytes; every ninth has too little credit, so that it is refused.
"""

import json
import os
import random
import sys

HERE = os.path.dirname(os.path.abspath(__file__))


def jobs(count):
    """So many job objects, as bytes; the same ones each time."""
    with open(os.path.join(HERE, "../sum.json"), encoding="utf-8") as file:
        job = json.load(file)
    chance = random.Random(1)
    for number in range(count):
        job["buffer"] = chance.randbytes(64).hex()
        yield json.dumps(dict(job, credit=1) if number % 9 == 8 else job).encode()


def main():
    folder, count = sys.argv[1], int(sys.argv[2])
    os.makedirs(folder, exist_ok=True)
    for number, job in enumerate(jobs(count)):
        with open(os.path.join(folder, f"{number:04}.json"), "wb") as file:
            file.write(job)


if __name__ == "__main__":
    main()
