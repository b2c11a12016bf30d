#!/usr/bin/env python3
"""Runs the harness over plans of several kinds, and prints the best of some rounds: measure.py HARNESS FOLDER.

Where valgrind is at hand, it counts how often memory is asked for in a chain and in one twice as long."""
import os
import re
import shutil
import subprocess
import sys

from runs import numbers

ROUNDS = 3
RUNS = [("tour", 9), ("late", 7), ("late", 9), ("typed", 9), ("last", 9), ("mixed", 11), ("free", 20), ("free", 50), ("free", 100), ("equal", 100)]
RUNS += [(kind, size) for kind in ("names", "objects") for size in (10, 100, 1000, 10000)]
RUNS += [("chain", 100000), ("chain", 1000000)]
COUNTED = [("chain", 1000), ("chain", 2000)]
HERE = os.path.dirname(os.path.abspath(__file__))


def make(kind, size, texts):
    subprocess.run(["python3", os.path.join(HERE, "make_texts.py"), kind, str(size), *texts], check=True)


def requests(harness, *words):
    """How often a run asks for memory."""
    said = subprocess.run(["valgrind", harness, *words], capture_output=True, text=True, check=True).stderr
    return int(re.search(r"total heap usage: ([\d,]+) allocs", said)[1].replace(",", ""))


def main():
    harness, folder = sys.argv[1:]
    texts = [os.path.join(folder, name) for name in ("domain.hddl", "problem.hddl", "plan.txt")]
    print("   kind |   size | candidates |        time | memory")
    for kind, size in RUNS:
        make(kind, size, texts)
        rounds = [numbers(harness, *texts) for _ in range(ROUNDS)]
        took, count = min(r[0][0] for r in rounds), rounds[0][0][1]
        print(f"{kind:>7} | {size:6,d} | {count:10,d} | {took / 1000:8.2f} ms | {max(r[1] for r in rounds) / 1048576:,.0f} MiB")
    for kind, size in COUNTED if shutil.which("valgrind") else []:
        make(kind, size, texts)
        print(f"{kind:>7} | {size:6,d} | {requests(harness, *texts):,d} requests for memory")


main()
