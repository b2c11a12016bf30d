#!/usr/bin/env python3
"""Runs the harness over texts of growing size, and prints the best of some rounds: measure.py HARNESS FOLDER."""
import os
import subprocess
import sys

from runs import run

ROUNDS = 3
SIZES = [(1000, 10000, 10, 20), (10000, 100000, 10, 20), (100000, 1000000, 10, 20), (100, 100, 1000, 10000)]
HERE = os.path.dirname(os.path.abspath(__file__))


def measured(harness, domain, problem):
    """The microseconds to read and to build, and the peak of the memory in bytes."""
    said, peak = run(harness, domain, problem)
    return int(said[2]), int(said[6]), peak


def main():
    harness, folder = sys.argv[1:]
    domain, problem = os.path.join(folder, "domain.hddl"), os.path.join(folder, "problem.hddl")
    print("  objects |     atoms | subtasks |  pairs |     text |    to read |   to build | memory")
    for size in SIZES:
        subprocess.run(["python3", os.path.join(HERE, "make_texts.py"), *map(str, size), domain, problem], check=True)
        rounds = [measured(harness, domain, problem) for _ in range(ROUNDS)]
        bytes_in = os.path.getsize(domain) + os.path.getsize(problem)
        read, built, peak = min(r[0] for r in rounds), min(r[1] for r in rounds), max(r[2] for r in rounds)
        print(
            f"{size[0]:9,d} | {size[1]:9,d} | {size[2]:8,d} | {size[3]:6,d} | {bytes_in / 1048576:4.1f} MiB |"
            f" {read / 1000:7.1f} ms | {built / 1000:7.1f} ms | {peak / 1048576:.0f} MiB"
        )


main()
