#!/usr/bin/env python3
"""Runs the harness over each file, and prints the best of some rounds: measure.py HARNESS FILE.."""
import os
import sys

from runs import run

ROUNDS = 5


def measured(harness, path):
    """The literals that were read, the microseconds as expressions and as a problem, and the peak of the memory in bytes."""
    said, peak = run(harness, path)
    return int(said[2]), int(said[4]), int(said[8]), peak


def main():
    harness, files = sys.argv[1], sys.argv[2:]
    print("   literals |       text | as expressions | as a problem | times | memory")
    for path in files:
        rounds = [measured(harness, path) for _ in range(ROUNDS)]
        literals, size = rounds[0][0], os.path.getsize(path)
        read, whole, peak = min(r[1] for r in rounds), min(r[2] for r in rounds), max(r[3] for r in rounds)
        print(
            f"{literals:11,d} | {size / 1048576:6.1f} MiB | {read / 1000:11.1f} ms | {whole / 1000:9.1f} ms |"
            f" {whole / read:5.2f} | {peak / 1048576:.0f} MiB"
        )


main()
