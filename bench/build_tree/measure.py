#!/usr/bin/env python3
"""Runs the harness over plans of growing size, and prints the best of some rounds: measure.py HARNESS FOLDER."""
import os
import subprocess
import sys

from runs import numbers

ROUNDS = 5
SIZES = [10_000, 100_000, 1_000_000]
HERE = os.path.dirname(os.path.abspath(__file__))


def main():
    harness, folder = sys.argv[1:]
    texts = [os.path.join(folder, name) for name in ("domain.hddl", "problem.hddl", "plan.txt")]
    print(" kind |     lines |     text |    to read |   to build |    to walk |     depth | memory")
    for kind in ("flat", "wide", "chain"):
        for size in SIZES:
            subprocess.run(["python3", os.path.join(HERE, "make_texts.py"), kind, str(size), *texts], check=True)
            rounds = [numbers(harness, *texts) for _ in range(ROUNDS)]
            read, built, walked = (min(r[0][k] for r in rounds) for k in range(3))
            depth, peak = rounds[0][0][3], max(r[1] for r in rounds)
            length = os.path.getsize(texts[2]) / 1048576
            print(f"{kind:>5} | {size:9,d} | {length:4.1f} MiB | {read / 1000:7.1f} ms | {built / 1000:7.1f} ms | {walked / 1000:7.1f} ms | {depth:9,d} | {peak / 1048576:,.0f} MiB")


main()
