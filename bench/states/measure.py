#!/usr/bin/env python3
"""Runs the harness over texts of growing size, and prints the best of some rounds: measure.py HARNESS FOLDER.

With gcc it also says how many bytes each trace took at its peak, beside the world and the actions (heap.c)."""
import os
import subprocess
import sys

from runs import run

ROUNDS = 3
TIMES = 20  # how often the harness asks for the truth of a goal
GOALS = [("formula", size, 10000) for size in (1000, 10000, 100000)] + [("exists", size, 10000) for size in (1000, 3000, 9000)]
TRACES = [(1000, 1000), (10000, 10000), (20000, 10000), (100000, 10000), (10000, 1000000), (100000, 1000000), (200000, 1000000)]
HERE = os.path.dirname(os.path.abspath(__file__))


def texts(folder, kind, size, atoms):
    domain, problem = os.path.join(folder, "domain.hddl"), os.path.join(folder, "problem.hddl")
    subprocess.run(["python3", os.path.join(HERE, "make_texts.py"), kind, str(size), str(atoms), domain, problem], check=True)
    return domain, problem


def measured(harness, *words):
    """The times that the harness prints, in microseconds, those of a kind of state behind its name."""
    said, _ = run(harness, *words)
    times = {}
    for word, unit in zip(said, said[1:]):
        if word in ("sorted", "bits"):
            kind = word
        if unit == "micros":
            times.setdefault(kind, []).append(int(word))
    return times


def best(harness, *words):
    rounds = [measured(harness, *words) for _ in range(ROUNDS)]
    return {kind: [min(times) for times in zip(*(r[kind] for r in rounds))] for kind in rounds[0]}


def taken(harness, folder, *words):
    """For each kind of state, the bytes that its trace took at its peak beside what was there before."""
    library, path = os.path.join(folder, "heap.so"), os.path.join(folder, "heap")
    subprocess.run(["gcc", "-O2", "-shared", "-fPIC", "-o", library, os.path.join(HERE, "heap.c")], check=True)
    if os.path.exists(path):
        os.remove(path)
    said = subprocess.run([harness, *words], env={**os.environ, "LD_PRELOAD": library, "HEAP": path}, check=True, capture_output=True, text=True).stdout
    kinds = [line.split()[0] for line in said.splitlines()]
    marks = [[int(word) for word in line.split()] for line in open(path)]
    return {kind: most - marks[n][0] for n, (kind, (_, most)) in enumerate(zip(kinds[1:], marks[1:]))}


def main():
    harness, folder = sys.argv[1:]
    print("    goal |    size |   atoms |   kind |   the state |       truth")
    for kind, size, atoms in GOALS:
        for state, (made, asked) in best(harness, *texts(folder, kind, size, atoms), "0").items():
            print(f"{kind:>8} | {size:7,d} | {atoms:7,d} | {state:>6} | {made / 1000:8.2f} ms | {asked / 1000 / TIMES:8.3f} ms")
    print(" actions |     atoms |   kind |   the trace |       bytes")
    for size, atoms in TRACES:
        words = (*texts(folder, "trace", size, atoms), str(size))
        peaks = taken(harness, folder, *words)
        for state, (ran,) in best(harness, *words).items():
            print(f"{size:8,d} | {atoms:9,d} | {state:>6} | {ran / 1000:8.1f} ms | {peaks[state]:11,d}")


main()
