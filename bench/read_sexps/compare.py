#!/usr/bin/env python3
"""Runs two readers in turn over the same files, and prints the best of some rounds for each: compare.py ONE OTHER FILE.."""
import os
import sys

from runs import run

ROUNDS = 7


def measured(program, path):
    """The microseconds of the reading, what was read, and the peak of the memory in bytes."""
    said, peak = run(program, path)
    return int(said[-2]), said[:-2], peak


def main():
    one, other, files = sys.argv[1], sys.argv[2], sys.argv[3:]
    sizes = [os.path.getsize(path) for path in files]
    peaks = [[0] * len(files), [0] * len(files)]
    print("      text |    Rattle |      Rust | Rust's speed by Rattle's")
    for at, (path, size) in enumerate(zip(files, sizes)):
        times = [[], []]
        for _ in range(ROUNDS):
            seen = []
            for k, program in enumerate((one, other)):
                micros, words, peak = measured(program, path)
                times[k].append(micros)
                peaks[k][at] = max(peaks[k][at], peak)
                seen.append(words)
            if seen[0] != seen[1]:
                sys.exit(f"{path}: the readers differ: {seen[0]} and {seen[1]}")
        speeds = [size / 1048576 / (min(t) / 1e6) for t in times]
        print(
            f"{size / 1048576:6.1f} MiB | {speeds[0]:3.0f} MiB/s | {speeds[1]:3.0f} MiB/s |"
            f" {speeds[1] / speeds[0]:5.2f}"
        )
    # the two largest texts, so that what a program takes for itself does not count
    each = [(p[-1] - p[-2]) / (sizes[-1] - sizes[-2]) for p in peaks]
    print(f"peak of the memory for each byte of text: Rattle {each[0]:.1f}, Rust {each[1]:.1f} bytes")


main()
