#!/usr/bin/env python3
"""Runs the program under limits of its memory, from 16 MB up in steps, until it ends as it does without; and with outputs that fail.

Under each limit it must end with the answer, or with status 5 and its line on standard error; never by a signal. The plans are of
contest size. Wants the built program: sweep/limits.py [PROGRAM]."""

import collections
import os
import resource
import subprocess
import sys
import tempfile

TOP = os.path.dirname(os.path.dirname(os.path.abspath(__file__)))
PROGRAM = os.path.abspath(sys.argv[1] if len(sys.argv) > 1 else f"{TOP}/crates/hddlv/out/hddlv")
OUT_OF_MEMORY = (5, b"", b"hddlv: out of memory\n")
CANNOT_WRITE = (5, b"hddlv: cannot write\n")
MEGABYTE = 1_000_000
PLANS = [("deliveries", 100_000), ("steps", 100_000), ("flat", 100_000)]


def end_of(words, limit=None):
    def limited():
        if limit:
            resource.setrlimit(resource.RLIMIT_AS, (limit, limit))

    run = subprocess.run([PROGRAM, *words], capture_output=True, preexec_fn=limited, check=False)
    return run.returncode, run.stdout, run.stderr


def climb(words):
    """How the runs of one command ended under each limit, up to the first that ended as without."""
    right = end_of(words)
    ends, wrong = collections.Counter(), []
    limit = 16 * MEGABYTE
    while True:
        end = end_of(words, limit)
        if end == right:
            return ends, wrong, limit
        ends["out of memory" if end == OUT_OF_MEMORY else "WRONG"] += 1
        if end != OUT_OF_MEMORY:
            wrong.append((limit // MEGABYTE, end[0], end[1][:80], end[2][:80]))
        limit += max(MEGABYTE, limit // 50)


def to_full_device(words):
    """How a run ends whose output has no room."""
    with open("/dev/full", "wb") as full:
        run = subprocess.run([PROGRAM, *words], stdout=full, stderr=subprocess.PIPE, check=False)
    return run.returncode, run.stderr


def main():
    failed = False
    for kind, size in PLANS:
        with tempfile.TemporaryDirectory() as folder:
            subprocess.run([sys.executable, f"{TOP}/bench/judge_plans/make_plan.py", kind, str(size), folder], check=True)
            files = [f"{folder}/{name}" for name in ("domain.hddl", "problem.hddl", "plan.txt")]
            for words in (["judge", *files], ["judge", "--explain", *files], ["print-problem", files[1]], ["print-plan", files[2]]):
                ends, wrong, limit = climb(words)
                full = to_full_device(words)
                print(kind, *(it for it in words if it not in files), *(f"{n} {end}" for end, n in sorted(ends.items())), f"answered within {limit // MEGABYTE} MB", sep=", ", flush=True)
                for it in wrong:
                    print(f"  under {it[0]} MB: {it[1:]}")
                if full != CANNOT_WRITE:
                    print(f"  to a full device: {full}")
                failed = failed or bool(wrong) or full != CANNOT_WRITE
    sys.exit(failed)


if __name__ == "__main__":
    main()
