#!/usr/bin/env python3
"""The instructions that a judgement takes, counted by valgrind: counts.py PROGRAM OTHER [KIND:N ..]

Two programs with one command line judge the same plans. A count is the same in each run and on each machine of a kind, whatever else
it does, where times differ; it says nothing of memory that is waited for. What has how many of them, by function, is in the files that
are left in the folder for temporary files: callgrind_annotate FILE."""
import os
import pathlib
import re
import subprocess
import sys
import tempfile

HERE = pathlib.Path(__file__).parent
INPUTS = ("flat:10000", "deliveries:10000", "late:10000", "chain:100000", "steps:100000")
NAMES = ("domain.hddl", "problem.hddl", "plan.txt")


def count(program, files, kept):
    """The instructions of a run, which is written down by function too."""
    words = ["valgrind", "--tool=callgrind", f"--callgrind-out-file={kept}", program, "judge", *files]
    done = subprocess.run(words, capture_output=True, text=True)
    found = re.search(r"Collected : (\d+)", done.stderr)
    if not found:
        sys.exit(done.stderr[-300:])
    return int(found.group(1))


def main():
    programs, inputs = sys.argv[1:3], sys.argv[3:] or INPUTS
    kept = os.path.join(tempfile.gettempdir(), "callgrind.{}.{}")
    for item in inputs:
        kind, size = item.split(":")
        with tempfile.TemporaryDirectory() as folder:
            subprocess.run([sys.executable, HERE / "make_plan.py", kind, size, folder], check=True)
            files = [os.path.join(folder, name) for name in NAMES]
            ours, others = (count(program, files, kept.format(which, kind)) for which, program in zip(("program", "other"), programs))
        print(f"{kind} {size}: {ours:,} and {others:,}, {ours / others:.2f} times", flush=True)


if __name__ == "__main__":
    main()
