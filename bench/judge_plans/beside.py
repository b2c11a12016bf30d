#!/usr/bin/env python3
"""Runs two programs with one command line in turn over plans of several kinds: beside.py PROGRAM OTHER [KIND:N[:COMMAND] ..]

make_plan.py says which kinds there are. COMMAND is judge, where there is none, explain (judge --explain), recheck, print-domain,
print-problem or print-plan. A line of a table for each: the least wall time of seven runs and the peak of memory of PROGRAM, and how
many times they are those of OTHER. A peak of less than 20 MB may be that of this script, from which a run begins. The status is 0 where
all answers are one."""
import hashlib
import os
import pathlib
import subprocess
import sys
import tempfile
import time

HERE = pathlib.Path(__file__).parent
ROUNDS = 7
INPUTS = (
    "flat:100000 flat:100000:print-domain deliveries:100000 late:100000 children:100000 ordered:100000 terms:100000 steps:1000000"
    " steps:1000000:explain steps:1000000:recheck steps:1000000:print-plan chain:1000000 walk:100000 sought:10000 lamps:1000"
    " types:30000 init:1000000 init:1000000:print-problem"
).split()
NAMES = ("domain.hddl", "problem.hddl", "plan.txt")
WORDS = {
    "judge": ("judge", *NAMES),
    "explain": ("judge", "--explain", *NAMES),
    "recheck": ("recheck", *NAMES, "certificate.txt"),
    "print-domain": ("print-domain", "domain.hddl"),
    "print-problem": ("print-problem", "problem.hddl"),
    "print-plan": ("print-plan", "plan.txt"),
}


def digest(file):
    """A sum over all of a file."""
    found = hashlib.sha256()
    for block in iter(lambda: file.read(1 << 16), b""):
        found.update(block)
    return found.digest()


def run(program, words, folder):
    """The wall time of a run in seconds, the peak of its memory in MB, and what it said and how it ended."""
    with tempfile.TemporaryFile() as out:
        begun = time.monotonic()
        child = subprocess.Popen([program, *words], cwd=folder, stdout=out)
        _, status, usage = os.wait4(child.pid, 0)
        spent = time.monotonic() - begun
        child.returncode = status
        out.seek(0)
        # a plan may have several certificates; and what is read here counts as the next child's memory, so little is kept
        said = out.readline() if "--explain" in words else digest(out)
    return spent, usage.ru_maxrss / 1024, (said, status)


def compare(programs, words, folder):
    """The least time and the peak of each program, and whether all answers are one."""
    times, peaks, answers = [[], []], [0, 0], set()
    for _ in range(ROUNDS):
        for which, program in enumerate(programs):
            spent, peak, answer = run(program, words, folder)
            times[which].append(spent)
            peaks[which] = max(peaks[which], peak)
            answers.add(answer)
    return [min(it) for it in times], peaks, len(answers) == 1


def main():
    programs, inputs = [os.path.abspath(it) for it in sys.argv[1:3]], sys.argv[3:] or INPUTS
    is_well = True
    print("| Kind | Size | Time | Times the other's | Memory | Times the other's |\n|---|---|---|---|---|---|")
    for item in inputs:
        kind, size, command = (item.split(":") + ["judge"])[:3]
        with tempfile.TemporaryDirectory() as folder:
            subprocess.run([sys.executable, HERE / "make_plan.py", kind, size, folder], check=True)
            if command == "recheck":
                with open(f"{folder}/certificate.txt", "wb") as out:
                    subprocess.run([programs[0], *WORDS["explain"]], cwd=folder, stdout=out, check=True)
            (ours, others), (mine, theirs), is_one = compare(programs, WORDS[command], folder)
        is_well &= is_one
        name = f"`{kind}`" if command == "judge" else f"`{kind}`, {command}"
        print(f"| {name} | {int(size):,} | {ours:.3f} s | {ours / others:.1f} | {mine:.0f} MB | {mine / theirs:.1f} |{'' if is_one else ' ANSWERS DIFFER'}", flush=True)
    sys.exit(not is_well)


main()
