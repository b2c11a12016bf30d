#!/usr/bin/env python3
"""What the search for a solution takes, apart from reading, building and running the plan: apart.py PROGRAM OTHER [KIND:N ..]

Two programs with one command line judge each plan twice: as it is, and with a goal that is false, which ends a run before candidates
are counted and a solution is looked for. The difference is what lies behind the goal. Processor time, the least of seven runs."""
import os
import pathlib
import re
import subprocess
import sys
import tempfile

HERE = pathlib.Path(__file__).parent
INPUTS = ("deliveries:100000", "late:100000", "steps:100000", "chain:1000000")
NAMES = ("domain.hddl", "problem.hddl", "plan.txt")


def seconds(program, files):
    """The processor time of a run, and its first line."""
    with subprocess.Popen([program, "judge", *files], stdout=subprocess.PIPE) as child:
        said = child.stdout.read().split(b"\n")[0].decode()
        _, child.returncode, usage = os.wait4(child.pid, 0)
    return usage.ru_utime + usage.ru_stime, said


def least(program, files, awaited):
    times = []
    for _ in range(7):
        time, said = seconds(program, files)
        if not said.startswith(awaited):
            sys.exit(f"{program} says {said}, and not {awaited}")
        times.append(time)
    return min(times)


def main():
    programs, inputs = sys.argv[1:3], sys.argv[3:] or INPUTS
    for item in inputs:
        kind, size = item.split(":")
        with tempfile.TemporaryDirectory() as folder:
            subprocess.run([sys.executable, HERE / "make_plan.py", kind, size, folder], check=True)
            files = [f"{folder}/{name}" for name in NAMES]
            problem = pathlib.Path(files[1]).read_text(encoding="ascii")
            no_goal = re.sub(r"\(:goal .*\)\)\n$", ")\n", problem)
            unreached = f"{folder}/unreached.hddl"
            pathlib.Path(unreached).write_text(no_goal.rstrip()[:-1] + "\n(:goal (or)))\n", encoding="ascii")
            whole = [least(it, files, "fails 67" if kind == "late" else "solves") for it in programs]
            before = [least(it, [files[0], unreached, files[2]], "fails 65") for it in programs]
        behind = [all_of_it - part for all_of_it, part in zip(whole, before)]
        print(f"{kind} {size}: {whole[0]:.2f} s and {whole[1]:.2f} s, {whole[0] / whole[1]:.1f} times;", end=" ")
        print(f"behind the goal {behind[0]:.2f} s and {behind[1]:.2f} s, {behind[0] / behind[1]:.1f} times", flush=True)


if __name__ == "__main__":
    main()
