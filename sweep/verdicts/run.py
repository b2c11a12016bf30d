#!/usr/bin/env python3
"""Runs a program's judge beside a slow judge over random small problems and plans.

Prints how many verdicts of each kind came, and each difference; the texts of a difference are
written to a folder of their own. The exit status is 1 where there was one."""

import argparse
import os
import random
import shutil
import signal
import subprocess
import sys
import tempfile
import time
from collections import Counter
from contextlib import ExitStack
from multiprocessing import Pool

from random_cases import DEFAULT_LIMIT, random_cases
from slow_judge import SlowJudge, TooManyChoices, is_certificate
from texts import domain_text, plan_text, problem_text

STATUSES = {"solves": 0, "fails": 1, "undecided": 2}
TEXTS = ("domain.hddl", "problem.hddl", "plan.txt")
SPOILS = 7
LONGEST_RUN = 20
# a worker stops here, as each further difference is likely to tell the same
MOST_DIFFERENCES = 20


def write_texts(rng, case, files):
    """Writes the texts of a case over those of the case before."""
    makers = domain_text(rng, case.world), problem_text(rng, case.world), plan_text(rng, case.plan)
    for file, text in zip(files, makers):
        file.seek(0)
        file.truncate()
        file.write(text)
        file.flush()


def options_of(rng, case):
    """The options of a run; the default limit is said, or not."""
    explain = ["--explain"] if rng.random() < 0.9 else []
    if case.limit == DEFAULT_LIMIT and rng.random() < 0.5:
        return explain
    return explain + ["--limit", str(case.limit)]


def too_late(number, frame):
    raise TimeoutError


def answer_of(program, options, files):
    """The status of a run and what it wrote, to standard output or as a complaint."""
    words = [program, "judge", *(file.name for file in files), *options]
    # an alarm and one pipe, as starting a program is most of the work here
    signal.signal(signal.SIGALRM, too_late)
    signal.alarm(LONGEST_RUN)
    try:
        run = subprocess.run(words, stdout=subprocess.PIPE, stderr=subprocess.STDOUT, check=False)
    except TimeoutError:
        return None, f"no answer within {LONGEST_RUN} seconds"
    finally:
        signal.alarm(0)
    return run.returncode, run.stdout.decode("latin-1")


def fault_of(judge, verdict, options, answer):
    """What is wrong with an answer, if anything."""
    status, text = answer
    if not text.endswith("\n"):
        return f"no line but {text!r}, status {status}"
    lines = text.split("\n")[:-1]
    if (status, lines[0]) != (STATUSES[verdict.split()[0]], verdict):
        return f"another verdict: {lines[0]}, status {status}"
    if verdict == "solves" and "--explain" in options:
        return None if is_certificate(judge, lines[1:]) else "a certificate that is not right"
    return "more than one line" if lines[1:] else None


def keep(place, files, told):
    """Copies the texts of a difference, and what was awaited and answered, to a folder."""
    os.makedirs(place, exist_ok=True)
    for file in files:
        shutil.copy(file.name, place)
    with open(os.path.join(place, "difference.txt"), "w", encoding="latin-1") as file:
        file.write(told)


def kind_of(verdict):
    return verdict.split(" line ")[0]


class Worker:
    """Judges cases in one process until the time is over."""

    def __init__(self, arguments, number):
        self.arguments = arguments
        self.number = number
        self.kinds = Counter()
        self.differences = []

    def judge(self, case, rng, files, name):
        judge = SlowJudge(case.world, case.plan)
        try:
            verdict = judge.verdict(case.limit)
        except TooManyChoices:
            self.kinds["left out, with too many choices to try"] += 1
            return
        write_texts(rng, case, files)
        options = options_of(rng, case)
        answer = answer_of(self.arguments.program, options, files)
        fault = fault_of(judge, verdict, options, answer)
        self.kinds[kind_of(verdict)] += 1
        if fault:
            told = [f"options: {' '.join(options)}", f"awaited: {verdict}", f"fault: {fault}"]
            told = "\n".join([*told, "answered:", answer[1]])
            keep(os.path.join(self.arguments.folder, name), files, told)
            self.differences.append(f"{name}: awaited {verdict}; {fault}")

    def judge_until(self, end, files):
        group = 0
        while time.monotonic() < end and len(self.differences) < MOST_DIFFERENCES:
            group += 1
            name = f"{self.arguments.seed}-{self.number}-{group}"
            rng = random.Random(name)
            for number, case in enumerate(random_cases(rng, SPOILS)):
                self.judge(case, rng, files, f"{name}-{number}")

    def run(self):
        end = time.monotonic() + self.arguments.seconds
        memory = "/dev/shm" if os.path.isdir("/dev/shm") else None
        with tempfile.TemporaryDirectory(dir=memory) as folder, ExitStack() as stack:
            # the files stay open, and in memory: making them anew would take as long as a run
            paths = [os.path.join(folder, name) for name in TEXTS]
            files = [stack.enter_context(open(path, "w", encoding="ascii")) for path in paths]
            self.judge_until(end, files)
        return self.kinds, self.differences


def run_worker(task):
    return Worker(*task).run()


def read_arguments():
    parser = argparse.ArgumentParser(description=__doc__)
    parser.add_argument("program", type=os.path.abspath)
    parser.add_argument("--seconds", type=float, default=60)
    parser.add_argument("--seed", type=int, default=1)
    parser.add_argument("--processes", type=int, default=2)
    top = os.path.dirname(os.path.dirname(os.path.dirname(os.path.abspath(__file__))))
    parser.add_argument("--folder", default=os.path.join(top, "out", "verdicts"))
    return parser.parse_args()


def main():
    arguments = read_arguments()
    tasks = [(arguments, number) for number in range(arguments.processes)]
    with Pool(arguments.processes) as pool:
        runs = pool.map(run_worker, tasks, chunksize=1)
    kinds = sum((kinds for kinds, _ in runs), Counter())
    differences = [difference for _, found in runs for difference in found]
    for kind, count in sorted(kinds.items()):
        print(f"{count:7} {kind}")
    print(f"{kinds.total():7} cases, {len(differences)} differences")
    for difference in differences:
        print(f"{arguments.folder}/{difference}")
    sys.exit(bool(differences))


if __name__ == "__main__":
    main()
